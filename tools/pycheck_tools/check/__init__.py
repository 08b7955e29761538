"""Checks of the contents of the repository."""
