"""Checks many files with the program pycheck, and shows the reports as people and their systems read them.

The program gives every answer; this package only asks it about each file and shows the answers. `main` is the command.
"""
# Nothing is imported here, not even a feature of the language. With `python -m`, Python looks for modules first in the
# folder in which it runs, which may be the one to check, until `__main__` takes that folder off the path.

__all__ = ["main"]


def main(given: "list[str] | tuple[str, ...] | None" = None, name: str = "pycheck-all") -> int:
    """Runs the command with the given words, or with those of the process, and returns the exit status."""
    from .command import run

    return run(given, name)
