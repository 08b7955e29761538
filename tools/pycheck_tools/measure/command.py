"""Measures what the programs and their proofs take.

    tools/measure TOOL [WORD..]

TOOL is one of these; `tools/measure TOOL --help` says how each is called:

    crates  the lines of each crate, and the seconds of its proof, its tests and its wrong bodies
    speed   the seconds and the memory of a check beside CPython's own compile, or its instructions
    shapes  the seconds or the instructions of checks of modules of one shape, by their length
    advice  how many refusals of real code get advice for their case
    coverage  which functions and branches of the crates the tests reach

The exit status is that of the tool, and 3 after a mistake in the words.
"""
from __future__ import annotations

from ..words import run_tool

TOOLS = ("crates", "speed", "shapes", "advice", "coverage")


def main() -> int:
    """Runs the tool that the words name, and returns its exit status."""
    return run_tool("measure", __doc__, TOOLS)
