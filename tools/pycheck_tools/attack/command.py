"""Looks for modules, texts and runs that the programs answer otherwise than they may.

    tools/attack TOOL [WORD..]

TOOL is one of these; `tools/attack TOOL --help` says how each is called:

    fuzz         makes modules at random, breaks some, and looks for what may never be
    hostile      crafted texts, as long as a text may be, and at and past each limit
    truncate     modules that are cut at every length, compared with an independent reading
    fail_memory  lets each request for memory fail in turn
    search_runs  looks for a run that fails beside errors, and passes through no line of the report
    definitions  changes definitions one at a time, and tries which of the changes the proofs refuse

The exit status is that of the tool, and 3 after a mistake in the words.
"""
from __future__ import annotations

from ..words import run_tool

TOOLS = ("fuzz", "hostile", "truncate", "fail_memory", "search_runs", "definitions")


def main() -> int:
    """Runs the tool that the words name, and returns its exit status."""
    return run_tool("attack", __doc__, TOOLS)
