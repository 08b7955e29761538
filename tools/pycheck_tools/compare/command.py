"""Compares what the programs answer with worked examples, and with what Python and mypy say.

    tools/compare TOOL [WORD..]

TOOL is one of these; `tools/compare TOOL --help` says how each is called:

    rows    worked examples with the answers that stand beside them
    texts   what pycheck and Python's own parser take
    trees   the tokens and trees of texts with those of Python's own `tokenize` and `ast`
    python  runs of an interpreter of Python with those of pyrun
    mypy    what docs/BESIDE_MYPY.md says of pycheck and mypy with what both say
    types   the types of expressions by pycheck with those that mypy reveals

The exit status is that of the tool, and 3 after a mistake in the words.
"""
from __future__ import annotations

from ..words import run_tool

TOOLS = ("rows", "texts", "trees", "python", "mypy", "types")


def main() -> int:
    """Runs the tool that the words name, and returns its exit status."""
    return run_tool("compare", __doc__, TOOLS)
