"""Checks what stands in the repository against what it says of itself.

    tools/check [--program PYCHECK] [--page PAGE] [--log LOG] [--calls] [--write] [NAME..]

NAME is one of these, and all are run where none is named:

    definitions   each definition that the documents name is where they say
    edits         each wrong body can be applied; with --log LOG, what `rt ci` printed, that it tried each of its own
    tested        the list of docs/TESTED.md, which test calls which public call, and that of docs/PROVED.md, which functions have no
                  `ensures`; --calls prints all calls instead
    pages         links, the size of README.md, and the changes that CONTRIBUTING.md shows
    names         no two public types, functions or definitions of the crates have one name and two meanings
    twice         no function and no definition of six lines stands twice
    architecture  the picture and the crates of docs/ARCHITECTURE.md; with --write they are written
    help          the texts of crates/pc_code_texts; of each --page, or of docs/CODES.md
    data          the texts that tools/check_all and the page of web/ show; with --write they are written
    generated     two tables of modules made by rule; with --write they are written
    codes         the modules of pages with the reports below them; of each --page, or of four pages
    commands      what pages show of files and commands; of each --page, or of two pages

`codes` and `commands` ask the program PYCHECK, ./pycheck where none is named. The module of the same name in
tools/pycheck_tools/check says more of each. The exit status is 1 where something is wrong, and 3 after a mistake in the words.
"""
from __future__ import annotations

import argparse
import importlib
from pathlib import Path
from typing import List

from .. import ROOT
from ..words import Words

CHECKS = ("definitions", "edits", "tested", "pages", "names", "twice", "architecture", "help", "data", "generated", "codes", "commands")
# The checks that take an option
TAKING = {"page": {"help", "codes", "commands"}, "log": {"edits"}, "calls": {"tested"}, "write": {"architecture", "data", "generated"}}


def asked_of(words: List[str]) -> argparse.Namespace:
    """Returns the parsed words. An option that no named check takes is a mistake; so is a page, or `--write`, if no
    check is named."""
    parser = Words("tools/check", __doc__)
    parser.add_argument("--program", default=str(ROOT / "pycheck"))
    parser.add_argument("--page", action="append", default=[], type=Path)
    parser.add_argument("--log")
    parser.add_argument("--calls", action="store_true")
    parser.add_argument("--write", action="store_true")
    parser.add_argument("names", nargs="*")
    asked = parser.parse_intermixed_args(words)
    strange = [name for name in asked.names if name not in CHECKS]
    if strange:
        parser.error(f"there is no check {strange[0]}")
    for option, takers in TAKING.items():
        named = set(asked.names) or (set(CHECKS) if option == "log" else set())
        if getattr(asked, option) and not (named & takers if option == "log" else named and named <= takers):
            parser.error(f"--{option} is for {', '.join(sorted(takers))}")
    return asked


def main(words: List[str]) -> int:
    """Runs the checks, and returns the exit status."""
    asked = asked_of(words)
    named = asked.names or CHECKS
    statuses = []
    for name in named:
        if len(named) > 1:
            print(f"{name}:", flush=True)
        statuses.append(int(importlib.import_module(f"{__package__}.{name}").run(asked)))
    return max(statuses)
