"""Compares excerpts and commands on pages with the files and with the output of the commands.

    tools/check commands [--program PYCHECK] [--page PAGE]

The pages are docs/TUTORIAL.md and docs/CORE.md if none is named. A page has blocks of these kinds; FILE is a path from
the top of the repository. Other blocks are ignored.

    py FILE      lines that are in FILE, one after another
    diff OLD NEW hunks, with an empty line between two: the lines that stay and those that begin with - are in OLD one
                 after another, and the lines that stay and those that begin with + are in NEW
    console      lines `$ COMMAND`, each followed by its output, a refusal included. A COMMAND is `./pycheck`,
                 `tools/check_all` or `python3`, with words after it; it runs at the top of the repository, and the
                 first two with the program PYCHECK

Prints each fault, with the page and the line, and the actual output of a command. Last it says how many blocks were
compared, and how many are wrong. The exit status is 1 if one is wrong, or if a page has none.
"""
from __future__ import annotations

import argparse
import os
import subprocess
import sys
from typing import Iterator, List, NamedTuple

from .. import ROOT

PAGES = [ROOT / "docs/TUTORIAL.md", ROOT / "docs/CORE.md"]
SECONDS = 120


class Block(NamedTuple):
    """A block of a page: the number of its first line, the words of its kind, and its lines."""

    line: int
    kind: List[str]
    lines: List[str]


def blocks_of(text: str) -> Iterator[Block]:
    """Yields the blocks of a page that can be compared."""
    lines = enumerate(text.split("\n"), 1)
    for at, line in lines:
        if line.startswith("```"):
            inner = []
            for _, below in lines:
                if below.startswith("```"):
                    break
                inner.append(below)
            kind = line[3:].split()
            if kind and (kind[0], len(kind)) in (("py", 2), ("diff", 3), ("console", 1)):
                yield Block(at, kind, inner)


def stand_in(lines: List[str], file: str) -> bool:
    """Whether lines are in a file, one after another."""
    path = ROOT / file
    there = path.read_text(encoding="utf-8").split("\n") if path.is_file() else []
    return bool(lines) and any(there[at:at + len(lines)] == lines for at in range(len(there)))


def faults_of_diff(block: Block) -> Iterator[str]:
    """Yields the faults of the hunks of a block."""
    hunk: List[str] = []
    for line in [*block.lines, ""]:
        if line:
            hunk.append(line)
            continue
        for file, sign in zip(block.kind[1:], "-+"):
            if not stand_in([kept[1:] for kept in hunk if kept[0] in (" ", sign)], file):
                yield f"these lines do not stand in {file}:\n    " + "\n    ".join(hunk)
        hunk = []


def printed_by(program: str, words: List[str]) -> List[str]:
    """Returns the lines that a command prints."""
    called = {"./pycheck": [program], "tools/check_all": [sys.executable, "-B", "tools/check_all"],
              "python3": [sys.executable, "-B"]}[words[0]]
    done = subprocess.run([*called, *words[1:]], cwd=ROOT, env={**os.environ, "PYCHECK": program}, text=True,
                          stdin=subprocess.DEVNULL, stdout=subprocess.PIPE, stderr=subprocess.STDOUT, timeout=SECONDS)
    return done.stdout.rstrip("\n").split("\n")


def faults_of_console(program: str, block: Block) -> Iterator[str]:
    """Yields the faults of the commands of a block."""
    at = 0
    while at < len(block.lines):
        after = next((later for later in range(at + 1, len(block.lines)) if block.lines[later].startswith("$ ")),
                     len(block.lines))
        words = block.lines[at].split()
        if words[:1] != ["$"] or words[1:2] not in (["./pycheck"], ["tools/check_all"], ["python3"]):
            yield f"no command that can be run: {block.lines[at]}"
        else:
            printed = printed_by(program, words[1:])
            if printed != block.lines[at + 1:after]:
                yield f"{' '.join(words[1:])} prints:\n    " + "\n    ".join(printed)
        at = after


def faults_of(program: str, block: Block) -> Iterator[str]:
    """Yields the faults of a block."""
    if not block.lines:
        yield "an empty block"
    elif block.kind[0] == "console":
        yield from faults_of_console(program, block)
    elif block.kind[0] == "diff":
        yield from faults_of_diff(block)
    elif not stand_in(block.lines, block.kind[1]):
        yield f"these lines do not stand in {block.kind[1]}"


def run(asked: argparse.Namespace) -> int:
    """Compares the blocks of the pages, and returns the exit status."""
    count = wrong = 0
    for page in asked.page or PAGES:
        blocks = list(blocks_of(page.read_text(encoding="utf-8")))
        found = [(block, fault) for block in blocks for fault in faults_of(os.path.abspath(asked.program), block)]
        for block, fault in found:
            print(f"{page}, line {block.line}: {fault}")
        if not blocks:
            print(f"{page}: there is no block to compare")
        count, wrong = count + len(blocks), wrong + len({block.line for block, _ in found}) + (not blocks)
    print(f"{count} blocks, {wrong} wrong")
    return 1 if wrong else 0
