"""The rows of a page that set what mypy says of an error beside what pycheck says with `--details`.

The first cell of such a row is the line of an error in the module above it, the second mypy's message, without its code, or
`nothing`, the third a sentence of pycheck for that line, or `nothing`. Both stand in the answers below that module. Each name and
each type of mypy's message has to be in a sentence of pycheck for that line, and each line with an error has a row."""
from __future__ import annotations

import re
from typing import Dict, Iterator, List, NamedTuple, Sequence, Set, Tuple

NOTHING = "nothing"
DETAILS = "--details"
BY_MYPY = re.compile(r"module\.py:(\d+): error: (.*?)(?:  \[[a-z-]+\])?")
BY_PYCHECK = re.compile(r"(\d+):\d+ ([EA])\d+ \S+: (.*)")
QUOTED = re.compile(r'"([^"]*)"')
# What mypy adds to a message is a guess, not what is wrong
GUESS = re.compile(r"; (?:maybe|did you mean) .*")
WORD = re.compile(r"\w+")
# The words that mypy has for types, as pycheck writes them
WRITTEN: Dict[str, List[str]] = {
    "Optional": ["None"],
    "Union": [],
    "List": ["list"],
    "Dict": ["dict"],
    "Tuple": ["tuple"],
    "builtins": [],
}


class Row(NamedTuple):
    """A row: its line on the page, the line of the error, and the two messages."""

    at: int
    line: int
    mypy: str
    pycheck: str


class Said(NamedTuple):
    """The messages of both programs for each line of a module, and the lines with errors."""

    mypy: Dict[int, List[str]]
    pycheck: Dict[int, List[str]]
    errors: Set[int]


def rows_of(rows: Sequence[Tuple[int, List[str]]]) -> List[Row]:
    """Returns the rows whose first cell is a number."""
    found = [(at, [cell.strip("`") for cell in cells]) for at, cells in rows]
    return [Row(at, int(cells[0]), *cells[1:3]) for at, cells in found if len(cells) == 3 and cells[0].isdigit()]


def said_of(mypy: Sequence[str], pycheck: Sequence[str]) -> Said:
    """Returns what both programs say of a module."""
    said = Said({}, {}, set())
    for found in filter(None, map(BY_MYPY.fullmatch, mypy)):
        said.mypy.setdefault(int(found[1]), []).append(found[2])
        said.errors.add(int(found[1]))
    for found in filter(None, map(BY_PYCHECK.fullmatch, pycheck)):
        said.pycheck.setdefault(int(found[1]), []).append(found[3])
        said.errors.update([int(found[1])] if found[2] == "E" else [])
    return said


def names_in(message: str) -> List[str]:
    """Returns the names and types of a message of mypy, as pycheck writes them."""
    words = [word for part in QUOTED.findall(GUESS.sub("", message)) for word in WORD.findall(part)]
    return [written for word in words for written in WRITTEN.get(word, [word])]


def faults_of(rows: Sequence[Row], said: Said, at: int) -> Iterator[Tuple[int, str]]:
    """Yields the faults of the rows of a module that begins at a line of the page."""
    for line in sorted(said.errors - {row.line for row in rows}):
        yield at, f"line {line} has an error and no row"
    for row in rows:
        theirs, ours = said.mypy.get(row.line, [NOTHING]), said.pycheck.get(row.line, [NOTHING])
        if row.mypy not in theirs:
            yield row.at, f"line {row.line}: mypy says {'; '.join(theirs)}"
        if row.pycheck not in ours:
            yield row.at, f"line {row.line}: pycheck says {'; '.join(ours)}"
        told = set(WORD.findall(" ".join(ours)))
        for name in dict.fromkeys(it for message in theirs for it in names_in(message) if it not in told):
            yield row.at, f"line {row.line}: mypy names {name}, and pycheck does not"
