"""Checks that no function and no definition is duplicated.

    tools/check twice

Two are the same if they have six lines or more, and these are the same but for blanks and comments: the bodies of functions of
crates/NAME/src, of tools/ and of tests/, and the definitions of crates/NAME/specs. Their own names may differ in them, and in functions of
crates those of the functions of their cycle of calls. Lines of brackets alone do not count. Duplicates under EXPLAINED are allowed, as long
as docs/DECISIONS.md has the words given there.

Prints all duplicates that are not explained, and each explanation that is not needed or not on the page. Last it says how many
functions and definitions were compared. The exit status is 1 if something is wrong, or if there was nothing to compare.
"""
from __future__ import annotations

import argparse
import ast
import re
from collections import defaultdict
from pathlib import Path
from typing import AbstractSet, Dict, FrozenSet, Iterable, Iterator, List, Mapping, Set, Tuple

from .. import ROOT
from ..antt_files import DEFINED
from ..rt_files import without_text, written_in

PAGE = "docs/DECISIONS.md"
FEWEST = 6
# The places of duplicates, and the words of the page that explain them; there are none at present
EXPLAINED: Dict[FrozenSet[str], str] = {}
BRACKETS = re.compile(r"[{}()\[\];,]+")
# A function, with the name of its cycle of calls if it has one
FUNCTION = re.compile(r"(?:#\[cycle\((\w+)\)\][^{};]*?)?\bfn\s+(\w+)")
# The place of a piece of code, and its lines
Piece = Tuple[str, str]


def lines_of(text: str, comment: str) -> str:
    """Returns the lines of a text without comments, blanks at their ends and lines of brackets alone; empty if they are
    few."""
    lines = [" ".join(line.split(comment)[0].split()) for line in text.split("\n")]
    kept = [line for line in lines if line and not BRACKETS.fullmatch(line)]
    return "\n".join(kept) if len(kept) >= FEWEST else ""


def without_names(lines: str, name: str, cycle: AbstractSet[str] = frozenset()) -> str:
    """Returns lines of a function with `@` in place of its name, and `@1`, `@2` in place of the others of its cycle, in the
    order in which they occur."""
    words = [it for it in dict.fromkeys(re.findall(r"\w+", lines)) if it in cycle and it != name]
    marks = {name: "@", **{word: f"@{number}" for number, word in enumerate(words, 1)}}
    return re.sub(r"\w+", lambda found: marks.get(found[0], found[0]), lines)


def cycles_in(sources: Iterable[str]) -> Dict[str, Set[str]]:
    """Returns the names of the functions of each cycle of calls, for the sources of one crate."""
    cycles: Dict[str, Set[str]] = defaultdict(set)
    for source in sources:
        for cycle, name in FUNCTION.findall(without_text(source)):
            if cycle:
                cycles[cycle].add(name)
    return cycles


def bodies_in(source: str, cycles: Mapping[str, AbstractSet[str]]) -> Iterator[Piece]:
    """Yields the functions of a source of a crate, with their bodies. The names of a function and of those of its cycle are
    left out of its lines."""
    code = without_text(source)
    cycle_of = {name: cycle for cycle, name in FUNCTION.findall(code)}
    for it in written_in(code):
        if source[it.body] == "{":
            others = cycles.get(cycle_of[it.name], frozenset())
            yield it.name, without_names(lines_of(source[it.body : it.end], "//"), it.name, others)


def definitions_in(source: str) -> Iterator[Piece]:
    """Yields the definitions of a file of specs, each with its own name left out of its lines."""
    parts = re.split(r"^(?=\S)", source, flags=re.MULTILINE)
    name, lines = "", ""
    for part in [*parts, "-- the end"]:
        found = DEFINED.match(part)
        if found is None and name and not part.startswith(("--", "use ")):
            lines += part
            continue
        if name:
            yield name, lines_of(re.sub(rf"(?<![\w'.]){re.escape(name)}(?![\w'])", "@", lines), "--")
        name, lines = (found[2], part) if found else ("", "")


def functions_in(source: str) -> Iterator[Piece]:
    """Yields the functions of a source of Python, with their bodies without docstrings and without their own names."""
    for node in ast.walk(ast.parse(source)):
        if isinstance(node, (ast.FunctionDef, ast.AsyncFunctionDef)):
            body = node.body[1:] if ast.get_docstring(node) is not None else node.body
            yield node.name, without_names(lines_of("\n".join(map(ast.unparse, body)), "\n"), node.name)


def is_python(path: Path) -> bool:
    """Whether a file is a module or a command in Python, and not one that a test checks."""
    if path.suffix == ".py":
        return path.parent.name != "modules"
    return not path.suffix and path.is_file() and path.read_bytes().startswith(b"#!/usr/bin/env python3\n")


def pieces() -> Iterator[Piece]:
    """Yields everything that is compared."""
    for crate in sorted(ROOT.glob("crates/*/src")):
        sources = {path: path.read_text(encoding="utf-8") for path in sorted(crate.glob("**/*.rt"))}
        cycles = cycles_in(sources.values())
        for path, source in sources.items():
            for name, lines in bodies_in(source, cycles):
                yield f"{path.relative_to(ROOT)}: {name}", lines
    kinds = (("crates/*/specs/**/*.antt", definitions_in), ("tools/**/*", functions_in), ("tests/**/*", functions_in))
    for pattern, read in kinds:
        for path in sorted(ROOT.glob(pattern)):
            if read is not functions_in or is_python(path):
                for name, lines in read(path.read_text(encoding="utf-8")):
                    yield f"{path.relative_to(ROOT)}: {name}", lines


def faults_of(found: Dict[str, List[str]], page: str) -> Iterator[str]:
    """Yields the duplicates without an explanation, and each explanation that is not needed, or not on the page."""
    same = {frozenset(places) for places in found.values() if len(places) > 1}
    for places in sorted(sorted(it) for it in same - set(EXPLAINED)):
        yield f"the same: {', '.join(places)}"
    for explained, words in EXPLAINED.items():
        if explained not in same:
            yield f"not the same: {', '.join(sorted(explained))}"
        if words not in page:
            yield f"{PAGE} does not say: {words}"


def run(_: argparse.Namespace) -> int:
    """Prints the faults, and returns the exit status."""
    found: Dict[str, List[str]] = defaultdict(list)
    number = 0
    for place, lines in pieces():
        number += 1
        if lines:
            found[lines].append(place)
    page = " ".join((ROOT / PAGE).read_text(encoding="utf-8").split())
    faults = list(faults_of(found, page))
    print("".join(f"{fault}\n" for fault in faults), end="")
    print(f"{number} functions and definitions, {sum(map(len, found.values()))} of {FEWEST} lines, {len(faults)} faults")
    return 1 if faults or not number else 0
