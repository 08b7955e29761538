"""Writes the tables by which the gate compares the two stores of types.

    tools/check generated [--write]

writes to crates/test_tables/data/reports/ the table `generated.stores`, of 1,000 modules, and the table
`examples.stores`, of the modules of examples/. Without `--write` it only compares, and the exit status is 1 if
a table differs.

The modules of the first are those of the generator of tools/attack fuzz, from a fixed start. Half of them stay as they are
made. Of the other half three in four have names, literals, types, operators or whole lines changed for others, and
one in four is broken. After each module the table says whether it has a report, or how it is refused, and
where: for a generated module by the reader of tools/attack truncate, which is independent of the program; for an example
by the report beside it. Modules that are not UTF-8, which no table can hold, are left out.
"""
from __future__ import annotations

import argparse
import random
import sys
from typing import List, Optional, Tuple

from .. import ROOT
from ..attack import fuzz, truncate

DATA = ROOT / "crates/test_tables/data/reports"
BETWEEN, ROW, REPORT = "----\n", "\n> ", "a report"
MODULES = 1000


def kind_of(number: int) -> str:
    """Returns whether the module of this number is changed, and how."""
    if number % 2 == 0:
        return "as made"
    return "broken" if number % 8 == 7 else "alike"


def text_of(data: bytes) -> Optional[str]:
    """Returns the text of the bytes, if a table can hold it."""
    try:
        text = data.decode()
    except UnicodeDecodeError:
        return None
    return None if BETWEEN in text or ROW in text else text


def generated() -> List[Tuple[str, str]]:
    """Returns the generated modules, each with its answer."""
    found: List[Tuple[str, str]] = []
    grammar, number = truncate.Grammar(), 0
    while len(found) < MODULES:
        rng = random.Random(f"stores/{number}")
        data = fuzz.KINDS[kind_of(len(found))](fuzz.made_module(rng), rng)
        number += 1
        if text := text_of(data):
            refusal = truncate.reading(data, grammar)
            found.append((text, "refused {} at byte {}".format(*refusal.split()) if refusal else REPORT))
    return found


def examples() -> List[Tuple[str, str]]:
    """Returns the modules of the examples, each with its answer."""
    found = []
    for file in sorted((ROOT / "examples").rglob("*.py")):
        text, said = text_of(file.read_bytes()), file.with_suffix(".txt").read_text(encoding="utf-8").rstrip("\n")
        if text is not None:
            found.append((text, said if said.startswith("refused") else REPORT))
    return found


def table(cases: List[Tuple[str, str]]) -> bytes:
    """Returns the table of these modules."""
    return BETWEEN.join(text + ROW + said + "\n" for text, said in cases).encode()


def run(asked: argparse.Namespace) -> int:
    """Compares or writes the tables, and returns the exit status."""
    status = 0
    for name, cases in (("generated.stores", generated()), ("examples.stores", examples())):
        file, made = DATA / name, table(cases)
        if asked.write:
            file.write_bytes(made)
            refused = sum(said != REPORT for _, said in cases)
            print(f"{file.relative_to(ROOT)}: {len(cases)} modules, {len(made):,} bytes, {refused} refused")
        elif not file.exists() or file.read_bytes() != made:
            print(f"{file.relative_to(ROOT)} is another table", file=sys.stderr)
            status = 1
    return status
