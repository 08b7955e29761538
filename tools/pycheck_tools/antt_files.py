"""Reads the definitions of crates, which are files *.antt in specs."""
from __future__ import annotations

import re
from typing import Dict, Iterator, Tuple

from . import ROOT

# The head of a definition, with its words and its name
DEFINED = re.compile(r"\s*((?:(?:abbrev|unfoldable|pub|record|data)\s+)+)([^\s:({]+)")
# Definitions that a file uses
USED = re.compile(r"\buse\s+Rattle\.(\w+)\.specs\.([\w.]+)\.\{([^}]*)\}")
# The file of a definition, as CRATE/specs/FILE.antt, and its name
Definition = Tuple[str, str]


def public_in(source: str) -> Iterator[str]:
    """Yields the names of the public definitions of a file, without fields of records and constructors of data."""
    indent = -1
    for line in source.split("\n"):
        here = len(line) - len(line.lstrip())
        if line.strip() and here <= indent:
            indent = -1
        found = DEFINED.match(line)
        words = found[1].split() if found else []
        if found is None or "pub" not in words or found[2] in ("mod", "use") or indent >= 0 and words == ["pub"]:
            continue
        yield found[2]
        if "record" in words or "data" in words:
            indent = here


def used_in(source: str) -> Dict[str, Definition]:
    """Returns the definitions that a source or a file of specs uses, by the names that they have there."""
    used: Dict[str, Definition] = {}
    for crate, path, names in USED.findall(source):
        for name in filter(None, map(str.strip, names.split(","))):
            before, _, there = name.partition(" as ")
            used[(there or before).strip()] = (f"{crate}/specs/{path.replace('.', '/')}.antt", before.strip())
    return used


def specs() -> Iterator[Tuple[str, str]]:
    """Yields the files of specs of all crates, each as CRATE/specs/FILE.antt, with its text."""
    for path in sorted(ROOT.glob("crates/*/specs/**/*.antt")):
        yield path.relative_to(ROOT / "crates").as_posix(), path.read_text(encoding="utf-8")
