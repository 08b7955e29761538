"""Checks that no two public types, functions or definitions of the crates have one name and two meanings.

    tools/check names

A type is a struct, an enum, a trait or an alias, a function one that is no method, and a definition one of
crates/NAME/specs. A name is public if other modules may use it, even if only those of its crate. Fields and variants,
and fields and constructors of definitions, are read with the type that has them, and are left out. A definition belongs
to a function of its name whose contract cites it, and to a type of its name that one file uses as RustNAME beside it;
the two are one thing.

The names under GROUPS in pycheck_tools/shared_names.py may be in so many places, for the reason given there.

Prints each name that is in more places than it may be, with these, and each entry of the list that is wrong or that no
name needs. Last it says how many names there are. The exit status is 1 if something is wrong, or if there is no name.
"""
from __future__ import annotations

import argparse
import re
from collections import defaultdict
from typing import Dict, Iterable, Iterator, List, NamedTuple, Set

from .. import ROOT
from ..antt_files import Definition, public_in, specs, used_in
from ..rt_files import Module, modules_of
from ..shared_names import GROUPS, Group

Places = Dict[str, List[str]]
# The folder of the types of the program, as files of specs see them
DECLARED = "/specs/declared/"


class Found(NamedTuple):
    """The places of each name, and how many types, functions and definitions there are."""

    places: Places
    types: int
    functions: int
    definitions: int


def cited_by(module: Module, name: str) -> Iterator[Definition]:
    """Yields the definitions of a function's name that its clauses cite."""
    for known, definition in module.definitions.items():
        if definition[1] == name and re.search(rf"(?<![\w'.]){re.escape(known)}(?![\w'])", module.functions[name].head):
            yield definition


def twins_in(file: str, text: str) -> Iterator[Definition]:
    """Yields the definitions beside which a file of specs uses a type of the same name, as RustNAME."""
    used = used_in(text)
    types = {name for known, (path, name) in used.items() if DECLARED in path and known.startswith("Rust")}
    yield from ((file, name) for name in types)
    yield from ((path, name) for path, name in used.values() if name in types and DECLARED not in path)


def found_in_crates() -> Found:
    """Returns the public names of all crates. A definition that belongs to a type or a function has no place."""
    places: Places = defaultdict(list)
    belonging: Set[Definition] = set()
    types = functions = definitions = 0
    for folder in sorted(ROOT.glob("crates/*/src")):
        crate = folder.parent.name
        for path, module in modules_of(crate).items():
            for name in sorted(module.offered_types | module.offered_functions):
                places[name].append(f"{crate}::{path}" if path else crate)
            for name in module.offered_functions:
                belonging.update(cited_by(module, name))
            types += len(module.offered_types)
            functions += len(module.offered_functions)
    texts = list(specs())
    for file, text in texts:
        belonging.update(twins_in(file, text))
    for file, text in texts:
        for name in public_in(text):
            definitions += 1
            if (file, name) not in belonging:
                places[name].append(file)
    return Found(places, types, functions, definitions)


def faults_of(places: Places, groups: Iterable[Group]) -> Iterator[str]:
    """Yields the names in more or fewer places than they may be in, and the entries of the list that are wrong."""
    shared: Dict[str, int] = {}
    for group in groups:
        yield from (f"{name} is listed twice" for name in group.names if name in shared)
        shared.update(group.names)
    for name in sorted({*places, *shared}):
        here = places.get(name, [])
        if name in shared and (len(here) != shared[name] or shared[name] < 2):
            yield f"{name} is in {len(here)} places, and {shared[name]} are listed: {', '.join(here)}"
        elif name not in shared and len(here) > 1:
            yield f"{name} is in {len(here)} places: {', '.join(here)}"


def run(_: argparse.Namespace) -> int:
    """Prints the faults, and returns the exit status."""
    found = found_in_crates()
    faults = list(faults_of(found.places, GROUPS))
    for fault in faults:
        print(fault)
    shared = sum(len(group.names) for group in GROUPS)
    print(f"{found.types} types, {found.functions} functions, {found.definitions} definitions, {shared} shared names, "
          f"{len(faults)} faults")
    return 1 if faults or not found.places else 0
