"""Compares runs of an interpreter of Python with those of pyrun: each place that is evaluated, and the end.

    tools/compare python [--modules N] [--seed WORD] [FILE..]

runs each FILE by the python3 that runs this script and by the program pyrun. With `--modules` N modules more: half of them
are drawn from examples/ and from the modules of the tables of crates/test_tables/data/runs whose case names no fuel and no
choices, half are made by the generator of tools/attack fuzz; the same WORD, which is 1 without one, gives the same modules. With
neither all of examples/ and of the tables are compared.

A run may differ only in the ways that docs/RUNS.md names under "Where Python ends otherwise", each by a word: the kinds
below. The tool prints each module that differs in no such way, each kind of the page that it does not know or that no module
of the run needs, and last how many modules there were, how many places were the same, and how often each kind came. Status 1
where something is wrong, 3 after a mistake in the words.

The program is crates/pyrun/out/pyrun, which ./pyrun builds; the variable PYRUN may name another one.
"""
from __future__ import annotations

import builtins
import collections
import os
import random
import re
import subprocess
import sys
import tempfile
import warnings
from pathlib import Path
from typing import Counter, Iterable, Iterator, List, Optional, Tuple

from .. import ROOT
from ..attack import fuzz
from ..words import Words
from . import python_runs

# A name, and the bytes of a module
Named = Tuple[str, bytes]

TABLES = ROOT / "crates/test_tables/data/runs"
PAGE = ROOT / "docs/RUNS.md"
HEADING = "## Where Python ends otherwise"
HEADER = "from __future__ import annotations\n"
PYRUN = os.environ.get("PYRUN", str(ROOT / "crates/pyrun/out/pyrun"))
FUEL = "20000"
MORE_PLACES = 50
NAMED = {"TypeError", "AttributeError", "NameError", "UnboundLocalError"}
RESERVED = set("Any annotations bool dataclass dict int isinstance len list object print range str tuple".split())
KINDS = ("outside", "unread", "cut", "built-in", "free")


def model_run(data: bytes) -> Tuple[Optional[List[List[int]]], str]:
    """Returns the places and the end of pyrun."""
    with tempfile.NamedTemporaryFile(suffix=".py") as file:
        file.write(data)
        file.flush()
        done = subprocess.run([PYRUN, "--fuel", FUEL, file.name], capture_output=True, text=True)
    if done.returncode != 0:
        return None, done.stderr.strip()
    *lines, last = done.stdout.splitlines()
    return [[int(word) for word in line.split()] for line in lines], last.removeprefix("end ")


def as_model(end: str) -> str:
    """Returns Python's end in the words of the model, which tells four exceptions from the others."""
    return end if end in NAMED or end in ("Done", "no end", "no answer") else "Other"


def is_built_in(data: bytes, place: List[int]) -> bool:
    """Whether a place has the name of a built-in of Python that the profile does not have."""
    name = data[place[0] : place[1]].decode()
    return hasattr(builtins, name) and name not in RESERVED


def is_unread(data: bytes, place: List[int]) -> bool:
    """Whether a place is a call of which Python evaluates more than pyrun: the second argument, or the name without its
    header."""
    return re.match(rb"(isinstance|Any|dataclass)\s*\(", data[place[0] : place[1]]) is not None


def difference(data: bytes, events: List[List[int]], end: str, run: python_runs.Run) -> Tuple[List[str], str]:
    """Returns the kinds of the differences, and a text about those that no kind explains."""
    kinds: List[str] = []
    shorter = min(len(events), len(run.events))
    same = next((at for at in range(shorter) if events[at] != run.events[at]), shorter)
    theirs = as_model(run.end)
    if same == len(events) == len(run.events) and theirs == end:
        pass
    elif end == "Outside" and same == len(events):
        kinds.append("outside")
    elif end == "Outside" and same == len(events) - 1 == len(run.events) and is_unread(data, events[-1]) and theirs != "Done":
        kinds.append("unread")
    elif end == "Cut" and same == len(events):
        kinds.append("cut")
    elif end == "NameError" and same == len(events) and events and is_built_in(data, events[-1]):
        kinds.append("built-in")
    else:
        at = [where[same] if same < len(where) else None for where in (events, run.events)]
        return kinds, f"Python {run.end}, pyrun {end}; place {same + 1} is {at[1]} in Python, {at[0]} in pyrun"
    if run.answered_otherwise:
        kinds.append("free")
    elif run.end != "no end" and as_model(run.plain_end) != theirs:
        return kinds, f"Python ends in {run.plain_end}, and with places noted in {run.end}"
    return kinds, ""


def cases_of(table: str) -> Iterator[Tuple[List[str], str]]:
    """Yields the lines of each case of a table, and the comment of its last line, which gives the expected end."""
    lines: List[str] = []
    for line in table.split("\n"):
        part, mark, comment = line.rpartition("  # ")
        if not mark and not line and not lines:
            continue
        lines.append(part if mark else line)
        if mark:
            yield lines, comment
            lines = []


def parts_of(text: str) -> Iterator[Tuple[Optional[str], str]]:
    """Yields the parts of a table, except those of whole texts: the text before main, or None if each case has its own,
    and the cases."""
    for part in text.split("\n==== ")[1:]:
        heading, _, lines = part.partition("\n")
        if heading.endswith((" of texts", " of bytes")):
            continue
        if heading.endswith(" of modules"):
            yield None, lines
        else:
            before, _, cases = lines.partition("----\n")
            yield before, cases


def whole_module(before: Optional[str], lines: List[str]) -> str:
    """Returns the text of a module: from a case that has all but its ends, or only the statements of main."""
    if before is not None:
        lines = [before + "def main():", *("    " + line for line in lines)]
    return HEADER + "\n".join(lines) + "\nmain()\n"


def written_modules() -> Iterator[Named]:
    """Yields the name and the bytes of each of examples/, and of each module of the tables in the order of its
    table."""
    for file in sorted((ROOT / "examples").glob("*.py")):
        yield file.name, file.read_bytes()
    for file in sorted(TABLES.glob("*.runs")):
        at = 0
        for before, table in parts_of(file.read_text(encoding="utf-8")):
            for lines, comment in cases_of(table):
                at += 1
                if not comment.startswith(("fuel ", "choices ")):
                    yield f"{file.stem}-{at:03}", whole_module(before, lines).encode()


def made_modules(seed: str, number: int) -> Iterator[Named]:
    """Yields modules of the generator of tools/attack fuzz, half of them changed."""
    for at in range(number):
        rng = random.Random(f"{seed}/{at}")
        text = fuzz.made_module(rng)
        yield f"made-{seed}/{at}", (fuzz.alike(text, rng) if at % 2 else text).encode()


def named_kinds(page: str) -> List[str]:
    """Returns the words of the table of the page."""
    section = page.partition(HEADING + "\n")[2].partition("\n## ")[0]
    return re.findall(r"^\| `([a-z-]+)` \|", section, re.MULTILINE)


def compare(modules: Iterable[Named], page: str) -> bool:
    """Compares each module, and prints the faults. Returns whether there are none."""
    kinds: Counter[str] = collections.Counter()
    places = number = wrong = 0
    for name, data in modules:
        events, end = model_run(data)
        if events is None:
            kinds["refused"] += 1
            continue
        run = python_runs.run_of(data, len(events) + MORE_PLACES)
        found, fault = difference(data, events, end, run)
        number, places = number + 1, places + len(events)
        kinds.update(found)
        if fault:
            wrong += 1
            print(f"{name}: {fault}\n{data.decode(errors='backslashreplace')}")
    listed = named_kinds(page)
    faults = [f"{PAGE.name} names {kind}, which this tool does not know" for kind in listed if kind not in KINDS]
    faults += [f"{PAGE.name} does not name {kind}" for kind in KINDS if kind not in listed]
    faults += [f"no module needs the kind {kind}, which {PAGE.name} names" for kind in listed if not kinds[kind]]
    print("".join(fault + "\n" for fault in faults), end="")
    told = ", ".join(f"{kind} {kinds[kind]}" for kind in (*KINDS, "refused"))
    print(f"{number} modules, {places} places; {told}; {wrong} differ in no such way")
    return number > 0 and not wrong and not faults


def main(words: List[str]) -> int:
    """Compares the runs of the modules that the words name, and returns the exit status."""
    parser = Words("tools/compare python", __doc__)
    parser.add_argument("--modules", type=int, default=0)
    parser.add_argument("--seed", default="1")
    parser.add_argument("--page", type=Path, default=PAGE)
    parser.add_argument("files", nargs="*", type=Path)
    given = parser.parse_intermixed_args(words)
    if not os.access(PYRUN, os.X_OK):
        print(f"compare python: {PYRUN} is not there; run ./pyrun once to build it", file=sys.stderr)
        return 3
    warnings.simplefilter("ignore")
    modules = [(file.name, file.read_bytes()) for file in given.files]
    written = list(written_modules())
    if given.modules:
        modules += random.Random(given.seed).sample(written, given.modules - given.modules // 2)
        modules += made_modules(given.seed, given.modules // 2)
    return 0 if compare(modules or written, given.page.read_text(encoding="utf-8")) else 1
