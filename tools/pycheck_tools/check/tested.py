"""Checks the list of docs/TESTED.md, which test calls which public call, against the sources; and that of docs/PROVED.md,
which functions have no `ensures`.

    tools/check tested [--calls]

A public call is a function, or a method of a type or a trait, that is `pub` and is reached from the root of its crate
by `pub mod` and `pub use`. Calls of the crates under OF_TESTS do not count, since these are tests themselves, and a call
that a crate exports again from another one is a call of that one. A call is written `CRATE::NAME` or
`CRATE::TYPE::NAME`, with the public modules between, if it is in some.

A row of the table is | `CALL`, `CALL` | FILE, FILE |. A file is one of tests: one of a crate under OF_TESTS that depends
on the call's crate, from crates/ on, or a file with a function marked `#[test]`. Each file must name each call of its
row as a call: a method as `.NAME(` or `TYPE::NAME(`, an associated function as `TYPE::NAME(`, a function as `NAME(`. In
place of files a row has `none` for calls that no test calls directly, and `law` for a law, which is a function whose
body is empty: there is nothing to call.

The page also says how many calls no test calls by itself, as `N of the M calls are called by no test itself`, where M leaves the laws
out, and how many tests a folder of tests has, as `tests/NAME/run`, N tests: the functions test_.. of the files there.

docs/PROVED.md says `N functions have no `ensures`` under the heading WITHOUT, and names them in a table: | `CRATE` | `NAME`, `TYPE::NAME` | WHAT |.
Those are the functions of all crates but those under OF_TESTS, public or not, and the methods of types and of traits; a method
that is written for a trait has the clauses of the trait, and is left out.

Prints each call of the list that does not exist, each public call that is not on the list, or twice, each file that does
not call what it is listed for, each function that docs/PROVED.md names too much or too little, and each of these numbers that is
wrong; and last how many calls there are, how many are laws, and how many have no test.
The exit status is 1 if something is wrong. `--calls` prints all calls instead, with the files of tests that name
them.
"""
from __future__ import annotations

import argparse
import re
from pathlib import Path
from typing import Dict, Iterator, List, NamedTuple, Set

from .. import ROOT
from ..rt_files import NAME, Function, modules_of, without_text

PAGE = ROOT / "docs/TESTED.md"
HEADING = "## Which test calls which public call"
OF_TESTS = ("test_rows", "test_trees", "test_layers", "test_cases", "test_runs", "test_typing", "test_tables", "test_server_calls")
NONE, LAW = "none", "law"

ROW = re.compile(r"^\|(.+)\|(.+)\|\s*$")
QUOTED = re.compile(r"`([^`]+)`")


class Call(NamedTuple):
    """A public call: its name in full, its crate, its type if it has one, its own name, and its function."""
    full: str
    crate: str
    type: str
    function: Function


class Crate:
    """The sources of a crate, and the calls that are reached from its root."""

    def __init__(self, name: str) -> None:
        self.name, self.modules = name, modules_of(name)

    def calls(self) -> Iterator[Call]:
        """Yields the public calls."""
        yield from self.calls_in("", [])

    def calls_in(self, path: str, shown: List[str]) -> Iterator[Call]:
        """Yields the public calls of a public module, whose path consists of these names."""
        module = self.modules[path]
        for function in module.functions.values():
            if function.is_pub:
                yield self.call([*shown, function.name], "", function)
        for name in sorted(module.pub_types):
            yield from self.methods_of(name, shown)
        for used, name in module.uses:
            yield from self.passed_on(used, name, shown)
        for name in module.pub_modules:
            yield from self.calls_in(f"{path}::{name}" if path else name, [*shown, name])

    def call(self, names: List[str], type_name: str, function: Function) -> Call:
        """Returns the public call with these names."""
        return Call("::".join([self.name, *names]), self.name, type_name, function)

    def methods_of(self, name: str, shown: List[str]) -> Iterator[Call]:
        """Yields the public functions of a type or of a trait, which may be in several modules."""
        for module in self.modules.values():
            for function in module.methods.get(name, []):
                if function.is_pub:
                    yield self.call([*shown, name, function.name], name, function)

    def passed_on(self, path: str, name: str, shown: List[str]) -> Iterator[Call]:
        """Yields the public calls that a `pub use` exports again, if they are of this crate."""
        module = self.modules.get(path[len("crate::"):] if path.startswith("crate::") else path)
        if module is None:
            return
        if name in module.functions:
            yield self.call([*shown, name], "", module.functions[name])
        else:
            yield from self.methods_of(name, shown)


def crates() -> Dict[str, List[str]]:
    """Returns the crates that the list covers, each with those that it depends on, as crates.txt has them."""
    lines = (ROOT / "crates.txt").read_text(encoding="utf-8").splitlines()
    pairs = [line.split(":", 1) for line in lines if line[:1] not in ("", "#")]
    # A name may be followed by the kind of library
    return {name.split()[0]: below.split() for name, below in pairs}


def public_calls() -> List[Call]:
    """Returns all public calls, in the order of the crates."""
    return [call for name in crates() if name not in OF_TESTS for call in Crate(name).calls()]


# The calls of tests

USE = re.compile(r"\buse\s+(\w+)::([^;]*);")
TYPES = r"(?:::<[^;()<>]*>)?"
CALLED = re.compile(rf"(?P<before>\bfn\s+|\.\s*)?(?P<path>(?:\w+{TYPES}::)*)(?P<name>\w+)\s*{TYPES}\(")
OF_TYPE = re.compile(rf"\b([A-Z]\w*){TYPES}::(\w+)")


class Test:
    """A file of tests: its imports by crate, and its calls."""

    def __init__(self, file: Path) -> None:
        self.name, self.crate = file.relative_to(ROOT).as_posix(), file.relative_to(ROOT / "crates").parts[0]
        code = without_text(file.read_text(encoding="utf-8"))
        self.has_tests = re.search(r"^\s*#\[test\]", code, re.M) is not None
        self.words = set(NAME.findall(code))
        self.taken = {(crate, name) for crate, tree in USE.findall(code) for name in NAME.findall(tree)}
        self.of_types = set(OF_TYPE.findall(code))
        self.methods: Set[str] = set()
        self.functions: Set[str] = set()
        for found in CALLED.finditer(code):
            self.take(found["before"] or "", found["path"].split("::")[:-1], found["name"])

    def take(self, before: str, path: List[str], name: str) -> None:
        """Records the text before a bracket: a method, a function, or neither."""
        if before.startswith("."):
            self.methods.add(name)
        elif not before and not (path and path[-1][:1].isupper()):
            self.functions.add(name)
            self.taken.update((crate, name) for crate in path[:1])

    def is_test(self) -> bool:
        """Whether the file has tests."""
        return self.crate in OF_TESTS or self.has_tests

    def calls(self, call: Call) -> bool:
        """Whether the file calls this, judging by the names in it."""
        name = call.function.name
        if not call.type:
            return name in self.functions and (call.crate, name) in self.taken
        is_known = call.crate in self.words or call.type in self.words
        return is_known and (call.function.takes_self and name in self.methods or (call.type, name) in self.of_types)


def tests() -> List[Test]:
    """Returns the files of tests."""
    folders = [ROOT / "crates" / name / "src" for name in crates()]
    files = [Test(file) for folder in folders for file in sorted(folder.rglob("*.rt"))]
    return [file for file in files if file.is_test()]


# The list

class Row(NamedTuple):
    """A row of the list: its line, the calls, and the files, or `none` or `law`."""
    line: int
    calls: List[str]
    files: List[str]


def listed() -> List[Row]:
    """Returns the rows of the list, which is the table under its heading."""
    rows, is_list = [], False
    for number, line in enumerate(PAGE.read_text(encoding="utf-8").splitlines(), 1):
        if line.startswith("#"):
            is_list = line.strip() == HEADING
        cells = ROW.match(line) if is_list else None
        if cells and QUOTED.search(cells[1]):
            rows.append(Row(number, QUOTED.findall(cells[1]), [file.strip() for file in cells[2].split(",")]))
    return rows


def faults_of_row(row: Row, calls: Dict[str, Call], files: Dict[str, Test]) -> Iterator[str]:
    """Yields the faults of a row of the list."""
    at = f"{PAGE.relative_to(ROOT)}, line {row.line}"
    for name in row.calls:
        if name not in calls:
            yield f"{at}: there is no public call {name}"
            continue
        is_law = calls[name].function.is_law
        if is_law != (row.files == [LAW]):
            yield f"{at}: {name} is {'a' if is_law else 'no'} law"
        for file in row.files if not is_law and row.files not in ([NONE], [LAW]) else []:
            if file not in files:
                yield f"{at}: there is no file of tests {file}"
            elif not files[file].calls(calls[name]):
                yield f"{at}: {file} does not call {name}"


def faults_of_list(rows: List[Row], calls: Dict[str, Call]) -> Iterator[str]:
    """Yields the public calls that the list lacks, and those that it has twice."""
    names = [name for row in rows for name in row.calls]
    yield from (f"{name} is a public call, and is not on the list" for name in calls if name not in names)
    yield from (f"{name} is on the list twice" for name in calls if names.count(name) > 1)


# The numbers

UNTESTED = re.compile(r"\b([\d,]+)\s+of\s+the\s+([\d,]+)\s+calls\s+are\s+called\s+by\s+no\s+test\s+itself\b")
TESTS = re.compile(r"`(tests/\w+)/run`,\s+([\d,]+)\s+tests\b")
TEST = re.compile(r"^ +def test_", re.M)


def number_of(digits: str) -> int:
    """Returns the number that digits with commas between them mean."""
    return int(digits.replace(",", ""))


def faults_of_numbers(page: str, calls: int, untested: int) -> Iterator[str]:
    """Yields the numbers of calls and of tests on the page that are wrong."""
    said = list(UNTESTED.finditer(page))
    if not said:
        yield f"{PAGE.relative_to(ROOT)}: no line says how many calls are called by no test itself"
    for found in said:
        if (number_of(found[1]), number_of(found[2])) != (untested, calls):
            yield f"{at_line(page, found)}: {untested} of the {calls} calls are called by no test itself, not {found[1]} of {found[2]}"
    for found in TESTS.finditer(page):
        files = sorted(file for file in (ROOT / found[1]).glob("*") if file.name == "run" or file.suffix == ".py")
        there = sum(len(TEST.findall(file.read_text(encoding="utf-8"))) for file in files)
        if there != number_of(found[2]):
            yield f"{at_line(page, found)}: {found[1]}/run has {there} tests, not {found[2]}"


def at_line(page: str, found: "re.Match[str]") -> str:
    """Returns the line of the page with a match."""
    return f"{PAGE.relative_to(ROOT)}, line {page.count(chr(10), 0, found.start()) + 1}"


# The functions without an `ensures`

PROVED = ROOT / "docs/PROVED.md"
WITHOUT = "## Functions without a contract"
COUNT = re.compile(r"^(\d+) functions have no `ensures`", re.M)
OF_CRATE = re.compile(r"^\| `(\w+)` \|([^|]+)\|", re.M)


def without_ensures() -> Set[str]:
    """Returns the functions without an `ensures`, each as CRATE::NAME or CRATE::TYPE::NAME."""
    found = set()
    for crate in crates():
        for module in modules_of(crate).values() if crate not in OF_TESTS else ():
            owned = [("", module.functions.values()), *((f"{name}::", each) for name, each in module.methods.items())]
            found |= {f"{crate}::{owner}{it.name}" for owner, each in owned for it in each if not re.search(r"\bensures\b", it.head)}
    return found


def faults_of_proved() -> Iterator[str]:
    """Yields the faults of the functions that docs/PROVED.md says have no `ensures`, and of their number."""
    page, there = PROVED.read_text(encoding="utf-8"), without_ensures()
    section = page.partition(f"\n{WITHOUT}\n")[2].partition("\n## ")[0]
    named = {f"{crate}::{name}" for crate, names in OF_CRATE.findall(section) for name in QUOTED.findall(names)}
    at = PROVED.relative_to(ROOT)
    yield from (f"{at}: {name} has no `ensures`, and is not named" for name in sorted(there - named))
    yield from (f"{at}: {name} is no function without an `ensures`" for name in sorted(named - there))
    said = COUNT.search(section)
    if not said or int(said[1]) != len(there):
        yield f"{at}: {len(there)} functions have no `ensures`, not {said[1] if said else 'as many as the page says'}"


def print_calls(calls: Dict[str, Call], files: Dict[str, Test]) -> None:
    """Prints each public call with the files of tests that name it as a call."""
    for name, call in calls.items():
        found = [file for file, test in files.items() if test.calls(call)]
        print(f"{name}: {LAW if call.function.is_law else ', '.join(found) or NONE}")


def compared(calls: Dict[str, Call], files: Dict[str, Test], rows: List[Row]) -> List[str]:
    """Returns the faults of the list."""
    return [fault for row in rows for fault in faults_of_row(row, calls, files)] + [*faults_of_list(rows, calls)]


def run(asked: argparse.Namespace) -> int:
    """Compares the list with the sources, and returns the exit status."""
    calls, files = {call.full: call for call in public_calls()}, {test.name: test for test in tests()}
    if asked.calls:
        print_calls(calls, files)
        return 0
    rows = listed()
    without = sum(len(row.calls) for row in rows if row.files == [NONE])
    laws = sum(call.function.is_law for call in calls.values())
    # A law has nothing to call
    faults = compared(calls, files, rows) + [*faults_of_numbers(PAGE.read_text(encoding="utf-8"), len(calls) - laws, without)]
    faults += faults_of_proved()
    for fault in faults:
        print(fault)
    print(f"{len(calls)} public calls, {laws} laws, {without} without a test, {len(faults)} faults")
    return 1 if faults or not calls else 0
