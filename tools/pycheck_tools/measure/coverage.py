"""Tells which functions and branches of the crates the tests reach, and lists those that none does.

    tools/measure coverage [--module PROGRAM=FILE].. [--keep FOLDER] [--suite NAME].. [--list]

makes pycheck, pyrun, pycheck_server and test_tables with a mark in each block, runs the suites over them, and prints
for each crate how many of its functions, and of the branches of these, the tables alone reach, and all suites. A branch
is the beginning of a function, or a block to which a decision may lead. With `--list` those follow that nothing
reached: functions, each with the place of its head, and then branches whose decision was reached, each with what it
calls first.

The LLVM module of a program is the one from which the toolchain compiles it: each crate is proved and built over the
libraries that `rt ci` left in crates/NAME/out, as tools/ship web does it. With `--module` it is taken from FILE, for
each of the programs that is to be made; the others are left out, and so are the suites that need them. `--keep` leaves
the programs in FOLDER, each with its marks in PROGRAM.marks. The modules have no lines of the sources, so a branch is
told by the label that it has in the module: `arm` of a match, `then` and `else` of an `if`.

A suite is a step of the gate, run over these programs, which are slower and take more of the stack than those of the
gate: the steps with bounds for these are none. The functions of a crate that no program has are not counted, and
neither is what the compiler writes where a value goes out of scope. Code that only the tests of a crate call is not
reached here.

The exit status is 1 where a suite failed, 3 after a mistake in the words or where no program can be made.
"""
from __future__ import annotations

import argparse
import re
import subprocess
import sys
import tempfile
from pathlib import Path
from typing import Dict, Iterator, List, NamedTuple, Optional, Sequence, Set, Tuple

from .. import ROOT
from ..branches import MARKS, Block, Function, Marker
from ..kit import Fault, build_module, kit, run, write_text_of
from ..rt_files import FUNCTION
from ..words import Words

PROGRAMS = ("pycheck", "pyrun", "pycheck_server", "test_tables")
TABLES, ALL = "tables", "all"
COLUMNS = ("crate", "functions", "by the tables", "by all suites", "branches", "by the tables", "by all suites",
           "branches that pass on a failure", "by all suites")
# The suites: the words of each command, with the programs in braces; `*` means the tables that the gate has test_tables
# read
SUITES: Dict[str, List[str]] = {
    TABLES: ["{test_tables} *"],
    "rows": ["tools/compare rows {pycheck} examples", "tools/compare rows {pycheck} examples/left_out.json"],
    "pages": ["tools/check codes --program {pycheck}", "tools/check commands --program {pycheck}"],
    "server": ["tests/server/run {pycheck_server}"],
    "fuzz": ["tests/fuzz/run {pycheck} {pyrun}"],
    "search": ["tests/search/run {pycheck} {pyrun}"],
    "python": ["tests/python_runs/run {pyrun}", "tests/python_texts/run {pycheck}"],
    "cookbook": ["tests/cookbook/run {pycheck} {pyrun}"],
    "memory": ["tests/memory/run {pycheck} {pyrun} {test_tables} {pycheck_server}"],
}
# A block of functions of a type, of a trait if it names one before
BLOCK = re.compile(r"(?:unsafe )?(?:impl|trait)(?:<[^{]*?>)? (?:(\w+)\S* for )?&?(\w+)")
NEEDED = re.compile(r"\{(\w+)\}")
# Before a program begins, its marks are mapped to a file that all of its processes share, so that a process may end in
# any way, and none is counted twice.
SHARED = """
extern int open(const char *, int, ...), close(int);
extern void *mmap(void *, unsigned long, int, int, int, long);
extern void _exit(int);
__attribute__((aligned(4096))) char {marks}[{size}];
__attribute__((constructor)) static void share_marks(void) {{
  enum {{ READ_WRITE = 2, READ_AND_WRITE = 3, SHARED_AND_FIXED = 17, FAILED = 70 }};
  int file = open("{file}", READ_WRITE);
  if (file < 0 || mmap({marks}, sizeof {marks}, READ_AND_WRITE, SHARED_AND_FIXED, file, 0) != {marks}) _exit(FAILED);
  close(file);
}}
"""
HOST = "x86_64-unknown-linux-gnu"
COMPILED = (f"--target={HOST}", "-march=x86-64-v2", "-ffunction-sections", "-fdata-sections", "-fPIE", "-O1", "-c")


class Program(NamedTuple):
    """A program with marks: its functions, its file, and the file of its marks."""
    name: str
    functions: List[Function]
    file: Path
    marks: Path


def crates() -> List[str]:
    """Returns the crates, lowest first."""
    lines = (ROOT / "crates.txt").read_text(encoding="utf-8").splitlines()
    return [line.split(":")[0].split()[0] for line in lines if line[:1] not in ("", "#")]


def compile_and_link(name: str, room: Path, size: int, marks: Path) -> Path:
    """Makes a program from its marked module, `marked.ll`."""
    toolchain, shared = kit() / "toolchain", room / "shared.c"
    shared.write_text(SHARED.format(marks=MARKS, size=size, file=marks), encoding="utf-8")
    compiler = (toolchain / "bin" / "clang", "--no-default-config", *COMPILED)
    run(*compiler, "-Wno-override-module", "-x", "ir", room / "marked.ll", "-o", room / "marked.o")
    run(*compiler, "-ffreestanding", shared, "-o", room / "shared.o")
    libraries = [kit() / "c" / f"lib{it}_c.a" for it in ("os", "libc")]
    run(kit() / "bin" / "rattle-link", "--target", HOST, "--toolchain", toolchain, "-o", room / name,
        room / "marked.o", room / "shared.o", *libraries)
    return room / name


def made(name: str, module: Optional[Path], folder: Path) -> Program:
    """Makes a program with marks in a folder, from an LLVM module or from its crate."""
    with tempfile.TemporaryDirectory(prefix="coverage-") as it:
        room, marks, marker = Path(it), folder / f"{name}.marks", Marker(crates())
        write_text_of(module or build_module(name, room, room / "built.o"), room / "module.ll")
        with open(room / "module.ll", encoding="utf-8") as given, open(room / "marked.ll", "w", encoding="utf-8") as to:
            to.writelines(marker.marked(given))
        file = compile_and_link(name, room, marker.size, marks).replace(folder / name)
    marks.write_bytes(bytes(marker.size))
    return Program(name, marker.functions, file, marks)


def worded(command: str, programs: Dict[str, Program]) -> List[str]:
    """Returns the words of a command of a suite, with the files of the programs in it."""
    words = [it.format(**{name: program.file for name, program in programs.items()}) for it in command.split()]
    given = (ROOT / "crates" / "test_tables" / "args").read_text(encoding="utf-8").split() if "*" in words else []
    return [it for word in words for it in (given if word == "*" else [word])]


def run_suite(name: str, programs: Dict[str, Program]) -> bool:
    """Runs a suite. Returns whether all of its commands pass, and prints the end of the output of the others on
    standard error."""
    passed = True
    for command in SUITES[name]:
        # The tables are in the folder in which test_tables runs
        folder = ROOT / "crates" / "test_tables" / "data" if "*" in command else ROOT
        done = subprocess.run(worded(command, programs), cwd=folder, stdout=subprocess.PIPE, stderr=subprocess.STDOUT,
                              text=True, errors="replace")
        if done.returncode:
            print(f"{name}: {command} ended with status {done.returncode}:\n{done.stdout[-1000:]}", file=sys.stderr)
        passed = passed and not done.returncode
    return passed


class Shape:
    """A function, or one of its forms if these differ, with the blocks that were reached in any program."""

    def __init__(self, function: Function) -> None:
        self.function = function
        self.branches, self.failures = function.branches(), function.failures()
        self.by_suite: Dict[str, Set[str]] = {}

    def add(self, suite: str, labels: Set[str]) -> None:
        """Adds blocks that a suite reached."""
        self.by_suite.setdefault(suite, set()).update(labels)

    def reached(self, suites: Sequence[str]) -> Set[str]:
        """Returns the labels of the blocks that one of the suites reached."""
        return {label for suite in suites for label in self.by_suite.get(suite, ())}

    def figures(self, suites: Sequence[str]) -> Tuple[int, int, int]:
        """Returns whether one of the suites called it, how many branches these reached, and how many that pass on a
        failure."""
        reached = self.reached(suites)
        return int(bool(reached)), len((self.branches - self.failures) & reached), len(self.failures & reached)


class Reached:
    """The functions and blocks that the suites reached."""

    def __init__(self, programs: Dict[str, Program]) -> None:
        self.programs = programs
        self.shapes: Dict[Tuple[str, Tuple[str, ...]], Shape] = {}
        for program in programs.values():
            for function in program.functions:
                self.shapes.setdefault(function.shape(), Shape(function))

    def take(self, suite: str) -> None:
        """Adds the marks that a suite made, and clears them."""
        for program in self.programs.values():
            marks = program.marks.read_bytes()
            for function in program.functions:
                self.shapes[function.shape()].add(suite, function.reached(marks))
            program.marks.write_bytes(bytes(len(marks)))

    def row(self, name: str, suites: Sequence[str]) -> Optional[str]:
        """Returns the row of a crate, or of all of them; None if no program has functions of it."""
        shapes = [it for it in self.shapes.values() if name in (ALL, it.function.name.split("::")[0])]
        if not shapes:
            return None
        figures = ([it.figures(which) for it in shapes] for which in ([TABLES], suites))
        some, every = ([sum(column) for column in zip(*rows)] for rows in figures)
        failures = sum(len(it.failures) for it in shapes)
        branches = sum(len(it.branches) for it in shapes) - failures
        counts = len(shapes), some[0], every[0], branches, some[1], every[1], failures, every[2]
        return f"| {name if name == ALL else f'`{name}`'} | {' | '.join(f'{it:,}' for it in counts)} |"

    def missed_functions(self, suites: Sequence[str]) -> Iterator[str]:
        """Yields a line for each function that was not called."""
        for shape in self.shapes.values():
            if not shape.reached(suites):
                yield f"{place_of(shape.function.name)}: {shape.function.name}"

    def missed_branches(self, suites: Sequence[str], passes_on: bool) -> Iterator[str]:
        """Yields a line for each branch that was not reached though its decision was: of those that pass on a failure,
        or of the others."""
        for shape in self.shapes.values():
            for decision, block in shape.function.first_missed(shape.reached(suites)):
                if (block.label in shape.failures) == passes_on:
                    yield f"{place_of(shape.function.name)}: {shape.function.name}: {told(decision, block)}"


def told(decision: Block, block: Block) -> str:
    """Returns a branch as the list shows it: its label, the case that leads there, and its calls."""
    case = decision.cases.get(block.label)
    calls = ", ".join(block.calls[:3])
    by = f", case {case}" if case else ""
    return f"{block.label} of {decision.label}{by}" + (f", which calls {calls}" if calls else "")


def place_of(name: str) -> str:
    """Returns the file and the line of the head of a function, or of the one around it. Returns the file alone, or the
    crate, if the sources have no such head, as for the code of an attribute."""
    crate, *path = name.split("::")
    at = path.index("fn") if "fn" in path else None
    # `module::fn::outer::filter+FnMut::call_mut` is inside `outer`
    inner = path if at is None else path[:at] + path[at + 1:-2]
    owner = inner[-2] if inner[-2:-1] and inner[-2][:1].isupper() else ""
    source = ROOT / "crates" / crate / "src"
    module = "/".join(it for it in inner[:-1] if it[:1].islower())
    first = [source / f"{module}.rt"] if module else [source / "lib.rt", source / "main.rt"]
    # A type's functions may be in another file than the type
    others = [it for it in sorted(source.rglob("*.rt")) if owner and it not in first]
    files = [it for it in first if it.exists()] + others
    for file in files:
        line = line_of(file.read_text(encoding="utf-8"), inner[-1], owner)
        if line:
            return f"{file.relative_to(ROOT)}:{line}"
    return str(files[0].relative_to(ROOT)) if files else f"crates/{crate}"


def line_of(source: str, name: str, owner: str) -> Optional[int]:
    """Returns the line of the head of a function, inside a block of its owner if there is one."""
    inside = ""
    for number, line in enumerate(source.splitlines(), 1):
        block = BLOCK.match(line)
        if block:
            inside = block[2] + (block[1] or "")
        elif line.startswith("}"):
            inside = ""
        head = FUNCTION.match(line)
        if head and head[2] == name and inside == owner:
            return number
    return None


def show(reached: Reached, suites: Sequence[str], asked: argparse.Namespace) -> None:
    """Prints the table, and the lists that are asked for."""
    print(f"| {' | '.join(COLUMNS)} |\n|{'---|' * len(COLUMNS)}")
    for crate in [*crates(), ALL]:
        row = reached.row(crate, suites)
        if row:
            print(row)
    lists = {"functions": reached.missed_functions(suites), "branches": reached.missed_branches(suites, False),
             "branches that pass on a failure": reached.missed_branches(suites, True)}
    for title, lines in lists.items() if asked.list else ():
        found = sorted(set(lines))
        print(f"\nNot reached, {title}: {len(found)}")
        print("".join(f"{it}\n" for it in found), end="")


def asked_of(words: List[str]) -> argparse.Namespace:
    """Returns the parsed words."""
    parser = Words("tools/measure coverage", __doc__)
    parser.add_argument("--module", action="append", default=[])
    parser.add_argument("--keep", type=Path)
    parser.add_argument("--suite", action="append", choices=SUITES)
    parser.add_argument("--list", action="store_true")
    asked = parser.parse_args(words)
    asked.modules = dict(it.partition("=")[::2] for it in asked.module)
    if any(name not in PROGRAMS or not Path(file).is_file() for name, file in asked.modules.items()):
        parser.error("--module takes PROGRAM=FILE, where FILE is there")
    return asked


def measured(asked: argparse.Namespace, folder: Path) -> int:
    """Makes the programs in a folder, runs the suites, and prints what they reached. Returns the exit status."""
    files = {name: Path(file).resolve() for name, file in asked.modules.items()}
    programs = {name: made(name, files.get(name), folder) for name in files or PROGRAMS}
    suites = [name for name in asked.suite or SUITES
              if all(it in programs for command in SUITES[name] for it in NEEDED.findall(command))]
    reached, passed = Reached(programs), True
    for suite in suites:
        passed = run_suite(suite, programs) and passed
        reached.take(suite)
    show(reached, suites, asked)
    return 0 if passed else 1


def main(words: List[str]) -> int:
    """Measures the suites that the words name, and returns the exit status."""
    asked = asked_of(words)
    with tempfile.TemporaryDirectory() as room:
        folder = (asked.keep or Path(room)).resolve()
        folder.mkdir(parents=True, exist_ok=True)
        try:
            return measured(asked, folder)
        except Fault as fault:
            print(f"tools/measure coverage: {fault}", file=sys.stderr)
            return 3
