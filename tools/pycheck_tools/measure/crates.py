"""What each crate costs the gate: its lines, and the seconds of one processor for its proof, its tests and its wrong bodies.

    tools/measure crates [--count | --seconds FILE | --gate] [CRATE..]

proves each named crate from nothing, or without a name each crate of crates.txt, then its tests from nothing, and tries its
wrong bodies, one job at a time, and prints a row of a table as each crate ends; then, where there are any, the seconds of all rows,
and the longest chain of crates of which each waits for the one before, by the seconds of their proofs and tests; and how many
edits of all crates change code, and how many a definition. The libraries below a crate are built first where that is not done yet,
and are not counted. It deletes what earlier checks kept of the crates that it measures; what checks in another checkout on the same
machine kept would be taken over, so measure where there is none. The wrong bodies of `must-fail/` are tried by `rt must-fail`, and
those of `wrong_bodies/`, of functions alone, by `tools/wrong_bodies --built`.

With `--count` it proves nothing and leaves the seconds out. With `--seconds FILE` it proves nothing either: the seconds stand in
FILE, in lines `CRATE PART SECONDS`, where PART is `proof`, `tests`, `bodies` (of must-fail/) or `functions` (of wrong_bodies/); those
of one crate and part are added up, and a cell has `–` where there are none.

With `--gate` the seconds are those of the gate itself: `rt ci` and then `tools/wrong_bodies --built` are run, their output stands on
standard error, and each process of the prover that they start is watched until it ends. There the libraries below a crate are read
as their statements alone, and several crates are proved side by side. What the gate did not prove has `–` in its cell.

Where a command fails, its output stands on standard error, its cell says `failed`, and the exit status is 1 in the end.
"""
from __future__ import annotations

import argparse
import os
import resource
import shutil
import subprocess
import sys
import time
from pathlib import Path
from typing import Dict, Iterator, List, NamedTuple, Tuple

from .. import ROOT
from ..words import Words

CRATES = ROOT / "crates"
# The text in the cell of a command that failed
FAILED = "failed"
# The text in the cell of a part whose seconds are unknown
UNKNOWN = "–"
# The beginnings of the folders in which `rt ci` and tools/wrong_bodies try wrong bodies, and the part that these are
TRIED = [("rt-edit-", "bodies"), ("wrong-bodies-", "functions")]
LINES = [line.split(":") for line in (ROOT / "crates.txt").read_text(encoding="utf-8").splitlines() if line[:1] not in ("", "#")]
LISTED = [name.split()[0] for name, _ in LINES]
# The crates that each one waits for
BELOW = {name: [it for it in below.split() if it in LISTED] for name, (_, below) in zip(LISTED, LINES)}


def seconds(folder: Path, *words: str) -> object:
    """Returns the seconds of processor time that a command takes; if it fails, prints its output, and returns no
    number."""
    before = resource.getrusage(resource.RUSAGE_CHILDREN)
    done = subprocess.run(words, cwd=folder, stdout=subprocess.PIPE, stderr=subprocess.STDOUT, text=True, errors="replace")
    after = resource.getrusage(resource.RUSAGE_CHILDREN)
    if done.returncode != 0:
        print(done.stdout[-2000:], file=sys.stderr)
        return FAILED
    return round(after.ru_utime - before.ru_utime + after.ru_stime - before.ru_stime)


def lines_of(crate: str) -> int:
    """Returns how many lines of source, definitions and proofs the crate has."""
    files = [file for part in ("src", "specs", "proofs") for file in (CRATES / crate / part).rglob("*") if file.suffix in (".rt", ".antt")]
    return sum(len(file.read_text(encoding="utf-8").splitlines()) for file in files)


def from_nothing(crate: str, *words: str) -> object:
    """Returns the seconds of a command in the crate's folder, after the results kept for the crate are deleted."""
    shutil.rmtree(CRATES / crate / "out", ignore_errors=True)
    return seconds(CRATES / crate, "rt", *words, "--jobs", "1")


def edits_of(crate: str) -> List[str]:
    """Returns the crate's wrong bodies that `rt ci` tries, each as its text."""
    return [file.read_text(encoding="utf-8") for file in sorted((CRATES / crate / "must-fail").glob("*.edit"))]


def of_functions(crate: str) -> List[str]:
    """Returns the crate's wrong bodies of functions alone, each as its text."""
    return [file.read_text(encoding="utf-8") for file in sorted((ROOT / "wrong_bodies" / crate).glob("*.edit"))]


def has_tests(crate: str) -> bool:
    """Whether the crate has a test function."""
    return any("#[test]" in file.read_text(encoding="utf-8") for file in (CRATES / crate / "src").rglob("*.rt"))


def row(crate: str, proof: object = "", tests: object = "", bodies: object = "", functions: object = "") -> str:
    """Returns the crate's row of the table."""
    shown = [str(it) for it in (proof, tests, len(edits_of(crate)), bodies, len(of_functions(crate)), functions)]
    return f"| `{crate}` | {lines_of(crate):,} | {' | '.join(shown)} |"


def measured(crate: str) -> Tuple[str, object, object, object, object]:
    """Returns the crate with the seconds of its proof, its tests and its wrong bodies: the first check builds the
    libraries below."""
    below = seconds(CRATES / crate, "rt", "check", "--only", "", "--jobs", "1")
    tests = from_nothing(crate, "test") if has_tests(crate) else 0
    proof = from_nothing(crate, "check" if (CRATES / crate / "src/main.rt").exists() else "lib") if below != FAILED else FAILED
    bodies = seconds(ROOT, "rt", "must-fail", crate) if edits_of(crate) else 0
    functions = seconds(ROOT, "tools/wrong_bodies", "--built", crate) if of_functions(crate) else 0
    return crate, proof, tests, bodies, functions


class Told:
    """Seconds that were measured elsewhere."""

    def __init__(self) -> None:
        self.seconds: Dict[Tuple[str, str], float] = {}

    def add(self, crate: str, part: str, seconds: float) -> None:
        """Adds seconds to a part of a crate."""
        self.seconds[crate, part] = self.seconds.get((crate, part), 0) + seconds

    def cell(self, crate: str, part: str) -> object:
        """Returns the seconds of a part of a crate."""
        return round(self.seconds[crate, part]) if (crate, part) in self.seconds else UNKNOWN

    def cells(self, crate: str) -> Tuple[str, object, object, object, object]:
        """Returns the crate with the seconds of its proof, of its tests and of its wrong bodies."""
        tests = self.cell(crate, "tests") if has_tests(crate) else 0
        bodies = self.cell(crate, "bodies") if edits_of(crate) else 0
        return crate, self.cell(crate, "proof"), tests, bodies, self.cell(crate, "functions") if of_functions(crate) else 0


def told(file: str) -> Told:
    """Returns the seconds in a file."""
    found = Told()
    try:
        for line in Path(file).read_text(encoding="utf-8").splitlines():
            crate, part, number = line.split()
            found.add(crate, part, float(number))
    except OSError as error:
        raise argparse.ArgumentTypeError(f"{file}: {error.strerror}") from error
    return found


class Process(NamedTuple):
    """A process that runs: its parent, its words, its folder, and its seconds with those of the children that it waited for."""

    parent: str
    words: List[str]
    folder: str
    seconds: float

    def is_prover(self) -> bool:
        """Whether the process checks a crate."""
        return "--crate-name" in self.words and any(Path(word).name == "rattle" for word in self.words[:2])

    def part(self) -> Tuple[str, str]:
        """The crate that the process checks, and which part. A wrong body is tried in a folder of its own."""
        crate = self.words[self.words.index("--crate-name") + 1]
        tried = [part for name, part in TRIED if f"/{name}" in self.folder]
        return crate, tried[0] if tried else "tests" if "--test" in self.words else "proof"


def processes() -> Dict[str, Process]:
    """Returns the processes that run, by their numbers."""
    found: Dict[str, Process] = {}
    for folder in Path("/proc").glob("[0-9]*"):
        try:
            # The fields after the name of the program: state, parent, .., and four times of the process.
            stat = (folder / "stat").read_text(encoding="utf-8", errors="replace").rpartition(")")[2].split()
            words = (folder / "cmdline").read_text(encoding="utf-8", errors="replace").split("\0")
            where = os.readlink(folder / "cwd")
        except OSError:
            continue
        ticks = sum(int(it) for it in stat[11:15])
        found[folder.name] = Process(stat[1], words, where, ticks / os.sysconf("SC_CLK_TCK"))
    return found


def provers(ancestor: str) -> Iterator[Tuple[str, Process]]:
    """Yields the provers below a process. A copy that a prover makes of itself is left out, since the prover counts its
    seconds."""
    running = processes()
    for number, it in running.items():
        above = it.parent
        if not it.is_prover() or (above in running and running[above].is_prover()):
            continue
        while above in running and above != ancestor:
            above = running[above].parent
        if above == ancestor:
            yield number, it


def watched(*words: str) -> Tuple[List[Process], bool]:
    """Runs a command. Returns the last observed state of each prover that it starts, and whether it succeeds."""
    last: Dict[str, Process] = {}
    with subprocess.Popen(words, cwd=ROOT, stdout=sys.stderr) as command:
        while command.poll() is None:
            last.update(provers(str(command.pid)))
            time.sleep(0.25)
    return list(last.values()), command.returncode == 0


def gate() -> Tuple[Told, bool]:
    """Returns the seconds of the provers that the gate starts, and whether all was proved and each wrong body
    refused."""
    found = Told()
    proved, is_proved = watched("rt", "ci")
    tried, is_refused = watched("tools/wrong_bodies", "--built") if is_proved else ([], False)
    for it in [*proved, *tried]:
        found.add(*it.part(), it.seconds)
    return found, is_refused


def longest_chain(proofs: Dict[str, int]) -> Tuple[int, List[str]]:
    """Returns the longest chain of crates of which each waits for the one before, by these seconds of their proofs: all
    of its seconds, and the crates, lowest first."""
    chains: Dict[str, Tuple[int, List[str]]] = {}
    for name in LISTED:
        none: Tuple[int, List[str]] = (0, [])
        below = max((chains[it] for it in BELOW[name] if it in chains), default=none)
        chains[name] = below[0] + proofs.get(name, 0), [*below[1], name]
    return max(chains.values())


def print_edits() -> None:
    """Prints how many edits there are, of code and of definitions."""
    for what, edits_in in (("must-fail/", edits_of), ("wrong_bodies/", of_functions)):
        edits = [edit for crate in LISTED for edit in edits_in(crate)]
        of_definitions = sum("file: specs/" in edit for edit in edits)
        print(f"In {what}, {len(edits) - of_definitions} edits change code, and {of_definitions} change a definition.")


def asked_of(words: List[str]) -> argparse.Namespace:
    """Returns the parsed words."""
    parser = Words("tools/measure crates", __doc__)
    ways = parser.add_mutually_exclusive_group()
    ways.add_argument("--count", action="store_true")
    ways.add_argument("--seconds", metavar="FILE", type=told)
    ways.add_argument("--gate", action="store_true")
    parser.add_argument("crates", nargs="*", metavar="CRATE")
    asked = parser.parse_intermixed_args(words)
    strange = [it for it in asked.crates if it not in LISTED]
    if strange:
        parser.error(f"crates.txt has no crate {strange[0]}")
    return asked


def main(words: List[str]) -> int:
    """Prints the table, and returns the exit status: 1 if a command failed."""
    asked = asked_of(words)
    seconds_told, is_proved = gate() if asked.gate else (asked.seconds, True)
    cells_of = seconds_told.cells if seconds_told else measured
    all_cells: List[object] = []
    proofs: Dict[str, int] = {}
    print("| crate | lines | proof | tests | in must-fail | seconds | of functions | seconds |\n|---|---|---|---|---|---|---|---|")
    for crate in asked.crates or LISTED:
        cells: Tuple[object, ...] = (crate,) if asked.count else cells_of(crate)
        print(row(crate, *cells[1:]), flush=True)
        all_cells += cells[1:]
        proofs[crate] = sum(it for it in cells[1:3] if isinstance(it, int))
    if not asked.count:
        print(f"All rows: {sum(it for it in all_cells if isinstance(it, int)):,} seconds of one processor.")
        length, chain = longest_chain(proofs)
        print(f"The longest chain: {length:,} seconds, by {', '.join(chain)}.")
    print_edits()
    return 0 if is_proved and FAILED not in all_cells else 1
