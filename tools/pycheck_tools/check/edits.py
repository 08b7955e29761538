"""Checks that each wrong body can be applied, that `rt ci` tried each of its own, and that the others have a verdict.

    tools/check edits [--log LOG]

reads the edits crates/CRATE/must-fail/*.edit, which `rt ci` tries over whole crates, and wrong_bodies/CRATE/*.edit, each of
functions alone, or of definitions with a law that they make false, which `tools/wrong_bodies --built` tries by these functions and
laws. Each must be of the right form, fit the files of its crate, and change something; no two of a crate may have one name, and those
of wrong_bodies/ change functions alone or name a law. One of must-fail/ names none, since `rt` reads no such line. This check
therefore finds all that `tools/wrong_bodies --list` finds. The edits in a folder wrong_bodies/CRATE/apart/, which the gate leaves out, must be
just those that wrong_bodies/APART.md has a row for, each refused. LOG is what `rt ci` or `rt must-fail` printed, in a file, or on standard
input for `-`. Then the edits that it says were refused must be just those of must-fail/, whatever `rt ci` made of one that could not be
applied, compiled or read. Where LOG counts the edits, of a crate or of all, its numbers must be those of the files.

Each law, a public function whose body is empty, must be named by an edit of wrong_bodies/ that makes it false, or by a row of
wrong_bodies/LAWS.md. A row is | `CRATE::MODULE::NAME` | TEXT |, and the first name in the text's ` ` is the edit of the crate's must-fail/
that makes the law false, or another law, of which this one is a case and that an edit of wrong_bodies/ names.

docs/TESTED.md, if it is there, must say how many edits of the gate have a control, how many a reason why they have none, and how many
neither, in the words in which this check prints it.

Prints the faults, then the edits whose refusal says little, since the prover only met a limit or missed a name, how many edits
of the gate have a control, how many laws there are, and last how many edits there are and how many of those of `rt ci` were refused.
The exit status is 1 if something is wrong, if there is no edit, or if LOG tells of none, unless there is none to try and LOG says that
all passed.
"""
from __future__ import annotations

import argparse
import re
import sys
from collections import Counter
from pathlib import Path
from typing import Dict, Iterator, List, Set, Tuple

from .. import ROOT, sums, wrong_bodies as READING
from ..rt_files import modules_of

# The words of rt about one edit, about how many it tries or knows of one crate, and about all that were refused
VERDICT = re.compile(r"^rt: must-fail (\w+)/([^:\s]+): (.*)$", re.M)
REFUSED = "refused, as it must be"
WEAKLY = (f"{REFUSED} (only by a limit", f"{REFUSED} (only because a proof file names")
TRYING = re.compile(r"^rt: (\w+): trying its must-fail edits \((\d+)\)$", re.M)
EARLIER = re.compile(r"^rt: (\w+): (\d+) of its (\d+) must-fail edits were tried by an earlier run", re.M)
ALL = re.compile(r"^rt: ok;.*; must-fail edits: (\d+) refused", re.M)
# The line by which rt says that it proved and tried all that there is
PASSED = re.compile(r"^rt: ok;", re.M)
STRAY = re.compile(r"^rt: (\S+: BAD EDIT: .*)$", re.M)
Edits = List[Tuple[str, Path]]
# The page of the laws that no edit names, and a row: the law, and what stands for an edit of it
LAWS = READING.KEPT / "LAWS.md"
# The page that says how many edits have a control
PAGE = ROOT / "docs/TESTED.md"
LAW_ROW = re.compile(r"^\| `(\w+(?:::\w+)+)` \| [^`\n]*`([^`\n]+)`.* \|$", re.M)


def edits_of_gate() -> Edits:
    """Returns the edits that `rt ci` tries, each with its crate."""
    folders = sorted((ROOT / "crates").glob("*/must-fail"))
    return [(folder.parent.name, edit) for folder in folders for edit in READING.edits_in(folder)]


def edits_apart() -> Edits:
    """Returns the edits of functions alone, each with its crate, or with the name of the folder if there is no such
    crate."""
    return [(edit.relative_to(READING.KEPT).parts[0], edit) for edit in READING.edits_in(READING.KEPT)]


def faults_of_files(edits: Edits) -> Iterator[str]:
    """Yields the faults of the edits themselves."""
    for crate, edit in edits:
        why = READING.misfit(crate, edit)
        if why:
            yield f"{edit.relative_to(ROOT)}: {why}"
        elif edit.parent not in (ROOT / "crates" / crate / "must-fail", READING.KEPT / crate, READING.KEPT / crate / READING.APART):
            yield f"{edit.relative_to(ROOT)}: an edit stands right in its folder, and not below it"
        elif edit.parent.name != "must-fail" and not READING.is_of_functions(crate, edit):
            yield f"{edit.relative_to(ROOT)}: an edit of more than functions that names no law stands in must-fail/"
        elif edit.parent.name == "must-fail" and READING.alone(crate, [edit]).laws:
            yield f"{edit.relative_to(ROOT)}: an edit that names a law stands in wrong_bodies/"
    times = Counter((crate, edit.name) for crate, edit in edits)
    yield from (f"{crate}/{name}: two edits have this name" for (crate, name), count in times.items() if count > 1)


def faults_of_page(edits: Edits) -> Iterator[str]:
    """Yields a line for each difference between the page on edits that the gate leaves out and the files."""
    rows = [tuple(name.split("/")) for name in sums.rows_of_apart()]
    files = [(crate, edit.stem) for crate, edit in edits if edit.parent.name == READING.APART]
    yield from (f"{crate}/{name}: no row of wrong_bodies/APART.md says that it was refused" for crate, name in files if (crate, name) not in rows)
    yield from (f"{crate}/{name}: wrong_bodies/APART.md has a row, and no such edit is apart" for crate, name in rows if (crate, name) not in files)


def is_of_gate(edit: Path) -> bool:
    """Whether the gate tries an edit of functions or of a law."""
    return edit.parent.name != READING.APART


def faults_of_controls(edits: Edits) -> Iterator[str]:
    """Yields a line for each edit on the page of controls that is missing, or has no control."""
    for name in sums.kept_controls():
        if not any(f"{crate}/{edit.stem}" == name and READING.has_control(crate, edit) for crate, edit in edits):
            yield f"{name}: wrong_bodies/CONTROLS.md has a row, and no edit with a control has this name"


def laws_of_crates() -> Set[str]:
    """Returns the laws of all crates, each as `CRATE::MODULE::NAME`."""
    folders = sorted(source.parent for source in (ROOT / "crates").glob("*/src"))
    return {"::".join([folder.name, *path.split("::"), function.name]) for folder in folders
            for path, module in modules_of(folder.name).items() for function in module.functions.values()
            if path and function.is_pub and function.is_law}


def laws_named(edits: Edits) -> Set[str]:
    """Returns the laws that these edits make false."""
    return {f"{crate}::{law}" for crate, edit in edits for law in READING.alone(crate, [edit]).laws}


def faults_of_laws(edits: Edits) -> Iterator[str]:
    """Yields a line for each law that neither an edit nor the page of laws names, and for each wrong row of that page."""
    laws, named, rows = laws_of_crates(), laws_named(edits), dict(LAW_ROW.findall(sums.read(LAWS)))
    yield from (f"{law}: no edit names this law, and wrong_bodies/LAWS.md has no row for it" for law in sorted(laws - named - rows.keys()))
    for law, by in rows.items():
        must_fail = ROOT / "crates" / law.split("::")[0] / "must-fail"
        if law not in laws or law in named:
            yield f"{law}: wrong_bodies/LAWS.md has a row, and {'an edit names it' if law in laws else 'there is no such law'}"
        elif by not in named and ROOT / by not in READING.edits_in(must_fail):
            yield f"{law}: wrong_bodies/LAWS.md names {by}, which is no edit of its must-fail, and no law that an edit names"


def told_of_laws(edits: Edits) -> str:
    """Returns how many laws there are, and how many of them edits name."""
    laws = laws_of_crates()
    return f"{len(laws)} laws, {len(laws & laws_named(edits))} of which an edit names"


def stale(edits: Edits) -> Iterator[str]:
    """Yields how many verdicts of each crate on both pages are of other files."""
    apart, controls = sums.rows_of_apart(), sums.kept_controls()
    crates = {crate: sums.sum_of_crate(READING.folder_of(crate)) for crate, _ in edits}
    left_out = Counter(crate for crate, edit in edits if apart.get(f"{crate}/{edit.stem}", crates[crate]) != crates[crate])
    old = Counter(crate for crate, edit in edits
                  if controls.get(f"{crate}/{edit.stem}", "") not in ("", READING.sum_of_control(crate, edit)))
    yield from (f"stale: {crate}: {count} verdicts in wrong_bodies/APART.md" for crate, count in sorted(left_out.items()))
    yield from (f"stale: {crate}: {count} controls, which the gate tries anew" for crate, count in sorted(old.items()))


def told_of_controls(edits: Edits) -> str:
    """Returns how many edits of the gate have a control, and how many a reason why they have none."""
    read = [READING.alone(crate, [edit]) for crate, edit in edits if is_of_gate(edit)]
    with_one, with_none = sum(it.controls > 0 for it in read), sum(bool(it.why_none) for it in read)
    return f"{with_one} edits of the gate have a control, {with_none} a reason, {len(read) - with_one - with_none} neither"


def faults_of_count(edits: Edits) -> Iterator[str]:
    """Yields a line if the page does not say how many edits have a control."""
    said, page = told_of_controls(edits), " ".join(sums.read(PAGE).split())
    if page and said not in page:
        yield f"{PAGE.relative_to(ROOT)} does not say: {said}"


def faults_of_verdicts(told: Dict[str, str], edits: Edits) -> Iterator[str]:
    """Yields the faults of the verdicts, by crate and name, on the edits of `rt ci`."""
    of_files = [f"{crate}/{edit.name}" for crate, edit in edits]
    for name in of_files:
        said = told.get(name, "it was not tried")
        if not said.startswith(REFUSED):
            yield f"{name}: {said}"
    yield from (f"{name}: it was tried, and there is no such file" for name in told if name not in of_files)


def faults_of_counts(log: str, edits: Edits) -> Iterator[str]:
    """Yields a line for each number of edits in the log that differs from that of the files."""
    files = Counter(crate for crate, _ in edits)
    new = {crate: int(number) for crate, number in TRYING.findall(log)}
    known = {crate: int(number) for crate, number, _ in EARLIER.findall(log)}
    for crate, _, number in EARLIER.findall(log):
        if int(number) != files[crate]:
            yield f"{crate}: {files[crate]} edits are there, and rt counts {number}"
    for crate in sorted(new.keys() | known.keys()):
        # An edit that another run tried meanwhile is counted in both
        both = new.get(crate, 0), known.get(crate, 0)
        if max(both) > files[crate] or sum(both) < files[crate]:
            yield f"{crate}: {files[crate]} edits are there, and {sum(both)} were tried"
    for number in ALL.findall(log):
        if int(number) != len(edits):
            yield f"{len(edits)} edits are there, and {number} were refused"


def faults_of_log(log: str, edits: Edits) -> Iterator[str]:
    """Yields the faults that the log of `rt ci` shows."""
    told = {f"{crate}/{name}": said for crate, name, said in VERDICT.findall(log)}
    if not told and (edits or not PASSED.search(log)):
        yield "the log tells of no edit that was tried"
    yield from faults_of_verdicts(told, edits)
    yield from faults_of_counts(log, edits)
    yield from (fault for fault in STRAY.findall(log) if not fault.startswith("must-fail "))


def read_log(name: str) -> str:
    """Returns the log in a file, or on standard input."""
    data = sys.stdin.buffer.read() if name == "-" else Path(name).read_bytes()
    return data.decode(errors="replace")


def run(asked: argparse.Namespace) -> int:
    """Checks the edits, and returns the exit status."""
    gate, apart = edits_of_gate(), edits_apart()
    log = read_log(asked.log) if asked.log else ""
    faults = [*faults_of_files(gate + apart), *faults_of_page(apart), *(faults_of_log(log, gate) if asked.log else [])]
    fits = not any(READING.misfit(crate, edit) for crate, edit in apart)
    faults += [*faults_of_controls(apart), *faults_of_count(apart), *faults_of_laws(apart)] if fits else []
    for line in [*faults, *(stale(apart) if fits else [])]:
        print(line)
    told = VERDICT.findall(log)
    for crate, name, said in told:
        if said.startswith(WEAKLY):
            print(f"says little: {crate}/{name}: {said}")
    if fits:
        print(told_of_controls(apart), told_of_laws(apart), sep="\n")
    left_out = sum(not is_of_gate(edit) for _, edit in apart)
    left = f", {left_out} of which the gate leaves out" if left_out else ""
    refused = f", {sum(said.startswith(REFUSED) for _, _, said in told)} refused" if asked.log else ""
    print(f"{len(gate)} edits of crates{refused}; {len(apart)} of functions{left}; {len(faults)} faults")
    return 1 if faults or not gate + apart else 0
