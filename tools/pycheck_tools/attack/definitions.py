"""Changes definitions one at a time, and tries which of the changes the proofs refuse.

    tools/attack definitions [--seed WORD] [--number N] [--write FOLDER] CRATE..
    tools/attack definitions --built [--seed WORD] [--number N] [--write FOLDER] [--judges N] [--at-once N] [--whole] CRATE..
    tools/attack definitions --unneeded

picks N changes of the definitions of each crate, 20 if nothing else is said, and prints them. The same WORD picks the same
changes of the same files; without one it is 1. A change is of one of these kinds, and the picks go round them as long as
each has changes left:

    constant    a number, a truth value, a text or a constructor without an argument, replaced by a neighbour
    strictness  `<` for `≤`, or the reverse
    branches    two clauses of a function, or the two arms of a choice, swapped
    factor      a factor of a product or of `&&`, replaced by what always holds
    disjunct    a part of `⊎` or of `||`, replaced by what never holds
    premise     a fact in front of an arrow, replaced by what always holds
    part        a part of a list left out

No definition is changed twice before each that has changes has been changed once. Left out are the folders Internal and
Computed, files whose first lines say that they have computed twins, and definitions that are private to their crate.
`--write` writes each change into the folder as an edit that `tools/wrong_bodies` reads.

`--built` tries the changes over the libraries that `rt ci` built of the present files, and left in `crates/NAME/out`, as
`tools/wrong_bodies --built` does. The judges of a change are the functions of its crate, laws and worked cases among them,
whose contracts stand on the changed definition. First the laws and worked cases are proved over it, then, if these accept
the change, the nearest of the judges, then the nearest three, or as many as `--judges` says, and with `--whole` the whole
crate. As many changes are tried at once as `--at-once` says, 8 if nothing else is said. A refusal counts for a change only
if what is refused stands on its definition, and on no other one that is changed. Beside its judges a check proves the
functions that they call whose contracts stand on the definition too; of all others it leaves the contract alone, as
tools/pycheck_tools/assumed.py says, but where it is of the whole crate.

Printed are, for each change, its edit and one of these verdicts: `refused by` the first of the functions, lemmas or
definitions that is refused; `not tried`, if its own definition is refused as written; `survives` the functions that are
named, or the whole crate; `undecided`, where what is refused stands on other changes too; `no judge`, if no contract of the
crate stands on its definition. Last are the sums. The exit status is 1 if no change was tried.

`--unneeded` changes nothing: it lists the definitions on which no clause of any crate stands, as far as their names tell.
Whatever they say, no contract refuses it.
"""
from __future__ import annotations

import argparse
import random
import re
import shutil
import subprocess
import tempfile
from pathlib import Path
from typing import AbstractSet, Dict, Iterator, List, NamedTuple, Sequence, Set, Tuple

from .. import ROOT, wrong_bodies
from ..assumed import as_proved, assume
from ..changes import KINDS, Change, changes_in, definitions_in
from ..reach import Node, Reach, declared_at, unneeded
from ..words import Words

LEFT_OUT = ("Internal", "Computed")
TWIN = "computed twin"
PRIVATE = "(private to this crate)"
# A message of a check about a place in a file
PLACE = re.compile(r"^(?:\./)?((?:src|specs|proofs)/\S+?):(\d+):\d+: (.*)$", re.MULTILINE)
# A message about what stands on something that is refused itself
FOLLOWS = re.compile(r"was not admitted|which was rejected, w(?:as|ere) not checked|is not admitted: rejected")
# How many judges beyond those that are asked for may be taken for a change that needs one of its own
FURTHER = 6
# The steps in which changes are tried
LAWS, NEAREST, SEVERAL, WHOLE = range(4)
REFUSED, UNTRIED, SURVIVES, UNDECIDED, NO_JUDGE = "refused by", "not tried", "survives", "undecided", "no judge"


class Picked(NamedTuple):
    """A change of a crate, with the name of its edit."""

    crate: str
    name: str
    change: Change

    def node(self) -> Node:
        """Returns the definition that changes."""
        return self.change.path, self.change.name

    def edit(self) -> str:
        """Returns the text of the edit."""
        pairs = "".join(f"old: {old}\nnew: {new}\n" for old, new in self.change.pairs)
        return f"# {self.change.kind}: {self.change.name}\nfile: {self.change.path}\n{pairs}"


class Verdict(NamedTuple):
    """A verdict on a change: its word, and what it is due to."""

    word: str
    why: str = ""


def is_private(source: str, name: str) -> bool:
    """Whether the comment above a definition says that it is private to its crate."""
    lines = source.split("\n")
    at = next((it.first for it in definitions_in(source) if it.name == name), 0)
    while at and lines[at - 1].lstrip().startswith("--"):
        at -= 1
        if PRIVATE in lines[at] + " " + lines[at + 1].lstrip("- "):
            return True
    return PRIVATE.split()[-1] in lines[at] and "(private to" in "".join(lines[at - 1:at + 1])


def changes_of(root: Path, crate: str) -> Iterator[Change]:
    """Yields the changes of the definitions of a crate, in the order of its files."""
    folder = root / "crates" / crate
    for file in sorted((folder / "specs").rglob("*.antt")):
        path = file.relative_to(folder)
        source = file.read_text(encoding="utf-8")
        comment = " ".join(line for line in source.split("\nuse ")[0].split("\n") if line.startswith("--"))
        if not set(LEFT_OUT) & {part.split(".")[0] for part in path.parts} and TWIN not in comment:
            yield from (it for it in changes_in(root, str(path), source) if not is_private(source, it.name))


def picked_of(root: Path, crate: str, seed: str, number: int) -> List[Picked]:
    """Returns so many changes of the definitions of a crate, or all if there are fewer."""
    rng = random.Random(f"{seed} {crate}")
    left = list(changes_of(root, crate))
    rng.shuffle(left)
    picked: List[Picked] = []
    used: Set[Tuple[str, str]] = set()
    while left and len(picked) < number:
        before = len(picked)
        for kind in KINDS:
            found = next((it for it in left if it.kind == kind and (it.path, it.name) not in used), None)
            if found and len(picked) < number:
                left.remove(found)
                used.add((found.path, found.name))
                picked.append(Picked(crate, f"{len(picked) + 1:02}_{found.name}_{kind}.edit", found))
        if len(picked) == before:
            used.clear()
    return picked


def written(folder: Path, picked: Sequence[Picked]) -> List[Path]:
    """Writes the edits of changes into a folder, and returns their files."""
    files = []
    for it in picked:
        files.append(folder / it.crate / re.sub(r"[^A-Za-z0-9_.-]", "_", it.name))
        files[-1].parent.mkdir(parents=True, exist_ok=True)
        files[-1].write_text(it.edit(), encoding="utf-8")
    return files


def checked(words: Sequence[str], crate: str, picked: Sequence[Picked], names: Sequence[str] = (),
            kept: AbstractSet[str] = frozenset()) -> Tuple[str, Dict[str, str]]:
    """Returns the output of a check of a crate over some changes at once, and the texts of the files that they change. With
    names, only these functions and those of a further set that they call are proved, over the contracts alone of all others."""
    with tempfile.TemporaryDirectory(prefix="definitions-") as place:
        room = Path(place)
        for part in ("src", "specs", "proofs"):
            if (wrong_bodies.folder_of(crate) / part).is_dir():
                shutil.copytree(wrong_bodies.folder_of(crate) / part, room / part)
        edited = wrong_bodies.alone(crate, written(room / "edits", picked))
        for path, text in edited.texts.items():
            (room / path).write_text(text, encoding="utf-8")
        holes = assume(room, crate, {*names, *kept}) if names else {}
        only = ["--allow-holes", *(word for name in names for word in ("--only", name))] if names else []
        run = subprocess.run([*words, *only], cwd=room, check=False, stdin=subprocess.DEVNULL,
                             stdout=subprocess.PIPE, stderr=subprocess.STDOUT)
    said = run.stdout.decode("utf-8", "replace")
    return as_proved(said, holes) if names else said, edited.texts


class Refusal(NamedTuple):
    """A refusal of a check: what is refused, in words, and the declarations of it."""

    what: str
    nodes: List[Node]


def refusals_in(said: str, crate: str, texts: Dict[str, str]) -> Iterator[Refusal]:
    """Yields the refusals in the output of a check, functions first, given the texts of the files that changes replace."""
    for name, why in wrong_bodies.VERDICT.findall(said):
        if why != "proved" and wrong_bodies.says_of_itself(name, why):
            yield Refusal(name, [("", name.split("::")[-1])])
    for path, line, text in PLACE.findall(said):
        file = wrong_bodies.folder_of(crate) / path
        if text.startswith("error") and not FOLLOWS.search(text) and file.suffix == ".antt" and file.is_file():
            names = declared_at(texts.get(path) or file.read_text(encoding="utf-8"), int(line))
            # What stands in the folder of a function shows what its contract says
            folder = Path(path).parent.name
            owner = [("", folder.lstrip("+"))] if path.startswith("proofs/") and folder != "proofs" else []
            yield from ([Refusal(f"{path}: {names[0]}", [*((path, name) for name in names), *owner])] if names else [])


def verdicts_of(said: str, texts: Dict[str, str], picked: Sequence[Picked], reach: Reach) -> Dict[Picked, Verdict]:
    """Returns the verdict of a check on each of the changes that were tried at once."""
    changed = {it.node(): it for it in picked}
    found: Dict[Picked, Verdict] = {}
    doubtful: Set[Node] = set()
    for refusal in refusals_in(said, picked[0].crate, texts):
        stands_on = reach.stands_on(refusal.nodes) & set(changed)
        doubtful |= stands_on
        for node in stands_on if len(stands_on) == 1 else ():
            # What stands on a definition that is refused as it is written is refused for that
            if node in refusal.nodes:
                found[changed[node]] = Verdict(UNTRIED, "its definition is refused as written")
            found.setdefault(changed[node], Verdict(REFUSED, refusal.what))
    judged = wrong_bodies.JUDGED.search(said) or re.search(r"^logic=", said, re.MULTILINE)
    left = Verdict(SURVIVES) if judged else Verdict(UNDECIDED, "the check was stopped")
    return {it: found.get(it, Verdict(UNDECIDED) if it.node() in doubtful else left) for it in picked}


class Judge:
    """The check of a crate over changes of its definitions."""

    def __init__(self, crate: str, built: wrong_bodies.Built, most: int) -> None:
        self.crate, self.most = crate, most
        self.reach = Reach(wrong_bodies.folder_of(crate))
        self.kept = tempfile.TemporaryDirectory(prefix="definitions-")
        self.words = [*built.words(crate), "--incremental", self.kept.name]

    def own_judge(self, it: Picked, others: Set[Node]) -> str:
        """Returns the nearest function that stands on the definition of a change, and on none of some others; empty if
        there is none."""
        names = self.reach.judges(it.node())[:self.most + FURTHER]
        return next((name for name in names if not others & self.reach.stands_on([("", name.split("::")[-1])])), "")

    def judges_of(self, picked: Sequence[Picked], most: int) -> List[str]:
        """Returns functions that are to judge changes at once: for each its own one and the nearest others, at most so
        many; empty if one of the changes has none of its own."""
        names: Set[str] = set()
        for it in picked:
            own = self.own_judge(it, {other.node() for other in picked} - {it.node()})
            if not own:
                return []
            names |= {own, *self.reach.judges(it.node())[:most - 1]}
        return sorted(names)

    def groups(self, picked: Sequence[Picked], at_once: int) -> Iterator[List[Picked]]:
        """Yields changes in groups of at most so many, each of which has a judge of its own."""
        left = list(picked)
        while left:
            group = left[:1]
            for it in left[1:]:
                if len(group) < at_once and it.node() not in {other.node() for other in group}:
                    group += [it] if self.judges_of([*group, it], 1) else []
            yield group
            left = [it for it in left if it not in group]

    def tried_at_once(self, picked: Sequence[Picked], names: Sequence[str]) -> Dict[Picked, Verdict]:
        """Returns the verdicts of a check of some functions, or of the whole crate without names, on changes that are
        tried at once."""
        kept = self.reach.with_called(names, {it.node() for it in picked})
        said, texts = checked(self.words, self.crate, picked, names, kept)
        extent = ", ".join(names) if names else "the whole crate"
        return {it: Verdict(SURVIVES, extent) if verdict == Verdict(SURVIVES) else verdict
                for it, verdict in verdicts_of(said, texts, picked, self.reach).items()}

    def laws_of(self, picked: Sequence[Picked]) -> List[str]:
        """Returns the laws and worked cases that stand on the definitions of changes."""
        return sorted({name for it in picked for name in self.reach.judges(it.node(), True)})

    def rounds(self, picked: Sequence[Picked], at_once: int, step: int) -> Iterator[Tuple[List[Picked], List[str]]]:
        """Yields the changes that are tried at once in a step, with the functions that judge them; the last step has no
        names, and is of the whole crate. Changes that the step cannot judge are left out."""
        if step == LAWS:
            judged = [it for it in picked if self.laws_of([it])]
            yield from ((group, self.laws_of(group)) for group in apart(judged, at_once))
        else:
            most = {NEAREST: 1, SEVERAL: self.most, WHOLE: 0}[step]
            for group in self.groups(picked, max(1, at_once >> step - 1)):
                yield group, self.judges_of(group, most) if most else []

    def tried(self, picked: Sequence[Picked], at_once: int, whole: bool) -> Iterator[Tuple[Picked, Verdict]]:
        """Yields the verdict on each change: of the laws, of its nearest judge, of as many as are asked for, and of the
        whole crate if that is asked for. What one step leaves is tried by the next one, among fewer changes."""
        left = {it: Verdict(NO_JUDGE) for it in picked}
        for step in (LAWS, NEAREST, SEVERAL, *([WHOLE] if whole else [])):
            judged = [it for it in left if self.reach.judges(it.node())]
            for group, names in self.rounds(judged, at_once, step):
                left.update(self.tried_at_once(group, names))
            yield from (both for both in left.items() if both[1].word in (REFUSED, UNTRIED))
            left = {it: verdict for it, verdict in left.items() if verdict.word not in (REFUSED, UNTRIED)}
        yield from left.items()


def apart(picked: Sequence[Picked], most: int) -> Iterator[List[Picked]]:
    """Yields changes in groups of at most so many, each of another definition."""
    left = list(picked)
    while left:
        nodes = list(dict.fromkeys(it.node() for it in left))[:most]
        group = [next(it for it in left if it.node() == node) for node in nodes]
        yield group
        left = [it for it in left if it not in group]


def asked_of(words: List[str]) -> argparse.Namespace:
    """Returns the parsed words."""
    parser = Words("tools/attack definitions", __doc__)
    parser.add_argument("--seed", default="1")
    parser.add_argument("--number", type=int, default=20)
    parser.add_argument("--write", type=Path)
    parser.add_argument("--judges", type=int, default=3)
    parser.add_argument("--at-once", type=int, default=8)
    for word in ("--built", "--whole", "--unneeded"):
        parser.add_argument(word, action="store_true")
    parser.add_argument("crates", nargs="*", metavar="CRATE")
    asked = parser.parse_args(words)
    if asked.unneeded == bool(asked.crates):
        parser.error("either crates are named, or --unneeded")
    missing = [it for it in asked.crates if not (ROOT / "crates" / it / "specs").is_dir()]
    if missing or min(asked.number, asked.judges, asked.at_once) < 1:
        parser.error(f"no crate with definitions is called {missing[0]}" if missing else "a number is at least 1")
    return asked


def told(it: Picked, verdict: Verdict) -> None:
    """Prints a change, and the verdict on it."""
    print(f"{it.crate}/{it.name}: {verdict.word} {verdict.why}".rstrip(), flush=True)
    for old, new in it.change.pairs:
        print(f"  - {old.strip()}\n  + {new.strip()}", flush=True)


def main(words: List[str]) -> int:
    """Changes the definitions of the crates that the words name, and returns the exit status."""
    asked = asked_of(words)
    if asked.unneeded:
        for path, name in unneeded(ROOT):
            print(f"{path}: {name}")
        return 0
    sums: Dict[str, int] = {}
    built = wrong_bodies.Built() if asked.built else None
    for crate in asked.crates:
        picked = picked_of(ROOT, crate, asked.seed, asked.number)
        if asked.write:
            written(asked.write, picked)
        results: Iterator[Tuple[Picked, Verdict]] = iter([(it, Verdict("picked")) for it in picked])
        if built:
            results = Judge(crate, built, asked.judges).tried(picked, asked.at_once, asked.whole)
        for it, verdict in results:
            told(it, verdict)
            sums[verdict.word] = sums.get(verdict.word, 0) + 1
    print(", ".join(f"{number} {word.removesuffix(' by')}" for word, number in sorted(sums.items())) or "no change")
    return 0 if set(sums) - {UNTRIED, NO_JUDGE, UNDECIDED} else 1
