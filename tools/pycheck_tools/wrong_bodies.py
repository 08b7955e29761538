"""Tries wrong bodies of functions: each must be refused by the prover, and the control beside it accepted.

    tools/wrong_bodies CRATE..
    tools/wrong_bodies --quick CRATE..
    tools/wrong_bodies --built [--all] [--keep] [--skip-missing] [--within SECONDS] [CRATE..]
    tools/wrong_bodies --stale [CRATE..]
    tools/wrong_bodies --list

`wrong_bodies/CRATE/` holds edits of the same form as those in a crate's `must-fail/`, each of functions alone, or of definitions with
a line `law: NAME` that names a law which they make false. They are kept apart since `rt ci` proves a whole crate anew for the first
edit of its `must-fail/`, and much of it for each other one.
This tool copies the repository to a folder that it removes again, puts the edits of each named crate in place, beside those of
`must-fail/`, and runs `rt must-fail` there. `--list` proves nothing: it prints how many edits each crate has, and each edit that
fits its file no longer. The exit status is 1 where an edit is not refused, or does not fit.

A line `control: TEXT` behind a `new:` line has what the control puts in the place of the same old text: a change of the same form that
keeps the meaning. The control must be accepted, and then a refusal of the edit counts only where a goal of its function stays open that
has to do with its meaning: what it ensures, what a call in it requires, an invariant. It does not count where the proof names what the
edit took away or has a step of another type, nor for an overflow, an index, or a loop without a measure, nor where the check was
stopped. A law has a proof by hand alone, so there the refusal of that proof counts, which holds of the control. A line
`control: none: REASON` says why an edit has none. Without a control a refusal does not count either if all that stays open of its
function is an overflow, an index, or a loop without a measure; that of a step of its proof counts, which a control could not pass.

`--quick` tries many edits at once, each in another function, and proves these functions alone (`rt check --only`). The proof of a
function knows no more of another one than its contract, so each is judged as if its edit stood alone. It prints a line for each
edit, and names those that it cannot try: edits of definitions that name no law, and of what stands outside functions. Where a
function calls one whose edit was refused, or is of one cycle of calls with it, its own edit is tried once more without the other. An
edit of definitions counts if the proof of its law is refused. It is tried beside others only if its law stands on none of what they
change, and their functions and laws on nothing that it changes, as tools/pycheck_tools/grounds.py reads the files. It is tried once more
alone if that check does not refuse its law, or refuses it for a name, or refuses a definition as it is written. The controls of a
crate are tried after its edits in the same way, those of definitions at once.

`--built` does the same over the libraries that `rt ci` built of the present files, and left in `crates/NAME/out`: so it proves no
library again, and the gate tries the edits of `wrong_bodies/` by it. Nor does it prove the functions that no edit changes: of these it
leaves the contract alone, as tools/pycheck_tools/assumed.py says. It leaves out those in a folder `wrong_bodies/CRATE/apart/`, for
which the gate has no time, and the controls whose verdict `wrong_bodies/CONTROLS.md` keeps for the present files. It tries them too with
`--all`. As many checks run side by side as there are processors and memory. It prints what is not refused, or only in a way that does
not count, each crate that it cannot try since a library is not there, how many edits there are in files and how many of them were
tried, and last how many were refused, how many were not, and how many were skipped. The exit status is 1 too where not every file was
tried. With `--skip-missing`, which is for use by hand, a crate whose library is not there is skipped, and its edits count neither way.
With `--keep`, the page takes the verdicts on the controls. With `--within` no check begins after so many seconds: each edit that is left
then is printed as skipped, which is no fault: a run that is lost tells less.

`--stale` tries the edits in a folder `apart` whose verdict in `wrong_bodies/APART.md` is of other files, and writes their rows anew.

How an edit is read stands here for `tools/check edits` too, and is how `rt` reads it but for the lines `law:` and `control:`.
"""
from __future__ import annotations

import argparse
import importlib
import math
import os
import re
import shutil
import subprocess
import sys
import tempfile
import time
from concurrent.futures import ThreadPoolExecutor
from functools import lru_cache
from pathlib import Path
from types import ModuleType
from typing import Callable, Dict, Iterator, List, NamedTuple, Optional, Set, Tuple

from . import ROOT, sums
from .assumed import as_proved, assume
from .grounds import Grounds, declared_at_place
from .reach import Node
from .rt_files import FUNCTION, Changed, function_at, function_of
from .words import Words

KEPT = ROOT / "wrong_bodies"
# The folder, below that of a crate, of the edits that the gate leaves out
APART = "apart"
NAME = re.compile(r"[A-Za-z0-9_-][A-Za-z0-9_.-]*\.edit")
PARTS = ("src/", "specs/", "proofs/")
VERDICT = re.compile(r"^fn (\S+): (proved|(?:not proved|no proof).*)$", re.MULTILINE)
# The reasons why a function is not proved that may be due to the functions that it calls
OF_CALLED = re.compile(r"(?:not proved; )?it calls (.*), which (?:is|are) not proved"
                       r"|the borrow checker's part in its proof is not made yet: a call of (\S+), which has no proof: .*")
# The beginning of such a reason that is due to another function of its cycle of calls
OF_CYCLE = re.compile(r"(?:not proved; |the borrow checker's part in its proof is not made yet: )?"
                      r"in `[^`]*`, of this cycle of calls[:,] ")
# The verdicts on an edit: it is refused as it must be, or other functions that it depends on are not proved
REFUSED = "refused"
ACCEPTED = "ACCEPTED"
UNTOLD = "not tried: its function calls one that is not proved"
LATE = "the time of the gate ran out"
NO_VERDICT = "not tried: no verdict on its function"
UNCLEAR = "not tried: what was tried beside it leaves its verdict open"
BY_NAMES = "refused only since a proof file names what it took away: change a value, and keep the names"
BY_TYPES = "refused only since a step of its proof has another type: that leaves no goal open"
BY_DUTIES = "refused only for a duty that has nothing to do with its meaning: an overflow, an index or a measure"
BY_NOTHING = "refused, and the check names no goal that is open"
# A message of a check about a place in a file, and the words of one about a name that no longer exists
TOLD = re.compile(r"^(?:note: )?(?:\./)?((?:src|proofs)/\S+?):(\d+):\d+: (.*)$", re.MULTILINE)
REFUSED_AS_WRITTEN = re.compile(r"^(?:\./)?specs/\S+?:\d+:\d+: error", re.MULTILINE)
OF_A_NAME = re.compile(r"has no field|is not in scope|has no `|was not admitted|which was rejected, was not checked")
# The message of a check about a goal that it left open, and the words of one that concerns the meaning of a function
OPEN = re.compile(r"it is not proved that (.*)")
OF_MEANING = re.compile(r"what the function ensures |what `.*` requires holds at this call|control never comes here"
                        r"|the invariant (?:of|that rattle tried for) the loop holds|the .*`invariant`|the struct's ghost fields")
FAILING = re.compile(r"error: `(?:returns[^`]*|invariant_of[^`]*|[^`]*-preserved)`: .*(?:the goal fails, at |`search`: no proof of )")
# The last line of a check of functions that was not stopped
JUDGED = re.compile(r"^only=\d+ proved=\d+$", re.MULTILINE)
# The lines of an edit that `rt` does not read
OWN_LINES = "law:", "control:"
# The memory that a check may take, in bytes
ROOM = 4_000_000_000


def folder_of(crate: str) -> Path:
    """Returns the crate's folder."""
    return ROOT / "crates" / crate


class Misfit(Exception):
    """An edit does not fit the files of its crate; the text says why."""


TOO_EARLY = "a 'new:' line stands before any 'file:' or 'old:' line"


def text_of(word: str, line: str) -> str:
    """Returns the text after the word of a line."""
    text = line[len(word):]
    return text[1:] if text.startswith(" ") else text


class Edited:
    """The files of a crate as an edit changes them, or as its control does, line by line of the edit."""

    def __init__(self, crate: str, control: bool = False) -> None:
        self.folder, self.path, self.old, self.new = folder_of(crate), "", "", ""
        self.control, self.controls, self.why_none = control, 0, ""
        self.laws: Set[str] = set()
        self.texts: Dict[str, str] = {}
        self.first: Dict[str, str] = {}
        self.functions: Set[Optional[Changed]] = set()
        # Where old texts stand: the file, the line, which counts from one, and the file's text before the change
        self.places: List[Tuple[str, int, str]] = []

    def names(self) -> Set[str]:
        """The ends of the names of the functions that change, and of the laws that are to be refused."""
        return {it.name for it in self.functions if it} | self.laws

    def proofs(self) -> Set[str]:
        """The units of proof that are to be refused."""
        return {it.proof for it in self.functions if it} | self.laws

    def of_definitions(self) -> bool:
        """Whether anything outside functions changes."""
        return None in self.functions

    def changes(self) -> Set[Node]:
        """Returns the declarations and functions that change; none if a change is in neither, such as an import of a
        definition."""
        found = [declared_at_place(path, line, text) for path, line, text in self.places]
        return {node for nodes in found for node in nodes} if all(found) else set()

    def words(self) -> List[str]:
        """Returns the words by which a check proves the functions and laws that are to be refused, and nothing else."""
        return [word for name in sorted(self.names()) for word in ("--only", name)]

    def take(self, line: str) -> None:
        """Reads a line of the edit."""
        if line.startswith("file: "):
            self.path = line[len("file: "):].strip()
            if os.path.normpath(self.path) != self.path or not self.path.startswith(PARTS):
                raise Misfit("a 'file:' line names no file below src/, specs/ or proofs/")
        elif line.startswith("law: "):
            self.take_law(line[len("law: "):].strip())
        elif line.startswith("old: "):
            self.old = line[len("old: "):]
        elif line.startswith("new:"):
            self.take_new(text_of("new:", line))
        elif re.match(r"control: none(:|$)", line):
            self.take_none(line[len("control: none"):])
        elif line.startswith("control:"):
            self.take_control(text_of("control:", line))
        elif line.strip() and not line.startswith(("#", "--", "//")):
            raise Misfit(f"a line is not read: {line.strip()[:60]}")

    def take_new(self, new: str) -> None:
        """Reads the new text of an edit. If the control is to be applied, the old text stays until that is read."""
        self.new = self.old
        if not self.control:
            self.replace(new)
        elif not self.path or not self.old:
            raise Misfit(TOO_EARLY)

    def take_control(self, text: str) -> None:
        """Reads the text that the control of an edit puts in the place of the old text before it."""
        if not self.new or self.why_none:
            raise Misfit("a 'control:' line stands behind no 'new:' line of its own, or beside a reason why there is none")
        if text == self.new:
            raise Misfit("a control changes nothing")
        self.controls += 1
        if self.control:
            self.replace(text)
        self.new = ""

    def take_none(self, text: str) -> None:
        """Reads the reason why an edit has no control."""
        reason = re.fullmatch(r": (\S.*)", text)
        if not reason or self.controls or self.why_none:
            raise Misfit("'control: none' has no reason behind it, or stands beside a control")
        self.why_none = reason[1]

    def take_law(self, name: str) -> None:
        """Reads the name of a law of the crate, such as `laws::one_refusal`."""
        module, _, law = name.rpartition("::")
        file = self.folder / "src" / f"{module.replace('::', '/')}.rt"
        if not file.is_file() or not re.search(rf"^pub fn {re.escape(law)}(<.*>)?\(\)$", file.read_text(encoding="utf-8"), re.M):
            raise Misfit(f"there is no law {name}")
        self.laws.add(name)

    def replace(self, new: str) -> None:
        """Puts a new text in the place of the old one, which must occur once in the file."""
        if not self.path or not self.old:
            raise Misfit(TOO_EARLY)
        if self.path not in self.texts:
            if not (self.folder / self.path).is_file():
                raise Misfit(f"there is no file {self.path}")
            self.texts[self.path] = self.first[self.path] = (self.folder / self.path).read_text(encoding="utf-8")
        times = self.texts[self.path].count(self.old)
        if times != 1:
            raise Misfit(f"an 'old:' text is in {self.path} {times} times")
        before, behind = self.texts[self.path].split(self.old)
        is_import = self.old.lstrip().startswith("use ")
        if not is_import or not self.path.startswith("src/"):
            self.places.append((self.path, before.count("\n") + 1, self.texts[self.path]))
        if not is_import:
            # An edit of a function's head changes that function
            upto = before + self.old if FUNCTION.match(self.old) else before
            self.functions.add(function_at(self.path, upto) if self.path.startswith("src/") else None)
        self.texts[self.path] = before + new + behind
        self.old = ""

    def take_all(self, edit: Path) -> None:
        """Reads each line of an edit. Only its last control is kept."""
        self.new, self.controls, self.why_none = "", 0, ""
        for line in edit.read_text(encoding="utf-8").split("\n"):
            self.take(line)


def misfit(crate: str, edit: Path) -> Optional[str]:
    """Returns why the edit does not fit the crate's files, or None if it does: each `old:` text must occur once in its
    file."""
    if not NAME.fullmatch(edit.name):
        return "its name is not of letters, digits, _, - and . with .edit at the end"
    edited, control = Edited(crate), Edited(crate, True)
    try:
        edited.take_all(edit)
        control.take_all(edit)
    except (Misfit, OSError, UnicodeDecodeError) as fault:
        return str(fault)
    if edited.controls and control.texts == edited.texts:
        return "its control is the edit itself"
    return None if edited.texts != edited.first else "it changes nothing"


def edits_in(folder: Path) -> List[Path]:
    """Returns all files below a folder of edits except pages that are only to be read; each of them has to be an
    edit."""
    return sorted(file for file in folder.rglob("*") if file.is_file() and file.suffix != ".md")


def listed() -> bool:
    """Prints the crates with their edits and those that do not fit. Returns whether there are edits, and all fit."""
    folders = sorted(folder for folder in KEPT.iterdir() if folder.is_dir())
    fits = bool(folders)
    for folder in folders:
        edits = edits_in(folder)
        print(f"{folder.name}: {len(edits)}")
        for edit in edits:
            why = misfit(folder.name, edit)
            if why:
                print(f"  {edit.name}: {why}")
                fits = False
    return fits


def is_of_functions(crate: str, edit: Path) -> bool:
    """Whether an edit changes functions alone, or definitions with a law that they make false."""
    edited = alone(crate, [edit])
    return edited.of_definitions() if edited.laws else bool(edited.functions) and not edited.of_definitions()


def edits_of(crate: str, with_apart: bool = True) -> List[Path]:
    """Returns the edits of a crate, or those of them that the gate tries."""
    return [edit for edit in edits_in(KEPT / crate) if with_apart or edit.parent.name != APART]


def others_of(crate: str) -> List[Path]:
    """Returns the edits of a crate that change other things than functions, and name no law."""
    return [edit for edit in edits_of(crate) if not is_of_functions(crate, edit)]


def rounds_of(crate: str, with_apart: bool = True, chosen: Optional[Set[Path]] = None) -> Iterator[List[Path]]:
    """Yields the edits of a crate, or the chosen ones, in rounds of edits that are tried at once. Those of functions come
    first, since functions that are proved in one round prove those that they call once, and of either sort those that
    may share a round with the fewest others, so that there are few rounds."""
    others = others_of(crate)
    edits = [edit for edit in edits_of(crate, with_apart) if edit not in others and (chosen is None or edit in chosen)]
    rivals = rivals_of(crate, edits)
    left = sorted(edits, key=lambda edit: (bool(alone(crate, [edit]).laws), -len(rivals[edit])))
    while left:
        taken: List[Path] = []
        for edit in left:
            if not rivals[edit] & set(taken) and fit(crate, [*taken, edit]):
                taken.append(edit)
        yield taken
        left = [edit for edit in left if edit not in taken]


@lru_cache(maxsize=None)
def grounds_of(crate: str) -> Grounds:
    """Returns the grounds of the laws and the functions of a crate."""
    return Grounds(folder_of(crate))


def rivals_of(crate: str, edits: List[Path]) -> Dict[Path, Set[Path]]:
    """Returns for each edit those with which it cannot be tried at once, since they change one unit of proof, or since
    the refusal of one may be due to the other. Edits of functions alone may be tried beside those of functions that
    they call: the check says where a refusal is due to these."""
    edited = {edit: alone(crate, [edit]) for edit in edits}
    changes = {edit: it.changes() for edit, it in edited.items()}
    grounds = {edit: grounds_of(crate).of(it.names()) for edit, it in edited.items()}
    # One whose law does not stand on what it changes, as far as the files say, shares no round
    unknown = {edit for edit, it in edited.items() if not changes[edit] or it.laws and not changes[edit] & grounds[edit]}

    def are_rivals(one: Path, other: Path) -> bool:
        if not edited[one].laws and not edited[other].laws:
            return bool(edited[one].proofs() & edited[other].proofs())
        return bool({one, other} & unknown or changes[one] & grounds[other] or changes[other] & grounds[one])

    return {one: {other for other in edits if other != one and are_rivals(one, other)} for one in edits}


def fit(crate: str, edits: List[Path]) -> bool:
    """Whether edits fit the files of a crate together. One alone is taken as it is."""
    try:
        return len(edits) == 1 or bool(alone(crate, edits).texts)
    except Misfit:
        return False


def alone(crate: str, edits: List[Path], control: bool = False) -> Edited:
    """Returns the files of a crate as only these edits change them, or as their controls do."""
    edited = Edited(crate, control)
    for edit in edits:
        edited.take_all(edit)
    return edited


def has_control(crate: str, edit: Path) -> bool:
    """Whether an edit has a control."""
    return alone(crate, [edit]).controls > 0


def sum_of_control(crate: str, edit: Path) -> str:
    """Returns the sum of the texts by which an edit and its control are tried: the edit, its functions or laws, their
    proofs, and the definitions that it changes."""
    edited, folder = alone(crate, [edit]), folder_of(crate)
    names = {name.split("::")[-1] for name in edited.names()}
    files = {path for path in edited.first if not path.startswith("src/")}
    names |= {name.lstrip("+") for name in edited.proofs()}
    proofs = {file for file in (folder / "proofs").rglob("*.antt") if file.parent.name.lstrip("+") in names}
    sources = [function_of(file.read_text(encoding="utf-8"), str(file.relative_to(folder)), edited.names())
               for file in sorted((folder / "src").rglob("*.rt"))]
    return sums.sum_of([edit.read_text(encoding="utf-8"), *sources, *((folder / it).read_text(encoding="utf-8") for it in sorted(files)),
                        *(it.read_text(encoding="utf-8") for it in sorted(proofs))])


def fit_together(crate: str, edits: List[Path]) -> bool:
    """Whether the controls of edits can be tried at once: those of functions change no function and no cycle of calls twice."""
    *others, last = edits
    new, rest = alone(crate, [last], True), alone(crate, others, True)
    if others and (new.of_definitions() != rest.of_definitions() or not new.of_definitions() and new.proofs() & rest.proofs()):
        return False
    try:
        return bool(alone(crate, edits, True).texts)
    except Misfit:
        return not others


def control_rounds(crate: str, edits: List[Path]) -> Iterator[List[Path]]:
    """Yields edits in rounds in which their controls are tried at once. Controls of definitions keep the meaning of each,
    so all laws that they name are proved over all of them."""
    left = edits
    while left:
        chosen: List[Path] = []
        for edit in left:
            if fit_together(crate, [*chosen, edit]):
                chosen.append(edit)
        yield chosen
        left = [edit for edit in left if edit not in chosen]


def says_of_itself(function: str, why: str) -> bool:
    """Whether the reason of a check for a function that is not proved concerns its own body, or a closure there, and
    not other functions that it calls or that are in its cycle."""
    text = why.removeprefix("no proof: ")
    reasons = [text] if text.startswith(("not proved; ", "the borrow checker's part in")) else text.split("; ")
    closures = "`" + function.replace("::", "::fn::", 1) + "::"
    called = [OF_CALLED.fullmatch(it) for it in reasons if not OF_CYCLE.match(it)]
    return any(it is None or closures in it[0] for it in called)


def verdict_of(functions: Set[str], told: Dict[str, str], is_alone: bool) -> str:
    """Returns the verdict on an edit of these functions, given the verdicts of a check. A function whose own body is
    not proved refuses the edit; any function does so if the edit was tried alone, since all others are then as they are
    proved."""
    found = {name: told[name] for end in functions for name in told if f"::{name}".endswith(f"::{end}")}
    refused = {name: verdict for name, verdict in found.items() if verdict != "proved"}
    if refused:
        return REFUSED if is_alone or any(says_of_itself(*it) for it in refused.items()) else UNTOLD
    return ACCEPTED if found else NO_VERDICT


def is_at(edited: Edited, function: Changed, path: str, line: int) -> bool:
    """Whether a place in the files that edits change is in a function or in its proof."""
    last = function.name.split("::")[-1]
    if path.startswith("proofs/"):
        return Path(path).parent.name in (last, f"+{last}", function.proof)
    lines = edited.texts.get(path, "").split("\n")
    # A goal of a cycle of calls is reported at the lines directly above its function
    while line < len(lines) and lines[line - 1].lstrip().startswith(("#[", "//")):
        line += 1
    here = function_at(path, "\n".join(lines[:line]))
    return here is not None and here.name == function.name


def is_open(path: str, text: str) -> bool:
    """Whether a message says that a goal is open that concerns the meaning of a function. In a proof by hand the
    message has values at which the goal fails."""
    goal = OPEN.search(text)
    return bool(OF_MEANING.match(goal[1])) if goal else path.startswith("proofs/") and FAILING.match(text) is not None


def told_of(edited: Edited, functions: Set[Optional[Changed]], said: str) -> List[Tuple[str, str]]:
    """Returns the files of a function or of its proof that a check reports, each with its message."""
    places = [(path, int(line), text) for path, line, text in TOLD.findall(said)]
    return [(path, text) for path, line, text in places if any(it and is_at(edited, it, path, line) for it in functions)]


def is_of_names(told: List[Tuple[str, str]]) -> bool:
    """Whether all messages about functions say that their proofs name something that no longer exists. A check would
    say the same of an edit that changes the form of a function, and not its meaning."""
    return bool(told) and all(path.startswith("proofs/") and OF_A_NAME.search(text) for path, text in told)


def is_of_duties(told: List[Tuple[str, str]]) -> bool:
    """Whether all messages about functions are about goals that have nothing to do with their meaning, such as an
    overflow. A body that computes the same by other steps may have such goals too."""
    return bool(told) and all(OPEN.search(text) and not is_open(path, text) for path, text in told)


def counted(told: List[Tuple[str, str]]) -> str:
    """Returns the verdict on an edit that is refused, and whose control is accepted. The edit must leave a goal open
    that concerns the meaning of its function."""
    if any(is_open(*it) for it in told):
        return REFUSED
    if any(OPEN.search(text) for _, text in told):
        return BY_DUTIES
    return BY_TYPES if told else BY_NOTHING


def verdict_on_law(crate: str, edited: Edited, verdict: str, said: str, whole: Edited) -> str:
    """Returns the verdict on an edit of definitions that was tried beside others, given that of its law. It is refused if
    a message about what its law stands on says more than that a name is gone. Where a definition is refused as it is
    written, so may be what does not stand on it."""
    ground = grounds_of(crate).of(edited.laws)
    texts = {path: whole.texts[path] if path in whole.texts else (folder_of(crate) / path).read_text(encoding="utf-8")
             for path, _, _ in TOLD.findall(said) if (folder_of(crate) / path).is_file()}
    told = [(path, text) for path, line, text in TOLD.findall(said)
            if path in texts and declared_at_place(path, int(line), texts[path]) & ground]
    is_clear = verdict == REFUSED and told and not is_of_names(told) and not REFUSED_AS_WRITTEN.search(said)
    return REFUSED if is_clear else UNCLEAR


def verdicts_of(crate: str, edits: List[Path], said: str) -> Dict[Path, str]:
    """Returns the verdict of a check on each of some edits."""
    told, whole, found = dict(VERDICT.findall(said)), alone(crate, edits), {}
    for edit in edits:
        edited = alone(crate, [edit])
        found[edit] = verdict_of(edited.names(), told, edits == [edit])
        if edited.laws and edits != [edit]:
            found[edit] = verdict_on_law(crate, edited, found[edit], said, whole)
        elif found[edit] == REFUSED and (edited.controls or not edited.laws):
            places = [(path, text) for path, _, text in TOLD.findall(said)] if edited.laws else told_of(whole, edited.functions, said)
            if is_of_names(places):
                found[edit] = BY_NAMES
            elif edited.controls and not edited.laws:
                found[edit] = counted(places)
            elif not edited.laws and is_of_duties(places):
                found[edit] = BY_DUTIES
    return found


def asked_again(verdicts: Dict[Path, str]) -> List[List[Path]]:
    """Returns the edits, round by round, that are to be tried again. One whose verdict is open is tried alone. One whose
    function calls one that another edit of the round changes is tried without those that were refused; each is tried
    alone if the check has no verdict on any of them."""
    open_ones = [[edit] for edit, verdict in verdicts.items() if verdict == UNCLEAR]
    if set(verdicts.values()) - {UNTOLD, NO_VERDICT, UNCLEAR}:
        again = [edit for edit, verdict in verdicts.items() if verdict == UNTOLD]
        return open_ones + ([again] if again else [])
    return [[edit] for edit in verdicts] if len(verdicts) > 1 else []


def checked_in(copy: Path, crate: str, edits: List[Path], control: bool) -> str:
    """Returns the output of `rt check` for the functions that edits or their controls change, in a copy of the
    repository."""
    edited, folder = alone(crate, edits, control), copy / "crates" / crate
    for path, text in edited.texts.items():
        (folder / path).write_text(text, encoding="utf-8")
    run = subprocess.run(["rt", "check", *edited.words()], cwd=folder, check=False, stdout=subprocess.PIPE, stderr=subprocess.STDOUT)
    for path, text in edited.first.items():
        (folder / path).write_text(text, encoding="utf-8")
    said = run.stdout.decode("utf-8", "replace")
    if not VERDICT.search(said):
        print(said, file=sys.stderr)
    return said


def tried_quickly(copy: Path, crate: str) -> bool:
    """Tries the edits of a crate in a copy of the repository, and prints a verdict for each. Returns whether all are
    refused."""
    for edit in others_of(crate):
        print(f"{crate}/{edit.name}: not tried: it does not change functions alone, and names no law")
    task = Task(lambda edits, control: checked_in(copy, crate, edits, control), crate, list(rounds_of(crate)), True, tells=False)
    found = verdicts_of_crate(task)
    for edit, verdict in found.items():
        print(f"{crate}/{edit.name}: {verdict}", flush=True)
    return all(verdict == REFUSED for verdict in found.values())


def tried(crates: List[str], quickly: bool) -> bool:
    """Tries the edits of the crates in a copy of the repository. Returns whether all are refused."""
    with tempfile.TemporaryDirectory(prefix="wrong-bodies-") as room:
        copy = Path(room) / ROOT.name
        shutil.copytree(ROOT, copy, ignore=shutil.ignore_patterns(".git"))
        if quickly:
            return all([tried_quickly(copy, crate) for crate in crates])
        for crate in crates:
            place = copy / "crates" / crate / "must-fail"
            place.mkdir(exist_ok=True)
            for edit in edits_of(crate):
                lines = edit.read_text(encoding="utf-8").split("\n")
                (place / edit.name).write_text("\n".join(it for it in lines if not it.startswith(OWN_LINES)), encoding="utf-8")
        return subprocess.run(["rt", "must-fail", *crates], cwd=copy, check=False).returncode == 0


class Unknown(Exception):
    """Nothing can be tried over what `rt ci` built; the text says why."""


def of_toolchain() -> ModuleType:
    """Returns the library of `rt` that checks a crate."""
    try:
        page = subprocess.run(["rt", "doc"], check=True, stdout=subprocess.PIPE, text=True).stdout.strip()
        sys.path.insert(0, str(Path(page).parent / "bin"))
        sys.dont_write_bytecode = True
        return importlib.import_module("rtlib")
    except (OSError, subprocess.CalledProcessError, ImportError) as fault:
        raise Unknown(f"the toolchain does not say how a crate is checked: {fault}") from fault


class Built:
    """The crates of the repository, with the libraries that were built from them."""

    def __init__(self) -> None:
        self.library = of_toolchain()
        self.crates = {crate.name: crate for crate in self.library.crates_below(str(ROOT))}

    def words(self, name: str) -> List[str]:
        """Returns the command that checks a crate in the present folder, over the libraries below it."""
        crate = self.crates[name]
        for below in crate.below():
            stamp = Path(below.rlib).parent / "stamp"
            if not Path(below.rlib).exists() or (stamp.exists() and not below.is_built()):
                raise Unknown(f"no library of {below.name} was built of the present files")
        return [self.library.RATTLE, "check", *crate.words(["--jobs", "1"], keeps=False)]


def checked_apart(words: List[str], crate: str, edits: List[Path], control: bool) -> str:
    """Returns the output of a check of the functions that edits or their controls change, in a folder of its own; empty if
    it was stopped. It is over the contracts alone of all others, or, if a hole would belong to no function, over their
    proofs."""
    edited = alone(crate, edits, control)
    for is_assumed in (True, False):
        with tempfile.TemporaryDirectory(prefix="wrong-bodies-") as room:
            for part in ("src", "specs", "proofs"):
                if (folder_of(crate) / part).is_dir():
                    shutil.copytree(folder_of(crate) / part, Path(room) / part)
            for path, text in edited.texts.items():
                (Path(room) / path).write_text(text, encoding="utf-8")
            holes = assume(Path(room), crate, edited.names()) if is_assumed else {}
            run = subprocess.run([*words, *(["--allow-holes"] if holes else []), *edited.words()], cwd=room, check=False,
                                 stdin=subprocess.DEVNULL, stdout=subprocess.PIPE, stderr=subprocess.STDOUT)
        output = run.stdout.decode("utf-8", "replace")
        said = as_proved(output, holes) if holes else output
        if JUDGED.search(said):
            return said
    print(said[-2000:], file=sys.stderr)
    return ""


class Task(NamedTuple):
    """How the edits of a crate are to be tried: the function that checks edits, or their controls; the rounds; whether
    controls with a kept verdict are tried too; the moment after which no check begins; and whether the output of a
    check with an unexpected result is printed."""

    check: Callable[[List[Path], bool], str]
    crate: str
    rounds: List[List[Path]]
    anew: bool
    until: float = math.inf
    tells: bool = True


def verdicts_of_round(task: Task, edits: List[Path]) -> Dict[Path, str]:
    """Returns the verdict on each edit of a round."""
    said = task.check(edits, False)
    verdicts = verdicts_of(task.crate, edits, said)
    again = asked_again(verdicts)
    found = {edit: verdict for edit, verdict in verdicts.items() if not any(edit in it for it in again)}
    if task.tells and any(verdict != REFUSED for verdict in found.values()):
        print(said[-2000:], file=sys.stderr)
    for it in again:
        found.update(verdicts_of_round(task, it))
    return found


def verdicts_of_controls(task: Task, edits: List[Path]) -> Dict[Path, str]:
    """Returns the verdicts on the controls of edits that are tried at once. Each is tried once more alone if the check
    does not accept all."""
    said = task.check(edits, True)
    told = dict(VERDICT.findall(said))
    found = {edit: verdict_of(alone(task.crate, [edit], True).names(), told, edits == [edit]) for edit in edits}
    again = [edit for edit, verdict in found.items() if verdict != ACCEPTED]
    if task.tells and edits == again[:1]:
        print(said[-2000:], file=sys.stderr)
    for edit in again if len(edits) > 1 else []:
        found.update(verdicts_of_controls(task, [edit]))
    return found


def verdicts_of_crate(task: Task) -> Dict[Path, str]:
    """Returns the verdict on each edit of a crate, with its control."""
    found: Dict[Path, str] = {}
    for edits in task.rounds:
        late = time.monotonic() > task.until
        found.update({edit: LATE for edit in edits} if late else verdicts_of_round(task, edits))
    kept = {} if task.anew else sums.kept_controls()
    asked = [edit for edit, verdict in found.items() if verdict == REFUSED and has_control(task.crate, edit)
             and kept.get(f"{task.crate}/{edit.stem}") != sum_of_control(task.crate, edit)]
    for edits in control_rounds(task.crate, asked):
        late = time.monotonic() > task.until
        told = {edit: LATE for edit in edits} if late else verdicts_of_controls(task, edits)
        found.update({edit: verdict if verdict == LATE else f"its control is {verdict}"
                      for edit, verdict in told.items() if verdict != ACCEPTED})
    return found


def size_of(crate: str) -> int:
    """Returns the length of the files of a crate, by which the longest checks are begun first."""
    return sum(file.stat().st_size for part in PARTS for file in (folder_of(crate) / part).rglob("*") if file.is_file())


def lanes() -> int:
    """Returns how many checks may run side by side."""
    free = re.search(r"^MemAvailable: *(\d+) kB", Path("/proc/meminfo").read_text(encoding="utf-8"), re.MULTILINE)
    return max(1, min(len(os.sched_getaffinity(0)), int(free.group(1)) * 1024 // ROOM if free else 1))


class Asked(NamedTuple):
    """The parsed words about edits that are tried over what `rt ci` built."""

    crates: List[str]
    with_all: bool = False
    skips: bool = False
    until: float = math.inf
    chosen: Optional[Set[Path]] = None


def check_of(words: List[str], crate: str) -> Callable[[List[Path], bool], str]:
    """Returns a function that checks edits of a crate, or their controls. Its proofs of functions that none of them
    changes are kept for the next check, in a folder that is removed at the end."""
    kept = tempfile.TemporaryDirectory(prefix="wrong-bodies-")

    def check(edits: List[Path], control: bool) -> str:
        return checked_apart([*words, "--incremental", kept.name], crate, edits, control)

    return check


def tasks_of(asked: Asked) -> Tuple[List[Task], Dict[str, str]]:
    """Returns how the edits of each crate are to be tried, the longest first, and why those of the other crates cannot
    be."""
    missing: Dict[str, str] = {}
    tasks: List[Task] = []
    try:
        built = Built()
        for crate in sorted(asked.crates, key=size_of, reverse=True):
            try:
                rounds = list(rounds_of(crate, asked.with_all, asked.chosen))
                tasks.append(Task(check_of(built.words(crate), crate), crate, rounds, asked.with_all, asked.until))
            except Unknown as fault:
                missing[crate] = str(fault)
    except (Unknown, AttributeError, TypeError) as fault:
        return [], {crate: str(fault) for crate in asked.crates}
    return tasks, missing


def tried_as_built(asked: Asked) -> Tuple[bool, Dict[Path, str]]:
    """Tries the edits of the crates over what `rt ci` built, and prints the results. Returns whether each was refused,
    and the verdicts. If crates may be skipped, the former is about the crates alone whose libraries are there."""
    tasks, missing = tasks_of(asked)
    verdicts: Dict[Path, str] = {}
    with ThreadPoolExecutor(lanes()) as pool:
        for found in pool.map(verdicts_of_crate, tasks):
            verdicts.update(found)
    names = {it: f"{it.relative_to(KEPT).parts[0]}/{it.name}" for it in verdicts}
    faults = [f"{crate}/{edit.name}: it does not change functions alone, and names no law" for crate in asked.crates for edit in others_of(crate)]
    faults += [f"{names[it]}: {verdict}" for it, verdict in verdicts.items() if verdict not in (REFUSED, LATE)]
    late = [names[it] for it, verdict in verdicts.items() if verdict == LATE]
    for line in [*faults, *(f"{'skipped ' if asked.skips else ''}{crate}: {why}" for crate, why in missing.items())]:
        print(line)
    for name in late:
        print(f"skipped {name}: {LATE}")
    told = list(verdicts.values())
    refused, judged = told.count(REFUSED), sum(verdict not in (UNTOLD, NO_VERDICT, LATE) for verdict in told)
    files, untried = (sum(asked.chosen is None or it in asked.chosen for crate in those for it in edits_of(crate, asked.with_all))
                      for those in (asked.crates, missing))
    print(f"{files} edits in files, {judged} tried")
    failed, skipped = (len(faults), len(missing)) if asked.skips else (len(faults) + untried, 0)
    print(f"{refused} passed, {failed} failed, {skipped + len(late)} skipped")
    return not failed and bool(files) and judged + len(late) == files - (untried if asked.skips else 0), verdicts


def asked_of(words: List[str]) -> argparse.Namespace:
    """Returns the parsed words."""
    parser = Words("tools/wrong_bodies", __doc__, mistake=2)
    ways = parser.add_mutually_exclusive_group()
    for way in ("--list", "--quick", "--built", "--stale"):
        ways.add_argument(way, action="store_true")
    for word in ("--all", "--skip-missing", "--keep"):
        parser.add_argument(word, action="store_true")
    parser.add_argument("--within", type=float, metavar="SECONDS")
    parser.add_argument("crates", nargs="*", metavar="CRATE")
    asked = parser.parse_intermixed_args(words)
    if not asked.built and (asked.all or asked.skip_missing or asked.keep or asked.within is not None) or asked.list and asked.crates:
        parser.error("--all, --skip-missing, --keep and --within are for --built, and --list is of all crates")
    if (asked.built or asked.stale) and not asked.crates:
        asked.crates = sorted(folder.name for folder in KEPT.iterdir() if folder.is_dir())
    if not asked.list and (not asked.crates or any(not (KEPT / crate).is_dir() for crate in asked.crates)):
        parser.error("there are wrong bodies of other crates alone")
    return asked


def tried_stale(crates: List[str]) -> bool:
    """Tries those of the edits that the gate leaves out whose verdict is of other files. Returns whether each is
    refused, and writes the new verdicts into the page."""
    rows = sums.rows_of_apart()
    stale = {edit for crate in crates for edit in edits_of(crate)
             if edit.parent.name == APART and rows.get(f"{crate}/{edit.stem}") != sums.sum_of_crate(folder_of(crate))}
    if not stale:
        print("0 edits in files, 0 tried\n0 passed, 0 failed, 0 skipped")
        return True
    named = sorted({it.relative_to(KEPT).parts[0] for it in stale})
    passed, verdicts = tried_as_built(Asked(named, with_all=True, chosen=stale))
    refused = [it for it, verdict in verdicts.items() if verdict == REFUSED]
    sums.write_apart({f"{it.relative_to(KEPT).parts[0]}/{it.stem}": sums.sum_of_crate(folder_of(it.relative_to(KEPT).parts[0]))
                      for it in refused})
    return passed


def kept_of(verdicts: Dict[Path, str]) -> Dict[str, str]:
    """Returns the sums of the controls that were accepted, by the names of their edits; empty for one that was not
    accepted."""
    told = {it: it.relative_to(KEPT).parts[0] for it, verdict in verdicts.items() if verdict != LATE}
    return {f"{crate}/{it.stem}": sum_of_control(crate, it) if verdicts[it] == REFUSED and has_control(crate, it) else ""
            for it, crate in told.items()}


def main(words: List[str]) -> int:
    """Tries the edits that the words name, and returns the exit status."""
    asked = asked_of(words)
    if asked.list:
        return 0 if listed() else 1
    if asked.stale:
        return 0 if tried_stale(asked.crates) else 1
    if not asked.built:
        return 0 if tried(asked.crates, asked.quick) else 1
    until = math.inf if asked.within is None else time.monotonic() + asked.within
    passed, verdicts = tried_as_built(Asked(asked.crates, asked.all, asked.skip_missing, until))
    if asked.keep:
        sums.write_controls(kept_of(verdicts))
    return 0 if passed else 1
