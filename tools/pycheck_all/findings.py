"""The findings of the program in the files, and their counts."""
from __future__ import annotations

import bisect
import collections
import dataclasses
import functools
from typing import Counter, Dict, List, NamedTuple, Optional, Tuple

from . import silent
from .source import Place, Point, Text
from .spots import Spot
from .texts import plain

ERROR, DYNAMIC, REFUSED, GUIDE = "error", "dynamic", "refused", "guide"
# How many findings before one, and as many behind it, are near it
NEAR = 8


class Detail(NamedTuple):
    """What is wrong at a finding: a sentence, and the points where the other places that it is about begin."""

    text: str
    others: Tuple[Point, ...] = ()


@dataclasses.dataclass(frozen=True)
class Finding:
    """An error, a dynamic place or a refusal at a place in a file.

    A guide is a refusal that the program reports after earlier refused text was replaced; `headless` says that it is
    due to the missing first header. `flow` has the two types of a dynamic flow: that of the value, and that of its
    destination. `opened` is the open bracket, if one is not closed or is closed by a bracket of another kind. `known`
    says that the baseline lists the finding. `detail` says what is wrong, if the program does."""

    kind: str
    code: str
    place: Place
    flow: Optional[Tuple[str, str]] = None
    known: bool = False
    headless: bool = False
    opened: Optional[Place] = None
    detail: Optional[Detail] = None

    def fails(self, strict: bool) -> int:
        """Returns the exit status that the finding asks for."""
        if self.known or self.kind == GUIDE:
            return 0
        return {ERROR: 1, REFUSED: 2}.get(self.kind, int(strict))


@dataclasses.dataclass
class Checked:
    """The result for a file: its findings in the order of its text, or why it could not be checked.

    If all refusals were asked for, `complete` says that they are listed; otherwise `unlisted` says why they are not.
    Findings that are not shown are kept apart, in `hidden`."""

    path: str
    findings: List[Finding] = dataclasses.field(default_factory=list)
    text: Text = dataclasses.field(default_factory=lambda: Text(b""))
    failure: str = ""
    complete: bool = False
    unlisted: str = ""
    hidden: List[Finding] = dataclasses.field(default_factory=list)

    @property
    def everything(self) -> List[Finding]:
        """The findings that are shown, followed by those that are not."""
        return [*self.findings, *self.hidden]

    def status(self, strict: bool) -> int:
        """Returns the exit status of the file."""
        return 3 if self.failure else max((it.fails(strict) for it in self.everything), default=0)

    @property
    def refused(self) -> bool:
        """Whether the file is refused, known or not."""
        return any(it.kind == REFUSED for it in self.everything)

    @property
    def new(self) -> List[Finding]:
        """The findings that are not in the baseline."""
        return [it for it in self.findings if not it.known]

    @functools.cached_property
    def suspended(self) -> str:
        """A sentence that says which lines suspend the promise; empty if none does."""
        return silent.sentence([it.place.start.line for it in self.suspending]) if self.suspending else ""

    @functools.cached_property
    def suspending(self) -> List[Finding]:
        """The silent errors, which suspend the promise, in the order of their places, known findings included."""
        tells = silent.Silent(self.text.data)
        found = [it for it in self.everything if it.kind == ERROR and tells.kind(it.code, it.place.start.byte)]
        return sorted(found, key=lambda it: it.place.start.byte)

    def line_of(self, finding: Finding) -> str:
        """Returns the text of the line in which a finding starts, without blanks at its ends."""
        return self.text.line(finding.place.start.line).strip()

    @functools.cached_property
    def causes(self) -> Dict[Finding, Finding]:
        """The error from which each dynamic place follows that follows from one."""
        from . import following  # which needs this module

        return following.causes_in(self)

    @functools.cached_property
    def starts(self) -> List[int]:
        """The first byte of each finding that is shown."""
        return [it.place.start.byte for it in self.findings]

    def near(self, finding: Finding) -> List[Finding]:
        """Returns the findings that are shown around one, a few before it and behind it."""
        at = bisect.bisect_left(self.starts, finding.place.start.byte)
        return self.findings[max(0, at - NEAR) : at + NEAR]

    def spot_of(self, finding: Finding) -> Optional[Spot]:
        """Returns the word or sign at which a refusal is; None for other findings."""
        if finding.kind not in (REFUSED, GUIDE):
            return None
        spot = self.text.spot(finding.place.start.byte)
        return dataclasses.replace(spot, first=True) if finding.headless else spot


class Known(NamedTuple):
    """An entry of a baseline: a code, at a line with this text, in a file, this many times."""

    path: str
    code: str
    line: str
    times: int


@dataclasses.dataclass
class Project:
    """Everything that a run has to show. `left` counts what was left out: `excluded` the files and folders that
    --exclude or the settings of the project name, `outside` and `unmarked` the modules outside its core."""

    files: List[Checked]
    strict: bool = False
    excluding: str = "--exclude"
    left: Counter[str] = dataclasses.field(default_factory=collections.Counter)
    gone: List[Known] = dataclasses.field(default_factory=list)
    version: str = ""

    @property
    def status(self) -> int:
        """Returns the exit status: the worst of all files."""
        return max((it.status(self.strict) for it in self.files), default=0)

    def counted(self) -> Counter[str]:
        """Returns the counts: of files, of each kind of finding, of those that are known, of what was left out, and of
        files whose silent errors suspend the promise.

        A known finding counts as known alone; `refused` counts files, `guide` the refusals after the first."""
        counts: Counter[str] = collections.Counter(self.left)
        counts["files"] = len(self.files)
        for file in self.files:
            counts["failed"] += bool(file.failure)
            counts["unlisted"] += bool(file.unlisted)
            counts["suspended"] += bool(file.suspended)
            counts["hidden"] += sum(not it.known for it in file.hidden)
            for finding in file.everything:
                counts["known" if finding.known else finding.kind] += 1
        counts["gone"] = sum(it.times for it in self.gone)
        return counts

    def codes(self) -> Counter[str]:
        """Returns how often each code occurs, known findings included."""
        return collections.Counter(finding.code for file in self.files for finding in file.everything)


def has_guides(project: Project) -> bool:
    """Whether a guide that is not known is listed."""
    return any(it.kind == GUIDE for file in project.files for it in file.new)


def amount(number: int, one: str, many: str = "") -> str:
    """Returns a number with its noun."""
    return f"{number} {one if number == 1 else many or one + 's'}"


def summary(project: Project) -> str:
    """Returns the last line: the counts in words. Counts that are usually 0 are left out if they are 0."""
    counts = project.counted()
    parts = [amount(counts[ERROR], "error"), amount(counts[DYNAMIC], "dynamic place")]
    rest = [
        (REFUSED, "refused"),
        (GUIDE, "more refusals as a guide"),
        ("failed", "not checked"),
        ("known", "known"),
        ("gone", "known but gone"),
        ("excluded", f"left out by {project.excluding}"),
        ("outside", "left out as outside the core"),
        ("unmarked", "left out as not marked"),
    ]
    parts += [f"{counts[name]} {words}" for name, words in rest if counts[name]]
    if counts["suspended"]:
        where = f"(first at {first_suspending(project)})"
        parts.append(f"the promise suspended in {amount(counts['suspended'], 'file')} {where}")
    if counts["hidden"]:
        parts.append(not_shown(project))
    return f"{amount(counts['files'], 'file')}: {', '.join(parts)}"


def first_suspending(project: Project) -> str:
    """Returns the file, line, column and code of the first error that suspends the promise."""
    file = next(it for it in project.files if it.suspending)
    start = file.suspending[0].place.start
    return f"{plain(file.path)}:{start.line}:{start.column} {file.suspending[0].code}"


def not_shown(project: Project) -> str:
    """Returns how often each code is hidden, without known findings."""
    hidden = collections.Counter(it.code for file in project.files for it in file.hidden if not it.known)
    return "not shown: " + " ".join(f"{count} {code}" for code, count in sorted(hidden.items()))
