"""Brings a module nearer to the profile: rewrites it at the faults that the program finds, and asks whether that
helped."""
from __future__ import annotations

import os
import tempfile
import time
from typing import Callable, FrozenSet, Iterator, List, NamedTuple, Optional, Sequence, Set, Tuple

from . import files, fix_annotations, fix_cookbook, fix_expressions, fix_heads, fix_lines, fix_loops, fix_places
from . import fix_statements, fix_strings, fix_tuples, running
from .findings import DYNAMIC, ERROR, REFUSED, Checked
from .fix_module import Edit, Fix, Module, applied, overlap
from .program import Program, TooLong

Rewrite = Callable[[Module], Iterator[Fix]]
# The rewrites, in the order in which they are tried at a fault
REWRITES: Tuple[Rewrite, ...] = (
    fix_heads.docstrings,
    fix_heads.header,
    fix_heads.old_header,
    fix_heads.order,
    fix_heads.library,
    fix_strings.strings,
    fix_strings.numbers,
    fix_strings.formats,
    fix_lines.semicolons,
    fix_lines.inline,
    fix_lines.backslashes,
    fix_annotations.typing,
    fix_annotations.quotes,
    fix_expressions.comparisons,
    fix_statements.unpacking,
    fix_tuples.unpacked,
    fix_statements.chains,
    fix_statements.tuples,
    fix_expressions.conditionals,
    fix_expressions.comprehensions,
    fix_expressions.named,
    fix_statements.loop_else,
    fix_expressions.isinstances,
    fix_places.augmented,
    fix_loops.ranges,
    fix_cookbook.slices,
    fix_cookbook.methods,
    fix_cookbook.built_ins,
)
# Rewrites that are not made in a module that another one imports
OF_SCRIPTS: Tuple[Rewrite, ...] = (fix_heads.guarded_main,)
# The layers of refusals in their order; errors come after all of them
GRAMMAR, OF_REPORTS = 3, 4
LAYERS = {"S": 0, "L": 1, "I": 2, "N": 2, "G": GRAMMAR}
MOST_PASSES = 60


# The guesses that only the report of the result can allow
GUESSED = {fix_places.GUESSED, fix_tuples.GUESSED}


def guessed(without: FrozenSet[fix_places.Guess], asks: bool) -> Tuple[Rewrite, ...]:
    """Returns the rewrites that the report of the result has to allow, except those in `without`; with `asks`, with the
    lines that ask it."""
    return (fix_places.guessed(without), fix_tuples.guessed(without, asks))


class NotFixed(Exception):
    """A file cannot be fixed; the text says why."""


class Fault(NamedTuple):
    """A refusal, a guide or an error: its layer and its byte."""

    layer: int
    byte: int


class Asked(NamedTuple):
    """A text with the answer of the program to it: whether it has a report, and its faults in order."""

    data: bytes
    reported: bool
    first: int
    faults: List[Fault]


def faults_of(data: bytes, checked: Checked) -> Asked:
    """Returns a text with the faults that the program finds in it."""
    if checked.failure:
        raise NotFixed(checked.failure)
    found = [it for it in checked.findings if it.kind != DYNAMIC]
    faults = [Fault(OF_REPORTS if it.kind == ERROR else LAYERS[it.code[0]], it.place.start.byte) for it in found]
    refused = [fault.layer for fault, it in zip(faults, found) if it.kind == REFUSED]
    return Asked(data, not checked.refused, min(refused, default=OF_REPORTS), faults)


class Fixed(NamedTuple):
    """The result for a file: its text before and after, and how often each rewrite was made."""

    before: bytes
    after: bytes
    made: List[str]


class Fixer:
    """Rewrites a text, within a number of seconds. `rewrites` are tried in their order."""

    def __init__(
        self, program: Program, seconds: float, rewrites: Sequence[Rewrite] = (*REWRITES, *OF_SCRIPTS)
    ) -> None:
        self.run = running.Run(program, seconds, True, False)
        self.until = time.monotonic() + seconds
        self.rewrites = rewrites
        self.tried = rewrites
        self.useless: Set[Tuple[str, bytes]] = set()

    def fix(self, data: bytes) -> Fixed:
        """Returns the text, rewritten until no rewrite helps; then with the rewrites that the report of the result
        allows."""
        fixed = self.rewritten(data, self.rewrites)
        try:
            return self.with_guesses(fixed)
        except (TooLong, NotFixed):
            return fixed

    def with_guesses(self, fixed: Fixed) -> Fixed:
        """Rewrites those augmented assignments and unpackings whose types the report of the result tells. The text
        stays unchanged if the result has no report, or has other errors."""
        asking = self.rewritten(fixed.after, (*self.rewrites, *guessed(frozenset(), True)))
        if not GUESSED.intersection(asking.made):
            return fixed
        checked, module = self.check("fixed.py", asking.after), Module(asking.after)
        guesses = {**fix_places.guesses(module), **fix_tuples.guesses(module, Module(fixed.after).names)}
        found = [(it.kind, guesses.get((it.place.start.byte, it.place.end.byte))) for it in checked.findings]
        if checked.failure or any(kind != DYNAMIC and guess is None for kind, guess in found):
            return fixed
        wrong = frozenset(guess for _, guess in found if guess is not None)
        is_asked = fix_tuples.GUESSED in asking.made
        right = self.rewritten(fixed.after, (*self.rewrites, *guessed(wrong, False))) if wrong or is_asked else asking
        return Fixed(fixed.before, right.after, [*fixed.made, *right.made])

    def rewritten(self, data: bytes, rewrites: Sequence[Rewrite]) -> Fixed:
        """Returns the text, rewritten until none of these rewrites helps."""
        self.tried = rewrites
        asked = self.ask(data)
        made: List[str] = []
        for _ in range(MOST_PASSES):
            before = asked.data
            self.useless = set()
            asked = self.fixed_once(asked, made)
            if asked.data == before:
                break
        return Fixed(data, asked.data, made)

    def fixed_once(self, asked: Asked, made: List[str]) -> Asked:
        """Makes passes that help, until every rewrite was tried. Returns the text after them."""
        for _ in range(MOST_PASSES):
            chosen = self.chosen(asked)
            if not chosen:
                break
            asked = self.kept(asked, chosen, made)
        return asked

    def chosen(self, asked: Asked) -> List[Fix]:
        """Returns rewrites that do not touch one another, at most one for each fault."""
        try:
            module = Module(asked.data)
            offered = [fix for rewrite in self.tried for fix in rewrite(module)]
        except (SyntaxError, ValueError, RecursionError):
            return []
        chosen: List[Fix] = []
        for fault in asked.faults:
            for fix in offered:
                fits = fix.start <= fault.byte <= fix.end and not self.is_useless(asked, fix)
                if fits and not any(clash(fix, it) for it in chosen):
                    chosen.append(fix)
                    break
        return chosen

    def is_useless(self, asked: Asked, fix: Fix) -> bool:
        """Whether a rewrite was undone before."""
        return (fix.name, asked.data[fix.start : fix.end]) in self.useless

    def kept(self, asked: Asked, chosen: List[Fix], made: List[str]) -> Asked:
        """Returns the text with those of some rewrites that help. The others are not tried again."""
        while chosen:
            after = self.after(asked, chosen)
            helping = [it for it in chosen if after and helps(asked, after, chosen, it)]
            if after and len(helping) == len(chosen):
                made += [it.name for it in chosen]
                return after
            if not helping and len(chosen) > 1:
                # Together they do not help; each is tried by itself
                for fix in chosen:
                    self.kept_alone(asked, fix)
                chosen = [it for it in chosen if not self.is_useless(asked, it)][:1]
                continue
            self.useless |= {(it.name, asked.data[it.start : it.end]) for it in chosen if it not in helping}
            chosen = helping
        return asked

    def kept_alone(self, asked: Asked, fix: Fix) -> None:
        """Records a rewrite that does not help by itself."""
        after = self.after(asked, [fix])
        if after is None or not helps(asked, after, [fix], fix):
            self.useless.add((fix.name, asked.data[fix.start : fix.end]))

    def after(self, asked: Asked, chosen: Sequence[Fix]) -> Optional[Asked]:
        """Returns the program's answer after some rewrites; None if the text is no longer valid Python or gets no
        answer."""
        data = applied(asked.data, [edit for fix in chosen for edit in fix.edits])
        try:
            Module(data)
            return self.ask(data)
        except (SyntaxError, ValueError, RecursionError, NotFixed):
            return None

    def ask(self, data: bytes) -> Asked:
        """Returns the program's answer to a text; raises TooLong if the time for the file is over."""
        if time.monotonic() > self.until:
            raise TooLong
        return faults_of(data, self.check("fixed.py", data))

    def check(self, name: str, data: bytes) -> Checked:
        """Checks a text under a name."""
        with tempfile.TemporaryDirectory(prefix="pycheck-") as folder:
            path = os.path.join(folder, "fixed.py")
            with open(path, "wb") as file:
                file.write(data)
            return self.run.check(files.Source(name, path))


def clash(one: Fix, other: Fix) -> bool:
    """Whether two rewrites touch one another, or add the same new name."""
    touch = overlap([*one.edits, hull(one)], [*other.edits, hull(other)])
    return touch or not set(one.names).isdisjoint(other.names)


def hull(fix: Fix) -> Edit:
    """Returns the bytes of a rewrite, from the first to the last."""
    return Edit(fix.start, fix.end, b"")


def helps(before: Asked, after: Asked, chosen: Sequence[Fix], fix: Fix) -> bool:
    """Whether a rewrite gets the program further: its first fault at that place is gone, is further on, or is in a
    later layer. Errors of a report must be fewer in all."""
    if before.reported:
        return after.reported and len(after.faults) < len(before.faults)
    if after.first < before.first:
        return False
    edits = [edit for it in chosen for edit in it.edits]
    start, end = fix.start + shift(edits, fix.start, False), fix.end + shift(edits, fix.end, True)
    old = [Fault(it.layer, it.byte - fix.end) for it in before.faults if fix.start <= it.byte <= fix.end]
    new = [Fault(it.layer, it.byte - end) for it in after.faults if start <= it.byte < end]
    new = [it for it in new if it.layer < OF_REPORTS]
    if fix.moves and old and min(old).layer == GRAMMAR:
        return all(it.layer == GRAMMAR for it in new) and len(new) <= len(old) + 1
    return not new or (bool(old) and min(new) > min(old))


def shift(edits: Sequence[Edit], byte: int, after: bool) -> int:
    """Returns how far edits move a byte; with `after`, those at the byte itself count."""
    return sum(
        len(it.text) - (it.end - it.start) for it in edits if it.end < byte or (after and it.end == byte) or
        (not after and it.end == byte and it.start < it.end)
    )
