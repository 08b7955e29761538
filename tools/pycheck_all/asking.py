"""Checks the texts of open documents as files are checked, within narrow limits, and keeps the last results."""
from __future__ import annotations

import os
import tempfile
from typing import Callable, Dict, Optional, Tuple

from . import meant, program, running, situations
from .files import Source
from .findings import Checked
from .program import Answer, Program, TooLong
from .words import SECONDS

# How many bytes an answer may have: that of some ten thousand findings
MOST_OUTPUT = 4 << 20
# How many bytes the program reads for the refusals that are guessed in a text, which is a second's work, and how often
# it is asked about each text besides
MOST_READ = 8 << 20
OTHER_TIMES = 3
# Of how many texts the results are kept
KEPT = 4
NAME = "module.py"


class Stale(OSError):
    """The result is not needed any more."""


class Bounded(Program):
    """The program, whose answers are bounded. About a text it is asked a number of times at most, and only as long as
    `is_needed` says so."""

    def __init__(self, path: str) -> None:
        super().__init__(path, MOST_OUTPUT)
        self.begin(0, lambda: True)

    def begin(self, length: int, is_needed: Callable[[], bool]) -> None:
        """Begins with a text of this length."""
        self.left = OTHER_TIMES + MOST_READ // max(1, length)
        self.is_needed = is_needed

    def ask(self, until: float, *words: str) -> Answer:
        """Returns the answer of the program, as `Program.ask` does."""
        if not self.is_needed():
            raise Stale(0, "it has changed since")
        self.left -= 1
        if self.left < 0:
            raise TooLong
        return super().ask(until, *words)


class Checker:
    """Checks texts. `tell` is told once why there is no program, and each time why a text could not be checked."""

    def __init__(self, tell: Callable[[str], None]) -> None:
        self.tell = tell
        self.begun = False
        self._program: Optional[Bounded] = None
        self._kept: Dict[Tuple[bytes, bool], Optional[Checked]] = {}

    def checked(self, text: bytes, guesses: bool, is_needed: Callable[[], bool]) -> Optional[Checked]:
        """Returns the result for a text, with all refusals if `guesses` says so; None if there is none, or if
        `is_needed` says meanwhile that it is not needed."""
        for key in ((text, True), (text, guesses)):
            if key in self._kept:
                return self._kept[key]
        found = self._new(text, guesses, is_needed)
        if is_needed():
            # Also that there is none, so that nobody waits for it again
            self._keep(text, guesses, found)
        return found

    def _new(self, text: bytes, guesses: bool, is_needed: Callable[[], bool]) -> Optional[Checked]:
        used = self._found()
        if used is None or not is_needed():
            return None
        used.begin(len(text), is_needed)
        with tempfile.TemporaryDirectory(prefix="pycheck-") as folder:
            path = os.path.join(folder, NAME)
            with open(path, "wb") as file:
                file.write(text)
            found = running.Run(used, SECONDS, guesses, True).check(Source(NAME, path))
        if found.failure and is_needed():
            self.tell(f"no advice for a document: {found.failure}")
        return None if found.failure else found

    def _found(self) -> Optional[Bounded]:
        """Returns the program; None if there is none."""
        if not self.begun:
            self.begun = True
            try:
                self._program = Bounded(program.chosen(""))
            except program.NoProgram as fault:
                self.tell(f"no advice: {fault}")
        return self._program

    def _keep(self, text: bytes, guesses: bool, found: Optional[Checked]) -> None:
        """Keeps a result in place of the oldest one, of which nothing else is kept either."""
        if len(self._kept) >= KEPT:
            del self._kept[next(iter(self._kept))]
            situations.forget()
            meant.forget()
        self._kept[text, guesses] = found
