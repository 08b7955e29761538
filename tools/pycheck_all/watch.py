"""Checking again whenever a file changes. Nothing reports changes, so the files are examined again and again."""
from __future__ import annotations

import os
import time
from typing import Dict, Optional, Tuple

from . import command, program, scope, settings, words

# The pause between two looks; it is at least this many times as long as a look takes
SECONDS = 0.25
TIMES = 8
State = Dict[str, Optional[Tuple[int, int, int]]]


def state_of(path: str) -> Optional[Tuple[int, int, int]]:
    """Returns what tells a file from its earlier state: its time, its length and its number; None if it does not
    exist."""
    try:
        found = os.stat(path)
    except (OSError, ValueError):
        return None
    return found.st_mtime_ns, found.st_size, found.st_ino


class Watch:
    """Checks files, and shows the findings again after each change."""

    def __init__(self, asked: words.Words, used: program.Program, width: int) -> None:
        self.asked = asked
        self.used = used
        self.width = width

    def run(self) -> int:
        """Runs until it is interrupted, or nobody reads its output."""
        before = self.state()
        while True:
            self.show()
            now = before
            while now == before:
                begun = time.monotonic()
                now = self.state()
                time.sleep(max(SECONDS, TIMES * (time.monotonic() - begun)))
            before = now

    def show(self) -> None:
        """Checks once; a failure is reported, and the next change may mend it."""
        try:
            command.once(self.asked, self.used, self.width)
        except command.FAULTS as fault:
            command.tell(f"error: {fault}")
        command.write([""])

    def state(self) -> State:
        """Returns the state of each file that is checked or determines how: the modules, the settings and the
        baseline."""
        found: State = {}
        asked = self.asked
        for folder in settings.folders(os.path.abspath(os.curdir)):
            path = os.path.join(folder, settings.NAME)
            found[path] = state_of(path)
        try:
            asked, ours = settings.applied(asked)
        except settings.NoSettings:
            return found
        if asked.baseline:
            found[asked.baseline] = state_of(asked.baseline)
        limits = scope.of(asked, ours)
        paths = limits.words(asked.files)
        named = command.files_of(asked, ours)
        try:
            for source in limits.chosen(named.find(paths), paths).sources:
                found[source.name] = state_of(source.path)
        finally:
            named.close()
        return found
