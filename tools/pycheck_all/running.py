"""Asks the program of each file, many at once, and reads its answers."""
from __future__ import annotations

import concurrent.futures
import functools
import json
import os
import re
import sys
import time
from typing import Any, Callable, Dict, List, Optional, Sequence, Tuple

from . import details, files, refusals
from .findings import DYNAMIC, ERROR, REFUSED, Checked, Finding
from .program import Program, TooLong
from .source import Text

REFUSAL = re.compile(rb"refused ([A-Z]\d+) at byte (\d+)\n")
CODE = re.compile(r"[EA]\d+")
CHANGED = "the file is not what was checked: was it changed meanwhile?"


class NotUnderstood(Exception):
    """The answer of the program has a form that this package does not know."""


def read_findings(output: bytes, text: Callable[[], Text]) -> List[Finding]:
    """Returns the findings of a report in JSON. The text is read only if there are some."""
    try:
        report = json.loads(output)
        found = [finding_of(row, text()) for row in report["findings"]]
        counts = (report["errors"], report["dynamic"])
    except (ValueError, KeyError, TypeError, IndexError, OverflowError, RecursionError) as fault:
        raise NotUnderstood(f"the report of pycheck cannot be read: {fault}") from None
    if counts != (sum(it.kind == ERROR for it in found), sum(it.kind == DYNAMIC for it in found)):
        raise NotUnderstood("the report of pycheck does not agree with its counts")
    return found


def finding_of(row: Dict[str, Any], text: Text) -> Finding:
    """Returns a finding of a report, with its place in the text."""
    code, start, end = row["code"], int(row["start"]), int(row["end"])
    if not CODE.fullmatch(code) or not 0 <= start <= end:
        raise ValueError("a finding has no code or no place")
    if end > len(text.data):
        raise NotUnderstood(CHANGED)
    place = text.place(start, end)
    if (place.start.line, place.start.column) != (row["line"], row["column"]):
        raise NotUnderstood(CHANGED)
    flow = (str(row["from"]), str(row["to"])) if "from" in row else None
    "".join(flow or ()).encode()
    try:
        detail = details.detail_of(row, text)
    except IndexError:
        raise NotUnderstood(CHANGED) from None
    return Finding(ERROR if code[0] == "E" else DYNAMIC, code, place, flow, detail=detail)


class Run:
    """A run of the program over files, with the same number of seconds for each. `all_refusals` asks for each refusal
    of a file, `texts` for the text of each."""

    def __init__(self, program: Program, seconds: float, all_refusals: bool, texts: bool) -> None:
        self.program = program
        self.seconds = seconds
        self.all_refusals = all_refusals
        self.texts = texts

    def check(self, source: files.Source) -> Checked:
        """Returns the result for one file."""
        checked = Checked(source.name, failure=source.failure)
        if source.failure:
            return checked
        try:
            self.fill(checked, source.path)
        except NotUnderstood as fault:
            checked.findings, checked.failure = [], str(fault)
        except TooLong:
            checked.findings, checked.failure = [], self.late
        except OSError as fault:
            checked.findings, checked.failure = [], f"{self.program.path}: {fault.strerror or fault}"
        except MemoryError:
            checked.findings, checked.failure = [], "out of memory"
        return checked

    def fill(self, checked: Checked, path: str) -> None:
        """Asks the program about a file, and records the answer."""

        def text() -> Text:
            """Returns the text of the file, read once."""
            if not checked.text.data:
                checked.text = Text(content(path))
            return checked.text

        until = time.monotonic() + self.seconds
        answer = self.program.ask(until, "--details", "--json", "--", path)
        if answer.lacks_memory:
            # A report without details takes less
            answer = self.program.ask(until, "--json", "--", path)
        refusal = REFUSAL.fullmatch(answer.error)
        if answer.status == 2 and refusal and not answer.output:
            checked.findings = [refusal_of(refusal[1].decode(), int(refusal[2]), text())]
            if self.all_refusals:
                asking = functools.partial(self.refusal, until)
                rest = refusals.rest_of(text(), checked.findings[0], asking)
                checked.findings += rest.findings
                checked.findings.sort(key=lambda it: it.place)
                checked.complete, checked.unlisted = not rest.unlisted, rest.unlisted
        elif answer.status in (0, 1) and answer.output:
            checked.findings = read_findings(answer.output, text)
            if answer.status != int(any(it.kind == ERROR for it in checked.findings)):
                raise NotUnderstood("the report of pycheck does not agree with its status")
        else:
            checked.failure = self.why(answer.reason, answer.status, path)
        if self.texts and not checked.failure:
            text()

    def why(self, reason: str, status: int, path: str) -> str:
        """Returns why there is no report: if the file cannot be read, the reason of the system."""
        if status != 3:
            return reason
        try:
            content(path)
        except NotUnderstood as fault:
            return str(fault)
        return reason

    @property
    def late(self) -> str:
        """Returns the sentence for a program that did not end in time."""
        return f"pycheck did not end within {self.seconds:g} seconds"

    def refusal(self, until: float, path: str) -> Optional[Tuple[str, int]]:
        """Returns the code and the byte of the refusal of a file, or None; raises Unanswered if there is no report
        either."""
        try:
            answer = self.program.ask(until, "--json", "--", path)
        except TooLong:
            raise refusals.Unanswered(self.late) from None
        refusal = REFUSAL.fullmatch(answer.error)
        if answer.status == 2 and refusal:
            return refusal[1].decode(), int(refusal[2])
        if answer.status not in (0, 1):
            raise refusals.Unanswered(answer.reason)
        return None

    def all(self, sources: Sequence[files.Source]) -> List[Checked]:
        """Returns the result for each file, in their order."""
        progress = Progress(len(sources))
        pool = concurrent.futures.ThreadPoolExecutor(processors())
        try:
            found = []
            for checked in pool.map(self.check, sources):
                found.append(checked)
                progress.show(len(found))
            return found
        except BaseException:
            self.program.stop()
            raise
        finally:
            pool.shutdown(wait=True, cancel_futures=True)
            progress.clear()


def refusal_of(code: str, byte: int, text: Text) -> Finding:
    """Returns the refusal of a file, at the word or sign that it names."""
    if byte > len(text.data):
        raise NotUnderstood(CHANGED)
    return Finding(REFUSED, code, text.token(byte), opened=text.opening(code, byte))


def content(path: str) -> bytes:
    """Returns the bytes of a file; raises NotUnderstood with the reason if it cannot be read."""
    try:
        return files.content_of(path)
    except OSError as fault:
        raise NotUnderstood(files.reason(fault)) from None


def processors() -> int:
    """Returns the number of processors that this process may use."""
    if hasattr(os, "sched_getaffinity"):
        return len(os.sched_getaffinity(0))
    return os.cpu_count() or 1


class Progress:
    """A line on standard error that says how far a run is, if that is a terminal."""

    SECONDS = 0.1

    def __init__(self, files_in_all: int) -> None:
        self.files = files_in_all
        shows = sys.stderr is not None and sys.stderr.isatty() and os.environ.get("TERM") != "dumb"
        self.shows = shows and files_in_all > 1
        self.last = time.monotonic()
        self.shown = False

    def show(self, done: int) -> None:
        """Shows how many files are done, a few times a second."""
        if not self.shows or time.monotonic() - self.last < self.SECONDS:
            return
        self.last, self.shown = time.monotonic(), True
        print(f"\r{done} of {self.files} files", end="", file=sys.stderr, flush=True)

    def clear(self) -> None:
        """Removes the line."""
        if self.shown:
            print("\r\x1b[K", end="", file=sys.stderr, flush=True)
