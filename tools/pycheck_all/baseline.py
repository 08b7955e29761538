"""The baseline: the known findings, so that only new ones fail.

A finding is known by its path, its code and the text of its line without blanks at the ends, not by the number of
the
line, and only as many times as the baseline lists it. Paths are relative to the folder of the baseline, with
slashes."""
from __future__ import annotations

import dataclasses
import json
import os
import re
from typing import Any, Counter, List, Optional, Sequence, Tuple

from . import codes, reading, texts
from .findings import Checked, Finding, Known

FORMAT = 1
LIMIT = 16 << 20
MOST = 1 << 24
CODE = re.compile(r"[A-Z]\d{1,2}")
REFUSALS = "SLING"
NAMES = ("path", "code", "line", "count")
Key = Tuple[str, str, str]


class NoBaseline(Exception):
    """Raised if a file is not a baseline, or cannot be read or written; the text says why."""


class Baseline:
    """The entries of a baseline file, with their counts."""

    def __init__(self, path: str, counts: Counter[Key]) -> None:
        self.path = path
        self.counts = counts

    @property
    def folder(self) -> str:
        """The folder that paths are relative to."""
        return os.path.dirname(os.path.abspath(self.path))

    def key_path(self, path: str) -> str:
        """Returns the path of a file as the baseline writes it."""
        return texts.plain(os.path.relpath(os.path.abspath(path), self.folder).replace(os.sep, "/"))

    def exists(self, path: str) -> bool:
        """Whether a file of the baseline still exists. One whose name is written in escapes counts as existing."""
        return "\\" in path or os.path.lexists(os.path.join(self.folder, path))

    def mark(self, files: Sequence[Checked]) -> List[Known]:
        """Marks the findings that are known, and returns the entries that are gone from the code.

        An entry is gone if its file no longer exists, or if the file was checked and has no such finding. Nothing in a
        refused file is checked, and only its first refusal is named. Its entries are therefore gone only if all
        refusals were listed, and then only those of refusals."""
        left = Counter(self.counts)
        for file in files:
            path = self.key_path(file.path)
            file.findings = [self.marked(file, at, path, left) for at in range(len(file.findings))]
        told = {self.key_path(file.path): file for file in files}
        gone = [Known(*key, count) for key, count in sorted(left.items()) if count > 0]
        return [it for it in gone if self.is_gone(it, told.get(it.path))]

    def marked(self, file: Checked, at: int, path: str, left: Counter[Key]) -> Finding:
        """Returns the finding, marked if it is known; each known one reduces the count left of its entry."""
        finding = file.findings[at]
        key = (path, finding.code, file.line_of(finding))
        if left[key] <= 0:
            return finding
        left[key] -= 1
        return dataclasses.replace(finding, known=True)

    def is_gone(self, entry: Known, file: Optional[Checked]) -> bool:
        """Whether an entry that was not found is gone."""
        if file is None:
            return not self.exists(entry.path)
        if file.failure:
            return False
        return not file.refused or (file.complete and entry.code[0] in REFUSALS)


def read(path: str) -> Baseline:
    """Reads the baseline of a file; raises NoBaseline."""
    try:
        whole = json.loads(reading.regular(path, LIMIT).decode("utf-8"))
        return Baseline(path, Counter(dict(map(entry_of, rows_of(whole)))))
    except OSError as fault:
        raise NoBaseline(f"{path}: {fault.strerror or fault}") from None
    except RecursionError:
        raise NoBaseline(f"{path}: this is no baseline: it is nested too deep") from None
    except ValueError as fault:
        raise NoBaseline(f"{path}: this is no baseline: {fault}") from None


def rows_of(whole: Any) -> List[Any]:
    """Returns the rows of a baseline; raises ValueError if it has none."""
    if not isinstance(whole, dict) or not isinstance(whole.get("known"), list):
        raise ValueError("it is no object with a list of what is known")
    if type(whole.get("format")) is not int or whole["format"] != FORMAT:
        raise ValueError(f"its format is not {FORMAT}, the one that this version knows")
    rows: List[Any] = whole["known"]
    return rows


def entry_of(row: Any) -> Tuple[Key, int]:
    """Returns an entry of the file; raises ValueError if one of its values has another type or form."""
    if not isinstance(row, dict):
        raise ValueError("an entry is no object")
    path, code, line, count = (row.get(name) for name in NAMES)
    if not isinstance(path, str) or not path or texts.CONTROL.search(path):
        raise ValueError("the path of an entry is no text, is empty, or has a control character")
    if not isinstance(code, str) or not is_code(code):
        raise ValueError("the code of an entry is no code")
    if not isinstance(line, str) or re.search("[\n\ud800-\udfff]", line):
        raise ValueError("the line of an entry is no line of text")
    if type(count) is not int or not 1 <= count <= MOST:
        raise ValueError(f"the count of an entry is no number from 1 to {MOST}")
    return (path, code, line), count


def is_code(code: str) -> bool:
    """Whether a word is one of the codes or, if the texts of the codes are missing, has the form of one."""
    return code in codes.entries() if codes.entries() else CODE.fullmatch(code) is not None


def text_of(path: str, files: Sequence[Checked]) -> str:
    """Returns the baseline of all findings, as a text for that path.

    If there is a baseline already, its entries stay for files that still exist and were not checked now. Raises
    NoBaseline if it cannot be read."""
    old = read(path) if os.path.exists(path) else Baseline(path, Counter())
    counts: Counter[Key] = Counter()
    checked = {old.key_path(it.path): it for it in files}
    for key, count in old.counts.items():
        file = checked.get(key[0])
        if old.exists(key[0]) and (file is None or file.failure):
            counts[key] = count
    for name, file in checked.items():
        counts.update((name, it.code, file.line_of(it)) for it in file.findings)
    rows = [json.dumps(dict(zip(NAMES, (*key, count)))) for key, count in sorted(counts.items())]
    return f'{{"format": {FORMAT}, "known": [' + ",".join(f"\n {row}" for row in rows) + ("\n]}\n" if rows else "]}\n")
