"""All refusals of a file, as a guide.

The program names the first fault of a file that is not a module. Here the statement with that fault is replaced by one
that is allowed there, the program is asked again, and so on. These further refusals are a guide, not the program's
answer on the file: a statement with two faults is listed once, and the replacement of a statement may raise a refusal
of its own.
"""
from __future__ import annotations

import bisect
import dataclasses
import itertools
import keyword
import os
import re
import tempfile
from typing import Callable, List, NamedTuple, Optional, Tuple

from .findings import GUIDE, Finding
from .source import Text
from .statements import CLASS, FUNCTION, MODULE, Statement, around, place_in, statements

LIMIT = 100
HEADER = b"from __future__ import annotations"
# A statement is replaced once more than this at most
MOST_TRIES = 2
# The words that begin the clauses of a statement, which are in its suite for `match`, and otherwise beside it
CLAUSES = {
    b"try": (b"except", b"finally", b"else"),
    b"match": (b"case",),
    b"if": (b"elif", b"else"),
    b"for": (b"else",),
    b"while": (b"else",),
}
# The beginning of a string, also one with a prefix or in parentheses
TEXT = re.compile(rb"[(\s]*[A-Za-z]{0,2}[\"']")
NAME = re.compile(rb"(?:async\s+)?(?:def|class)\s+(\w+)")
Refusal = Callable[[str], Optional[Tuple[str, int]]]


class Unanswered(Exception):
    """The program answered with neither a report nor a refusal; the text says why."""


class Rest(NamedTuple):
    """The refusals after the first, and why there may be more; empty if there are no more."""

    findings: List[Finding]
    unlisted: str


class Draft:
    """A text in which refused statements are replaced. `unseen` is the byte at which a suite begins that was left
    out."""

    def __init__(self, data: bytes) -> None:
        self.statements = list(statements(data))
        self.length = len(data)
        self.end: Optional[Statement] = None
        self.headed = False
        self.unseen: Optional[int] = None

    @property
    def data(self) -> bytes:
        """The bytes of the draft."""
        return b"".join(it.text for it in self.statements)

    def find(self, byte: int) -> Tuple[int, int]:
        """Returns the number of the statement with a byte of the draft, and the byte within it."""
        ends = list(itertools.accumulate(len(it.text) for it in self.statements))
        at = min(bisect.bisect_right(ends, byte), len(ends) - 1)
        return at, byte - (ends[at] - len(self.statements[at].text))

    def origin(self, byte: int) -> Optional[int]:
        """Returns the byte of the file for a byte of the draft; None if that was inserted."""
        if byte >= len(self.data) and self.end is None:
            return self.length
        at, within = self.find(byte)
        found = self.statements[at]
        if found.tries:
            return None
        return min(self.length, max(0, found.start + found.cut + within))

    def around(self, at: int) -> Optional[Statement]:
        """Returns the statement in whose suite a statement is."""
        outer = around(self.statements, at)
        return None if outer is None else self.statements[outer]

    def context(self, at: int) -> str:
        """Returns whether a statement is in the module, or in the suite of a class or of something else."""
        return place_in(self.statements, around(self.statements, at))

    def has_suite(self, at: int) -> bool:
        """Whether the next statement is indented more."""
        rest = itertools.islice(self.statements, at + 1, None)
        found = next((it for it in rest if it.code), None)
        return found is not None and found.indent > self.statements[at].indent

    def mend(self, code: str, byte: int) -> bool:
        """Changes the draft at a refusal, so that the program does not refuse it there. Returns whether anything was
        changed."""
        if not self.statements:
            return self.mend_header()
        at, within = self.find(byte)
        if code == "S1":
            return False
        if code[0] == "S":
            return self.mend_bytes(code, at, within)
        if byte >= len(self.data):
            return self.mend_end()
        found = self.statements[at]
        if code == "G1" and not found.code.startswith(HEADER) and not any(it.code for it in self.statements[:at]):
            return self.mend_first(at)
        if found is self.end:
            return self.mend_before(at)
        if found.tries > MOST_TRIES:
            return False
        if code == "L7":
            return self.indent_by_spaces(at)
        if code == "I1":
            return self.unindent(at)
        if code == "I2":
            return self.open_suite(at)
        if code == "G1" and self.lacks_suite(at):
            return self.mend_before(at)
        self.replace(at)
        return True

    def lacks_suite(self, at: int) -> bool:
        """Whether the statement before this one opens a suite that is missing."""
        before = next((it for it in reversed(self.statements[:at]) if it.code), None)
        return before is not None and before.awaits and before.indent >= self.statements[at].indent

    def mend_header(self) -> bool:
        """Inserts the header, which must be first."""
        self.insert(0, HEADER)
        self.headed = True
        return True

    def mend_first(self, at: int) -> bool:
        """Replaces a first statement that is a docstring or stands before the header; otherwise inserts the header."""
        behind = next((it for it in self.statements[at + 1 :] if it.code), None)
        if TEXT.match(self.statements[at].code) or behind is not None and behind.code.startswith(HEADER):
            self.replace(at)
            return True
        return self.mend_header()

    def mend_bytes(self, code: str, at: int, within: int) -> bool:
        """Mends bytes that no valid text has."""
        found = self.statements[at]
        if code == "S3":
            found.text, found.cut = found.text[3:], found.cut + 3
        elif code == "S5":
            end = found.text.find(b"\n", within)
            end = end if end >= 0 else len(found.text)
            found.text = found.text[:within] + b"#" * (end - within) + found.text[end:]
        elif code == "S2":
            found.text = re.sub("[\udc80-\udcff]", "_", found.text.decode("utf-8", "surrogateescape")).encode()
        else:
            found.text = found.text[:within] + b" " + found.text[within + 1 :]
        return True

    def mend_end(self) -> bool:
        """Mends a text at whose end something is missing."""
        for found in self.statements:
            if found.unclosed and not found.tries:
                self.replace(self.statements.index(found))
                return True
        last = self.statements[-1]
        if not last.text.endswith(b"\n"):
            last.text += b"\n"
        if self.mend_before(len(self.statements)):
            return True
        if self.end is None:
            self.end = self.insert(len(self.statements), b"main()")
            return True
        return False

    def mend_before(self, at: int) -> bool:
        """Adds a suite to a statement above that lacks one, and removes a decorator above."""
        coded = [number for number, it in enumerate(self.statements[:at]) if it.code]
        last = self.statements[coded[-1]] if coded else None
        if last is not None and last.awaits:
            self.insert(coded[-1] + 1, b" " * (last.indent + 4) + b"pass")
            return True
        if last is not None and last.word == b"@":
            last.text, last.tries = b"\n", last.tries + 1
            return True
        return False

    def insert(self, at: int, text: bytes) -> Statement:
        """Inserts a statement, which is not part of the file."""
        made = Statement(text + b"\n", 0, tries=1)
        self.statements.insert(at, made)
        return made

    def indent_by_spaces(self, at: int) -> bool:
        """Replaces the tabs of an indentation by spaces."""
        found = self.statements[at]
        lead = found.lead
        start = found.text.rfind(b"\n", 0, lead) + 1
        spaces = b" " * found.indent
        if b"\t" not in found.text[start:lead]:
            return False
        found.cut -= len(spaces) - (lead - start)
        found.text = found.text[:start] + spaces + found.text[lead:]
        return True

    def unindent(self, at: int) -> bool:
        """Indents a statement, and those beside it, like the open block that is nearest on the left."""
        old = self.statements[at].indent
        outer = self.around(at)
        open_columns = [it.indent for it in self.statements[:at] if it.code and it.indent < old]
        if outer is None or not open_columns:
            return False
        new = outer.indent
        for found in self.statements[at:]:
            if found.code and found.indent < old:
                break
            if found.code and found.indent == old:
                lead = found.lead
                found.cut += old - new
                found.text = found.text[: lead - old] + b" " * new + found.text[lead:]
        return True

    def open_suite(self, at: int) -> bool:
        """Opens a suite before a statement that is indented more than the one before it."""
        column = self.statements[at - 1].indent if at else 0
        if at and self.statements[at - 1].tries and self.statements[at - 1].code.endswith(b":"):
            return False
        place = MODULE if column == 0 else self.context(at - 1)
        line = {MODULE: b"def refused():", CLASS: b"def refused(self):", FUNCTION: b"if True:"}[place]
        self.insert(at, b" " * column + line)
        return True

    def replace(self, at: int) -> None:
        """Replaces a statement by one that is allowed at its place; the second time its suite is removed too."""
        found = self.statements[at]
        place, spaces, word = self.context(at), b" " * found.indent, found.word
        if found.tries and place == FUNCTION and found.code.startswith(b"def ") and self.has_suite(at):
            # This `def` replaced a method of a class that has been replaced itself since
            lines = [spaces + b"if True:"]
        elif found.tries:
            rest = self.statements[at + 1 :]
            suite = list(itertools.takewhile(lambda it: not it.code or it.indent > found.indent, rest))
            if self.unseen is None:
                self.unseen = next((it.start for it in suite if it.code and not it.tries), None)
            del self.statements[at + 1 : at + 1 + len(suite)]
            lines = self.simple(at, place)
        elif found.opens or self.has_suite(at):
            lines = self.opener(at, place)
        elif found.word == b"@":
            lines = [spaces + b"@dataclass"] if place == MODULE and self.before_class(at) else []
        else:
            lines = self.simple(at, place)
        found.text = b"".join(line + b"\n" for line in lines) or b"\n"
        found.tries += 1
        if found.tries == 1 and word in CLAUSES and (place != FUNCTION or word in (b"try", b"match")):
            self.replace_clauses(found, word, place)

    def replace_clauses(self, head: Statement, word: bytes, place: str) -> None:
        """Replaces the clauses of a statement that was replaced. An `else` may follow the replacement of `except` if
        that is an `if`."""
        at = self.statements.index(head) + 1
        while at < len(self.statements):
            found = self.statements[at]
            if found.code and found.indent < head.indent + (word == b"match"):
                break
            is_beside = found.indent == head.indent or word == b"match" and self.around(at) is head
            if found.code and is_beside and found.word not in CLAUSES[word]:
                break
            if found.code and is_beside and not found.tries and (found.word != b"else" or place != FUNCTION):
                self.replace(at)
                at = self.statements.index(found)
            at += 1

    def simple(self, at: int, place: str) -> List[bytes]:
        """Returns the lines that replace a statement without a suite: none if others are in the same suite of a class,
        so that a `pass` among them is not a second fault."""
        if place == MODULE or place == CLASS and self.has_neighbour(at):
            return []
        return [b" " * self.statements[at].indent + b"pass"]

    def has_neighbour(self, at: int) -> bool:
        """Whether another statement is in the same suite."""
        own = self.statements[at].indent
        for rest in (self.statements[at + 1 :], reversed(self.statements[:at])):
            nearest = next((it.indent for it in rest if it.code and it.indent <= own), -1)
            if nearest == own:
                return True
        return False

    def before_class(self, at: int) -> bool:
        """Whether a class follows a decorator."""
        return any(it.word == b"class" for it in self.statements[at + 1 : at + 2])

    def opener(self, at: int, place: str) -> List[bytes]:
        """Returns the lines that replace a statement that opens a suite."""
        found = self.statements[at]
        spaces = b" " * found.indent
        suite = [] if self.has_suite(at) else [spaces + b"    pass"]
        named = NAME.match(found.code)
        name = named[1] if named and is_plain(named[1]) else b"refused"
        if place == MODULE and found.word == b"class":
            if at == 0 or self.statements[at - 1].code != b"@dataclass":
                self.insert(at, b"@dataclass")
            return [b"class " + name + b":"] + suite
        if place == MODULE:
            if at and self.statements[at - 1].word == b"@":
                self.statements[at - 1].text = b"\n"
            return [b"def " + name + b"():"] + suite
        if place == CLASS:
            return [spaces + b"def " + name + b"(self):"] + suite
        return [spaces + b"if True:"] + suite


def is_plain(name: bytes) -> bool:
    """Whether the profile accepts a name."""
    text = name.decode("utf-8", "replace")
    return text.isascii() and text.isidentifier() and not text.startswith("__") and not keyword.iskeyword(text)


def unseen(text: Text, byte: int) -> str:
    """Returns the sentence about a suite that was left out."""
    return f"the suite that begins in line {text.point(byte).line} was left out"


def rest_of(text: Text, first: Finding, refusal: Refusal) -> Rest:
    """Returns the refusals of a file after its first one, up to a limit. `refusal` asks the program about a file, and
    returns the code and the byte of its refusal, or none; or raises Unanswered."""
    draft = Draft(text.data)
    found: List[Finding] = []
    listed = False
    code, byte = first.code, first.place.start.byte
    met = {(code, byte)}
    with tempfile.TemporaryDirectory(prefix="pycheck-") as folder:
        path = os.path.join(folder, "module.py")
        for _ in range(3 * LIMIT):
            headed = draft.headed
            if not draft.mend(code, byte):
                return Rest(found, f"there is no stand-in for what {code} refuses")
            if draft.headed and not headed and listed:
                found[-1] = dataclasses.replace(found[-1], headless=True)
            with open(path, "wb") as file:
                file.write(draft.data)
            try:
                answer = refusal(path)
            except Unanswered as fault:
                return Rest(found, str(fault))
            if answer is None:
                return Rest(found, "" if draft.unseen is None else unseen(text, draft.unseen))
            code, byte = answer
            origin = draft.origin(byte)
            listed = origin is not None and (code, origin) not in met
            if origin is not None and listed:
                met.add((code, origin))
                found.append(Finding(GUIDE, code, text.token(origin), opened=text.opening(code, origin)))
            if len(found) >= LIMIT:
                break
    return Rest(found, f"only the first {len(found)} are listed")
