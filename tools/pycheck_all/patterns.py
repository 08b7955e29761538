"""The patterns of a file such as `.gitignore`, read and compared with names as git does.

A name is compared byte by byte with all places of a pattern at once, so no pattern takes long."""
from __future__ import annotations

from typing import Dict, List, NamedTuple, Optional, Tuple

SPECIAL = b"*?[\\"
SLASH = b"/"
ALL = (1 << 256) - 1
NOT_SLASH = ALL ^ (1 << SLASH[0])
BYTE_ORDER_MARK = b"\xef\xbb\xbf"


def bytes_of(*ranges: Tuple[int, int]) -> int:
    """Returns the set of the bytes of some ranges, both ends included; a set has a bit for each byte."""
    return sum(1 << byte for first, last in ranges for byte in range(first, last + 1))


DIGITS, UPPER, LOWER = bytes_of((48, 57)), bytes_of((65, 90)), bytes_of((97, 122))
GRAPHIC = bytes_of((33, 126))
CLASSES: Dict[bytes, int] = {
    b"alnum": DIGITS | UPPER | LOWER,
    b"alpha": UPPER | LOWER,
    b"blank": bytes_of((9, 9), (32, 32)),
    b"cntrl": bytes_of((0, 31), (127, 127)),
    b"digit": DIGITS,
    b"graph": GRAPHIC,
    b"lower": LOWER,
    b"print": bytes_of((32, 126)),
    b"punct": GRAPHIC ^ (DIGITS | UPPER | LOWER),
    b"space": bytes_of((9, 10), (13, 13), (32, 32)),
    b"upper": UPPER,
    b"xdigit": DIGITS | bytes_of((65, 70), (97, 102)),
}


class Broken(Exception):
    """A pattern that fits no name, such as one with a bracket that is not closed."""


class Bracket:
    """A reader of the class that opens at a byte of a pattern, such as `[a-z]`.

    Afterwards `found` is its bytes, and `at` the byte of its end."""

    def __init__(self, pattern: bytes, at: int) -> None:
        self.pattern = pattern
        self.at = at + 1
        self.found = 0
        negated = self.here() in b"!^"
        self.at += negated
        before = 0
        while True:
            before = self.part(before)
            self.at += 1
            if self.here() == b"]":
                break
        self.found = (ALL ^ self.found if negated else self.found) & NOT_SLASH

    def here(self) -> bytes:
        """Returns the next byte; raises Broken if there is none."""
        byte = self.pattern[self.at : self.at + 1]
        if not byte:
            raise Broken
        return byte

    def escaped(self) -> int:
        """Passes over a backslash, if there is one, and returns the byte after it."""
        self.at += self.here() == b"\\"
        return self.here()[0]

    def part(self, before: int) -> int:
        """Reads a byte, a range from the byte before it, or a class by name. Returns the byte that may begin a range,
        or 0."""
        byte, rest = self.here(), self.pattern[self.at + 1 :]
        if byte == b"-" and before and rest and rest[:1] != b"]":
            self.at += 1
            self.found |= bytes_of((before, self.escaped()))
            return 0
        if byte == b"[" and rest[:1] == b":" and self.named():
            return 0
        last = self.escaped()
        self.found |= 1 << last
        return last

    def named(self) -> bool:
        """Reads a class by name, such as `[:alpha:]`, if there is one here. Returns whether there was."""
        end = self.pattern.find(b"]", self.at + 2)
        if end < 0:
            raise Broken
        if end == self.at + 2 or self.pattern[end - 1 : end] != b":":
            return False
        name = self.pattern[self.at + 2 : end - 1]
        if name not in CLASSES:
            raise Broken
        self.found |= CLASSES[name]
        self.at = end
        return True


class Glob:
    """A pattern with wildcards, as places: at each, which bytes lead to the next place and which stay.

    `skips` has the places from which the next one is reached without a byte, `leaps` those from which the third one is:
    the text after `**/` may follow at once."""

    def __init__(self, pattern: bytes) -> None:
        self.pattern = pattern
        self.leads: List[int] = []
        self.stays: List[int] = []
        self.skips = 0
        self.leaps = 0
        self.leapt = -1
        self.steps: Dict[int, Tuple[int, int]] = {}
        at = 0
        while at < len(pattern):
            at = self.read(at)

    def add(self, leads: int, stays: int = 0, skips: bool = False, leaps: bool = False) -> None:
        """Adds a place."""
        self.skips |= skips << len(self.leads)
        self.leaps |= leaps << len(self.leads)
        self.leads.append(leads)
        self.stays.append(stays)

    def read(self, at: int) -> int:
        """Reads the part of the pattern at a byte, and returns the byte after it."""
        byte = self.pattern[at : at + 1]
        if byte == b"*":
            return self.read_stars(at)
        if byte == b"[":
            bracket = Bracket(self.pattern, at)
            self.add(bracket.found)
            return bracket.at + 1
        at += byte == b"\\"
        if at == len(self.pattern):
            raise Broken
        self.add(NOT_SLASH if byte == b"?" else 1 << self.pattern[at])
        return at + 1

    def read_stars(self, at: int) -> int:
        """Reads stars: two or more that are a whole part of a path match any parts, others match a piece of one
        part."""
        end = at
        while self.pattern[end : end + 1] == b"*":
            end += 1
        rest = self.pattern[end : end + 2]
        begins = at == 0 or self.pattern[at - 1 : at] == SLASH
        if end - at == 1 or not begins or not (rest == b"" or rest[:1] == SLASH or rest == b"\\/"):
            self.add(0, NOT_SLASH, skips=True)
            return end
        if rest[:1] != SLASH:
            self.add(0, ALL, skips=True)
            return end
        if self.leapt != len(self.leads):
            self.add(0, skips=True, leaps=True)
            self.add(0, ALL, skips=True)
            self.add(1 << SLASH[0])
            self.leapt = len(self.leads)
        return end + 1

    def step(self, byte: int) -> Tuple[int, int]:
        """Returns the places from which a byte leads on, and those at which it stays."""
        if byte not in self.steps:
            leads = sum(1 << at for at, found in enumerate(self.leads) if found >> byte & 1)
            stays = sum(1 << at for at, found in enumerate(self.stays) if found >> byte & 1)
            self.steps[byte] = (leads, stays)
        return self.steps[byte]

    def reached(self, places: int) -> int:
        """Returns some places, and those that are reached from them without a byte."""
        while True:
            more = places | (places & self.skips) << 1 | (places & self.leaps) << 3
            if more == places:
                return places
            places = more

    def fits(self, text: bytes) -> bool:
        """Whether the whole text fits."""
        places = self.reached(1)
        for byte in text:
            leads, stays = self.step(byte)
            places = self.reached((places & leads) << 1 | places & stays)
            if not places:
                return False
        return bool(places >> len(self.leads) & 1)


def plain_length(pattern: bytes) -> int:
    """Returns how many bytes are before the first wildcard or backslash."""
    return next((at for at, byte in enumerate(pattern) if byte in SPECIAL), len(pattern))


class Pattern:
    """A pattern of a file: one with a slash is compared with paths from the folder of the file, another with names.

    The text before its first wildcard is compared by itself, as in git, so stars that follow it begin a part."""

    def __init__(self, text: bytes) -> None:
        self.negated = text[:1] == b"!"
        text = text[self.negated :]
        self.folders_alone = text[-1:] == SLASH
        text = text[: len(text) - self.folders_alone]
        self.is_path = SLASH in text
        text = text[text[:1] == SLASH :]
        length = plain_length(text)
        self.before, self.rest = text[:length], text[length:]
        self.glob: Optional[Glob] = None

    @property
    def is_name(self) -> bool:
        """Whether the pattern is a name without wildcards."""
        return not self.rest and not self.is_path

    def fits(self, path: bytes, name: bytes) -> bool:
        """Whether the pattern fits a path from the folder of its file, or the name at the end of that path."""
        text = path if self.is_path else name
        if not text.startswith(self.before):
            return False
        text = text[len(self.before) :]
        if not self.is_path and self.rest[:1] == b"*" and plain_length(self.rest[1:]) == len(self.rest) - 1:
            return text.endswith(self.rest[1:])
        if self.glob is None:
            self.glob = made(self.rest)
        return self.glob.fits(text)


def made(pattern: bytes) -> Glob:
    """Returns a pattern with wildcards; a broken one fits nothing."""
    try:
        return Glob(pattern)
    except Broken:
        return NOTHING


# A bracket without any byte in it
NOTHING = Glob(b"")
NOTHING.add(0)


def unspaced(line: bytes) -> bytes:
    """Returns a line without the spaces at its end; one after a backslash stays."""
    kept = line.rstrip(b" ")
    if len(kept) == len(line):
        return line
    slashes = len(kept) - len(kept.rstrip(b"\\"))
    return kept + b" " * (slashes % 2)


def patterns_of(data: bytes) -> List[Pattern]:
    """Returns the patterns of a file, in their order."""
    found = []
    for line in data[len(BYTE_ORDER_MARK) * data.startswith(BYTE_ORDER_MARK) :].split(b"\n"):
        if line and not line.startswith(b"#"):
            text = line[: len(line) - line.endswith(b"\r")].partition(b"\0")[0]
            found.append(Pattern(unspaced(text)))
    return found


class Verdict(NamedTuple):
    """The last pattern that fits: its number, and whether it says that a name is ignored."""

    number: int
    ignored: bool


class Patterns:
    """The patterns of one file. `base` is its folder, as a path from the top with a slash at the end."""

    def __init__(self, data: bytes, base: bytes) -> None:
        self.base = base
        # For each name the last pattern that is just this name: for everything, and for folders alone
        self.names: Tuple[Dict[bytes, Verdict], Dict[bytes, Verdict]] = ({}, {})
        self.others: List[Tuple[int, Pattern]] = []
        for number, pattern in enumerate(patterns_of(data)):
            if pattern.is_name:
                self.names[pattern.folders_alone][pattern.before] = Verdict(number, not pattern.negated)
            else:
                self.others.append((number, pattern))
        self.others.reverse()

    def say(self, path: bytes, name: bytes, is_folder: bool) -> Optional[bool]:
        """Whether a path from the top is ignored, according to the last pattern that fits; None if no pattern fits."""
        named = [it[name] for it in self.names[: 1 + is_folder] if name in it]
        best = max(named, default=Verdict(-1, False))
        inside = path[len(self.base) :]
        for number, pattern in self.others:
            if number < best.number:
                break
            if (is_folder or not pattern.folders_alone) and pattern.fits(inside, name):
                best = Verdict(number, not pattern.negated)
                break
        return best.ignored if best.number >= 0 else None
