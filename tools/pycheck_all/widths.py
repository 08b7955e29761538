"""The widths of characters on a terminal, and lines that are cut to a width."""
from __future__ import annotations

import re
import unicodedata
from typing import List, NamedTuple, Tuple

from .texts import CONTROLS

TAB = 4
NEAR = 8
REPLACEMENT = "\ufffd"
# Characters that control a terminal, noncharacters, and those that change the direction of a line; a tab is not one of
# them
UNFIT = re.compile(f"(?!\t)[{CONTROLS}]")


def drawn(character: str) -> str:
    """Returns the text that is shown for a character: blanks for a tab, a replacement for what cannot be shown."""
    return " " * TAB if character == "\t" else UNFIT.sub(REPLACEMENT, character)


def width_of(text: str) -> int:
    """Returns the columns of a terminal that a text takes: two for each wide character, none for each combining one."""
    if text.isascii():
        return len(text)
    return sum(width_of_one(it) for it in text)


def width_of_one(character: str) -> int:
    """Returns the columns of one character."""
    if unicodedata.combining(character) or unicodedata.category(character) in ("Mn", "Me", "Cf"):
        return 0
    return 2 if unicodedata.east_asian_width(character) in "WF" else 1


class Cut(NamedTuple):
    """A line as it is shown, and the columns, from 0, at which the marked part starts and ends."""

    text: str
    start: int
    end: int


def cut(line: str, start: int, end: int, width: int) -> Cut:
    """Returns a line cut to a width, so that the marked characters, from `start` to before `end`, can be seen; a mark
    has at least one column."""
    left_out, kept_end = kept(len(line), start, end, width)
    pieces = [drawn(it) for it in line[left_out:kept_end]]
    start, end = start - left_out, min(end, kept_end) - left_out
    first, last = 0, len(pieces)
    if left_out or kept_end < len(line) or width_of("".join(pieces)) > width:
        first = first_shown(pieces, start, end, width)
        last = last_shown(pieces, first, width - bool(left_out and not first))
    before = "…" if first or left_out else ""
    after = "…" if last < len(pieces) or kept_end < len(line) else ""
    left = width_of(before + "".join(pieces[first : max(first, start)]))
    marked = width_of("".join(pieces[max(first, start) : max(first, min(last, end))]))
    return Cut(before + "".join(pieces[first:last]) + after, left, left + max(1, marked))


def kept(length: int, start: int, end: int, width: int) -> Tuple[int, int]:
    """Returns the part of a line of `length` characters that is considered: some widths on both sides of where the
    marked characters start. A line may have a million characters, and as many marks."""
    near = NEAR * width
    return max(0, start - near), min(length, max(start, min(end, start + near)) + near)


def first_shown(pieces: List[str], start: int, end: int, width: int) -> int:
    """Returns the first character to show: that of the line if the mark then fits, otherwise one that leaves room
    before it."""
    if width_of("".join(pieces[:end])) <= width - 1:
        return 0
    room = max(0, min(width // 3, width - 2 - width_of("".join(pieces[start:end]))))
    first = start
    while first and width_of("".join(pieces[first - 1 : start])) <= room:
        first -= 1
    return first


def last_shown(pieces: List[str], first: int, width: int) -> int:
    """Returns the character after the last to show."""
    room = width - (2 if first else 1)
    last = first
    while last < len(pieces) and width_of(pieces[last]) <= room:
        room -= width_of(pieces[last])
        last += 1
    return last
