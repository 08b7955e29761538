"""Positions of the Language Server Protocol: lines and characters from 0. Characters are counted in the encoding on
which the editor and its server agree."""
from __future__ import annotations

from typing import Any, Dict, NamedTuple, Optional

from .source import Place, Point, Text, characters

UTF_8, UTF_16, UTF_32 = "utf-8", "utf-16", "utf-32"
# The name and the width in bytes of the units of encodings, where they are not bytes
WIDE = {UTF_16: ("utf-16-le", 2), UTF_32: ("utf-32-le", 4)}
# The first byte of a character of four bytes in UTF-8, which takes two units of UTF-16, is this or a higher one
FIRST_OF_FOUR = 0xF0


class Position(NamedTuple):
    """A position in a text."""

    line: int
    character: int


def units(data: bytes, encoding: str) -> int:
    """Returns how many units of an encoding the characters in some bytes of UTF-8 take."""
    if encoding == UTF_8:
        return len(data)
    count = characters(data)
    return count if encoding == UTF_32 or data.isascii() else count + sum(it >= FIRST_OF_FOUR for it in data)


def position_of(text: Text, point: Point, encoding: str) -> Position:
    """Returns the position of a point of a text."""
    line = point.line - 1
    return Position(line, units(text.data[text.starts[line] : point.byte], encoding))


def byte_at(text: Text, position: Position, encoding: str) -> Optional[int]:
    """Returns the byte at a position of a text; None if the text has no such position."""
    line, character = position
    if not 0 <= line < len(text.starts) or character < 0:
        return None
    start = text.starts[line]
    data = text.data[start : text.after(start)]
    if encoding in WIDE and not data.isascii():
        name, width = WIDE[encoding]
        try:
            units_before = data.decode("utf-8").encode(name)[: width * character]
            found = len(units_before.decode(name).encode("utf-8"))
        except UnicodeError:
            return None
        return start + found if len(units_before) == width * character else None
    return start + character if character <= len(data) else None


def shown(text: Text, place: Place) -> Place:
    """Returns a place as the server shows it: in place of the end of the text its last character."""
    if place.start.byte < len(text.data):
        return place
    last = len(text.data) - 1
    while last > 0 and text.data[last] & 0xC0 == 0x80:
        last -= 1
    return text.place(max(0, last), len(text.data))


def range_of(text: Text, place: Place, encoding: str) -> Dict[str, Any]:
    """Returns a part of a text as a range of the protocol, as the server shows it."""
    start, end = (position_of(text, it, encoding)._asdict() for it in shown(text, place))
    return {"start": start, "end": end}
