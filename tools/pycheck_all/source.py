"""The text of a file as bytes, lines and characters, counted as the program counts them."""
from __future__ import annotations

import ast
import bisect
import functools
import re
from typing import FrozenSet, List, NamedTuple, Optional, Tuple

from .spots import Spot, spot_at
from .statements import Outline, opened

TOKEN = re.compile(r"\w+|\*\*=?|//=?|<<=?|>>=?|\.\.\.|:=|->|[-+*/%@&|^<>=!]=|\S")

CLASS = re.compile(rb"^[ \t]*class[ \t]+([\w\x80-\xff]+)", re.MULTILINE)
UNMATCHED = "L5"


class Point(NamedTuple):
    """A point of a text: its byte, from 0, and its line and column, from 1. Columns count characters."""

    byte: int
    line: int
    column: int


class Place(NamedTuple):
    """A part of a text. The end is the point after its last character."""

    start: Point
    end: Point


def characters(data: bytes) -> int:
    """Returns the number of characters in the bytes, which is the number of bytes that begin one in UTF-8."""
    return len(data) if data.isascii() else sum(byte & 0xC0 != 0x80 for byte in data)


class Text:
    """The bytes of a file, or as many of them as the program reads."""

    def __init__(self, data: bytes) -> None:
        self.data = data
        self._starts: Optional[List[int]] = None
        self._outline: Optional[Outline] = None
        self._classes: Optional[FrozenSet[str]] = None
        # The line that was asked for last, which many findings may share
        self._kept: Tuple[int, str] = (0, "")

    @property
    def outline(self) -> Outline:
        """The logical lines of the text."""
        if self._outline is None:
            self._outline = Outline(self.data)
        return self._outline

    @property
    def classes(self) -> FrozenSet[str]:
        """The names of the classes of the text."""
        if self._classes is None:
            self._classes = frozenset(it.decode("utf-8", "replace") for it in CLASS.findall(self.data))
        return self._classes

    @property
    def starts(self) -> List[int]:
        """The byte at which each line starts; the last one may be the end of the text."""
        if self._starts is None:
            self._starts = [0] + [found.end() for found in re.finditer(b"\n", self.data)]
        return self._starts

    def point(self, byte: int) -> Point:
        """Returns the point of a byte, from 0 to the length."""
        line = bisect.bisect_right(self.starts, byte)
        return Point(byte, line, 1 + characters(self.data[self.starts[line - 1] : byte]))

    def at(self, line: int, column: int) -> Point:
        """Returns the point of a line and a column; raises IndexError if the text has none."""
        if not 1 <= line <= len(self.starts):
            raise IndexError(line)
        before = self.data[self.starts[line - 1] : self.after(self.starts[line - 1])].decode("utf-8")[: column - 1]
        if len(before) != column - 1:
            raise IndexError(column)
        return Point(self.starts[line - 1] + len(before.encode("utf-8")), line, column)

    @functools.cached_property
    def tree(self) -> ast.Module:
        """The tree of Python's `ast`; an empty one if that cannot read the text."""
        try:
            return ast.parse(self.data)
        except (SyntaxError, ValueError, RecursionError, MemoryError):
            return ast.Module([], [])

    @functools.cached_property
    def functions(self) -> Tuple[List[int], List[ast.FunctionDef]]:
        """The first byte of each function and method of the tree, in order, and the functions themselves."""
        inner = [node.body if isinstance(node, ast.ClassDef) else [node] for node in self.tree.body]
        found = [it for suite in inner for it in suite if isinstance(it, ast.FunctionDef)]
        return [self.range_of(it)[0] for it in found], found

    def function_around(self, byte: int) -> Optional[ast.FunctionDef]:
        """Returns the function or method of the tree that has this byte; None if none has it."""
        at = bisect.bisect_right(self.functions[0], byte) - 1
        function = self.functions[1][at] if at >= 0 else None
        return function if function and byte < self.range_of(function)[1] else None

    def range_of(self, node: "ast.expr | ast.stmt") -> Tuple[int, int]:
        """Returns the first byte of a part of the tree, and the byte after its last."""
        last = node.end_lineno or node.lineno
        return self.starts[node.lineno - 1] + node.col_offset, self.starts[last - 1] + (node.end_col_offset or 0)

    def place(self, start: int, end: int) -> Place:
        """Returns the part from one byte to another."""
        return Place(self.point(start), self.point(end))

    def token(self, byte: int) -> Place:
        """Returns the word or sign that begins at a byte; no character at the end of a line or of the text."""
        word = self.word(byte)
        return self.place(byte, min(len(self.data), byte + len(word.encode("utf-8", "surrogateescape"))))

    def word(self, byte: int) -> str:
        """Returns the text of the word or sign that begins at a byte."""
        line = self.data[byte : self.after(byte)].decode("utf-8", "surrogateescape")
        found = TOKEN.match(line)
        return found[0] if found else line[:1].strip("\r\n")

    def spot(self, byte: int) -> Spot:
        """Returns the word or sign that begins at a byte, with its logical line."""
        rest = self.data[byte : self.after(byte)].decode("utf-8", "surrogateescape")
        return spot_at(self.data, self.outline, byte, self.word(byte), rest)

    def opening(self, code: str, byte: int) -> Optional[Place]:
        """Returns the open bracket of a mismatch, which only this code reports; None if there is none."""
        if code != UNMATCHED:
            return None
        if byte < len(self.data):
            start = self.outline.starts[self.outline.at(byte)]
        else:
            start = next((it.start for it in self.outline.statements if it.unclosed), len(self.data))
        found = opened(self.data[start:], byte - start)
        return self.token(start + found[-1]) if found else None

    def after(self, byte: int) -> int:
        """Returns the byte after the line of a byte; the line end belongs to it."""
        end = self.data.find(b"\n", byte)
        return len(self.data) if end < 0 else end + 1

    def raw_line(self, number: int) -> bytes:
        """Returns the bytes of a line, without its end."""
        start = self.starts[number - 1]
        line = self.data[start : self.after(start)]
        return line[:-1].rstrip(b"\r") if line.endswith(b"\n") else line

    def line(self, number: int) -> str:
        """Returns a line, without its end. Bytes that are not UTF-8 become replacement characters."""
        if self._kept[0] != number:
            self._kept = (number, self.raw_line(number).decode("utf-8", "replace"))
        return self._kept[1]

    @property
    def lines(self) -> int:
        """The number of lines."""
        return self.data.count(b"\n") + (self.data[-1:] not in (b"", b"\n"))
