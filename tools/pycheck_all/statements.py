"""The logical lines of a text and their tokens. They are read here, not by Python's own parser, for the texts beside a
refusal.

Any bytes can be read, also those that are not Python, and none is read more than some twenty times."""
from __future__ import annotations

import bisect
import dataclasses
import re
from typing import Dict, Iterator, List, NamedTuple, Optional, Sequence, Tuple

MODULE, CLASS, FUNCTION = "module", "class", "function"
OPENERS = b"if elif else for while try except finally with def class async match case".split()
UNCLOSED_TRIES = 20
# How much is read, at most twice this, for brackets that are never closed
UNCLOSED_BYTES = 1 << 20
PIECE = re.compile(rb"""#[^\n]*|\"\"\"|'''|["']|\\\r?\n|[^#"'()\[\]{}\\\n:]+|.""", re.DOTALL)
# The characters that end a string, and those that hide such an end; a string of one quote ends with its line
ENDS = {
    b'"': re.compile(rb'\\.|["\n]', re.DOTALL),
    b"'": re.compile(rb"\\.|['\n]", re.DOTALL),
    b'"""': re.compile(rb'\\.|"""', re.DOTALL),
    b"'''": re.compile(rb"\\.|'''", re.DOTALL),
}
BLANK = re.compile(rb"[ \t]*(?:#[^\n]*)?\r?\n")
LEAD = re.compile(rb"(?:[ \t]*(?:#[^\n]*)?\r?\n)*[ \t]*")
TOKEN = re.compile(rb"[\w\x80-\xff]+|\*\*=?|//=?|<<=?|>>=?|\.\.\.|:=|->|[-+*/%@&|^<>=!]=|[^\s\\]")
OPENING, CLOSING = (b"(", b"[", b"{"), (b")", b"]", b"}")


class Shape(NamedTuple):
    """The beginning of a text: `lead` is the byte of its first word, `indent` the columns before that, where a tab
    counts to the next multiple of 8, and `code` the text from there without its end."""

    text: bytes
    lead: int
    indent: int
    code: bytes


def shape_of(text: bytes) -> Shape:
    """Returns the beginning of a text."""
    found = LEAD.match(text)
    lead = found.end() if found else 0
    before = text[text.rfind(b"\n", 0, lead) + 1 : lead]
    return Shape(text, lead, len(before.expandtabs(8)), text[lead:].strip())


@dataclasses.dataclass(eq=False)
class Statement:
    """A logical line with the blank and comment lines before it.

    `start` is its first byte in the file, `cut` how many bytes of the file are left out in front (less than 0:
    inserted). `tries` counts how often it was replaced; one that was replaced or inserted is not part of the file.
    `colon` is the byte after the colon that opens a suite, from its own first byte, 0 if there is none."""

    text: bytes
    start: int
    cut: int = 0
    tries: int = 0
    colon: int = 0
    unclosed: bool = False
    kept: Optional[Shape] = dataclasses.field(default=None, init=False)

    @property
    def shape(self) -> Shape:
        """The beginning of the statement, computed once for each text that it has."""
        if self.kept is None or self.kept.text is not self.text:
            self.kept = shape_of(self.text)
        return self.kept

    @property
    def code(self) -> bytes:
        """The text of the statement without the blank and comment lines before it and without its end."""
        return self.shape.code

    @property
    def lead(self) -> int:
        """The byte of the statement's first word."""
        return self.shape.lead

    @property
    def indent(self) -> int:
        """The columns before the statement's first word."""
        return self.shape.indent

    @property
    def word(self) -> bytes:
        """The statement's first word, or b"@" for a decorator."""
        found = re.match(rb"\w+|@", self.code)
        return found[0] if found else b""

    @property
    def opens(self) -> bool:
        """Whether the statement begins like one that has a suite."""
        return self.colon > 0 and self.word in OPENERS

    @property
    def awaits(self) -> bool:
        """Whether the statement ends in the colon that opens a suite."""
        if self.tries:
            return self.code.endswith(b":")
        return self.opens and not re.sub(rb"#[^\n]*", b"", self.text[self.colon :]).strip()


class Pieces:
    """Reads the comments, strings, brackets and other pieces of a text from any byte on.

    If a string has no end, a string of its kind that begins later has none either, up to where the end was searched:
    after a backslash both are read alike. This way no byte is searched again and again for the ends of strings."""

    def __init__(self, data: bytes) -> None:
        self.data = data
        self.endless: Dict[bytes, Tuple[int, int]] = {}

    def read(self, at: int) -> Iterator[Tuple[int, int]]:
        """Yields the pieces from a byte on, each by its first byte and the byte after its last."""
        while at < len(self.data):
            found = PIECE.match(self.data, at)
            assert found is not None
            end = found.end()
            if found[0] in ENDS:
                end = self.end_of_string(at, found[0])
            yield at, end
            at = end

    def end_of_string(self, at: int, quote: bytes) -> int:
        """Returns the end of the string that begins at a byte; if it has none, the end of its line."""
        end = self.search(at, quote) or self.search(at, quote[:1])
        if not end:
            end = self.data.find(b"\n", at)
        return end if end > 0 else len(self.data)

    def search(self, at: int, quote: bytes) -> int:
        """Returns the byte after the end of a string with these quotes; 0 if it has none."""
        first, last = self.endless.get(quote, (0, 0))
        if first <= at < last:
            return 0
        stop = len(self.data)
        for found in ENDS[quote].finditer(self.data, at + len(quote)):
            if found[0] == quote:
                return found.end()
            if found[0] == b"\n":
                stop = found.start()
                break
        self.endless[quote] = (at, stop)
        return 0


def statements(data: bytes) -> Iterator[Statement]:
    """Yields the statements of a text. If a bracket is never closed, the line in which its statement begins is a
    statement; after several of those, each line is one."""
    at, tries, read = 0, 0, 0
    pieces = Pieces(data)
    while at < len(data):
        found = statement_at(pieces, at) if tries <= UNCLOSED_TRIES and read <= UNCLOSED_BYTES else None
        if found is None:
            tries, read = tries + 1, read + len(data) - at
            found = Statement(data[at : line_end(data, at)], at, unclosed=True)
        yield found
        at += len(found.text)


def line_end(data: bytes, at: int) -> int:
    """Returns the end of the line with the next word after a byte."""
    while True:
        blank = BLANK.match(data, at)
        if not blank:
            return data.find(b"\n", at) + 1 or len(data)
        at = blank.end()


def statement_at(pieces: Pieces, at: int) -> Optional[Statement]:
    """Returns the statement at a byte; None if its brackets are not closed."""
    depth, colon, begun, end = 0, 0, False, at
    for start, end in pieces.read(at):
        sign = pieces.data[start:end]
        if sign in OPENING:
            depth += 1
        elif sign in CLOSING:
            depth = max(0, depth - 1)
        elif sign == b":" and depth == 0 and not colon:
            colon = end - at
        elif sign == b"\n" and depth == 0 and begun:
            break
        begun = begun or not (sign.isspace() or sign.startswith(b"#"))
    return Statement(pieces.data[at:end], at, colon=colon) if depth == 0 else None


def around(all_of_them: Sequence[Statement], at: int) -> Optional[int]:
    """Returns the number of the statement in whose suite a statement is; None if it is in none."""
    indent = all_of_them[at].indent
    if not indent:
        return None
    outer = (it for it in range(at - 1, -1, -1) if all_of_them[it].code and all_of_them[it].indent < indent)
    return next(outer, None)


def place_in(all_of_them: Sequence[Statement], outer: Optional[int]) -> str:
    """Returns the kind of a statement's suite: that of a class or of something else; without a statement it is the
    module."""
    if outer is None:
        return MODULE
    return CLASS if all_of_them[outer].word == b"class" else FUNCTION


class Outline:
    """The logical lines of a text. `starts` has the first byte of each, `around` the number of the one in whose suite
    it is, `before` that of the last one with code before it; none if there is none. Each is computed once."""

    def __init__(self, data: bytes) -> None:
        self.statements = list(statements(data))
        self.starts = [it.start for it in self.statements]
        self.around: List[Optional[int]] = []
        self.before: List[Optional[int]] = []
        # The lines whose suites the next one may belong to, and the indentation of each, which increases
        suites: List[int] = []
        indents: List[int] = []
        last: Optional[int] = None
        for at, found in enumerate(self.statements):
            depth = bisect.bisect_left(indents, found.indent)
            self.around.append(suites[depth - 1] if depth else None)
            self.before.append(last)
            if found.code:
                suites[depth:], indents[depth:] = [at], [found.indent]
                last = at

    def at(self, byte: int) -> int:
        """Returns the number of the logical line with a byte."""
        return max(0, bisect.bisect_right(self.starts, byte) - 1)

    def place(self, at: int) -> str:
        """Returns whether a logical line is in the module, or in the suite of a class or of something else."""
        return place_in(self.statements, self.around[at])


class Token(NamedTuple):
    """A word, a sign or a whole string, with its first byte."""

    text: bytes
    byte: int


def tokens(data: bytes) -> Iterator[Token]:
    """Returns the tokens of a text, without comments and line ends."""
    for start, end in Pieces(data).read(0):
        piece = data[start:end]
        if piece[:1] in (b'"', b"'"):
            yield Token(piece, start)
        elif piece[:1] != b"#":
            for found in TOKEN.finditer(piece):
                yield Token(found[0], start + found.start())


def opened(data: bytes, end: int) -> List[int]:
    """Returns the brackets before a byte that are not closed there, outermost first: the byte of each."""
    found: List[int] = []
    for token in tokens(data[:end]):
        if token.text in OPENING:
            found.append(token.byte)
        elif token.text in CLOSING:
            del found[-1:]
    return found
