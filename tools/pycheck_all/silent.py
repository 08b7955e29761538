"""Finds the silent errors: a run may fail by them before it passes through a place that the report lists.

Most errors are silent by their code. For five codes the text at the place decides: its words, and the logical line
around it. If the text does not decide, an error counts as silent."""
from __future__ import annotations

import bisect
import functools
import re
import unicodedata
from typing import Dict, Iterator, List, NamedTuple, Sequence, Tuple

# Errors in text that no run evaluates, at any place
BY_CODE = ("E01", "E05", "E06", "E07", "E08", "E25", "E28", "E29", "E31")
DECORATOR, TESTED, SHAPE = "E02 of a decorator", "E03 of a tested name", "E11 of another shape"
BARE, PARAMETER, FIELD = "E12 of a bare return", "E12 of a parameter's default", "E12 of a field's default"
FUNCTION = "E21 of a function"
KINDS = (*BY_CODE, DECORATOR, TESTED, SHAPE, BARE, PARAMETER, FIELD, FUNCTION)
OF_CODE = {kind[:3]: tuple(it for it in KINDS if it[:3] == kind[:3]) for kind in KINDS}
# A string without an end is a token up to the end of its line, so that no byte is read again for each of its quotes
TOKEN = re.compile(
    rb"""#[^\n]*|"(?:[^"\\\n]|\\.)*"?|'(?:[^'\\\n]|\\.)*'?|[0-9A-Za-z_\x80-\xff]+|[ \t\r]+|\n|.""", re.DOTALL
)
OPENING, CLOSING = (b"(", b"[", b"{"), (b")", b"]", b"}")
# How many methods of ancestors are compared; if there are more, the remaining errors count as silent
MOST_LOOKS = 1_000_000
# How many lines a sentence names
MOST_NAMED = 5


class Token(NamedTuple):
    """A word or sign, with its first byte."""

    byte: int
    text: bytes


class Line(NamedTuple):
    """A logical line: its words and signs, its indentation, and the first word of the line whose suite it is in."""

    tokens: List[Token]
    column: int
    opener: bytes

    @property
    def first(self) -> bytes:
        """The first word of the line."""
        return self.tokens[0].text


class Parameter(NamedTuple):
    """A parameter of a method after `self`."""

    name: str
    has_default: bool


class Class(NamedTuple):
    """A class: its base, and the parameters of its methods."""

    base: str
    methods: Dict[str, List[Parameter]]


def lines_of(data: bytes) -> Iterator[Line]:
    """Yields the logical lines of a module."""
    around: List[Tuple[int, bytes]] = []
    for column, tokens in cut(data):
        while around and around[-1][0] >= column:
            around.pop()
        yield Line(tokens, column, around[-1][1] if around else b"")
        around.append((column, tokens[0].text))


def cut(data: bytes) -> Iterator[Tuple[int, List[Token]]]:
    """Yields the column at which each logical line begins, and its words and signs."""
    tokens: List[Token] = []
    depth, column, start = 0, 0, 0
    for found in TOKEN.finditer(data):
        text = found[0]
        if text == b"\n":
            if depth == 0 and tokens:
                yield column, tokens
                tokens = []
            start = found.end()
        elif text[:1] != b"#" and text.strip():
            column = column if tokens else found.start() - start
            depth += level(text)
            tokens.append(Token(found.start(), text))
    if tokens:
        yield column, tokens


def level(text: bytes) -> int:
    """Returns how much deeper in brackets the text after a sign is."""
    return (text in OPENING) - (text in CLOSING)


def name_of(token: Token) -> str:
    """Returns a name in the form in which names are compared."""
    return unicodedata.normalize("NFKC", token.text.decode("utf-8", "replace"))


def classes_of(lines: Sequence[Line]) -> Dict[str, Class]:
    """Returns the classes of a module by their names."""
    classes: Dict[str, Class] = {}
    last = Class("", {})
    for line in lines:
        if line.first == b"class" and len(line.tokens) > 2:
            base = name_of(line.tokens[3]) if line.tokens[2].text == b"(" else ""
            last = classes[name_of(line.tokens[1])] = Class(base, {})
        elif line.first == b"def" and line.opener == b"class":
            last.methods[name_of(line.tokens[1])] = parameters_of(line)
    return classes


def parameters_of(header: Line) -> List[Parameter]:
    """Returns the parameters of a method's header after `self`."""
    found: List[Parameter] = []
    depth = 0
    for token, following in zip(header.tokens[2:], header.tokens[3:]):
        depth += level(token.text)
        if depth == 0:
            break
        if depth == 1 and token.text == b"," and following.text != b")":
            found.append(Parameter(name_of(following), False))
        elif depth == 1 and token.text == b"=" and found:
            found[-1] = found[-1]._replace(has_default=True)
    return found


def has_shape_of(old: Sequence[Parameter], new: Sequence[Parameter]) -> bool:
    """Whether a method accepts what one above it accepts: as many parameters, with the same names, and with a default
    for each that has one above."""
    pairs = list(zip(old, new))
    same = len(old) == len(new) and all(one.name == other.name for one, other in pairs)
    return same and all(other.has_default or not one.has_default for one, other in pairs)


def is_tested(tokens: Sequence[Token], at: int) -> bool:
    """Whether a name of a line is the second and last argument of a call of `isinstance`."""
    start, end = at - 1, at + 1
    while start > 0 and tokens[start].text == b"(" and end < len(tokens) and tokens[end].text == b")":
        start, end = start - 1, end + 1
    after = [token.text for token in tokens[end : end + 2]]
    if start < 0 or tokens[start].text != b"," or b")" not in (after[:1] if after[:1] != [b","] else after[1:]):
        return False
    depth, commas = 0, 0
    while start > 0 and depth >= 0:
        text = tokens[start].text
        depth += (text in CLOSING) - (text in OPENING)
        commas += text == b"," and depth == 0
        start -= 1
    return depth < 0 and commas == 1 and name_of(tokens[start]) == "isinstance"


def sentence(numbers: Sequence[int]) -> str:
    """Returns the sentence that silent errors in the lines of these numbers suspend the promise."""
    found = [str(number) for number in sorted(set(numbers))]
    named = found if len(found) <= MOST_NAMED + 1 else [*found[:MOST_NAMED], f"{len(found) - MOST_NAMED} more"]
    lines = f"line {named[0]}" if len(named) == 1 else f"lines {', '.join(named[:-1])} and {named[-1]}"
    return f"the promise is suspended by {lines}: a run may fail before it passes through a line of the report"


class Silent:
    """Decides which errors of a module are silent. The text is read only if a code alone does not decide."""

    def __init__(self, data: bytes) -> None:
        self.data = data
        self.looks = MOST_LOOKS

    @functools.cached_property
    def lines(self) -> List[Line]:
        """The logical lines."""
        return list(lines_of(self.data))

    @functools.cached_property
    def starts(self) -> List[int]:
        """The first byte of each logical line."""
        return [line.tokens[0].byte for line in self.lines]

    @functools.cached_property
    def classes(self) -> Dict[str, Class]:
        """The classes by their names."""
        return classes_of(self.lines)

    @functools.cached_property
    def headers(self) -> List[int]:
        """The numbers of the lines with which classes begin."""
        return [number for number, line in enumerate(self.lines) if line.first == b"class" and len(line.tokens) > 2]

    def kind(self, code: str, byte: int) -> str:
        """Returns the kind of a silent error whose place begins at a byte; empty for an error that is not silent."""
        kinds = OF_CODE.get(code, ())
        if kinds == (code,) or not kinds:
            return kinds[0] if kinds else ""
        number = bisect.bisect_right(self.starts, byte) - 1
        tokens = self.lines[number].tokens if number >= 0 else []
        at = bisect.bisect_left(tokens, (byte,))
        if at == len(tokens) or tokens[at].byte != byte:
            return kinds[0]
        return next((kind for kind in kinds if self.stands(kind, number, at)), "")

    def stands(self, kind: str, number: int, at: int) -> bool:
        """Whether a word of a line makes an error one of this kind."""
        line = self.lines[number]
        if kind == DECORATOR:
            return at > 0 and line.tokens[at - 1].text == b"@"
        if kind == TESTED:
            return is_tested(line.tokens, at)
        if kind == SHAPE:
            return self.has_other_shape(number)
        if kind == BARE:
            return line.tokens[at].text == b"return"
        if kind == PARAMETER:
            return line.first == b"def"
        if kind == FIELD:
            return line.opener == b"class"
        return line.opener != b"class"

    def has_other_shape(self, number: int) -> bool:
        """Whether the method of a line has another shape than one of the same name above it."""
        line = self.lines[number]
        at = bisect.bisect_left(self.headers, number) - 1
        if at < 0 or len(line.tokens) < 2:
            return True
        name, new = name_of(line.tokens[1]), parameters_of(line)
        above = self.classes.get(name_of(self.lines[self.headers[at]].tokens[1]))
        while above is not None and self.looks > 0:
            above = self.classes.get(above.base)
            self.looks -= 1
            if above and name in above.methods and not has_shape_of(above.methods[name], new):
                return True
        return above is not None
