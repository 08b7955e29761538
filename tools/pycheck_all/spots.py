"""The spot of a refusal: the word or sign there, with the tokens of its logical line before and after it."""
from __future__ import annotations

import dataclasses
import functools
import re
from typing import List

from .statements import MODULE, Outline, tokens

# How many bytes of a logical line are read before and after a spot; a longer line is some table of data
BYTES_BEFORE, BYTES_AFTER = 1 << 15, 1 << 12
GLUED = re.compile(r"\w*$")
# A prefix of a string has two letters at most; longer words are not prefixes
LONGEST_PREFIX = 8
NAME = re.compile(r"\w+$")
# After these a bracket begins a value: it neither calls nor picks an item
KEYWORDS = frozenset(
    "and as assert await del elif else for if import in is lambda not or raise return while with yield".split()
)
PAIRS = {"(": "()", "[": "[]", "{": "{}"}


@dataclasses.dataclass(frozen=True)
class Spot:
    """A word or sign, `before` and `after` it the tokens of its logical line, `rest` the rest of its line from it on.

    `glued` is the part of a word directly before it. `place` says whether it is in the module, in the suite of a class
    or in another one, `first` that no code is before it."""

    word: str
    before: List[str]
    after: List[str]
    rest: str
    glued: str
    place: str
    first: bool

    @functools.cached_property
    def levels(self) -> List[List[str]]:
        """The tokens before the spot in each open bracket, outermost first; a bracket that is closed again is one
        token."""
        found: List[List[str]] = [[]]
        for token in self.before:
            if token in PAIRS:
                found[-1].append(token)
                found.append([])
            elif token in (")", "]", "}"):
                if len(found) > 1:
                    found.pop()
                found[-1][-1:] = [PAIRS.get(it, it) for it in found[-1][-1:]]
            else:
                found[-1].append(token)
        return found

    @property
    def level(self) -> List[str]:
        """The tokens before the spot in the innermost open bracket."""
        return self.levels[-1]

    @functools.cached_property
    def part(self) -> List[str]:
        """The tokens before the spot since the last comma of the innermost open bracket."""
        return after_comma(self.level)

    @property
    def last(self) -> str:
        """The token before the spot; empty at the beginning."""
        return self.before[-1] if self.before else ""

    @property
    def keyword(self) -> str:
        """The first word of the spot's logical line, without `async`."""
        words = [it for it in [*self.before, self.word] if it != "async"]
        return words[0] if words else ""

    @property
    def bracket(self) -> str:
        """The innermost open bracket; empty if there is none."""
        levels = self.levels
        return levels[-2][-1] if len(levels) > 1 else ""

    @property
    def owner(self) -> str:
        """The value that the innermost open bracket calls or picks from: its last token; empty for a bracket that does
        neither."""
        before = self.levels[-2][:-1] if self.bracket else []
        token = before[-1] if before else ""
        is_value = token[:1] in ('"', "'") or token in PAIRS.values() or bool(NAME.match(token))
        return token if is_value and token not in KEYWORDS else ""

    @property
    def is_parameter(self) -> bool:
        """Whether the spot is among the parameters of a function, in no further bracket."""
        return self.keyword == "def" and len(self.levels) == 2 and self.bracket == "(" and "->" not in self.levels[0]

    @functools.cached_property
    def is_annotation(self) -> bool:
        """Whether the spot is in an annotation."""
        levels = self.levels
        if self.keyword == "def":
            if "->" in levels[0]:
                return True
            level = after_comma(levels[1] if len(levels) > 1 else [])
        else:
            level = levels[0][1:] if self.keyword not in OPENING_WORDS else []
        return ":" in level and "=" not in level

    @property
    def is_alone(self) -> bool:
        """Whether the spot is a string, with or without a prefix, that begins its logical line, or the parenthesis
        before strings alone that are the whole line."""
        before = [it for it in self.before if it != "("]
        if self.word == "(":
            rest = [it for it in self.after if it not in ("(", ")")]
            return not before and bool(rest) and all(it[0] in "\"'" for it in rest)
        return self.word[:1] in ('"', "'") and before in ([], [self.glued])


OPENING_WORDS = frozenset("if elif else for while try except finally with def class match case lambda".split())


def after_comma(level: List[str]) -> List[str]:
    """Returns the tokens after the last comma; all of them if there is none."""
    commas = [at for at, token in enumerate(level) if token == ","]
    return level[commas[-1] + 1 :] if commas else level


def text_of(token: bytes) -> str:
    """Returns a token as text."""
    return token.decode("utf-8", "replace")


def spot_at(data: bytes, outline: Outline, byte: int, word: str, rest: str) -> Spot:
    """Returns the spot at a byte of a text with this outline; `word` and `rest` are the word and the line from
    there."""
    if byte >= len(data):
        return Spot("", [], [], "", "", MODULE, not any(it.code for it in outline.statements))
    at = outline.at(byte)
    statement = outline.statements[at]
    before, after = [], []
    within = byte - statement.start
    start = max(0, within - BYTES_BEFORE)
    text, within = statement.text[start : within + BYTES_AFTER], within - start
    end = within + len(word.encode("utf-8", "surrogateescape"))
    for token in tokens(text):
        if token.byte < within:
            before.append(text_of(token.text))
        elif token.byte >= end:
            after.append(text_of(token.text))
        elif token.byte == within and token.text[:1] in (b'"', b"'"):
            word, end = text_of(token.text), within + len(token.text)
    glued = GLUED.search(text_of(data[max(0, byte - LONGEST_PREFIX) : byte]))
    return Spot(
        word=word,
        before=before,
        after=after,
        rest=rest,
        glued=glued[0] if glued else "",
        place=outline.place(at),
        first=outline.before[at] is None and not before,
    )
