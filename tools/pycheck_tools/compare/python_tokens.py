"""The tokens of a text as Python's own `tokenize` gives them, as rows of `test_trees`.

The README of crates/test_trees says what a row is. Nothing of the program is asked here: a place is computed from the lines and the
columns of Python.
"""
from __future__ import annotations

import ast
import io
import keyword
import tokenize
import unicodedata
from typing import List, NamedTuple, Optional, Tuple, Union

Place = Tuple[int, int]

SIGNS = {"+": "Plus", "-": "Minus", "*": "Star", "//": "DoubleSlash", "%": "Percent", "==": "EqualEqual", "!=": "NotEqual", "<": "Less",
         "<=": "LessEqual", ">": "Greater", ">=": "GreaterEqual", "=": "Equal", "(": "LeftParenthesis", ")": "RightParenthesis",
         "[": "LeftBracket", "]": "RightBracket", "{": "LeftBrace", "}": "RightBrace", ",": "Comma", ":": "Colon", ".": "Dot", "|": "Bar",
         "->": "Arrow", "@": "At", "/": "Slash", "**": "DoubleStar", "&": "Ampersand", "^": "Circumflex", "~": "Tilde", "<<": "LeftShift",
         ">>": "RightShift", ":=": "ColonEqual", "+=": "PlusEqual", "-=": "MinusEqual", "*=": "StarEqual", "/=": "SlashEqual",
         "//=": "DoubleSlashEqual", "%=": "PercentEqual", "**=": "DoubleStarEqual", "&=": "AmpersandEqual", "|=": "BarEqual",
         "^=": "CircumflexEqual", "<<=": "LeftShiftEqual", ">>=": "RightShiftEqual", "@=": "AtEqual", ";": "Semicolon", "...": "Ellipsis"}
KINDS = {tokenize.NUMBER: "Int", tokenize.STRING: "Str", tokenize.NEWLINE: "Newline", tokenize.INDENT: "Indent",
         tokenize.DEDENT: "Dedent", tokenize.ENDMARKER: "End"}
LEFT_OUT = (tokenize.ENCODING, tokenize.COMMENT, tokenize.NL)
FAULTS = (SyntaxError, ValueError, tokenize.TokenError, RecursionError, MemoryError)


class Token(NamedTuple):
    """A token with its bytes, and the normal form of a name that is not ASCII."""

    kind: str
    start: int
    end: int
    form: str

    def row(self) -> str:
        return f"token {self.kind} {self.start} {self.end}{self.form and ' ' + self.form}"


class Text:
    """A text, and the bytes at which its lines begin."""

    def __init__(self, data: bytes) -> None:
        self.data = data
        self.lines = data.split(b"\n")
        self.starts = [0]
        for line in self.lines:
            self.starts.append(self.starts[-1] + len(line) + 1)

    def byte(self, line: int, column: int) -> int:
        """Returns the byte of a line, from 1, and a column in bytes, from 0; behind the last line that is the length."""
        return min(self.starts[line - 1] + column if line <= len(self.lines) else len(self.data), len(self.data))

    def byte_of_character(self, place: Tuple[int, int]) -> int:
        """Returns the byte of a line, from 1, and a column in characters, from 0."""
        line, column = place
        if line <= len(self.lines) and not self.lines[line - 1].isascii():
            column = len((self.lines[line - 1] + b"\n").decode(errors="replace")[:column].encode())
        return self.byte(line, column)

    def place(self, node: Union[ast.expr, ast.stmt, ast.arg, ast.keyword]) -> Place:
        """Returns the bytes of a node."""
        return (self.byte(node.lineno, node.col_offset), self.byte(node.end_lineno or 0, node.end_col_offset or 0))


def token_of(row: str) -> Token:
    """Returns the token of a row."""
    _, kind, start, end, *form = row.split(" ")
    return Token(kind, int(start), int(end), " ".join(form))


def kind_of(kind: int, text: str) -> str:
    """Returns the word for the kind of a token."""
    if kind == tokenize.NAME:
        return text.capitalize() if keyword.iskeyword(text) else "Name"
    return SIGNS.get(text, "Error") if kind == tokenize.OP else KINDS.get(kind, "Error")


def tokens_of(text: Text) -> Tuple[List[Token], Optional[str]]:
    """Returns the tokens of a text, up to the first fault of `tokenize`, and that fault."""
    found: List[Token] = []
    try:
        for kind, spelled, start, end, _ in tokenize.tokenize(io.BytesIO(text.data).readline):
            if kind in LEFT_OUT:
                continue
            last = text.byte_of_character(end)
            first = last if kind == tokenize.INDENT else text.byte_of_character(start)
            if kind == tokenize.NEWLINE and not spelled:
                last = first
            form = unicodedata.normalize("NFKC", spelled) if kind == tokenize.NAME and not spelled.isascii() else ""
            found.append(Token(kind_of(kind, spelled), first, last, form))
    except FAULTS as fault:
        return found, f"{type(fault).__name__}: {fault}"
    return found, None
