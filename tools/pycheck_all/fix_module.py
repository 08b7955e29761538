"""A module that is being fixed: its text in bytes, its tree, and the edits of a rewrite. None of its code is run."""
from __future__ import annotations

import ast
import bisect
import functools
import io
import re
import tokenize
import warnings
from typing import Any, Dict, Iterator, List, NamedTuple, Optional, Sequence, Set, Tuple

FUNCTIONS = (ast.FunctionDef, ast.AsyncFunctionDef)
SCOPES = (*FUNCTIONS, ast.Lambda, ast.ClassDef, ast.ListComp, ast.SetComp, ast.DictComp, ast.GeneratorExp)
# A module that uses one of these can read its own names
REFLECTION = frozenset("locals vars globals dir exec eval compile".split())
LAYOUT = (tokenize.NL, tokenize.NEWLINE, tokenize.COMMENT, tokenize.INDENT, tokenize.DEDENT, tokenize.ENDMARKER)


class Edit(NamedTuple):
    """Bytes from `start` to `end` and the text that replaces them."""

    start: int
    end: int
    text: bytes


class Fix(NamedTuple):
    """A rewrite at a place: its name, the bytes in which the fault lies that it mends, and its edits. One that moves
    parts of an expression into statements of their own removes a fault of the grammar, but not always the first. Two
    rewrites that add the same new name and read it later are never made together."""

    name: str
    start: int
    end: int
    edits: Tuple[Edit, ...]
    moves: bool = False
    names: Tuple[bytes, ...] = ()


class Token(NamedTuple):
    """A token of Python's `tokenize`, with its bytes."""

    kind: int
    text: str
    start: int
    end: int


def tree_of(data: bytes) -> ast.Module:
    """Returns the tree of a text; raises SyntaxError and the like if it is not valid Python."""
    with warnings.catch_warnings():
        warnings.simplefilter("ignore")
        return ast.parse(data)


class Module:
    """A text with its tree. Raises SyntaxError, ValueError or RecursionError if Python rejects the text."""

    def __init__(self, data: bytes) -> None:
        if data.startswith(b"\xef\xbb\xbf") or b"\x0c" in data or re.search(rb"\r(?!\n)", data):
            raise ValueError("lines are counted otherwise by Python")
        self.data = data
        self.text = data.decode()
        self.tree = tree_of(data)
        self.starts = [0]
        while True:
            at = data.find(b"\n", self.starts[-1])
            if at < 0:
                break
            self.starts.append(at + 1)
        self.parents: Dict[ast.AST, ast.AST] = {}
        self.nodes: List[ast.AST] = []
        for node in ast.walk(self.tree):
            self.nodes.append(node)
            for child in ast.iter_child_nodes(node):
                self.parents[child] = node

    @functools.cached_property
    def tokens(self) -> List[Token]:
        """The tokens of the text."""
        found = []
        lines = self.text.split("\n")
        widths = [it.isascii() for it in lines]

        def byte(place: Tuple[int, int]) -> int:
            """Returns the byte at a line and a column in characters."""
            line, column = place
            if line > len(lines):
                return len(self.data)
            text = lines[line - 1]
            return self.starts[line - 1] + (column if widths[line - 1] else len(text[:column].encode()))

        for token in tokenize.tokenize(io.BytesIO(self.data).readline):
            if token.type != tokenize.ENCODING:
                found.append(Token(token.type, token.string, byte(token.start), byte(token.end)))
        return found

    @functools.cached_property
    def token_starts(self) -> List[int]:
        """The first byte of each token."""
        return [it.start for it in self.tokens]

    @functools.cached_property
    def newline(self) -> bytes:
        """The characters that end the lines of the text."""
        return b"\r\n" if b"\r\n" in self.data else b"\n"

    def between(self, start: int, end: int) -> List[Token]:
        """Returns the tokens that begin in a part of the text."""
        first = bisect.bisect_left(self.token_starts, start)
        return self.tokens[first : bisect.bisect_left(self.token_starts, end)]

    def has_comment(self, start: int, end: int) -> bool:
        """Whether a comment begins in a part of the text."""
        return any(it.kind == tokenize.COMMENT for it in self.between(start, end))

    def at(self, node: Any) -> Tuple[int, int]:
        """Returns the bytes of a node, without the brackets around it."""
        start = self.starts[node.lineno - 1] + node.col_offset
        return start, self.starts[node.end_lineno - 1] + node.end_col_offset

    def segment(self, node: ast.AST) -> bytes:
        """Returns the text of a node."""
        start, end = self.at(node)
        return self.data[start:end]

    def value(self, node: ast.AST) -> bytes:
        """Returns the text of an expression used by itself: in brackets if it needs some."""
        text = self.segment(node)
        return b"(" + text + b")" if needs_brackets(node, text) else text

    def ancestors(self, node: ast.AST) -> Iterator[ast.AST]:
        """Yields the nodes around a node, from the nearest on."""
        found = self.parents.get(node)
        while found is not None:
            yield found
            found = self.parents.get(found)

    def statement(self, node: ast.AST) -> Optional[ast.stmt]:
        """Returns the statement that a node is or is part of."""
        return next((it for it in [node, *self.ancestors(node)] if isinstance(it, ast.stmt)), None)

    def function(self, node: ast.AST) -> Optional[ast.AST]:
        """Returns the function whose body has a node; None if the nearest scope is not a function."""
        found = next((it for it in self.ancestors(node) if isinstance(it, SCOPES)), None)
        return found if isinstance(found, FUNCTIONS) else None

    def indent(self, node: Any) -> bytes:
        """Returns the blanks before a statement that begins its line."""
        start = self.starts[node.lineno - 1]
        return self.data[start : self.at(node)[0]]

    def indent_of_line(self, byte: int) -> bytes:
        """Returns the blanks before the first word of the line with a byte."""
        start = self.data.rfind(b"\n", 0, byte) + 1
        found = re.match(rb"[ \t]*", self.data[start:byte])
        return found[0] if found else b""

    def step(self) -> bytes:
        """The blanks by which a suite is indented further."""
        for node in self.tree.body:
            inner = getattr(node, "body", None)
            if inner and isinstance(inner[0], ast.stmt) and inner[0].lineno > node.lineno:
                blanks = self.indent(inner[0])
                if blanks and not blanks.strip(b" "):
                    return blanks
        return b"    "

    def is_alone(self, node: Any) -> bool:
        """Whether a statement shares its lines with blanks and a comment at most."""
        start, end = self.at(node)
        before = self.data[self.starts[node.lineno - 1] : start]
        rest = [it for it in self.between(end, len(self.data))[:2] if it.kind not in (tokenize.COMMENT,)]
        follows = rest[0] if rest else None
        ends = follows is None or follows.kind in (tokenize.NEWLINE, tokenize.ENDMARKER)
        return not before.strip(b" ") and ends

    @functools.cached_property
    def names(self) -> Set[str]:
        """All names in the module, in any role."""
        found = {it.text for it in self.tokens if it.kind == tokenize.NAME}
        found |= {it.id for it in self.nodes if isinstance(it, ast.Name)}
        return found

    def mentions(self, names: Sequence[str]) -> bool:
        """Whether one of some names is in the module, in any role, or as a string."""
        texts = {it.value for it in self.nodes if isinstance(it, ast.Constant) and isinstance(it.value, str)}
        return any(it in self.names or it in texts for it in names)

    @functools.cached_property
    def reflects(self) -> bool:
        """Whether the module may read which names it has."""
        return self.mentions(sorted(REFLECTION))

    @functools.cached_property
    def catches(self) -> bool:
        """Whether the module may continue after an exception."""
        kinds = (ast.Try, ast.With, ast.AsyncWith, *filter(None, [getattr(ast, "TryStar", None)]))
        return any(isinstance(it, kinds) for it in self.nodes)

    @functools.cached_property
    def rebinds(self) -> bool:
        """Whether a function may bind a name of another scope."""
        return any(isinstance(it, (ast.Global, ast.Nonlocal)) for it in self.nodes)

    @functools.cached_property
    def bound(self) -> Set[str]:
        """All names that are bound somewhere in the module."""
        found: Set[str] = set()
        for node in self.nodes:
            if isinstance(node, ast.Name) and not isinstance(node.ctx, ast.Load):
                found.add(node.id)
            elif isinstance(node, (*FUNCTIONS, ast.ClassDef)):
                found.add(node.name)
            elif isinstance(node, ast.arg):
                found.add(node.arg)
            elif isinstance(node, ast.alias):
                found.add((node.asname or node.name).split(".")[0])
            elif isinstance(getattr(node, "name", None), str):
                found.add(getattr(node, "name"))
        return found

    def binds(self, name: str) -> int:
        """Returns how often the module binds a name."""
        found = 0
        for it in self.nodes:
            found += isinstance(it, ast.Name) and not isinstance(it.ctx, ast.Load) and it.id == name
            found += isinstance(it, (*FUNCTIONS, ast.ClassDef)) and it.name == name
            found += isinstance(it, ast.arg) and it.arg == name
            found += isinstance(it, ast.alias) and (it.asname or it.name) == name
        return found

    @property
    def has_header(self) -> bool:
        """Whether the module has the header by which annotations are not evaluated."""
        return any(
            isinstance(it, ast.ImportFrom) and it.module == "__future__" and alias.name == "annotations"
            for it in self.tree.body
            for alias in getattr(it, "names", [])
        )

    def fresh(self, base: str, taken: Sequence[str] = ()) -> str:
        """Returns a name that the module does not have."""
        number = 1
        name = base
        while name in self.names or name in taken:
            number += 1
            name = f"{base}_{number}"
        return name

    def body_of(self, node: ast.AST) -> List[ast.stmt]:
        """Returns the suite of a statement."""
        parent = self.parents[node]
        for _, suite in ast.iter_fields(parent):
            if isinstance(suite, list) and node in suite:
                return suite
        return []


def needs_brackets(node: ast.AST, text: bytes) -> bool:
    """Whether an expression has brackets of its own only at its ends, or runs over lines without any."""
    if isinstance(node, (ast.NamedExpr, ast.Yield, ast.YieldFrom, ast.Starred)):
        return True
    if isinstance(node, ast.Tuple):
        return not is_bracketed(text)
    return b"\n" in text


def is_bracketed(text: bytes) -> bool:
    """Whether a tuple has brackets around it, and not only around its parts."""
    if text[:1] != b"(" or text[-1:] != b")":
        return False
    try:
        # The first and the last bracket of `(a), (b)` do not belong together
        return text == b"()" or bool(tree_of(b"[" + text[1:-1] + b"\n]").body)
    except (SyntaxError, ValueError, RecursionError):
        return False


def applied(data: bytes, edits: Sequence[Edit]) -> bytes:
    """Returns the text after edits that do not overlap."""
    parts, at = [], 0
    for edit in sorted(edits, key=lambda it: (it.start, it.end)):
        parts += [data[at : edit.start], edit.text]
        at = edit.end
    return b"".join([*parts, data[at:]])


def overlap(one: Sequence[Edit], others: Sequence[Edit]) -> bool:
    """Whether edits touch the same bytes, or the same place."""
    return any(a.start <= b.end and b.start <= a.end for a in one for b in others)
