"""Rewrites of strings and numbers to the spelling of the profile. The value is that of `ast.literal_eval`."""
from __future__ import annotations

import ast
import tokenize
import warnings
from typing import Iterator, List, Optional, Set

from .fix_module import Edit, Fix, Module, Token

ESCAPES = {"\\": "\\\\", '"': '\\"', "\n": "\\n", "\t": "\\t", "\r": "\\r"}
MOST_DIGITS = 1000
# A sum of more parts than this would be nested too deep
MOST_PARTS = 30
# A value with one of these may look different in an f-string than in the result of `str`
FORMATTING = ("__format__", "enum", "Enum", "IntEnum", "StrEnum", "IntFlag")
# Expressions that can be parts of a sum without brackets around them
ROOMY = (ast.Assign, ast.AnnAssign, ast.Return, ast.Call, ast.keyword, ast.List, ast.Tuple, ast.Expr)


def spelled(value: str) -> Optional[bytes]:
    """Returns a string of the profile with this value; None if it has no readable one."""
    if not all(it.isprintable() or it in ESCAPES for it in value):
        return None
    return b'"' + "".join(ESCAPES.get(it, it) for it in value).encode() + b'"'


def is_plain(text: str) -> bool:
    """Whether a token is a string as the profile has it."""
    if text[:1] not in ("'", '"') or text[:3] in ("'''", '"""'):
        return False
    escapes = [text[at + 1] for at in backslashes(text)]
    return all(it in "\\'\"ntr" for it in escapes)


def backslashes(text: str) -> List[int]:
    """Returns where the escapes of a string begin."""
    found, at = [], 0
    while at < len(text) - 1:
        if text[at] == "\\":
            found.append(at)
            at += 1
        at += 1
    return found


def literal(text: str) -> object:
    """Returns the value of a literal; none if Python has none."""
    try:
        with warnings.catch_warnings():
            warnings.simplefilter("ignore")
            return ast.literal_eval(text)
    except (SyntaxError, ValueError):
        return None


def in_formats(module: Module) -> Set[ast.AST]:
    """Returns the nodes inside f-strings, whose places older Pythons do not record."""
    return {it for node in module.nodes if isinstance(node, ast.JoinedStr) for it in ast.walk(node) if it is not node}


def strings(module: Module) -> Iterator[Fix]:
    """Rewrites strings with prefixes, triple quotes or other escapes, and adjacent strings."""
    inner = in_formats(module)
    for node in module.nodes:
        if not isinstance(node, ast.Constant) or not isinstance(node.value, str) or node in inner:
            continue
        start, end = module.at(node)
        parts = [it for it in module.between(start, end) if it.kind == tokenize.STRING]
        if not parts or (len(parts) == 1 and is_plain(parts[0].text)):
            continue
        values = [literal(it.text) for it in parts]
        if not all(isinstance(it, str) for it in values) or "".join(map(str, values)) != node.value:
            continue
        edits = joined(module, node, parts, [str(it) for it in values])
        if edits:
            yield Fix("string", start, end, tuple(edits))


def joined(module: Module, node: ast.Constant, parts: List[Token], values: List[str]) -> List[Edit]:
    """Returns the edits for one string, which may have several parts: parts on one line become one, others a sum over
    lines."""
    start, end = module.at(node)
    lines = node.value.count("\n") + len(parts)
    if node.lineno == node.end_lineno or wants_literal(module, node) or lines > MOST_PARTS:
        text = spelled(node.value)
        return [] if text is None or module.has_comment(start, end) else [Edit(start, end, text)]
    edits = []
    for at, (part, value) in enumerate(zip(parts, values)):
        lines = value.splitlines(keepends=True) if "\n" in part.text else [value]
        texts = [spelled(it) for it in lines or [""]]
        if any(it is None for it in texts):
            return []
        apart = b" +" + module.newline + module.indent_of_line(part.start) + b" " * 4
        text = apart.join(it for it in texts if it is not None)
        edits.append(Edit(part.start, part.end, text + (b" +" if at < len(parts) - 1 else b"")))
    bracketed = module.data[:start].rstrip()[-1:] == b"(" and module.data[end:].lstrip()[:1] == b")"
    if not bracketed and (len(edits) > 1 or b"\n" in edits[0].text):
        edits[0] = edits[0]._replace(text=b"(" + edits[0].text)
        edits[-1] = edits[-1]._replace(text=edits[-1].text + b")")
    return edits


def wants_literal(module: Module, node: ast.Constant) -> bool:
    """Whether the profile has only a literal there: in defaults, and where a string is a statement or a key."""
    parent = module.parents.get(node)
    if isinstance(parent, ast.arguments):
        return True
    if isinstance(parent, ast.AnnAssign):
        return isinstance(module.parents.get(parent), ast.ClassDef)
    return isinstance(parent, ast.Expr)


def numbers(module: Module) -> Iterator[Fix]:
    """Rewrites whole numbers of other bases to decimal digits."""
    inner = in_formats(module)
    for node in module.nodes:
        if not isinstance(node, ast.Constant) or type(node.value) is not int or node in inner:
            continue
        start, end = module.at(node)
        if module.data[start : start + 1] != b"0" or end - start == 1 or node.value.bit_length() > 3 * MOST_DIGITS:
            continue
        text = str(node.value).encode()
        if isinstance(module.parents[node], ast.Attribute):
            text = b"(" + text + b")"
        elif module.data[end : end + 1].isalpha():
            text += b" "
        yield Fix("number", start, end, (Edit(start, end, text),))


def formats(module: Module) -> Iterator[Fix]:
    """Rewrites f-strings without format specifications to sums."""
    if module.mentions(FORMATTING) or "str" in module.bound:
        return
    inner = in_formats(module)
    for node in module.nodes:
        if not isinstance(node, ast.JoinedStr) or node in inner:
            continue
        start, end = module.at(node)
        if module.has_comment(start, end) or (b"\n" in module.data[start:end] and b"#" in module.data[start:end]):
            continue
        parts = [part_of(it) for it in node.values]
        if all(it is not None for it in parts):
            text = b" + ".join(it for it in parts if it is not None) or b'""'
            if len(parts) > 1 and not isinstance(module.parents[node], ROOMY):
                text = b"(" + text + b")"
            yield Fix("f-string", start, end, (Edit(start, end, text),))


def part_of(node: ast.expr) -> Optional[bytes]:
    """Returns a part of an f-string as an expression; None if it has none."""
    if isinstance(node, ast.Constant):
        return spelled(node.value) if isinstance(node.value, str) else None
    if not isinstance(node, ast.FormattedValue) or node.format_spec is not None or node.conversion not in (-1, 115):
        return None
    if any(isinstance(it, (ast.Await, ast.Yield, ast.YieldFrom, ast.Lambda)) for it in ast.walk(node)):
        return None
    return f"str({ast.unparse(node.value)})".encode()
