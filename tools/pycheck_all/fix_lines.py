"""Rewrites of the lines of statements: one statement on each, a suite below its head, no backslash at the end."""
from __future__ import annotations

import ast
import tokenize
from typing import Iterator, List, Optional

from .fix_module import Edit, Fix, Module, Token

SUITES = ("body", "orelse", "finalbody")


def semicolons(module: Module) -> Iterator[Fix]:
    """Rewrites statements on one line to a line for each."""
    for at, token in enumerate(module.tokens):
        if token.kind == tokenize.OP and token.text == ";":
            yield from parted(module, at)


def parted(module: Module, at: int) -> Iterator[Fix]:
    """Rewrites one semicolon."""
    token, following = module.tokens[at], module.tokens[at + 1]
    start = token.start
    while module.data[start - 1 : start] in (b" ", b"\t"):
        start -= 1
    if following.kind in (tokenize.NEWLINE, tokenize.COMMENT, tokenize.ENDMARKER):
        yield Fix("semicolon", start, token.end, (Edit(start, token.end, b""),))
    elif not opens_suite(module, token):
        apart = module.newline + module.indent_of_line(line_of_statement(module, token.start))
        yield Fix("semicolon", start, following.start, (Edit(start, following.start, apart),))


def line_of_statement(module: Module, byte: int) -> int:
    """Returns the first byte of the logical line with a byte."""
    tokens = module.between(0, byte)
    first = next((it for it in range(len(tokens) - 1, -1, -1) if tokens[it].kind == tokenize.NEWLINE), -1)
    layout = (tokenize.NL, tokenize.COMMENT, tokenize.INDENT, tokenize.DEDENT)
    return next(it.start for it in module.tokens[first + 1 :] if it.kind not in layout)


def opens_suite(module: Module, token: Token) -> bool:
    """Whether a semicolon is in a suite on the line of its head, which is moved to lines of its own first."""
    start = module.starts[module.data.count(b"\n", 0, line_of_statement(module, token.start))]
    return any(start <= it.start <= token.start for it in inline_suites(module))


def inline_suites(module: Module) -> List[Token]:
    """Returns, for the first statement of each suite that is on the line of its head, the bytes from the colon on."""
    found = []
    for node in module.nodes:
        for suite in (getattr(node, name, None) for name in SUITES):
            if isinstance(suite, list) and suite and isinstance(suite[0], ast.stmt):
                token = colon_before(module, suite[0])
                if token is not None:
                    found.append(token)
    return found


def colon_before(module: Module, node: ast.stmt) -> Optional[Token]:
    """Returns the colon before a statement; None if the token before it is another one."""
    start = min([module.at(node)[0], *(module.at(it)[0] - 1 for it in getattr(node, "decorator_list", []))])
    before = module.between(0, start)
    return before[-1] if before and before[-1].text == ":" and before[-1].kind == tokenize.OP else None


def inline(module: Module) -> Iterator[Fix]:
    """Rewrites a suite on the line of its head to lines of its own."""
    for node in module.nodes:
        for suite in (getattr(node, name, None) for name in SUITES):
            if isinstance(suite, list) and suite and isinstance(suite[0], ast.stmt):
                colon = colon_before(module, suite[0])
                if colon is not None:
                    yield below(module, colon, suite)


def below(module: Module, colon: Token, suite: List[ast.stmt]) -> Fix:
    """Returns the rewrite of one suite."""
    head = line_of_statement(module, colon.start)
    apart = module.newline + module.indent_of_line(head) + module.step()
    start, end = module.at(suite[0])[0], module.at(suite[-1])[1]
    edits = [Edit(colon.end, start, apart)]
    for token in module.between(start, end):
        if token.kind == tokenize.OP and token.text == ";":
            after = next(it for it in module.between(token.end, len(module.data)))
            edits.append(Edit(token.start, after.start, apart))
    return Fix("suite", colon.end, end, tuple(edits))


def backslashes(module: Module) -> Iterator[Fix]:
    """Replaces a backslash at the end of a line by brackets around the expression, or joins the lines."""
    for at, before in enumerate(module.tokens[:-1]):
        after = module.tokens[at + 1]
        gap = module.data[before.end : after.start]
        if b"\\" not in gap or before.kind in (tokenize.NL, tokenize.NEWLINE):
            continue
        outer = outermost(module, before.end, after.start)
        blank = b"" if outer and outer[1] else b" "
        edits = [Edit(before.end, after.start, gap.replace(b"\\", b"").replace(b" \n", b"\n") if outer else blank)]
        if outer and not outer[1]:
            start, end = module.at(outer[0])
            edits += [Edit(start, start, b"("), Edit(end, end, b")")]
            edits += [it for it in others(module, start, end, before.end)]
        start, end = min(it.start for it in edits), max(it.end for it in edits)
        yield Fix("backslash", start, end, tuple(edits))


def others(module: Module, start: int, end: int, but: int) -> Iterator[Edit]:
    """Yields the edits of the other backslashes of an expression that gets brackets."""
    tokens = module.between(start, end)
    for before, after in zip(tokens, tokens[1:]):
        gap = module.data[before.end : after.start]
        if b"\\" in gap and before.end != but:
            yield Edit(before.end, after.start, gap.replace(b"\\", b"").replace(b" \n", b"\n"))


def outermost(module: Module, start: int, end: int) -> Optional["tuple[ast.expr, bool]"]:
    """Returns the outermost expression around a gap, and whether brackets are open there; None if there is no such
    expression."""
    found = [it for it in module.nodes if isinstance(it, ast.expr) and around(module, it, start, end)]
    if not found:
        return None
    outer = min(found, key=lambda it: module.at(it)[0] - module.at(it)[1])
    depth = 0
    for token in module.between(line_of_statement(module, start), end):
        if token.kind == tokenize.OP:
            depth += (token.text in "([{") - (token.text in ")]}")
    return outer, depth > 0


def around(module: Module, node: ast.expr, start: int, end: int) -> bool:
    """Whether both ends of a gap are in an expression."""
    first, last = module.at(node)
    return first < start and end < last
