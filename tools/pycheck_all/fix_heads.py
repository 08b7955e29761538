"""Rewrites of a module's own parts: its header, its docstrings, and the call of `main` at its end."""
from __future__ import annotations

import ast
import re
from typing import Iterator, List, Optional

from .fix_module import FUNCTIONS, Edit, Fix, Module

HEADER = b"from __future__ import annotations"
OUT_OF_ORDER = (b"from typing import Any", b"from dataclasses import dataclass")
CODING = re.compile(r"coding[:=]")
# A module with one of these may read the texts that are removed
DOCUMENTS = ("__doc__", "help", "getdoc", "inspect", "doctest", "pydoc")
ANNOTATIONS = ("__annotations__", "get_type_hints", "get_annotations", "inspect", "singledispatch", "pydantic", "attr")
MAIN = "main"


def docstrings(module: Module) -> Iterator[Fix]:
    """Rewrites a docstring, or another string that is a statement, to a comment."""
    if module.mentions(DOCUMENTS):
        return
    for node in module.nodes:
        if not isinstance(node, ast.Expr) or not isinstance(node.value, ast.Constant):
            continue
        value = node.value.value
        if isinstance(value, str) and module.is_alone(node):
            lines = comment_of(value)
            if lines is not None:
                yield commented(module, node, lines)


def comment_of(value: str) -> Optional[List[str]]:
    """Returns the lines of a comment with this text; None if a comment cannot have it."""
    lines = [it.rstrip() for it in value.expandtabs().strip().split("\n")]
    margins = [len(it) - len(it.lstrip()) for it in lines[1:] if it.strip()]
    margin = min(margins, default=0)
    lines = [lines[0], *(it[margin:] for it in lines[1:])]
    if not all(it.isprintable() for it in lines) or any(CODING.search(it) for it in lines[:2]):
        return None
    return lines


def commented(module: Module, node: ast.Expr, lines: List[str]) -> Fix:
    """Returns the rewrite of one string to a comment; a suite of that string alone gets `pass` as well."""
    start, end = module.at(node)
    apart = module.newline + module.indent(node)
    text = apart.join(f"# {it}".rstrip().encode() for it in lines)
    if len(module.body_of(node)) == 1 and not isinstance(module.parents[node], ast.Module):
        text += apart + b"pass"
    return Fix("docstring", start, end, (Edit(start, end, text),))


def header(module: Module) -> Iterator[Fix]:
    """Adds the first header, before the first statement."""
    body = module.tree.body
    if module.has_header or module.mentions(ANNOTATIONS) or not all(map(is_plain, annotations_of(module))):
        return
    if not body:
        start = len(module.data)
        lead = b"" if module.data[-1:] in (b"", b"\n") else module.newline
        yield Fix("header", start, start, (Edit(start, start, lead + HEADER + module.newline),))
        return
    first = body[0]
    start = min([module.at(first)[0], *(module.at(it)[0] - 1 for it in getattr(first, "decorator_list", []))])
    if isinstance(first, ast.Expr) and isinstance(first.value, ast.Constant):
        return
    start = module.starts[module.data.count(b"\n", 0, start)]
    after = module.newline if isinstance(first, (ast.Import, ast.ImportFrom)) else 2 * module.newline
    yield Fix("header", start, start, (Edit(start, start, HEADER + after),))


def annotations_of(module: Module) -> Iterator[ast.expr]:
    """Yields the annotations of the module."""
    for node in module.nodes:
        if isinstance(node, (ast.arg, ast.AnnAssign)) and node.annotation is not None:
            yield node.annotation
        elif isinstance(node, FUNCTIONS) and node.returns is not None:
            yield node.returns


def is_plain(node: ast.expr) -> bool:
    """Whether evaluating an annotation has no effect."""
    kinds = (ast.Call, ast.NamedExpr, ast.Await, ast.Yield, ast.YieldFrom)
    return not any(isinstance(it, kinds) for it in ast.walk(node))


def old_header(module: Module) -> Iterator[Fix]:
    """Replaces a header with features that every Python 3 has by that of the profile."""
    for node in module.tree.body:
        if isinstance(node, ast.ImportFrom) and node.module == "__future__" and module.is_alone(node):
            named = {it.name for it in node.names}
            start, end = module.at(node)
            if module.data[start:end] == HEADER or "barry_as_FLUFL" in named or module.has_comment(start, end):
                continue
            if "annotations" in named and not any(it.asname for it in node.names):
                yield Fix("header", start, end, (Edit(start, end, HEADER),))


def order(module: Module) -> Iterator[Fix]:
    """Puts adjacent headers of `typing` and of `dataclasses` into the order of the profile."""
    for one, other in zip(module.tree.body, module.tree.body[1:]):
        (start, end), (first, last) = module.at(one), module.at(other)
        texts = (module.data[start:end], module.data[first:last])
        if texts == OUT_OF_ORDER and module.is_alone(one) and module.is_alone(other):
            yield Fix("header", start, last, (Edit(start, end, texts[1]), Edit(first, last, texts[0])))


def library(module: Module) -> Iterator[Fix]:
    """Adds `main` to a module that has none, and its call."""
    if MAIN in module.names or module.reflects or module.mentions(["__name__"]):
        return
    end = len(module.data)
    line = module.newline
    lead = b"" if module.data[-1:] in (b"", b"\n") else line
    text = lead + line + b"def main():" + line + module.step() + b"pass" + 2 * line + b"main()" + line
    yield Fix("main of a library", end, end, (Edit(end, end, text),))


def guarded_main(module: Module) -> Iterator[Fix]:
    """Rewrites the call of `main` in an `if` over `__name__`, at the end of the module, to the call alone."""
    last = module.tree.body[-1] if module.tree.body else None
    if not isinstance(last, ast.If) or last.orelse or not is_name_test(last.test) or not module.is_alone(last):
        return
    start, end = module.at(last)
    if len(last.body) == 1 and is_call_of_main(last.body[0]) and defines_main(module):
        if not module.has_comment(start, end):
            yield Fix("call of main", start, end, (Edit(start, end, b"main()"),))


def is_name_test(node: ast.expr) -> bool:
    """Whether an expression is `__name__ == "__main__"`."""
    if not isinstance(node, ast.Compare) or len(node.ops) != 1 or not isinstance(node.ops[0], ast.Eq):
        return False
    sides = [node.left, node.comparators[0]]
    names = [it for it in sides if isinstance(it, ast.Name) and it.id == "__name__"]
    texts = [it for it in sides if isinstance(it, ast.Constant) and it.value == "__main__"]
    return len(names) == len(texts) == 1


def is_call_of_main(node: ast.stmt) -> bool:
    """Whether a statement is `main()`."""
    call = node.value if isinstance(node, ast.Expr) else None
    if not isinstance(call, ast.Call) or call.args or call.keywords:
        return False
    return isinstance(call.func, ast.Name) and call.func.id == MAIN


def defines_main(module: Module) -> bool:
    """Whether the module binds `main` once, as a function without parameters."""
    found = [it for it in module.tree.body if isinstance(it, ast.FunctionDef) and it.name == MAIN]
    return len(found) == 1 and not found[0].decorator_list and ast.unparse(found[0].args) == ""
