"""Rewrites of loops over `range` with two bounds."""
from __future__ import annotations

import ast
from typing import Iterator, List, Optional

from .fix_module import Edit, Fix, Module
from .fix_types import is_whole_number


def ranges(module: Module) -> Iterator[Fix]:
    """Rewrites `for n in range(a, b)` of whole numbers to `range(b - a)`, with `n` computed from it in the first line
    of the loop."""
    if module.binds("range"):
        return
    for node in module.nodes:
        call = node.iter if isinstance(node, ast.For) else None
        if not isinstance(node, ast.For) or not isinstance(call, ast.Call) or not is_range_of_two(call):
            continue
        start, end = module.at(call)
        lower, upper = call.args
        if not is_whole_number(module, lower) or not is_whole_number(module, upper) or module.has_comment(start, end):
            continue
        number = module.fresh("number")
        names = (number.encode(), module.fresh("start", [number]).encode())
        edits = from_nothing(module, call) or counted(module, node, call, *names)
        if edits:
            yield Fix("range", start, end, tuple(edits), names=names)


def is_range_of_two(node: ast.Call) -> bool:
    """Whether a call is one of `range` with two bounds."""
    is_range = isinstance(node.func, ast.Name) and node.func.id == "range"
    plain = not node.keywords and not any(isinstance(it, ast.Starred) for it in node.args)
    return is_range and plain and len(node.args) == 2


def literal(node: ast.expr) -> Optional[int]:
    """Returns the number that a literal is, with a sign if it has one; None for another expression."""
    if isinstance(node, ast.UnaryOp) and isinstance(node.op, ast.USub):
        found = literal(node.operand)
        return None if found is None else -found
    return node.value if isinstance(node, ast.Constant) and type(node.value) is int else None


def from_nothing(module: Module, call: ast.Call) -> List[Edit]:
    """Returns the edit for a lower bound of 0."""
    if literal(call.args[0]) != 0:
        return []
    return [Edit(module.at(call)[0], module.at(call)[1], b"range(" + module.value(call.args[1]) + b")")]


def counted(module: Module, node: ast.For, call: ast.Call, number: bytes, first_number: bytes) -> List[Edit]:
    """Returns the edits for another lower bound, with two new names; none if there are no such names, or if the loop
    has no first line."""
    body = node.body[0]
    is_below = body.lineno > node.lineno and not getattr(body, "decorator_list", [])
    blanks = module.indent(node) + module.indent(body)
    if module.function(node) is None or module.reflects or not isinstance(node.target, ast.Name) or not is_below:
        return []
    if blanks.strip(b" "):
        return []
    (start, end), first = module.at(call), module.at(body)[0]
    lower = call.args[0]
    edits, low = [], module.value(lower)
    if literal(lower) is None and not is_kept(node, lower):
        low, at = first_number, module.at(node)[0]
        edits.append(Edit(at, at, low + b" = " + module.value(lower) + module.newline + module.indent(node)))
    length = difference(module, call.args[1], lower, low)
    line = node.target.id.encode() + b" = " + low + b" + " + number + module.newline + module.indent(body)
    target = module.at(node.target)
    return [*edits, Edit(*target, number), Edit(start, end, b"range(" + length + b")"), Edit(first, first, line)]


def is_kept(node: ast.For, lower: ast.expr) -> bool:
    """Whether the lower bound is a name that the loop does not bind."""
    names = [it for it in ast.walk(node) if isinstance(it, ast.Name) and not isinstance(it.ctx, ast.Load)]
    return isinstance(lower, ast.Name) and not any(it.id == lower.id for it in names)


def difference(module: Module, upper: ast.expr, lower: ast.expr, low: bytes) -> bytes:
    """Returns the text of the upper bound minus the lower one."""
    high, number, least = module.value(upper), literal(upper), literal(lower)
    if least is None:
        return high + b" - " + low
    if number is not None:
        return str(number - least).encode()
    return high + (b" - " if least > 0 else b" + ") + str(abs(least)).encode()
