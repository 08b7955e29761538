"""Rewrites of statements: several targets, and `else` after a loop."""
from __future__ import annotations

import ast
import tokenize
from typing import Iterator, List, Optional, Sequence

from .fix_module import FUNCTIONS, Edit, Fix, Module, is_bracketed

# Values with effects of their own among several, or that may be more than one value
ODD = (ast.Starred, ast.NamedExpr, ast.Await, ast.Yield, ast.YieldFrom)
INNER = (*FUNCTIONS, ast.Lambda, ast.ClassDef)


def names_in(nodes: Sequence[ast.AST]) -> "set[str]":
    """Returns the names in some expressions."""
    return {it.id for node in nodes for it in ast.walk(node) if isinstance(it, ast.Name)}


def lines_in_place(module: Module, node: ast.stmt, lines: Sequence[bytes]) -> Edit:
    """Returns the edit that replaces a statement by lines."""
    start, end = module.at(node)
    return Edit(start, end, (module.newline + module.indent(node)).join(lines))


def is_whole(module: Module, node: ast.stmt) -> bool:
    """Whether a statement may be replaced by lines: it has its line for itself, and no comment would be lost."""
    return module.is_alone(node) and not module.has_comment(*module.at(node))


def unpacking(module: Module) -> Iterator[Fix]:
    """Rewrites `a, b = c, d` to an assignment for each target."""
    for node in module.nodes:
        if not isinstance(node, ast.Assign) or len(node.targets) != 1 or not is_whole(module, node):
            continue
        target, value = node.targets[0], node.value
        if not isinstance(target, (ast.Tuple, ast.List)) or not isinstance(value, (ast.Tuple, ast.List)):
            continue
        parts = [*target.elts, *value.elts]
        if not target.elts or len(target.elts) != len(value.elts):
            continue
        if any(isinstance(it, (ast.Tuple, ast.List)) for it in target.elts) or any(isinstance(it, ODD) for it in parts):
            continue
        lines = direct(module, target.elts, value.elts) or by_names(module, node, target.elts, value.elts)
        if lines:
            start, end = module.at(node)
            yield Fix("unpacking", start, end, (lines_in_place(module, node, lines),))


def direct(module: Module, targets: List[ast.expr], values: List[ast.expr]) -> Optional[List[bytes]]:
    """Returns an assignment for each target, if no value can see the assignments before; otherwise none. Values other
    than the first have no effects, and cannot fail."""
    if not all(isinstance(it, ast.Name) for it in targets):
        return None
    if not all(isinstance(it, (ast.Constant, ast.Name)) for it in values[1:]):
        return None
    for at, value in enumerate(values):
        if names_in([value]) & names_in(targets[:at]):
            return None
    if module.catches and any(isinstance(it, ast.Name) for it in values[1:]):
        return None
    return [module.segment(one) + b" = " + module.value(it) for one, it in zip(targets, values)]


def by_names(
    module: Module, node: ast.stmt, targets: List[ast.expr], values: List[ast.expr]
) -> Optional[List[bytes]]:
    """Returns assignments of all values to new names, followed by those to the targets; None if there are no new
    names."""
    if module.function(node) is None or module.reflects:
        return None
    taken: List[str] = []
    for _ in values:
        taken.append(module.fresh("value", taken))
    first = [name.encode() + b" = " + module.value(it) for name, it in zip(taken, values)]
    return [*first, *(module.segment(one) + b" = " + name.encode() for one, name in zip(targets, taken))]


def tuples(module: Module) -> Iterator[Fix]:
    """Adds brackets to a tuple that is a value by itself."""
    for node in module.nodes:
        parent = module.parents.get(node)
        if not isinstance(node, ast.Tuple) or not isinstance(node.ctx, ast.Load):
            continue
        if isinstance(parent, (ast.Assign, ast.AnnAssign, ast.Return, ast.Expr, ast.For)):
            text = module.segment(node)
            start, end = module.at(node)
            if parent is not None and node is not getattr(parent, "annotation", None) and not is_bracketed(text):
                yield Fix("tuple", start, end, (Edit(start, start, b"("), Edit(end, end, b")")))


def chains(module: Module) -> Iterator[Fix]:
    """Rewrites `a = b = c` to an assignment for each target."""
    for node in module.nodes:
        if not isinstance(node, ast.Assign) or len(node.targets) < 2 or not is_whole(module, node):
            continue
        if any(isinstance(it, (ast.Tuple, ast.List, ast.Starred)) for it in node.targets):
            continue
        lines = chained(module, node)
        if lines:
            start, end = module.at(node)
            yield Fix("chain of assignments", start, end, (lines_in_place(module, node, lines),))


def chained(module: Module, node: ast.Assign) -> List[bytes]:
    """Returns the lines of a chain of assignments; none if there is no new name."""
    first, value = node.targets[0], module.value(node.value)
    if isinstance(node.value, ast.Constant):
        return [module.segment(it) + b" = " + value for it in node.targets]
    if isinstance(first, ast.Name) and not module.rebinds:
        name = module.segment(first)
        # A local that is bound again below may differ from the one bound above
        if not any(isinstance(it, ast.Name) and it.id == first.id for it in node.targets[1:]):
            return [name + b" = " + value, *(module.segment(it) + b" = " + name for it in node.targets[1:])]
    if module.function(node) is None or module.reflects:
        return []
    name = module.fresh("value").encode()
    return [name + b" = " + value, *(module.segment(it) + b" = " + name for it in node.targets)]


def loop_else(module: Module) -> Iterator[Fix]:
    """Rewrites `else` after a loop, with a local that says whether the loop ended without `break`."""
    for node in module.nodes:
        if not isinstance(node, (ast.For, ast.While)) or not node.orelse or module.function(node) is None:
            continue
        breaks = list(breaks_of(node.body))
        start, body, rest = module.at(node)[0], module.at(node.body[-1])[1], module.at(node.orelse[0])[0]
        words = [it for it in module.between(body, rest) if it.kind == tokenize.NAME and it.text == "else"]
        if len(words) != 1 or module.reflects or not all(map(module.is_alone, breaks)):
            continue
        if module.indent(node).strip(b" ") or node.orelse[0].lineno == node.lineno:
            continue
        flag = module.fresh("ended").encode()
        edits = [Edit(start, start, flag + b" = True" + module.newline + module.indent(node))]
        for one in breaks:
            at = module.at(one)[0]
            edits.append(Edit(at, at, flag + b" = False" + module.newline + module.indent(one)))
        edits.append(Edit(words[0].start, words[0].end, b"if " + flag))
        yield Fix("else of a loop", words[0].start, words[0].end, tuple(edits), names=(flag,))


def breaks_of(suite: Sequence[ast.stmt]) -> Iterator[ast.Break]:
    """Yields the `break` statements of the loop with this body."""
    for node in suite:
        if isinstance(node, ast.Break):
            yield node
        elif isinstance(node, (ast.For, ast.While, ast.AsyncFor)):
            yield from breaks_of(node.orelse)
        elif not isinstance(node, INNER):
            for name in ("body", "orelse", "finalbody"):
                yield from breaks_of(getattr(node, name, []))
            for part in [*getattr(node, "handlers", []), *getattr(node, "cases", [])]:
                yield from breaks_of(part.body)
