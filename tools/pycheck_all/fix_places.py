"""Rewrites of augmented assignments. A rewrite is made only if an annotation or the report of the result tells that the
place has a number or a text, since a list would be changed in place."""
from __future__ import annotations

import ast
from typing import Callable, Dict, FrozenSet, Iterator, List, NamedTuple, Tuple

from .fix_module import Edit, Fix, Module
from .fix_types import OPERATORS, TEXT, told

# Methods that change a value in place
IN_PLACE = ("__iadd__", "__isub__", "__imul__", "__ifloordiv__", "__imod__")
# Values that need no brackets after an operator
CLOSED = (ast.Name, ast.Constant, ast.Call, ast.Attribute, ast.Subscript, ast.JoinedStr)


GUESSED = "augmented assignment by its type"


class Guess(NamedTuple):
    """An augmented assignment, identified by its function, the text of its place and its operator."""

    function: str
    place: str
    operator: bytes


def augmented(module: Module) -> Iterator[Fix]:
    """Rewrites `x += e`, `o.a += e` and `o[i] += e` of a place whose annotation is `int` or `str`."""
    for node in assignments(module):
        if told(module, node.target) in ("int", TEXT):
            yield from rewritten(module, node, "augmented assignment")


def guessed(without: FrozenSet[Guess]) -> "Callable[[Module], Iterator[Fix]]":
    """Returns a rewrite of all other augmented assignments, except those in `without`. Only the report of the result
    tells whether it keeps the meaning: see `guesses`."""

    def rewrite(module: Module) -> Iterator[Fix]:
        """Yields the rewrites of a module."""
        for node in assignments(module):
            guess = Guess(function_of(module, node), ast.unparse(node.target), OPERATORS[type(node.op)])
            if told(module, node.target) not in ("int", TEXT) and guess not in without:
                yield from rewritten(module, node, GUESSED)

    return rewrite


def guesses(module: Module) -> Dict[Tuple[int, int], Guess]:
    """Returns the assignments `x = x + e` of a module, by the places of their values. If a report without other errors
    has no finding at such a value, its operands are numbers or texts, which no operator changes in place."""
    found: Dict[Tuple[int, int], Guess] = {}
    for node in module.nodes:
        if isinstance(node, ast.Assign) and isinstance(node.value, ast.BinOp) and type(node.value.op) in OPERATORS:
            place = ast.unparse(node.targets[0])
            if place == ast.unparse(node.value.left):
                operator = OPERATORS[type(node.value.op)]
                found[module.at(node.value)] = Guess(function_of(module, node), place, operator)
    return found


def function_of(module: Module, node: ast.AST) -> str:
    """Returns the name of the function around a node; empty outside all functions."""
    function = module.function(node)
    return function.name if isinstance(function, (ast.FunctionDef, ast.AsyncFunctionDef)) else ""


def assignments(module: Module) -> Iterator[ast.AugAssign]:
    """Yields the augmented assignments with an operator of the profile, to places that are the same after the value was
    evaluated."""
    if not module.mentions(IN_PLACE):
        for node in module.nodes:
            if isinstance(node, ast.AugAssign) and type(node.op) in OPERATORS and is_steady(module, node):
                yield node


def rewritten(module: Module, node: ast.AugAssign, name: str) -> Iterator[Fix]:
    """Rewrites an augmented assignment; yields nothing if a comment is in the way."""
    start, end = module.at(node.target)[1], module.at(node.value)[0]
    signs = [it for it in module.between(start, end) if it.text.endswith("=")]
    if len(signs) != 1 or module.has_comment(*module.at(node.target)):
        return
    sign, place, operator = signs[0], module.segment(node.target), OPERATORS[type(node.op)]
    edits = [Edit(sign.start, sign.end, b"= " + place + b" " + operator)]
    if not isinstance(node.value, CLOSED):
        first, last = sign.end, module.at(node)[1]
        while module.data[first : first + 1] == b" ":
            first += 1
        edits += [Edit(first, first, b"("), Edit(last, last, b")")]
    yield Fix(name, sign.start, sign.end, tuple(edits))


def is_steady(module: Module, node: ast.AugAssign) -> bool:
    """Whether the place is the same after the value was evaluated: only names and literals determine it, and the value
    cannot bind those names."""
    if isinstance(node.target, ast.Name):
        return True
    parts: List[ast.expr] = [node.target.value]
    if isinstance(node.target, ast.Subscript):
        index = node.target.slice
        is_negative = isinstance(index, ast.UnaryOp) and isinstance(index.op, ast.USub)
        parts.append(index.operand if is_negative and isinstance(index, ast.UnaryOp) else index)
    bound = {it.target.id for it in ast.walk(node.value) if isinstance(it, ast.NamedExpr)}
    names = {it.id for it in parts if isinstance(it, ast.Name)}
    return all(isinstance(it, (ast.Name, ast.Constant)) for it in parts) and not names & bound and not module.reflects
