"""Dynamic places that follow from an error: their operand has an error, so its type is unknown.

An expression with an error counts as `Any`, so one mistake may be listed at several places. A local has the type of its
first binding, so it is unknown wherever the value there has an error. The expression at a dynamic place is found in the
tree of Python's `ast`; if that cannot read the text, no place follows from another."""
from __future__ import annotations

import ast
from typing import Dict, Iterator, List, Optional, Set, Tuple

from .findings import DYNAMIC, ERROR, Checked, Finding
from .source import Text

# An error at an expression that keeps its type: only its destination does not accept it
KEEPING = "E12"
# Dynamic places that are the place of the value itself, not of an expression that uses it
OF_VALUE = ("A1", "A5", "A7")
OF_OPERATOR = "A2"
# The sentence of an operator whose left or right operand has no known type begins or ends so
LEFT_UNKNOWN, RIGHT_UNKNOWN = "cannot tell whether Any ", " Any is defined"
# How many places a sentence names
MOST_NAMED = 8

Range = Tuple[int, int]
Named = Optional[Dict[str, int]]


def followed(file: Checked) -> Dict[int, List[int]]:
    """Returns the dynamic places at each error that one of their operands has, both as numbers of findings of the file.
    Neither is in a baseline: nothing is shown below a finding that is hidden."""
    found: Dict[int, List[int]] = {}
    for at, node, causes in dynamic_places(file):
        cause = causes.of_place(file.findings[at], node, None)
        if cause is not None:
            found.setdefault(cause, []).append(at)
    return found


def causes_in(file: Checked) -> Dict[Finding, Finding]:
    """Returns for each dynamic place that goes away with an error this error: that of an operand, or of the first value
    of a local that is one."""
    found: Dict[Finding, Finding] = {}
    for at, node, causes in dynamic_places(file):
        finding = file.findings[at]
        cause = causes.of_place(finding, node, causes.of_locals(finding))
        if cause is not None:
            found[finding] = file.findings[cause]
    return found


def dynamic_places(file: Checked) -> "Iterator[Tuple[int, ast.expr, Causes]]":
    """Yields the number of each dynamic place that is new, with its expression, and the errors of its file."""
    errors = {range_of(it): at for at, it in enumerate(file.findings) if is_cause(it)}
    dynamic = [at for at, it in enumerate(file.findings) if it.kind == DYNAMIC and not it.known]
    if not errors or not dynamic:
        return
    nodes = expressions_at(file.text, {range_of(file.findings[at]) for at in dynamic})
    causes = Causes(file, errors)
    for at in dynamic:
        node = nodes.get(range_of(file.findings[at]))
        if node is not None:
            yield at, node, causes


def is_cause(finding: Finding) -> bool:
    """Whether an expression with this finding counts as `Any`."""
    return finding.kind == ERROR and not finding.known and finding.code != KEEPING


def range_of(finding: Finding) -> Range:
    """Returns the first byte of the place of a finding, and the byte after its last."""
    return finding.place.start.byte, finding.place.end.byte


def expressions_at(text: Text, places: Set[Range]) -> Dict[Range, ast.expr]:
    """Returns the expression at each of the places that has one, the innermost if several have the same place."""
    found: Dict[Range, ast.expr] = {}
    for node in ast.walk(text.tree):
        if isinstance(node, ast.expr):
            place = text.range_of(node)
            if place in places:
                found[place] = node
    return found


class Causes:
    """Finds the error by which an expression has no known type.

    Where `named` has the errors of locals, an error is sought with which the unknown type goes away: if an operand has
    an unknown type for another reason there is none. Otherwise one operand with an error is enough."""

    def __init__(self, file: Checked, errors: Dict[Range, int]) -> None:
        self.text = file.text
        self.errors = errors
        operators = [it for it in file.everything if it.code == OF_OPERATOR and it.detail]
        self.operators = {range_of(it): it.detail.text for it in operators if it.detail}
        self._locals: Dict[ast.FunctionDef, Dict[str, int]] = {}

    def of_place(self, finding: Finding, node: ast.expr, named: Named) -> Optional[int]:
        """Returns the error by which a place is dynamic; None if there is none."""
        return self.of_value(node, named) if finding.code in OF_VALUE else self.of_operands(node, named)

    def of_value(self, node: ast.expr, named: Named) -> Optional[int]:
        """Returns the error of an expression: its own, that of an operand that makes its type unknown, or that of a
        local."""
        while self.errors.get(self.text.range_of(node)) is None:
            if isinstance(node, ast.Name):
                return named.get(node.id) if named else None
            if is_known(node):
                return None
            below = self.unknown(node)
            if len(below) != 1:
                return self.of_operands(node, named)
            node = below[0]
        return self.errors[self.text.range_of(node)]

    def of_operands(self, node: ast.expr, named: Named) -> Optional[int]:
        """Returns the error of the first operand of an expression that has one."""
        causes = [self.of_value(it, named) for it in self.unknown(node)]
        if named is not None and None in causes:
            return None
        return next((it for it in causes if it is not None), None)

    def unknown(self, node: ast.expr) -> List[ast.expr]:
        """Returns the operands of an expression whose types may be unknown: of an operator that is a dynamic place
        those of which the sentence there says it."""
        found = list(operands(node))
        said = self.operators.get(self.text.range_of(node), "")
        tells = (said.startswith(LEFT_UNKNOWN), said.endswith(RIGHT_UNKNOWN))
        if len(found) != 2 or True not in tells:
            return found
        return [operand for operand, told in zip(found, tells) if told]

    def of_locals(self, finding: Finding) -> Dict[str, int]:
        """Returns the errors by which locals of the function around a finding have no known type: those of their first
        values."""
        function = self.text.function_around(finding.place.start.byte)
        if function is None:
            return {}
        if function not in self._locals:
            found = self._locals[function] = {}
            for name, value in first_values(function):
                cause = self.of_value(value, found) if value else None
                if cause is not None:
                    found[name] = cause
        return self._locals[function]


def operands(node: ast.expr) -> Iterator[ast.expr]:
    """Yields the operands whose unknown type makes a place with an expression dynamic, or its type unknown."""
    if isinstance(node, (ast.Attribute, ast.Subscript)):
        yield node.value
    elif isinstance(node, ast.Call):
        yield node.args[0] if is_length(node) else node.func
    elif isinstance(node, ast.UnaryOp):
        yield node.operand
    elif isinstance(node, ast.BinOp):
        yield from (node.left, node.right)
    elif isinstance(node, ast.Compare):
        yield from (node.left, *node.comparators)


def is_known(node: ast.expr) -> bool:
    """Whether an expression is a comparison, a test or a length, which has one type for all operands."""
    is_test = isinstance(node, ast.UnaryOp) and isinstance(node.op, ast.Not)
    return is_test or isinstance(node, ast.Compare) or is_length(node)


def is_length(node: ast.expr) -> bool:
    """Whether an expression is a call of `len` with an argument."""
    if not isinstance(node, ast.Call) or not node.args:
        return False
    return isinstance(node.func, ast.Name) and node.func.id == "len"


def first_values(function: ast.FunctionDef) -> Iterator[Tuple[str, Optional[ast.expr]]]:
    """Yields the locals of a function, each with the value of its first binding, in the order of the text; None for
    one that has its type from elsewhere, as by an annotation. A loop binds its local to an item of its value."""
    given = function.args
    parameters = {it.arg for it in (*given.posonlyargs, *given.args, *given.kwonlyargs)}
    bindings: List[Tuple[ast.Name, Optional[ast.expr]]] = []
    for node in ast.walk(function):
        if isinstance(node, ast.Assign) and len(node.targets) == 1 and isinstance(node.targets[0], ast.Name):
            bindings.append((node.targets[0], node.value))
        elif isinstance(node, ast.For) and isinstance(node.target, ast.Name):
            bindings.append((node.target, node.iter))
        elif isinstance(node, ast.AnnAssign) and isinstance(node.target, ast.Name):
            bindings.append((node.target, None))
    for name, value in sorted(bindings, key=lambda it: (it[0].lineno, it[0].col_offset)):
        if name.id not in parameters:
            parameters.add(name.id)
            yield name.id, value


def sentence(file: Checked, numbers: List[int]) -> str:
    """Returns a sentence that dynamic places follow from an error; empty if there are none."""
    if not numbers:
        return ""
    places = [file.findings[it] for it in numbers]
    named = [f"{it.place.start.line}:{it.place.start.column} {it.code}" for it in places[:MOST_NAMED]]
    more = [f"{len(places) - MOST_NAMED} more"] if len(places) > MOST_NAMED else []
    return f"And at {', '.join([*named, *more])}, since its type is unknown."
