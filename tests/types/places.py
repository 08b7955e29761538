"""The expressions of a module that have a type under its labelling, and its bound names, by Python's own parser and the rules."""
from __future__ import annotations

import ast
import re
from typing import Iterator, List, NamedTuple, Sequence, Tuple

Place = Tuple[int, int, int, int]
NAME = re.compile(r"(?:def\s+)?(\w+)")
# The names that mean built-ins, and are no locals where a body binds them
RESERVED = {"Any", "annotations", "bool", "dataclass", "dict", "int", "isinstance", "len", "list", "object", "print",
            "range", "str", "tuple"}


class Found(NamedTuple):
    """An expression or a name where it is bound, with the lines and columns of its start and its end, from 1, in
    characters."""

    place: Place
    kind: str
    node: ast.AST


class Places:
    """The expressions of a module that have a type, and the names that it binds."""

    def __init__(self, text: str) -> None:
        self.lines = text.split("\n")
        self.tree = ast.parse(text)

    def column(self, line: int, byte: int) -> int:
        """Returns the column of a byte of a line."""
        return len(self.lines[line - 1].encode()[:byte].decode()) + 1

    def place(self, first: ast.expr, last: ast.expr) -> Place:
        """Returns the place from the start of an expression to the end of another one."""
        end, byte = last.end_lineno or 0, last.end_col_offset or 0
        return first.lineno, self.column(first.lineno, first.col_offset), end, self.column(end, byte)

    def found(self) -> List[Found]:
        """Returns all of them, in the order of a listing."""
        rows = [row for item in self.tree.body for row in self.item(item)]
        return sorted(rows, key=lambda row: row[:2])

    def name(self, node: ast.AST) -> Found:
        """Returns a name: of a function, a parameter or a target."""
        line, start = node.lineno, self.column(node.lineno, node.col_offset)  # type: ignore[attr-defined]
        word = NAME.match(self.lines[line - 1], start - 1)
        assert word, ast.dump(node)
        return Found((line, word.start(1) + 1, line, word.end(1) + 1), "name", node)

    def item(self, item: ast.stmt) -> Iterator[Found]:
        """Yields those of an item of the module: constants with their values, functions, and the members of classes."""
        if isinstance(item, ast.FunctionDef):
            yield from self.function(item, item.args.args)
        elif isinstance(item, ast.ClassDef):
            for member in item.body:
                if isinstance(member, ast.FunctionDef):
                    yield from self.function(member, member.args.args[1:])
                elif isinstance(member, ast.AnnAssign):
                    yield self.name(member.target)
        elif isinstance(item, (ast.Assign, ast.AnnAssign)) and item.value:
            yield self.name(item.targets[0] if isinstance(item, ast.Assign) else item.target)
            yield from self.whole(item.value)

    def function(self, function: ast.FunctionDef, parameters: Sequence[ast.arg]) -> Iterator[Found]:
        """Yields a function with these parameters, and those of its body."""
        yield self.name(function)
        yield from map(self.name, parameters)
        yield from self.suite(function.body)

    def suite(self, statements: Sequence[ast.stmt]) -> Iterator[Found]:
        """Yields those of statements, up to the first one that no run gets past."""
        for statement in statements:
            yield from self.statement(statement)
            if not completes(statement):
                break

    def statement(self, statement: ast.stmt) -> Iterator[Found]:
        """Yields those of a statement."""
        if isinstance(statement, (ast.Expr, ast.Return, ast.Assign, ast.AnnAssign)) and statement.value:
            yield from self.whole(statement.value)
        if isinstance(statement, ast.Assign):
            for target in statement.targets:
                yield from self.target(target)
        elif isinstance(statement, ast.AnnAssign):
            yield from self.target(statement.target)
        elif isinstance(statement, (ast.If, ast.While)):
            yield from self.whole(statement.test)
            yield from self.suite(statement.body)
            yield from self.suite(statement.orelse)
        elif isinstance(statement, ast.For):
            yield from self.target(statement.target)
            ranged = isinstance(statement.iter, ast.Call) and called(statement.iter) == "range"
            yield from self.parts(statement.iter) if ranged else self.whole(statement.iter)
            yield from self.suite(statement.body)
        elif isinstance(statement, ast.Assert):
            yield from self.whole(statement.test)
            if statement.msg:
                yield from self.whole(statement.msg)

    def target(self, target: ast.expr) -> Iterator[Found]:
        """Yields a local that is bound, or the parts of another target."""
        if not isinstance(target, ast.Name):
            yield from self.parts(target)
        elif target.id not in RESERVED:
            yield self.name(target)

    def whole(self, node: ast.expr) -> Iterator[Found]:
        """Yields an expression and its parts."""
        yield from self.parts(node)
        if isinstance(node, ast.BoolOp):
            # `a and b and c` is `(a and b) and c`
            for last in node.values[1:]:
                yield Found((*self.place(node, node)[:2], *self.place(last, last)[2:]), "expression", node)
        else:
            yield Found(self.place(node, node), "expression", node)

    def parts(self, node: ast.expr) -> Iterator[Found]:
        """Yields the parts of an expression that have a type."""
        for part in self.direct(node):
            yield from self.whole(part)

    def direct(self, node: ast.expr) -> Iterator[ast.expr]:
        """Yields the operands, items, keys, objects, indices and arguments of an expression."""
        if isinstance(node, ast.Call):
            if isinstance(node.func, ast.Attribute):
                yield node.func.value
            elif not isinstance(node.func, ast.Name):
                yield node.func
            tested = called(node) == "isinstance" and len(node.args) == 2 and not node.keywords
            yield from node.args[:1] if tested else node.args
            yield from (keyword.value for keyword in node.keywords)
        elif isinstance(node, ast.Compare) and isinstance(node.ops[0], (ast.Is, ast.IsNot)):
            # The None of `is None` is not an expression of the profile
            yield node.left
        elif not isinstance(node, (ast.Name, ast.Constant)):
            yield from (child for child in ast.iter_child_nodes(node) if isinstance(child, ast.expr))


def called(call: ast.Call) -> str:
    """Returns the name that is called, or nothing."""
    return call.func.id if isinstance(call.func, ast.Name) else ""


def completes(statement: ast.stmt) -> bool:
    """Whether a run may get past a statement, by the rules of the profile: a loop may always end."""
    if isinstance(statement, ast.If):
        return any(all(map(completes, branch)) for branch in (statement.body, statement.orelse))
    return not isinstance(statement, (ast.Return, ast.Raise, ast.Break, ast.Continue))
