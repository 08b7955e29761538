"""Finds where a module has to ask mypy for the types of the names that it binds.

A local and a constant are asked for behind the statement that binds them, a parameter and the target of a `for` at the
head of the suite, and a function and a field at the end of the module. A name whose suite stands in the line of its
head has no line of its own to be asked in.
"""
from __future__ import annotations

import ast
import re
from typing import Dict, List, NamedTuple, Optional, Sequence, Union

WORD = re.compile(rb"(?:def\s+)?(?=\w)")
Binding = Union[ast.Name, ast.arg, ast.FunctionDef]


class Question(NamedTuple):
    """A line that asks for a name: the number of the line that it stands before, its indentation, and what it asks."""

    line: int
    indent: bytes
    asked: str


class Questions:
    """The questions of a module, by the first bytes of its bound names."""

    def __init__(self, text: bytes) -> None:
        self.lines = text.splitlines(keepends=True)
        self.found: Dict[int, Question] = {}
        for item in ast.parse(text).body:
            if isinstance(item, ast.FunctionDef):
                self.add_function(item, item.args.args, "")
            elif isinstance(item, ast.ClassDef):
                self.add_members(item)
            else:
                self.add_statement(item)

    def add(self, name: Binding, line: int, indent: bytes, asked: str) -> None:
        """Adds the question for a name, unless something stands before it in its line."""
        if not indent.strip():
            before = sum(map(len, self.lines[: name.lineno - 1])) + name.col_offset
            head = WORD.match(self.lines[name.lineno - 1], name.col_offset)
            self.found[before + (len(head[0]) if head else 0)] = Question(line, indent, asked)

    def add_at_end(self, name: Binding, asked: str) -> None:
        """Adds a question at the end of the module."""
        self.add(name, len(self.lines) + 1, b"", asked)

    def add_before(self, name: Binding, statement: ast.stmt, asked: str) -> None:
        """Adds a question before the first statement of a suite."""
        self.add(name, statement.lineno, self.lines[statement.lineno - 1][: statement.col_offset], asked)

    def add_members(self, item: ast.ClassDef) -> None:
        """Adds the questions of the members of a class."""
        for member in item.body:
            if isinstance(member, ast.FunctionDef):
                self.add_function(member, member.args.args[1:], f"{item.name}.")
            elif isinstance(member, ast.AnnAssign) and isinstance(member.target, ast.Name):
                self.add_at_end(member.target, f"{item.name}.{member.target.id}")

    def add_function(self, function: ast.FunctionDef, parameters: Sequence[ast.arg], owner: str) -> None:
        """Adds the questions of a function, of its parameters, and of its locals."""
        self.add_at_end(function, owner + function.name)
        for parameter in parameters:
            self.add_before(parameter, function.body[0], parameter.arg)
        for node in ast.walk(function):
            if isinstance(node, ast.stmt):
                self.add_statement(node)

    def add_statement(self, statement: ast.stmt) -> None:
        """Adds the question of a statement that binds a name."""
        targets: List[ast.expr] = getattr(statement, "targets", [getattr(statement, "target", None)])
        name: Optional[ast.expr] = targets[0]
        if not isinstance(name, ast.Name):
            return
        if isinstance(statement, ast.For):
            self.add_before(name, statement.body[0], name.id)
        else:
            indent = self.lines[statement.lineno - 1][: statement.col_offset]
            self.add(name, (statement.end_lineno or 0) + 1, indent, name.id)
