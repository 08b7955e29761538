"""The core that guards are made for, as its text has it: functions, classes and constants. None of its code is run."""
from __future__ import annotations

import ast
import re
from typing import Dict, List, NamedTuple, Optional, Union

from . import guard_types
from .pycheck_guards import Types

WORD = re.compile(r"\w+")


class Parameter(NamedTuple):
    """A parameter or a field: its name, its type, and its default, which is empty if there is none."""

    name: str
    type: str
    default: str


class Function(NamedTuple):
    """A function or a method. It is untyped if it has no annotation at all."""

    name: str
    parameters: List[Parameter]
    returns: str
    untyped: bool


class Class(NamedTuple):
    """A class: its fields and its methods, with those that it inherits and does not define anew."""

    name: str
    fields: List[Parameter]
    methods: Dict[str, Function]


class Constant(NamedTuple):
    """A constant: its type, empty if the text does not show it; its line; and at how many bytes into that line an
    annotation would be written, if it has none."""

    name: str
    type: str
    line: int
    column: Optional[int]


class Core:
    """The contents of a core. Annotations that name no type count as `Any`, which a clean core does not have."""

    def __init__(self, data: bytes) -> None:
        tree = ast.parse(data)
        self.words = {it for node in ast.walk(tree) for it in identifiers(node)}
        self.classes: Dict[str, Class] = {}
        self.functions: Dict[str, Function] = {}
        self.constants: Dict[str, Constant] = {}
        shapes: Dict[str, type] = {}
        nodes = {node.name: node for node in tree.body if isinstance(node, ast.ClassDef)}
        for name in nodes:
            shape_of(name, nodes, shapes)
        self.types = Types(shapes)
        for name in shapes:
            self.add_class(nodes[name], shapes[name].__base__.__name__)
        for node in tree.body:
            if isinstance(node, ast.FunctionDef):
                self.functions[node.name] = self.function(node)
            elif isinstance(node, (ast.Assign, ast.AnnAssign)):
                self.add_constant(node)

    def type_of(self, annotation: Optional[ast.expr]) -> str:
        """Returns the type that an annotation states."""
        text = "Any" if annotation is None else ast.unparse(annotation)
        try:
            self.types.read(text)
        except ValueError:
            return "Any"
        return text

    def parameter(self, name: str, annotation: Optional[ast.expr], default: Optional[ast.expr]) -> Parameter:
        """Returns a parameter or a field."""
        return Parameter(name, self.type_of(annotation), ast.unparse(default) if default else "")

    def function(self, node: ast.FunctionDef) -> Function:
        """Returns a function or a method, with the parameters that a call passes."""
        given = node.args.args
        defaults: List[Optional[ast.expr]] = [*[None] * (len(given) - len(node.args.defaults)), *node.args.defaults]
        parameters = [self.parameter(it.arg, it.annotation, default) for it, default in zip(given, defaults)]
        untyped = not node.returns and not any(it.annotation for it in given)
        return Function(node.name, parameters, self.type_of(node.returns), untyped)

    def add_class(self, node: ast.ClassDef, base: str) -> None:
        """Adds a class, whose base, if it has one, was added before."""
        above = self.classes.get(base, Class("", [], {}))
        notes = [it for it in node.body if isinstance(it, ast.AnnAssign) and isinstance(it.target, ast.Name)]
        own = [self.parameter(it.target.id, it.annotation, it.value) for it in notes if isinstance(it.target, ast.Name)]
        methods = {it.name: self.method(it) for it in node.body if isinstance(it, ast.FunctionDef)}
        fields = [*above.fields, *own]
        self.classes[node.name] = Class(node.name, fields, {**above.methods, **methods})

    def method(self, node: ast.FunctionDef) -> Function:
        """Returns a method, without `self` among its parameters."""
        found = self.function(node)
        return found._replace(parameters=found.parameters[1:])

    def add_constant(self, node: Union[ast.Assign, ast.AnnAssign]) -> None:
        """Adds a constant, with its type if the text shows it."""
        target = node.target if isinstance(node, ast.AnnAssign) else node.targets[0]
        if not isinstance(target, ast.Name):
            return
        if isinstance(node, ast.AnnAssign):
            self.constants[target.id] = Constant(target.id, self.type_of(node.annotation), node.lineno, None)
            return
        known = {it.name: it.type for it in self.constants.values()}
        fields = {it.name: {field.name: field.type for field in it.fields} for it in self.classes.values()}
        bases = {name: it.__mro__[1].__name__ for name, it in self.types.classes.items()}
        found = guard_types.Shown(known, fields, bases).type_of(node.value)
        self.constants[target.id] = Constant(target.id, found, node.lineno, target.end_col_offset)

    def roots(self) -> Dict[str, str]:
        """Returns the constants that can be mutated, with their types; a type that is not shown counts as any value."""
        plain = {"int", "bool", "str", "None", "tuple"}
        found = {it.name: it.type or "object" for it in self.constants.values()}
        return {name: text for name, text in found.items() if not plain.issuperset(WORD.findall(text))}

    def annotated(self, data: bytes) -> bytes:
        """Returns the text with an annotation at each constant that has none, if its type is shown."""
        lines = data.split(b"\n")
        for it in self.constants.values():
            if it.column is not None and it.type:
                line = lines[it.line - 1]
                lines[it.line - 1] = line[: it.column] + f": {it.type}".encode() + line[it.column :]
        return b"\n".join(lines)


def shape_of(name: str, nodes: Dict[str, ast.ClassDef], shapes: Dict[str, type]) -> Optional[type]:
    """Returns an empty class with the name and the ancestors of a class of the core; None if the class is its own
    ancestor."""
    above: List[str] = []
    at: Optional[str] = name
    while at in nodes and at not in shapes and at not in above:
        above.append(at)
        bases = nodes[at].bases
        at = bases[0].id if bases and isinstance(bases[0], ast.Name) else None
    for it in reversed(above):
        base = shapes.get(at or "", object)
        shapes[it] = type(it, (base,), {})
        at = it
    return shapes.get(name)


def identifiers(node: ast.AST) -> List[str]:
    """Returns the names that a node itself has."""
    return [it for field in ("id", "arg", "attr", "name") for it in [getattr(node, field, None)] if isinstance(it, str)]
