"""The tree of a text as Python's own `ast` gives it, as rows of `test_trees`.

The README of crates/test_trees says what a row is. Nothing of the program is asked here. A name for which `ast` has no place is the token
behind its keyword.
"""
from __future__ import annotations

import ast
from typing import Dict, List, Optional, Sequence, Union

from .python_tokens import Place, Text, Token

Function = ast.FunctionDef

BINARY = {ast.Add: "Add", ast.Sub: "Sub", ast.Mult: "Mul", ast.FloorDiv: "FloorDiv", ast.Mod: "Mod"}
COMPARED = {ast.Eq: "Equal", ast.NotEq: "NotEqual", ast.Lt: "Less", ast.LtE: "LessEqual", ast.Gt: "Greater", ast.GtE: "GreaterEqual",
            ast.In: "In", ast.NotIn: "NotIn", ast.Is: "IsNone", ast.IsNot: "IsNotNone"}


class Unknown(Exception):
    """A node that no module of the profile has."""


class Tree:
    """The rows of a tree."""

    def __init__(self, text: Text, tokens: Sequence[Token]) -> None:
        self.text = text
        self.tokens = tokens
        self.rows: List[str] = []
        spelled = [(at, token) for at, token in enumerate(tokens) if token.end > token.start]
        self.from_start: Dict[int, int] = {token.start: at for at, token in spelled}
        self.from_end: Dict[int, int] = {token.end: at for at, token in spelled}

    # Tokens

    def beginning(self, byte: int, later: int = 0) -> Place:
        """Returns the place of the token that begins at a byte, or of one that comes so many tokens later."""
        if byte not in self.from_start:
            raise Unknown(f"a node at byte {byte}, where no token begins")
        token = self.tokens[self.from_start[byte] + later]
        return token.start, token.end

    def ending(self, byte: int) -> Place:
        """Returns the place of the token that ends at a byte."""
        token = self.tokens[self.from_end[byte]]
        return token.start, token.end

    def closed(self, byte: int) -> int:
        """Returns the end of the parentheses that close directly behind the token that ends at a byte."""
        at = self.from_end[byte]
        while self.tokens[at + 1].kind == "RightParenthesis":
            at += 1
        return self.tokens[at].end

    # Rows

    def row(self, depth: int, role: str, kind: str, place: Optional[Place] = None, *own: str) -> None:
        self.rows.append(" ".join([str(depth), role, kind, *map(str, place or ()), *own]))

    def name(self, depth: int, role: str, place: Place, text: str) -> None:
        self.row(depth, role, "Name", place, text)

    def literal(self, depth: int, role: str, node: ast.Constant, place: Place, sign: str = "") -> None:
        """Adds the row of a literal."""
        value = node.value
        if value is None or isinstance(value, bool):
            self.row(depth, role, str(value), place)
        elif isinstance(value, int):
            self.row(depth, role, f"{sign}Int", place, str(value))
        elif isinstance(value, str):
            self.row(depth, role, "Str", place, value.encode().hex())
        else:
            raise Unknown(f"the literal {value!r}")

    def default(self, depth: int, role: str, node: Optional[ast.expr]) -> None:
        """Adds the row of a default, if there is one."""
        if isinstance(node, ast.UnaryOp) and isinstance(node.op, ast.USub) and isinstance(node.operand, ast.Constant):
            self.literal(depth, role, node.operand, self.text.place(node), "Negative")
        elif isinstance(node, ast.Constant):
            self.literal(depth, role, node, self.text.place(node))
        elif node is not None:
            raise Unknown(f"the default {ast.unparse(node)}")

    # Expressions

    def expr(self, depth: int, role: str, node: Optional[ast.expr]) -> None:
        """Adds the rows of an expression, if there is one."""
        if node is None:
            return
        rule = getattr(self, f"expr_{type(node).__name__}", None)
        if rule is None:
            raise Unknown(f"the expression {type(node).__name__}")
        rule(depth, role, node, self.text.place(node))

    def parts(self, depth: int, role: str, nodes: Sequence[Optional[ast.expr]]) -> None:
        for node in nodes:
            self.expr(depth, role, node)

    def expr_Name(self, depth: int, role: str, node: ast.Name, place: Place) -> None:
        self.name(depth, role, place, node.id)

    def expr_Constant(self, depth: int, role: str, node: ast.Constant, place: Place) -> None:
        self.literal(depth, role, node, place)

    def expr_Tuple(self, depth: int, role: str, node: Union[ast.Tuple, ast.List], place: Place) -> None:
        self.row(depth, role, type(node).__name__, place)
        self.parts(depth + 1, "item", node.elts)

    expr_List = expr_Tuple

    def expr_Dict(self, depth: int, role: str, node: ast.Dict, place: Place) -> None:
        self.row(depth, role, "Dict", place)
        for key, value in zip(node.keys, node.values):
            if key is None:
                raise Unknown("an entry without a key")
            self.row(depth + 1, "entry", "Entry")
            self.expr(depth + 2, "key", key)
            self.expr(depth + 2, "value", value)

    def expr_UnaryOp(self, depth: int, role: str, node: ast.UnaryOp, place: Place) -> None:
        if not isinstance(node.op, (ast.USub, ast.Not)):
            raise Unknown(f"the operator {type(node.op).__name__}")
        self.row(depth, role, "Not" if isinstance(node.op, ast.Not) else "Negative", place)
        self.expr(depth + 1, "operand", node.operand)

    def expr_BinOp(self, depth: int, role: str, node: ast.BinOp, place: Place) -> None:
        if type(node.op) not in BINARY:
            raise Unknown(f"the operator {type(node.op).__name__}")
        self.row(depth, role, BINARY[type(node.op)], place)
        self.expr(depth + 1, "left", node.left)
        self.expr(depth + 1, "right", node.right)

    def expr_Compare(self, depth: int, role: str, node: ast.Compare, place: Place) -> None:
        if len(node.ops) > 1:
            raise Unknown("a chain of comparisons")
        right = node.comparators[0]
        self.row(depth, role, COMPARED[type(node.ops[0])], place)
        if not isinstance(node.ops[0], (ast.Is, ast.IsNot)):
            self.expr(depth + 1, "left", node.left)
            self.expr(depth + 1, "right", right)
        elif isinstance(right, ast.Constant) and right.value is None:
            self.expr(depth + 1, "operand", node.left)
        else:
            raise Unknown("`is` before something else than None")

    def expr_BoolOp(self, depth: int, role: str, node: ast.BoolOp, place: Place) -> None:
        self.grouped(depth, role, node, place, len(node.values))

    def grouped(self, depth: int, role: str, node: ast.BoolOp, place: Place, count: int) -> None:
        """Adds the rows of the first operands of a row of `and` or `or`, which group to the left."""
        if count == 1:
            self.expr(depth, role, node.values[0])
            return
        last = node.values[count - 1]
        end = place[1] if count == len(node.values) else self.closed(self.text.place(last)[1])
        self.row(depth, role, type(node.op).__name__, (place[0], end))
        self.grouped(depth + 1, "left", node, place, count - 1)
        self.expr(depth + 1, "right", last)

    def expr_Attribute(self, depth: int, role: str, node: ast.Attribute, place: Place) -> None:
        self.row(depth, role, "Attribute", place)
        self.expr(depth + 1, "object", node.value)
        self.name(depth + 1, "name", self.ending(place[1]), node.attr)

    def expr_Subscript(self, depth: int, role: str, node: ast.Subscript, place: Place) -> None:
        self.row(depth, role, "Index", place)
        self.expr(depth + 1, "object", node.value)
        self.expr(depth + 1, "key", node.slice)

    def expr_Call(self, depth: int, role: str, node: ast.Call, place: Place) -> None:
        self.row(depth, role, "Call", place)
        self.expr(depth + 1, "callee", node.func)
        self.parts(depth + 1, "argument", node.args)
        for argument in node.keywords:
            if argument.arg is None:
                raise Unknown("an argument `**`")
            self.row(depth + 1, "argument", "ByName")
            self.name(depth + 2, "name", self.beginning(self.text.place(argument)[0]), argument.arg)
            self.expr(depth + 2, "value", argument.value)

    # Annotations

    def ann(self, depth: int, role: str, node: Optional[ast.expr]) -> None:
        """Adds the rows of an annotation, if there is one."""
        if node is None:
            return
        place = self.text.place(node)
        if isinstance(node, ast.Name):
            self.name(depth, role, place, node.id)
        elif isinstance(node, ast.Constant) and node.value is None:
            self.row(depth, role, "None", place)
        elif isinstance(node, ast.BinOp) and isinstance(node.op, ast.BitOr):
            self.row(depth, role, "Union", place)
            for member in members_of(node):
                self.ann(depth + 1, "member", member)
        elif isinstance(node, ast.Subscript):
            self.applied(depth, role, node, place)
        else:
            raise Unknown(f"the annotation {ast.unparse(node)}")

    def applied(self, depth: int, role: str, node: ast.Subscript, place: Place) -> None:
        """Adds the rows of an annotation with brackets."""
        arguments = node.slice.elts if isinstance(node.slice, ast.Tuple) else [node.slice]
        self.row(depth, role, "Apply" if arguments else "ApplyEmpty", place)
        if not isinstance(node.value, ast.Name):
            raise Unknown("brackets behind something else than a name")
        self.ann(depth + 1, "head", node.value)
        for argument in arguments:
            self.ann(depth + 1, "argument", argument)

    # Statements

    def suite(self, depth: int, role: str, body: Sequence[ast.stmt]) -> None:
        """Adds the rows of statements."""
        for node in body:
            rule = getattr(self, f"stmt_{type(node).__name__}", None)
            if rule is None:
                raise Unknown(f"the statement {type(node).__name__}")
            kind = "Annotated" if isinstance(node, ast.AnnAssign) else type(node).__name__
            self.row(depth, role, kind, self.beginning(self.text.place(node)[0]))
            rule(depth + 1, node)

    def stmt_Pass(self, depth: int, node: ast.stmt) -> None:
        pass

    stmt_Break = stmt_Continue = stmt_Pass

    def stmt_Return(self, depth: int, node: Union[ast.Return, ast.Expr]) -> None:
        self.expr(depth, "value", node.value)

    stmt_Expr = stmt_Return

    def stmt_Assert(self, depth: int, node: ast.Assert) -> None:
        self.expr(depth, "condition", node.test)
        self.expr(depth, "message", node.msg)

    def stmt_AnnAssign(self, depth: int, node: ast.AnnAssign) -> None:
        if not node.simple:
            raise Unknown("an annotation of something else than a name")
        self.expr(depth, "target", node.target)
        self.ann(depth, "annotation", node.annotation)
        self.expr(depth, "value", node.value)

    def stmt_Assign(self, depth: int, node: ast.Assign) -> None:
        if len(node.targets) > 1 or not isinstance(node.targets[0], (ast.Name, ast.Attribute, ast.Subscript)):
            raise Unknown("an assignment to several targets")
        self.expr(depth, "target", node.targets[0])
        self.expr(depth, "value", node.value)

    def stmt_While(self, depth: int, node: ast.While) -> None:
        self.expr(depth, "condition", node.test)
        self.loop(depth, node)

    def stmt_For(self, depth: int, node: ast.For) -> None:
        if not isinstance(node.target, ast.Name):
            raise Unknown("a `for` with several targets")
        self.expr(depth, "target", node.target)
        self.expr(depth, "iterable", node.iter)
        self.loop(depth, node)

    def loop(self, depth: int, node: Union[ast.For, ast.While]) -> None:
        """Adds the rows of the body of a loop."""
        if node.orelse:
            raise Unknown("`else` after a loop")
        self.suite(depth, "body", node.body)

    def stmt_If(self, depth: int, node: ast.If) -> None:
        self.row(depth, "branch", "Branch")
        self.expr(depth + 1, "condition", node.test)
        self.suite(depth + 1, "body", node.body)
        other = node.orelse[0] if len(node.orelse) == 1 else None
        if isinstance(other, ast.If) and self.tokens[self.from_start[self.text.place(other)[0]]].kind == "Elif":
            self.stmt_If(depth, other)
        else:
            self.suite(depth, "else", node.orelse)

    # Items

    def function(self, depth: int, node: Function, receivers: int) -> None:
        """Adds the rows of the parts of a function; of a method, the first parameter has none."""
        given = node.args
        if given.posonlyargs or given.vararg or given.kwonlyargs or given.kwarg or node.decorator_list:
            raise Unknown(f"the head of {node.name}")
        if [each.arg for each in given.args[:receivers]] != ["self"] * receivers:
            raise Unknown(f"the method {node.name} without self")
        self.name(depth, "name", self.beginning(self.text.place(node)[0], 1), node.name)
        missing: List[Optional[ast.expr]] = [None] * (len(given.args) - len(given.defaults))
        for each, default in list(zip(given.args, missing + list(given.defaults)))[receivers:]:
            self.row(depth, "parameter", "Parameter")
            self.name(depth + 1, "name", self.beginning(self.text.place(each)[0]), each.arg)
            self.ann(depth + 1, "annotation", each.annotation)
            self.default(depth + 1, "default", default)
        self.ann(depth, "returns", node.returns)
        self.suite(depth, "body", node.body)

    def member(self, depth: int, node: ast.stmt) -> None:
        """Adds the rows of a member of a class."""
        if isinstance(node, ast.FunctionDef):
            self.row(depth, "member", "Method")
            self.function(depth + 1, node, 1)
        elif isinstance(node, ast.AnnAssign) and isinstance(node.target, ast.Name) and node.simple:
            self.row(depth, "member", "Field")
            self.expr(depth + 1, "name", node.target)
            self.ann(depth + 1, "annotation", node.annotation)
            self.default(depth + 1, "default", node.value)
        else:
            raise Unknown(f"the member {type(node).__name__}")

    def item_ClassDef(self, depth: int, node: ast.ClassDef) -> None:
        word = self.text.place(node.decorator_list[0])
        if len(node.decorator_list) > 1 or len(node.bases) > 1 or node.keywords:
            raise Unknown(f"the head of {node.name}")
        self.row(depth, "item", "Class", self.beginning(word[0], -1))
        self.row(depth + 1, "decorator", "Word", word)
        self.name(depth + 1, "name", self.beginning(self.text.place(node)[0], 1), node.name)
        self.parts(depth + 1, "base", node.bases)
        if not (len(node.body) == 1 and isinstance(node.body[0], ast.Pass)):
            for member in node.body:
                self.member(depth + 1, member)

    def item_FunctionDef(self, depth: int, node: Function) -> None:
        self.row(depth, "item", "Def", self.beginning(self.text.place(node)[0]))
        self.function(depth + 1, node, 0)

    def item_Assign(self, depth: int, node: Union[ast.Assign, ast.AnnAssign]) -> None:
        targets: Sequence[ast.expr] = [node.target] if isinstance(node, ast.AnnAssign) else node.targets
        if len(targets) > 1 or not isinstance(targets[0], ast.Name) or node.value is None:
            raise Unknown("a constant of another form")
        self.row(depth, "item", "Constant", self.beginning(self.text.place(node)[0]))
        self.expr(depth + 1, "name", targets[0])
        self.ann(depth + 1, "annotation", getattr(node, "annotation", None))
        self.expr(depth + 1, "value", node.value)

    item_AnnAssign = item_Assign

    def module(self, tree: ast.Module) -> None:
        """Adds the rows of a module."""
        body, last = list(tree.body), tree.body[-1] if tree.body else None
        if not (isinstance(last, ast.Expr) and ast.unparse(last) == "main()"):
            raise Unknown("a module without a call of main at its end")
        self.row(0, "tree", "Module", self.beginning(self.text.place(last)[0]))
        for text, word in HEADERS:
            if ast.unparse(body[0]) == text:
                body.pop(0)
                if word:
                    self.row(1, "header", word)
            elif not word:
                raise Unknown("a module without the first header")
        for node in body[:-1]:
            rule = getattr(self, f"item_{type(node).__name__}", None)
            if rule is None:
                raise Unknown(f"the item {type(node).__name__}")
            rule(1, node)


HEADERS = (("from __future__ import annotations", ""), ("from dataclasses import dataclass", "Dataclass"),
           ("from typing import Any", "Any"))


def members_of(node: ast.expr) -> List[ast.expr]:
    """Returns the parts of a union, as they stand."""
    if isinstance(node, ast.BinOp) and isinstance(node.op, ast.BitOr):
        return [*members_of(node.left), node.right]
    return [node]
