"""The types of constants that have no annotation, as far as their text shows them.

These types are guesses, which are then tested: with them as annotations the core has to be clean too, and an annotation
changes no run."""
from __future__ import annotations

import ast
from typing import List, Mapping

ANY = "object"
FIXED = {"len": "int", "str": "str", "isinstance": "bool"}


def members_of(text: str) -> List[str]:
    """Returns the members of a type; none for an unknown one."""
    if not text:
        return []
    node, found = ast.parse(text, mode="eval").body, []
    while isinstance(node, ast.BinOp):
        found.append(ast.unparse(node.right))
        node = node.left
    return [ast.unparse(node), *reversed(found)]


class Shown:
    """The facts that are known at a constant: the types of those above it, the fields of classes, and their bases."""

    def __init__(
        self, constants: Mapping[str, str], fields: Mapping[str, Mapping[str, str]], bases: Mapping[str, str]
    ) -> None:
        self.constants, self.fields, self.bases = constants, fields, bases

    def type_of(self, node: ast.expr) -> str:
        """Returns the type of an expression; empty if it is not shown."""
        maker = getattr(self, f"of_{type(node).__name__}", None)
        return str(maker(node)) if maker else ""

    def join(self, nodes: List[ast.expr]) -> str:
        """Returns the type of a value that is one of some expressions."""
        texts = [self.type_of(it) for it in nodes]
        if "" in texts:
            return ""
        members = list(dict.fromkeys(member for text in texts for member in members_of(text)))
        if ANY in members:
            return ANY
        return " | ".join(it for it in members if not any(self.is_below(it, other) for other in members))

    def is_below(self, member: str, other: str) -> bool:
        """Whether a member adds nothing to another one."""
        while member in self.bases:
            member = self.bases[member]
            if member == other:
                return True
        return (member, other) == ("bool", "int")

    def of_Constant(self, node: ast.Constant) -> str:
        """Types a number, a truth value, a string or None."""
        return "None" if node.value is None else type(node.value).__name__

    def of_Name(self, node: ast.Name) -> str:
        """Types a constant above."""
        return self.constants.get(node.id, "")

    def of_UnaryOp(self, node: ast.UnaryOp) -> str:
        """Types `not` and `-`."""
        return "bool" if isinstance(node.op, ast.Not) else "int"

    def of_BinOp(self, node: ast.BinOp) -> str:
        """Types a sum by its parts; other operators result in a number."""
        return "str" if isinstance(node.op, ast.Add) and self.type_of(node.left) == "str" else "int"

    def of_Compare(self, _: ast.Compare) -> str:
        """Types a comparison."""
        return "bool"

    def of_BoolOp(self, node: ast.BoolOp) -> str:
        """Types `and` and `or`, which result in one of their operands."""
        return self.join(node.values)

    def of_Call(self, node: ast.Call) -> str:
        """Types an instance, or the result of a built-in function."""
        name = node.func.id if isinstance(node.func, ast.Name) else ""
        return name if name in self.fields else FIXED.get(name, "")

    def of_List(self, node: ast.List) -> str:
        """Types a list display."""
        item = self.join(node.elts) if node.elts else ANY
        return item and f"list[{item}]"

    def of_Dict(self, node: ast.Dict) -> str:
        """Types a dict display."""
        keys = self.join([it for it in node.keys if it]).replace("bool", "int")
        value = self.join(node.values)
        return f"dict[{keys}, {value}]" if keys and value else ""

    def of_Tuple(self, node: ast.Tuple) -> str:
        """Types a tuple display."""
        items = [self.type_of(it) for it in node.elts]
        return "" if "" in items else f"tuple[{', '.join(items) or '()'}]"

    def of_Attribute(self, node: ast.Attribute) -> str:
        """Types a field of an instance."""
        return self.fields.get(self.type_of(node.value), {}).get(node.attr, "")

    def of_Subscript(self, node: ast.Subscript) -> str:
        """Types an item."""
        whole = self.type_of(node.value)
        held = ast.parse(whole or "None", mode="eval").body
        if whole == "str" or not isinstance(held, ast.Subscript) or not isinstance(held.value, ast.Name):
            return "str" if whole == "str" else ""
        parts = held.slice.elts if isinstance(held.slice, ast.Tuple) else [held.slice]
        if held.value.id != "tuple":
            return ast.unparse(parts[-1])
        at = node.slice.value if isinstance(node.slice, ast.Constant) else None
        return ast.unparse(parts[at]) if isinstance(at, int) and at < len(parts) else ""
