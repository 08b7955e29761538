"""Cores that are made at random: functions that write into their arguments at one type, and read them at another."""
from __future__ import annotations

import ast
import functools
import random
from typing import Dict, List, Tuple

# A type is a tuple whose first part is its head, as in tools/attack fuzz
Tree = Tuple[object, ...]
PLAIN = ["int", "str", "bool", "int | None", "str | None", "int | str", "object"]
LOCATED = [
    *("list[int]", "list[int | None]", "list[bool]", "list[str]", "list[object]", "list[list[int]]", "list[Leaf]"),
    *("dict[str, int]", "dict[str, int | None]", "dict[int, str]", "dict[str, list[int]]", "dict[str, object]"),
    *("tuple[int, str]", "tuple[list[int], int]", "tuple[list[int | None], int | None]"),
    *("list[int] | None", "Leaf", "Leaf | None", "Twig", "Tree", "Tree | None", "list[Tree | None]"),
]
CLASSES = {"Leaf": "", "Twig": "Leaf", "Tree": ""}
VALUES = {"int": ["7", "-1", "0"], "str": ['"a"', '""'], "bool": ["True", "False"], "None": ["None"]}


@functools.lru_cache(maxsize=None)
def tree_of(text: str) -> Tree:
    """Returns a type, from its text."""
    return parsed(ast.parse(text, mode="eval").body)


def parsed(node: ast.expr) -> Tree:
    """Returns a type, from its node."""
    if isinstance(node, ast.BinOp):
        left = parsed(node.left)
        return ("union", *(left[1:] if left[0] == "union" else [left]), parsed(node.right))
    if isinstance(node, ast.Subscript):
        parts = node.slice.elts if isinstance(node.slice, ast.Tuple) else [node.slice]
        return (getattr(node.value, "id"), *map(parsed, parts))
    name = "None" if isinstance(node, ast.Constant) else getattr(node, "id")
    return ("object",) if name == "Any" else (name,)


class Making:
    """A module that is being made: the fields of its classes, and how many locals it has."""

    def __init__(self, rng: random.Random) -> None:
        self.rng = rng
        self.fields: Dict[str, List[Tuple[str, str]]] = {}
        self.locals = 0

    def text(self) -> str:
        """Returns the whole module."""
        lines = ["from __future__ import annotations", "from dataclasses import dataclass"]
        if self.rng.random() < 0.5:
            lines += ["numbers = [1, 2]", "ages: dict[str, int | None] = {}"]
        for name, base in CLASSES.items():
            self.fields[name] = [*self.fields.get(base, []), *self.own_fields(name)]
        for name, base in CLASSES.items():
            lines += self.made_class(name, base)
        for number in range(3):
            lines += self.function(f"run_{number}", [])
        return "\n".join([*lines, "def main():", "    pass", "main()"]) + "\n"

    def own_fields(self, name: str) -> List[Tuple[str, str]]:
        """Returns the fields of a class, without those of its base."""
        types = [it for it in LOCATED if it != "Tree"] if name == "Tree" else PLAIN
        own = [(f"{name[:2].lower()}{at}", self.rng.choice(types)) for at in range(2)]
        return [*own, ("next", "Tree | None")] if name == "Tree" else own

    def made_class(self, name: str, base: str) -> List[str]:
        """Returns a class with a method."""
        own = self.fields[name][len(self.fields.get(base, [])) :]
        head = ["@dataclass", f"class {name}({base}):" if base else f"class {name}:"]
        method = self.function("leap" if base else "step", ["self"])
        return [*head, *(f"    {field}: {text}" for field, text in own), *("    " + line for line in method)]

    def function(self, name: str, given: List[str]) -> List[str]:
        """Returns a function or a method that uses its parameters in turn."""
        known = [(f"p{at}", self.rng.choice(LOCATED)) for at in range(self.rng.randint(1, 3))]
        notes = [*given, *(f"{it}: {text}" for it, text in known)]
        lines = [f"def {name}({', '.join(notes)}) -> int:", "    total = 0"]
        for _ in range(4):
            it, text = self.rng.choice(known)
            lines += ["    " + line for line in self.use(it, tree_of(text), 0)]
        return [*lines, "    return total"]

    def use(self, it: str, tree: Tree, depth: int) -> List[str]:
        """Returns lines that read a value, or write into it, with `total` and the value in scope."""
        head, parts = str(tree[0]), [part for part in tree[1:] if isinstance(part, tuple)]
        if head == "union":
            return self.one_of(it, parts, depth)
        if head in ("list", "dict", "tuple") and depth < 3:
            return self.held(it, head, parts, depth)
        if head in self.fields and depth < 3:
            field, text = self.rng.choice(self.fields[head])
            if self.rng.random() < 0.5:
                return [f"{it}.{field} = {self.value(tree_of(text), depth)}"]
            return self.use(f"{it}.{field}", tree_of(text), depth + 1)
        uses = {"int": f"total = total + {it}", "bool": f"total = total - {it}", "str": f"total = len({it} + {it})"}
        lines = {name: [line] for name, line in uses.items()}
        return lines.get(head, [f"if {it} is None:", "    total = total + 1"])

    def one_of(self, it: str, parts: List[Tree], depth: int) -> List[str]:
        """Returns lines for each member of a union that a test can tell."""
        self.locals += 1
        name = f"v{self.locals}"
        lines = [f"{name} = {it}"]
        for part in parts:
            test = f"{name} is None" if part[0] == "None" else f"isinstance({name}, {part[0]})"
            lines += [f"if {test}:", *("    " + line for line in self.use(name, part, depth + 1))]
        return lines

    def held(self, it: str, head: str, parts: List[Tree], depth: int) -> List[str]:
        """Returns lines for the contents of a list, a dict or a tuple."""
        if head == "tuple":
            at = self.rng.randrange(len(parts))
            return self.use(f"{it}[{at}]", parts[at], depth + 1)
        value = self.value(parts[-1], depth)
        key = '"a"' if parts[0] == ("str",) else "1"
        if self.rng.random() < 0.5:
            return [f"{it}.append({value})" if head == "list" else f"{it}[{key}] = {value}"]
        self.locals += 1
        name = f"v{self.locals}"
        if head == "dict":
            loop = [f"for {name} in {it}:"]
            return [*loop, *("    " + line for line in self.use(f"{it}[{name}]", parts[1], depth + 1))]
        loop = [f"for {name} in range(len({it})):"]
        return [*loop, *("    " + line for line in self.use(f"{it}[{name}]", parts[0], depth + 1))]

    def value(self, tree: Tree, depth: int) -> str:
        """Returns an expression of a type."""
        head, parts = str(tree[0]), [part for part in tree[1:] if isinstance(part, tuple)]
        if head == "union":
            return "None" if depth > 1 and ("None",) in parts else self.value(self.rng.choice(parts), depth)
        if head in self.fields:
            return f"{head}({', '.join(self.value(tree_of(text), depth + 1) for _, text in self.fields[head])})"
        if head == "tuple":
            return f"({', '.join(self.value(it, depth + 1) for it in parts)})"
        fixed = {"list": ["[]"], "dict": ["{}"], "object": ["None", "1", '"o"']}
        return self.rng.choice(VALUES.get(head) or fixed[head])


def made_core(rng: random.Random) -> str:
    """Returns a core that is made at random; it need not be clean."""
    return Making(rng).text()
