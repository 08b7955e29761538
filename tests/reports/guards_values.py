"""Values for calls of guards: made at random, spelled out as lines of a core that build the same heap, and compared."""
from __future__ import annotations

import json
import random
from types import ModuleType
from typing import Any, Dict, List, Sequence, Tuple

from guards_modules import Tree, tree_of

WRONG: List[Any] = [1.5, None, "w", 3, True, b"w", 2**127, (), [], {}, {1: 1}, [None], ["w"], (1, 2), print]
ATOMS: Dict[str, List[Any]] = {
    "int": [0, 1, -2, True, 10**30],
    "bool": [True, False],
    "str": ["", "a", 'b"\n'],
    "None": [None],
}
Fields = Dict[str, Dict[str, Tree]]


class NotSpelled(Exception):
    """No lines of a core build the value."""


def fields_of(core: ModuleType) -> Fields:
    """Returns the fields of the classes of a core, with their types."""
    classes = [it for it in vars(core).values() if isinstance(it, type) and it.__module__ == core.__name__]
    found: Fields = {}
    for it in classes:
        rows = getattr(it, "__dataclass_fields__").values()
        found[it.__name__] = {row.name: tree_of(row.type) for row in rows}
    return found


def constants_of(core: ModuleType) -> Dict[str, Any]:
    """Returns the lists and dicts that are constants of a core."""
    return {name: it for name, it in vars(core).items() if isinstance(it, (list, dict)) and name[0] != "_"}


class Values:
    """Makes values for the types of a core. Some are values made before, some are wrong."""

    def __init__(self, core: ModuleType, rng: random.Random, wrong: float, again: float) -> None:
        self.core, self.rng, self.fields = core, rng, fields_of(core)
        self.wrong, self.again = wrong, again
        self.pool: List[Tuple[Any, Any]] = [(None, it) for it in constants_of(core).values()]

    def made(self, tree: Tree, depth: int = 0) -> Any:
        """Returns a value, mostly of the type."""
        head = tree[0]
        if self.rng.random() < self.wrong:
            others = [it for _, it in self.pool]
            return self.rng.choice(WRONG if not others or self.rng.random() < 0.5 else others)
        if self.rng.random() < self.again:
            alike = [it for of, it in self.pool if of == tree or of is None and self.rng.random() < 0.3]
            if alike:
                return self.rng.choice(alike)
        if head == "union":
            parts = [it for it in tree[1:] if isinstance(it, tuple)]
            return self.made(("None",) if depth > 3 and ("None",) in parts else self.rng.choice(parts), depth)
        found = self.new(tree, depth)
        if isinstance(found, (list, dict)) or head in self.fields:
            self.pool.append((tree, found))
        return found

    def new(self, tree: Tree, depth: int) -> Any:
        """Returns a new value."""
        head, parts = str(tree[0]), [it for it in tree[1:] if isinstance(it, tuple)]
        size = self.rng.randrange(3 if depth < 4 else 1)
        if head == "list":
            return [self.made(parts[0], depth + 1) for _ in range(size)]
        if head == "dict":
            return {self.made_key(parts[0]): self.made(parts[1], depth + 1) for _ in range(size)}
        if head == "tuple":
            return tuple(self.made(it, depth + 1) for it in parts)
        if head in self.fields:
            return self.instance(head, depth)
        return self.plain(head, depth)

    def made_key(self, tree: Tree) -> Any:
        """Returns a key of a dict."""
        keys: List[Any] = ["a", "b", ""] if tree == ("str",) else [1, 0, -3]
        return self.rng.choice(keys)

    def plain(self, head: str, depth: int) -> Any:
        """Returns a value of a type without parts."""
        if head == "object":
            heads = ["int", "str", "None", *(self.fields if depth < 3 else [])]
            tree: Tree = (self.rng.choice(heads),)
            forms = [tree, ("list", tree), ("tuple", tree, tree), ("dict", ("str",), tree)]
            return self.made(self.rng.choice(forms), depth + 1)
        return self.rng.choice(ATOMS[head])

    def instance(self, head: str, depth: int) -> Any:
        """Returns an instance of a class or of a descendant; now and then one with a field that leads back to it."""
        made_of = getattr(self.core, head)
        kinds = [name for name in self.fields if issubclass(getattr(self.core, name), made_of)]
        kind = self.rng.choice(kinds)
        fields = self.fields[kind]
        found = getattr(self.core, kind)(*(self.made(it, depth + 1) for it in fields.values()))
        self.pool.append(((head,), found))
        for name, tree in fields.items():
            if tree == ("union", ("Tree",), ("None",)) and self.rng.random() < 0.3:
                setattr(found, name, self.made(tree, depth + 1))
        return found


class Spelling:
    """Lines of a core that build values as they are in memory now."""

    def __init__(self, core: ModuleType) -> None:
        self.fields = fields_of(core)
        self.constants = {id(it): name for name, it in constants_of(core).items()}
        self.names: Dict[int, str] = {}
        self.types: Dict[int, Tree] = {}
        self.values: Dict[int, Any] = {}
        self.is_shared = False

    def note(self, value: Any, tree: Tree) -> None:
        """Records everything that a value reaches, each list and dict with the first type at which it is reached, if
        there is one."""
        kind = type(value)
        tree = member_for(value, tree, self.fields)
        known = self.types.get(id(value))
        self.is_shared = self.is_shared or known is not None
        if kind is tuple:
            parts = list(tree[1:]) if tree[0] == "tuple" else [("object",)] * len(value)
            for it, part in zip(value, parts):
                self.note(it, part if isinstance(part, tuple) else ("object",))
        elif kind in (list, dict) or kind.__name__ in self.fields:
            if known is None or known == ("object",) and tree != known:
                self.types[id(value)], self.values[id(value)] = tree, value
                self.note_parts(value, tree)

    def note_parts(self, value: Any, tree: Tree) -> None:
        """Records the contents of a list, a dict or an instance."""
        part = tree[-1] if tree[0] in ("list", "dict") else ("object",)
        wanted = part if isinstance(part, tuple) else ("object",)
        if type(value) is list:
            for it in value:
                self.note(it, wanted)
        elif type(value) is dict:
            for it in value.values():
                self.note(it, wanted)
        else:
            for name, field in self.fields[type(value).__name__].items():
                self.note(vars(value)[name], field)

    def lines(self) -> List[str]:
        """Returns the lines that build all recorded values."""
        made, filled, late = [], [], []
        for at, value in self.values.items():
            self.names[at] = self.constants.get(at) or f"w{len(self.names)}"
        for at, value in self.values.items():
            if at in self.constants and any(isinstance(it, (list, dict)) for it in parts_of(value)):
                raise NotSpelled(self.names[at])
            if at not in self.constants and isinstance(value, (list, dict)):
                empty = "[]" if type(value) is list else "{}"
                made.append(f"{self.names[at]}: {spelled_type(value, self.types[at])} = {empty}")
                filled += self.filling(self.names[at], value)
        order: List[int] = []
        for at, value in self.values.items():
            self.visit(at, order, [])
        for number, at in enumerate(order):
            late += self.instance(at, order[:number], made)
        return [*made, *late, *filled]

    def visit(self, at: int, order: List[int], above: List[int]) -> None:
        """Appends an instance to those that can be made in this order, after the instances that it needs."""
        value = self.values[at]
        if at in order or at in above or isinstance(value, (list, dict)):
            return
        for it in vars(value).values():
            for inner in instances_in(it):
                if id(inner) in self.values:
                    self.visit(id(inner), order, [*above, at])
        order.append(at)

    def instance(self, at: int, before: Sequence[int], made: List[str]) -> List[str]:
        """Adds the line that makes an instance, and returns those that set the fields whose values did not exist
        yet."""
        value, given, late = self.values[at], [], []
        kind = type(value).__name__
        for name, tree in self.fields[kind].items():
            held = vars(value)[name]
            if all(id(it) in before for it in instances_in(held)):
                given.append(self.word(held))
            elif ("None",) in tree[1:] or tree == ("object",):
                given.append("None")
                late.append(f"{self.names[at]}.{name} = {self.word(held)}")
            else:
                raise NotSpelled(name)
        made.append(f"{self.names[at]} = {kind}({', '.join(given)})")
        return late

    def filling(self, name: str, value: Any) -> List[str]:
        """Returns the lines that fill a list or a dict."""
        if type(value) is list:
            return [f"{name}.append({self.word(it)})" for it in value]
        return [f"{name}[{self.word(key)}] = {self.word(it)}" for key, it in value.items()]

    def word(self, value: Any) -> str:
        """Returns an expression for a value."""
        if id(value) in self.names:
            return self.names[id(value)]
        if type(value) is tuple:
            words = ", ".join(map(self.word, value))
            return f"({words},)" if len(value) == 1 else f"({words})"
        if type(value) is str:
            return json.dumps(value, ensure_ascii=False)
        return repr(value)


def parts_of(value: Any) -> List[Any]:
    """Returns the contents of a list, a tuple, a dict or an instance; nothing for others."""
    if isinstance(value, (list, tuple)):
        return list(value)
    if isinstance(value, dict):
        return [it for pair in value.items() for it in pair]
    fields = getattr(type(value), "__dataclass_fields__", {})
    return [vars(value)[name] for name in fields]


def instances_in(value: Any) -> List[Any]:
    """Returns the value itself, or the instances in a tuple."""
    if type(value) is tuple:
        return [it for part in value for it in instances_in(part)]
    return [value] if hasattr(type(value), "__dataclass_fields__") else []


def member_for(value: Any, tree: Tree, fields: Fields) -> Tree:
    """Returns the member of a type that a value of its kind has."""
    heads: Dict[type, str] = {list: "list", dict: "dict", tuple: "tuple"}
    head = heads.get(type(value))
    for part in tree[1:] if tree[0] == "union" else [tree]:
        if isinstance(part, tuple) and part[0] == head:
            return part
    return (type(value).__name__,) if type(value).__name__ in fields else ("object",)


def spelled_type(value: Any, tree: Tree) -> str:
    """Returns an annotation for a list or a dict."""
    if tree == ("object",):
        key = "int" if value and isinstance(next(iter(value)), int) else "str"
        return "list[object]" if type(value) is list else f"dict[{key}, object]"
    return text_of(tree)


def text_of(tree: Tree) -> str:
    """Returns a type as source text."""
    parts = [text_of(it) for it in tree[1:] if isinstance(it, tuple)]
    if tree[0] == "union":
        return " | ".join(parts)
    return f"{tree[0]}[{', '.join(parts) or '()'}]" if parts or tree[0] == "tuple" else str(tree[0])


def shape(values: Any) -> List[str]:
    """Returns values as they are in memory, as lines in which each list, dict and instance has a number: two heaps of
    one form have the same lines."""
    numbers: Dict[int, int] = {}
    lines: List[str] = []
    queue: List[Any] = [values]
    for value in queue:
        if not isinstance(value, (list, tuple, dict)) and not hasattr(type(value), "__dataclass_fields__"):
            lines.append(repr(value))
            continue
        known = numbers.get(id(value))
        parts = parts_of(value) if known is None else []
        lines.append(f"{type(value).__name__} {known} {len(parts)}")
        queue += parts
        if not isinstance(value, tuple):
            # A tuple has no identity of its own
            numbers.setdefault(id(value), len(numbers))
    return lines
