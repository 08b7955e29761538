"""Each check of the border is needed: with it a call is refused, with its place; without it the core raises one of the
four exceptions, or accepts a value that the model of runs does not have."""
from __future__ import annotations

import importlib
import os
import shutil
import sys
import tempfile
import traceback
import unittest
from pathlib import Path
from typing import Any, Dict, NamedTuple, Optional, Tuple

from support import PACKAGE

from pycheck_all import guards
from pycheck_all.program import Program

FOUR = (TypeError, AttributeError, NameError)
BORDER = PACKAGE / "pycheck_guards.py"
CORE = """\
from __future__ import annotations
from dataclasses import dataclass

numbers = [1, 2]

@dataclass
class Item:
    price: int
    note: int | None = None

    def cost(self, more: int = 0) -> int:
        return self.price + more

@dataclass
class Gift(Item):
    wrap: int = 1

    def cost(self, more: int = 0) -> int:
        return self.price + self.wrap + more

@dataclass
class Box:
    price: int | None
    note: int | None = None

@dataclass
class Label:
    text: str

    def cost(self, more: str) -> str:
        return self.text + more

def plus(number: int) -> int:
    return number + 1

def twice(text: str) -> str:
    return text + text

def size(numbers: list[int]) -> int:
    return len(numbers)

def at(ages: dict[str, int | None], name: str) -> int | None:
    return ages[name]

def joined(ages: dict[str, int]) -> str:
    text = ""
    for name in ages:
        text = text + name
    return text

def oldest(ages: dict[str, int]) -> int:
    total = 0
    for name in ages:
        total = total + ages[name]
    return total

def second(pair: tuple[int, int]) -> int:
    return pair[1]

def added(pair: tuple[int, int]) -> int:
    total = 0
    for number in pair:
        total = total + number
    return total

def last(b: list[int | None], a: list[int]) -> int:
    b.append(None)
    return a[len(a) - 1] + 1

def constant() -> int:
    total = 0
    for number in numbers:
        total = total + number
    return total

def cost(item: Item) -> int:
    return item.cost()

def put(ages: dict[str, int | None], item: Item) -> int:
    ages["price"] = None
    return item.price + 1

def take(item: Item, value: object) -> int:
    return item.price + 1

def pack(box: Box, item: Item) -> int:
    box.price = None
    return item.price + 1

def of(value: object) -> int:
    if isinstance(value, Item):
        return value.price + 1
    return 0

def shown(value: object, numbers: list[int]) -> int:
    return numbers[0] + 1

def main():
    pass

main()
"""
# The lines before the calls: classes from outside whose objects pass for others
OUTSIDE = """
def raises(*_):
    raise TypeError("outside")
class Int(int):
    __add__ = raises
class Str(str):
    __add__ = raises
class List(list):
    __len__ = raises
class Dict(dict):
    __getitem__ = raises
class Tuple(tuple):
    __getitem__ = raises
class Mine(core.Item):
    cost = raises
class Hidden(dict):
    def items(self):
        return {"price": 1, "note": None}.items()
class Named(str):
    def __hash__(self):
        return 1
class Once(str):
    left = [True]
    __hash__ = str.__hash__
    def __eq__(self, _):
        return bool(self.left) and self.left.pop()
def instance(kind, **fields):
    made = object.__new__(kind)
    vars(made).update(fields)
    return made
def with_fields(kind, fields):
    made = object.__new__(kind)
    made.__dict__ = fields
    return made
"""


class Row(NamedTuple):
    """A check, as an edit that removes it; a call; its message; and whether it is let in without the check, and without
    an exception."""

    name: str
    old: str
    new: str
    call: str
    told: str
    is_let_in: bool = False


EXACT = "kind = wanted.members.get(id(type(value)))"
ANCESTORS = "kind = next((wanted.members[id(it)] for it in type(value).__mro__ if id(it) in wanted.members), None)"
TWO = "if kind.located and not known[1].loose:"
ITEM = "expected Item, found one"
ROWS = [
    Row("exact int", EXACT, ANCESTORS, "api.plus(Int(1))", "number: expected int, found Int"),
    Row("exact str", EXACT, ANCESTORS, "api.twice(Str('a'))", "text: expected str, found Str"),
    Row("exact list", EXACT, ANCESTORS, "api.size(List([1]))", "numbers: expected list[int], found List"),
    Row("exact dict", EXACT, ANCESTORS, "api.at(Dict(a=1), 'a')", "ages: expected dict[str, int | None], found Dict"),
    Row("exact tuple", EXACT, ANCESTORS, "api.second(Tuple((1, 2)))", "pair: expected tuple[int, int], found Tuple"),
    Row("exact class", EXACT, ANCESTORS, "api.cost(Mine(1))", "item: expected Item, found Mine"),
    Row("a type", "if kind is None:", "if kind is None: return\n        if kind is None:", "api.plus('a')",
        "number: expected int, found str"),
    Row("128 bits", "if kind is NUMBER and not LEAST <= value <= MOST:", "if False:", "api.plus(2**127)",
        "number: expected int, found a number of more than 128 bits", True),
    Row("128 bits below", "if kind is NUMBER and not LEAST <= value <= MOST:", "if kind is NUMBER and value > MOST:",
        "api.plus(-(2**127) - 1)", "number: expected int, found a number of more than 128 bits", True),
    Row("one type for a list", TWO, "if False:", "x = [1]; api.last(x, x)",
        "a: expected list[int], found a list[int | None], the one at b"),
    Row("one type, a constant's", TWO, "if False:", "api.last(core.numbers, core.numbers)",
        "b: expected list[int | None], found a list[int], the one at core.numbers"),
    Row("types with parts", "self.kinds.setdefault((name, *parts), made[1])", "self.kinds.setdefault(name, made[1])",
        "x = [1]; api.last(x, x)", "a: expected list[int], found a list[int | None], the one at b"),
    Row("typed after loose", "known[1] is kind or kind.loose:", "known[1] is kind or kind.loose or known[1].loose:",
        "x = ['a']; api.shown(x, x)", "numbers[0]: expected int, found str"),
    Row("fields as a dict", "if known[0] is not value:", "if False:",
        "x = core.Item(1); api.take(x, [vars(x)])", "value[0]: found the fields of item themselves", True),
    Row("a dict as fields", " or id(fields) in self.met:", ":", "x = core.Item(1); api.put(vars(x), x)",
        f"item: {ITEM} whose fields are a dict of others"),
    Row("fields of two", " or id(fields) in self.met:", ":",
        "x = core.Item(1); api.pack(with_fields(core.Box, vars(x)), x)",
        f"item: {ITEM} whose fields are a dict of others"),
    Row("fields in a dict", "type(fields) is not dict or ", "",
        "api.cost(with_fields(core.Item, Hidden(price='a', note=None)))",
        f"item: {ITEM} whose fields are a dict of others"),
    Row("all fields", "if len(fields) < len(self.fields):", "if False:", "api.cost(instance(core.Item, note=None))",
        f"item: {ITEM} without price"),
    Row("no other fields", "if wanted is None:", "if wanted is None: continue\n            if wanted is None:",
        "api.cost(instance(core.Item, price=1, note=None, cost=2))", f'item: {ITEM} that also has "cost"'),
    Row("names of fields", " if type(name) is str else None", "",
        "x = core.Item(1); del x.price; vars(x)[Once('price')] = 1; api.cost(x)", f"item: {ITEM} that also has Once"),
    Row("a field", "walk.meet(value, wanted, entry, name)", "pass", "api.cost(core.Item('a'))",
        "item.price: expected int, found str"),
    Row("an item", "walk.meet(item, self.item, entry, at)", "pass", "api.last([], ['a'])",
        "a[0]: expected int, found str"),
    Row("a key", "walk.meet(key, self.key, entry, (key,))", "pass", "api.joined({1: 2})",
        "ages (key 1): expected str, found int"),
    Row("a value of a dict", "walk.meet(value, self.value, entry, key)", "pass", "api.oldest({'tea': 'x'})",
        'ages["tea"]: expected int, found str'),
    Row("a length", "if len(entry[0]) != len(self.items):", "if False:", "api.added((1, 2, 'a'))",
        "pair: expected tuple[int, int], found a tuple of length 3"),
    Row("an item of a tuple", "walk.meet(item, wanted, entry, at)", "pass", "api.added((1, 'a'))",
        "pair[1]: expected int, found str"),
    Row("what object reaches", "every.members.update({id(it): self.instances[name] for",
        "every.members.update({id(it): ATOM for", "api.of(core.Item('a'))", "value.price: expected int, found str"),
    Row("a constant", "for name, constant in self.constants.items():", "for name, constant in ():",
        "core.numbers.append('a'); api.constant()", "core.numbers[2]: expected int, found str"),
    Row("names of arguments", "if type(name) is not str:", "if False:", "api.plus(**{Named('number'): 'a'})",
        "Named: expected the name of a parameter"),
    Row("the instance of a method", "{RECEIVER: receiver_type, **self.parameters(wrapper)}",
        "{RECEIVER: self.types.anything, **self.parameters(wrapper)}", "api.Gift.cost(core.Label('a'), 5)",
        "self: expected Gift, found Label"),
]


class Needed(unittest.TestCase):
    """A core with its guards, and the border as it is or with an edit."""

    def setUp(self) -> None:
        self.folder = Path(tempfile.mkdtemp(prefix="reports-"))
        self.addCleanup(shutil.rmtree, self.folder, ignore_errors=True)
        sys.path.insert(0, str(self.folder))
        self.addCleanup(sys.path.remove, str(self.folder))
        self.addCleanup(self.forget)
        (self.folder / "core.py").write_text(CORE, encoding="utf-8")
        asked = guards.Asked(str(self.folder / "core.py"), "", False)
        made = guards.make(asked, Program(os.environ["PYCHECK"]), 60)
        self.assertEqual(made.written, f"{self.folder}/core_api.py: guards of 17 functions, 4 classes and 3 methods")

    def forget(self) -> None:
        """Makes Python import the modules anew."""
        for name in ("core", "core_api", "pycheck_guards"):
            sys.modules.pop(name, None)
        importlib.invalidate_caches()

    def call(self, border: str, call: str) -> "Tuple[Optional[BaseException], bool]":
        """Returns the exception of a call over this border, or none, and whether the core was entered when it was
        raised."""
        (self.folder / "pycheck_guards.py").write_text(border, encoding="utf-8")
        self.forget()
        names = {name: importlib.import_module(module) for name, module in (("core", "core"), ("api", "core_api"))}
        seen: Dict[str, Any] = {**names}
        try:
            exec(OUTSIDE + "\n" + call, seen)
        except Exception as fault:
            frames = traceback.extract_tb(fault.__traceback__)
            return fault, any(it.filename.endswith("core.py") for it in frames)
        return None, False

    def test_each_check(self) -> None:
        border = BORDER.read_text(encoding="utf-8")
        for row in ROWS:
            with self.subTest(row.name):
                fault, is_inside = self.call(border, row.call)
                self.assertIsInstance(fault, TypeError)
                self.assertEqual((str(fault), is_inside), (row.told, False))
                self.assertEqual(border.count(row.old), 1)
                fault, is_inside = self.call(border.replace(row.old, row.new), row.call)
                self.assertEqual(fault is None, row.is_let_in, repr(fault))
                if fault is not None:
                    self.assertIsInstance(fault, FOUR)
                    self.assertTrue(is_inside, repr(fault))

    def test_the_text_that_was_checked(self) -> None:
        border = BORDER.read_text(encoding="utf-8")
        self.assertIsNone(self.call(border, "api.plus(1)")[0])
        (self.folder / "core.py").write_bytes(CORE.replace("\n", "\r\n").encode())
        self.assertIsNone(self.call(border, "api.plus(1)")[0])
        (self.folder / "core.py").write_text(CORE.replace("number: int", "number: str"), encoding="utf-8")
        with self.assertRaisesRegex(ImportError, "^core has changed: have its guards written anew"):
            self.call(border, "api.plus(1)")
