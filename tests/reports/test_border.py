"""The answers of the border of guards to values, and how long it takes."""
from __future__ import annotations

import importlib
import sys
import time
import unittest
from typing import Any, List

from test_guards import CORE, Guards
from support import HEADER

from pycheck_all import pycheck_guards


class Looking(Guards):
    """The answers of the border to values."""

    def test_types_and_values(self) -> None:
        found = "expected {}, found {}".format
        rows: List[Any] = [
            ("int", True, ""),
            ("int", -(2**127), ""),
            ("int", 1.0, found("int", "float")),
            ("bool", 1, found("bool", "int")),
            ("str", "\ud800\0", ""),
            ("str", b"", found("str", "bytes")),
            ("None", None, ""),
            ("int | None", "", found("int | None", "str")),
            ("list[int]", [True, 0], ""),
            ("list[int]", (), found("list[int]", "tuple")),
            ("dict[int, str]", {True: "a"}, ""),
            ("dict[str, int]", {None: 1}, " (key None): expected str, found None"),
            ("tuple[()]", (), ""),
            ("tuple[()]", (1,), "expected tuple[()], found a tuple of length 1"),
            ("tuple[int, str] | None", (1, 1), "[1]: expected str, found int"),
            ("object", [{"a": (None, [True])}], ""),
            ("object", [{"a": {1}}], '[0]["a"]: expected a value of the profile, found set'),
            ("object", {(1,): 1}, " (key tuple): expected a key, found tuple"),
            ("Any", print, "expected a value of the profile, found builtin_function_or_method"),
            ("list[Any]", [[print]], "[0][0]: expected a value of the profile, found builtin_function_or_method"),
        ]
        types = pycheck_guards.Types({})
        for text, value, told in rows:
            with self.subTest(text=text, value=value):
                if told:
                    told = "x" + told if told[0] in " [" else "x: " + told
                    self.assertEqual(self.told(lambda: self.look(types.read(text), value)), told)
                else:
                    self.look(types.read(text), value)

    def look(self, wanted: pycheck_guards.Type, *values: Any) -> None:
        """Examines values of one type at the border."""
        walk = pycheck_guards.Walk()
        for name, value in zip("xyz", values):
            walk.meet(value, wanted, None, name)
        walk.open_all()

    def test_values_that_pose_as_others(self) -> None:
        types = pycheck_guards.Types({"Up": Up})
        types.instances["Up"].fields = {"one": types.read("int"), "two": types.read("int")}
        self.assertEqual(self.told(lambda: self.look(types.read("int"), Posing())), "x: expected int, found Posing")
        odd = Up()
        vars(odd)[Raising("one")] = 1
        told = self.told(lambda: self.look(types.read("Up"), odd))
        self.assertEqual(told, "x: expected Up, found one without one, two")
        self.assertEqual(self.told(lambda: self.look(types.read("dict[str, int]"), {Raising("a"): 1})),
                         "x (key Raising): expected str, found Raising")

    def test_types_of_one_meaning(self) -> None:
        types = pycheck_guards.Types({"A": Up, "B": Down})
        equal = [("int | None", "None | int"), ("list[Any]", "list[object]"), ("list[A | None]", "list[None | A]")]
        for one, other in equal:
            self.assertIs(types.read(one), types.read(other))
        apart = [("int", "bool"), ("list[A]", "list[B]"), ("list[int]", "object"), ("list[A]", "list[A | None]")]
        for one, other in apart:
            self.assertIsNot(types.read(one), types.read(other))
        none = ["float", "list", "int | bool", "A | B", "list[int] | list[str]", "Any | None", "int]", "list[A", ""]
        for text in none:
            with self.assertRaises(ValueError, msg=text):
                types.read(text)

    def test_paths(self) -> None:
        anything = pycheck_guards.Types({}).anything
        deep: Any = 1.5
        for _ in range(40):
            deep = [deep]
        steps = "[0]" * 7 + " .. " + "[0]" * 8
        self.assertEqual(self.told(lambda: self.look(anything, deep)).split(":")[0], "x" + steps)
        key = 'a"\n\x1b\u202e' + "b" * 100
        wanted = 'x["a\\"\\n\\x1b\\u202e' + "b" * 25 + '..."]: expected a value of the profile, found set'
        self.assertEqual(self.told(lambda: self.look(anything, {key: set()})), wanted)

    def test_values_that_come_back(self) -> None:
        anything = pycheck_guards.Types({}).anything
        ring: List[Any] = []
        ring.append((ring, ring))
        twice: Any = ()
        for _ in range(100):
            twice = (twice, twice)
        self.look(anything, ring, twice, [ring])

    def test_a_long_chain(self) -> None:
        text = "@dataclass\nclass Node:\n    next: Node | None = None\n\ndef first(node: Node) -> int:\n    return 1\n"
        api = self.api(HEADER + "from dataclasses import dataclass\n\n" + text + "\ndef main():\n    pass\n\nmain()\n")
        node = api.Node()
        last = node
        for _ in range(20_000):
            node = importlib.import_module("shop").Node(node)
        self.assertEqual(api.first(node), 1)
        last.next = node
        self.assertEqual(api.first(node), 1)
        last.next = 3
        steps = "node" + ".next" * 7 + " .. " + ".next" * 8
        self.assertEqual(self.told(lambda: api.first(node)), f"{steps}: expected Node | None, found int")

    def test_the_guard_of_a_class(self) -> None:
        api = self.api(CORE)
        core = importlib.import_module("shop")
        item = api.Item("tea", price=2)
        self.assertIs(type(item), core.Item)
        self.assertTrue(isinstance(item, api.Item))
        self.assertFalse(isinstance(1, api.Item))
        self.assertTrue(issubclass(core.Item, api.Item) and issubclass(api.Item, api.Item))
        self.assertEqual((api.Item.cost(item), api.Item.cost(item, more=5)), (3, 7))
        self.assertEqual(self.told(lambda: api.Item.cost(item, 1.5)), "more: expected int, found float")
        self.assertEqual(self.told(lambda: api.Item(b"tea")), "name: expected str, found bytes")
        told = self.told(lambda: type(api.Item)("B", (api.Item,), {}))
        self.assertEqual(told, "Item is the guard of a class, and can be no base")
        for call in (lambda: api.Item(), lambda: api.total([], {}, 1), lambda: api.Item.cost(), lambda: api.total(a=1)):
            self.assertIn("argument", self.told(call))

    @unittest.skipIf(sys.version_info < (3, 10), "this Python has no match")
    def test_patterns(self) -> None:
        seen = {"api": self.api(CORE)}
        exec("match api.Item('tea', 2):\n    case api.Item(name, price=2):\n        found = name", seen)
        self.assertEqual(seen["found"], "tea")

    def test_the_path_of_the_page(self) -> None:
        text = (
            "@dataclass\nclass Line:\n    price: int\n\n@dataclass\nclass Order:\n    lines: dict[str, Line]\n\n"
            "def total(orders: list[Order]) -> int:\n    return len(orders)\n\ndef main():\n    pass\n\nmain()\n"
        )
        api = self.api(HEADER + "from dataclasses import dataclass\n\n" + text)
        orders = [api.Order({"tea": api.Line(number)}) for number in range(4)]
        orders[3].lines["tea"].price = 2.5
        told = 'orders[3].lines["tea"].price: expected int, found float'
        self.assertEqual(self.told(lambda: api.total(orders)), told)


class Poser(type):
    """A type of types that gives wrong answers about its types."""

    @property
    def __name__(cls) -> str:  # type: ignore[override]
        raise AttributeError

    def __hash__(cls) -> int:
        return hash(int)

    def __eq__(cls, other: object) -> bool:
        return True


class Posing(metaclass=Poser):
    """A class that is equal to every other."""


class Raising(str):
    """A name that cannot be compared."""

    def __hash__(self) -> int:
        return hash(str(self))

    def __eq__(self, other: object) -> bool:
        raise ValueError


class Up:
    """A class of a core."""


class Down(Up):
    """A descendant of it."""


class Speed(unittest.TestCase):
    """The time of the border for an instance of four fields."""

    # 10 microseconds if the loop takes one; the border takes from a half to one and a half
    TIMES = 10

    def test_beside_a_plain_loop(self) -> None:
        types = pycheck_guards.Types({"Up": Up})
        types.instances["Up"].fields = {name: types.read(text) for name, text in FIELDS.items()}
        wanted = types.read("list[Up]")
        values = [Up() for _ in range(1000)]
        for at, it in enumerate(values):
            vars(it).update(name="tea", price=at, count=1, note=None)
        ratios = []
        for _ in range(7):
            begun = time.process_time()
            walk = pycheck_guards.Walk()
            walk.meet(values, wanted, None, "values")
            walk.open_all()
            between = time.process_time()
            plain_loop(values)
            ratios.append((between - begun) / (time.process_time() - between))
        self.assertLess(min(ratios), self.TIMES)


FIELDS = {"name": "str", "price": "int", "count": "int", "note": "str | None"}
KINDS = {"name": (str,), "price": (int, bool), "count": (int, bool), "note": (str, type(None))}


def plain_loop(values: List[Up]) -> None:
    """Examines the fields of instances as simply as possible."""
    for value in values:
        fields = vars(value)
        for name, kinds in KINDS.items():
            if type(fields[name]) not in kinds:
                raise TypeError(name)
