"""Rewrites of augmented assignments to fields and items, of named expressions, of comprehensions of dicts, and of
loops over `range` with two bounds."""
from __future__ import annotations

import random

from fix_support import MAIN, FixTest
from support import HEADER

CLASSES = """from dataclasses import dataclass

@dataclass
class Item:
    name: str
    count: int
    parts: list[int]

    def sell(self, n: int):
        {}

@dataclass
class Box(Item):
    price: int = 3

def f(item: Item, box: Box, ns: list[int], sold: dict[str, int], n: int, text: str, other):
    {}

def show(x):
    print(x)
    return x

def main():
    item = Item("tea", 3, [1])
    box = Box("cup", 2, [2])
    item.sell(2)
    f(item, box, [4, 5, 6], {{"tea": 1, "a": 2}}, 2, "a", [7])
    f(box, box, [1, 2, 3], {{"a": 5}}, 1, "b", [8])
    print(item, box)

main()
"""
# The code that is run before and after; some of it ends in an exception, and must do so after the rewrite too
LINES = [
    "item.count += n",
    "box.price *= show(n) + 1",
    "box.count -= n - show(1)",
    'item.name += "!" + text',
    "ns[0] += show(n)",
    "ns[n] -= 1",
    "ns[-1] //= n",
    'sold["a"] += show(n)',
    "sold[text] += 1",
    "n += 1",
    "if (m := show(n)) > 1: show(m)",
    "show((k := n + 1) * k)",
    "x = ([k * n for k in ns], show(n))\n    show(x)",
    "c = {k: show(k) for k in ns if k > n}\n    show(c)",
    "show({show(k): show(k + j) for k in ns for j in [1, n]})",
    "show(len({k: k for k in ns}))",
    "for i in range(1, n + 3): show(i)",
    "for i in range(n, len(ns)): show(i * n)",
    "for i in range(n, 4):\n        n = n + i\n        show(i)",
    "for i in range(n + 1, 5):\n        if i == 4: break\n        show(i)\n    else: show(9)",
    "for i in range(0, n):\n        i = i + 1\n        show(i)",
    "for i in range(-2, item.count): show(i)",
]


def module(lines: str, method: str = "pass") -> str:
    """Returns a module with these lines in its function `f`, and this one in its method."""
    return HEADER + CLASSES.format(method, lines)


class Places(FixTest):
    """Augmented assignments."""

    def assert_lines(self, lines: str, wanted: str) -> None:
        """Asserts that lines of `f` are rewritten to others."""
        self.assert_fixed(module(lines), module(wanted))

    def test_fields(self) -> None:
        self.assert_lines("item.count += n", "item.count = item.count + n")
        self.assert_lines("box.count -= n - 1", "box.count = box.count - (n - 1)")
        self.assert_lines("box.name += text", "box.name = box.name + text")
        self.assert_fixed(module("pass", "self.count -= n"), module("pass", "self.count = self.count - n"))

    def test_items(self) -> None:
        self.assert_lines("ns[0] += n", "ns[0] = ns[0] + n")
        self.assert_lines("ns[-1] *= n", "ns[-1] = ns[-1] * n")
        self.assert_lines('sold["a"] += n', 'sold["a"] = sold["a"] + n')
        self.assert_lines("sold[text] += ns[n]", "sold[text] = sold[text] + ns[n]")

    def test_fields_that_are_left(self) -> None:
        for line in (
            "item.parts += ns", "item.other += 1", "other.count += 1", "item.count **= 2", "show(item).count += 1",
            "item.count += (item := box).count", "(item.  # why\n     count) += 1", "item.parts[0] += 1",
        ):
            self.assert_left(module(line))
        line = "item.count += 1"
        for old, new in (
            ("    count: int\n", "    count: int | str\n"),
            ("    count: int\n", "    @property\n    def count(self): return 1\n"),
            ("    count: int\n", ""),
            ("price: int = 3", "count: list[int] = 3"),
            ("class Box(Item)", "class Box(Item, metaclass=Other)"),
            ("class Item:", "class Item(Other):"),
            ("@dataclass\nclass Item", "@other\nclass Item"),
            ("    print(x)", "    setattr(x, text, 1)"),
            ("    print(x)", "    Item.count = x"),
            ("    print(x)", "    type(x).count = x"),
            ("    print(x)", "    x.__iadd__"),
            ("    print(x)", "    global n\n    n = x"),
        ):
            with self.subTest(new):
                text = module(line)
                self.assertIn(old, text)
                self.assertIn(line, self.fixed(text.replace(old, new)))
        method = "self = n\n        self.count += 1"
        self.assert_left(module("pass", method))
        text = module("pass", "self.count += 1").replace("    def sell", "    @staticmethod\n    def sell")
        self.assertIn("self.count += 1", self.fixed(text))

    def test_items_that_are_left(self) -> None:
        for line in (
            "other[0] += 1", "ns[n + 1] += 1", "ns[show(0)] += 1", "ns[n] += (n := 0)", "ns[0:1] += ns",
            "ns[n] += (ns := [n])[0]", "ns[n] += len(locals())", "text[0] += text",
        ):
            self.assert_left(module(line))
        self.assertIn("ns[0] += 1", self.fixed(module("ns[0] += 1").replace("ns: list[int]", "ns: list[list[int]]")))
        self.assertIn("ns[0] += 1", self.fixed(module("ns[0] += 1").replace("def show", "def list")))

    def test_functions_inside(self) -> None:
        inner = HEADER + "def f():\n    def g(xs: int):\n        pass\n    xs = []\n    ys = xs\n    xs += [1]\n"
        self.assert_left(inner + "    print(ys)\n" + MAIN)

    def test_random_bodies(self) -> None:
        source = random.Random(41)
        texts = [module("\n    ".join(source.choice(LINES) for _ in range(4)), "self.count -= n") for _ in range(30)]
        self.assert_alike(texts, 30)

    def test_each_line(self) -> None:
        self.assert_alike([module(it) for it in LINES], len(LINES))


class Named(FixTest):
    """Named expressions."""

    def test_named(self) -> None:
        self.assert_body("if (x := a) > b:\n    pass", "x = a\nif x > b:\n    pass")
        self.assert_body("if(x := a):\n    pass", "x = a\nif x:\n    pass")
        self.assert_body("return(x := a)", "x = a\nreturn x")
        self.assert_body("print(b, x := a(b))", "x = a(b)\nprint(b, x)")
        self.assert_body("print((x := a))", "x = a\nprint((x))")
        self.assert_body("c = [(x := a), x]", "x = a\nc = [x, x]")
        self.assert_body("for n in (x := a):\n    print(x)", "x = a\nfor n in x:\n    print(x)")

    def test_what_is_left(self) -> None:
        self.assert_bodies_left(
            "return a and (x := b)",
            "return a() + (x := b)",
            "return a.x + (x := b)",
            "return a + (a := b)",
            "while (x := a()):\n    pass",
            "if a:\n    pass\nelif (x := b):\n    pass",
            "return (x := a) + (y := b)",
            "return [x := n for n in a]",
            "return (x :=  # why\n    a)",
            "return (x := a), locals()",
            "return lambda: (x := a)",
        )
        self.assert_left(HEADER + "print(x := 1)\n" + MAIN)


class Dicts(FixTest):
    """Comprehensions of dicts."""

    def test_dicts(self) -> None:
        self.assert_body("x = {n: a for n in b}", "x = {}\nfor n in b:\n    x[n] = a")
        wanted = "x: dict[int, int] = {}\nfor n in b:\n    if n > c:\n        x[n] = a(n)"
        self.assert_body("x: dict[int, int] = {n: a(n) for n in b if n > c}", wanted)
        wanted = "items = {}\nfor n in b:\n    items[a(n)] = n\nreturn items"
        self.assert_body("return {a(n): n for n in b}", wanted)
        wanted = "x = {}\nfor n in b:\n    key = a(n)\n    x[key] = c(n)"
        self.assert_body("x = {a(n): c(n) for n in b}", wanted)

    def test_what_is_left(self) -> None:
        self.assert_bodies_left(
            "x = {n: m for n, m in a}",
            "x = {n: lambda: n for n in a}",
            "x = {n: (y := n) for n in a}",
            "return a and {n: n for n in b}",
            "print(a(), {n: n for n in b})",
            "x = {n: n  # why\n    for n in a}",
            "print({n: n for n in a}, locals())",
        )
        self.assert_left(HEADER + "x = {n: n for n in [1]}\n" + MAIN)


class Ranges(FixTest):
    """Loops over `range` with two bounds."""

    def assert_loop(self, head: str, wanted: str, line: str = "print(i)") -> None:
        """Asserts that a loop in `f` is rewritten to another one."""
        self.assert_fixed(module(f"{head}:\n        {line}"), module(f"{wanted}\n        {line}"))

    def test_bounds(self) -> None:
        self.assert_loop("for i in range(0, n)", "for i in range(n):")
        self.assert_loop("for i in range(2, 5)", "for number in range(3):\n        i = 2 + number")
        self.assert_loop("for i in range(1, n)", "for number in range(n - 1):\n        i = 1 + number")
        self.assert_loop("for i in range(-1, n)", "for number in range(n + 1):\n        i = -1 + number")
        self.assert_loop("for i in range(n, len(ns))", "for number in range(len(ns) - n):\n        i = n + number")
        wanted = "start = n + 1\n    for number in range(9 - start):\n        i = start + number"
        self.assert_loop("for i in range(n + 1, 9)", wanted)
        wanted = "start = n\n    for number in range(9 - start):\n        i = start + number"
        self.assert_loop("for i in range(n, 9)", wanted, "n = i")
        self.assert_loop("for n in range(n, 9)", wanted.replace("i =", "n ="))
        wanted = "for number in range(item.count - 1):\n        i = 1 + number"
        self.assert_loop("for i in range(1, item.count)", wanted)

    def test_what_is_left(self) -> None:
        for line in (
            "for i in range(other, 3):\n        pass", "for i in range(1, other):\n        pass",
            "for i in range(1, n, 2):\n        pass", "for i in range(*ns, 3):\n        pass",
            "for i in range(1,  # why\n            n):\n        pass", "xs = range(1, n)",
            "for ns[0] in range(1, n):\n        pass", "for i in range(1, n):\n        print(locals())",
            "for i in range(1.5, n):\n        pass", "for i in range(True, n):\n        pass",
        ):
            with self.subTest(line):
                self.assertIn(line.split("\n")[0], self.fixed(module(line)))
        text = HEADER + "for i in range(1, 3):\n    print(i)\n" + MAIN
        self.assertEqual(self.fixed(text), text)
        text = module("for i in range(1, n):\n        print(i)").replace("def show", "def range")
        self.assertIn("range(1, n)", self.fixed(text))
