"""Rewrites of annotations, of targets, of expressions and of loops."""
from __future__ import annotations

import random

from fix_support import MAIN, FixTest
from support import HEADER

# The parts of random bodies: all names are of numbers, except `xs`
LINES = [
    "a, b = b, a",
    "a, b = show(1), a",
    "a = b = show(2)",
    "a = xs[b % 3] = c = show(b)",
    "xs[a % 3], a = a + 1, b",
    "a = show(1) if show(b) > 2 else show(3)",
    "show(a + (b if a < b else c))",
    "xs = [show(n) for n in xs if n > b]",
    "ys = [n * m for n in xs for m in [1, a]]\nshow(len(ys))",
    "show(len([n for n in xs]))",
    "if a < b <= c: show(4)",
    "show(0 <= a < b != c)",
    "show(0 < show(a) < 4)",
    "c = show(a) < show(b) <= c",
    "if a < b + c < show(5) + b: show(6)",
    "for n in xs:\n    if n == c: break\n    show(n)\nelse:\n    show(9)",
    "while a < 5:\n    a = a + 1\n    if a == b: break\nelse: show(8)",
    "show(1 if isinstance(a, (str, bool)) else 2)",
    "for n in [n + 1 for n in xs]: show(n if n > 2 else -n)",
    "if show(a) < 2 if b > 1 else c > 2: show(7)",
    "b = a and (1 if c else 2)",
    "c = [n if n > 1 else 0 for n in xs] == xs",
    "xs = xs if xs else [1, 2, 3]",
    "for n in a, b: show(n)",
]


def module(lines: str) -> str:
    """Returns a module with these lines in its function `f`, among others that print the results."""
    whole = ["a, b, c = n, 2, 3", "xs = [3, n, 1]", *lines.split("\n"), "show(a)", "print(b, c, xs)"]
    text = "def show(x):\n    print(x)\n    return x\n\ndef f(n):\n" + "\n".join(f"    {it}" for it in whole)
    return HEADER + text + "\n\ndef main():\n    f(1)\n    f(4)\n\nmain()\n"


class Annotations(FixTest):
    """Annotations of `typing`, and quoted ones."""

    def test_typing(self) -> None:
        text = "from typing import Any, Dict, List, Optional, Tuple, Union\n\n"
        text += 'def f(a: Optional[List[int]], b: Union[int, "str"], c: Dict[str, Any]) -> Tuple[int, str]:\n'
        text += "    return a\n"
        wanted = "from typing import Any\n\n"
        wanted += "def f(a: list[int] | None, b: int | str, c: dict[str, Any]) -> tuple[int, str]:\n    return a\n"
        self.assert_fixed(HEADER + text + MAIN, HEADER + wanted + MAIN)
        text = "from typing import Optional\ndef f():\n    a: 'Optional[int]' = None\n"
        self.assert_fixed(HEADER + text + MAIN, HEADER + "def f():\n    a: int | None = None\n" + MAIN)

    def test_quotes(self) -> None:
        self.assert_fixed(
            HEADER + "def f(a: 'int', b: \"list['str']\") -> 'int | None':\n    pass\n" + MAIN,
            HEADER + "def f(a: int, b: list[str]) -> int | None:\n    pass\n" + MAIN,
        )

    def test_order(self) -> None:
        one, other = "from typing import Any\n", "from dataclasses import dataclass\n"
        self.assert_fixed(HEADER + one + other + MAIN, HEADER + other + one + MAIN)

    def test_what_is_left(self) -> None:
        self.assert_left(
            HEADER + "from typing import Optional\nx = Optional[int]\n" + MAIN,
            HEADER + "from typing import List\ndef f(a: List[int]):\n    pass\nx = f.__annotations__\n" + MAIN,
            HEADER + "from typing import Optional as O\ndef f(a: O[int]):\n    pass\n" + MAIN,
            HEADER + "from typing import List, Iterator\ndef f(a: List[int]):\n    pass\n" + MAIN,
            HEADER + "from typing import (List,  # why\n Dict)\ndef f(a: List[int]):\n    pass\n" + MAIN,
            HEADER + "from typing import List\nList = 3\ndef f(a: List[int]):\n    pass\n" + MAIN,
            HEADER + 'def f(a: Literal["int"]):\n    pass\n' + MAIN,
            HEADER + 'def f(a: "not one!"):\n    pass\n' + MAIN,
        )


class Statements(FixTest):
    """Targets and loops."""

    def test_targets(self) -> None:
        self.assert_body("x, y = 1, a", "x = 1\ny = a")
        self.assert_body("a, b = b, a", "value = b\nvalue_2 = a\na = value\nb = value_2")
        self.assert_body("x = y = 0  # why", "x = 0\ny = 0  # why")
        self.assert_body("x = a.y = [b]", "x = [b]\na.y = x")
        self.assert_body("a.x = a.y = [b]", "value = [b]\na.x = value\na.y = value")

    def test_tuples(self) -> None:
        self.assert_body("return a, b", "return (a, b)")
        self.assert_body("x = (a), (b)", "x = ((a), (b))")
        self.assert_body("for x in a, b:\n    pass", "for x in (a, b):\n    pass")
        self.assert_bodies_left("x = (a, b)", "x = a[b, c]", "x = ()")

    def test_targets_that_are_left(self) -> None:
        self.assert_bodies_left("x, y = a", "x, *y = 1, 2", "x, y = *a, 1", "(x, y), c = 1, 2")
        self.assert_bodies_left("x, y = (1,  # why\n    2)")
        self.assert_bodies_left("x = y, c = a", "x, y = y, x\nlocals()", "x, z = a(), (y := 1)")
        self.assert_left(HEADER + "x, y = f(), g()\n" + MAIN, HEADER + "x.a = x.b = [1]\n" + MAIN)

    def test_loops(self) -> None:
        lines = "for x in a:\n    if x:\n        break\nelse:\n    print(b)"
        wanted = "ended = True\nfor x in a:\n    if x:\n        ended = False\n        break\nif ended:\n    print(b)"
        self.assert_body(lines, wanted)
        lines = "while a:\n    for x in b:\n        break\n    else:\n        break\nelse:\n    print(b)"
        self.assertEqual(self.fixed(HEADER + "for x in []:\n    pass\nelse:\n    pass\n" + MAIN).count("ended"), 0)
        text = self.fixed(HEADER + "def f(a, b):\n    " + lines.replace("\n", "\n    ") + "\n" + MAIN)
        self.assertEqual((text.count("= True"), text.count("= False")), (2, 2))
        self.assert_bodies_left(lines + "\nlocals()")


class Expressions(FixTest):
    """Comparisons, conditional expressions and comprehensions."""

    def test_comparisons(self) -> None:
        self.assert_body("return 0 < a < 9", "return 0 < a and a < 9")
        self.assert_body("return not (a) < (b) <= c", "return not ((a) < (b) and b <= c)")
        self.assert_body("return a < -1 < b", "return a < -1 and -1 < b")
        self.assert_left(HEADER + "def f(a):\n    return 0 < a < 9\nx = '__lt__'\n" + MAIN)

    def test_comparisons_through_a_local(self) -> None:
        self.assert_body("return 0 < a.x < 9", "value = a.x\nreturn 0 < value and value < 9")
        self.assert_body("if a < (b + 1) < c: pass", "value = b + 1\nif a < value and value < c:\n    pass")
        wanted = "value = a()\nvalue_2 = b()\nc = not (value < value_2 and value_2 <= c and c < 3)"
        self.assert_body("c = not a() < b() <= c < 3", wanted)
        self.assert_bodies_left(
            "return a < b() < c() < 3",
            "return b and 0 < a() < 9",
            "return a() + (0 < b() < 9)",
            "while 0 < a() < 9:\n    pass",
            "return 0 < (a  # why\n    ()) < 9",
            "return 0 < a() < 9, locals()",
        )
        self.assert_left(HEADER + "def f(a):\n    global b\n    return 0 < a() < 9\n" + MAIN)
        self.assert_left(HEADER + "x = 0 < f() < 9\n" + MAIN)

    def test_conditionals(self) -> None:
        self.assert_body("return a if b else c", "if b:\n    return a\nelse:\n    return c")
        self.assert_body("x = (a if b\n    else c)  # why", "if b:\n    x = a\nelse:\n    x = c  # why")
        wanted = "if b:\n    chosen = a\nelse:\n    chosen = c\nprint(chosen, 1)"
        self.assert_body("print(a if b else c, 1)", wanted)
        self.assert_body("return(a if b else c)", "if b:\n    return a\nelse:\n    return c")
        wanted = "if b:\n    chosen = 1\nelse:\n    chosen = c\na.append(chosen)"
        self.assert_body("a.append(1 if b else c)", wanted)
        self.assert_bodies_left(
            "print(a(), 1 if b else c)",
            "return a and (1 if b else c)",
            "return a.x + (1 if b else c)",
            "a.append(b() if b else c)",
            "assert a if b else c",
            "while a if b else c:\n    pass",
            "if a:\n    pass\nelif a if b else c:\n    pass",
            "return a(1 if b else c, x := 2)",
            "return (a if b else  # why\n    c)",
            "return lambda: a if b else c",
            "print(a if b else c, locals())",
        )
        self.assert_left(HEADER + "def f(a):\n    global b\n    print(1 if a else b)\n" + MAIN)

    def test_comprehensions(self) -> None:
        wanted = "x = []\nfor n in a:\n    if n > b:\n        x.append(n + 1)"
        self.assert_body("x = [n + 1 for n in a if n > b]", wanted)
        self.assert_body("a = [n for n in a]", "items = []\nfor n in a:\n    items.append(n)\na = items")
        wanted = "items = []\nfor n_2 in a:\n    items.append(n_2)\nfor n in items:\n    pass"
        self.assert_body("for n in [n for n in a]:\n    pass", wanted)
        self.assert_bodies_left(
            "x = [n for n, m in a]",
            "x = [lambda: n for n in a]",
            "x = {n for n in a}",
            "x = [n for n in a for n in n]",
            "return a and [n for n in b]",
            "print(a(), [n for n in b])",
        )
        self.assert_left(HEADER + "x = [n for n in [1]]\n" + MAIN)

    def test_isinstance(self) -> None:
        self.assert_body("print(isinstance(a, (int, str)))", "print(isinstance(a, int) or isinstance(a, str))")
        wanted = "return not (isinstance(a, int) or isinstance(a, str))"
        self.assert_body("return not isinstance(a, (int, str))", wanted)
        self.assert_bodies_left("return isinstance(a.b, (int, str))", "return isinstance(a, (int, b))")
        self.assert_bodies_left("return isinstance(a, ())")

    def test_loops_in_loops(self) -> None:
        ends = "for x in [1, 2]:\n{}    for y in [n]:\n        if y == x: break\n    else:\n        show(x)\n{}"
        body = ends.format("", "else:\n    show(7)") + "\nfor i in range(n + 1, 4):\n"
        body += "    for j in range(n * 2, 5):\n        show(i * j)\n    show(i)"
        lines = "\n".join(f"    {it}" for it in body.split("\n"))
        text = f"def show(x):\n    print(x)\n\ndef f(n: int):\n{lines}\n\ndef main():\n    f(1)\n    f(3)\n\nmain()\n"
        self.assert_alike([HEADER + text], 1)

    def test_random_bodies(self) -> None:
        source = random.Random(21)
        texts = [module("\n".join(source.choice(LINES) for _ in range(5))) for _ in range(30)]
        self.assert_alike(texts, 30)
