"""Rewrites of targets that take the items of a tuple, told by an annotation, a display or the report of the result."""
from __future__ import annotations

import random

from fix_support import MAIN, FixTest
from support import HEADER

FRAME = HEADER + """def two(n: int) -> tuple[int, int]:
    print(n)
    return (n, n + 1)

def made(n: int):
    return [n, n]

def f(pair_of: tuple[int, str], pairs: list[tuple[int, str]], n: int, xs: list[int], other):
    HERE
    print(n, xs)

def main():
    f((1, "a"), [(2, "b"), (3, "c")], 4, [5, 6], (7, 8))
    f((0, ""), [], 1, [2, 3], [9, 9])

main()
"""
# Lines of `f`, and the lines that replace them: if an annotation or a display tells the type, and if the report does
TOLD = [
    ("a, b = pair_of\nprint(a, b)", "a = pair_of[0]\nb = pair_of[1]\nprint(a, b)"),
    ("[a, b] = two(n)\nprint(a, b)", "pair = two(n)\na = pair[0]\nb = pair[1]\nprint(a, b)"),
    ("n, pair_of = pair_of\nprint(pair_of)", "pair = pair_of\nn = pair[0]\npair_of = pair[1]\nprint(pair_of)"),
    ("n, xs[0] = two(n)", "pair = two(n)\nn = pair[0]\nxs[0] = pair[1]"),
    ("for a, b in pairs:\n    print(a, b)", "for pair in pairs:\n    a = pair[0]\n    b = pair[1]\n    print(a, b)"),
    (
        "for(a, b)in [(1, 2), (n, 3)]: print(a); print(b)  # both",
        "for pair in [(1, 2), (n, 3)]:\n    a = pair[0]\n    b = pair[1]\n    print(a)\n    print(b)  # both",
    ),
]
BY_REPORT = [
    ("q = (n, 2)\na, n = q\nprint(a)", "q = (n, 2)\na = q[0]\nn = q[1]\nprint(a)"),
    ("q = [(n, 1, 2)]\nfor a, b, c in q:\n    print(c)", "q = [(n, 1, 2)]\nfor items in q:\n    a = items[0]\n    b = items[1]\n    c = items[2]\n    print(c)"),
    (
        "a, b = (n, 1) if n > 1 else (2, n)\nprint(a)",
        "if n > 1:\n    pair = (n, 1)\nelse:\n    pair = (2, n)\na = pair[0]\nb = pair[1]\nprint(a)",
    ),
]
LEFT = [
    "a, b = xs", "a, b = made(n)", "a, b = other", "q = (n, n, n)\na, b = q", "for a, b in [xs, xs]:\n    print(a)",
    "for a, b in xs:\n    print(a)", "a, b, c = pair_of", "for a, b in [(1, 2), xs]:\n    print(a)",
]
# Lines for which the program need not be asked
OTHERS = [
    "(a, b), c = (pair_of, n)", "a, *b = pair_of", "a, b = (pair_of  # why\n        )", "a, b = pair_of\nprint(locals())",
    "for a, (b, c) in pairs:\n    print(a)", "for a, b in pairs: # why\n    print(a, locals())",
    "for a, b in [(1, 2), (*pair_of,)]:\n    print(a)", "for (a,  # why\n        b) in pairs:\n    print(a)",
]


def module(lines: str) -> str:
    """Returns a module with these lines in its function `f`."""
    return FRAME.replace("HERE", lines.replace("\n", "\n    "))


class Tuples(FixTest):
    """Assignments to several targets, and loops with several."""

    def test_types_that_are_told(self) -> None:
        for lines, wanted in TOLD:
            with self.subTest(lines):
                self.assert_fixed(module(lines), module(wanted))

    def test_types_that_the_report_tells(self) -> None:
        for lines, wanted in BY_REPORT:
            with self.subTest(lines):
                self.assertEqual(self.fixed(module(lines)), module(wanted))

    def test_what_is_left(self) -> None:
        self.assert_left(*map(module, [*LEFT, *OTHERS]))
        self.assert_left(HEADER + "x = (1, 2)\na, b = x\n" + MAIN, module("a, b = pair_of").replace("made", "tuple"))

    def test_those_of_a_module_that_are_right(self) -> None:
        lines = "[c, d] = two(n)\nprint(c, d)\nq = (n, 2)\ne, n = q\nm = e\nm += 1\nprint(m)"
        wanted = "pair = two(n)\nc = pair[0]\nd = pair[1]\nprint(c, d)\nq = (n, 2)\ne = q[0]\nn = q[1]\nm = e\nm = m + 1\nprint(m)"
        left = "\n".join(LEFT[:3])
        self.assertEqual(self.fixed(module(f"{left}\n{lines}")), module(f"{left}\n{wanted}"))

    def test_random_bodies(self) -> None:
        source = random.Random(53)
        lines = [it for it, _ in [*TOLD, *BY_REPORT]]
        texts = [module("\n".join(source.sample(lines, 3))) for _ in range(8)]
        self.assert_alike([*texts, *(module(it) for it in LEFT[:5])], 8)
