"""Augmented assignments whose types no annotation tells: the report of the result decides."""
from __future__ import annotations

from typing import List

from fix_support import FixTest, runs
from support import HEADER

FRAME = """from dataclasses import dataclass

@dataclass
class Item:
    count: int
    parts: list[int]

def f(ns: list[int], other):
    {}
    return ns

def main():
    print(f([1, 2], 3))
    print(f([3], "a"))

main()
"""
# Lines of `f`, and the lines that replace them
REWRITTEN = [
    ("count = 0\n    for n in ns: count += n\n    print(count)", "count = 0\n    for n in ns:\n        count = count + n\n    print(count)"),
    ('text = "a"\n    text += "b"\n    print(text)', 'text = "a"\n    text = text + "b"\n    print(text)'),
    ("item = Item(1, ns)\n    item.count -= 2 - 1\n    print(item.count)", "item = Item(1, ns)\n    item.count = item.count - (2 - 1)\n    print(item.count)"),
    ("sold = {'a': 1}\n    sold['a'] *= 2\n    print(sold)", "sold = {'a': 1}\n    sold['a'] = sold['a'] * 2\n    print(sold)"),
]
LEFT = [
    "xs = ns\n    xs += [1]",
    "xs = ns\n    xs *= 2",
    "x = other\n    x += x",
    "item = Item(1, ns)\n    item.parts += ns",
    "held = {'a': ns}\n    held['a'] += ns",
    "x = (1, ns)\n    x += x",
]


def module(lines: str) -> str:
    """Returns a module with these lines in its function `f`."""
    return HEADER + FRAME.replace("{}", lines)


class Guesses(FixTest):
    """Whole modules, with one function that has the lines."""

    def test_numbers_and_texts(self) -> None:
        for lines, wanted in REWRITTEN:
            with self.subTest(lines):
                self.assert_fixed(module(lines), module(wanted))

    def test_what_may_be_a_list_is_left(self) -> None:
        for lines in LEFT:
            with self.subTest(lines):
                self.assert_left(module(lines))

    def test_only_the_right_ones_of_a_module(self) -> None:
        lines, wanted = REWRITTEN[1]
        for left in LEFT[:3]:
            with self.subTest(left):
                self.assert_fixed(module(f"{left}\n    {lines}"), module(f"{left}\n    {wanted}"))

    def test_a_result_without_a_report_tells_nothing(self) -> None:
        lines = REWRITTEN[1][0]
        self.assert_left(module(f"{lines}\n    print(1 / 2)"), module(f"{lines}\n    del text"))

    def test_a_result_with_another_error_tells_nothing(self) -> None:
        """The number is a list, so its type is wrong."""
        self.assert_left(module("n: int = ns\n    m = n\n    m += m"), module(f"{REWRITTEN[1][0]}\n    print(other2)"))

    def test_the_same_output_as_before(self) -> None:
        texts: List[str] = [module(lines) for lines in [*(it for it, _ in REWRITTEN), *LEFT]]
        both = [module(f"{left}\n    {lines}") for left in LEFT for lines, _ in REWRITTEN]
        before = [*texts, *both]
        self.assertEqual(runs([self.fixed(it) for it in before]), runs(before))
