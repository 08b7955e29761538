"""Rewrites to functions of the cookbook, which are put into the module once; and `x += e`."""
from __future__ import annotations

import ast
import random

from fix_support import MAIN, FixTest
from support import HEADER, ROOT

FRAME = HEADER + """def f(text: str, ns: list[int], words: list[str], n: int, other):
    {}

def main():
    f(" a,b ,a", [3, 1, 2], ["tea", "a"], 2, [1])
    f("", [5], ["x"], -1, [2])

main()
"""
# Expressions, and the calls that replace them
CALLS = [
    ("text.strip()", "strip(text)"),
    ('text.strip(" a")', 'strip(text, " a")'),
    ("text.split()", "words_of(text)"),
    ('text.split(",")', 'split(text, ",")'),
    ('", ".join(words)', 'join(", ", words)'),
    ('text.find("a", 1)', 'find(text, "a", 1)'),
    ('text.startswith("a")', 'starts_at(text, "a", 0)'),
    ('text.replace("a", "é")', 'replace(text, "a", "é")'),
    ("sorted(ns)", "sorted_of(ns)"),
    ("sorted(words)", "sorted_of_str(words)"),
    ("max(ns)", "max_of(ns)"),
    ("min(words)", "min_of_str(words)"),
    ("sum(ns)", "sum_of(ns)"),
    ("text[1:]", "slice_of(text, 1)"),
    ("text[:n + 1]", "slice_of(text, 0, n + 1)"),
    ("ns[-2:len(ns)]", "slice_of_list(ns, -2, len(ns))"),
    ("words[:]", "slice_of_list_str(words)"),
    ('int("12")', 'int_of("12")'),
    ('text.strip()[1:].split(",")', 'split(slice_of(strip(text), 1), ",")'),
]
LEFT = [
    "print(other[1:])",
    "print(sorted(other))",
    "print(text[::2])",
    "print(text[other:])",
    "ns[1:] = [1]",
    "print(sorted(ns, reverse=True))",
    "print(max(n, 2))",
    'print(text.split(",", 1))',
    "print(text[1:  # why\n        2])",
    "other += 1",
    "ns += [1]",
    "n **= 2",
]


class Cookbook(FixTest):
    """The calls that are made, and the text that is left."""

    def functions(self, text: str) -> "list[str]":
        """Returns the names of the functions of a module, in order."""
        return [it.name for it in ast.parse(text).body if isinstance(it, ast.FunctionDef)]

    def test_calls(self) -> None:
        for start in range(0, len(CALLS), 5):
            part = CALLS[start : start + 5]
            text = self.fixed(FRAME.format("\n    ".join(f"print({it})" for it, _ in part)))
            for _, wanted in part:
                self.assertIn(f"    print({wanted})\n", text)
            names = self.functions(text)
            self.assertEqual(len(names), len(set(names)))
            self.assertEqual(self.fixed(text), text)

    def test_what_is_put_in(self) -> None:
        text = self.fixed(FRAME.format("print(sorted(ns), sorted(ns))"))
        self.assertEqual(self.functions(text), ["f", "main", "sorted_of", "merged", "merge", "slice_of_list"])
        cookbook = (ROOT / "cookbook/lists_of_int.py").read_text(encoding="utf-8")
        part = cookbook[cookbook.index("# sorted(values)") : cookbook.index("# values.insert")]
        self.assertIn(part, text)
        self.assertTrue(text.endswith("\n\nmain()\n"))

    def test_what_is_left(self) -> None:
        for line in LEFT:
            text = FRAME.format(line)
            with self.subTest(line):
                self.assertEqual(self.fixed(text), text)

    def test_names_that_are_taken(self) -> None:
        for taken in ("def merge():\n    pass\n\n", "sorted_of = 3\n\n", "def g(merged):\n    pass\n\n"):
            text = FRAME.format("print(sorted(ns))").replace("def f(", taken + "def f(")
            self.assertEqual(self.fixed(text), text)

    def test_what_does_not_help_is_taken_back(self) -> None:
        text = HEADER + "def f(text: str) -> int:\n    return int(text)\n" + MAIN
        self.assertEqual(self.fixed(text), text)

    def test_augmented(self) -> None:
        text = FRAME.format("n += 1\n    n -= n - 1\n    text += str(n)\n    print(n, text)")
        wanted = "n = n + 1\n    n = n - (n - 1)\n    text = text + str(n)\n    print(n, text)"
        self.assertEqual(self.fixed(text), FRAME.format(wanted))

    def test_random_calls(self) -> None:
        source = random.Random(31)
        lines = [f"print({it})" for it, _ in CALLS] + ["n += len(text)", "n *= 1 + n", "text += text[1:]"]
        texts = [FRAME.format("\n    ".join(source.choice(lines) for _ in range(4))) for _ in range(10)]
        self.assert_alike(texts, 10)
