"""Rewrites of strings, numbers, f-strings and of the lines of statements."""
from __future__ import annotations

import random

from fix_support import MAIN, FixTest
from support import HEADER

# Spellings of strings, all of them of the same kind in Python
SPELLINGS = ["'a\"b'", "r'\\d'", "'\\x41'", "u'tea'", "'''one\ntwo'''", "'a' \"b\"", "'\\u00e9'", "'\\d'"]
SPELLINGS += ["'\\101'", "'go \\\non'"]
SPELLINGS += ["r'''a\\n\nb'''", "'it''s'", "('a'\n     'b')", "'{}'", "0xFF", "0b101", "0o17", "00", "0XfF", "-0x1_0"]
PARTS = ["a {n}", "{s}", "{n + 1}{s}", "{{{n}}}", "{s!s}", "{(n, s)}", "{[n]}", "\\t{n}", "é{s}", "{'q'}", ""]


class Strings(FixTest):
    """The text that is rewritten, and the text that is left."""

    def test_strings(self) -> None:
        self.assert_body("x = r'\\d' + u\"t\" + '\\x41'", 'x = "\\\\d" + "t" + "A"')
        self.assert_body("x = 'a' 'b'.join(c)", 'x = "ab".join(c)')
        self.assert_body("x = '''one\ntwo''' * 2", 'x = ("one\\n" +\n    "    two") * 2')
        self.assert_body("x = ('a'  # first\n     'b')", 'x = ("a" +  # first\n     "b")')
        before = "def g(a: str = 'x' 'y'):\n    pass\n\n"
        self.assert_fixed(HEADER + before + MAIN, HEADER + before.replace("'x' 'y'", '"xy"') + MAIN)

    def test_strings_that_are_left(self) -> None:
        self.assert_bodies_left("x = b'a'", "x = b'a' b'b'", "x = '\\x00'", "x = '\\u202e'", "x = '\\ud800'")

    def test_numbers(self) -> None:
        self.assert_body("x = 0xFF + 0b1 - 00", "x = 255 + 1 - 0")
        self.assert_body("x = 0x10if a == 0xF else 2", "if a == 15:\n    x = 16\nelse:\n    x = 2")
        self.assert_bodies_left("x = 1.5", "x = 0j", "x = 0x" + "F" * 1000)

    def test_formats(self) -> None:
        self.assert_body('return f"{a} of {b!s}"', 'return str(a) + " of " + str(b)')
        self.assert_body('return f"{a}:" * 2', 'return (str(a) + ":") * 2')
        self.assert_body('return f""', 'return ""')
        self.assert_bodies_left('return f"{a:3}"', 'return f"{a!r}"', 'return f"{a=}"', 'return f"{a!a}"')
        self.assert_left(HEADER + 'class Enum:\n    pass\ndef f(a):\n    return f"{a}"\n' + MAIN)
        self.assert_left(HEADER + 'class A:\n    def __format__(self, how):\n        pass\ndef f(a):\n    return f"{a}"\n' + MAIN)
        self.assert_left(HEADER + 'def f(str):\n    return f"{str}"\n' + MAIN)

    def test_lines(self) -> None:
        self.assert_body("x = 1; y = 2;  # why", "x = 1\ny = 2  # why")
        self.assert_body("if a: return b\nelse: x = 1; y = 2", "if a:\n    return b\nelse:\n    x = 1\n    y = 2")
        self.assert_body("x = a + \\\n    b", "x = (a +\n    b)")
        self.assert_body("assert a, \\\n    b", "assert a, b")
        self.assert_body("x = g(a, \\\n    b)", "x = g(a,\n    b)")
        self.assert_body("x = \\\n    b", "x = b")

    def test_random_values(self) -> None:
        source = random.Random(11)
        texts = []
        for _ in range(12):
            three = [source.choice(SPELLINGS) for _ in range(3)]
            lines = [f"    print({three[0]}, {three[1]}); n = {three[2]}"]
            lines += [f"    for s in 'ab': print(s + {source.choice(SPELLINGS[:12])}); print(s)"]
            lines += [f"    if {source.choice(SPELLINGS)}: print(1)\n    elif n: print(2); print(n)"]
            lines += [f"    print(n, \\\n      [{source.choice(SPELLINGS)}, \\\n 1], 'x' \\\n 'y')"]
            texts.append(HEADER + "def main():\n" + "\n".join(lines) + "\n\nmain()\n")
        self.assert_alike(texts, 12)

    def test_random_formats(self) -> None:
        source = random.Random(12)
        texts = []
        for _ in range(12):
            parts = ["".join(source.choice(PARTS) for _ in range(3)) for _ in range(3)]
            lines = [f'    print(f"{parts[0]}", f"{parts[1]}" * 2, len(f"{parts[2]}" \'+\'))']
            body = "def show(n, s):\n" + "\n".join(lines)
            texts.append(HEADER + body + "\n\ndef main():\n    show(3, 'x')\n    show([1], None)\n\nmain()\n")
        self.assert_alike(texts, 12)
