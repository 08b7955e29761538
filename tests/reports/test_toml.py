"""The reader of TOML, compared with that of Python if it has one."""
from __future__ import annotations

import importlib
import importlib.util
import random
import unittest
from typing import Any, Iterator

from pycheck_all import toml

HAS_OTHER = importlib.util.find_spec("tomllib") is not None
PATH = ("tool", "pycheck")
RIGHT = (
    "",
    '[tool.pycheck]\ncore = ["a", "b"]\n',
    'tool.pycheck.core = ["a"]',
    '[tool]\npycheck = {core = ["a"], "output"="x", a.b = 1, a.c = 2}\n',
    'tool = {pycheck = {core = ["""a\n\\\n  b"""", "", """"""]}}',
    '[x]\na = """\n[tool.pycheck]\ncore = 1\n"""\n[tool.pycheck] # x\n"core" = [ # c\n "a", # d\n \'b\\c\',\n]\n',
    "[tool.pycheck.sub]\n",
    "[ tool . \"pycheck\" ]\nexclude = ['''a'b''''', '''\nx\n''']",
    "[[tool.x]]\na = 1979-05-27 07:32:00\nb = -1e+5\nc = 07:32:00.5\nd = inf\n"
    '[tool.pycheck]\nbaseline = "\\u00e9\\U0001F600"\n',
    '[tool.pycheck]\r\ncore = ["a"]\r\n[tool.pycheck.x]\r\ny = [[1, [2]], {}]\r\n',
    '[tool.pycheck]\na.b = true\na.c = "x\\t\\"\\\\"\n',
    'tool.pycheck.core = ["a"]\n[tool.other]\n[toolx.pycheck]\ncore = 1\n',
)
WRONG = ("[tool.pycheck", "a", "a =", "a = [1", 'a = "x', 'a = "\\q"', 'a = "\\ud800"', "a = 'x\ny'", "a = {b = 1",
         "a = {b = 1, b = 2}",
         "[tool.pycheck]\n[tool.pycheck]\n", "[tool.pycheck]\na = 1\na = 2\n", "[tool.pycheck]\na = 1 b = 2", "= 1",
         "[]", '"""a""" = 1', "a = [1 2]", "[tool.pycheck]\na = 1\na.b = 2")
PIECES = ["[", "]", "{", "}", ",", "=", ".", "\n", " ", '"', "'", '"""', "'''", "#", "\\", "a", "tool", "pycheck",
          "core", "1", "true", "[tool.pycheck]\n", 'core = ["a"]\n', 'x = "y"\n', "\\u0041", "\r\n"]


def plain(value: Any) -> Any:
    """Returns a value of either reader with its numbers, truth values and times in one form."""
    if isinstance(value, dict):
        return {key: plain(it) for key, it in value.items()}
    if isinstance(value, list):
        return [plain(it) for it in value]
    return value if isinstance(value, str) or value is None else None


class Toml(unittest.TestCase):
    """The values of the table, and texts that are not TOML."""

    def test_wrong_texts(self) -> None:
        for text in WRONG:
            with self.subTest(text), self.assertRaisesRegex(toml.NoToml, r"^line \d+: "):
                toml.table_of(text, PATH)

    def test_a_path_that_is_not_there(self) -> None:
        self.assertIsNone(toml.table_of("[tool]\nx = 1\n", PATH))
        self.assertEqual(toml.table_of("[tool.pycheck]\n", PATH), {})

    def test_numbers_and_times_are_as_they_are_written(self) -> None:
        table = toml.table_of("[tool.pycheck]\na = 1_000\nb = 1979-05-27 07:32:00Z # x\n", PATH)
        self.assertEqual(table, {"a": toml.Other("1_000"), "b": toml.Other("1979-05-27 07:32:00Z")})

    def texts(self) -> Iterator[str]:
        """Yields texts by hand, and random ones."""
        yield from RIGHT
        chance = random.Random(1)
        for _ in range(3000):
            yield "".join(chance.choice(PIECES) for _ in range(chance.randint(1, 14)))
        for text in RIGHT:
            for at in range(len(text)):
                yield text[:at] + text[at + 1 :]

    @unittest.skipUnless(HAS_OTHER, "this Python has no tomllib")
    def test_as_python_reads_it(self) -> None:
        other = importlib.import_module("tomllib")
        read = 0
        for text in self.texts():
            try:
                whole = other.loads(text)
            except (other.TOMLDecodeError, RecursionError):
                continue
            table = whole.get("tool", {}) if isinstance(whole.get("tool"), dict) else {}
            wanted = table.get("pycheck")
            read += 1
            if isinstance(wanted, (dict, list, str)) or wanted is None:
                self.assertEqual(plain(toml.table_of(text, PATH)), plain(wanted), text)
        self.assertGreater(read, 300)
