"""Fixed modules, run by pyrun and by Python: the same places in the same order, and the same end."""
from __future__ import annotations

import random
from typing import Sequence

import test_fix_cookbook
import test_fix_places
import test_fix_statements
import test_fix_strings
import test_fix_tuples
from fix_support import FixTest
from support import HEADER

from pycheck_all import program
from pycheck_tools.compare import python, python_runs

MORE_PLACES = 50


class Runs(FixTest):
    """Modules with the lines of the tests of the rewrites."""

    def setUp(self) -> None:
        super().setUp()
        try:
            python.PYRUN = program.chosen("", "pyrun", "PYRUN")
        except program.NoProgram as fault:
            self.skipTest(str(fault))

    def assert_alike_in_the_model(self, texts: Sequence[str], least: int) -> None:
        """Asserts that both run each fixed module alike, except for the differences that the page names, and that at
        least this many of them are then modules of the profile."""
        compared = 0
        for text in texts:
            fixed = self.fixed(text)
            self.assertNotEqual(fixed, text)
            events, end = python.model_run(fixed.encode())
            if events is not None:
                run = python_runs.run_of(fixed.encode(), len(events) + MORE_PLACES)
                kinds, fault = python.difference(fixed.encode(), events, end, run)
                self.assertEqual(fault, "", f"{kinds}\n{text}\n-----\n{fixed}")
                compared += 1
        self.assertGreaterEqual(compared, least)

    def test_statements(self) -> None:
        source = random.Random(61)
        lines = test_fix_statements.LINES
        texts = ["\n".join(source.sample(lines, 3)) for _ in range(8)]
        self.assert_alike_in_the_model([test_fix_statements.module(it) for it in texts], 6)

    def test_places(self) -> None:
        source = random.Random(62)
        lines = test_fix_places.LINES
        texts = ["\n    ".join(source.sample(lines, 3)) for _ in range(8)]
        self.assert_alike_in_the_model([test_fix_places.module(it, "self.count -= n") for it in texts], 8)

    def test_tuples(self) -> None:
        lines = [it for it, _ in [*test_fix_tuples.TOLD, *test_fix_tuples.BY_REPORT]]
        texts = [test_fix_tuples.module(it) for it in lines]
        self.assert_alike_in_the_model(texts, len(texts))

    def test_calls(self) -> None:
        lines = [f"print({it})" for it, _ in test_fix_cookbook.CALLS]
        texts = [test_fix_cookbook.FRAME.format("\n    ".join(lines[at::4])) for at in range(4)]
        self.assert_alike_in_the_model(texts, 3)

    def test_strings(self) -> None:
        source = random.Random(63)
        texts = []
        for _ in range(4):
            parts = [f"print({it})" for it in source.sample(test_fix_strings.SPELLINGS, 4)]
            format_of = "".join(source.choice(test_fix_strings.PARTS[:4]) for _ in range(3))
            lines = ["; ".join(parts), f'print(f"{format_of}")', 'for s in "ab": print(s); print(n)']
            body = "def show(n, s):\n" + "\n".join(f"    {it}" for it in lines)
            texts.append(HEADER + body + "\n\ndef main():\n    show(3, 'x')\n\nmain()\n")
        self.assert_alike_in_the_model(texts, 4)
