"""Shared parts of the tests of --fix: a module is fixed in this process, and run by Python before and after."""
from __future__ import annotations

import os
import subprocess
import sys
from typing import List, Sequence, Tuple

from support import HEADER, Test

from pycheck_all.fixing import Fixer
from pycheck_all.program import Program

MAIN = "\ndef main():\n    pass\n\nmain()\n"
# Runs modules that follow one another on standard input, and prints how each ends
RUNNER = r"""
import contextlib, io, json, sys
ends = []
for text in json.load(sys.stdin):
    output, end = io.StringIO(), ""
    with contextlib.redirect_stdout(output):
        try:
            exec(compile(text, "module", "exec", dont_inherit=True), {"__name__": "__main__"})
        except Exception as fault:
            end = type(fault).__name__
    ends.append([output.getvalue(), end])
json.dump(ends, sys.stdout)
"""


def runs(texts: Sequence[str]) -> List[Tuple[str, str]]:
    """Runs each module by Python, in a process of its own. Returns its output, and the exception that ends it, if one
    does."""
    import json

    words = [sys.executable, "-I", "-W", "ignore", "-c", RUNNER]
    done = subprocess.run(words, input=json.dumps(list(texts)).encode(), capture_output=True, timeout=60, check=True)
    return [(output, end) for output, end in json.loads(done.stdout)]


class FixTest(Test):
    """A test of rewrites."""

    def setUp(self) -> None:
        super().setUp()
        self.used = Program(os.environ["PYCHECK"])

    def fixed(self, text: str) -> str:
        """Returns the text after it was fixed."""
        return Fixer(self.used, 30).fix(text.encode()).after.decode()

    def made(self, text: str) -> List[str]:
        """Returns the rewrites that are made in a text."""
        return Fixer(self.used, 30).fix(text.encode()).made

    def assert_fixed(self, text: str, wanted: str) -> None:
        """Asserts that a text is rewritten to another one, which then stays as it is."""
        self.assertEqual(self.fixed(text), wanted)
        self.assertEqual(self.fixed(wanted), wanted)

    def assert_body(self, lines: str, wanted: str, before: str = "") -> None:
        """Asserts that lines of a function `f`, in a module with everything else that the profile needs, are rewritten
        to others."""
        frame = HEADER + before + "def f(a, b, c):\n{}\n" + MAIN

        def body(given: str) -> str:
            """Returns the module with these lines."""
            return frame.format("\n".join(f"    {it}" if it else it for it in given.split("\n")))

        self.assert_fixed(body(lines), body(wanted))

    def assert_left(self, *texts: str) -> None:
        """Asserts that texts are left as they are."""
        for text in texts:
            with self.subTest(text):
                self.assertEqual(self.fixed(text), text)

    def assert_bodies_left(self, *bodies: str) -> None:
        """Asserts that lines of a function are left as they are."""
        for lines in bodies:
            with self.subTest(lines):
                self.assert_body(lines, lines)

    def assert_alike(self, texts: Sequence[str], changed: int) -> None:
        """Asserts that Python runs modules alike before and after they are fixed, that at least this many of them are
        changed, and that none is changed once more."""
        after = [self.fixed(it) for it in texts]
        for text, other in zip(texts, after):
            self.assertEqual(self.fixed(other), other)
        self.assertGreaterEqual(sum(a != b for a, b in zip(texts, after)), changed)
        for text, other, old, new in zip(texts, after, runs(texts), runs(after)):
            self.assertEqual(new, old, f"{text}\n-----\n{other}")
