"""Tests tests/runner.py: what the runners of tests print, their words, and their exit status."""
from __future__ import annotations

import subprocess
from typing import Tuple

from room import PYTHON, ROOT, Case

RUNNER = f'''import sys
from pathlib import Path
HERE = Path(__file__).resolve().parent
sys.path[:0] = [str(HERE), {str(ROOT / "tests")!r}]
import runner
'''
OF_NAMES = '''words = runner.parser("How to use it.")
words.add_argument("names", nargs="*")
sys.exit(runner.run(runner.tests_in(HERE), words.parse_args().names))
'''
OF_PROGRAMS = '''print(runner.programs("How to use it.", "no_such", "neither", LEAST))
'''
# The body of each test
BODIES = {"passes": "for number in range(2):\n            with self.subTest(number):\n                pass",
          "fails": 'for number in range(2):\n            with self.subTest(number):\n                self.fail(f"number {number}")',
          "breaks": 'raise ValueError("broken")', "skipped": 'self.skipTest("there is no need")'}
TESTS = "import unittest\n\nclass Some(unittest.TestCase):\n" + "".join(
    f"    def test_{name}(self):\n        {body}\n\n" for name, body in BODIES.items())


class Runner(Case):
    """A runner in a folder of its own."""

    def ran_here(self, text: str, *words: str) -> Tuple[int, str, str]:
        """Writes a runner and its tests, and returns its exit status, its output and its error output."""
        self.write("some/test_some.py", TESTS)
        file = self.write("some/run", RUNNER + text)
        done = subprocess.run([*PYTHON, file, *words], capture_output=True, text=True, timeout=60)
        return done.returncode, done.stdout, done.stderr

    def test_each_end_of_a_test(self) -> None:
        status, said, _ = self.ran_here(OF_NAMES)
        self.assertEqual((status, said.splitlines()[-1]), (1, "1 passed, 2 failed, 1 skipped"))
        self.assertIn("skipped test_some.Some.test_skipped: there is no need\n", said)
        self.assertIn("failed test_some.Some.test_breaks\nTraceback ", said)
        self.assertEqual((said.count("failed test_some.Some.test_fails "), said.count("AssertionError: number ")), (2, 2))

    def test_names_choose(self) -> None:
        for names, status, last in ((["test_passes"], 0, "1 passed, 0 failed"), (["Some.test_passes", "skipped"], 0, "1 passed, 0 failed, 1 skipped"),
                                    (["test_breaks"], 1, "0 passed, 1 failed"), (["gone"], 1, "0 passed, 0 failed")):
            with self.subTest(names):
                found = self.ran_here(OF_NAMES, *names)
                self.assertEqual((found[0], found[1].splitlines()[-1]), (status, last))

    def test_programs(self) -> None:
        text = OF_PROGRAMS.replace("LEAST", "least=1")
        self.assertEqual(self.ran_here(text, "/bin/sh"), (0, "['/bin/sh']\n", ""))
        self.assertEqual(self.ran_here(text, "/bin/sh", "/bin/cat"), (0, "['/bin/sh', '/bin/cat']\n", ""))
        missing = ROOT / "crates/no_such/out/no_such"
        self.assertEqual(self.ran_here(text), (3, "", f"there is no program {missing}\n"))
        all_or_none = OF_PROGRAMS.replace("LEAST", "needed=False")
        self.assertEqual(self.ran_here(all_or_none), (0, f"{[str(missing), str(ROOT / 'crates/neither/out/neither')]}\n", ""))

    def test_mistaken_words(self) -> None:
        for text, words in ((OF_PROGRAMS.replace("LEAST", "least=0"), ["/bin/sh"]), (OF_PROGRAMS.replace("LEAST", "least=1"), ["/bin/sh"] * 3),
                            (OF_NAMES, ["--gone"])):
            status, said, error = self.ran_here(text, *words)
            self.assertEqual((status, said), (3, ""))
            self.assertTrue(error.startswith("How to use it.\n\ntests/some/run: "), error)
