"""Tests tests/depth/run."""
from __future__ import annotations

import subprocess

from room import PYTHON, ROOT, Case

class Depth(Case):
    """tests/depth/run."""

    def run_with(self, program: str) -> "subprocess.CompletedProcess[str]":
        """Runs the test over a program."""
        words = *PYTHON, str(ROOT / "tests/depth/run"), program
        return subprocess.run(words, capture_output=True, text=True, timeout=60)

    def test_no_program(self) -> None:
        done = self.run_with(str(self.room / "gone"))
        self.assertEqual(done.returncode, 3)
        self.assertIn("there is no program", done.stderr)

    def test_runs_that_are_not_cut(self) -> None:
        done = self.run_with("/bin/true")
        self.assertEqual(done.returncode, 1)
        self.assertEqual(done.stdout.splitlines()[-1], "0 passed, 63 failed")
