"""Tests tests/memory/run."""
from __future__ import annotations

import subprocess

from room import PYTHON, ROOT, Case

class Memory(Case):
    """tests/memory/run."""

    def test_no_program(self) -> None:
        words = *PYTHON, str(ROOT / "tests/memory/run"), str(self.room / "gone"), str(self.room / "gone")
        done = subprocess.run(words, capture_output=True, text=True, timeout=60)
        self.assertEqual(done.returncode, 3)
        self.assertIn("there is no program", done.stderr)
