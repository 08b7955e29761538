"""Tests tools/attack fail_memory, over programs whose requests for memory fail."""
from __future__ import annotations

import shutil
import subprocess
import tempfile
import unittest
from pathlib import Path
from typing import Tuple

from room import CLEAN, Case

class FailMemory(Case):
    """tools/attack fail_memory, over programs whose requests for memory fail."""

    PROGRAM = r"""
#include <stdlib.h>
#include <string.h>
#include <unistd.h>

static int say(int to, const char *text, int status) {
  return write(to, text, strlen(text)) < 0 ? 9 : status;
}

int main(int count, char **words) {
  const char *kind = strrchr(words[0], '/');
  if (!malloc(10)) return say(2, "out of memory\n", 3);
  if (strstr(kind, "printing")) say(1, "errors", 0);
  if (!malloc(20)) return say(2, strstr(kind, "silent") ? "no memory\n" : "out of memory\n", 3);
  if (!malloc(30)) return say(2, "out of memory\n", strstr(kind, "status") ? 1 : 3);
  return say(1, strstr(kind, "printing") ? " 0, dynamic 0\n" : "errors 0, dynamic 0\n", 0);
}
"""

    @classmethod
    def setUpClass(cls) -> None:
        if shutil.which("cc") is None:
            raise unittest.SkipTest("there is no C compiler cc")
        folder = tempfile.TemporaryDirectory()
        cls.addClassCleanup(folder.cleanup)
        cls.built = Path(folder.name) / "built"
        (Path(folder.name) / "program.c").write_text(cls.PROGRAM, encoding="utf-8")
        subprocess.run(["cc", "-O0", "-o", str(cls.built), f"{folder.name}/program.c"], check=True)

    def words(self, kind: str) -> Tuple[str, ...]:
        """Returns the words that try a program of this kind over a module."""
        shutil.copy(self.built, self.room / kind)
        self.write("modules/a.py", "")
        self.write("modules/a.txt", CLEAN)
        return "attack fail_memory", "--native", str(self.room / kind), str(self.room / "modules")

    def test_passes(self) -> None:
        said = self.passes(*self.words("well"))
        self.assertIn("2 commands, at most 3 requests, 6 made to fail, 14 answers agree, 0 differ", said)

    def test_another_text(self) -> None:
        self.fails("request 2 fails: wanted", *self.words("silent"))

    def test_something_printed(self) -> None:
        self.fails("request 2 fails: wanted", *self.words("printing"))

    def test_another_status(self) -> None:
        self.fails("request 3 fails: wanted", *self.words("status"))

    def test_nothing_compared(self) -> None:
        (self.room / "empty").mkdir()
        self.fails("0 commands", *self.words("well")[:-1], str(self.room / "empty"))
