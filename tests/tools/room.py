"""Shared parts of the tests of the tools: a folder for each test, the programs in it, and the tools as commands and as
libraries."""
from __future__ import annotations

import importlib
import os
import shutil
import subprocess
import sys
import tempfile
import unittest
from pathlib import Path
from types import ModuleType
from typing import Any, Dict, Optional, Tuple

ROOT = Path(__file__).resolve().parent.parent.parent
TOOLS = ROOT / "tools"
CLEAN = "errors 0, dynamic 0\n"
FAMILIES = [("S", 5, 1), ("L", 8, 1), ("I", 3, 1), ("N", 5, 1), ("G", 2, 1), ("E", 31, 2), ("A", 8, 1)]
# The interpreter that runs this, started without anything beside the standard library
PYTHON = sys.executable, "-I", "-S", "-B"
CODES = [f"{letter}{number:0{digits}}" for letter, last, digits in FAMILIES for number in range(1, last + 1)]


def tool(name: str, folder: Path = TOOLS) -> ModuleType:
    """Imports a module of the package pycheck_tools in a folder, which then uses the files beside that folder."""
    for loaded in [it for it in sys.modules if it.split(".")[0] == "pycheck_tools"]:
        del sys.modules[loaded]
    importlib.invalidate_caches()
    sys.path.insert(0, str(folder))
    try:
        return importlib.import_module(f"pycheck_tools.{name}")
    finally:
        sys.path.remove(str(folder))


class Case(unittest.TestCase):
    """A test with a folder of its own, which is removed again."""

    def setUp(self) -> None:
        folder = tempfile.TemporaryDirectory()
        self.addCleanup(folder.cleanup)
        self.room = Path(folder.name)

    def write(self, path: str, text: str) -> str:
        """Writes a file below the folder, with the folders above it."""
        file = self.room / path
        file.parent.mkdir(parents=True, exist_ok=True)
        file.write_text(text, encoding="utf-8")
        return str(file)

    def program(self, path: str, body: str, shell: str = "/bin/sh") -> str:
        """Writes a program of these lines."""
        file = self.write(path, f"#!{shell}\n{body}")
        os.chmod(file, 0o755)
        return file

    def python(self, path: str, body: str) -> str:
        """Writes a program of these lines of Python."""
        return self.program(path, body, f"{sys.executable} -ISB")

    def answering(self, text: str, status: int = 0) -> str:
        """Writes a program that answers this to any file, and returns its path."""
        return self.program("answering", f"cat <<'END'\n{text}END\nexit {status}\n")

    def copied(self) -> None:
        """Copies the tools into the folder tools/ of the test's own, so that they use the files beside it."""
        shutil.copytree(TOOLS, self.room / "tools", ignore=shutil.ignore_patterns("__pycache__"), dirs_exist_ok=True)

    def ran(self, name: str, *words: str, own: bool = False, env: Optional[Dict[str, str]] = None,
            given: str = "") -> Tuple[int, str]:
        """Runs a tool, which is a command and its first word, or the test's own copy of it. Returns the exit status and
        the output."""
        command, *first = name.split()
        file = (self.room if own else ROOT) / "tools" / command
        done = subprocess.run([*PYTHON, str(file), *first, *words], cwd=self.room, env={**os.environ, **(env or {})},
                              input=given, text=True, stdout=subprocess.PIPE, stderr=subprocess.STDOUT, timeout=60)
        return done.returncode, done.stdout

    def passes(self, *words: Any, **named: Any) -> str:
        """Runs a tool that must pass, and returns its output."""
        status, said = self.ran(*words, **named)
        self.assertEqual(status, 0, said)
        return said

    def fails(self, why: str, *words: Any, **named: Any) -> None:
        """Runs a tool that must fail with status 1, and print this."""
        status, said = self.ran(*words, **named)
        self.assertEqual(status, 1, said)
        self.assertIn(why, said)
