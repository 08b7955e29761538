"""Shared parts of the tests of the cookbook: the programs, the modules and their functions, and a folder for each
test."""
from __future__ import annotations

import ast
import subprocess
import sys
import tempfile
import unittest
from pathlib import Path
from typing import Dict, List, NamedTuple

from compared import COOKBOOK

ROOT = COOKBOOK.parent
PYCHECK, PYRUN = (str(ROOT / "crates" / name / "out" / name) for name in ("pycheck", "pyrun"))
CLEAN = "errors 0, dynamic 0\n"
MAIN = "def main() -> None:\n"
FUEL = "1000000000"


class Part(NamedTuple):
    """A function or a class of a module: the comment above it, and its lines."""
    comment: str
    source: str


def source_of(name: str) -> str:
    """Returns the text of a module of the cookbook."""
    return (COOKBOOK / name).read_text(encoding="utf-8")


def parts_of(source: str) -> Dict[str, Part]:
    """Returns the functions and classes of a module except main, in their order."""
    lines, found = source.splitlines(), {}
    for node in ast.parse(source).body:
        if isinstance(node, (ast.FunctionDef, ast.ClassDef)) and node.name != "main":
            first = min([node.lineno, *(decorator.lineno for decorator in node.decorator_list)]) - 1
            above = first
            while above and lines[above - 1].startswith("# "):
                above -= 1
            found[node.name] = Part("\n".join(lines[above:first]), "\n".join(lines[first:node.end_lineno]))
    return found


class RoomCase(unittest.TestCase):
    """A test with a folder of its own."""

    def setUp(self) -> None:
        room = tempfile.TemporaryDirectory()
        self.addCleanup(room.cleanup)
        self.room = Path(room.name)

    def write(self, source: str) -> str:
        """Writes a module into the folder, and returns its path."""
        file = self.room / "module.py"
        file.write_text(source, encoding="utf-8")
        return str(file)

    def assert_clean(self, file: str) -> None:
        """Asserts that the report of a file lists nothing."""
        done = subprocess.run([PYCHECK, file], capture_output=True, text=True, timeout=60)
        self.assertEqual((done.returncode, done.stdout, done.stderr), (0, CLEAN, ""), file)

    def with_main(self, source: str, statements: List[str]) -> str:
        """Writes a module of the cookbook with another main."""
        self.assertEqual(source.count(MAIN), 1)
        return self.write(source.split(MAIN)[0] + MAIN + "".join(f"    {line}\n" for line in statements) + "\nmain()\n")

    def end_of_run(self, file: str) -> str:
        """Returns how a run ends by pyrun."""
        done = subprocess.run([PYRUN, "--fuel", FUEL, file], capture_output=True, text=True, timeout=60)
        self.assertEqual((done.returncode, done.stderr), (0, ""))
        return done.stdout.splitlines()[-1]

    def assert_holds(self, source: str, statements: List[str]) -> None:
        """Asserts that with this main a module is clean, and that a run reaches its end, by pyrun and by Python."""
        file = self.with_main(source, statements)
        self.assert_clean(file)
        self.assertEqual(self.end_of_run(file), "end Done")
        done = subprocess.run([sys.executable, "-ISB", file], capture_output=True, text=True, timeout=60)
        self.assertEqual((done.returncode, done.stderr), (0, ""))
