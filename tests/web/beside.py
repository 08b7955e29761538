"""Shared parts of the tests: the program that everything is compared with, the modules that both check, and the
tools."""
from __future__ import annotations

import importlib.machinery
import os
import random
import shutil
import subprocess
import sys
import tempfile
import types
import unittest
from pathlib import Path
from typing import Any, List, Sequence, Tuple

ROOT = Path(__file__).resolve().parents[2]
WEB = ROOT / "web"
EXAMPLES = sorted((ROOT / "examples").rglob("*.py"))
# The words for each form and format of a report, and for each form of a listing of types
FORMS = ((), ("--format", "1"), ("--json",), ("--json", "--format=1"), ("--types",), ("--types", "--json"))
MEMORY64 = "--experimental-wasm-memory64"
# More modules, made at random, the same each time
MADE = 300
LIMIT = 600
Done = subprocess.CompletedProcess


def run(*words: object, **how: Any) -> "Done[bytes]":
    """Runs a command."""
    return subprocess.run([str(it) for it in words], capture_output=True, timeout=LIMIT, **how)


def program(*words: object, **how: Any) -> Tuple[int, bytes, bytes]:
    """Returns the status of the program for these words, and its output and error output."""
    done = run(os.environ["PYCHECK"], *words, **how)
    return done.returncode, done.stdout, done.stderr


def library_of(tool: str) -> Any:
    """Returns a tool of tools/, as a library."""
    loader = importlib.machinery.SourceFileLoader(tool, str(ROOT / "tools" / tool))
    made = types.ModuleType(tool)
    made.__file__ = loader.path
    loader.exec_module(made)
    return made


def made_modules() -> List[bytes]:
    """Returns modules that are made at random: as the grammar has them, changed in words, and broken."""
    sys.path.insert(0, str(ROOT / "tools"))
    maker, found = importlib.import_module("pycheck_tools.attack.fuzz"), []
    for number in range(MADE):
        rng = random.Random(f"web/{number}")
        kind = ("as made", "alike", "broken")[number % 3]
        found.append(bytes(maker.KINDS[kind](maker.made_module(rng), rng)))
    return found


def nearly_utf8() -> List[bytes]:
    """Returns comments with characters of each length, and mostly a byte that makes them no UTF-8, at random places."""
    found = []
    for number in range(100):
        rng = random.Random(f"utf8/{number}")
        letters = (0x61, 0xE9, 0x7FF, 0x800, 0x20AC, 0xD7FF, 0xE000, 0xFFFD, 0x10000, 0x1F40D, 0x10FFFF)
        data = bytearray(("#" + "".join(chr(rng.choice(letters)) for _ in range(rng.randint(1, 300)))).encode())
        if number % 4:
            data[rng.randrange(1, len(data))] = rng.choice((0x61, 0x80, 0xBF, 0xC0, 0xC2, 0xE0, 0xED, 0xF0, 0xF4, 0xF5, 0xFF))
        found.append(bytes(data))
    return found


def large_module(size: int) -> bytes:
    """Returns a module of nearly `size` bytes, with many findings."""
    rows = ["from __future__ import annotations"]
    body = "def f{0}(a: list[int], b):\n    c = a[0] + b\n    if c is None:\n        return 1\n    return len(a) + \"x\"\n"
    length, number = 0, 0
    while length < size:
        rows.append(body.format(number))
        length += len(rows[-1]) + 1
        number += 1
    return ("\n".join(rows) + "\ndef main():\n    print(f0([1], 2))\nmain()\n").encode()


class RoomCase(unittest.TestCase):
    """A test with a folder of its own."""

    def setUp(self) -> None:
        self.room = Path(tempfile.mkdtemp(prefix="web-"))
        self.addCleanup(shutil.rmtree, self.room)

    def need(self, *tools: str) -> str:
        """Returns the first of these tools that exists, or skips the test."""
        for tool in tools:
            found = shutil.which(tool)
            if found:
                return found
        return self.skipTest(f"{tools[0]} is not there")

    def need_node(self) -> List[str]:
        """Returns the words that start Node with the module's addresses, or skips the test."""
        node = self.need("node")
        probe = "process.exit(WebAssembly.validate(new Uint8Array([0,97,115,109,1,0,0,0,5,3,1,4,1])) ? 0 : 1)"
        for words in ([node], [node, MEMORY64, "--no-warnings"]):
            if run(*words, "-e", probe).returncode == 0:
                return words
        return self.skipTest("this version of node has no addresses of 64 bits")

    def files(self, texts: Sequence[bytes]) -> List[Path]:
        """Writes these texts into files of the room."""
        found = []
        for number, text in enumerate(texts):
            found.append(self.room / f"m{number}.py")
            found[-1].write_bytes(text)
        return found
