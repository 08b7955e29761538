"""Shared parts of the tests: the command, run as a user runs it, and a folder for each test."""
from __future__ import annotations

import os
import pty
import shutil
import subprocess
import sys
import tempfile
import unittest
from pathlib import Path
from typing import Dict, List, NamedTuple, Optional, Sequence, Tuple

HERE = Path(__file__).resolve().parent
ROOT = HERE.parent.parent
COMMAND = ROOT / "tools" / "check_all"
PACKAGE = ROOT / "tools" / "pycheck_all"
MODULES = HERE / "modules"
EXPECTED = HERE / "expected"
HEADER = "from __future__ import annotations\n\n"
CLEAN = HEADER + 'def main():\n    print("hello")\n\nmain()\n'
# An error at line 4, column 11
ERROR = HEADER + 'def main():\n    print(1 + "a")\n\nmain()\n'
# A dynamic place at line 4, column 12
DYNAMIC = HEADER + "def f(x):\n    return x + 1\n\ndef main():\n    print(f(1))\n\nmain()\n"
# What is said of these two
OPERATOR = "E13 operator: int + str is not defined"
ANY_OPERATOR = "A2 any-operator: cannot tell whether Any + int is defined"
# A refusal N2 at line 5, column 11
REFUSED = HEADER + "def main():\n    total = 0\n    total += 1\n    print(total)\n\nmain()\n"


class Done(NamedTuple):
    """A run of the command: its exit status and its outputs."""

    status: int
    output: str
    error: str


def variables(changed: Dict[str, Optional[str]]) -> Dict[str, str]:
    """Returns the variables of a run: those of this process, of a terminal of 100 columns, with some changed or left
    out."""
    plain: Dict[str, Optional[str]] = {
        **os.environ,
        "COLUMNS": "100",
        "TERM": "xterm",
        "NO_COLOR": None,
        "LC_ALL": "C.UTF-8",
    }
    return {name: value for name, value in {**plain, **changed}.items() if value is not None}


class Test(unittest.TestCase):
    """A test with a folder of its own, in which the command runs."""

    maxDiff = None

    def setUp(self) -> None:
        self.folder = Path(tempfile.mkdtemp(prefix="reports-"))
        self.addCleanup(shutil.rmtree, self.folder, ignore_errors=True)

    def write(self, name: str, text: "str | bytes") -> Path:
        """Writes a file into the folder, and the folders that it needs."""
        path = self.folder / name
        path.parent.mkdir(parents=True, exist_ok=True)
        path.write_bytes(text if isinstance(text, bytes) else text.encode())
        return path

    def program(self, lines: str) -> str:
        """Writes a script of the shell that replaces the program, and returns its path. `$file` is the file; `real` runs
        the program itself."""
        before = f'for file; do :; done\nreal() {{ exec "{os.environ["PYCHECK"]}" "$@"; }}'
        path = self.write("stand-in", f"#!/bin/sh\n{before}\n{lines}\n")
        path.chmod(0o755)
        return str(path)

    def check(self, *words: str, given: bytes = b"", **changed: Optional[str]) -> Done:
        """Runs the command with these words, a text as standard input, and some variables changed."""
        return self.checked(words, given, changed)

    def checked(self, words: Sequence[str], given: bytes, changed: Dict[str, Optional[str]]) -> Done:
        """Runs the command with these words, this text as standard input, and variables changed as this says."""
        done = subprocess.run(
            [sys.executable, str(COMMAND), *words],
            cwd=self.folder,
            input=given,
            capture_output=True,
            env=variables(changed),
            timeout=120,
        )
        output, error = (it.decode("utf-8", "surrogateescape") for it in (done.stdout, done.stderr))
        self.assertNotIn("Traceback", error)
        return Done(done.returncode, output, error)

    def lines(self, *words: str, **changed: Optional[str]) -> List[str]:
        """Returns the lines that the command prints."""
        return self.checked(words, b"", changed).output.splitlines()

    def on_terminal(self, *words: str, **changed: Optional[str]) -> Tuple[int, str]:
        """Returns the exit status, and the text of both outputs on a terminal."""
        ours, theirs = pty.openpty()
        process = subprocess.Popen(
            [sys.executable, str(COMMAND), *words],
            cwd=self.folder,
            stdin=subprocess.DEVNULL,
            stdout=theirs,
            stderr=theirs,
            env=variables(changed),
        )
        os.close(theirs)
        parts = []
        while True:
            try:
                part = os.read(ours, 65536)
            except OSError:
                break
            if not part:
                break
            parts.append(part)
        os.close(ours)
        return process.wait(120), b"".join(parts).decode().replace("\r\n", "\n")


def modules(folder: Path) -> None:
    """Puts the modules of the tests into a folder, and a link to itself, which cannot be read."""
    for path in MODULES.glob("*.py"):
        shutil.copyfile(path, folder / path.name)
    (folder / "loop.py").symlink_to("loop.py")
