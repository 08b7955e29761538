"""The option --watch: the output after a change."""
from __future__ import annotations

import select
import signal
import subprocess
import sys
from typing import IO, List

from support import CLEAN, COMMAND, ERROR, OPERATOR, Test, variables

SECONDS = 60


class Watching(Test):
    """A run that continues, in the folder of the test."""

    def start(self, *words: str) -> "subprocess.Popen[bytes]":
        """Starts a run."""
        process = subprocess.Popen(
            [sys.executable, str(COMMAND), "--watch", *words],
            cwd=self.folder,
            env=variables({}),
            stdin=subprocess.DEVNULL,
            stdout=subprocess.PIPE,
            stderr=subprocess.STDOUT,
            bufsize=0,
        )
        self.addCleanup(self.end, process)
        return process

    def end(self, process: "subprocess.Popen[bytes]") -> int:
        """Interrupts a run, and returns its status."""
        if process.poll() is None:
            process.send_signal(signal.SIGINT)
        status = process.wait(SECONDS)
        if process.stdout:
            process.stdout.close()
        return status

    def said(self, process: "subprocess.Popen[bytes]") -> List[str]:
        """Returns the output of one round: the lines up to an empty one."""
        assert process.stdout
        lines: List[str] = []
        while not lines or lines[-1]:
            lines.append(self.line_of(process.stdout))
        return lines[:-1]

    def line_of(self, output: "IO[bytes]") -> str:
        """Reads a line, which must come in time."""
        self.assertTrue(select.select([output], [], [], SECONDS)[0], "nothing was printed")
        line = output.readline()
        self.assertTrue(line.endswith(b"\n"), line)
        return line.decode()[:-1]

    def test_each_change_is_told(self) -> None:
        self.write("a.py", CLEAN)
        process = self.start()
        self.assertEqual(self.said(process), ["1 file: 0 errors, 0 dynamic places"])
        self.write("a.py", ERROR)
        found = f"a.py:4:11: {OPERATOR}"
        self.assertEqual(self.said(process), [found, "1 file: 1 error, 0 dynamic places"])
        self.write("src/b.py", CLEAN)
        self.assertEqual(self.said(process)[-1], "2 files: 1 error, 0 dynamic places")
        self.write("pyproject.toml", "[tool.pycheck]\nwrong = 1\n")
        self.assertIn("has no key 'wrong'", self.said(process)[0])
        self.write("pyproject.toml", '[tool.pycheck]\ncore = ["src"]\n')
        self.assertEqual(self.said(process), ["1 file: 0 errors, 0 dynamic places, 1 left out as outside the core"])
        (self.folder / "src" / "b.py").unlink()
        self.assertEqual(self.said(process), ["error: no module to check in src"])
        self.write("src/b.py", ERROR)
        self.assertEqual(self.said(process)[0], f"src/b.py:4:11: {OPERATOR}")
        self.assertEqual(self.end(process), 128 + signal.SIGINT)

    def test_a_baseline_that_changes(self) -> None:
        self.write("a.py", ERROR)
        self.write("known.json", '{"format": 1, "known": []}')
        process = self.start("--baseline", "known.json", "a.py")
        self.assertEqual(self.said(process)[-1], "1 file: 1 error, 0 dynamic places")
        self.check("--write-baseline", "known.json", "a.py")
        self.assertEqual(self.said(process), ["1 file: 0 errors, 0 dynamic places, 1 known"])
