"""The tree as pip installs it: with its own build backend, without an index."""
from __future__ import annotations

import importlib.util
import os
import shutil
import sys
from pathlib import Path
from typing import Dict

from room import ROOT, Done, RoomCase, report_of, run

BACKEND = """\
import sys
sys.path.insert(0, "tools/shipping")
import pycheck_backend as backend
print(backend.get_requires_for_build_wheel())
print(backend.build_wheel(sys.argv[1]))
try:
    backend.build_sdist(sys.argv[1])
except backend.UnsupportedOperation as fault:
    print(fault)
"""


class Tree(RoomCase):
    """A clone that is given to pip."""

    def setUp(self) -> None:
        super().setUp()
        self.site = self.room / "site"
        self.environment: Dict[str, str] = {
            "PATH": os.environ["PATH"], "HOME": str(self.room), "PYTHONPATH": str(self.site), "LC_ALL": "C.UTF-8"}

    def install(self, what: str) -> "Done[str]":
        """Makes pip install something into a folder, without an index and without other packages."""
        if importlib.util.find_spec("pip") is None:
            self.skipTest("python3 has no pip: on Debian it is in the package python3-pip")
        words = [sys.executable, "-m", "pip", "install", "--no-index", "--no-deps", "--disable-pip-version-check"]
        return run([*words, "--target", self.site, what], self.room, self.environment)

    def assert_installed(self, done: "Done[str]") -> None:
        """Asserts that the commands exist, and check."""
        self.assertEqual(done.returncode, 0, done.stdout + done.stderr)
        module = ROOT / "examples" / "ages.py"
        status, report = report_of(module)
        self.assert_answer(run([self.site / "bin" / "pycheck", module], self.room, self.environment), status, report)
        for words in ([self.site / "bin" / "pycheck-all"], [sys.executable, "-m", "pycheck_all"]):
            found = run([*words, module], self.room, self.environment)
            self.assertEqual((found.returncode, found.stderr), (1, ""))
            said = "ages.py:4:12: E12 flow: cannot return int | None from age_of, which returns int"
            self.assertIn(said, found.stdout)

    def test_a_folder(self) -> None:
        self.assert_installed(self.install(str(self.clone)))

    def test_a_repository(self) -> None:
        if shutil.which("git") is None:
            self.skipTest("git is not there")
        who = ["-c", "user.name=A", "-c", "user.email=a@b"]
        for words in (["init", "-q"], ["add", "-A"], [*who, "commit", "-q", "-m", "all"]):
            done = run(["git", *words], self.clone, self.environment)
            self.assertEqual(done.returncode, 0, done.stderr)
        self.assert_installed(self.install(f"git+{self.clone.as_uri()}"))

    def test_a_broken_program_is_told(self) -> None:
        (self.clone / "release" / "pyrun.gz").write_bytes(b"broken")
        done = self.install(str(self.clone))
        self.assertNotEqual(done.returncode, 0)
        self.assertIn("tools/wheel: release/pyrun.gz is broken", done.stdout + done.stderr)
        self.assertFalse(self.site.exists())

    def test_the_backend_gives_the_wheel_of_the_tool(self) -> None:
        first, second = self.room / "first", self.room / "second"
        first.mkdir()
        done = run([sys.executable, "-c", BACKEND, first], self.clone, self.environment)
        self.assertEqual(done.returncode, 0, done.stderr)
        lines = done.stdout.splitlines()
        said = "there is no archive of the sources: take a clone of the repository"
        self.assertEqual((lines[0], lines[2:]), ("[]", [said]))
        done = run([sys.executable, "-B", self.clone / "tools" / "wheel", second], self.room, self.environment)
        path = Path(done.stdout.rstrip("\n"))
        self.assertEqual(path.name, lines[1])
        self.assertEqual((first / lines[1]).read_bytes(), path.read_bytes())
