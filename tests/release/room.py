"""Shared parts of the tests of the shipped programs: copies of the tree as a clone has them, an environment of few
tools,
and the commands that run there."""
from __future__ import annotations

import contextlib
import gzip
import hashlib
import os
import shutil
import stat
import subprocess
import tempfile
import unittest
from pathlib import Path
from typing import Any, Dict, Iterator, List, Optional, Sequence, Tuple

ROOT = Path(__file__).resolve().parents[2]
# All tools that the shipped programs need: a shell, gzip, the sums, find, grep, and the small tools of every system
TOOLS = "sh gzip sha256sum find grep uname mktemp chmod mv rm mkdir dirname readlink id cat".split()
# The further tools that the building and writing tools need
MORE_TOOLS = "touch cp cmp basename env bash tee sed wc tail".split()
# The parts of the tree that the commands need
PARTS = (
    "HANDLES", "LICENSE", "README.md", "CHANGELOG.md", "crates.txt", "pycheck", "pycheck_server", "pyrun",
    "test", ".ci", "action.yml", ".pre-commit-hooks.yaml", "pyproject.toml", "crates/pycheck",
    "crates/pycheck_server", "crates/pyrun",
    "cookbook", "crates/pc_commands", "docs", "examples", "include", "release", "tools", "web",
)
NOT_IN_CLONES = {".git", "out", "__pycache__"}
# Seconds until a command is stopped, since a wrong program could let the tests hang
LIMIT = 120
SHIPPED = ("PROGRAMS", "README.md", "SHA256SUMS")
# The shipped programs by name
PROGRAMS = (ROOT / "release" / "PROGRAMS").read_text(encoding="ascii").split()
Done = subprocess.CompletedProcess


def files_of(parts: Sequence[str]) -> Iterator[Path]:
    """Yields the files that a clone has in these parts of the tree: all but those that were built, unpacked or kept by
    Python."""
    for part in parts:
        if (ROOT / part).is_file():
            yield ROOT / part
        for at, folders, names in os.walk(ROOT / part):
            folders[:] = sorted(set(folders) - NOT_IN_CLONES)
            for name in sorted(names):
                if part != "release" or name in SHIPPED or name.endswith(".gz"):
                    yield Path(at, name)


def nobody() -> Optional[List[str]]:
    """Returns the words that start a command as a user who may not write everywhere: none if this user is one, and None
    if that is not possible."""
    if os.geteuid() != 0:
        return []
    words = [shutil.which("setpriv") or "setpriv", "--reuid=65534", "--regid=65534", "--clear-groups"]
    with contextlib.suppress(OSError):
        if subprocess.run([*words, "true"], capture_output=True, check=False).returncode == 0:
            return words
    return None


def run(words: Sequence[object], cwd: Path, environment: Dict[str, str], **how: Any) -> "Done[str]":
    """Runs a command, and reads its two outputs as text unless `how` says otherwise."""
    streams: Dict[str, Any] = {"stdin": subprocess.DEVNULL, "stdout": subprocess.PIPE, "stderr": subprocess.PIPE, **how}
    if "input" in how:
        del streams["stdin"]
    given = [str(it) for it in words]
    return subprocess.run(given, cwd=cwd, env=environment, text=True, timeout=LIMIT, check=False, **streams)


class RoomCase(unittest.TestCase):
    """A test with a folder of its own, `room`, and in it a clone and the folder of the few tools."""

    def setUp(self) -> None:
        self.room = Path(tempfile.mkdtemp(prefix="pycheck-release-"))
        self.addCleanup(self.remove_room)
        self.room.chmod(0o755)
        self.clone = self.copy_tree("clone")
        self.few = self.folder_of_tools("few", TOOLS)

    def remove_room(self) -> None:
        """Removes the room, even if a test took rights away."""
        for at, _, _ in os.walk(self.room):
            with contextlib.suppress(OSError):
                os.chmod(at, 0o755)
        shutil.rmtree(self.room)

    def copy_tree(self, name: str) -> Path:
        """Makes a clone of the tree in the room."""
        clone = self.room / name
        for file in files_of(PARTS):
            to = clone / file.relative_to(ROOT)
            to.parent.mkdir(parents=True, exist_ok=True)
            shutil.copyfile(file, to)
            to.chmod(0o755 if file.stat().st_mode & stat.S_IXUSR else 0o644)
        return clone

    def folder_of_tools(self, name: str, tools: Sequence[str]) -> Path:
        """Makes a folder with links to these tools alone."""
        folder = self.room / name
        folder.mkdir()
        for tool in tools:
            found = shutil.which(tool)
            self.assertIsNotNone(found, f"{tool} is not on PATH")
            (folder / tool).symlink_to(str(found))
        return folder

    def put_tool(self, name: str, text: str) -> None:
        """Puts a shell script among the few tools, replacing the tool of that name."""
        path = self.few / name
        path.unlink(missing_ok=True)
        path.write_text("#!/bin/sh\n" + text, encoding="utf-8")
        path.chmod(0o755)

    def run_few(self, *words: object, user: Sequence[str] = (), cwd: Optional[Path] = None,
                more: Optional[Dict[str, str]] = None) -> "Done[str]":
        """Runs a command with the few tools on PATH, and an environment of PATH and `more` alone."""
        return run([*user, *words], cwd or self.clone, {"PATH": str(self.few), **(more or {})})

    def ship(self, name: str, program: bytes) -> None:
        """Ships another program in the clone, with its sum."""
        release = self.clone / "release"
        (release / f"{name}.gz").write_bytes(gzip.compress(program, mtime=0))
        sums = (release / "SHA256SUMS").read_text(encoding="ascii").splitlines()
        kept = [it for it in sums if it.split()[1] != name]
        lines = sorted([*kept, f"{hashlib.sha256(program).hexdigest()}  {name}"])
        (release / "SHA256SUMS").write_text("".join(f"{it}\n" for it in lines), encoding="ascii")

    def shipped(self, name: str) -> bytes:
        """Returns the shipped program, unpacked."""
        return gzip.decompress((self.clone / "release" / f"{name}.gz").read_bytes())

    def put_built(self, name: str, program: bytes) -> Path:
        """Puts a program where the toolchain would have built it, newer than all sources."""
        path = self.clone / "crates" / name / "out" / name
        path.parent.mkdir(exist_ok=True)
        path.write_bytes(program)
        path.chmod(0o755)
        return path

    def require_nobody(self) -> List[str]:
        """Returns the words for a user who may not write everywhere, or skips the test."""
        words = nobody()
        if words is None:
            self.skipTest("this user is root, and setpriv cannot start a command as nobody")
        return words

    def assert_answer(self, done: "Done[str]", status: int, output: str) -> None:
        """Asserts that the command ended with this status and output, and printed no errors."""
        self.assertEqual((done.stderr, done.returncode, done.stdout), ("", status, output))

    def assert_not_run(self, done: "Done[str]", *told: str) -> None:
        """Asserts that the command ended with status 3, printed nothing, and gave a reason with these words."""
        self.assertEqual((done.returncode, done.stdout), (3, ""), done.stderr)
        for words in told:
            self.assertIn(words, done.stderr)


def report_of(module: Path) -> Tuple[int, str]:
    """Returns the exit status and the report beside an example."""
    report = module.with_suffix(".txt").read_text(encoding="utf-8")
    return (0 if report.splitlines()[-1].startswith("errors 0,") else 1), report
