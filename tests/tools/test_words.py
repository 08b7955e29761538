"""Tests how the commands handle their words."""
from __future__ import annotations

import os
import shutil
import subprocess
import unittest
from pathlib import Path
from typing import Iterator

from room import ROOT, Case

MYPY = shutil.which("mypy", path=os.pathsep.join([os.environ.get("PATH", ""), "/usr/bin"]))


class Words(Case):
    """The words of tools/check, tools/measure, tools/attack, tools/compare and tools/ship."""

    def test_several_checks(self) -> None:
        said = self.passes("check", "names", "architecture")
        self.assertRegex(said, r"\Anames:\n\d+ types, .*\narchitecture:\n\d+ crates, .*\n\Z")

    def test_one_of_several_checks_fails(self) -> None:
        self.copied()
        self.write("README.md", "no link\n")
        self.write("crates.txt", "pc_a:\n")
        self.write("docs/ARCHITECTURE.md", "# Page\n\n## The stages\n\n### Low: one\n\n| [pc_a](../crates/pc_a) | a | – |\n")
        self.passes("check", "architecture", "--write", own=True)
        said = "architecture:\n1 crates, 1 stages, 0 faults\npages:\n"
        self.fails(said, "check", "architecture", "pages", own=True)
        self.fails(said, "check", "architecture", "pages", "architecture", own=True)

    def test_mistaken_words(self) -> None:
        for command, words in (("check", ["gone"]), ("check", ["names", "--write"]), ("check", ["--write"]), ("check", ["pages", "--calls"]),
                               ("attack", []), ("attack", ["gone"]), ("attack", ["fuzz"]), ("attack", ["hostile"]),
                               ("compare", ["rows", "pycheck"]), ("compare", ["texts"]), ("compare", ["mypy"]),
                               ("compare", ["types"]),
                               ("measure", ["speed"]), ("measure", ["shapes"]), ("measure", ["crates", "--gone"]),
                               ("architecture", ["--gone"])):
            with self.subTest(command=command, words=words):
                status, said = self.ran(command, *words)
                self.assertEqual(status, 3, said)
                self.assertIn(f"tools/{command}", said)
        self.assertEqual(self.ran("wrong_bodies", "--gone")[0], 2)

    def test_help(self) -> None:
        for name in ("check", "attack", "attack fuzz", "compare rows", "measure speed", "wrong_bodies"):
            self.assertIn(f"    tools/{name} ", self.passes(name, "--help"))

    def test_words_of_ship_web_and_wheel(self) -> None:
        for words in (["ship", "web", "--gone"], ["ship", "web", "a"], ["wheel"], ["wheel", "--gone"], ["wheel", "a", "b"]):
            done = subprocess.run([ROOT / "tools" / words[0], *words[1:]], capture_output=True, text=True)
            self.assertEqual((done.returncode, done.stdout), (3, ""), words)
            self.assertIn(f"\ntools/{' '.join(words[:-1] if words[0] == 'ship' else words[:1])}: ", done.stderr)

    def test_words_of_ship(self) -> None:
        for words in ([], ["gone"], ["--help"]):
            done = subprocess.run([ROOT / "tools/ship", *words], capture_output=True, text=True)
            self.assertEqual((done.returncode, done.stdout), (3, ""))
            self.assertIn("usage: tools/ship build|release|web|program", done.stderr)


class Types(Case):
    """The types of the package pycheck_tools, and of the commands and scripts that start it or stand by themselves."""

    @unittest.skipUnless(MYPY, "there is no mypy")
    def test_mypy_has_nothing_to_say(self) -> None:
        package, scripts = ROOT / "tools/pycheck_tools", list(self.scripts())
        self.assertLessEqual({"wheel", "web", "architecture", "check", "check_all"}, {file.name for file in scripts})
        config = self.write("mypy.ini", f"[mypy]\nstrict = True\nscripts_are_modules = True\nmypy_path = {ROOT / 'tools'}\n")
        words = [MYPY, "--config-file", config, "--no-incremental", "--cache-dir", os.devnull, package, *scripts]
        done = subprocess.run([str(it) for it in words], cwd=self.room, capture_output=True, text=True, timeout=600)
        self.assertEqual((done.returncode, done.stderr), (0, ""), done.stdout)

    def scripts(self) -> Iterator[Path]:
        """Yields the files of tools/ and tools/shipping that are written in Python."""
        for file in sorted([*(ROOT / "tools").iterdir(), *(ROOT / "tools/shipping").iterdir()]):
            if file.is_file() and (file.suffix == ".py" or file.read_bytes().startswith(b"#!/usr/bin/env python3\n")):
                yield file
