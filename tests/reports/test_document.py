"""The examples of docs/PROJECTS.md and README.md: each command of tools/check_all there is run, and prints the lines
that
the page shows."""
from __future__ import annotations

import re
import shlex
import shutil
import subprocess
import sys
from pathlib import Path
from typing import Iterator, List, Tuple

from support import COMMAND, ROOT, Test, variables

from pycheck_all.guard_text import PROMISE

PAGE = ROOT / "docs" / "PROJECTS.md"
FIRST = ROOT / "README.md"
GUARDS = ROOT / "docs" / "GUARDS.md"
CORE = ROOT / "docs" / "CORE.md"
BLOCK = re.compile(r"(?:^(?:    .*)?\n)+", re.MULTILINE)


def blocks(page: Path) -> Iterator[List[str]]:
    """Yields the blocks of a page that are indented by four, as lines."""
    for found in BLOCK.finditer(page.read_text(encoding="utf-8")):
        lines = [line[4:] for line in found[0].split("\n")]
        while lines and not lines[-1]:
            lines.pop()
        while lines and not lines[0]:
            lines.pop(0)
        if lines:
            yield lines


def calls(lines: List[str]) -> Iterator[Tuple[str, List[str]]]:
    """Yields the commands of a block, each with the lines that it prints."""
    starts = [at for at, line in enumerate(lines) if line.startswith("$ ")]
    for at, end in zip(starts, [*starts[1:], len(lines)]):
        yield lines[at][2:], lines[at + 1 : end]


class Document(Test):
    """A page, from its top to its end, in one folder."""

    def test_what_the_page_shows(self) -> None:
        self.assertGreaterEqual(self.shown_by(PAGE), 8)

    def test_what_the_page_of_guards_shows(self) -> None:
        self.assertEqual(self.shown_by(GUARDS), 3)

    def shown_by(self, page: Path) -> int:
        """Tries the commands that a page shows, and returns how many there are."""
        shutil.copytree(ROOT / "examples", self.folder / "examples")
        shown = 0
        for lines in blocks(page):
            if re.fullmatch(r"# \w+\.py", lines[0]):
                self.write(lines[0][2:], "\n".join(lines) + "\n")
            for call, wanted in calls(lines):
                self.assert_prints(call, wanted)
                shown += 1
        return shown

    def test_what_the_first_page_shows(self) -> None:
        shutil.copytree(ROOT / "examples", self.folder / "examples")
        shown = [call for lines in blocks(FIRST) for call in calls(lines) if call[0].startswith("tools/check_all ")]
        self.assertTrue(shown)
        for call, wanted in shown:
            self.assert_prints(call, wanted)

    def assert_prints(self, call: str, wanted: List[str]) -> None:
        """Asserts that a command of a page prints these lines, and no others."""
        with self.subTest(call):
            words = shlex.split(call)
            words[:1] = [sys.executable, str(COMMAND)] if words[0] == "tools/check_all" else words[:1]
            done = subprocess.run(words, cwd=self.folder, capture_output=True, env=variables({}), timeout=60)
            # A page has no blanks at the end of a line
            self.assertEqual([line.rstrip() for line in done.stdout.decode().splitlines()], wanted)
            self.assertEqual(done.stderr, b"")

    def test_the_promise_of_guards_is_that_of_the_pages(self) -> None:
        promise = " ".join(PROMISE.split())
        for page in (CORE, GUARDS):
            with self.subTest(page.name):
                text = page.read_text(encoding="utf-8").replace("\n> ", "\n")
                self.assertIn(promise, " ".join(text.split()))

    def test_a_commit_is_named_and_no_tag(self) -> None:
        self.assertIn("Set `rev` to a commit.", FIRST.read_text(encoding="utf-8"))
        for page in (CORE, PAGE):
            with self.subTest(page.name):
                text = page.read_text(encoding="utf-8")
                self.assertIn("`git ls-remote URL HEAD`", text)
                self.assertIn("`pre-commit try-repo URL pycheck", text)
                named = re.findall(r"^ *(?:- )?(?:rev: |uses: OWNER/REPOSITORY@)(.*)$", text, re.MULTILINE)
                self.assertEqual(named, ["COMMIT"] * 2)

    def test_options_are_those_of_the_command(self) -> None:
        page = PAGE.read_text(encoding="utf-8")
        told = set(re.findall(r"--[a-z][a-z-]+", self.check("--help").output)) - {"--help"}
        self.assertEqual(told - set(re.findall(r"--[a-z][a-z-]+", page)), set())
        named = set(re.findall(r"`(--[a-z][a-z-]+)", page))
        self.assertEqual(named - told, set())
