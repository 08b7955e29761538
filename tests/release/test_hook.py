"""The repository as a hook of pre-commit and as a composite action."""
from __future__ import annotations

import os
import shutil
import textwrap
from pathlib import Path
from typing import Dict

from room import ROOT, Done, RoomCase, run

# What is wrong in examples/ages.py
SAID = "cannot return int | None from age_of, which returns int"
CONFIG = """\
repos:
- repo: {clone}
  rev: {revision}
  hooks:
  - id: pycheck
    args: [{args}]
"""
ORDINARY = "import json\n\nprint(json.dumps([1]))\n"


class Hook(RoomCase):
    """A small repository whose configuration names a clone of this one."""

    def setUp(self) -> None:
        if shutil.which("pre-commit") is None or shutil.which("git") is None:
            self.skipTest("pre-commit or git is not there: Debian has them as packages of these names")
        super().setUp()
        self.environment: Dict[str, str] = {
            "PATH": os.environ["PATH"], "HOME": str(self.room), "PRE_COMMIT_HOME": str(self.room / "kept"),
            "LC_ALL": "C.UTF-8", "GIT_CONFIG_NOSYSTEM": "1"}
        for who in ("AUTHOR", "COMMITTER"):
            self.environment.update({f"GIT_{who}_NAME": "A", f"GIT_{who}_EMAIL": "a@b"})
        self.commit(self.clone)
        self.revision = self.command("git", "rev-parse", "HEAD", cwd=self.clone).stdout.strip()
        self.project = self.room / "project"
        self.project.mkdir()
        self.configure("")
        (self.project / "notes.txt").write_text("def is no module\n", encoding="utf-8")
        shutil.copy(ROOT / "examples" / "clean.py", self.project)

    def configure(self, args: str, own: bool = True) -> None:
        """Writes the configuration of the project, with words of its own for the hook, or without."""
        config = CONFIG.format(clone=self.clone, revision=self.revision, args=args)
        config = config if own else config.partition("    args:")[0]
        (self.project / ".pre-commit-config.yaml").write_text(config, encoding="utf-8")

    def write(self, name: str, text: str) -> None:
        """Writes a file of the project."""
        path = self.project / name
        path.parent.mkdir(exist_ok=True)
        path.write_text(text, encoding="utf-8")

    def command(self, *words: str, cwd: Path) -> "Done[str]":
        """Runs a command of git or of pre-commit."""
        return run(words, cwd, self.environment)

    def commit(self, folder: Path) -> None:
        """Makes a repository of a folder, or commits what changed."""
        for words in (["init", "-q"], ["add", "-A"], ["commit", "-q", "-m", "all"]):
            done = self.command("git", *words, cwd=folder)
            self.assertEqual(done.returncode, 0, done.stderr)

    def run_hook(self) -> "Done[str]":
        """Commits the project, and runs its hooks over all its files."""
        self.commit(self.project)
        return self.command("pre-commit", "run", "--all-files", cwd=self.project)

    def test_it_passes_without_an_error_and_fails_with_one(self) -> None:
        done = self.run_hook()
        self.assertEqual(done.returncode, 0, done.stdout + done.stderr)
        self.assertRegex(done.stdout, r"pycheck\.+Passed")
        shutil.copy(ROOT / "examples" / "ages.py", self.project)
        done = self.run_hook()
        self.assertEqual(done.returncode, 1, done.stdout + done.stderr)
        self.assertRegex(done.stdout, r"pycheck\.+Failed")
        self.assertIn(f"ages.py:4:12: E12 flow: {SAID}", done.stdout)
        shutil.copy(ROOT / "examples" / "ages_mended.py", self.project / "ages.py")
        done = self.run_hook()
        self.assertEqual(done.returncode, 0, done.stdout + done.stderr)

    def assert_hook(self, status: int, *said: str) -> None:
        """Asserts that the hook ends with a status of pre-commit, and shows these texts."""
        done = self.run_hook()
        self.assertEqual(done.returncode, status, done.stdout + done.stderr)
        for text in said:
            self.assertIn(text, done.stdout)

    def test_without_words_of_its_own_it_checks_marked_files_alone(self) -> None:
        self.configure("", own=False)
        self.write("web.py", ORDINARY)
        self.assert_hook(0, "0 files: 0 errors, 0 dynamic places, 2 left out as not marked")
        ages = (ROOT / "examples" / "ages.py").read_text(encoding="utf-8")
        self.write("core/ages.py", "# pycheck: core\n" + ages)
        self.assert_hook(1, f"core/ages.py:5:12: E12 flow: {SAID}", "2 left out as not marked")

    def test_with_a_core_it_checks_that_alone(self) -> None:
        self.configure("", own=False)
        self.write("web.py", ORDINARY)
        self.write("pyproject.toml", '[tool.pycheck]\ncore = ["core"]\n')
        self.write("core/ages.py", (ROOT / "examples" / "ages.py").read_text(encoding="utf-8"))
        self.assert_hook(1, f"core/ages.py:4:12: E12 flow: {SAID}", "2 left out as outside the core")
        self.write("core/ages.py", (ROOT / "examples" / "ages_mended.py").read_text(encoding="utf-8"))
        self.assert_hook(0, "1 file: 0 errors, 0 dynamic places, 2 left out as outside the core")

    def test_it_is_tried_without_a_configuration(self) -> None:
        self.write("ages.py", "# pycheck: core\n" + (ROOT / "examples" / "ages.py").read_text(encoding="utf-8"))
        self.commit(self.project)
        done = self.command("pre-commit", "try-repo", str(self.clone), "pycheck", "--all-files", cwd=self.project)
        self.assertEqual(done.returncode, 1, done.stdout + done.stderr)
        self.assertIn(self.revision, done.stdout)
        self.assertIn(f"ages.py:5:12: E12 flow: {SAID}", done.stdout)


class Action(RoomCase):
    """The step of the action, as a runner gives it to bash."""

    def setUp(self) -> None:
        super().setUp()
        text = (self.clone / "action.yml").read_text(encoding="utf-8")
        head, step = text.split("      run: |\n")
        self.step = textwrap.dedent(step)
        self.assertEqual(head.count("default: .\n"), 1)
        self.assertEqual(head.count("default: github\n"), 1)
        self.assertEqual(head.count('default: "false"\n'), 1)
        inputs = (("PYCHECK_FILES", "files"), ("PYCHECK_OUTPUT", "output"), ("PYCHECK_ONLY_MARKED", "only-marked"))
        for name, given in inputs:
            self.assertIn(f"        {name}: ${{{{ inputs.{given} }}}}\n", head)
        self.assertNotIn("${{", self.step)

    def run_step(self, files: str, output: str, only_marked: str = "false") -> "Done[str]":
        """Runs the step with these inputs, in the examples."""
        file = self.room / "step"
        file.write_text(self.step, encoding="utf-8")
        environment = {"PATH": os.environ["PATH"], "HOME": str(self.room), "GITHUB_ACTION_PATH": str(self.clone),
                       "PYCHECK_FILES": files, "PYCHECK_OUTPUT": output, "PYCHECK_ONLY_MARKED": only_marked}
        words = ["bash", "--noprofile", "--norc", "-e", "-o", "pipefail", str(file)]
        return run(words, self.clone / "examples", environment)

    def test_its_inputs_become_words(self) -> None:
        tool = self.clone / "tools" / "check_all"
        tool.write_text('#!/bin/sh\nprintf "<%s>" "$@"\nexit 4\n', encoding="utf-8")
        done = self.run_step("a  b.py\n\n$(exit 9)\n-c\n", "sarif")
        words = "<--output><sarif><--><a  b.py><$(exit 9)><-c>"
        self.assertEqual((done.returncode, done.stdout), (4, words), done.stderr)
        done = self.run_step(".", "github", "true")
        self.assertEqual(done.stdout, "<--output><github><--only-marked><--><.>")

    def test_it_fails_with_an_error_and_passes_without(self) -> None:
        done = self.run_step("ages_mended.py\nages.py\n", "github")
        self.assertEqual(done.returncode, 1, done.stdout + done.stderr)
        self.assertIn("E12", done.stdout)
        done = self.run_step("ages_mended.py\nclean.py\n", "github")
        self.assertEqual(done.returncode, 0, done.stdout + done.stderr)

    def test_with_a_core_it_checks_that_alone(self) -> None:
        settings = self.clone / "examples" / "pyproject.toml"
        settings.write_text('[tool.pycheck]\ncore = ["ages_mended.py"]\n', encoding="utf-8")
        done = self.run_step(".", "github")
        self.assertEqual(done.returncode, 0, done.stdout + done.stderr)
        self.assertRegex(done.stdout, r"^1 file: 0 errors, 0 dynamic places, \d+ left out as outside the core\n$")
        settings.unlink()
        done = self.run_step(".", "github", "true")
        self.assertRegex(done.stdout, r"^0 files: 0 errors, 0 dynamic places, \d+ left out as not marked\n$")
