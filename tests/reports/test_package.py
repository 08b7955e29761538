"""The package itself: its types, its texts, and the Pythons that run it."""
from __future__ import annotations

import ast
import glob
import os
import shutil
import subprocess
import sys
import unittest
from typing import Dict, List

from support import CLEAN, PACKAGE, REFUSED, ROOT, Test, variables

MYPY = shutil.which("mypy", path=os.pathsep.join([os.environ.get("PATH", ""), "/usr/bin"]))


def others() -> Dict[str, str]:
    """Returns the other Pythons on this machine that must run the package: the version and the path of each."""
    names = [f"python3.{minor}" for minor in range(9, 20)]
    paths = [*map(shutil.which, names), *glob.glob(os.path.expanduser("~/.pyenv/versions/*/bin/python3"))]
    told = "import sys; print('.'.join(map(str, sys.version_info[:2])), sys.version_info >= (3, 9))"
    made: Dict[str, str] = {}
    for path in [it for it in paths if it]:
        done = subprocess.run([path, "-c", told], capture_output=True, env=variables({}))
        version, _, new = done.stdout.decode().strip().partition(" ")
        if done.returncode == 0 and new == "True" and version != f"3.{sys.version_info[1]}":
            made.setdefault(version, str(path))
    return made


class Package(Test):
    """The requirements on the files of the package."""

    @unittest.skipUnless(MYPY, "there is no mypy")
    def test_types(self) -> None:
        words = [str(MYPY), "--strict", "--no-incremental", "--cache-dir", os.devnull, str(PACKAGE)]
        done = subprocess.run(words, capture_output=True, cwd=self.folder, timeout=600)
        self.assertEqual((done.returncode, done.stderr), (0, b""), done.stdout.decode())

    def copied_check(self) -> List[str]:
        """Returns the words that run tools/check over the files of the test's own folder."""
        for name in ("check", "pycheck_tools", "pycheck_all"):
            source, copy = ROOT / "tools" / name, self.folder / "tools" / name
            if source.is_dir():
                shutil.copytree(source, copy, ignore=shutil.ignore_patterns("__pycache__"), dirs_exist_ok=True)
            else:
                copy.parent.mkdir(parents=True, exist_ok=True)
                shutil.copy(source, copy)
        return [sys.executable, str(self.folder / "tools" / "check")]

    def test_texts_of_codes_are_those_of_the_page(self) -> None:
        done = subprocess.run([sys.executable, str(ROOT / "tools" / "check"), "data"], capture_output=True)
        self.assertEqual((done.returncode, done.stdout, done.stderr), (0, b"", b""))

    def test_texts_that_are_old_are_told(self) -> None:
        shutil.copytree(ROOT / "examples", self.folder / "examples")
        data = [f"tools/pycheck_all/{name}.json" for name in ("codes", "left_out", "cases")]
        for name in ("docs/CODES.md", "docs/PROFILE.md", "web/texts.json", *data):
            self.write(name, (ROOT / name).read_bytes())
        words = [*self.copied_check(), "data"]
        self.assertEqual(subprocess.run(words, capture_output=True).returncode, 0)
        old = b"%s.json is not what tools/check data --write writes; run it\n"
        self.write("examples/new.py", "print(1)\n")
        self.assertEqual(subprocess.run(words, capture_output=True).stdout, old % b"texts")
        (self.folder / "examples/new.py").unlink()
        page = self.folder / "docs" / "CODES.md"
        page.write_text(
            page.read_text(encoding="utf-8").replace("Save the file as UTF-8.", "Save it."), encoding="utf-8"
        )
        self.assertEqual(subprocess.run(words, capture_output=True).returncode, 1)
        self.write("docs/CODES.md", (ROOT / "docs" / "CODES.md").read_bytes())
        self.write("docs/PROFILE.md", (ROOT / "docs" / "PROFILE.md").read_bytes().replace(b"rounded down", b"rounded"))
        done = subprocess.run(words, capture_output=True)
        self.assertEqual(done.stdout, old % b"left_out" + old % b"texts")
        self.assertEqual(done.returncode, 1)

    def test_an_error_that_does_not_say_what_it_is_in_a_run_is_told(self) -> None:
        page = (ROOT / "docs" / "CODES.md").read_text(encoding="utf-8")
        said = "**In a run:** This error is silent at a function, and heard at a method.\n\n"
        words = self.copied_check()
        for other in ("", said.replace("heard", "loud"), said.replace(",", "")):
            self.write("docs/CODES.md", page.replace(said, other))
            self.write("docs/PROFILE.md", (ROOT / "docs" / "PROFILE.md").read_bytes())
            self.write("tools/pycheck_all/codes.json", "{}")
            self.write("web/texts.json", "{}")
            done = subprocess.run([*words, "data", "--write"], capture_output=True)
            self.assertEqual(done.stdout, b"CODES.md: the entry of E21 has no sentence `In a run`\n")
            self.assertEqual(done.returncode, 1)

    def test_each_code_has_a_sentence(self) -> None:
        from pycheck_all import codes

        self.assertEqual(len(codes.entries()), 62)
        for code, entry in codes.entries().items():
            with self.subTest(code):
                self.assertRegex(entry.mend, r"^[A-Z].*[^.]\.$")
                self.assertLess(len(entry.mend), 120)
                self.assertTrue(entry.meaning)

    @unittest.skipUnless(hasattr(sys, "stdlib_module_names"), "this Python does not tell the names of its library")
    def test_standard_library_alone_and_old_grammar(self) -> None:
        for path in sorted(PACKAGE.glob("*.py")):
            with self.subTest(path.name):
                tree = ast.parse(path.read_text(encoding="utf-8"), feature_version=(3, 9))
                self.assertTrue(ast.get_docstring(tree))
                for node in ast.walk(tree):
                    names = [it.name for it in node.names] if isinstance(node, ast.Import) else []
                    if isinstance(node, ast.ImportFrom) and not node.level:
                        names = [str(node.module)]
                    for name in names:
                        self.assertIn(name.partition(".")[0], sys.stdlib_module_names)

    def test_lines_and_functions_are_short(self) -> None:
        for path in sorted(PACKAGE.glob("*.py")):
            text = path.read_text(encoding="utf-8")
            self.assertLessEqual(max(map(len, text.splitlines())), 120, path.name)
            for node in ast.walk(ast.parse(text)):
                if isinstance(node, (ast.FunctionDef, ast.ClassDef)):
                    self.assertTrue(
                        ast.get_docstring(node) or node.name.startswith("_") or node.name == "error", node.name
                    )
                if isinstance(node, ast.FunctionDef):
                    self.assertLessEqual((node.end_lineno or 0) - node.lineno, 40, f"{path.name}: {node.name}")

    def test_other_pythons(self) -> None:
        pythons = others()
        if not pythons:
            self.skipTest("there is no other Python of 3.9 or later")
        self.write("a.py", CLEAN)
        self.write("b.py", REFUSED)
        words = ["--all-refusals", "--page", "page.html", "--write-baseline", "known.json", "--statistics", "--strict"]
        for version, python in pythons.items():
            for form in ("concise", "full", "json", "github", "gitlab", "sarif", "junit"):
                with self.subTest(version=version, form=form):
                    command = [python, str(ROOT / "tools" / "check_all"), *words, "--output", form, "."]
                    done = subprocess.run(command, capture_output=True, cwd=self.folder, env=variables({}))
                    self.assertNotIn(b"Traceback", done.stderr)
                    self.assertEqual(done.returncode, 0, done.stderr)
