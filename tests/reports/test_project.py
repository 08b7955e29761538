"""A project with a core: its settings, the modules that are checked, and those that are left out."""
from __future__ import annotations

import json
import os
import shutil
import subprocess
import unittest
from typing import Any, Optional

from support import CLEAN, DYNAMIC, ERROR, OPERATOR, REFUSED, Test

from pycheck_all import texts

GIT = shutil.which("git")
# The report of the rules on ERROR, which follows its path
FOUND = f":4:11: {OPERATOR}"
COUNTS = "0 errors, 0 dynamic places"


class Project(Test):
    """A folder with settings."""

    def settings(self, text: str, folder: str = "") -> None:
        """Writes the table of a project."""
        self.write(os.path.join(folder, "pyproject.toml"), f'[project]\nname = "shop"\n\n[tool.pycheck]\n{text}\n')

    def assert_lines(self, wanted: "list[str]", *words: str) -> None:
        """Asserts that the command prints these lines."""
        self.assertEqual(self.lines(*words), wanted)


class Core(Project):
    """The files that are checked in a project with a core."""

    def setUp(self) -> None:
        super().setUp()
        self.write("src/shop/core/order.py", ERROR)
        self.write("src/shop/core.py", ERROR)
        self.write("src/shop/corex/a.py", REFUSED)
        self.write("src/shop/web.py", REFUSED)

    def test_the_core_alone_is_checked(self) -> None:
        self.settings('core = ["src/shop/core"]')
        last = "1 file: 1 error, 0 dynamic places, 3 left out as outside the core"
        for words in ((), (".",), ("src",), (str(self.folder),)):
            lines = self.lines(*words)
            self.assertEqual((len(lines), lines[-1]), (2, last))
            self.assertTrue(lines[0].endswith("src/shop/core/order.py" + FOUND))
        self.assertEqual(self.check(".").status, 1)

    def test_several_paths_and_a_file(self) -> None:
        self.settings('core = [\n  "src/shop/core.py",  # a file\n  "./src/shop/core/",\n]')
        self.assert_lines(
            [
                f"src/shop/core.py{FOUND}",
                f"src/shop/core/order.py{FOUND}",
                "2 files: 2 errors, 0 dynamic places, 2 left out as outside the core",
            ]
        )

    def test_named_files_outside_are_no_failure(self) -> None:
        self.settings('core = ["src/shop/core"]')
        done = self.check("src/shop/web.py", "src/shop/corex/a.py")
        self.assertEqual((done.status, done.error), (0, ""))
        self.assertEqual(done.output, f"0 files: {COUNTS}, 2 left out as outside the core\n")
        done = self.check("src/shop/web.py", "src/shop/core/order.py")
        self.assertEqual(done.status, 1)
        self.assertTrue(done.output.endswith("1 file: 1 error, 0 dynamic places, 1 left out as outside the core\n"))

    def test_a_wrong_path_is_told_all_the_same(self) -> None:
        self.settings('core = ["src/shop/core"]')
        done = self.check("src/shop/wrong.py")
        self.assertEqual(done.status, 3)
        self.assertIn("src/shop/wrong.py: cannot be read: No such file or directory\n", done.output)

    def test_a_core_without_a_module_is_told(self) -> None:
        (self.folder / "empty").mkdir()
        self.settings('core = ["empty"]')
        for words in ((), (".",)):
            done = self.check(*words)
            self.assertEqual((done.status, done.error), (3, "check_all: error: no module to check in empty\n"))

    def test_a_core_is_found_where_such_a_folder_is_left_out(self) -> None:
        self.write("build/core/a.py", ERROR)
        self.settings('core = ["build/core"]')
        self.assert_lines(
            [f"build/core/a.py{FOUND}", "1 file: 1 error, 0 dynamic places, 4 left out as outside the core"]
        )

    def test_links(self) -> None:
        self.settings('core = ["src/shop/core"]')
        (self.folder / "way").symlink_to("src/shop")
        (self.folder / "src/shop/core/link.py").symlink_to("../web.py")
        self.assertEqual(self.check("way/core/order.py").status, 1)
        self.assertEqual(self.check("way/web.py").status, 0)
        self.assertEqual(self.check("way/core/link.py").status, 2)

    def test_standard_input_counts_as_the_file_that_is_named(self) -> None:
        self.settings('core = ["src/shop/core"]')
        for name, status in (("src/shop/core/new.py", 1), ("src/shop/new.py", 0)):
            self.assertEqual(self.check("--stdin-name", name, "-", given=ERROR.encode()).status, status)
        self.assertEqual(self.check("-", given=ERROR.encode()).status, 1)

    def test_counts_in_the_document(self) -> None:
        self.settings('core = ["src/shop/core"]')
        counts = json.loads(self.check("--output", "json").output)["counts"]
        self.assertEqual([counts[it] for it in ("files", "errors", "refused", "outside")], [1, 1, 0, 3])

    def test_words_win(self) -> None:
        self.settings('core = ["src/shop/core"]\noutput = "json"\nexclude = ["order.py"]')
        self.assertEqual(json.loads(self.check("src/shop/core.py").output)["counts"]["outside"], 1)
        words = ("--output", "concise", "--exclude", "nothing", "--core", "src/shop/core.py", "src")
        self.assertEqual(self.lines(*words)[0], f"src/shop/core.py{FOUND}")
        self.assertIn("3 left out as outside the core", self.lines(*words)[-1])
        done = self.check("--no-project", "src")
        last = "4 files: 2 errors, 0 dynamic places, 2 refused"
        self.assertEqual((done.status, done.output.splitlines()[-1]), (2, last))

    def test_marks_do_not_count_beside_a_core(self) -> None:
        self.settings('core = ["src/shop/core"]')
        self.write("src/shop/core.py", "# pycheck: core\n" + ERROR)
        self.assertEqual(self.lines("--only-marked"), self.lines())


class Marks(Project):
    """Files that are marked by their first lines."""

    def test_marked_files_alone(self) -> None:
        marks = ("# pycheck: core\n", "#pycheck:core\r\n", "\ufeff# pycheck: core\n", "# pycheck: core")
        others = ("\n# pycheck: core\n", "# pycheck: core, too\n", '"# pycheck: core"\n', "# Pycheck: core\n")
        for at, (mark, other) in enumerate(zip(marks, others)):
            self.write(f"in{at}.py", mark)
            self.write(f"out{at}.py", other)
        lines = self.lines("--only-marked", ".")
        self.assertEqual([it.partition(":")[0] for it in lines[:-1]], ["in0.py", "in1.py", "in2.py", "in3.py"])
        self.assertEqual(lines[-1], f"4 files: {COUNTS}, 4 refused, 4 left out as not marked")

    def test_a_marked_module_is_checked_as_any_other(self) -> None:
        self.write("a.py", "# pycheck: core\n" + ERROR)
        self.write("b.py", REFUSED)
        done = self.check("--only-marked", "a.py", "b.py")
        self.assertEqual((done.status, done.output.splitlines()[0]), (1, f"a.py:5:11: {OPERATOR}"))
        done = self.check("--only-marked", "b.py")
        self.assertEqual((done.status, done.output), (0, f"0 files: {COUNTS}, 1 left out as not marked\n"))

    def test_what_cannot_be_read_is_told(self) -> None:
        (self.folder / "a.py").symlink_to("nowhere")
        self.assertEqual(self.check("--only-marked", ".").status, 3)


class Excluded(Project):
    """The files that the settings leave out."""

    def test_folders_and_named_files(self) -> None:
        for name in ("a.py", "old/b.py", "src/made/c.py", "src/d_made.py"):
            self.write(name, ERROR)
        self.settings('exclude = ["old", "src/made/", "*_made.py"]')
        self.assert_lines([f"a.py{FOUND}", "1 file: 1 error, 0 dynamic places, 3 left out by exclude"])
        done = self.check("old/b.py", "src/d_made.py", "src/made/c.py")
        self.assertEqual((done.status, done.output), (0, f"0 files: {COUNTS}, 3 left out by exclude\n"))
        self.assertEqual(len(self.lines("--exclude", "a.py", ".")), 4)

    def test_what_is_left_out_of_a_core_counts_once(self) -> None:
        for name in ("core/a.py", "core/a_api.py", "b.py"):
            self.write(name, ERROR)
        self.settings('core = ["core"]\nexclude = ["*_api.py"]')
        self.assert_lines([f"core/a.py{FOUND}", "1 file: 1 error, 0 dynamic places, 1 left out by exclude, "
                           "1 left out as outside the core"])

    @unittest.skipUnless(GIT, "there is no git")
    def test_paths_are_those_of_the_project(self) -> None:
        for name in ("src/a.py", "src/made/b.py", "src/core/c.py"):
            self.write(name, ERROR)
        subprocess.run([str(GIT), "init", "-q"], cwd=self.folder, check=True)
        self.settings('exclude = ["src/made"]\ncore = ["src/core", "src/made"]')
        self.folder /= "src"
        self.assert_lines([f"core/c.py{FOUND}", "1 file: 1 error, 0 dynamic places, 1 left out by exclude, "
                           "1 left out as outside the core"])


class Found(Project):
    """The folders in which settings are searched."""

    def setUp(self) -> None:
        super().setUp()
        self.top = self.folder
        self.write("inner/deep/a.py", DYNAMIC)
        self.settings('output = "json"')

    def is_json_in(self, folder: str) -> bool:
        """Whether the settings apply in a folder."""
        self.folder = self.top / folder
        return self.check("--no-project" if not folder else ".", ".").output.startswith("{")

    def test_without_a_checkout_the_folder_alone(self) -> None:
        self.assertTrue(self.check(".").output.startswith("{"))
        self.assertFalse(self.is_json_in("inner/deep"))
        self.assertFalse(self.is_json_in(""))

    def test_in_a_checkout_up_to_its_top(self) -> None:
        (self.top / ".git").mkdir()
        self.write("inner/pyproject.toml", '[tool.other]\ntext = """\n[tool.pycheck]\ncore = 1\n"""\n')
        self.assertTrue(self.is_json_in("inner/deep"))

    def test_not_above_the_top(self) -> None:
        (self.top / "inner" / ".git").mkdir()
        self.assertFalse(self.is_json_in("inner/deep"))

    def test_the_nearest(self) -> None:
        (self.top / ".git").mkdir()
        self.settings("", "inner")
        self.assertFalse(self.is_json_in("inner/deep"))


class Baseline(Project):
    """The baseline that the settings name."""

    def test_it_is_read_and_written(self) -> None:
        self.write("src/a.py", ERROR)
        (self.folder / ".git").mkdir()
        self.settings('baseline = "ci/known.json"')
        (self.folder / "ci").mkdir()
        done = self.check("src")
        self.assertEqual((done.status, done.error), (3, "check_all: error: ci/known.json: No such file or directory\n"))
        self.assertEqual(self.check("--write-baseline", "ci/known.json", "src").status, 0)
        self.assertEqual(self.lines(), [f"1 file: {COUNTS}, 1 known"])
        self.folder /= "src"
        self.assertEqual(self.lines(), [f"1 file: {COUNTS}, 1 known"])
        self.write("none.json", '{"format": 1, "known": []}')
        self.assertEqual(self.check("--baseline", "none.json", "a.py").status, 1)


class Faults(Project):
    """Settings that are wrong, or hostile."""

    def assert_told(self, said: str) -> None:
        """Asserts that the settings are refused, with these words, and nothing is checked."""
        done = self.check(".")
        self.assertEqual((done.status, done.output), (3, ""))
        self.assertEqual(done.error.count("\n"), 1)
        self.assertIsNone(texts.CONTROL.search(done.error[:-1]))
        self.assertTrue(done.error.startswith(f"check_all: error: {self.folder}/pyproject.toml: "), done.error)
        self.assertIn(said, done.error)

    def test_each_fault_is_told(self) -> None:
        self.write("a.py", CLEAN)
        (self.folder / "out").symlink_to("/etc")
        (self.folder / "inner" / "deep").mkdir(parents=True)
        (self.folder / "way").symlink_to("inner/deep")
        (self.folder / "out.json").symlink_to("/etc/passwd")
        keys = "its keys are core, exclude, output, baseline"
        no_text = "is no text of 1 to 1024 characters without control characters"
        for text, said in (
            ('cores = ["a.py"]', f"[tool.pycheck] has no key 'cores': {keys}"),
            ("core.a = 1", "core is no array of at most 200 texts"),
            ('"a\\u001b\\u202e" = 1', r"has no key 'a\x1b\u202e'"),
            ("[tool.pycheck.more]", "has no key 'more'"),
            ('core = "a.py"', "core is no array of at most 200 texts"),
            ("core = []", "core is empty"),
            ("core = [1]", f"an entry of core {no_text}"),
            ('core = [""]', f"an entry of core {no_text}"),
            (f'core = ["{"a" * 1025}"]', f"an entry of core {no_text}"),
            ('core = ["a\\u0000"]', f"an entry of core {no_text}"),
            (f"core = [{'1, ' * 201}]", "core is no array of at most 200 texts"),
            ('core = ["src"]', "an entry of core is not there: src"),
            ('core = ["a.py", "../x"]', "an entry of core leads out of the project: ../x"),
            (f'core = ["{self.folder}/a.py"]', "an entry of core leads out of the project: /"),
            ('core = ["out"]', "an entry of core leads out of the project: out"),
            ('exclude = "a.py"', "exclude is no array of at most 200 texts"),
            ("exclude = [[]]", f"an entry of exclude {no_text}"),
            ('output = "xml"', "output is none of concise, full, json, "),
            ("output = true", "output is none of concise, full, json, "),
            ("output = []", "output is none of concise, full, json, "),
            ('baseline = ["a"]', f"baseline {no_text}"),
            ('baseline = "out.json"', "baseline leads out of the project: out.json"),
            ('baseline = "way/../out.json"', "baseline leads out of the project: out.json"),
            ('baseline = "/etc/passwd"', "baseline leads out of the project: /etc/passwd"),
            ("core = [", "a value is missing"),
            ('output = "full"\noutput = "json"', "line 6: a key stands twice"),
            ("[tool.pycheck]", "line 5: a table stands twice"),
            ("[[tool.pycheck]]", "line 5: a table stands twice, or is one of many"),
            ("core = " + "[" * 100, "it is nested too deep"),
        ):
            with self.subTest(text[:40]):
                self.settings(text)
                self.assert_told(said)

    def test_files_that_are_none(self) -> None:
        self.write("a.py", CLEAN)
        path = self.folder / "pyproject.toml"
        for data, said in ((b"x" * (256 * 1024 + 1), "it is longer than 262144 bytes"), (b"\xff", "'utf-8' codec"),
                           (b"[tool]\npycheck = 1\n", "tool.pycheck is no table"), (None, "it is no regular file")):
            self.unlink_or_not(path)
            os.mkfifo(path) if data is None else path.write_bytes(data)
            self.assert_told(said)
        path.unlink()
        path.symlink_to("pyproject.toml")
        self.assert_told("Too many levels of symbolic links")

    def unlink_or_not(self, path: Any) -> None:
        """Removes a file, if it exists."""
        path.unlink(missing_ok=True)

    def test_without_a_table_nothing_is_said(self) -> None:
        self.write("a.py", CLEAN)
        self.write("pyproject.toml", "[tool.pycheckx]\ncore = 1\n[tool]\nx = 1\n[[tool.many]]\n[[tool.many]]\n")
        self.assert_lines([f"1 file: {COUNTS}"])

    def test_nothing_is_read_for_an_explanation(self) -> None:
        self.settings("wrong = 1")
        self.assertEqual([self.check(it).status for it in ("--version", "--explain")], [0, 0])
        self.write("a.py", CLEAN)
        self.assertEqual(self.check("--no-project", ".").status, 0)


class Folders(Project):
    """Folders of generated or installed files."""

    def setUp(self) -> None:
        super().setUp()
        self.names = ("build/a.py", "src/dist/b.py", "node_modules/c/d.py", "any/lib/e.py", "src/build.py/f.py")
        for name in (*self.names, "src/build.py/g.py", "src/environment/h.py"):
            self.write(name, ERROR)
        self.write("any/pyvenv.cfg", "home = /usr/bin\n")

    def paths(self, *words: str) -> "list[str]":
        """Returns the paths with a finding."""
        return [it.partition(":")[0] for it in self.lines(*words)[:-1]]

    def test_they_are_left_out_of_folders(self) -> None:
        kept = ["src/build.py/f.py", "src/build.py/g.py", "src/environment/h.py"]
        self.assertEqual(self.paths("."), kept)
        self.assertEqual(self.paths(), kept)

    def test_they_are_checked_where_they_are_named(self) -> None:
        self.assertEqual(self.paths("build", "any", "src/dist/b.py"), ["build/a.py", "any/lib/e.py", "src/dist/b.py"])

    @unittest.skipUnless(GIT, "there is no git")
    def test_what_git_tracks_is_checked(self) -> None:
        for words in (["init", "-q"], ["add", "src/dist/b.py", "any/lib"]):
            subprocess.run([str(GIT), *words], cwd=self.folder, check=True)
        self.assertEqual(self.paths(".")[:2], ["any/lib/e.py", "src/build.py/f.py"])
        self.assertIn("src/dist/b.py", self.paths("."))
        self.assertNotIn("build/a.py", self.paths("."))

    def test_no_path_means_the_folder(self) -> None:
        self.folder = self.folder / "src"
        self.assertEqual(self.paths()[0], "build.py/f.py")
        empty: Optional[str] = None
        (self.folder / "empty").mkdir()
        self.folder /= "empty"
        done = self.check(PYTHONPATH=empty)
        self.assertEqual((done.status, done.error), (3, "check_all: error: no module to check in .\n"))
