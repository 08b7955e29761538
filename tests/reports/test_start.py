"""The package started by `python -m`, in a folder that is checked."""
from __future__ import annotations

import shutil
import subprocess
import sys
from typing import Optional

from support import ERROR, OPERATOR, PACKAGE, Done, Test, variables

# The code of a module that must not be run
RUN = 'open("ran", "w").close()\n'
FOUND = f"a.py:4:11: {OPERATOR}\n1 file: 1 error, 0 dynamic places\n"
# Modules that the command imports, and that Python itself has not imported by then
LATER = ("argparse", "json", "concurrent", "textwrap", "unicodedata", "bisect", "sysconfig", "html")


class Started(Test):
    """A copy of the package beside the folder that is checked."""

    def setUp(self) -> None:
        super().setUp()
        site = self.folder / "site"
        shutil.copytree(PACKAGE, site / "pycheck_all", ignore=shutil.ignore_patterns("__pycache__"))
        self.site = str(site)
        self.folder = self.folder / "project"
        self.write("a.py", ERROR)

    def start(self, *words: str, path: Optional[str] = None) -> Done:
        """Starts Python with these words."""
        done = subprocess.run([sys.executable, "-B", *words], cwd=self.folder, capture_output=True, timeout=120,
                              env=variables({"PYTHONPATH": path or self.site}))
        return Done(done.returncode, done.stdout.decode(), done.stderr.decode())

    def loaded(self) -> "set[str]":
        """Returns the modules that a Python has loaded when it starts `-m`."""
        self.write("shows.py", "import sys\nprint(*sys.modules)\n")
        names = set(self.start("-m", "shows").output.split())
        (self.folder / "shows.py").unlink()
        return names

    def test_it_checks(self) -> None:
        self.assertEqual(self.start("-m", "pycheck_all", "a.py"), Done(1, FOUND, ""))
        self.assertEqual(self.start("-m", "pycheck_all", "--wrong").status, 3)

    def test_nothing_of_the_folder_is_imported(self) -> None:
        loaded = self.loaded()
        names = [it for it in LATER if it not in loaded]
        self.assertGreater(len(names), 3)
        for name in names:
            self.write(f"{name}.py", RUN)
        self.write("email/__init__.py", RUN)
        self.assertEqual(self.start("-m", "pycheck_all", "a.py"), Done(1, FOUND, ""))
        self.assertFalse((self.folder / "ran").exists())

    def test_where_python_may_have_run_something_nothing_is_checked(self) -> None:
        for name in ("os.py", "IO.py", "runpy.py", "codecs/__init__.py", "site.so"):
            self.write(name, "")
            done = self.start("-m", "pycheck_all", "a.py")
            stem = name.partition("/")[0]
            with self.subTest(name):
                if name not in ("runpy.py",):
                    self.assertEqual((done.status, done.output), (3, ""))
                    self.assertIn(f"may have run '{stem}' there: write `python -I -m pycheck_all`", done.error)
                else:
                    self.assertNotEqual((done.status, done.output), (1, FOUND))
            shutil.rmtree(self.folder / stem) if "/" in name else (self.folder / name).unlink()
        (self.folder / "codecs").mkdir()
        self.write("types.md", "")
        self.assertEqual(self.start("-m", "pycheck_all", "a.py").status, 1)

    def test_apart_from_the_folder(self) -> None:
        self.write("os.py", "")
        self.write("pycheck_all/__init__.py", RUN)
        line = f"import sys; sys.path.insert(0, {self.site!r}); import runpy; "
        line += "runpy.run_module('pycheck_all', None, '__main__', True)"
        self.assertEqual(self.start("-I", "-c", line, "a.py"), Done(1, FOUND, ""))
        self.assertFalse((self.folder / "ran").exists())

    def test_the_package_begins_without_an_import(self) -> None:
        lines = "import sys\nhad = set(sys.modules)\nimport pycheck_all\nprint(*set(sys.modules) - had)"
        done = self.start("-c", lines)
        self.assertEqual(done.output, "pycheck_all\n")
