"""The wheel: the same bytes each time, its contents, and that pip installs it without an index."""
from __future__ import annotations

import base64
import email
import email.message
import hashlib
import importlib.util
import os
import shutil
import sys
import zipfile
from pathlib import Path
from typing import Dict

from room import PROGRAMS, ROOT, Done, RoomCase, report_of, run


class Wheel(RoomCase):
    """A wheel that a clone gives."""

    def make(self, clone: Path, out: str, **more: str) -> "Done[str]":
        """Asks a clone for its wheel."""
        words = [sys.executable, "-B", clone / "tools" / "wheel", self.room / out]
        return run(words, self.room, {**os.environ, **more})

    def wheel(self, out: str = "out") -> Path:
        """Returns the path of the clone's wheel."""
        done = self.make(self.clone, out)
        self.assertEqual((done.returncode, done.stderr), (0, ""))
        return Path(done.stdout.rstrip("\n"))

    def version(self) -> str:
        """Returns the version that the shipped program prints."""
        name, version = self.run_few("./pycheck", "--version").stdout.split()
        self.assertEqual(name, "pycheck")
        return version

    def metadata(self, wheel: zipfile.ZipFile) -> email.message.Message:
        """Returns the wheel's metadata."""
        (path,) = (it for it in wheel.namelist() if it.endswith(".dist-info/METADATA"))
        return email.message_from_string(wheel.read(path).decode())


class Bytes(Wheel):
    """The contents of a wheel that is not installed."""

    def test_two_builds_are_the_same_bytes(self) -> None:
        first = self.wheel("first")
        other = self.copy_tree("another clone")
        for file in other.rglob("*"):
            os.utime(file, (1_500_000_000, 1_500_000_000))
        done = self.make(other, "second", TZ="Asia/Tokyo", PYTHONHASHSEED="7", HOME=str(self.room))
        self.assertEqual((done.returncode, done.stderr), (0, ""))
        second = Path(done.stdout.rstrip("\n"))
        self.assertEqual(first.name, second.name)
        self.assertEqual(first.read_bytes(), second.read_bytes())
        self.assertEqual([it.name for it in first.parent.iterdir()], [first.name])

    def test_its_name_and_metadata_say_the_version_that_the_program_prints(self) -> None:
        version = self.version()
        wheel = self.wheel()
        self.assertEqual(wheel.name, f"pycheck-{version}-py3-none-manylinux_2_34_x86_64.whl")
        with zipfile.ZipFile(wheel) as opened:
            metadata = self.metadata(opened)
        found = {it: metadata[it] for it in ("Name", "Version", "License", "Requires-Python")}
        self.assertEqual(found, {"Name": "pycheck", "Version": version, "License": "MIT", "Requires-Python": ">=3.9"})

    def test_its_description_is_the_first_screen(self) -> None:
        with zipfile.ZipFile(self.wheel()) as opened:
            description = self.metadata(opened).get_payload()
        readme = (ROOT / "README.md").read_text(encoding="utf-8")
        self.assertTrue(description.startswith("# pycheck\n"))
        self.assertIn("$ ./pycheck examples/ages.py", description)
        self.assertIn((ROOT / "examples" / "ages.txt").read_text(encoding="utf-8"), description)
        self.assertNotIn(readme.split("\n## ")[1], description)
        self.assertNotIn("](docs/", description)

    def test_it_holds_the_shipped_programs_and_the_package(self) -> None:
        version = self.version()
        with zipfile.ZipFile(self.wheel()) as opened:
            names = opened.namelist()
            for name in PROGRAMS:
                info = opened.getinfo(f"pycheck-{version}.data/scripts/{name}")
                self.assertEqual(info.external_attr >> 16, 0o100755)
                self.assertEqual(opened.read(info), self.shipped(name))
        package = [it.relative_to(ROOT / "tools").as_posix() for it in (ROOT / "tools" / "pycheck_all").rglob("*")
                   if it.is_file() and "__pycache__" not in it.parts]
        self.assertIn("pycheck_all/command.py", package)
        package += [f"pycheck_all/cookbook/{name}" for name in ("lists_of_int.py", "lists_of_str.py", "texts.py")]
        self.assertEqual([it for it in names if it.startswith("pycheck_all/")], sorted(package))

    def test_a_stray_file_is_not_packed(self) -> None:
        first = self.wheel("first").read_bytes()
        package = self.clone / "tools" / "pycheck_all"
        (package / "inner").mkdir()
        for name in ("stray.py", ".env", "inner/more.py", "command.py.orig", "os.py"):
            (package / name).write_text("raise SystemExit\n", encoding="utf-8")
        (package / "link.py").symlink_to("/etc/passwd")
        self.assertEqual(self.wheel("second").read_bytes(), first)

    def test_no_wheel_comes_of_a_package_without_a_file(self) -> None:
        module = self.clone / "tools" / "pycheck_all" / "patterns.py"
        module.unlink()
        self.assert_no_wheel("there is no tools/pycheck_all/patterns.py")
        module.symlink_to("texts.py")
        self.assert_no_wheel("there is no tools/pycheck_all/patterns.py")

    def test_its_record_is_true(self) -> None:
        with zipfile.ZipFile(self.wheel()) as opened:
            record, wanted = f"pycheck-{self.version()}.dist-info/RECORD", []
            for name in opened.namelist():
                content = opened.read(name)
                digest = base64.urlsafe_b64encode(hashlib.sha256(content).digest()).decode().rstrip("=")
                wanted.append(f"{name},," if name == record else f"{name},sha256={digest},{len(content)}")
            self.assertEqual(opened.read(record).decode().splitlines(), wanted)
            self.assertEqual({it.date_time for it in opened.infolist()}, {(1980, 1, 1, 0, 0, 0)})

    def test_no_wheel_comes_of_a_broken_program(self) -> None:
        (self.clone / "release" / "pyrun.gz").write_bytes(b"broken")
        self.assert_no_wheel("release/pyrun.gz is broken")

    def test_no_wheel_comes_of_a_program_with_another_sum(self) -> None:
        (self.clone / "release" / "pyrun.gz").write_bytes((self.clone / "release" / "pycheck.gz").read_bytes())
        self.assert_no_wheel("release/pyrun.gz is not the program of release/SHA256SUMS")

    def test_no_wheel_comes_of_two_versions(self) -> None:
        self.ship("pyrun", b"#!/bin/sh\necho pyrun 9.9.9\n")
        self.assert_no_wheel("the versions differ", "pyrun --version says 9.9.9")

    def assert_no_wheel(self, *told: str) -> None:
        """Asserts that there is no wheel, and that the reason has these words."""
        done = self.make(self.clone, "out")
        self.assertEqual((done.returncode, done.stdout), (1, ""))
        for words in told:
            self.assertIn(words, done.stderr)
        self.assertFalse((self.room / "out").exists())

    def test_the_changes_begin_with_the_version(self) -> None:
        changes = (ROOT / "CHANGELOG.md").read_text(encoding="utf-8").splitlines()
        headings = [it[3:] for it in changes if it.startswith("## ")]
        self.assertEqual(headings[:1], [self.version()])


class Installed(Wheel):
    """A wheel in a fresh virtual environment."""

    def install(self) -> Path:
        """Installs the wheel without an index, and returns the folder of the commands."""
        if any(importlib.util.find_spec(it) is None for it in ("venv", "ensurepip")):
            self.skipTest("python3 has no venv: on Debian it is in the package python3-venv")
        environment = self.room / "environment"
        plain: Dict[str, str] = {"PATH": os.environ["PATH"], "HOME": str(self.room)}
        pip = [environment / "bin" / "pip", "install", "--no-index", "--disable-pip-version-check"]
        for words in ([sys.executable, "-m", "venv", environment], [*pip, self.wheel()]):
            done = run(words, self.room, plain)
            self.assertEqual(done.returncode, 0, done.stdout + done.stderr)
        return environment / "bin"

    def test_its_commands_run(self) -> None:
        commands = self.install()
        status, report = report_of(ROOT / "examples" / "ages.py")
        self.assert_answer(self.run_few(commands / "pycheck", "examples/ages.py"), status, report)
        done = self.run_few(commands / "pyrun", "--fuel", "4", "examples/add.py")
        self.assert_answer(done, 0, "58 59\n62 65\n58 65\nend TypeError\n")
        server = self.run_few(commands / "pycheck_server")
        self.assert_answer(server, 0, "")
        failing = self.run_few(commands / "pycheck-all", "examples/ages.py")
        self.assertEqual((failing.returncode, failing.stderr), (1, ""))
        self.assertIn("E12", failing.stdout)
        passing = self.run_few(commands / "pycheck-all", "examples/ages_mended.py")
        self.assertEqual((passing.returncode, passing.stderr), (0, ""), passing.stdout)
        core = self.room / "shop.py"
        shutil.copyfile(ROOT / "tutorial" / "shop" / "core.py", core)
        done = self.run_few(commands / "pycheck-all", "--guards", core)
        self.assertEqual((done.returncode, done.stderr), (0, ""), done.stdout)
        code = "import shop_api as s\ntry:\n    s.Item(2.5, 1)\nexcept TypeError as fault:\n    print(fault)\n"
        done = self.run_few(commands / "python", "-c", code, cwd=self.room)
        self.assert_answer(done, 0, "price: expected int, found float\n")
