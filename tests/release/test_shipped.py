"""The shipped programs answer in a clone without a toolchain; if they cannot run, the reason is given."""
from __future__ import annotations

import os
import shutil
import subprocess
import time
from pathlib import Path
from typing import Any, Dict, List

from room import LIMIT, PROGRAMS, ROOT, RoomCase, files_of, report_of, run

RUN_OF_README = "58 59\n62 65\n58 65\nend TypeError\n"
# The output of a program of these tests, which tells it from the shipped one
OTHER = b'#!/bin/sh\necho "another program: $*"\n'
OLD = 1_000_000_000  # a time in seconds, long before any file of the clone
AGES = ROOT / "examples" / "ages.py"
# How many bytes the repository may grow by with each submission
GROWTH = 3 << 20


class InAClone(RoomCase):
    """With a shell, gzip, sha256sum, find, grep and the small tools on PATH, and nothing else in the environment."""

    def test_each_example_is_answered_by_the_report_beside_it(self) -> None:
        modules = sorted((ROOT / "examples").glob("*.py"))
        self.assertGreaterEqual(len(modules), 6)
        for module in modules:
            with self.subTest(module.name):
                done = self.run_few("./pycheck", f"examples/{module.name}")
                self.assert_answer(done, *report_of(module))

    def test_a_run_is_answered_as_the_first_page_shows(self) -> None:
        shown = "".join(f"    {it}\n" for it in RUN_OF_README.splitlines())
        self.assertIn(shown, (ROOT / "README.md").read_text(encoding="utf-8"))
        self.assert_answer(self.run_few("./pyrun", "--fuel", "4", "examples/add.py"), 0, RUN_OF_README)

    def test_the_first_answer_takes_less_than_a_second(self) -> None:
        seconds = []
        for name in ("first", "second", "third"):
            clone = self.copy_tree(name)
            begun = time.monotonic()
            done = self.run_few("./pycheck", "examples/ages.py", cwd=clone)
            seconds.append(time.monotonic() - begun)
            self.assertEqual(done.returncode, 1, done.stderr)
        self.assertLess(min(seconds), 1.0)

    def test_a_link_to_the_command_serves_from_another_folder(self) -> None:
        shutil.copy(self.clone / "examples" / "ages.py", self.room / "here.py")
        (self.room / "checker").symlink_to(self.clone / "pycheck")
        self.assert_answer(self.run_few("../checker", "../here.py", cwd=self.few), *report_of(AGES))

    def test_a_path_with_spaces_serves(self) -> None:
        clone = self.copy_tree("a  clone $HOME 'of' \"it\"")
        self.assert_answer(self.run_few(clone / "pycheck", "examples/ages.py"), *report_of(AGES))

    def test_standard_input_is_left_to_the_program(self) -> None:
        words = ["./pycheck", "/dev/stdin"]
        done = run(words, self.clone, {"PATH": str(self.few)}, input=AGES.read_text(encoding="utf-8"))
        self.assert_answer(done, *report_of(AGES))

    def test_many_at_once_do_no_harm(self) -> None:
        words: List[str] = [str(self.clone / "pycheck"), "examples/ages.py"]
        how: Dict[str, Any] = {"cwd": self.clone, "env": {"PATH": str(self.few)}}
        how.update(stdout=subprocess.PIPE, stderr=subprocess.PIPE)
        begun = [subprocess.Popen(words, text=True, **how) for _ in range(12)]
        answers = {(*it.communicate(timeout=LIMIT), it.returncode) for it in begun}
        status, report = report_of(AGES)
        self.assertEqual(answers, {(report, "", status)})
        self.assertEqual([it.name for it in (self.clone / "release").iterdir() if it.name.startswith(".")], [])

    def test_it_is_unpacked_once(self) -> None:
        self.run_few("./pycheck", "examples/ages.py")
        unpacked = self.clone / "release" / "pycheck"
        before = unpacked.stat()
        self.run_few("./pycheck", "examples/ages.py")
        self.assertEqual((before.st_ino, before.st_mtime_ns), (unpacked.stat().st_ino, unpacked.stat().st_mtime_ns))
        self.assertEqual(unpacked.read_bytes(), self.shipped("pycheck"))

    def test_a_newer_shipped_program_is_unpacked_anew(self) -> None:
        self.run_few("./pycheck", "examples/ages.py")
        os.utime(self.clone / "release" / "pycheck", (OLD, OLD))
        self.ship("pycheck", OTHER)
        self.assert_answer(self.run_few("./pycheck", "a.py"), 0, "another program: a.py\n")

    def test_what_is_shipped_is_small(self) -> None:
        shipped = list((self.clone / "release").glob("*.gz"))
        self.assertEqual(len(shipped), len(PROGRAMS) + 1, "the programs, and the library for C")
        self.assertLess(sum(it.stat().st_size for it in shipped), GROWTH)

    def test_words_and_status_are_those_of_the_program(self) -> None:
        for name in PROGRAMS:
            self.ship(name, b'#!/bin/sh\n[ "$1" = --version ] && exit\nprintf "<%s>" "$@"\nexit 7\n')
            done = self.run_few(f"./{name}", "a  b", "", "$HOME", "--", "-c")
            self.assert_answer(done, 7, "<a  b><><$HOME><--><-c>")


class InAGitClone(RoomCase):
    """The committed state, with the shipped files of the work tree."""

    def test_it_answers_and_git_sees_no_change(self) -> None:
        environment = {"PATH": os.environ["PATH"], "HOME": str(self.room), "LC_ALL": "C"}
        done = run(["git", "clone", "-q", ROOT, "cloned"], self.room, environment)
        if done.returncode != 0:
            self.skipTest(f"git does not clone this tree: {done.stderr.strip()}")
        clone = self.room / "cloned"
        for file in files_of(["release"]):
            shutil.copyfile(file, clone / "release" / file.name)
        before = run(["git", "status", "--porcelain", "-uall"], clone, environment).stdout
        self.assert_answer(self.run_few("./pycheck", "examples/ages.py", cwd=clone), *report_of(AGES))
        self.assert_answer(self.run_few("./pyrun", "--fuel", "4", "examples/add.py", cwd=clone), 0, RUN_OF_README)
        self.assertTrue((clone / "release" / "pycheck").is_file())
        self.assertEqual(run(["git", "status", "--porcelain", "-uall"], clone, environment).stdout, before)


class Unwritable(RoomCase):
    """A clone that its user may not write in."""

    def setUp(self) -> None:
        super().setUp()
        self.user = self.require_nobody()
        self.home = self.room / "home"
        self.home.mkdir()
        if self.user:
            os.chown(self.home, 65534, 65534)
        (self.clone / "release").chmod(0o555)

    def check(self, **environment: str) -> None:
        """Asserts that the example is answered, twice, and nothing is left in the clone."""
        before = sorted(it.name for it in (self.clone / "release").iterdir())
        for _ in range(2):
            done = self.run_few("./pycheck", "examples/ages.py", user=self.user, more=environment)
            self.assert_answer(done, *report_of(AGES))
        self.assertEqual(sorted(it.name for it in (self.clone / "release").iterdir()), before)

    def unpacked(self) -> List[str]:
        """Returns the programs that were unpacked below the home, by their folder."""
        return [str(it.parents[1].relative_to(self.home)) for it in self.home.rglob("pycheck") if it.is_file()]

    def test_it_is_unpacked_into_the_named_cache(self) -> None:
        self.check(XDG_CACHE_HOME=f"{self.home}/kept", HOME=str(self.home))
        self.assertEqual(self.unpacked(), ["kept/pycheck"])

    def test_it_is_unpacked_into_the_cache_of_the_home(self) -> None:
        self.check(HOME=str(self.home))
        self.assertEqual(self.unpacked(), [".cache/pycheck"])

    def test_a_folder_that_is_not_named_from_the_root_is_not_taken(self) -> None:
        work = self.room / "work"
        work.mkdir()
        if self.user:
            os.chown(work, 65534, 65534)
        for more in ({"XDG_CACHE_HOME": "kept", "HOME": str(self.home)}, {"HOME": "kept", "TMPDIR": str(self.home)}):
            with self.subTest(more):
                done = self.run_few(self.clone / "pycheck", AGES, user=self.user, cwd=work, more=more)
                self.assert_answer(done, *report_of(AGES))
                self.assertEqual(os.listdir(work), [])
        self.assertEqual(sorted(self.unpacked()), [".", ".cache/pycheck"])

    def test_it_is_unpacked_among_the_temporary_files(self) -> None:
        self.check(HOME="/nowhere", TMPDIR=str(self.home))
        self.assertEqual(self.unpacked(), ["."])

    def test_a_folder_that_others_may_write_is_not_taken(self) -> None:
        self.check(TMPDIR=str(self.home))
        (folder,) = self.home.iterdir()
        for mode in (0o720, 0o702):
            with self.subTest(mode=oct(mode)):
                folder.chmod(mode)
                self.assert_not_taken()
        folder.chmod(0o700)
        folder.rename(self.home / "moved")
        folder.symlink_to(self.home / "moved")
        self.assert_not_taken()

    def test_a_folder_of_another_user_is_not_taken(self) -> None:
        if not self.user:
            self.skipTest("only root can make a folder of another user")
        self.check(TMPDIR=str(self.home))
        (folder,) = self.home.iterdir()
        os.chown(folder, 0, 0)
        folder.chmod(0o755)
        self.assert_not_taken()

    def assert_not_taken(self) -> None:
        """Asserts that the program among the temporary files is not used."""
        done = self.run_few("tools/ship", "program", "pycheck", user=self.user, more={"TMPDIR": str(self.home)})
        self.assertEqual((done.returncode, done.stdout), (1, ""))
        self.assertIn("cannot be unpacked", done.stderr)

    def test_a_broken_byte_in_the_cache_is_told_and_not_run(self) -> None:
        self.check(HOME=str(self.home))
        (unpacked,) = (it for it in self.home.rglob("pycheck") if it.is_file())
        content = bytearray(unpacked.read_bytes())
        content[len(content) // 2] ^= 1
        unpacked.write_bytes(content)
        done = self.run_few("./pycheck", "examples/ages.py", user=self.user, more={"HOME": str(self.home)})
        self.assert_not_run(done, str(unpacked), "nothing is run")


class BuiltHere(RoomCase):
    """A program that was built in the clone is used if it is newer than the sources."""

    def test_a_newer_program_is_taken(self) -> None:
        self.put_built("pycheck", OTHER)
        self.assert_answer(self.run_few("./pycheck", "a.py"), 0, "another program: a.py\n")

    def test_one_that_is_older_than_a_source_is_not(self) -> None:
        for source in ("crates/pc_commands/src/check_words.rt", "crates.txt", "HANDLES"):
            with self.subTest(source):
                self.put_built("pycheck", OTHER)
                self.assertEqual(self.run_few("tools/ship", "program", "--built", "pycheck").returncode, 0)
                later = time.time() + 60
                os.utime(self.clone / source, (later, later))
                self.assert_answer(self.run_few("./pycheck", "examples/ages.py"), *report_of(AGES))
                done = self.run_few("tools/ship", "program", "--built", "pycheck")
                self.assertEqual((done.returncode, done.stdout), (1, ""))
                self.assertIn("older than its sources", done.stderr)
                os.utime(self.clone / source, (OLD, OLD))

    def test_what_the_toolchain_keeps_is_no_source(self) -> None:
        program = self.put_built("pycheck", OTHER)
        kept = program.parent / "kept"
        kept.write_text("", encoding="utf-8")
        later = time.time() + 60
        os.utime(kept, (later, later))
        self.assert_answer(self.run_few("./pycheck", "a.py"), 0, "another program: a.py\n")


class WhereItDoesNotServe(RoomCase):
    """A system, a processor or a C library that the shipped program is not for, or missing tools."""

    def assert_told(self, *words: str) -> None:
        """Asserts that no program is found, the reason is given, and nothing is built without a toolchain."""
        found = self.run_few("tools/ship", "program", "pycheck")
        self.assertEqual((found.returncode, found.stdout), (1, ""), found.stderr)
        done = self.run_few("./pycheck", "examples/ages.py")
        self.assert_not_run(done, *words, "proving and building the program", "its command rt is not on PATH")
        for word in words:
            self.assertIn(word, found.stderr)

    def test_another_system(self) -> None:
        self.put_tool("uname", "echo Darwin arm64\n")
        self.assert_told("is for Linux on x86_64, and this is Darwin arm64")

    def test_an_older_processor(self) -> None:
        self.put_tool("grep", f'[ "$1" = -m ] || exec {shutil.which("grep")} "$@"\n'
                              "printf 'flags\\t\\t: fpu cx16 lahf_lm sse4_1 sse4_2 ssse3 avx_popcnt\\n'\n")
        self.assert_told("x86-64-v2", "does not show popcnt")

    def test_no_gzip(self) -> None:
        (self.few / "gzip").unlink()
        self.assert_told("by gzip, which is not on PATH")

    def test_an_older_c_library(self) -> None:
        self.ship("pycheck", b"#!/bin/sh\necho \"version GLIBC_2.34 not found\" >&2\nexit 1\n")
        self.assert_told("does not run here", "version GLIBC_2.34 not found")

    def test_nothing_is_shipped(self) -> None:
        (self.clone / "release" / "pycheck.gz").unlink()
        self.assert_told("there is no release/pycheck.gz")

    def test_mistaken_words(self) -> None:
        mistaken: List[List[str]] = [[], ["nothing"], ["pycheck", "pyrun"], ["--built"], [""]]
        for words in mistaken:
            with self.subTest(words=words):
                self.assert_not_run(self.run_few("tools/ship", "program", *words), "usage: tools/ship program")
