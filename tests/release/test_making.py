"""The tools that build the programs, write the shipped ones and compare the two. A small script replaces the toolchain:
these tests are about what the tools do with the programs that it made."""
from __future__ import annotations

import hashlib
import os
import time
from typing import Dict

from room import MORE_TOOLS, PROGRAMS, ROOT, TOOLS, RoomCase, report_of

ANEW = "tools/ship release writes the shipped programs anew"
# The toolchain: it records its words, and copies the program of this folder
TOOLCHAIN = """echo "rt $*" >>"$ROOM/asked"
[ "$1" = run ] || exit 0
name=$(basename "$PWD")
cp "$ROOM/gives/$name" "out/$name" && chmod 755 "out/$name"
"""


class Making(RoomCase):
    """A clone with the tools that the makers need."""

    def setUp(self) -> None:
        super().setUp()
        self.few = self.folder_of_tools("more", [*TOOLS, *MORE_TOOLS])

    def files(self) -> Dict[str, bytes]:
        """Returns the files in release/ by their name, without unpacked programs."""
        files = (it for it in (self.clone / "release").iterdir() if it.name not in PROGRAMS)
        return {it.name: it.read_bytes() for it in files}


class Comparing(Making):
    """`tools/ship release --check`, which the gate calls once the programs are built."""

    def setUp(self) -> None:
        super().setUp()
        for name in PROGRAMS:
            self.put_built(name, self.shipped(name))

    def assert_differs(self, *told: str) -> None:
        """Asserts that the step fails, names the difference, and says how to write the files anew."""
        done = self.run_few("tools/ship", "release", "--check")
        self.assertEqual(done.returncode, 1, done.stdout)
        for words in (*told, ANEW):
            self.assertIn(words, done.stdout)

    def test_the_same_programs_pass(self) -> None:
        done = self.run_few("tools/ship", "release", "--check")
        self.assert_answer(done, 0, "3 shipped programs are those that were built, 0 differ\n")

    def test_a_changed_byte_in_what_was_built_fails(self) -> None:
        content = bytearray(self.shipped("pycheck"))
        content[len(content) // 2] ^= 1
        self.put_built("pycheck", content)
        place = len(content) // 2 + 1
        self.assert_differs("pycheck: the shipped program is not the one that was built", f" {place}, line",
                            "2 shipped programs are those that were built, 1 differ")

    def test_a_byte_more_in_what_was_built_fails(self) -> None:
        self.put_built("pycheck", self.shipped("pycheck") + b"\0")
        self.assert_differs("pycheck: the shipped program is not the one that was built")

    def test_another_shipped_program_fails(self) -> None:
        self.ship("pyrun", b"#!/bin/sh\n")
        self.assert_differs("pyrun: the shipped program is not the one that was built")

    def test_a_broken_shipped_file_fails(self) -> None:
        packed = self.clone / "release" / "pyrun.gz"
        packed.write_bytes(packed.read_bytes()[:-1])
        self.assert_differs("release/pyrun.gz is broken")

    def test_another_sum_fails(self) -> None:
        sums = self.clone / "release" / "SHA256SUMS"
        text = sums.read_text(encoding="ascii")
        sums.write_text(("1" if text[0] != "1" else "2") + text[1:], encoding="ascii")
        self.assert_differs("release/SHA256SUMS has another sum")

    def test_a_program_that_was_not_built_or_is_not_shipped_fails(self) -> None:
        (self.clone / "crates" / "pycheck" / "out" / "pycheck").unlink()
        (self.clone / "release" / "pyrun.gz").unlink()
        self.assert_differs("there is no crates/pycheck/out/pycheck", "there is no release/pyrun.gz", "2 differ")


class Writing(Making):
    """`tools/ship release`."""

    def test_what_is_written_is_what_was_built(self) -> None:
        programs = {**{it: self.shipped(it) for it in PROGRAMS}, "pycheck": b"#!/bin/sh\necho new\n"}
        for name, program in programs.items():
            self.put_built(name, program)
        sums = "".join(f"{hashlib.sha256(programs[it]).hexdigest()}  {it}\n" for it in PROGRAMS)
        self.assert_answer(self.run_few("tools/ship", "release"), 0, sums)
        self.assertEqual({it: self.shipped(it) for it in programs}, programs)
        self.assertEqual(self.run_few("tools/ship", "release", "--check").returncode, 0)
        packed = [f"{it}.gz" for it in PROGRAMS]
        self.assertEqual(sorted(self.files()), ["PROGRAMS", "README.md", "SHA256SUMS", "libpycheck.a.gz", *packed])

    def test_the_same_programs_give_the_same_bytes(self) -> None:
        written = []
        for seconds in (0, 1_000_000):
            for name in PROGRAMS:
                path = self.put_built(name, self.shipped(name))
                later = time.time() + 60 + seconds
                os.utime(path, (later, later))
            self.assertEqual(self.run_few("tools/ship", "release").returncode, 0)
            written.append(self.files())
        self.assertEqual(written[0], written[1])

    def test_nothing_is_written_of_an_older_or_a_missing_program(self) -> None:
        before = self.files()
        for name in PROGRAMS[:-1]:
            self.put_built(name, b"#!/bin/sh\n")
        for told in ("pyrun: no program was built here", "crates/pyrun/out/pyrun, is older than its sources"):
            done = self.run_few("tools/ship", "release")
            self.assertEqual((done.returncode, done.stdout), (1, ""))
            self.assertIn(told, done.stderr)
            self.assertEqual(self.files(), before)
            os.utime(self.put_built("pyrun", b"#!/bin/sh\n"), (1, 1))

    def test_mistaken_words(self) -> None:
        for words in (["--chek"], ["--check", "x"], [""]):
            with self.subTest(words=words):
                self.assert_not_run(self.run_few("tools/ship", "release", *words), "usage: tools/ship release")


class Building(Making):
    """`tools/ship build`, and `./pycheck` if the shipped program cannot run."""

    def setUp(self) -> None:
        super().setUp()
        (self.room / "gives").mkdir()
        for name in PROGRAMS:
            (self.room / "gives" / name).write_bytes(self.shipped(name))
        self.put_tool("rt", f"ROOM='{self.room}'\n{TOOLCHAIN}")
        self.sums = {it: hashlib.sha256(self.shipped(it)).hexdigest() for it in PROGRAMS}

    def asked(self) -> str:
        """Returns the words with which the toolchain was called."""
        return (self.room / "asked").read_text(encoding="utf-8")

    def test_all_are_built_and_their_sums_stand_beside_the_shipped_ones(self) -> None:
        done = self.run_few("tools/ship", "build")
        sums = [f"{self.sums[it]}  {it}, {where}\n" for it in PROGRAMS
                for where in ("built here", "shipped: the same")]
        self.assert_answer(done, 0, "".join(sums))
        self.assertEqual(self.asked(), "rt all check --jobs 4\nrt run -- --version\n" * len(PROGRAMS))
        self.assertEqual(self.run_few("tools/ship", "release", "--check").returncode, 0)

    def test_a_difference_is_told(self) -> None:
        other = b"#!/bin/sh\necho other\n"
        (self.room / "gives" / "pycheck").write_bytes(other)
        done = self.run_few("tools/ship", "build", "pycheck")
        self.assert_answer(done, 1, f"{hashlib.sha256(other).hexdigest()}  pycheck, built here\n"
                                    f"{self.sums['pycheck']}  pycheck, shipped: DIFFERS\n")

    def test_what_is_not_proved_is_not_built(self) -> None:
        self.put_tool("rt", "echo 'not proved' >&2\nexit 1\n")
        self.assert_not_run(self.run_few("tools/ship", "build"), "not proved", "pycheck could not be proved and built")

    def test_what_is_proved_and_does_not_run_is_told(self) -> None:
        self.put_tool("rt", '[ "$1" != run ]\n')
        self.assert_not_run(self.run_few("tools/ship", "build", "pyrun"), "pyrun could not be proved and built")

    def test_a_program_that_is_up_to_date_becomes_newer_than_its_sources(self) -> None:
        os.utime(self.put_built("pycheck", self.shipped("pycheck")), (1, 1))
        self.put_tool("rt", "exit 0\n")
        self.assertEqual(self.run_few("tools/ship", "build", "pycheck").returncode, 0)
        self.assertEqual(self.run_few("tools/ship", "program", "--built", "pycheck").returncode, 0)

    def test_an_edit_during_the_build_leaves_the_program_older(self) -> None:
        self.put_tool("rt", f"ROOM='{self.room}'\n{TOOLCHAIN}sleep 0.02\ntouch '{self.clone}/crates.txt'\n")
        self.run_few("tools/ship", "build", "pycheck", more={"PATH": f"{self.few}:/usr/bin:/bin"})
        done = self.run_few("tools/ship", "program", "--built", "pycheck")
        self.assertEqual(done.returncode, 1)
        self.assertIn("older than its sources", done.stderr)

    def test_where_the_shipped_one_does_not_serve_it_is_proved_and_built(self) -> None:
        self.put_tool("uname", "echo Linux aarch64\n")
        done = self.run_few("./pycheck", "examples/ages.py")
        self.assertEqual((done.returncode, done.stdout), report_of(ROOT / "examples" / "ages.py"))
        for words in ("this is Linux aarch64", "pycheck: proving and building the program, this once"):
            self.assertIn(words, done.stderr)
        self.assertEqual(self.asked(), "rt all check --jobs 4\nrt run -- --version\n")
        self.assert_answer(self.run_few("./pycheck", "examples/ages.py"), *report_of(ROOT / "examples" / "ages.py"))

    def test_a_broken_shipped_file_is_not_proved_anew(self) -> None:
        (self.clone / "release" / "pyrun.gz").write_bytes(b"broken")
        self.assert_not_run(self.run_few("./pyrun", "--fuel", "4", "examples/add.py"), "release/pyrun.gz is broken")
        self.assertFalse((self.room / "asked").exists())

    def test_mistaken_words(self) -> None:
        self.assert_not_run(self.run_few("tools/ship", "build", "pychekc"), "usage: tools/ship build")
