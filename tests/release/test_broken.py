"""A broken byte in a shipped or unpacked file is reported, and nothing is run."""
from __future__ import annotations

import gzip

from room import ROOT, RoomCase, report_of

# The part of a packed file that does not affect its content: flags, time, level and system
HEADER = range(3, 10)


class Broken(RoomCase):
    """The shipped file, the unpacked program, or the sums."""

    def check(self, *told: str) -> None:
        """Asserts that nothing is run or left behind, and that the reason has these words."""
        before = sorted(it.name for it in (self.clone / "release").iterdir())
        self.assert_not_run(self.run_few("./pycheck", "examples/ages.py"), "nothing is run", *told)
        self.assertEqual(sorted(it.name for it in (self.clone / "release").iterdir()), before)
        self.assertFalse((self.room / "ran").exists())

    def program_that_tells(self) -> bytes:
        """Returns a program that would report that it was run."""
        return f"#!/bin/sh\n: >'{self.room}/ran'\n".encode()

    def test_a_broken_byte_anywhere_in_the_shipped_file(self) -> None:
        packed = self.clone / "release" / "pycheck.gz"
        content = packed.read_bytes()
        length = len(content)
        places = [*range(12), *range(12, length - 8, length // 12), *range(length - 8, length)]
        for place in places:
            broken = bytearray(content)
            broken[place] ^= 0x20
            packed.write_bytes(broken)
            with self.subTest(place=place):
                done = self.run_few("./pycheck", "examples/ages.py")
                if place in HEADER and done.returncode != 3:
                    self.assert_answer(done, *report_of(ROOT / "examples" / "ages.py"))
                else:
                    self.assert_not_run(done, "release/pycheck.gz", "nothing is run")
                (self.clone / "release" / "pycheck").unlink(missing_ok=True)

    def test_a_shipped_file_that_ends_early(self) -> None:
        packed = self.clone / "release" / "pycheck.gz"
        packed.write_bytes(packed.read_bytes()[:-1000])
        self.check("release/pycheck.gz is broken")

    def test_a_shipped_file_with_another_program(self) -> None:
        (self.clone / "release" / "pycheck.gz").write_bytes(gzip.compress(self.program_that_tells()))
        self.check("release/pycheck.gz is not the program of release/SHA256SUMS")

    def test_a_broken_byte_in_the_unpacked_program(self) -> None:
        self.run_few("./pycheck", "examples/ages.py")
        unpacked = self.clone / "release" / "pycheck"
        content = bytearray(unpacked.read_bytes())
        content[len(content) // 2] ^= 0x20
        unpacked.write_bytes(content)
        self.check(str(unpacked), "is not the program of release/SHA256SUMS")

    def test_another_program_in_the_place_of_the_unpacked_one(self) -> None:
        self.run_few("./pycheck", "examples/ages.py")
        (self.clone / "release" / "pycheck").write_bytes(self.program_that_tells())
        self.check("is not the program of release/SHA256SUMS")

    def test_it_is_unpacked_again_once_the_broken_one_is_removed(self) -> None:
        self.test_another_program_in_the_place_of_the_unpacked_one()
        (self.clone / "release" / "pycheck").unlink()
        self.assert_answer(self.run_few("./pycheck", "examples/ages.py"), *report_of(ROOT / "examples" / "ages.py"))

    def test_no_sum_of_the_program(self) -> None:
        sums = self.clone / "release" / "SHA256SUMS"
        kept = [it for it in sums.read_text(encoding="ascii").splitlines() if not it.endswith("  pycheck")]
        sums.write_text("".join(f"{it}\n" for it in kept), encoding="ascii")
        self.check("release/SHA256SUMS has no sum of pycheck")
