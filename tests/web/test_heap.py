"""The heap of the page and its numbers of 128 bits, built for this machine."""
from __future__ import annotations

from beside import ROOT, WEB, RoomCase, run

HERE = ROOT / "tests" / "web"
WORDS = ("-std=gnu11", "-O2", "-fno-strict-aliasing", "-Wall", "-Wextra", "-Werror", "-I", WEB, "-I", HERE)


class Heap(RoomCase):
    """Tests in C of code in C."""

    def said(self, name: str, *words: str) -> str:
        """Returns the output of the test of this name, which must pass."""
        compiler, made = self.need("cc", "gcc", "clang"), self.room / name
        built = run(compiler, *WORDS, *words, HERE / f"{name}.c", "-o", made)
        self.assertEqual(built.returncode, 0, built.stderr.decode())
        done = run(made)
        self.assertEqual(done.returncode, 0, done.stdout.decode())
        return done.stdout.decode()

    def test_blocks_lie_apart_under_random_use_and_where_memory_ends(self) -> None:
        self.assertRegex(self.said("heap_test"), r"^100000 steps twice, [1-9]\d{3,} times memory was wanting\n$")

    def test_numbers_of_128_bits(self) -> None:
        self.assertEqual(self.said("runtime_test"), "1000000 numbers are the same\n")
