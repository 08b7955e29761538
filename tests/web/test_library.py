"""The library for C, beside the program."""
from __future__ import annotations

import gzip
from pathlib import Path

from beside import EXAMPLES, FORMS, ROOT, RoomCase, large_module, made_modules, program, run

UNKNOWN_FORMAT = 10 + 3


class Library(RoomCase):
    """A program in C that links it."""

    def setUp(self) -> None:
        super().setUp()
        compiler, self.made = self.need("cc", "gcc", "clang"), self.room / "library_test"
        archive = self.room / "libpycheck.a"
        archive.write_bytes(gzip.decompress((ROOT / "release" / "libpycheck.a.gz").read_bytes()))
        source = ROOT / "tests" / "web" / "library_test.c"
        built = run(compiler, "-Wall", "-Wextra", "-Werror", "-I", ROOT / "include", source, archive, "-o", self.made)
        self.assertEqual(built.returncode, 0, built.stderr.decode())

    def compare(self, file: Path) -> None:
        """Asserts that the library answers a file in each form as the program does."""
        for form in FORMS:
            what = "types" if "--types" in form else 1 if "1" in "".join(form) else 2
            done = run(self.made, "json" if "--json" in form else "text", what, file)
            self.assertEqual((done.returncode, done.stdout, done.stderr), program(*form, file), (file, form))

    def test_reports_and_types_of_all_examples(self) -> None:
        for file in EXAMPLES:
            self.compare(file)

    def test_reports_and_types_of_modules_made_at_random(self) -> None:
        for file in self.files([*made_modules()[:100], large_module(1_000_000), b"", b"#" * 1_048_577]):
            self.compare(file)

    def test_numbers_that_name_no_format(self) -> None:
        for number in (0, 3, 4_294_967_295):
            done = run(self.made, "text", number, EXAMPLES[0])
            self.assertEqual((done.returncode, done.stdout), (UNKNOWN_FORMAT, b""))
