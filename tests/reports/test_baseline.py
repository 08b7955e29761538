"""The baseline: known findings do not fail and are counted, new ones fail, and those that are gone are reported."""
from __future__ import annotations

import json

from support import CLEAN, DYNAMIC, ERROR, HEADER, OPERATOR, REFUSED, Test

LINE = '    print(1 + "a")\n'


class Baselines(Test):
    """A baseline that is written, and the code that changes after it."""

    def module(self, *lines: str) -> str:
        """Returns a module with these lines in its function."""
        return HEADER + "def main():\n    pass\n" + "".join(lines) + "\nmain()\n"

    def known(self, *words: str) -> "tuple[int, list[str]]":
        """Returns the status and the lines with the baseline."""
        done = self.check("--baseline", "known.json", *words)
        return done.status, done.output.splitlines()

    def test_written_and_known(self) -> None:
        for name, text in (("a.py", ERROR), ("b/c.py", DYNAMIC), ("d.py", REFUSED), ("e.py", CLEAN)):
            self.write(name, text)
        counts = "4 files: 0 errors, 0 dynamic places, 3 known"
        done = self.check("--write-baseline", "known.json", ".")
        self.assertEqual((done.status, done.output), (0, counts + "\n"))
        self.assertEqual(
            json.loads((self.folder / "known.json").read_text(encoding="utf-8")),
            {
                "format": 1,
                "known": [
                    {"path": "a.py", "code": "E13", "line": 'print(1 + "a")', "count": 1},
                    {"path": "b/c.py", "code": "A2", "line": "return x + 1", "count": 1},
                    {"path": "d.py", "code": "N2", "line": "total += 1", "count": 1},
                ],
            },
        )
        self.assertEqual(self.known("."), (0, [counts]))
        self.assertEqual(self.known("--strict", "."), (0, [counts]))
        self.assertEqual(self.check(".").status, 2)

    def test_other_folders(self) -> None:
        self.write("src/a.py", ERROR)
        self.check("--write-baseline", "known.json", "src")
        self.assertEqual(self.known("src"), (0, ["1 file: 0 errors, 0 dynamic places, 1 known"]))
        self.assertEqual(self.known(str(self.folder / "src" / "a.py"))[0], 0)
        self.assertEqual(self.known("-")[0], 2)

    def test_lines_that_move_and_change(self) -> None:
        self.write("a.py", self.module(LINE))
        self.check("--write-baseline", "known.json", ".")
        self.write("a.py", self.module("    if True:\n", "    " + LINE))
        self.assertEqual(self.known("."), (0, ["1 file: 0 errors, 0 dynamic places, 1 known"]))
        self.write("a.py", self.module(LINE.replace("1", "2")))
        self.assertEqual(
            self.known("."),
            (
                1,
                [
                    f"a.py:5:11: {OPERATOR}",
                    'a.py: E13 is known but gone: print(1 + "a")',
                    "1 file: 1 error, 0 dynamic places, 1 known but gone",
                ],
            ),
        )

    def test_other_code_and_other_file(self) -> None:
        self.write("a.py", ERROR)
        self.check("--write-baseline", "known.json", ".")
        self.write("b.py", ERROR)
        self.assertEqual(self.known(".")[1], [f"b.py:4:11: {OPERATOR}", "2 files: 1 error, 0 dynamic places, 1 known"])
        text = (self.folder / "known.json").read_text(encoding="utf-8")
        self.write("known.json", text.replace("E13", "E12"))
        self.assertEqual(self.known("a.py")[1][0], f"a.py:4:11: {OPERATOR}")

    def test_as_often_as_written(self) -> None:
        self.write("a.py", self.module(LINE, LINE))
        self.check("--write-baseline", "known.json", ".")
        self.write("a.py", self.module(LINE, LINE, LINE))
        self.assertEqual(
            self.known("."), (1, [f"a.py:7:11: {OPERATOR}", "1 file: 1 error, 0 dynamic places, 2 known"])
        )
        self.write("a.py", self.module())
        self.assertEqual(
            self.known("."),
            (
                0,
                [
                    'a.py: E13 is known but gone (2 times): print(1 + "a")',
                    "1 file: 0 errors, 0 dynamic places, 2 known but gone",
                ],
            ),
        )

    def test_gone_with_the_file(self) -> None:
        self.write("a.py", CLEAN)
        self.write("b.py", ERROR)
        self.write("c.py", ERROR)
        self.check("--write-baseline", "known.json", ".")
        (self.folder / "b.py").unlink()
        self.assertEqual(
            self.known("a.py"),
            (
                0,
                ['b.py: E13 is known but gone: print(1 + "a")', "1 file: 0 errors, 0 dynamic places, 1 known but gone"],
            ),
        )

    def test_not_gone_while_it_cannot_be_seen(self) -> None:
        self.write("a.py", ERROR)
        self.check("--write-baseline", "known.json", ".")
        self.write("a.py", REFUSED)
        self.assertEqual(
            self.known(".")[1],
            ["a.py:5:11: N2 refused: excluded operator", "1 file: 0 errors, 0 dynamic places, 1 refused"],
        )
        program = self.program("exit 9")
        self.assertEqual(
            self.known("--program", program, ".")[1][1:], ["1 file: 0 errors, 0 dynamic places, 1 not checked"]
        )

    def test_refusals_one_after_the_other(self) -> None:
        body = "    x = 1\n    x += 1\n    x -= 1\n"
        self.write("a.py", self.module(body))
        self.check("--all-refusals", "--write-baseline", "known.json", ".")
        self.assertEqual(self.known("."), (0, ["1 file: 0 errors, 0 dynamic places, 1 known"]))
        self.write("a.py", self.module(body.replace("x += 1", "x = x + 1")))
        self.assertEqual(self.known("."), (0, ["1 file: 0 errors, 0 dynamic places, 1 known"]))
        self.assertEqual(
            self.known("--all-refusals", ".")[1],
            ["a.py: N2 is known but gone: x += 1", "1 file: 0 errors, 0 dynamic places, 1 known, 1 known but gone"],
        )

    def test_written_again_it_shrinks(self) -> None:
        for name in ("a.py", "b.py", "c.py"):
            self.write(name, ERROR)
        self.check("--write-baseline", "known.json", ".")
        self.write("a.py", CLEAN)
        (self.folder / "c.py").unlink()
        self.check("--write-baseline", "known.json", "a.py")
        known = json.loads((self.folder / "known.json").read_text(encoding="utf-8"))["known"]
        self.assertEqual([it["path"] for it in known], ["b.py"])

    def test_old_and_new_baseline_at_once(self) -> None:
        self.write("a.py", ERROR)
        self.check("--write-baseline", "known.json", ".")
        self.write("b.py", ERROR)
        done = self.check("--baseline", "known.json", "--write-baseline", "new.json", ".")
        self.assertEqual((done.status, done.output.splitlines()[0]), (1, f"b.py:4:11: {OPERATOR}"))
        self.assertEqual(self.check("--baseline", "new.json", ".").status, 0)

    def test_every_form_counts_what_is_known(self) -> None:
        self.write("a.py", ERROR)
        self.check("--write-baseline", "known.json", ".")
        counts = "1 file: 0 errors, 0 dynamic places, 1 known"
        for form in ("concise", "full", "github"):
            self.assertEqual(self.known("--output", form, "."), (0, [counts]))
        for form in ("gitlab", "sarif", "junit"):
            done = self.check("--output", form, "--baseline", "known.json", ".")
            self.assertEqual((done.status, done.error), (0, counts + "\n"))
        whole = json.loads(self.check("--output", "json", "--baseline", "known.json", ".").output)
        self.assertEqual((whole["counts"]["known"], whole["files"][0]["findings"][0]["known"]), (1, True))
        self.assertEqual(json.loads(self.check("--output", "gitlab", "--baseline", "known.json", ".").output), [])
        junit = self.check("--output", "junit", "--baseline", "known.json", ".").output
        self.assertIn('tests="1" failures="0" errors="0" skipped="1"', junit)
        self.check("--page", "page.html", "--baseline", "known.json", ".")
        self.assertIn('<mark class="place error known"', (self.folder / "page.html").read_text(encoding="utf-8"))

    def test_every_form_tells_what_is_gone(self) -> None:
        self.write("a.py", ERROR)
        self.check("--write-baseline", "known.json", ".")
        self.write("a.py", CLEAN)
        for form in ("concise", "full", "github", "json", "sarif"):
            with self.subTest(form):
                output = self.check("--output", form, "--baseline", "known.json", ".").output
                self.assertIn("1 + " + ('\\"a\\"' if form in ("json", "sarif") else '"a"'), output)

    def test_files_that_are_no_baseline(self) -> None:
        self.write("a.py", ERROR)
        for text in (
            "",
            "[]",
            "{}",
            '{"format": 2, "known": []}',
            '{"format": 1, "known": [{}]}',
            "\x00",
            '{"format": 1}',
            '{"format": 1, "known": [{"path": 1, "code": "E13", "line": "", "count": 1}]}',
        ):
            with self.subTest(text):
                self.write("known.json", text)
                for option in ("--baseline", "--write-baseline"):
                    done = self.check(option, "known.json", "a.py")
                    self.assertEqual((done.status, done.output), (3, ""))
                    self.assertIn("check_all: error: known.json: ", done.error)
                self.assertEqual((self.folder / "known.json").read_text(), text)
        missing = self.check("--baseline", "missing.json", "a.py")
        self.assertEqual(missing.error, "check_all: error: missing.json: No such file or directory\n")
        self.assertEqual(self.check("--write-baseline", "no/known.json", "a.py").status, 3)
        self.write("b.py", CLEAN)
        self.assertEqual(self.check("--write-baseline", "b.py", "a.py").status, 3)
        self.assertEqual((self.folder / "b.py").read_text(), CLEAN)
