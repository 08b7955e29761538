"""The output for hostile names, lines of source and baselines: no control character, and no unintended command."""
from __future__ import annotations

import json
import os
import re
from typing import Any, Dict, List
from xml.etree import ElementTree

from support import CLEAN, ERROR, HEADER, OPERATOR, Test

from pycheck_all import texts

FORMS = ("concise", "full", "github", "json", "gitlab", "sarif", "junit")
# ESC, a line feed, a delete, C1, ends of lines of Unicode, and each control of direction
CONTROLS = "\x1b\n\r\x07\x7f\x85\x9b\u2028\u2029\u202a\u202b\u202c\u202d\u202e\u2066\u2067\u2068\u2069"
CONTROLS += "\u061c\u200e\u200f"
NAMES = [
    "::stop-commands::tok.py",
    " ::error::a.py",
    "a\n::error::b.py",
    "c\x1b]0;title\x07.py",
    "d\x1b[31m.py",
    "e\u202eyp.py",
    "f##[add-mask]x.py",
    "g##vso[task.x]y.py",
    f"h{CONTROLS}.py",
]  # fmt: skip


class Harmless(Test):
    """Shared parts of the tests."""

    def assert_harmless(self, text: str, commands: bool = False) -> None:
        """Asserts that a text has no control character but line feeds, and no line that is a command unless that is
        intended."""
        for line in text.split("\n"):
            self.assertIsNone(texts.CONTROL.search(line), repr(line))
            if line.lstrip().startswith("::"):
                self.assertTrue(commands and re.match(r"::(error|warning|notice) [^:]*::", line), repr(line))
            else:
                self.assertNotRegex(line, r"##\w*\[")

    def hostile(self) -> None:
        """Writes files with hostile names: with an error, or with a refusal in a line of controls."""
        for at, name in enumerate(NAMES):
            self.write(name, ERROR if at % 2 else f'x = "{CONTROLS}" # ##[group]::error::\n')
        with open(os.fsencode(self.folder) + b"/n\xff\x9b.py", "wb") as file:
            file.write(ERROR.encode())
        (self.folder / "loop\x1b\u2066.py").symlink_to("loop\x1b\u2066.py")
        self.write("code.py", HEADER + f'def main():\n    print("{CONTROLS[3:]}" + 1)  # ##[group]x\n\nmain()\n')


class Output(Harmless):
    """All output."""

    def test_each_form_of_hostile_names(self) -> None:
        self.hostile()
        for form in FORMS:
            for words in ((), ("--all-refusals", "--statistics"), ("--strict", "--color", "always")):
                with self.subTest(form=form, words=words):
                    done = self.check("--output", form, *words, ".")
                    self.assertEqual(done.status, 3)
                    output = re.sub("\x1b\\[[0-9;]*m", "", done.output) if "always" in words else done.output
                    self.assert_harmless(output, form == "github")
                    self.assert_harmless(done.error)
                    self.assertGreater(len(output), 600)

    def test_colours_are_ours_alone(self) -> None:
        self.write("a\x1b[31m.py", ERROR)
        self.write("b.py", HEADER + 'def main():\n    print("\x1b[31m" + 1)\n\nmain()\n')
        shown = self.check("--output", "full", "--color", "always", ".").output
        self.assertNotIn("\x1b[31m", shown)
        self.assertIn("\x1b[1ma\\x1b[31m.py:4:11:\x1b[0m", shown)

    def test_documents_escape_by_themselves(self) -> None:
        self.hostile()
        for form in ("json", "gitlab", "sarif"):
            output = self.check("--output", form, ".").output
            self.assertTrue(output.isascii())
            self.assertIsNone(re.search("[^\n -~]", output))
            json.loads(output)
        output = self.check("--output", "junit", ".").output
        suites = ElementTree.fromstring(output.encode())
        self.assertEqual(len(suites), len(NAMES) + 3)
        self.assertIn("f##[add-mask]x.py", [it.get("name") for it in suites])

    def test_names_in_each_form(self) -> None:
        self.write("a\u202e\x9b.py", ERROR)
        name = "a\\u202e\\x9b.py"
        self.assertIn(name, self.lines("--output", "concise", ".")[0])
        self.assertIn(name, self.lines("--output", "full", ".")[0])
        self.assertIn(f"file={name},", self.lines("--output", "github", ".")[0])
        self.assertEqual(json.loads(self.check("--output", "json", ".").output)["files"][0]["path"], name)
        self.assertEqual(json.loads(self.check("--output", "gitlab", ".").output)[0]["location"]["path"], name)
        suite = ElementTree.fromstring(self.check("--output", "junit", ".").output.encode())
        self.assertEqual(suite[0].get("name"), name)

    def test_a_line_begins_with_no_command(self) -> None:
        self.write("::stop-commands::tok.py", ERROR)
        self.assertEqual(self.lines(".")[0], f"\\x3a:stop-commands::tok.py:4:11: {OPERATOR}")
        self.assertEqual(self.lines("--output", "full", ".")[0][:26], "\\x3a:stop-commands::tok.py")
        github = self.lines("--output", "github", ".")
        self.assertTrue(github[0].startswith("::error file=%3A%3Astop-commands%3A%3Atok.py,line=4,"))
        self.assertEqual(len([it for it in github if it.startswith("::")]), 1)

    def test_the_page(self) -> None:
        self.hostile()
        self.check("--page", "page.html", ".")
        page = (self.folder / "page.html").read_text(encoding="utf-8")
        self.assertIsNone(re.search(f"(?!\n)[{texts.CONTROLS}]", page.replace("\t", "")))

    def test_words_and_what_is_said_of_them(self) -> None:
        hostile = "\x1b[31m\u202e\n::error::x"
        (self.folder / hostile).mkdir()
        self.write("a.py", CLEAN)
        for words in (
            (hostile,),
            ("--explain", hostile),
            ("--program", hostile, "a.py"),
            ("--output", hostile, "a.py"),
            (f"--{hostile}", "a.py"),
            ("--baseline", hostile, "a.py"),
            ("--write-baseline", f"{hostile}/no/x", "a.py"),
            ("--page", f"{hostile}/no/x", "a.py"),
            ("--color", "::error::x", "a.py"),
            ("--stdin-name", "::error::x", "--program", hostile, "-"),
        ):
            with self.subTest(words):
                done = self.check(*words)
                self.assertEqual((done.status, done.output), (3, ""))
                self.assert_harmless(done.error)
                self.assertNotIn("::error::x", re.sub(r"(?m)^check_all: error: .*$|^usage: .*$", "", done.error))
        path = self.write(f"{hostile}.sh", "#!/bin/sh\necho '::error::x'\n")
        path.chmod(0o755)
        self.assert_harmless(self.check("--program", str(path), "--version").output)

    def test_what_a_program_says(self) -> None:
        self.write("a.py", CLEAN)
        program = self.program("printf '::error::\\033[31m\\302\\233\\n' >&2; exit 3")
        for form in FORMS:
            done = self.check("--program", program, "--output", form, "a.py")
            self.assertEqual(done.status, 3)
            self.assert_harmless(done.output, form == "github")


class Baselines(Harmless):
    """Baselines that somebody else wrote."""

    ENTRY: Dict[str, Any] = {"path": "a.py", "code": "E13", "line": 'print(1 + "a")', "count": 1}

    def refused(self, data: "str | bytes", said: str) -> None:
        """Asserts that a baseline is refused, in a line."""
        self.write("known.json", data)
        for option in ("--baseline", "--write-baseline"):
            done = self.check(option, "known.json", "--all-refusals", "a.py")
            self.assertEqual((done.status, done.output), (3, ""))
            self.assertEqual(len(done.error.splitlines()), 1)
            self.assertIn(said, done.error)
            self.assert_harmless(done.error)

    def test_entries_of_another_form(self) -> None:
        self.write("a.py", ERROR)
        values: Dict[str, List[Any]] = {
            "path": [None, 1, "", [], "a\x1b[31m", "a\n::error::b", "\u202e", "\ud800", "\x7f", "\u2028"],
            "code": [None, 1, "", "E", "E99", "E13\n", "E13\x1b", "e13", "::error::", ["E13"], {"E13": 1}],
            "line": [None, 1, "a\nb", "\ud800", []],
            "count": [None, "1", 0, -1, 1.0, True, 1 << 30, 10**100, []],
        }
        said = {"path": "the path of", "code": "the code of", "line": "the line of", "count": "the count of"}
        for name, wrong in values.items():
            for value in wrong:
                with self.subTest(name=name, value=value):
                    row = {**self.ENTRY, name: value}
                    self.refused(json.dumps({"format": 1, "known": [row]}), said[name])

    def test_wholes_of_another_form(self) -> None:
        self.write("a.py", ERROR)
        rows = ({"format": 1, "known": {}}, {"format": 1, "known": [[]]})
        for whole in ([], 1, None, {"known": []}, {"format": 1}, *rows):
            with self.subTest(whole):
                self.refused(json.dumps(whole), "this is no baseline: ")
        for format_value in (2, "1", True, None, 1.0, "\x1b]0;x\x07", "\n::error::x"):
            with self.subTest(format_value):
                self.refused(json.dumps({"format": format_value, "known": []}), "its format is not 1")
        self.refused("[" * 100_000, "nested too deep")
        self.refused(b"\xff", "this is no baseline: ")

    def test_a_line_of_controls_that_is_gone(self) -> None:
        self.write("a.py", CLEAN)
        row = {**self.ENTRY, "path": "::error::a.py", "line": CONTROLS.replace("\n", "") + "::error::"}
        self.write("known.json", json.dumps({"format": 1, "known": [row]}))
        for form in FORMS:
            with self.subTest(form):
                done = self.check("--output", form, "--baseline", "known.json", "a.py")
                self.assertEqual(done.status, 0)
                self.assert_harmless(done.output, form == "github")
                self.assert_harmless(done.error)

    def test_hostile_names_are_known(self) -> None:
        self.hostile()
        (self.folder / "loop\x1b\u2066.py").unlink()
        self.check("--write-baseline", "known.json", ".")
        done = self.check("--baseline", "known.json", ".")
        self.assertEqual((done.status, len(done.output.splitlines())), (0, 1))
        one = self.check("--baseline", "known.json", "code.py")
        self.assertEqual((one.status, one.output), (0, "1 file: 0 errors, 0 dynamic places, 1 known\n"))
