"""The forms of output, each compared with the output worked out by hand for the folder of modules."""
from __future__ import annotations

import json
import re
from typing import Any, Dict, List, Tuple
from xml.etree import ElementTree

from support import CLEAN, DYNAMIC, ERROR, EXPECTED, HEADER, REFUSED, ROOT, Test, modules

SCHEMA_REQUIRES = {
    "log": ("version", "runs"),
    "run": ("tool",),
    "tool": ("driver",),
    "toolComponent": ("name",),
    "reportingDescriptor": ("id",),
    "result": ("message",),
    "invocation": ("executionSuccessful",),
    "notification": ("message",),
    "suppression": ("kind",),
}


class Forms(Test):
    """Every form, over the same modules."""

    def setUp(self) -> None:
        super().setUp()
        modules(self.folder)

    def expected(self, name: str) -> str:
        """Returns an expected output."""
        return (EXPECTED / name).read_text(encoding="utf-8")

    def compare(self, form: str, name: str) -> None:
        """Compares the output, letter by letter."""
        done = self.check("--output", form, ".")
        self.assertEqual(done.output, self.expected(name))
        self.assertEqual(done.status, 3)

    def document(self, form: str) -> Any:
        """Returns a document in JSON that is the whole output."""
        done = self.check("--output", form, ".")
        self.assertEqual(done.status, 3)
        return json.loads(done.output)

    def test_concise(self) -> None:
        self.compare("concise", "concise.txt")

    def test_concise_is_the_form_for_pipes(self) -> None:
        self.assertEqual(self.check(".").output, self.expected("concise.txt"))

    def test_full(self) -> None:
        self.compare("full", "full.txt")

    def test_github(self) -> None:
        self.compare("github", "github.txt")

    def test_junit(self) -> None:
        self.compare("junit", "junit.xml")
        ElementTree.fromstring(self.expected("junit.xml").encode())

    def test_json(self) -> None:
        document = self.document("json")
        self.assertRegex(document.pop("program"), r"^pycheck \d+\.\d+\.\d+$")
        self.assertEqual(document, json.loads(self.expected("json.json")))

    def test_gitlab(self) -> None:
        self.assertEqual(self.document("gitlab"), json.loads(self.expected("gitlab.json")))

    def test_sarif(self) -> None:
        document = self.document("sarif")
        driver = document["runs"][0]["tool"]["driver"]
        self.assertRegex(driver.pop("version"), r"^\d+\.\d+\.\d+$")
        page = (ROOT / "docs" / "CODES.md").read_text(encoding="utf-8")
        for rule in driver["rules"]:
            help_texts, full = rule.pop("help"), rule.pop("fullDescription")
            self.assertTrue(full["text"].startswith(rule["shortDescription"]["text"]))
            self.assertIn(f"{rule['id']} {rule['name']}\n", help_texts["text"])
            self.assertIn(help_texts["markdown"].partition("\n\n")[2], page)
        self.assertEqual(document, json.loads(self.expected("sarif.json")))

    def test_counts_stand_on_standard_error_beside_documents(self) -> None:
        counts = self.expected("concise.txt").splitlines()[-1]
        for form in ("gitlab", "sarif", "junit"):
            with self.subTest(form):
                self.assertEqual(self.check("--output", form, ".").error, counts + "\n")


class Sarif(Test):
    """The requirements of the schema of SARIF 2.1.0 on the parts of a log."""

    def require(self, part: Any, kind: str) -> Any:
        """Returns a part, after checking that it has everything that the schema requires of its kind."""
        for name in SCHEMA_REQUIRES[kind]:
            self.assertIn(name, part, kind)
        if "message" in SCHEMA_REQUIRES[kind]:
            self.assertTrue(part["message"]["text"])
        return part

    def test_required_fields(self) -> None:
        modules(self.folder)
        self.check("--write-baseline", "known.json", "errors.py")
        log = self.require(json.loads(self.check("--output", "sarif", "--baseline", "known.json", ".").output), "log")
        self.assertEqual(log["version"], "2.1.0")
        run = self.require(log["runs"][0], "run")
        driver = self.require(self.require(run["tool"], "tool")["driver"], "toolComponent")
        rules = [self.require(it, "reportingDescriptor") for it in driver["rules"]]
        self.assertEqual(len({it["id"] for it in rules}), len(rules))
        self.assertIn(run["columnKind"], ("utf16CodeUnits", "unicodeCodePoints"))
        for invocation in run["invocations"]:
            self.require(invocation, "invocation")
            for notification in invocation["toolExecutionNotifications"]:
                self.require(notification, "notification")
        self.assertEqual(len(run["results"]), 13)
        for result in run["results"]:
            self.require(result, "result")
            self.assertEqual(rules[result["ruleIndex"]]["id"], result["ruleId"])
            self.assertIn(result["level"], ("none", "note", "warning", "error"))
            region = result["locations"][0]["physicalLocation"]["region"]
            self.assertTrue(all(region[name] >= 1 for name in ("startLine", "startColumn", "endLine", "endColumn")))
        suppressed = [
            self.require(it, "suppression") for result in run["results"] for it in result.get("suppressions", [])
        ]
        self.assertEqual([it["kind"] for it in suppressed], ["external", "external"])


class Details(Test):
    """Details that the folder of modules does not show."""

    def test_full_is_the_form_for_terminals(self) -> None:
        self.write("a.py", ERROR)
        status, shown = self.on_terminal("a.py")
        self.assertEqual(status, 1)
        plain = re.sub(r"\x1b\[[0-9;]*m", "", shown)
        self.assertEqual(plain.splitlines()[1:3], ['  4 |     print(1 + "a")', "    |           ^^^^^^^"])
        self.assertIn("\x1b[1;31m^^^^^^^\x1b[0m", shown)

    def test_colours(self) -> None:
        self.write("a.py", ERROR)
        cases: List[Tuple[Tuple[str, ...], Dict[str, str], bool]] = [
            ((), {"NO_COLOR": "1"}, False),
            ((), {"NO_COLOR": ""}, True),
            ((), {"TERM": "dumb"}, False),
            (("--color", "never"), {}, False),
            (("--color", "always"), {"NO_COLOR": "1"}, True),
        ]
        for words, changed, coloured in cases:
            with self.subTest(words=words, changed=changed):
                self.assertEqual("\x1b[1;31m" in self.on_terminal(*words, "a.py", **changed)[1], coloured)
        self.assertNotIn("\x1b", self.check("--output", "full", "a.py").output)
        self.assertIn("\x1b[1;31m", self.check("--output", "full", "--color", "always", "a.py").output)

    def test_long_lines_are_cut_to_the_width(self) -> None:
        self.write(
            "a.py", HEADER + 'def main():\n    print("' + "x" * 100 + '", 1 + "a", "' + "y" * 100 + '")\n\nmain()\n'
        )
        lines = self.lines("--output", "full", "a.py", COLUMNS="60")
        self.assertEqual(len(lines[1]), 60)
        self.assertTrue(lines[1].startswith("  4 | …xx") and lines[1].endswith("yy…"))
        start = lines[2].index("^")
        self.assertEqual(lines[1][start : start + 7], '1 + "a"')
        self.assertEqual(lines[2].count("^"), 7)

    def test_control_characters_are_not_shown(self) -> None:
        self.write("a.py", CLEAN.replace("hello", "\x1b[31m\u202e").replace('")', '" + 1)'))
        shown = self.check("--output", "full", "a.py").output
        self.assertIn('print("\ufffd[31m\ufffd" + 1)', shown)
        self.assertNotIn("\x1b", shown)

    def test_strict_raises_the_levels(self) -> None:
        self.write("a.py", DYNAMIC)
        for form, plain, strict in (
            ("github", "::warning ", "::error "),
            ("gitlab", '"minor"', '"major"'),
            ("sarif", '"level": "warning"', '"level": "error"'),
            ("junit", "<skipped ", "<failure "),
        ):
            with self.subTest(form):
                done, strictly = self.check("--output", form, "a.py"), self.check("--strict", "--output", form, "a.py")
                self.assertEqual((done.status, strictly.status), (0, 1))
                self.assertIn(plain, done.output)
                self.assertNotIn(strict, done.output)
                self.assertIn(strict, strictly.output)
                self.assertNotIn(plain, strictly.output)

    def test_github_escapes(self) -> None:
        self.write("a,b:c%.py", ERROR)
        self.assertTrue(self.lines("--output", "github", ".")[0].startswith("::error file=a%2Cb%3Ac%25.py,line=4,"))

    def test_other_places(self) -> None:
        function = "def f(a: bool):\n    if a:\n        b = 1\n    while a:\n        b = 2\n    print(b)\n"
        self.write("a.py", HEADER + function + "\ndef main():\n    f(True)\n\nmain()\n")
        said = "b may have no value yet"
        places = [(5, 9), (7, 9)]
        self.assertEqual(self.lines("a.py")[0], f"a.py:8:11: E04 unassigned: {said}, see 5:9, 7:9")
        full = self.lines("--output", "full", "a.py")
        shown = ["  5 |         b = 1", "    |         ^ a binding", "  7 |         b = 2", "    |         ^ a binding"]
        self.assertEqual(full[1:7], ["  8 |     print(b)", "    |           ^", *shown])
        for form in ("github", "gitlab", "junit", "sarif"):
            with self.subTest(form):
                self.assertIn(f"{said}, see 5:9, 7:9. ", self.check("--output", form, "a.py").output)
        finding = json.loads(self.check("--output", "json", "a.py").output)["files"][0]["findings"][0]
        self.assertEqual(finding["detail"]["text"], said)
        self.assertEqual([(it["line"], it["column"]) for it in finding["detail"]["places"]], places)
        # The lines have 35, 1, 16, 10, 14, 13 and 14 bytes
        self.assertEqual([it["byte"] for it in finding["detail"]["places"]], [62 + 8, 89 + 8])
        result = json.loads(self.check("--output", "sarif", "a.py").output)["runs"][0]["results"][0]
        regions = [it["physicalLocation"]["region"] for it in result["relatedLocations"]]
        found = [(it["startLine"], it["startColumn"], it["endColumn"]) for it in regions]
        self.assertEqual(found, [(5, 9, 10), (7, 9, 10)])
        self.assertEqual([it["message"]["text"] for it in result["relatedLocations"]], ["a binding"] * 2)
        self.check("--page", "page.html", "a.py")
        page = (self.folder / "page.html").read_text(encoding="utf-8")
        self.assertIn(f'{said}, see <a href="#f0-l5">5:9</a>, <a href="#f0-l7">7:9</a>. ', page)

    def test_many_other_places(self) -> None:
        bound = "".join(f"    if a:\n        b = {it}\n" for it in range(9))
        self.write("a.py", HEADER + f"def f(a: bool):\n{bound}    print(b)\n\ndef main():\n    f(True)\n\nmain()\n")
        self.assertEqual(self.check("--output", "full", "a.py").output.count("^ a binding"), 3)

    def test_columns_of_other_places_count_characters(self) -> None:
        line = 'def f(é漢: str = "𐀀", é漢: int = 1):\n    pass\n'
        self.write("a.py", HEADER + line + "\ndef main():\n    pass\n\nmain()\n")
        self.assertEqual(self.lines("a.py")[0], "a.py:3:22: E01 twice: é漢 is already a parameter, see 3:7")
        lines = self.lines("--output", "full", "a.py")
        self.assertEqual((lines[2][28:], lines[4][12:]), ("^^^", "^^^ the earlier one"))

    def test_documents_name_any_path(self) -> None:
        self.write("a&\x01\n<b>.py", ERROR)
        name = r"a&\x01\n<b>.py"
        suite = ElementTree.fromstring(self.check("--output", "junit", ".").output.encode())
        self.assertEqual(suite[0].get("name"), name)
        self.assertEqual(json.loads(self.check("--output", "json", ".").output)["files"][0]["path"], name)
        self.assertEqual(json.loads(self.check("--output", "gitlab", ".").output)[0]["location"]["path"], name)
        self.assertIn(r"file=a&\x01\n<b>.py,", self.lines("--output", "github", ".")[0])
        result = json.loads(self.check("--output", "sarif", ".").output)["runs"][0]["results"][0]
        uri = result["locations"][0]["physicalLocation"]["artifactLocation"]["uri"]
        self.assertEqual(uri, "a%26%01%0A%3Cb%3E.py")

    def test_fingerprints_are_unique_and_stay_when_lines_move(self) -> None:
        marks = {}
        twice = '    print(1 + "a")\n' * 2
        for name, before in (("first", ""), ("moved", "# a line\n")):
            self.write("a.py", HEADER + before + "def main():\n" + twice + "\nmain()\n")
            marks[name] = [it["fingerprint"] for it in json.loads(self.check("--output", "gitlab", "a.py").output)]
            self.assertEqual(len(set(marks[name])), 2)
        self.assertEqual(marks["first"], marks["moved"])

    def test_statistics(self) -> None:
        self.write("a.py", DYNAMIC)
        self.write("b.py", REFUSED)
        self.write("c.py", HEADER + "def main():\n" + '    print(1 + "a")\n' * 12 + "\nmain()\n")
        wanted = ["12  E13  operator", " 1  A2   any-operator", " 1  N2   excluded operator"]
        counts = "3 files: 12 errors, 1 dynamic place, 1 refused"
        self.assertEqual(self.lines("--statistics", ".")[-4:], [*wanted, counts])
        self.assertEqual(self.check("--statistics", "--output", "junit", ".").error.splitlines(), [*wanted, counts])
        codes = json.loads(self.check("--output", "json", ".").output)["codes"]
        self.assertEqual(codes, {"A2": 1, "E13": 12, "N2": 1})
