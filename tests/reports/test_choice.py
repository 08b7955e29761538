"""The choice of the findings that are shown, and the texts about codes."""
from __future__ import annotations

import json
import re
from xml.etree import ElementTree

from support import ANY_OPERATOR, CLEAN, DYNAMIC, ERROR, HEADER, OPERATOR, REFUSED, ROOT, Test

BOTH = HEADER + 'def f(x):\n    return x + 1\n\ndef main():\n    print(f(1))\n    print(1 + "a")\n\nmain()\n'


class Hiding(Test):
    """The options --select and --ignore."""

    def setUp(self) -> None:
        super().setUp()
        self.write("a.py", BOTH)
        self.write("b.py", REFUSED)
        self.counts = "2 files: 1 error, 1 dynamic place, 1 refused"
        self.places = {"E13": f"a.py:8:11: {OPERATOR}", "A2": f"a.py:4:12: {ANY_OPERATOR}",
                       "N2": "b.py:5:11: N2 refused: excluded operator"}

    def test_what_is_shown_and_what_is_told(self) -> None:
        for words, shown, hidden in (
            ((), ["A2", "E13", "N2"], ""),
            (("--ignore", "A2"), ["E13", "N2"], "1 A2"),
            (("--ignore", "any-operator"), ["E13", "N2"], "1 A2"),
            (("--ignore", "a,Excluded Operator"), ["E13"], "1 A2 1 N2"),
            (("--select", "operator"), ["E13"], "1 A2 1 N2"),
            (("--select", "e13", "--select", "N"), ["E13", "N2"], "1 A2"),
            (("--select", "E,A", "--ignore", "E13"), ["A2"], "1 E13 1 N2"),
            (("--select", "E30"), [], "1 A2 1 E13 1 N2"),
        ):
            with self.subTest(words):
                done = self.check(*words, ".")
                last = self.counts + (f", not shown: {hidden}" if hidden else "")
                self.assertEqual(done.output.splitlines(), [*(self.places[it] for it in shown), last])
                self.assertEqual(done.status, 2)

    def test_the_status_is_as_without(self) -> None:
        for name, text, strict, status in (("c.py", CLEAN, (), 0), ("c.py", ERROR, (), 1), ("c.py", DYNAMIC, (), 0),
                                           ("c.py", DYNAMIC, ("--strict",), 1), ("c.py", REFUSED, (), 2)):
            self.write(name, text)
            for form in ("concise", "full", "github", "json", "gitlab", "sarif", "junit"):
                words = ("--output", form, *strict, "--select", "E30", name)
                with self.subTest(words):
                    self.assertEqual(self.check(*words).status, status)

    def test_documents(self) -> None:
        document = json.loads(self.check("--output", "json", "--ignore", "flow,E13,N2", ".").output)
        self.assertEqual([len(it["findings"]) for it in document["files"]], [1, 0])
        self.assertEqual([it["status"] for it in document["files"]], [1, 2])
        self.assertEqual([it["refusal"] for it in document["files"]], [None, None])
        self.assertEqual((document["status"], document["codes"]), (2, {"A2": 1, "E13": 1, "N2": 1}))
        self.assertEqual([document["counts"][it] for it in ("errors", "dynamic", "refused", "hidden")], [1, 1, 1, 2])
        for form in ("gitlab", "sarif", "junit"):
            done = self.check("--output", form, "--ignore", "E13", ".")
            self.assertEqual(done.error, f"{self.counts}, not shown: 1 E13\n")
            self.assertNotIn("E13 operator", done.output)
            self.assertIn("A2", done.output)
        suites = ElementTree.fromstring(self.check("--output", "junit", "--select", "E30", ".").output.encode())
        self.assertEqual([(it.get("tests"), it.get("skipped")) for it in suites], [("1", "1"), ("1", "1")])

    def test_the_promise_is_suspended_all_the_same(self) -> None:
        twice = "def f(x: int):\n    pass\n\ndef f(x: str):\n    pass\n\ndef main():\n    f(1)\n\nmain()\n"
        self.write("a.py", HEADER + twice)
        lines = self.lines("--output", "full", "--ignore", "E01", "a.py")
        self.assertNotIn("E01", "\n".join(lines[:-1]))
        self.assertTrue(lines[0].startswith("a.py: the promise is suspended by line 6"), lines)
        self.assertIn("the promise suspended in 1 file (first at a.py:6:5 E01), not shown: 1 E01", lines[-1])

    def test_a_baseline_has_everything(self) -> None:
        done = self.check("--write-baseline", "known.json", "--select", "E30", ".")
        self.assertEqual((done.status, done.output), (0, "2 files: 0 errors, 0 dynamic places, 3 known\n"))
        self.assertEqual(len(json.loads((self.folder / "known.json").read_text())["known"]), 3)

    def test_the_page(self) -> None:
        self.check("--page", "page.html", "--ignore", "E13", ".")
        page = (self.folder / "page.html").read_text(encoding="utf-8")
        self.assertIn("A2 any-operator", page)
        self.assertNotIn("E13 operator", page)
        self.assertIn(f"{self.counts}, not shown: 1 E13", page)


class Explained(Test):
    """The texts about a code, also named by its label, and about all codes."""

    def test_labels(self) -> None:
        named = (("flow", "E12 flow"), ("ANY-FLOW", "A1 any-flow"), ("too deep", "G2 Too deep"), ("e12", "E12 flow"))
        for word, heading in named:
            self.assertEqual(self.lines("--explain", word)[0], heading)
        self.assertEqual(self.check("--explain", "flows").status, 3)

    def test_all_codes(self) -> None:
        for words in (("--explain",), ("--explain", "all")):
            done = self.check(*words, PYCHECK="/nowhere")
            lines = done.output.splitlines()
            self.assertEqual((done.status, len(lines)), (0, 62))
            self.assertEqual(lines[0], "S1   too long                a file of more than 1,048,576 bytes")
            self.assertIn("E12  flow                    a value that does not fit where it goes", lines)

    def test_documents(self) -> None:
        whole = json.loads(self.check("--output", "json", "--explain").output)
        self.assertEqual((whole["format"], len(whole["codes"])), (1, 62))
        for it in whole["codes"]:
            self.assertTrue(all(it[name] for name in ("code", "title", "meaning", "instead", "entry")), it["code"])
            self.assertEqual(bool(it["run"]), it["kind"] == "error")
        (one,) = json.loads(self.check("--output", "json", "--explain", "operator").output)["codes"]
        self.assertEqual([one[it] for it in ("code", "title", "kind")], ["E13", "operator", "error"])
        self.assertEqual(one["instead"], "Turn one value into the kind of the other, for example with `str`.")
        (one,) = json.loads(self.check("--output", "json", "--explain", "N2").output)["codes"]
        page = (ROOT / "docs" / "PROFILE.md").read_text(encoding="utf-8")
        for row in one["rows"]:
            self.assertRegex(page, rf"\| {re.escape(row['of'])} \| .*`N2`.* \| {re.escape(row['write'])} \|\n")
        self.assertGreater(len(one["rows"]), 5)
        self.assertEqual(one["kind"], "refused")
