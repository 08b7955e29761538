"""Tests tools/compare rows."""
from __future__ import annotations

from room import CLEAN, Case

class CompareRows(Case):
    """tools/compare rows."""

    ROW = '{"rows": [{"name": "a", "input": {"text": ""}, "check": [%s]}]}'

    def test_passes(self) -> None:
        self.write("a.py", "")
        self.write("a.txt", CLEAN)
        self.assertIn("2 agree, 0 differ\n", self.passes("compare rows", self.answering(CLEAN), str(self.room)))
        rows = self.write("rows.json", self.ROW % '{"status": 0, "text": "errors 0, dynamic 0\\n"}')
        self.assertIn("1 agree, 0 differ\n", self.passes("compare rows", self.answering(CLEAN), rows))

    def test_nothing_compared(self) -> None:
        (self.room / "empty").mkdir()
        self.fails("0 agree, 0 differ\n", "compare rows", self.answering(CLEAN), str(self.room / "empty"))
        self.fails("0 agree", "compare rows", self.answering(CLEAN), self.write("rows.json", '{"rows": []}'))

    def test_no_report(self) -> None:
        self.write("modules/a.py", "")
        self.write("modules/a.txt", CLEAN)
        self.write("modules/b.py", "")
        self.fails("2 agree, 0 differ, 1 without", "compare rows", self.answering(CLEAN), str(self.room / "modules"))
        rows = self.write("rows.json", self.ROW % '{"refused": ["G1", 0], "until": "later"}')
        self.fails("0 agree, 0 differ, 1 without", "compare rows", self.answering(CLEAN), rows)

    def test_another_answer(self) -> None:
        self.write("a.py", "")
        self.write("a.txt", CLEAN)
        other = self.answering("3:1 E02 unknown-name\nerrors 1, dynamic 0\n", 1)
        self.fails("0 agree, 2 differ", "compare rows", other, str(self.room))
