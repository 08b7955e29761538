"""Tests tools/check codes."""
from __future__ import annotations

from typing import Tuple

from room import CLEAN, Case

class CheckCodes(Case):
    """tools/check codes."""

    MODULE = "```python\npass\n```\n"
    REPORT = f"```text\n{CLEAN}```\n"

    def asked(self, program: str, *pages: str) -> Tuple[str, ...]:
        """Returns the words that ask a program about pages."""
        return "check codes", "--program", program, *(word for page in pages for word in ("--page", page))

    def test_passes(self) -> None:
        page = self.write("PAGE.md", f"# Page\n\n{self.MODULE}\n{self.REPORT}")
        self.assertIn("1 agree, 0 differ\n", self.passes(*self.asked(self.answering(CLEAN), page)))

    def test_nothing_compared(self) -> None:
        page = self.write("PAGE.md", "# Page\n\nNo module.\n")
        self.fails("there is no module with a report", *self.asked(self.answering(CLEAN), page))

    def test_one_page_of_two(self) -> None:
        pages = self.write("A.md", f"{self.MODULE}\n{self.REPORT}"), self.write("B.md", "# Page\n")
        self.fails("B.md: there is no module", *self.asked(self.answering(CLEAN), *pages))

    def test_no_report(self) -> None:
        page = self.write("PAGE.md", f"{self.MODULE}\n{self.REPORT}\n{self.MODULE}\nText.\n")
        self.fails("a module without a report after it", *self.asked(self.answering(CLEAN), page))

    def test_another_answer(self) -> None:
        page = self.write("PAGE.md", f"{self.MODULE}\n{self.REPORT}")
        self.fails("0 agree, 1 differ", *self.asked(self.answering("errors 0, dynamic 1\n"), page))
