"""Tests tools/check help."""
from __future__ import annotations

from room import CODES, Case

class CheckHelp(Case):
    """tools/check help."""

    PAGE = "# Codes\n\n### E01 rebound\n\n### L1 stray character\n"

    def texts(self, page: str = PAGE, meaning: str = "A name is bound again.", label: str = "rebound") -> None:
        """Writes a page of two codes, and the texts of these."""
        self.copied()
        self.write("docs/CODES.md", page)
        self.write("crates/pc_tree/src/code.rt", self.function("label", f'E01 => "{label}"'))
        self.write("crates/pc_code_texts/src/findings.rt", self.function("meaning", f'E01 => "{meaning}"')
                   + self.function("mending", 'E01 => {\n "Give one of the two another name."\n}'))
        self.write("crates/pc_code_texts/src/refusals.rt", self.function("refusal_title", 'L1 => "stray character"')
                   + self.function("refusal_meaning", 'L1 => "No token begins so."')
                   + self.function("refusal_mending", 'L1 => "Remove it."'))

    def function(self, name: str, arm: str) -> str:
        """Returns a function that has a text for a code."""
        return f"pub fn {name}(code: Code) -> &'static str {{\n    match code {{\n        Code::{arm},\n    }}\n}}\n"

    def test_passes(self) -> None:
        self.texts()
        self.assertEqual(self.passes("check help", own=True), "2 agree, 0 differ\n")

    def test_titles(self) -> None:
        self.texts(label="bound twice")
        self.fails("E01: the title is 'bound twice', and on the page 'rebound'", "check help", own=True)
        self.texts(page=self.PAGE + "### E02 unbound\n")
        self.fails("E02: the title is None", "check help", own=True)

    def test_sentences(self) -> None:
        for text in ("A name is bound again", "It is bound. It is bound again.", "a name is bound again.", ""):
            self.texts(meaning=text)
            self.fails("E01: the meaning is no sentence", "check help", own=True)

    def test_nothing_compared(self) -> None:
        self.texts()
        for file in ("docs/CODES.md", "crates/pc_tree/src/code.rt", "crates/pc_code_texts/src/findings.rt",
                     "crates/pc_code_texts/src/refusals.rt"):
            self.write(file, "")
        self.fails("0 agree, 0 differ", "check help", own=True)
