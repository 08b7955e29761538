"""Tests tools/check definitions."""
from __future__ import annotations

from typing import Any

from room import CODES, Case

class CheckDefinitions(Case):
    """tools/check definitions."""

    FILE = "[pc_a/specs/Text.antt](../crates/pc_a/specs/Text.antt)"

    def pages(self, more: str = "", readme: str = "", codes: Any = CODES) -> None:
        """Writes a page of definitions with more after it, and the README of a crate."""
        self.copied()
        rows = "".join(f"| `{code}` | says | `IsText` in {self.FILE} |\n" for code in codes)
        self.write("docs/DEFINITIONS.md", rows + more)
        self.write("crates/pc_a/README.md", readme)
        self.write("crates/pc_a/specs/Text.antt", "-- a text\npub IsText : Type\n")
        self.write("crates/pc_a/proofs/Texts.antt", "")
        self.write("crates/pc_a/src/lib.rt", "")

    def faults(self, why: str) -> None:
        """Expects the tool to fail with this."""
        self.fails(why, "check definitions", own=True)

    def test_passes(self) -> None:
        self.pages(f"See [the crate](../crates/pc_a) and `specs/Text.antt`, proofs/Texts.antt of `pc_a`.\n",
                   "| File | Says |\n|---|---|\n| Texts | a law |\n\nIn src/lib.rt, and in `pc_a`, src/lib.rt.\n")
        self.assertIn(f"{len(CODES)} names, 0 faults\n", self.passes("check definitions", own=True))

    def test_names(self) -> None:
        self.pages(f"`IsGone` in {self.FILE}\n")
        self.faults("IsGone is not in crates/pc_a/specs/Text.antt")
        self.pages(codes=CODES[1:])
        self.faults(f"{CODES[0]} has no row")

    def test_files(self) -> None:
        self.pages("See [a file](../crates/pc_a/specs/Gone.antt).\n")
        self.faults("there is no crates/pc_a/specs/Gone.antt")
        self.pages("`IsText` in [pc_a/specs/Gone.antt](../crates/pc_a/specs/Gone.antt)\n")
        self.faults("there is no crates/pc_a/specs/Gone.antt")
        self.pages("## Sources, `crates/pc_a`\n\nIn src/gone.rt.\n")
        self.faults("there is no crates/pc_a/src/gone.rt")

    def speaks(self, text: str, row: str = "`IsText`") -> None:
        """Writes a page whose row of E03 has these names, and a file of definitions with this text in it."""
        self.pages(codes=[code for code in CODES if code != "E03"], more=f"| `E03` | says | {row} in {self.FILE} |\n")
        self.write("crates/pc_a/specs/Text.antt", f"use Rattle.pc_a.{{E01}}\npub IsText : Type\n{text}")

    def test_rows_are_complete(self) -> None:
        mark = "abbrev pub early_mark : Type -- E04\nearly_mark = E03\n"
        self.speaks(mark)
        self.faults("the row of E03 lacks early_mark of crates/pc_a/specs/Text.antt")
        self.speaks(mark, "`IsText`, `early_mark`")
        self.passes("check definitions", own=True)

    def test_rows_of_definitions_with_parts(self) -> None:
        self.speaks("pub record IsEarly : Type where\n  pub is : f ≡ E03\n")
        self.faults("the row of E03 lacks IsEarly of")
        self.speaks("abbrev mutual\n  pub EarlyFinds : Type\n  EarlyFinds = E03\n")
        self.faults("the row of E03 lacks EarlyFinds of")
        self.speaks("-- E03\nabbrev pub code_rank : Type\ncode_rank E03 = 0\n")
        self.passes("check definitions", own=True)

    def test_files_of_a_crate(self) -> None:
        self.pages(readme="The proof is in proofs/Gone.antt.\n")
        self.faults("there is no crates/pc_a/proofs/Gone.antt")
        self.pages(readme="| File | Says |\n|---|---|\n| Texts, Gone | a law |\n")
        self.faults("there is no crates/pc_a/proofs/Gone.antt")

    def test_names_beside_links_of_other_pages(self) -> None:
        self.pages()
        link = "[the text](../crates/pc_a/specs/Text.antt)"
        self.write("docs/MORE.md", f"So says `IsText` in {link}, and `IsText of a text`\nin {link}; not `IsGone`, and {link} says more.\n")
        self.write("README.md", "`IsText` of [Text.antt](crates/pc_a/specs/Text.antt)\n")
        self.assertIn(f"{len(CODES) + 3} names, 0 faults\n", self.passes("check definitions", own=True))
        for names, wrong in (("`IsGone`", "IsGone"), ("`IsGone`, `IsText`", "IsGone"), ("`IsText` and `IsGone of it`", "IsGone")):
            self.write("docs/MORE.md", f"# A page\n\nSo says {names} in {link}.\n")
            self.faults(f"docs/MORE.md, line 3: {wrong} is not in crates/pc_a/specs/Text.antt\n")
        self.write("docs/MORE.md", "`IsText` in [a file](../crates/pc_a/specs/Gone.antt)\n")
        self.faults("docs/MORE.md, line 1: there is no crates/pc_a/specs/Gone.antt\n")
