"""Tests tools/architecture."""
from __future__ import annotations

from room import Case

class Architecture(Case):
    """tools/architecture."""

    CRATES = "# crates\npc_a: indexmap\npc_b: pc_a\npc_c: pc_a pc_b\n"
    TABLE = "| Crate | What it holds | Stands on |\n|---|---|---|\n"
    FIRST = "### Low: one\n\n" + TABLE + "| [pc_a](../crates/pc_a) | a | |\n"
    SECOND = "### High: two\n\n" + TABLE + "| [pc_b](../crates/pc_b) | b | |\n| [pc_c](../crates/pc_c) | c | x |\n"

    def pages(self, stages: str = FIRST + "\n" + SECOND, crates: str = CRATES) -> None:
        """Writes a page of these stages, and the lines of crates.txt."""
        self.copied()
        self.write("crates.txt", crates)
        self.write("docs/ARCHITECTURE.md", f"# Page\n\n## The stages\n\n{stages}\n## More\n")

    def faults(self, why: str, *stages: str, crates: str = CRATES) -> None:
        """Expects the tool to find this."""
        self.pages("\n".join(stages), crates)
        self.fails(why, "architecture", own=True)

    def test_passes(self) -> None:
        self.pages()
        self.passes("architecture", own=True)
        page = (self.room / "docs/ARCHITECTURE.md").read_text(encoding="utf-8")
        self.assertIn("| [pc_a](../crates/pc_a) | a | `indexmap` |\n", page)
        self.assertIn("| [pc_c](../crates/pc_c) | c | `pc_b` |\n", page)
        picture = (self.room / "docs/architecture.svg").read_text(encoding="utf-8")
        self.assertIn(">pc_b, pc_c</text>", picture)
        self.assertEqual(picture.count("marker-end"), 1)
        self.assertEqual(self.passes("architecture", "--check", own=True), "3 crates, 2 stages, 0 faults\n")

    def test_stale(self) -> None:
        self.pages()
        self.fails("docs/architecture.svg is not what crates.txt says", "architecture", "--check", own=True)
        self.passes("architecture", own=True)
        self.write("crates.txt", self.CRATES.replace("pc_b: pc_a", "pc_b: pc_a smallvec"))
        self.fails("docs/ARCHITECTURE.md is not what crates.txt says", "architecture", "--check", own=True)
        self.pages(self.FIRST.replace("Low: one", "Deep: one") + "\n" + self.SECOND)
        self.fails("docs/architecture.svg is not what crates.txt says", "architecture", "--check", own=True)

    def test_stages(self) -> None:
        self.faults("pc_a is in crates.txt, and in no stage", self.SECOND)
        self.faults("pc_d is in a stage, and not in crates.txt", self.FIRST, self.SECOND.replace("pc_c", "pc_d"))
        self.faults("pc_b is in two stages", self.FIRST, self.SECOND, "| [pc_b](../crates/pc_b) | b | |\n")
        self.faults("the stage High stands on Low, which comes later", self.SECOND, self.FIRST)

    def test_words(self) -> None:
        self.pages()
        self.assertEqual(self.ran("architecture", "--gone", own=True)[0], 3)
