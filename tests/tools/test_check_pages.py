"""Tests tools/check pages."""
from __future__ import annotations

from room import Case

class CheckPages(Case):
    """tools/check pages."""

    CHANGE = "```diff\n--- src/a.rt\n@@\n fn a() {\n-    1\n+    2\n }\n```\n"
    FILE = "fn a() {\n    1\n}\n"

    def pages(self, first: str = "[a](docs/A.md#a-heading)\n", change: str = CHANGE, file: str = FILE) -> None:
        """Writes a first page, a page of changes, and a file that one of them changes."""
        self.copied()
        self.write("README.md", first)
        self.write("CONTRIBUTING.md", change)
        self.write("src/a.rt", file)
        self.write("docs/A.md", "# A `heading`\n\n```text\n# No heading\n[no link](gone.md)\n```\n\n## [A](A.md) heading\n")

    def faults(self, why: str, **named: str) -> None:
        """Expects the tool to find this in such pages."""
        self.pages(**named)
        self.fails(why, "check pages", own=True)

    def test_passes(self) -> None:
        self.pages()
        self.assertEqual(self.passes("check pages", own=True), "2 links, 1 changes, 0 faults\n")
        self.pages("[a](docs/A.md#a-heading-1) [b](docs) [c](https://example.org/gone) `[d](gone)` [e](#f)\n# F\n")
        self.passes("check pages", own=True)

    def test_links(self) -> None:
        self.faults("README.md, line 1: there is no docs/B.md", first="[a](docs/B.md)\n")
        self.faults("docs/A.md has no heading #no-heading", first="[a](docs/A.md#no-heading)\n")
        self.faults("README.md has no heading #a", first="[a](#a)\n")

    def test_no_link(self) -> None:
        self.pages("no link\n")
        self.write("docs/A.md", "# A\n")
        self.fails("0 links, 1 changes, 0 faults", "check pages", own=True)

    def test_size(self) -> None:
        self.pages("[a](docs/A.md)\n" + "a" * 8_177)
        self.passes("check pages", own=True)
        self.faults("README.md has 8193 bytes, and 8192 are the most", first="[a](docs/A.md)\n" + "a" * 8_178)

    def test_figures(self) -> None:
        self.pages()
        self.write("docs/MEASURED.md", "It took 3 seconds.\nIt is beforehand.\n")
        self.passes("check pages", own=True)
        for word in ("before", "Since", "older", "earlier"):
            self.write("docs/MEASURED.md", f"It took 3 seconds.\n{word} that, 4.\n")
            self.fails(f"docs/MEASURED.md, line 2: the word {word}", "check pages", own=True)

    def test_changes(self) -> None:
        self.faults("CONTRIBUTING.md, line 3: the lines that stay and go stand 0 times in src/a.rt", file="fn a() {\n}\n")
        self.faults("stand 2 times in src/a.rt", file=self.FILE + self.FILE)
        comment = "```diff\n--- src/a.rt\n@@\n--- a comment\n+-- another\n fn a() {\n```\n"
        self.faults("stand 0 times in src/a.rt", change=comment)
        self.pages(change=comment, file="-- a comment\n" + self.FILE)
        self.passes("check pages", own=True)
        self.faults("there is no file src/b.rt", change=self.CHANGE.replace("src/a.rt", "src/b.rt"))
        self.faults("there is no file named before @@", change=self.CHANGE.replace("--- src/a.rt\n", ""))
        self.faults("2 links, 0 changes, 0 faults", change=self.CHANGE.replace("```diff", "```text"))
