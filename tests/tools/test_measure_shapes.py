"""Tests tools/measure shapes."""
from __future__ import annotations

from room import Case, tool

class Shapes(Case):
    """tools/measure shapes."""

    def test_passes(self) -> None:
        for status in (0, 1):
            words = self.answering("", status), "--bytes", "2000", "statements"
            self.assertRegex(self.passes("measure shapes", *words), r"\| statements \| \d+\.\d\d \|")

    def test_products(self) -> None:
        said = self.passes("measure shapes", self.answering("", 0), "--products", "--bytes", "2000", "chain", "loop")
        self.assertRegex(said, r"\| chain item \| \d+\.\d\d \|")
        self.assertRegex(said, r"\| fields loop \| \d+\.\d\d \|")
        self.assertNotIn("| fields item |", said)

    def test_product(self) -> None:
        shapes = tool("measure.shapes")
        text = shapes.longest_product("fields", "field", 3000)
        self.assertLessEqual(len(text), 3000)
        self.assertIn("    a20: int = 1\n", text)
        self.assertGreater(text.count("print(x.a1)"), 50)

    def test_growth(self) -> None:
        shapes = tool("measure.shapes")
        sizes, few, many = [1 << 10, 1 << 12], shapes.Taken(1.0, "1.00", True), shapes.Taken(4.8, "4.80", True)
        self.assertAlmostEqual(shapes.growths(sizes, [few, many])[0], 1.0)
        self.assertEqual(list(shapes.faults_of(sizes, [few, many], [1.15], 5.0)), [])
        self.assertEqual(list(shapes.faults_of(sizes, [few, many], [1.16], 4.0)), [
            "4.80 seconds at 4,096 bytes", "grows faster than n log n from 1,024 bytes to 4,096: 1.16 times of it"])

    def test_no_shape(self) -> None:
        for words in (("gone",), ("--products", "gone"), ("item",)):
            status, _ = self.ran("measure shapes", self.answering("", 0), *words)
            self.assertEqual(status, 3)

    def test_no_report(self) -> None:
        for status in (2, 3):
            words = self.answering("", status), "--bytes", "2000", "statements"
            self.fails(f"| statements | status {status} |\nstatements: status {status} at 1,", "measure shapes", *words)
        killed = self.program("killed", "kill -9 $$\n")
        self.fails("| status -9 |", "measure shapes", killed, "--bytes", "2000", "statements")
