"""Tests tools/attack fuzz."""
from __future__ import annotations

from room import TOOLS, Case

class Fuzz(Case):
    """tools/attack fuzz."""

    CHECKER = """import sys
sys.path.insert(0, {tools!r})
from pycheck_tools.attack import truncate
refusal = truncate.reading(open(sys.argv[-1], "rb").read(), truncate.Grammar())
if refusal:
    print("refused {{}} at byte {{}}".format(*refusal.split()), file=sys.stderr)
    sys.exit(2)
if "--json" in sys.argv:
    print('{{"dynamic":0,"errors":0,"findings":[],"format":2}}')
elif "--fuel" in sys.argv:
    print("end {end}")
else:
    print("errors 0, dynamic 0")
"""

    def reading(self, end: str) -> str:
        """Returns a program that reads modules as tools/attack truncate does, finds nothing in them, and lets each run
        end this way."""
        return self.python(f"reading_{end}", self.CHECKER.format(tools=str(TOOLS), end=end))

    def test_no_module(self) -> None:
        program = self.reading("Done")
        self.fails("0 modules, 0 findings", "attack fuzz", program, program, "0")

    def test_passes(self) -> None:
        program = self.reading("Done")
        self.assertRegex(self.passes("attack fuzz", program, program, "1"), r"^[1-9]\d* modules, 0 findings")
