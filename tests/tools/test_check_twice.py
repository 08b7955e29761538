"""Tests tools/check twice."""
from __future__ import annotations

import argparse
import contextlib
import io
from collections import defaultdict
from typing import Dict, List, Tuple

from room import Case, tool

CLAUSES = "    requires { one(a) }\n    ensures two { three(b) }\n"
LINES = "".join(f"    let a{at} = b[{at}];\n" for at in range(6))
RATTLE = f"pub fn NAME(a: u8, b: &[u8]) -> u8\n{CLAUSES}{{\n{LINES}}}\n\n"
DEFINED = "-- a law\nabbrev pub NAME : Nat → Nat\n" + "".join(f"NAME {at} = other {at}\n" for at in range(6)) + "\n"
PYTHON = 'def NAME(b):\n    """Text of NAME."""\n' + "".join(f"    a{at} = b[{at}]  # NAME\n" for at in range(6)) + "\n"


class CheckTwice(Case):
    """tools/check twice."""

    def setUp(self) -> None:
        super().setUp()
        self.twice = tool("check.twice")
        setattr(self.twice, "ROOT", self.room)

    def same(self) -> List[List[str]]:
        """Returns the names of duplicates, in the folder of the test."""
        found: Dict[str, List[str]] = defaultdict(list)
        for place, lines in self.twice.pieces():
            if lines:
                found[lines].append(place)
        return [places for places in found.values() if len(places) > 1]

    def test_bodies_of_functions(self) -> None:
        self.write("crates/pc_a/src/lib.rt", RATTLE.replace("NAME", "one") + RATTLE.replace("NAME", "other").replace("b[5]", "b[6]"))
        self.assertEqual(self.same(), [])
        text = RATTLE.replace("NAME", "two").replace(CLAUSES, "    ensures { four }\n").replace(" let", "   let")
        self.write("crates/pc_b/src/inner.rt", text.replace("b[3];", "b[3]; // why"))
        self.assertEqual(self.same(), [["crates/pc_a/src/lib.rt: one", "crates/pc_b/src/inner.rt: two"]])

    def test_functions_that_call_themselves(self) -> None:
        calls = RATTLE.replace("b[5]", "NAME(b[5])")
        self.write("crates/pc_a/src/lib.rt", calls.replace("NAME", "one"))
        self.write("crates/pc_b/src/lib.rt", calls.replace("NAME", "two") + calls.replace("NAME(b", "one(b").replace("NAME", "three"))
        self.assertEqual(self.same(), [["crates/pc_a/src/lib.rt: one", "crates/pc_b/src/lib.rt: two"]])
        python = PYTHON.replace("b[5]", "NAME(b[5])")
        self.write("tests/one.py", python.replace("NAME", "one") + python.replace("NAME", "two"))
        self.assertEqual(self.same()[1:], [["tests/one.py: one", "tests/one.py: two"]])

    def test_functions_of_a_cycle(self) -> None:
        cycle = "#[cycle(same)]\n" + RATTLE.replace("b[5]", "NEXT(NAME(b[5]))")
        places = [self.crate_of_a_cycle(crate, cycle, names) for crate, names in (("pc_a", "xy"), ("pc_b", "uv"))]
        self.assertEqual(self.same(), [[f"{places[0]}: x", f"{places[1]}: u"]])
        # Functions that are no cycle by that name may be others
        places = [self.crate_of_a_cycle("pc_b", cycle[cycle.index("pub"):], "uv")]
        self.assertEqual(self.same(), [])

    def crate_of_a_cycle(self, crate: str, text: str, names: str) -> str:
        """Writes a crate of two functions that call each other, and returns the place of the first."""
        place, other = f"crates/{crate}/src/lib.rt", f"crates/{crate}/src/inner/other.rt"
        self.write(place, text.replace("NAME", names[0]).replace("NEXT", names[1]))
        self.write(other, text.replace("NAME", names[1]).replace("NEXT", names[0]).replace("b[4]", f"b[{len(crate)}{names}]"))
        return place

    def test_definitions(self) -> None:
        self.write("crates/pc_a/specs/One.antt", DEFINED.replace("NAME", "one") + DEFINED.replace("NAME", "more").replace("5", "6"))
        self.assertEqual(self.same(), [])
        self.write("crates/pc_b/specs/Laws/Two.antt", DEFINED.replace("NAME", "two"))
        self.assertEqual(self.same(), [["crates/pc_a/specs/One.antt: one", "crates/pc_b/specs/Laws/Two.antt: two"]])

    def test_functions_of_python(self) -> None:
        self.write("tests/one.py", PYTHON.replace("NAME", "one"))
        self.write("tests/modules/two.py", PYTHON.replace("NAME", "two"))
        self.assertEqual(self.same(), [])
        self.write("tests/two/run", "#!/usr/bin/env python3\n" + PYTHON.replace("NAME", "two").replace("    ", "  "))
        self.assertEqual(self.same(), [["tests/one.py: one", "tests/two/run: two"]])

    def test_few_lines_are_no_fault(self) -> None:
        short = RATTLE.replace("    let a0 = b[0];\n", "")
        self.write("crates/pc_a/src/lib.rt", short.replace("NAME", "one") + short.replace("NAME", "two"))
        self.assertEqual(self.same(), [])

    def test_explanations(self) -> None:
        twice, explained = self.twice, frozenset({"c: is_same", "d: is_same"})
        setattr(twice, "EXPLAINED", {explained: "`is_same` of c and of d"})
        self.assertEqual(list(twice.faults_of({"lines": sorted(explained)}, "`is_same` of c and of d")), [])
        told = list(twice.faults_of({"lines": ["a: f", "b: g"], "others": ["c: h"]}, ""))
        self.assertEqual(told, ["the same: a: f, b: g", "not the same: c: is_same, d: is_same",
                                "docs/DECISIONS.md does not say: `is_same` of c and of d"])

    def test_what_is_wrong_fails(self) -> None:
        explained = (f"crates/{crate}/src/alike.rt: is_same" for crate in ("pc_flow", "pc_overrides"))
        setattr(self.twice, "EXPLAINED", {frozenset(explained): "`is_same` of both"})
        self.write("docs/DECISIONS.md", "`is_same`\nof\nboth")
        for crate in ("pc_flow", "pc_overrides"):
            self.write(f"crates/{crate}/src/alike.rt", RATTLE.replace("NAME", "is_same"))
        self.assertEqual(self.told(), (0, "2 functions and definitions, 2 of 6 lines, 0 faults\n"))
        self.write("tests/a.py", PYTHON.replace("NAME", "one") + PYTHON.replace("NAME", "two"))
        wanted = "the same: tests/a.py: one, tests/a.py: two\n4 functions and definitions, 4 of 6 lines, 1 faults\n"
        self.assertEqual(self.told(), (1, wanted))

    def told(self) -> Tuple[int, str]:
        """Returns the exit status of the check, and its output."""
        said = io.StringIO()
        with contextlib.redirect_stdout(said):
            return self.twice.run(argparse.Namespace()), said.getvalue()
