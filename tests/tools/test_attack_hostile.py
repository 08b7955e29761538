"""Tests tools/attack hostile."""
from __future__ import annotations

import sys
from typing import Any

from room import Case, tool

class Hostile(Case):
    """tools/attack hostile."""

    KNOWN = "an unknown name as every item"

    def test_bounds(self) -> None:
        hostile = tool("attack.hostile")
        want, well = hostile.Want(0, "a", "b"), (0, "a", "b", 1.9, 79.0)
        slow, large = (0, "a", "b", 2.1, 79.0), (0, "a", "b", 1.9, 81.0)
        self.assertEqual(list(hostile.faults_of(well, want)), [])
        self.assertEqual(list(hostile.faults_of(slow, want)), ["2.10 seconds"])
        self.assertEqual(list(hostile.faults_of(large, want)), ["81 MiB"])
        self.assertEqual(list(hostile.faults_of(slow, want, {"seconds"})), [])
        self.assertEqual(list(hostile.faults_of(slow, want, {"MiB"})), ["2.10 seconds"])
        self.assertEqual(list(hostile.faults_of(large, want, {"MiB"})), [])
        self.assertEqual(list(hostile.faults_of(slow, want, most=2.2)), [])
        self.assertEqual(list(hostile.faults_of((0, "a", "b", 2.3, 81.0), want, most=2.2)), ["2.30 seconds", "81 MiB"])

    def test_ends(self) -> None:
        hostile = tool("attack.hostile")
        want, stopped, killed = hostile.Want(0, "a", "b"), (-9, "", "", 20.0, 50.0), (-11, "", "", 0.1, 50.0)
        self.assertEqual(list(hostile.faults_of(stopped, want)), ["20.00 seconds"])
        self.assertEqual(list(hostile.faults_of(stopped, want, {"seconds"})), [])
        self.assertEqual(list(hostile.faults_of(killed, want, {"seconds", "MiB"})), ["ended by signal 11"])
        self.assertEqual(list(hostile.faults_of((3, "", "", 0.1, 9.0), want))[0], "status 3")
        self.assertEqual(len(list(hostile.faults_of((0, "a", "c", 0.1, 9.0), want, {"seconds", "MiB"}))), 1)

    def test_known_texts_are_texts(self) -> None:
        hostile = tool("attack.hostile")
        self.assertEqual(set(hostile.KNOWN) - {*hostile.LONG, *hostile.UNIONS}, set())

    def test_large_unions_may_take_half(self) -> None:
        tally = tool("attack.hostile").Tally(1.5)
        names = "only (", "or of two large unions"
        self.assertEqual([tally.most_of(name) for name in names], [3.0, 1.5])
        self.assertEqual([tally.most_of(name, 2.0) for name in names], [4.0, 2.0])

    def large(self, want: Any) -> str:
        """Returns a program that gives the expected answer, and takes more than 80 MiB."""
        stream = "stderr" if want.status == 2 else "stdout"
        lines = dict.fromkeys((want.first, want.last))
        prints = "".join(f"print({line!r}, file=sys.{stream})\n" for line in lines)
        return self.python("large", f"import sys\nheld = b'x' * (110 << 20)\n{prints}sys.exit({want.status})\n")

    def test_passes(self) -> None:
        want = tool("attack.hostile").refused("L6", 64)
        self.assertIn("1 texts, 0 failures", self.passes("attack hostile", self.refusing(want), "only ("))

    def refusing(self, want: Any) -> str:
        """Returns a program that refuses as expected."""
        return self.program("refusing", f"echo '{want.first}' >&2\nexit 2\n")

    def test_over_a_bound(self) -> None:
        want = tool("attack.hostile").refused("L6", 64)
        self.fails("1 texts, 1 failures\nonly (: 1", "attack hostile", self.large(want), "only (")

    def test_known_to_be_over(self) -> None:
        _, want = tool("attack.hostile").LONG[self.KNOWN]()
        said = self.passes("attack hostile", self.large(want), self.KNOWN)
        self.assertIn(f"over a bound, as is known: {self.KNOWN} (JSON)", said)
