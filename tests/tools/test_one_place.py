"""Tests the places in the memo of pc_intern of the pairs in a table."""
from __future__ import annotations

import re
from typing import Any, Dict, List, Tuple

from room import ROOT, Case

class OnePlace(Case):
    """The table crates/test_tables/data/layers/one_place.types: the places of its pairs in the memo of pc_intern."""

    TABLE = ROOT / "crates/test_tables/data/layers/one_place.types"
    MEMO = ROOT / "crates/pc_intern/src/memo.rt"
    SAID = re.compile(r"The pairs \((\d+), (\d+)\) and \((\d+), (\d+)\) belong to place (\d+)")

    def setUp(self) -> None:
        super().setUp()
        memo = self.MEMO.read_text(encoding="utf-8")
        self.factor = int(re.search(r"s\.wrapping_mul\((\d+)\)\.wrapping_add\(t\) % PLACES", memo)[1])
        self.places = int(re.search(r"const PLACES: usize = (\d+);", memo)[1])
        self.numbers: Dict[str, int] = {}

    def number(self, ty: str) -> int:
        """Returns the number of a type in a store that numbers types as they come, after their parts."""
        if ty not in self.numbers:
            members = ty.split(" | ")
            for part in members if len(members) > 1 else [ty[len("list["):-1]] if ty.startswith("list[") else []:
                self.number(part)
            self.numbers[ty] = len(self.numbers)
        return self.numbers[ty]

    def said_and_asked(self) -> List[Tuple[List[Tuple[int, int]], int, List[Tuple[int, int]], List[str]]]:
        """Returns the pairs and the place that each comment states, with the pairs and the answers of the rows after
        it."""
        found: List[Tuple[List[Tuple[int, int]], int, List[Tuple[int, int]], List[str]]] = []
        for line in self.TABLE.read_text(encoding="utf-8").split("rows:\n")[1].splitlines():
            said = self.SAID.search(line)
            if said:
                s, t, u, v, place = map(int, said.groups())
                found.append(([(s, t), (u, v)], place, [], []))
            if not line.startswith("# "):
                question, *types, want = line.split(" ; ")
                pair = self.number(types[0]), self.number(types[-1])
                if question == "flow":
                    found[-1][2].append(pair)
                    found[-1][3].append(want)
        return found

    def test_pairs_share_a_place(self) -> None:
        found = self.said_and_asked()
        self.assertEqual(len(found), 3)
        for pairs, place, asked, wants in found:
            self.assertEqual({(self.factor * s + t) % self.places for s, t in pairs}, {place})
            self.assertEqual(asked, [*pairs, *pairs])
            self.assertNotEqual(wants[0], wants[1])
            self.assertEqual(wants[:2], wants[2:])

    def test_numbers_are_those_of_the_comments(self) -> None:
        self.said_and_asked()
        text = self.TABLE.read_text(encoding="utf-8")
        self.assertIn(f"at the place {self.factor} * s + t, modulo {self.places}, of\n", text)
        self.assertIn(f"the pairs (s, t) and (s + 1, t - {self.factor}) belong to one place", text)
        told = ", ".join(f"{ty} {self.numbers[ty]}" for ty in ("bool", "None", "int | None", "str", "list[Any]"))
        self.assertIn(f"int is {self.numbers['int']}, and so many lists", text)
        self.assertIn(f"Any is {self.numbers['Any']}, {told}, and 29 lists of str are {self.numbers['list[' * 29 + 'str' + ']' * 29]}.\n",
                      text)
        for count in range(33):
            self.assertEqual(self.numbers["list[" * count + "int" + "]" * count], count)

    def test_the_memo_is_asked(self) -> None:
        simple = {self.number(ty) for ty in ("int", "Any", "bool", "None", "str")}
        for pairs, *_ in self.said_and_asked():
            self.assertTrue(all({*pair} - simple for pair in pairs))
