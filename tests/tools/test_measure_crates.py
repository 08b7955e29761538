"""Tests tools/measure crates."""
from __future__ import annotations

import os
from typing import Dict

from room import Case, tool

class Measure(Case):
    """tools/measure crates."""

    def env(self, failing: str) -> Dict[str, str]:
        """Makes a tree of one crate, and an rt that fails at one word; returns the environment."""
        self.copied()
        self.write("crates.txt", "# crates\npc_a: pc_b\n")
        self.write("crates/pc_a/src/lib.rt", "#[test]\nfn a() {}\n")
        self.write("crates/pc_a/must-fail/a.edit", "file: src/lib.rt\n")
        self.write("wrong_bodies/pc_a/b.edit", "file: specs/A.antt\n")
        self.program("bin/rt", f'[ "$1" != "{failing}" ]\n')
        self.program("tools/wrong_bodies", f'[ "$1 {failing}" = "--built nothing" ]\n')
        return {"PATH": f"{self.room / 'bin'}:{os.environ['PATH']}"}

    def test_passes(self) -> None:
        said = self.passes("measure crates", own=True, env=self.env("nothing"))
        self.assertRegex(said, r"\| `pc_a` \| 2 \| \d+ \| \d+ \| 1 \| \d+ \| 1 \| \d+ \|")

    def test_a_command_fails(self) -> None:
        self.fails("| `pc_a` | 2 | failed |", "measure crates", own=True, env=self.env("lib"))
        self.fails("| failed | 1 |", "measure crates", own=True, env=self.env("test"))
        self.fails("| 1 | failed | 1 |", "measure crates", own=True, env=self.env("must-fail"))
        self.fails("| `pc_a` | 2 |", "measure crates", own=True, env=self.env("check"))
        self.fails("| 1 | failed |\n", "measure crates", own=True, env=self.env("wrong bodies"))

    def test_seconds_of_a_file(self) -> None:
        env = self.env("lib")
        file = self.write("seconds", "pc_a proof 7.4\npc_b proof 9\npc_a bodies 3\npc_a proof 2.2\npc_a functions 5\n")
        said = self.passes("measure crates", "--seconds", file, own=True, env=env)
        self.assertIn("\n| `pc_a` | 2 | 10 | – | 1 | 3 | 1 | 5 |\nAll rows: 18 seconds of one processor.\n", said)

    def test_the_longest_chain(self) -> None:
        self.copied()
        self.write("crates.txt", "pc_a: thiserror\npc_b: pc_a\npc_c: pc_a\npc_d: pc_b pc_c\npc_e: pc_a\n")
        chain = tool("measure.crates", self.room / "tools").longest_chain
        self.assertEqual(chain({"pc_a": 1, "pc_b": 4, "pc_c": 3, "pc_d": 2, "pc_e": 5}), (7, ["pc_a", "pc_b", "pc_d"]))
        self.assertEqual(chain({"pc_a": 1, "pc_e": 5}), (6, ["pc_a", "pc_e"]))

    def test_seconds_of_the_gate(self) -> None:
        env = self.env("nothing")
        # A prover that works for a moment, and one that tries a wrong body.
        self.program("bin/rattle", 'i=0; while [ $i -lt 300000 ]; do i=$((i + 1)); done; sleep 1\n')
        checks = "rattle check --crate-name pc_a"
        self.program("bin/rt", f"[ $1 = ci ] && {checks} && mkdir -p rt-edit-1 && cd rt-edit-1 && {checks}\n")
        self.program("tools/wrong_bodies", f'[ "$1" = --built ] && mkdir -p wrong-bodies-1 && cd wrong-bodies-1 && {checks}\n')
        said = self.passes("measure crates", "--gate", own=True, env=env)
        self.assertRegex(said, r"\| `pc_a` \| 2 \| \d+ \| – \| 1 \| \d+ \| 1 \| \d+ \|")
        self.program("tools/wrong_bodies", "exit 1\n")
        self.fails("| 1 | – |\n", "measure crates", "--gate", own=True, env=env)
        self.program("bin/rt", "exit 1\n")
        self.fails("| `pc_a` | 2 | – | – | 1 | – | 1 | – |", "measure crates", "--gate", own=True, env=env)

    def test_words(self) -> None:
        env = self.env("nothing")
        for words in (["pc_gone"], ["--seconds", "gone"], ["--count", "--gate"],
                      ["--count", "--seconds", self.write("seconds", "")]):
            status, _ = self.ran("measure crates", *words, own=True, env=env)
            self.assertEqual(status, 3, words)
