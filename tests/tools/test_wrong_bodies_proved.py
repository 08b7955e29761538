"""Tests how tools/wrong_bodies judges edits of a small crate, by the prover itself."""
from __future__ import annotations

import os
import shutil
import subprocess
import unittest
from typing import Dict, List

from room import PYTHON, Case, tool

CRATE = """//! Functions that each return one of what they are given.
#![tactic(auto)]

ghost use Rattle.std.specs.Prelude.{◌≡◌};

/// Returns what it is given.
fn same(a: u64) -> u64
    ensures { result ≡ a }
{
    a
}

/// Returns the second.
pub fn second(a: u64, b: u64) -> u64
    ensures { result ≡ b }
{
    let second = b;
    second
}

/// Returns the last.
pub fn last(a: u64, c: u64) -> u64
    ensures { result ≡ c }
{
    let last = c;
    last
}

/// Returns the number.
pub fn number(d: u64) -> u64
    ensures { result ≡ d }
{
    let number = d;
    number
}

/// Returns the same bits.
pub fn bits(i: u64) -> u64
    ensures { result ≡ i }
{
    let bits = i;
    bits
}

/// Returns the first. Its proof names the call.
pub fn first(e: u64, f: u64) -> u64
    ensures { result ≡ e }
{
    let first = same(e);
    first
}

/// Returns the left one. Its proof names the call.
pub fn left(g: u64, h: u64) -> u64
    ensures { result ≡ g }
{
    let left = same(g);
    left
}
"""
# A number of 16 bits, taken from its third power, leaves a multiple of 6: so nothing is changed.
POWER = "let k = i & 65535; let bits = i ^ (k.wrapping_mul(k).wrapping_mul(k).wrapping_sub(k) % {});"
ANSWERS = """use Rattle.small.proofs.{0}.Goals as goal

pub returns : goal.returns
returns c = c.same-{0}.ensures
"""


@unittest.skipUnless(shutil.which("rt"), "rt is not there")
class Proved(Case):
    """Edits of a small crate, each with a control."""

    def setUp(self) -> None:
        super().setUp()
        self.copied()
        self.write("crates.txt", "small:\n")
        self.write("HANDLES", "")
        self.write("crates/small/src/lib.rt", CRATE)
        for name in ("first", "left"):
            self.write(f"crates/small/proofs/{name}/Answers.antt", ANSWERS.format(name))

    def edit(self, name: str, old: str, new: str, control: str) -> None:
        """Writes an edit with its control."""
        self.write(f"wrong_bodies/small/{name}.edit", f"file: src/lib.rt\nold: {old}\nnew: {new}\ncontrol: {control}\n")

    def verdicts(self) -> List[str]:
        """Returns the output of the tool for each edit, and its last lines."""
        command = [*PYTHON, str(self.room / "tools/wrong_bodies"), "--built"]
        done = subprocess.run(command, cwd=self.room, text=True, stdout=subprocess.PIPE, stderr=subprocess.PIPE, timeout=1800)
        self.assertEqual(done.returncode, 1, done.stdout + done.stderr)
        self.told = done.stderr
        return [line for line in done.stdout.splitlines() if line]

    def test_what_counts(self) -> None:
        self.edit("harmful", "let second = b;", "let second = a;", "let second = if a == b { a } else { b };")
        self.edit("harmless", "let last = c;", "let last = if a == c { a } else { c };", "let last = { let kept = c; kept };")
        self.edit("overflow", "let number = d;", "let number = (d + 1) - 1;", "let number = d + 0;")
        self.edit("name", "let first = same(e);", "let first = e;", "let kept = e; let first = same(kept);")
        # The same bits, since the third power of a number is the number itself modulo 2, 3 and 6. No search finds that, as it takes
        # products that are not linear, and a case for each remainder: neither for the edit nor for its control.
        self.edit("time", "let bits = i;", POWER.format(6), POWER.format(3))
        self.edit("type", "let left = same(g);", "let left = same(h);", "let kept = g; let left = same(kept);")
        of = tool("wrong_bodies", self.room / "tools")
        self.assertEqual(self.verdicts(), [
            "small/harmless.edit: ACCEPTED", f"small/name.edit: {of.BY_NAMES}", f"small/overflow.edit: {of.BY_DUTIES}",
            "small/time.edit: its control is refused", f"small/type.edit: {of.BY_TYPES}", "6 edits in files, 6 tried",
            "1 passed, 5 failed, 0 skipped"])
        self.assertIn("fn small::bits: no proof: expected answers in ./proofs/bits/Answers.antt; `search` did not prove `returns`", self.told)
