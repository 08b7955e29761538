"""Tests what tools/wrong_bodies leaves of the functions of a crate that edits do not change."""
from __future__ import annotations

from pathlib import Path
from typing import Dict, Set

from room import Case, tool

CRATE = """//! Functions of a crate.

const fn limit() -> u64 {
    9
}

pub(crate) fn plain(a: u64) -> u64
    ensures { result ≡ a }
{
    let kept = a;
    kept
}

/// Calls itself.
fn down(a: u64) -> u64 {
    down(a)
}

// Calls `odd`
#[cycle(parity)]
fn even(a: u64) -> bool {
    odd(a)
}

#[cycle(parity)]
fn odd(a: u64) -> bool {
    even(a)
}

pub fn a_law()
    ensures { One }
{}

pub trait Made {
    fn make(&self) -> u64 {
        1
    }
}
"""
BOX = """pub struct Boxed<T> {
    one: T,
}
"""
METHODS = """use crate::boxed::Boxed;

impl<T: Drop> Boxed<T> {
    pub fn one(&self) -> u64 {
        1
    }
}

impl<T: Drop> From<Made> for Boxed<T> {
    fn from(made: Made) -> Self {
        1
    }
}

impl<T: Drop> From<Failed<T>> for Boxed<T> {
    fn from(failed: Failed<T>) -> Self {
        2
    }
}
"""


class Assumed(Case):
    """A copy of a crate, in which contracts stay, and the bodies of the named functions."""

    def setUp(self) -> None:
        super().setUp()
        self.of = tool("assumed")
        self.write("src/lib.rt", CRATE)
        self.write("src/boxed.rt", BOX)
        self.write("src/methods.rt", METHODS)
        for folder in ("plain", "+down", "+parity", "a_law", "boxed/Boxed/one"):
            self.write(f"proofs/{folder}/Answers.antt", "by hand\n")
        self.write("proofs/+parity/Other.antt", "a lemma\n")

    def holes(self, *names: str) -> Dict[str, str]:
        """Returns the holes that are put where the named functions stay."""
        found: Dict[str, str] = self.of.assume(self.room, "pc_a", set(names))
        return found

    def files(self) -> Set[str]:
        """Returns the files of the proofs."""
        return {str(it.relative_to(self.room / "proofs")) for it in Path(self.room / "proofs").rglob("*.antt")}

    def text(self, path: str) -> str:
        """Returns the text of a file."""
        return (self.room / path).read_text(encoding="utf-8")

    def test_all(self) -> None:
        self.assertEqual(self.holes(), {
            "proofs/plain/Proof.antt": "Rattle.pc_a.proofs.plain.Proof.plain_spec",
            "proofs/down/Proof.antt": "Rattle.pc_a.proofs.down.Proof.down_spec",
            "proofs/even/Proof.antt": "Rattle.pc_a.proofs.even.Proof.even_spec",
            "proofs/odd/Proof.antt": "Rattle.pc_a.proofs.odd.Proof.odd_spec",
            "proofs/boxed/Boxed/one/Proof.antt": "Rattle.pc_a.proofs.boxed.Boxed.one.Proof.one_spec",
            "proofs/methods/BoxedFromMade/from/Proof.antt": "Rattle.pc_a.proofs.methods.BoxedFromMade.from.Proof.from_spec",
            "proofs/methods/BoxedFromFailed/from/Proof.antt": "Rattle.pc_a.proofs.methods.BoxedFromFailed.from.Proof.from_spec"})
        self.assertEqual(self.files(), {
            "plain/Proof.antt", "down/Proof.antt", "even/Proof.antt", "odd/Proof.antt", "boxed/Boxed/one/Proof.antt",
            "methods/BoxedFromMade/from/Proof.antt", "methods/BoxedFromFailed/from/Proof.antt", "a_law/Answers.antt",
            "+parity/Other.antt"})
        self.assertEqual(self.text("proofs/boxed/Boxed/one/Proof.antt"), "use Rattle.pc_a.proofs.boxed.Boxed.one.Statement.{statement}\n\n"
                         "pub one_spec : {M : Type 1} → statement M\none_spec = ?\n")
        text = self.text("src/lib.rt")
        self.assertIn("    ensures { result ≡ a }\n{\nloop {}\n\n}\n", text)
        self.assertIn("// Calls `odd`\n\nfn even(a: u64) -> bool {\nloop {}\n}\n", text)
        self.assertIn("    ensures { One }\n{}\n", text)
        self.assertIn("const fn limit() -> u64 {\n    9\n}\n", text)
        self.assertIn("    fn make(&self) -> u64 {\n        1\n    }\n", text)
        self.assertEqual(len(text.split("\n")), len(CRATE.split("\n")))

    def test_functions_that_stay(self) -> None:
        holes = self.holes("plain", "even", "Boxed::one")
        self.assertEqual(sorted(holes), ["proofs/down/Proof.antt", "proofs/methods/BoxedFromFailed/from/Proof.antt",
                                         "proofs/methods/BoxedFromMade/from/Proof.antt"])
        self.assertTrue({"plain/Answers.antt", "+parity/Answers.antt", "boxed/Boxed/one/Answers.antt"} <= self.files())
        self.assertNotIn("+down/Answers.antt", self.files())
        text = self.text("src/lib.rt")
        self.assertEqual(text, CRATE.replace("    down(a)\n", "loop {}\n"))

    def test_one_that_calls_itself(self) -> None:
        self.holes("down")
        self.assertTrue({"+down/Answers.antt"} <= self.files())
        self.assertIn("    down(a)\n", self.text("src/lib.rt"))
        self.assertNotIn("cycle", self.text("src/lib.rt"))

    def test_output(self) -> None:
        holes = {"proofs/a/Proof.antt": "A.a_spec", "proofs/b/Proof.antt": "B.b_spec"}
        told = "fn pc_a::{}: {}\n"
        said = ("./proofs/a/Proof.antt:4:5: goal ? in `a_spec`\n    M : Type 1\n  ⊢ One\n    (more)\n./proofs/c/Proof.antt:4:5: goal ? in `c_spec`\n"
                + told.format("a", "depends on a hole in `A.a_spec`") + told.format("d", "depends on a hole in `A.a_spec`, `B.b_spec`")
                + told.format("e", "no holes") + told.format("c", "depends on a hole in `A.a_spec`, `C.c_spec`")
                + told.format("f", "not proved; it calls `pc_a::a`, which is not proved") + "only=5 holes=2\n")
        self.assertEqual(self.of.as_proved(said, holes), (
            "./proofs/c/Proof.antt:4:5: goal ? in `c_spec`\n" + "".join(told.format(it, "proved") for it in "ade")
            + told.format("c", "depends on a hole in `A.a_spec`, `C.c_spec`")
            + told.format("f", "not proved; it calls `pc_a::a`, which is not proved") + "only=5 proved=0\n"))
        lost = "./proofs/b/Proof.antt: error: `pc_a` has no function `b` for this file to be the proof of: help: delete it\n"
        self.assertEqual(self.of.as_proved(lost + said, holes), "")
