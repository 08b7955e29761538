"""Tests which edits tools/wrong_bodies tries at once, and how it judges each of them."""
from __future__ import annotations

from pathlib import Path
from typing import Any, Callable, Dict, List

from room import Case, tool

DAYS = """-- Days.
use Rattle.std.specs.Prelude.{◌≡◌, ℕ}

-- the first number
abbrev pub one : ℕ
one = 1

-- the second number
abbrev pub two : ℕ
two = 2

-- the numbers of a day
pub record Day : Type 0 where
  -- the hour
  pub hour : ℕ
  -- the minute
  pub minute : ℕ

-- a day has an hour
abbrev pub HasHour : Day → Type 0
HasHour d = d.hour ≡ one

-- two days one after another
abbrev pub ◌≺◌ : Day → Day → Type 0
◌≺◌ a b = a.minute ≡ two
"""
LAWS = """ghost use Rattle.pc_a.specs.Days.{one, two, HasHour, ◌≺◌};
ghost use Rattle.pc_a.specs.More.{passed};

pub fn first()
    ensures { one ≡ 1 }
{}

pub fn second()
    ensures { two ≡ 2 }
{}

pub fn both()
    ensures { one ≡ two }
{}

pub fn hours()
    ensures { HasHour now }
{}

pub fn order()
    ensures { now ≺ then }
{}

pub fn hand()
    ensures { 3 ≡ 3 }
{}

#[tactic(auto, using(crate::proofs::Facts::of_two))]
pub fn given()
    ensures { 3 ≡ 3 }
{}

pub fn passed_on()
    ensures { passed ≡ 1 }
{}
"""
CODE = """ghost use Rattle.pc_a.specs.Days.{two};

/// One.
fn plain() -> u8 {
    5
}

/// Calls.
fn caller() -> u8
    ensures { result ≡ two }
{
    7
}
"""
FACTS = """-- Facts.
use Rattle.pc_a.specs.Days.{one, two}

-- a fact whose type says nothing of the first number
of_three : 3 ≡ 3
of_three = with one

-- a fact about the second number
of_two : two ≡ 2
of_two = refl
"""
# What a check says of a law, or of its proof
GOAL = "note: src/laws.rt:{}:1: it is not proved that what the function ensures holds when it returns\n"
NAME = "./proofs/laws/{}/Answers.antt:3:5: error: `returns`: `one` is not in scope\n"


class AtOnce(Case):
    """Edits of definitions and of functions of a small crate."""

    def setUp(self) -> None:
        super().setUp()
        self.copied()
        self.write("crates/pc_a/src/laws.rt", LAWS)
        self.write("crates/pc_a/src/lib.rt", CODE)
        self.write("crates/pc_a/specs/Days.antt", DAYS)
        self.write("crates/pc_a/specs/More.antt", "use Rattle.pc_a.specs.Days.{one as passed}\n")
        self.write("crates/pc_a/proofs/Facts.antt", FACTS)
        for law in ("hand", "second"):
            self.write(f"crates/pc_a/proofs/laws/{law}/Answers.antt", "use Rattle.pc_a.proofs.Facts.{of_three}\n\nreturns : A\n"
                       f"returns = {'of_three' if law == 'hand' else 'refl'}\n")
        self.checks: List[str] = []

    def edit(self, name: str, law: str, old: str, new: str, control: str = "") -> None:
        """Writes an edit of the definitions that makes a law false."""
        lines = [f"law: laws::{law}", "file: specs/Days.antt", f"old: {old}", f"new: {new}", *([f"control: {control}"] if control else [])]
        self.write(f"wrong_bodies/pc_a/{name}.edit", "\n".join(lines) + "\n")

    def of_function(self, name: str, old: str, new: str) -> None:
        """Writes an edit of a function."""
        self.write(f"wrong_bodies/pc_a/{name}.edit", f"file: src/lib.rt\nold: {old}\nnew: {new}\n")

    def rounds(self) -> List[List[str]]:
        """Returns the names of the edits that are tried at once."""
        return [[edit.stem for edit in it] for it in tool("wrong_bodies", self.room / "tools").rounds_of("pc_a")]

    def ground(self, *functions: str) -> List[str]:
        """Returns the names of the definitions and lemmas on which functions or laws stand."""
        grounds = tool("grounds", self.room / "tools").Grounds(self.room / "crates/pc_a")
        return sorted(name for path, name in grounds.of(functions) if path)

    def verdicts(self, says: Callable[[str, Dict[str, str]], str]) -> Dict[str, str]:
        """Returns the verdict on each edit, by a prover that says this of a law or a function and the changed files,
        and keeps the names of the edits that each check was of."""
        of = tool("wrong_bodies", self.room / "tools")

        def check(edits: List[Path], control: bool) -> str:
            self.checks.append(" ".join(edit.stem for edit in edits))
            edited: Any = of.alone("pc_a", edits, control)
            texts = {"specs/Days.antt": DAYS, **edited.texts}
            told = {name: says(name, texts) for name in sorted(edited.names())}
            lines = [f"fn pc_a::{name}: {'not proved' if text else 'proved'}\n" for name, text in told.items()]
            return "".join([*told.values(), *lines, f"only={len(told)} proved=0\n"])

        task = of.Task(check, "pc_a", list(of.rounds_of("pc_a")), True, tells=False)
        return {edit.stem: verdict for edit, verdict in of.verdicts_of_crate(task).items()}

    def says(self, name: str, texts: Dict[str, str]) -> str:
        """Says what a prover would say of laws about the numbers, and refuses each changed function."""
        if not name.startswith("laws::"):
            at = CODE.split("\n").index("    5" if name == "plain" else "    7") + 1
            return f"note: src/lib.rt:{at}:5: it is not proved that what the function ensures holds\n"
        at = LAWS.split("\n").index(f"pub fn {name.split('::')[-1]}()") + 1
        holds = {"laws::first": "one = 1\n", "laws::second": "two = 2\n"}.get(name, "")
        return "" if holds in texts["specs/Days.antt"] else GOAL.format(at)

    def test_independent_definitions_are_tried_in_one_run(self) -> None:
        self.edit("one", "first", "one = 1", "one = 9")
        self.edit("two", "second", "two = 2", "two = 9")
        self.assertEqual(self.verdicts(self.says), {"one": "refused", "two": "refused"})
        self.assertEqual(self.checks, ["one two"])

    def test_a_law_that_stands_on_the_other_definition(self) -> None:
        self.edit("one", "both", "one = 1", "one = 9")
        self.edit("two", "second", "two = 2", "two = 9")
        self.assertEqual(self.rounds(), [["one"], ["two"]])

    def test_two_edits_of_one_law_or_one_definition(self) -> None:
        self.edit("one", "first", "one = 1", "one = 9")
        self.edit("other", "first", "one = 1", "one = 8")
        self.edit("two", "second", "two = 2", "two = 9")
        self.assertEqual(self.rounds(), [["one", "two"], ["other"]])

    def test_a_harmless_edit_is_accepted_beside_others(self) -> None:
        self.edit("one", "first", "one = 1", "one = 9")
        self.edit("two", "second", "two = 2", "two = 1 + 1")
        says = self.says
        harmless: Callable[[str, Dict[str, str]], str] = lambda name, texts: "" if name == "laws::second" else says(name, texts)
        self.assertEqual(self.verdicts(harmless), {"one": "refused", "two": "ACCEPTED"})
        self.assertEqual(self.checks, ["one two", "two"])

    def test_a_refusal_that_is_not_clear_is_tried_alone(self) -> None:
        self.edit("one", "first", "one = 1", "one = 9")
        self.edit("two", "second", "two = 2", "two = 9", "two = 2 + 0")
        of = tool("wrong_bodies", self.room / "tools")
        named: Callable[[str, Dict[str, str]], str] = lambda name, texts: NAME.format("second") if name == "laws::second" else self.says(name, texts)
        self.assertEqual(self.verdicts(named), {"one": "refused", "two": of.BY_NAMES})
        self.assertEqual(self.checks[:2], ["one two", "two"])
        # Where a definition is refused as it is written, more may be refused than what stands on it
        self.checks = []
        written = "./specs/Days.antt:6:7: error: `one`: expected type `ℕ`\n"
        self.verdicts(lambda name, texts: (written if "one = 9" in texts["specs/Days.antt"] else "") + self.says(name, texts))
        self.assertEqual(self.checks[:3], ["one two", "one", "two"])
        # And so where the check says nothing about what the law stands on
        self.checks = []
        self.verdicts(lambda name, texts: "\n" if name == "laws::second" else self.says(name, texts))
        self.assertEqual(self.checks[:2], ["one two", "two"])

    def test_a_check_that_is_stopped_is_done_for_each_alone(self) -> None:
        self.edit("one", "first", "one = 1", "one = 9")
        self.edit("two", "second", "two = 2", "two = 9")
        of = tool("wrong_bodies", self.room / "tools")
        files = {it.stem: it for it in of.edits_of("pc_a")}
        found = of.verdicts_of("pc_a", [files["one"], files["two"]], "")
        self.assertEqual(of.asked_again(found), [[files["one"]], [files["two"]]])

    def test_functions_beside_definitions(self) -> None:
        self.edit("one", "first", "one = 1", "one = 9")
        self.of_function("called", "7", "8")
        self.of_function("plain", "5", "6")
        self.assertEqual(self.verdicts(self.says), {"called": "refused", "one": "refused", "plain": "refused"})
        self.assertEqual(self.checks, ["called plain one"])
        # The contract of one of the functions says the second number
        self.edit("one", "second", "two = 2", "two = 9")
        self.assertEqual(self.rounds(), [["called", "plain"], ["one"]])

    def test_a_law_that_does_not_seem_to_stand_on_its_definition(self) -> None:
        self.edit("one", "second", "one = 1", "one = 9")
        self.edit("hour", "hours", "  pub hour : ℕ", "  pub hour : Day")
        self.assertEqual(self.rounds(), [["hour"], ["one"]])
        # Nor does an edit that changes an import too share a round
        self.edit("one", "hours", "one = 1", "one = 9\nold: {◌≡◌, ℕ}\nnew: {ℕ, ◌≡◌}")
        self.edit("hour", "second", "two = 2", "two = 9")
        self.assertEqual(len(self.rounds()), 2)

    def test_what_laws_stand_on(self) -> None:
        self.assertEqual(self.ground("first"), ["one"])
        self.assertEqual(self.ground("both"), ["one", "two"])
        self.assertEqual(self.ground("hours"), ["Day", "HasHour", "hour", "minute", "one"], "all of the record with its commented fields")
        self.assertEqual(self.ground("order"), ["Day", "hour", "minute", "two", "◌≺◌"], "by the sign of an operator")
        self.assertEqual(self.ground("hand"), ["of_three", "one", "returns"], "by the proof of a lemma that its own proof names")
        self.assertEqual(self.ground("given"), ["of_two", "two"], "by an attribute")
        self.assertEqual(self.ground("passed_on"), ["one", "passed"], "by a file that passes it on under another name")

    def test_what_functions_stand_on(self) -> None:
        self.assertEqual(self.ground("plain"), [])
        self.assertEqual(self.ground("caller"), ["two"])
        file = self.room / "crates/pc_a/src/lib.rt"
        text = file.read_text(encoding="utf-8")
        file.write_text(text.replace("    5\n", "    caller()\n"), encoding="utf-8")
        self.assertEqual(self.ground("plain"), ["two"], "by the contract of a function that it calls")
        method = "\nimpl Add for Hour {\n    /// The sum.\n    fn add(self, other: Hour) -> Hour\n        ensures { result ≡ two }\n    {\n        self\n    }\n}\n"
        file.write_text(text + method, encoding="utf-8")
        self.assertEqual(self.ground("plain"), ["two"], "by a method, which an operator may call")
        self.assertEqual(self.ground("first"), ["one"], "a law calls nothing")
        file.write_text(text + "\nimpl Model for Hour {\n    ghost view = { λ h. two };\n}\n", encoding="utf-8")
        self.assertEqual(self.ground("first"), ["one", "two"], "by what the types of the crate say")
