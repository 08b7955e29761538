"""Tests tools/attack definitions, without a prover."""
from __future__ import annotations

from typing import Any, List, Set, Tuple

from room import Case, tool

HEAD = """-- Days.
use Rattle.std.specs.Prelude.{◌≡◌, ◌⊎◌, ◌<◌, ◌≤◌, ℕ, Bool, true, false, ◌&&◌, ◌||◌, if◌then◌else◌}
use Rattle.std.specs.Prelude.{List, [], ◌∷◌, ◌++◌}

-- a day of a week
pub data Day : Type 0 where
  monday tuesday friday : Day
  later : ℕ → Day

"""
TWO = """-- the number of a day
abbrev pub number : Day → ℕ
number monday = 1
number friday = 5

-- a day is before another one
abbrev pub IsBefore : Day → Day → Type 0
IsBefore a b = number a < number b
"""
USES = "ghost use Rattle.pc_a.specs.Days.{Day, monday, friday, number, IsBefore};\n\n"
LAWS = """pub fn days_end()
    ensures { IsBefore monday friday }
{}

pub fn days_count()
    ensures { number monday ≡ 1 }
{}

pub fn shown(day: u8) -> u8
    ensures { result ≡ number day }
{
    day
}
"""


class WithCrate(Case):
    """A test with a small crate."""

    def changes(self, text: str, kind: str = "") -> List[Tuple[str, ...]]:
        """Returns the changes of a text below the head, each as the lines that it brings."""
        changes = tool("changes")
        found = changes.changes_in(self.room, "specs/Days.antt", HEAD + text)
        return [tuple(new.strip() for _, new in it.pairs) for it in found if it.name != "Day" and kind in ("", it.kind)]

    def one_line(self, body: str, kind: str = "") -> Set[str]:
        """Returns what the changes of a definition of one clause put behind its `=`."""
        found = self.changes(f"-- a thing\nabbrev pub thing : Day → ℕ\nthing d = {body}\n", kind)
        return {new.removeprefix("thing d = ") for (new,) in found}

    def crate(self, **specs: str) -> Any:
        """Writes a crate with the laws and these files of definitions, and returns the tool beside it."""
        self.copied()
        self.write("crates/pc_a/src/laws.rt", USES + LAWS)
        for name, text in specs.items():
            self.write(f"crates/pc_a/specs/{name.replace('_', '/')}.antt", text)
        return tool("attack.definitions", self.room / "tools")


class Changes(WithCrate):
    """The changes of tools/attack definitions, each worked by hand from its list of kinds."""

    def test_constants(self) -> None:
        self.assertEqual(self.one_line("f 1 true"), {"f 0 true", "f 2 true", "f 1 false"})
        self.assertEqual(self.one_line("0"), {"1"})
        self.assertEqual(self.one_line('codes "ab"'), {'codes "a"'})
        self.assertEqual(self.one_line(r'codes "a\n"'), {'codes "a"'})
        self.assertEqual(self.one_line("f friday"), {"f monday", "f tuesday"})
        self.assertEqual(self.one_line("Unit {0}"), set())
        self.assertEqual(self.one_line("later d"), set())

    def test_strictness(self) -> None:
        self.assertEqual(self.one_line("number d < limit"), {"number d ≤ limit"})
        self.assertEqual(self.one_line("limit ≤ number d"), {"limit < number d"})
        self.assertEqual(self.one_line("nat_lt a b"), set(), "nat_le is not imported")

    def test_factors_and_disjuncts(self) -> None:
        self.assertEqual(self.one_line("A d × B × C d"), {"Unit {0} × B × C d", "A d × Unit {0} × C d", "A d × B × Unit {0}"})
        self.assertEqual(self.one_line("(k : ℕ) × A k"), {"(k : ℕ) × Unit {0}"})
        self.assertEqual(self.one_line("f (a == b && c) d"), {"f (true && c) d", "f (a == b && true) d"})
        self.assertEqual(self.one_line("A ⊎ (B × C)"),
                         {"⊥ ⊎ (B × C)", "A ⊎ ⊥", "A ⊎ (Unit {0} × C)", "A ⊎ (B × Unit {0})"})
        self.assertEqual(self.one_line("a || b"), {"false || b", "a || false"})

    def test_premises(self) -> None:
        self.assertEqual(self.one_line("(k : ℕ) → a ≡ k → List ℕ → A k"), {"(k : ℕ) → Unit {0} → List ℕ → A k"})
        self.assertEqual(self.changes("-- it holds\npub data Holds : Type 0 where\n  one : {k : ℕ} → A k → Holds\n"),
                         [("one : {k : ℕ} → Unit {0} → Holds",)])

    def test_parts_of_lists(self) -> None:
        self.assertEqual(self.one_line("a d ++ b"), {"[] ++ b", "a d ++ []"})
        self.assertEqual(self.one_line("a ++ b ∷ c"), {"[] ++ b ∷ c", "a ++ []", "a ++ c"})
        self.assertEqual(self.one_line("a ∷ b ∷ []"), {"b ∷ []", "a ∷ []"})

    def test_arms_and_clauses(self) -> None:
        self.assertEqual(self.one_line("f (if a then b x else c)"), {"f (if a then c else b x)"})
        clauses = "-- a thing\nabbrev pub thing : Day → Day\nthing (later k) = later k\nthing monday = x\nthing _ = y\n"
        self.assertEqual(self.changes(clauses), [("thing monday = y", "thing _ = x")], "the first one has a variable of its own")

    def test_fields(self) -> None:
        record = "-- it is kept\npub record Kept (d : Day) : Type 0 where\n  pub first : A d × B\n  pub last : number d ≤ 7\n"
        self.assertEqual(set(self.changes(record)), {
            ("pub first : Unit {0} × B",), ("pub first : A d × Unit {0}",), ("pub last : number d < 7",),
            ("pub last : number d ≤ 6",), ("pub last : number d ≤ 8",)})

    def test_types_of_definitions_and_patterns_stay(self) -> None:
        self.assertEqual(self.changes("-- a thing\nabbrev pub thing : (A × B → C d → ℕ)\nthing friday = d\n"), [])

    def test_operands_that_go_on_in_another_line(self) -> None:
        self.assertEqual(self.changes("-- a thing\nabbrev pub thing : ℕ\nthing = a ++\n    b\n"), [("thing = [] ++",)])
        self.assertEqual(self.changes("-- a thing\nabbrev pub thing : ℕ\nthing = f a\n    ++ b\n"), [("++ []",)])

    def test_an_empty_list_that_is_not_known_yet(self) -> None:
        source = HEAD.replace("[], ", "") + "-- a thing\nabbrev pub thing : ℕ\nthing = a ++ b\n"
        found = [it.pairs[1:] for it in tool("changes").changes_in(self.room, "specs/Days.antt", source) if it.name == "thing"]
        first = HEAD.split("\n")[1]
        self.assertEqual(found, [((first, first.replace("{", "{[], ", 1)),)] * 2)

    def test_lines_that_stand_twice(self) -> None:
        self.assertEqual(self.changes("-- it holds\npub record One : Type 0 where\n  pub at : 1 ≤ a\n\n"
                                      "-- it holds\npub record Two : Type 0 where\n  pub at : 1 ≤ a\n"), [])


class Picks(WithCrate):
    """The changes that tools/attack definitions picks, prints and writes."""

    def test_the_same_seed_picks_the_same_changes(self) -> None:
        definitions = self.crate(Days=HEAD + TWO)
        picks = [definitions.picked_of(self.room, "pc_a", seed, 5) for seed in ("1", "1", "2")]
        self.assertEqual(picks[0], picks[1])
        self.assertNotEqual(picks[0], picks[2])
        self.assertEqual({it.change.name for it in picks[0][:2]}, {"number", "IsBefore"})
        printed = self.ran("attack definitions", "--number", "5", "pc_a", own=True)
        self.assertEqual(printed, self.ran("attack definitions", "--number", "5", "--seed", "1", "pc_a", own=True))
        self.assertEqual((printed[0], printed[1].splitlines()[-1]), (0, "5 picked"))

    def test_what_is_left_out(self) -> None:
        private = TWO.replace("the number of a day", "the number of a day (private to\n-- this crate)")
        definitions = self.crate(Days=HEAD + private, Internal_More=HEAD + TWO, Computed_More=HEAD + TWO,
                                 Tests="-- The computed twin of days.\n" + HEAD + TWO)
        found = {(it.path, it.name) for it in definitions.changes_of(self.room, "pc_a")}
        self.assertEqual(found, {("specs/Days.antt", "IsBefore")})

    def test_edits_fit(self) -> None:
        self.crate(Days=HEAD + TWO)
        self.assertEqual(self.ran("attack definitions", "--number", "99", "--write", "edits", "pc_a", own=True)[0], 0)
        files = sorted((self.room / "edits/pc_a").iterdir())
        wrong_bodies = tool("wrong_bodies", self.room / "tools")
        self.assertEqual([wrong_bodies.misfit("pc_a", it) for it in files], [None] * 6)
        self.assertIn("file: specs/Days.antt\nold: IsBefore a b = number a < number b\nnew: IsBefore a b = number a ≤ number b\n",
                      "".join(it.read_text(encoding="utf-8") for it in files))

    def test_mistakes(self) -> None:
        self.crate(Days=HEAD + TWO)
        self.assertEqual(self.ran("attack definitions", "pc_b", own=True)[0], 3)
        self.assertEqual(self.ran("attack definitions", own=True)[0], 3)
        self.assertEqual(self.ran("attack definitions", "--number", "0", "pc_a", own=True)[0], 3)
        self.write("crates/pc_a/specs/Days.antt", "-- Nothing.\n")
        self.assertEqual(self.ran("attack definitions", "pc_a", own=True), (1, "no change\n"))


class Verdicts(WithCrate):
    """The verdicts of tools/attack definitions, from the output of a check."""

    def judged(self, said: str, proofs: str = "", at: str = "Lemmas") -> List[Tuple[str, str]]:
        """Returns the verdicts on a change of `number` and one of `IsBefore`, in this order, from an output."""
        definitions = self.crate(Days=HEAD + TWO)
        self.write(f"crates/pc_a/proofs/{at}.antt", proofs)
        picked = {it.change.name: it for it in definitions.picked_of(self.room, "pc_a", "1", 2)}
        reach = tool("reach", self.room / "tools").Reach(self.room / "crates/pc_a")
        both = [picked["number"], picked["IsBefore"]]
        found = definitions.verdicts_of(said + "\nonly=2 proved=0\n", {}, both, reach)
        return [(found[it].word, found[it].why) for it in both]

    def test_a_law_that_stands_on_one_change_alone(self) -> None:
        self.assertEqual(self.judged("fn pc_a::laws::days_count: not proved\nfn pc_a::laws::days_end: proved"),
                         [("refused by", "pc_a::laws::days_count"), ("survives", "")])

    def test_a_law_that_stands_on_two_changes(self) -> None:
        self.assertEqual(self.judged("fn pc_a::laws::days_end: not proved"), [("undecided", ""), ("undecided", "")])

    def test_nothing_is_refused(self) -> None:
        self.assertEqual(self.judged("fn pc_a::laws::days_count: proved"), [("survives", ""), ("survives", "")])

    def test_a_function_that_calls_one_that_is_refused(self) -> None:
        self.assertEqual(self.judged("fn pc_a::laws::shown: no proof: it calls pc_a::laws::other, which is not proved"),
                         [("survives", ""), ("survives", "")])

    def test_a_lemma(self) -> None:
        proofs = ("use Rattle.pc_a.specs.Days.{number, monday, IsBefore}\n\n-- the first day has a number\nfirst : number monday ≡ 1\nfirst = refl\n\n"
                  "-- it follows\nnext : A\nnext = f first IsBefore\n")
        lemma = "./proofs/Lemmas.antt:5:9: error: `first`: expected type `1 ≡ 1`"
        self.assertEqual(self.judged(lemma, proofs), [("refused by", "proofs/Lemmas.antt: first"), ("survives", "")])
        other = "./proofs/Lemmas.antt:9:8: error: `next`: it has another type"
        self.assertEqual(self.judged(other, proofs), [("undecided", ""), ("undecided", "")])

    def test_the_answer_of_a_law(self) -> None:
        answer = "laws/days_count/Answers"
        said = f"./proofs/{answer}.antt:1:11: error: `returns`: it has another type"
        self.assertEqual(self.judged(said, "returns : A\nreturns = refl\n", answer),
                         [("refused by", f"proofs/{answer}.antt: returns"), ("survives", "")])

    def test_what_stands_on_a_refused_lemma(self) -> None:
        for said in ("error: 2 declarations that depend on `first`, which was rejected, were not checked: next",
                     "error: `next` is not admitted: rejected", "note: refused with its `mutual` block"):
            self.assertEqual(self.judged(f"./proofs/Lemmas.antt:2:1: {said}", "-- a fact\nfirst : A\nfirst = number\n"),
                             [("survives", ""), ("survives", "")])

    def test_a_definition_that_is_refused_as_written(self) -> None:
        at = (HEAD + TWO).split("\n").index("number monday = 1") + 1
        said = f"./specs/Days.antt:{at}:17: error: `number`: expected type `ℕ`"
        self.assertEqual(self.judged(said)[0], ("not tried", "its definition is refused as written"))
        said += "\nfn pc_a::laws::days_count: not proved"
        self.assertEqual(self.judged(said)[0], ("not tried", "its definition is refused as written"))

    def test_a_definition_that_is_refused_for_another_one(self) -> None:
        at = (HEAD + TWO).split("\n").index("IsBefore a b = number a < number b") + 1
        self.assertEqual(self.judged(f"./specs/Days.antt:{at}:16: error: `IsBefore`: expected type `ℕ`"),
                         [("undecided", ""), ("undecided", "")])

    def test_a_check_that_was_stopped(self) -> None:
        definitions = self.crate(Days=HEAD + TWO)
        picked = definitions.picked_of(self.room, "pc_a", "1", 2)
        reach = tool("reach", self.room / "tools").Reach(self.room / "crates/pc_a")
        found = definitions.verdicts_of("rattle: no verdict", {}, picked, reach)
        self.assertEqual({tuple(it) for it in found.values()}, {("undecided", "the check was stopped")})

    def test_a_check_is_of_the_changed_files(self) -> None:
        definitions = self.crate(Days=HEAD + TWO)
        self.write("crates/pc_a/proofs/Lib.antt", "")
        picked = next(it for it in definitions.picked_of(self.room, "pc_a", "1", 9) if it.change.kind == "strictness")
        said, texts = definitions.checked(["cat", "specs/Days.antt"], "pc_a", [picked])
        self.assertEqual(said, (HEAD + TWO).replace("number a < number b", "number a ≤ number b"))
        self.assertEqual(texts, {"specs/Days.antt": said})
        self.assertEqual((self.room / "crates/pc_a/specs/Days.antt").read_text(encoding="utf-8"), HEAD + TWO)

    def test_a_check_of_functions_has_the_contracts_alone_of_others(self) -> None:
        definitions = self.crate(Days=HEAD + TWO)
        self.write("crates/pc_a/proofs/laws/days_end/Answers.antt", "by hand\n")
        picked = definitions.picked_of(self.room, "pc_a", "1", 1)
        shows = self.program("shows", 'echo "$@"\ncat src/laws.rt\nfind proofs -name "*.antt" | sort\n')
        files = {"days_end": "proofs/laws/days_end/Answers.antt\n", "shown": "proofs/laws/shown/Proof.antt\n"}
        without = LAWS.replace("    day\n", "loop {}\n")
        self.assertEqual(definitions.checked([shows], "pc_a", picked)[0], "\n" + USES + LAWS + files["days_end"])
        self.assertEqual(definitions.checked([shows], "pc_a", picked, ["laws::days_end"])[0],
                         "--allow-holes --only laws::days_end\n" + USES + without + files["days_end"] + files["shown"])
        self.assertEqual(definitions.checked([shows], "pc_a", picked, ["laws::days_end"], {"laws::shown"})[0],
                         "--allow-holes --only laws::days_end\n" + USES + LAWS + files["days_end"])

    def test_a_function_that_is_proved_but_for_contracts_of_others(self) -> None:
        definitions = self.crate(Days=HEAD + TWO)
        hole = "Rattle.pc_a.proofs.laws.shown.Proof.shown_spec"
        says = self.program("says", f"echo 'fn pc_a::laws::days_end: depends on a hole in `{hole}`'\necho only=1 holes=1\n")
        said, texts = definitions.checked([says], "pc_a", definitions.picked_of(self.room, "pc_a", "1", 1), ["laws::days_end"])
        self.assertEqual((said, list(texts)), ("fn pc_a::laws::days_end: proved\nonly=1 proved=0\n", ["specs/Days.antt"]))

    def test_functions_that_judges_call(self) -> None:
        self.crate(Days=HEAD + TWO)
        calls = "pub fn passed(day: u8) -> u8\n    ensures { result ≡ number day }\n{\n    shown(other(day))\n}\n\n"
        self.write("crates/pc_a/src/calls.rt", USES + calls + "fn other(day: u8) -> u8 {\n    day\n}\n")
        reach = tool("reach", self.room / "tools").Reach(self.room / "crates/pc_a")
        number, before = ("specs/Days.antt", "number"), ("specs/Days.antt", "IsBefore")
        self.assertEqual(reach.with_called(["calls::passed"], {number, before}), {"calls::passed", "laws::shown"})
        self.assertEqual(reach.with_called(["calls::passed"], {before}), {"calls::passed"})
        self.assertEqual(reach.with_called(["laws::days_end"], {number}), {"laws::days_end"})

    def test_judges(self) -> None:
        self.crate(Days=HEAD + TWO)
        reach = tool("reach", self.room / "tools").Reach(self.room / "crates/pc_a")
        number, before = ("specs/Days.antt", "number"), ("specs/Days.antt", "IsBefore")
        self.assertEqual(reach.judges(number), ["laws::days_count", "laws::shown", "laws::days_end"])
        self.assertEqual(reach.judges(before), ["laws::days_end"])
        self.assertEqual(reach.judges(number, True), ["laws::days_count", "laws::days_end"])
        self.assertEqual(reach.judges(("specs/Other.antt", "number")), [])

    def test_definitions_that_no_clause_needs(self) -> None:
        more = "-- a day that nobody asks for\nabbrev pub last : Day\nlast = friday\n"
        self.crate(Days=HEAD + TWO, More="use Rattle.pc_a.specs.Days.{Day, friday}\n\n" + more)
        said = self.ran("attack definitions", "--unneeded", own=True)
        self.assertEqual(said, (0, "pc_a/specs/More.antt: last\n"))
