"""Tests tools/check names."""
from __future__ import annotations

from typing import Any, List

from room import Case, tool

SHARED = "pub fn shared() {}\n"


class CheckNames(Case):
    """tools/check names."""

    ONE = "pub struct Held;\npub(crate) enum Kind { One }\nstruct Own;\npub fn told() {}\nfn own() {}\n"
    TWO = "pub trait Teller { fn told(&self); }\nstruct Own;\nimpl Held { pub fn told(&self) {} }\nfn own() {}\n"

    def found(self, one: str, two: str, **specs: str) -> Any:
        """Returns the check, and the places that it finds in two modules and in files of specs of the first crate."""
        self.copied()
        self.write("crates/pc_a/src/lib.rt", one)
        self.write("crates/pc_b/src/inner.rt", two)
        for name, text in specs.items():
            self.write(f"crates/pc_a/specs/{name.replace('_', '/')}.antt", text)
        names = tool("check.names", self.room / "tools")
        return names, names.found_in_crates().places

    def faults(self, one: str = ONE, two: str = TWO, **specs: str) -> List[str]:
        """Returns the faults if `shared` may be in two places for a reason."""
        names, places = self.found(one, two, **specs)
        return list(names.faults_of(places, [names.Group("a reason", {"shared": 2})]))

    def defined(self, text: str, head: str = "") -> List[str]:
        """Returns the faults beside a file of definitions, if no name is listed. The first module begins with these
        lines."""
        names, places = self.found(head + self.ONE, self.TWO, Inner_Kinds=text)
        return list(names.faults_of(places, []))

    def test_names_of_one_module_and_methods_are_no_fault(self) -> None:
        self.assertEqual(self.faults(self.ONE + SHARED, self.TWO + SHARED), [])

    def test_a_type_that_is_there_twice(self) -> None:
        for kind in ("pub type Kind = u8;\n", "pub(crate) struct Kind;\n", "pub trait Kind {}\n"):
            self.assertIn("Kind is in 2 places: pc_a, pc_b::inner", self.faults(two=self.TWO + kind))

    def test_a_function_that_is_there_twice(self) -> None:
        self.assertIn("told is in 2 places: pc_a, pc_b::inner", self.faults(two=self.TWO + "pub(crate) fn told() {}\n"))

    def test_a_definition_beside_a_function(self) -> None:
        told = ["told is in 2 places: pc_a, pc_a/specs/Inner/Kinds.antt"]
        for head in ("abbrev pub told : Type 0", "unfoldable pub told : Type 0", "abbrev mutual\n  pub told : Type 0",
                     "module _ (n : ℕ) where\n  abbrev pub told : Type 0",
                     "pub data told : Type 0 where\n  one : told"):
            self.assertEqual(self.defined(f"{head}\ntold = one\n"), told)

    def test_a_definition_that_is_there_twice(self) -> None:
        record = "pub record IsSent : Type 0 where\n  pub at : ℕ\n"
        both = "IsSent is in 2 places: pc_a/specs/More.antt, pc_a/specs/Sent.antt"
        names, places = self.found(self.ONE, self.TWO, Sent=record, More="abbrev pub IsSent : ℕ → Type 0\n")
        self.assertEqual(list(names.faults_of(places, [])), [both])
        self.assertEqual(list(names.faults_of(places, [names.Group("a reason", {"IsSent": 2})])), [])

    def test_fields_constructors_and_private_definitions_are_left_out(self) -> None:
        record = "pub record Sent : Type 0 where\n  pub told : ℕ\n\nabbrev pub other : ℕ\n"
        data = "pub data Way : Type 0 where\n  told : Way\n"
        self.assertEqual(self.defined(f"pub mod told\nabbrev told : ℕ\n-- pub told\n{record}{data}"), [])

    def test_a_definition_belongs_to_the_function_that_cites_it(self) -> None:
        definition = "abbrev pub counted : ℕ → ℕ\n"
        used = "ghost use Rattle.pc_a.specs.Inner.Kinds.{other, counted};\n"
        renamed = "ghost use Rattle.pc_a.specs.Inner.Kinds.{counted as counted_in, other};\n"
        counts = "pub fn counted(n: u64) -> u64\n    ensures { result ≡ %s n }\n{ n }\n"
        two = ["counted is in 2 places: pc_a, pc_a/specs/Inner/Kinds.antt"]
        self.assertEqual(self.defined(definition, used + counts % "counted"), [])
        self.assertEqual(self.defined(definition, renamed + counts % "counted_in"), [])
        self.assertEqual(self.defined(definition, counts % "counted"), two)
        self.assertEqual(self.defined(definition, used + counts % "other"), two)
        self.assertEqual(self.defined(definition, used.replace("Kinds", "Others") + counts % "counted"), two)
        comment = (counts % "other").replace("u64\n", "u64\n    // counted_in\n")
        self.assertEqual(self.defined(definition, renamed + comment), two)

    def test_a_definition_belongs_to_the_type_that_is_used_beside_it(self) -> None:
        used = "use Rattle.pc_a.specs.declared.Kind.{Kind as %s}\n"
        record = "pub record Kind : Type 0 where\n  pub at : ℕ\n"
        two = ["Kind is in 2 places: pc_a, pc_a/specs/Inner/Kinds.antt"]
        self.assertEqual(self.defined(used % "RustKind" + record), [])
        self.assertEqual(self.defined(record), two)
        self.assertEqual(self.defined(used % "ThatKind" + record), two)
        beside = used % "RustKind" + "use Rattle.pc_a.specs.Inner.Kinds.{Kind}\n"
        names, places = self.found(self.ONE, self.TWO, Inner_Kinds=record, Beside=beside)
        self.assertEqual(list(names.faults_of(places, [])), [])

    def test_a_shared_name_is_in_as_many_places_as_are_listed(self) -> None:
        self.assertEqual(self.faults(), ["shared is in 0 places, and 2 are listed: "])
        self.assertEqual(self.faults(self.ONE + SHARED), ["shared is in 1 places, and 2 are listed: pc_a"])
        self.assertEqual(self.faults(self.ONE + SHARED, self.TWO + SHARED, Third="abbrev pub shared : ℕ\n"),
                         ["shared is in 3 places, and 2 are listed: pc_a, pc_b::inner, pc_a/specs/Third.antt"])

    def test_a_reason_is_for_two_places_at_least_and_is_given_once(self) -> None:
        names, places = self.found(self.ONE, self.TWO)
        groups = [names.Group("a reason", {"told": 1}), names.Group("another", {"told": 1})]
        self.assertEqual(list(names.faults_of(places, groups)),
                         ["told is listed twice", "told is in 1 places, and 1 are listed: pc_a"])

    def test_what_is_wrong_fails(self) -> None:
        self.faults(two=self.TWO + "pub struct Kind;\n")
        self.fails("Kind is in 2 places: pc_a, pc_b::inner", "check names", own=True)
