"""Tests tools/check tested."""
from __future__ import annotations

from room import Case, tool

class CheckTested(Case):
    """tools/check tested."""

    LIBRARY = """//! A crate: pub fn in_a_comment() {}
mod inner;
pub mod laws;
pub use inner::{Held, counted};
pub use pc_b::passed_on;
pub(crate) fn hidden() {}
"""
    INNER = """pub struct Held<'a> { text: &'a str }
struct Private;
impl<'a, I: Iterator<Item = Result<u8, ()>>> Held<'a> {
    /// pub fn in_a_comment()
    pub fn new(text: &'a str) -> Held<'a>
        ensures { result.text ≡ text }
    { Held { text } }
    pub fn text(&self) -> &'a str { self.text }
    fn own(&self) {}
}
impl Private { pub fn unreached(&self) {} }
impl<'a> Iterator for Held<'a> { fn next(&mut self) {} }
pub fn counted() -> u8 requires { 0 < 1 } { 1 }
pub fn not_passed_on() {}
"""
    TESTS = """use pc_a::{Held, counted};
fn test() { let held = Held::new("a"); held.text(); counted(); }
// gone()
"""
    ROWS = ("| `pc_a::Held::new`, `pc_a::Held::text` | crates/test_tables/src/main.rt |\n"
            "| `pc_a::counted` | crates/test_tables/src/main.rt |\n| `pc_a::laws::a_law` | law |\n")
    COUNTS = "{} of the {} calls are called by no test itself: `tests/some/run`, {} tests."
    HEAD = "# Page\n\n{}\n\n| `pc_a::elsewhere` | none |\n\n## Which test calls which public call\n\n| Call | By |\n"
    COUNTED = "`pc_a::counted` | crates/test_tables/src/main.rt |"

    # The functions of the crate that have no `ensures`
    WITHOUT = ["hidden", "Held::text", "Held::own", "Private::unreached", "counted", "not_passed_on"]

    def setUp(self) -> None:
        super().setUp()
        self.copied()
        self.write("crates.txt", "# crates\npc_a:\ntest_tables: pc_a\n")
        self.write("crates/pc_a/src/lib.rt", self.LIBRARY)
        self.write("crates/pc_a/src/inner.rt", self.INNER)
        self.write("crates/pc_a/src/laws.rt", "pub fn a_law()\n    ensures { a ≡ a }\n{}\n")
        self.write("crates/test_tables/src/main.rt", self.TESTS)
        self.proves(6, *self.WITHOUT)

    def proves(self, count: int, *names: str) -> None:
        """Writes the page that names the functions without an `ensures`."""
        quoted = ", ".join(f"`{name}`" for name in names)
        self.write("docs/PROVED.md", "# Page\n\n| `pc_a` | `elsewhere` | |\n\n## Functions without a contract\n\n"
                   f"{count} functions have no `ensures`.\n\n| `pc_a` | {quoted} | `what` they do |\n\n## End\n")

    def lists(self, rows: str, untested: int = 0, calls: int = 3, tests: int = 2) -> None:
        """Writes the list, and the numbers of calls and tests."""
        self.write("tests/some/run", "class Case:\n    def test_one(self): pass\n")
        self.write("tests/some/test_more.py", "class Case:\n    def test_two(self): pass\n    def own(self): pass\n")
        self.write("docs/TESTED.md", self.HEAD.format(self.COUNTS.format(untested, calls, tests)) + rows)

    def faults(self, why: str, rows: str) -> None:
        """Expects the tool to find this in a list."""
        self.lists(rows)
        check = tool("check.tested", self.room / "tools")
        calls, files = {call.full: call for call in check.public_calls()}, {test.name: test for test in check.tests()}
        faults = check.compared(calls, files, check.listed())
        self.assertTrue(any(why in fault for fault in faults), faults)

    def test_passes(self) -> None:
        self.lists(self.ROWS)
        self.assertEqual(self.passes("check tested", own=True),
                         "4 public calls, 1 laws, 0 without a test, 0 faults\n")

    def test_calls(self) -> None:
        said = self.passes("check tested", "--calls", own=True)
        self.assertEqual(sorted(line.split(": ")[0] for line in said.splitlines()),
                         ["pc_a::Held::new", "pc_a::Held::text", "pc_a::counted", "pc_a::laws::a_law"])

    def test_none(self) -> None:
        self.lists(self.ROWS.replace(self.COUNTED, "`pc_a::counted` | none |"), untested=1)
        self.assertIn("1 without a test, 0 faults", self.passes("check tested", own=True))

    def test_counts(self) -> None:
        self.lists(self.ROWS, untested=1)
        self.fails("line 3: 0 of the 3 calls are called by no test itself, not 1 of 3", "check tested", own=True)
        self.lists(self.ROWS, calls=5)
        self.fails("line 3: 0 of the 3 calls are called by no test itself, not 0 of 5", "check tested", own=True)
        self.lists(self.ROWS, tests=3)
        self.fails("line 3: tests/some/run has 2 tests, not 3", "check tested", own=True)
        self.write("docs/TESTED.md", self.HEAD.format("") + self.ROWS)
        self.fails("no line says how many calls are called by no test itself", "check tested", own=True)

    def test_functions_without_an_ensures(self) -> None:
        self.lists(self.ROWS)
        self.proves(6, *self.WITHOUT[1:])
        self.fails("docs/PROVED.md: pc_a::hidden has no `ensures`, and is not named\n", "check tested", own=True)
        self.proves(6, *self.WITHOUT, "Held::new")
        self.fails("docs/PROVED.md: pc_a::Held::new is no function without an `ensures`\n", "check tested", own=True)
        self.proves(5, *self.WITHOUT)
        self.fails("docs/PROVED.md: 6 functions have no `ensures`, not 5\n", "check tested", own=True)
        self.write("docs/PROVED.md", "# Page\n")
        self.fails("6 functions have no `ensures`, not as many as the page says\n", "check tested", own=True)

    def test_a_fault_fails(self) -> None:
        self.lists(self.ROWS.replace("`pc_a::counted`", "x"))
        self.fails("pc_a::counted is a public call, and is not on the list", "check tested", own=True)

    def test_lists(self) -> None:
        self.faults("pc_a::counted is a public call, and is not on the list", self.ROWS.replace("`pc_a::counted`", "x"))
        self.faults("there is no public call pc_a::gone", self.ROWS + "| `pc_a::gone` | none |\n")
        self.faults("there is no public call pc_a::hidden", self.ROWS + "| `pc_a::hidden` | none |\n")
        self.faults("pc_a::counted is on the list twice", self.ROWS + "| `pc_a::counted` | none |\n")

    def test_files(self) -> None:
        self.write("crates/test_tables/src/main.rt", self.TESTS.replace("counted();", ""))
        self.faults("crates/test_tables/src/main.rt does not call pc_a::counted", self.ROWS)
        self.write("crates/test_tables/src/main.rt", self.TESTS.replace("held.text();", "// held.text();"))
        self.faults("does not call pc_a::Held::text", self.ROWS)
        self.faults("there is no file of tests crates/pc_a/src/inner.rt",
                    self.ROWS.replace(self.COUNTED, "`pc_a::counted` | crates/pc_a/src/inner.rt |"))

    def test_laws(self) -> None:
        self.faults("pc_a::laws::a_law is a law", self.ROWS.replace("| law |", "| none |"))
        self.faults("pc_a::counted is no law", self.ROWS.replace(self.COUNTED, "`pc_a::counted` | law |"))
