"""Tests tools/wrong_bodies and tools/check edits."""
from __future__ import annotations

import os
from pathlib import Path
from typing import Dict

from room import Case, tool

class Edits(Case):
    """tools/wrong_bodies, and tools/check edits."""

    EDIT = "file: src/lib.rt\nold: 1\nnew: 2\n"
    OF_CRATE = "file: specs/A.antt\nold: 1\nnew: 2\n"
    LOG = """rt: pc_a: trying its must-fail edits (1)
rt: must-fail pc_a/one.edit: refused, as it must be: src/lib.rt:1:1
rt: ok; handles allowed: none; must-fail edits: 1 refused; every proof and must-fail edit was done in this run
"""

    def setUp(self) -> None:
        super().setUp()
        self.copied()
        self.write("crates/pc_a/src/lib.rt", "fn one() { 1 }\n")
        self.write("crates/pc_a/specs/A.antt", "one = 1\n")
        self.write("crates/pc_a/must-fail/one.edit", self.OF_CRATE)
        self.write("wrong_bodies/pc_a/two.edit", self.EDIT)

    def told(self, why: str, log: str) -> None:
        """Expects edits to report this about a log."""
        edits = tool("check.edits", self.room / "tools")
        faults = list(edits.faults_of_log(log, edits.edits_of_gate()))
        self.assertTrue(any(why in fault for fault in faults), faults)

    def misfits(self, why: str, edit: str) -> None:
        """Expects an edit to be read as one that does not fit, for this reason."""
        file = self.write("wrong_bodies/pc_a/two.edit", edit)
        self.assertIn(why, tool("wrong_bodies", self.room / "tools").misfit("pc_a", Path(file)) or "it fits")

    def test_passes(self) -> None:
        self.assertEqual(self.passes("wrong_bodies", "--list", own=True), "pc_a: 1\n")
        self.assertIn("1 edits of crates; 1 of functions; 0 faults\n", self.passes("check edits", own=True))
        said = self.passes("check edits", "--log", "-", own=True, given=self.LOG)
        self.assertIn("1 edits of crates, 1 refused; 1 of functions; 0 faults\n", said)
        self.passes("check edits", "--log", self.write("log", self.LOG), own=True)

    def test_tried_earlier(self) -> None:
        known = "pc_a: 1 of its 1 must-fail edits were tried by an earlier run on this machine, and nothing has changed"
        first, *rest = self.LOG.splitlines(keepends=True)
        self.passes("check edits", "--log", self.write("log", "".join([f"rt: {known}\n", *rest])), own=True)
        self.told("1 edits are there, and rt counts 2", f"rt: {known.replace('its 1', 'its 2')}\n")

    def test_tried_by_two_runs(self) -> None:
        self.write("crates/pc_a/must-fail/three.edit", self.OF_CRATE)
        edits = tool("check.edits", self.room / "tools")
        trying = "rt: pc_a: trying its must-fail edits ({})\n"
        known = "rt: pc_a: {} of its 2 must-fail edits were tried by an earlier run\n"

        def faults(new: int, old: int) -> list:
            log = trying.format(new) + known.format(old)
            return list(edits.faults_of_counts(log, edits.edits_of_gate()))

        self.assertEqual([faults(1, 1), faults(2, 1), faults(2, 2)], [[], [], []])
        self.assertEqual(faults(1, 0), ["pc_a: 2 edits are there, and 1 were tried"])
        self.assertEqual(faults(3, 1), ["pc_a: 2 edits are there, and 4 were tried"])

    def test_a_crate_that_is_not_there(self) -> None:
        self.write("wrong_bodies/pc_gone/two.edit", self.EDIT)
        self.fails("two.edit: there is no file src/lib.rt", "wrong_bodies", "--list", own=True)
        self.fails("pc_gone/two.edit: there is no file src/lib.rt", "check edits", own=True)

    def test_says_little(self) -> None:
        for why in ("(only by a limit of the prover)", "(only because a proof file names what the edit took away)"):
            log = self.LOG.replace("as it must be", f"as it must be {why}")
            self.assertIn(f"says little: pc_a/one.edit: refused, as it must be {why}",
                          self.passes("check edits", "--log", "-", own=True, given=log))
        self.assertNotIn("says little", self.passes("check edits", "--log", "-", own=True, given=self.LOG))

    def test_misfits(self) -> None:
        self.misfits("it fits", self.EDIT)
        self.misfits("an 'old:' text is in src/lib.rt 0 times", self.EDIT.replace("old: 1", "old: 3"))
        self.misfits("an 'old:' text is in src/lib.rt 2 times", self.EDIT.replace("old: 1", "old: n"))
        self.misfits("there is no file src/gone.rt", self.EDIT.replace("lib", "gone"))
        self.misfits("no file below src/", self.EDIT.replace("src/lib.rt", "README.md"))
        self.misfits("it changes nothing", "file: src/lib.rt\n")
        self.misfits("it changes nothing", self.EDIT.replace("new: 2", "new: 1"))
        self.misfits("stands before any", "new: 2\n")
        self.misfits("a line is not read: of two lines", self.EDIT + "of two lines\n")

    def test_a_misfit_fails(self) -> None:
        self.write("wrong_bodies/pc_a/two.edit", self.EDIT.replace("old: 1", "old: 3"))
        self.fails("two.edit: an 'old:' text is in src/lib.rt 0 times", "wrong_bodies", "--list", own=True)
        self.fails("two.edit: an 'old:' text is in src/lib.rt 0 times", "check edits", own=True)

    def test_misfit_of_the_gate(self) -> None:
        self.write("crates/pc_a/must-fail/one.edit", self.OF_CRATE.replace("old: 1", "old: 3"))
        self.fails("must-fail/one.edit: an 'old:' text", "check edits", own=True)

    def test_quick(self) -> None:
        self.write("crates/pc_a/src/lib.rt", "fn one() {\n    1\n}\n\nimpl<T> A<B> for C<T> {\n    fn two() {\n        3\n"
                   "    }\n}\n\nconst FOUR: u8 = 4;\n")
        self.program("bin/rt", '[ "$*" = "check --only CAB::two --only one" ] && grep -q 5 src/lib.rt || exit 2\n'
                     "echo fn pc_a::one: not proved\necho fn pc_a::CAB::two: proved\nexit 1\n")
        self.write("wrong_bodies/pc_a/three.edit", "file: src/lib.rt\nold:         3\nnew:         5\n")
        self.write("wrong_bodies/pc_a/four.edit", "file: src/lib.rt\nold: 4\nnew: 6\n")
        env = {"PATH": f"{self.room / 'bin'}:{os.environ['PATH']}"}
        status, said = self.ran("wrong_bodies", "--quick", "pc_a", own=True, env=env)
        self.assertEqual((status, sorted(said.splitlines())), (1, [
            "pc_a/four.edit: not tried: it does not change functions alone, and names no law", "pc_a/three.edit: ACCEPTED",
            "pc_a/two.edit: refused"]))

    def test_each_in_its_folder(self) -> None:
        self.write("crates/pc_a/must-fail/four.edit", self.EDIT)
        self.passes("check edits", own=True)
        self.write("wrong_bodies/pc_a/three.edit", self.OF_CRATE)
        self.fails("wrong_bodies/pc_a/three.edit: an edit of more than functions that names no law stands in must-fail/", "check edits", own=True)

    def test_apart(self) -> None:
        self.write("crates/pc_a/src/lib.rt", "fn one() {\n    1\n}\n\nfn three() {\n    3\n}\n")
        self.write("wrong_bodies/pc_a/apart/three.edit", "file: src/lib.rt\nold: 3\nnew: 4\n")
        self.fails("pc_a/three: no row of wrong_bodies/APART.md says that it was refused", "check edits", own=True)
        row = "| `pc_a/three` | `three` | {}, 2026-01-02 | of other files |\n"
        self.write("wrong_bodies/APART.md", row.format("accepted"))
        self.fails("pc_a/three: no row of wrong_bodies/APART.md says that it was refused", "check edits", own=True)
        self.write("wrong_bodies/APART.md", "| `pc_a/three` | `three` | refused |\n")
        self.assertIn("stale: pc_a: 1 verdicts in wrong_bodies/APART.md\n", self.passes("check edits", own=True))
        self.write("wrong_bodies/APART.md", row.format("refused"))
        said = self.passes("check edits", own=True)
        self.assertIn("1 edits of crates; 2 of functions, 1 of which the gate leaves out; 0 faults\n", said)
        self.assertIn("stale: pc_a: 1 verdicts in wrong_bodies/APART.md\n", said)
        env = self.put_toolchain()
        self.assertEqual(self.ran("wrong_bodies", "--stale", own=True, env=env), (0, self.came(1, 1)))
        page = (self.room / "wrong_bodies/APART.md").read_text(encoding="utf-8")
        self.assertRegex(page, r"^\| `pc_a/three` \| `three` \| refused, 2\d{3}-\d\d-\d\d \| `[0-9a-f]{16}` \|\n$")
        self.assertNotIn("2026-01-02", page)
        self.assertNotIn("stale", self.passes("check edits", own=True))
        self.assertEqual(self.ran("wrong_bodies", "--stale", own=True, env=env), (0, self.came(0, 0)))
        self.write("crates/pc_a/specs/A.antt", "one = 1 -- first\n")
        self.assertIn("stale: pc_a: 1 verdicts in wrong_bodies/APART.md\n", self.passes("check edits", own=True))
        for words, passed in ((["--built"], 1), (["--built", "pc_a"], 1), (["--built", "--all"], 2), (["--built", "--all", "pc_a"], 2)):
            self.assertEqual(self.ran("wrong_bodies", *words, own=True, env=env), (0, self.came(passed, passed)))
        self.write("wrong_bodies/APART.md", row.format("refused") + row.format("refused").replace("three", "two"))
        self.fails("pc_a/two: wrong_bodies/APART.md has a row, and no such edit is apart", "check edits", own=True)
        self.write("wrong_bodies/pc_a/below/three.edit", "file: src/lib.rt\nold: 3\nnew: 4\n")
        self.fails("an edit stands right in its folder, and not below it", "check edits", own=True)

    def came(self, files: int, passed: int, failed: int = 0, skipped: int = 0) -> str:
        """Returns the last two lines when only the edits that passed were tried."""
        return f"{files} edits in files, {passed} tried\n{passed} passed, {failed} failed, {skipped} skipped\n"

    def put_toolchain(self) -> Dict[str, str]:
        """Writes a toolchain whose check proves `two`, proves `upper` unless `one`, which it calls, is checked too, and
        refuses every other function. Returns the environment that finds it."""
        self.program("bin/rt", f'[ "$*" = doc ] && echo {self.room}/kit/PAGE.md\n')
        self.write("kit/bin/rtlib.py", f"""RATTLE = "{self.room}/kit/bin/rattle"
class Crate:
    def __init__(self, name, below): self.name, self.libraries, self.rlib = name, below, f"{self.room}/{{name}}/{{name}}.rlib"
    def below(self): return self.libraries
    def is_built(self): return False
    def words(self, flags, keeps): return [*flags, self.name]
def crates_below(root):
    low = Crate("pc_low", [])
    return [low, Crate("pc_a", [low]), Crate("pc_b", [])]
""")
        self.program("kit/bin/rattle", """[ "$1 $2 $3" = "check --jobs 1" ] && [ -f src/lib.rt ] || exit 2
shift 4
all="$* "
case $all in --allow-holes*unnamed*) echo "./proofs/a/Proof.antt: error: \`pc_a\` has no function \`a\` for this file" ;; esac
while [ $# -gt 0 ]; do
  [ "$1" = --incremental ] && { [ -d "$2" ] || exit 2; } && shift 2 && continue
  [ "$1" = --allow-holes ] && shift && continue
  case $2 in
  *two) echo "fn pc_a::$2: proved" ;;
  *upper)
    case $all in
    *'--only one '*) echo "fn pc_a::$2: no proof: it calls \`pc_a::one\`, which is not proved" ;;
    *) echo "fn pc_a::$2: proved" ;;
    esac ;;
  *lost) exit 2 ;;
  *) echo "fn pc_a::$2: not proved" ;;
  esac
  shift 2
done
echo only=2 proved=1
exit 1
""")
        self.write("pc_low/pc_low.rlib", "")
        return {"PATH": f"{self.room / 'bin'}:{os.environ['PATH']}"}

    def test_built(self) -> None:
        env = self.put_toolchain()
        self.assertEqual(self.ran("wrong_bodies", "--built", own=True, env=env), (0, self.came(1, 1)))
        self.assertEqual((self.room / "crates/pc_a/src/lib.rt").read_text(encoding="utf-8"), "fn one() { 1 }\n")
        self.write("crates/pc_a/src/lib.rt", "fn one() {\n    1\n}\n\nfn two() {\n    3\n}\n\nfn lost() {\n    5\n}\n")
        self.write("wrong_bodies/pc_a/three.edit", "file: src/lib.rt\nold: 3\nnew: 4\n")
        self.write("wrong_bodies/pc_a/four.edit", "file: src/lib.rt\nold: 5\nnew: 6\n")
        self.write("wrong_bodies/pc_a/five.edit", self.OF_CRATE)
        status, said = self.ran("wrong_bodies", "--built", "pc_a", own=True, env=env)
        told = [line for line in said.splitlines() if line.startswith("pc_a/")]
        self.assertEqual((status, sorted(told)), (1, [
            "pc_a/five.edit: it does not change functions alone, and names no law", "pc_a/four.edit: not tried: no verdict on its function",
            "pc_a/three.edit: ACCEPTED"]))
        self.assertTrue(said.endswith("\n4 edits in files, 2 tried\n1 passed, 3 failed, 0 skipped\n"), said)

    def test_built_over_proofs(self) -> None:
        env = self.put_toolchain()
        self.write("crates/pc_a/src/lib.rt", "fn one() { 1 }\n\nfn two() {\n    3\n}\n\nfn unnamed() {\n    5\n}\n")
        self.write("wrong_bodies/pc_a/unnamed.edit", "file: src/lib.rt\nold: 5\nnew: 6\n")
        self.assertEqual(self.ran("wrong_bodies", "--built", "pc_a", own=True, env=env), (0, self.came(2, 2)))

    def test_laws(self) -> None:
        self.write("crates/pc_a/src/laws.rt", "pub fn upheld()\n    ensures { One }\n{}\n\npub fn two()\n    ensures { Two }\n{}\n\n"
                   "pub fn three() {\n    one()\n}\n\nfn four() {}\n")
        none = ": no edit names this law, and wrong_bodies/LAWS.md has no row for it\n"
        self.fails(f"pc_a::laws::two{none}pc_a::laws::upheld{none}", "check edits", own=True)
        edit = self.write("wrong_bodies/pc_a/three.edit", "law: laws::upheld\n" + self.OF_CRATE)
        status, said = self.ran("check edits", own=True)
        self.assertEqual((status, said.count(none)), (1, 1))
        self.assertIn(f"pc_a::laws::two{none}", said)
        for by in ("crates/pc_a/must-fail/one.edit", "pc_a::laws::upheld"):
            self.write("wrong_bodies/LAWS.md", f"| `pc_a::laws::two` | a case of `{by}`, not of `one` |\n")
            self.assertIn("\n2 laws, 1 of which an edit names\n", self.passes("check edits", own=True))
        for by in ("crates/pc_a/must-fail/gone.edit", "wrong_bodies/pc_a/two.edit", "pc_a::laws::two", "a reason"):
            self.write("wrong_bodies/LAWS.md", f"| `pc_a::laws::two` | `{by}` |\n")
            self.fails(f"pc_a::laws::two: wrong_bodies/LAWS.md names {by}, which is no edit of its must-fail, and no law", "check edits", own=True)
        self.write("wrong_bodies/LAWS.md", "| `pc_a::laws::two` | none |\n")
        self.fails(f"pc_a::laws::two{none}", "check edits", own=True)
        rows = [f"| `pc_a::laws::{law}` | `crates/pc_a/must-fail/one.edit` |\n" for law in ("two", "upheld", "three")]
        self.write("wrong_bodies/LAWS.md", "".join(rows))
        self.fails("pc_a::laws::upheld: wrong_bodies/LAWS.md has a row, and an edit names it\n"
                   "pc_a::laws::three: wrong_bodies/LAWS.md has a row, and there is no such law\n", "check edits", own=True)
        os.remove(edit)
        self.write("wrong_bodies/LAWS.md", "".join(rows[:2]))
        self.assertIn("\n2 laws, 0 of which an edit names\n", self.passes("check edits", own=True))

    def test_definitions_with_a_law(self) -> None:
        env = self.put_toolchain()
        self.write("crates/pc_a/src/laws.rt", "pub fn upheld<C: One>()\n    ensures { One }\n{\n}\n\npub fn two()\n    ensures { Two }\n{\n}\n")
        self.write("wrong_bodies/pc_a/three.edit", "law: laws::upheld\n" + self.OF_CRATE)
        self.write("wrong_bodies/LAWS.md", "| `pc_a::laws::two` | `crates/pc_a/must-fail/one.edit` |\n")
        self.passes("check edits", own=True)
        # A law that names no definition seems to stand on none, so its edit shares no round; those of functions come first
        rounds = list(tool("wrong_bodies", self.room / "tools").rounds_of("pc_a"))
        self.assertEqual([[edit.name for edit in it] for it in rounds], [["two.edit"], ["three.edit"]])
        self.assertEqual(self.ran("wrong_bodies", "--built", own=True, env=env), (0, self.came(2, 2)))
        # A law that is proved all the same refuses nothing
        self.write("wrong_bodies/pc_a/three.edit", "law: laws::two\n" + self.OF_CRATE)
        status, said = self.ran("wrong_bodies", "--built", own=True, env=env)
        self.assertEqual((status, "pc_a/three.edit: ACCEPTED" in said), (1, True))
        self.write("wrong_bodies/pc_a/three.edit", "law: laws::three\n" + self.OF_CRATE)
        self.fails("three.edit: there is no law laws::three", "check edits", own=True)
        # With a law, no function may change, and `rt` reads no such line
        self.write("wrong_bodies/pc_a/three.edit", "law: laws::two\n" + self.EDIT)
        self.fails("three.edit: an edit of more than functions that names no law stands in must-fail/", "check edits", own=True)
        self.write("wrong_bodies/pc_a/three.edit", self.EDIT.replace("old: 1", "old: one"))
        self.write("crates/pc_a/must-fail/one.edit", "law: laws::two\n" + self.OF_CRATE)
        self.fails("must-fail/one.edit: an edit that names a law stands in wrong_bodies/", "check edits", own=True)

    def test_the_head_of_a_function(self) -> None:
        self.write("crates/pc_a/src/lib.rt", "fn one() {\n    1\n}\n\nfn two() {\n    3\n}\n")
        file = Path(self.write("wrong_bodies/pc_a/three.edit", "file: src/lib.rt\nold: fn two() {\nnew: fn two() { 4 } fn three() {\n"))
        self.assertEqual(tool("wrong_bodies", self.room / "tools").alone("pc_a", [file]).words(), ["--only", "two"])

    def test_a_function_that_calls_a_refused_one(self) -> None:
        env = self.put_toolchain()
        self.write("crates/pc_a/src/lib.rt", "fn one() {\n    1\n}\n\nfn upper() {\n    one();\n    3\n}\n")
        self.write("wrong_bodies/pc_a/three.edit", "file: src/lib.rt\nold: 3\nnew: 4\n")
        status, said = self.ran("wrong_bodies", "--built", "pc_a", own=True, env=env)
        self.assertEqual((status, said.splitlines()[-3:]), (1, [
            "pc_a/three.edit: ACCEPTED", "2 edits in files, 2 tried", "1 passed, 1 failed, 0 skipped"]))
        self.program("bin/rt", f'shift; exec {self.room}/kit/bin/rattle check --jobs 1 pc_a "$@"\n')
        status, said = self.ran("wrong_bodies", "--quick", "pc_a", own=True, env=env)
        self.assertEqual((status, said.splitlines()), (1, ["pc_a/two.edit: refused", "pc_a/three.edit: ACCEPTED"]))

    def test_what_a_verdict_lies_in(self) -> None:
        lies = tool("wrong_bodies", self.room / "tools").says_of_itself
        own, calls = "`search` did not prove `returns`", "it calls `pc_a::b`, which is not proved"
        self.assertTrue(lies("pc_a::f", "not proved"))
        self.assertTrue(lies("pc_a::f", f"no proof: {own}"))
        self.assertTrue(lies("pc_a::f", f"no proof: expected answers in ./proofs/f/Answers.antt; {own}; {calls}"))
        self.assertTrue(lies("pc_a::B::f", "no proof: it calls `pc_a::fn::B::f::each`, which is not proved"))
        self.assertFalse(lies("pc_a::f", f"no proof: {calls}"))
        self.assertFalse(lies("pc_a::f", "no proof: it calls `pc_a::b` and `pc_a::c`, which are not proved"))
        self.assertFalse(lies("pc_a::f", f"no proof: in `pc_a::g`, of this cycle of calls: {calls}"))
        self.assertFalse(lies("pc_a::f", f"not proved; {calls}"))
        self.assertFalse(lies("pc_a::f", f"not proved; in `pc_a::g`, of this cycle of calls: {calls}"))
        part = "the borrow checker's part in its proof is not made yet: "
        unproved = "a call of `pc_a::b`, which has no proof: help: prove it first; the check then prints what is left"
        self.assertFalse(lies("pc_a::f", f"no proof: {part}{unproved}"))
        self.assertFalse(lies("pc_a::f", f"no proof: {part}in `pc_a::g`, of this cycle of calls, {unproved}"))

    def test_a_refusal_by_names_alone(self) -> None:
        self.put_toolchain()
        wrong_bodies = tool("wrong_bodies", self.room / "tools")
        file, other = wrong_bodies.KEPT / "pc_a/two.edit", "./proofs/upper/Answers.antt:7:5: error: `b`: the two types differ\n"
        name = "./proofs/one/Answers.antt:7:5: error: `a`: `goal.a`: module `Goals` has no `a` that can be named from here\n"
        judged = "fn pc_a::one: not proved\n"
        self.assertEqual(wrong_bodies.verdicts_of("pc_a", [file], name + other + judged), {file: wrong_bodies.BY_NAMES})
        for more in ("./proofs/one/Answers.antt:9:5: error: `c`: the two types differ\n",
                     "note: src/lib.rt:1:1: it is not proved that what the function ensures holds when it returns\n"):
            self.assertEqual(wrong_bodies.verdicts_of("pc_a", [file], name + more + judged), {file: "refused"})
        self.assertEqual(wrong_bodies.verdicts_of("pc_a", [file], judged), {file: "refused"})

    def test_a_cycle_of_calls_is_tried_function_by_function(self) -> None:
        self.write("crates/pc_a/src/lib.rt", "fn one() {\n    1\n}\n\n/// Even.\n#[cycle(parity)]\nfn even() {\n    3\n}\n\n"
                   "impl A {\n    #[cycle(parity)]\n    fn odd() {\n        5\n    }\n}\n")
        self.write("wrong_bodies/pc_a/three.edit", "file: src/lib.rt\nold: 3\nnew: 4\n")
        self.write("wrong_bodies/pc_a/four.edit", "file: src/lib.rt\nold: 5\nnew: 6\n")
        rounds = tool("wrong_bodies", self.room / "tools").rounds_of("pc_a")
        self.assertEqual([[edit.stem for edit in it] for it in rounds], [["four", "two"], ["three"]])

    def test_built_without_a_library(self) -> None:
        env = self.put_toolchain()
        why = "pc_a: no library of pc_low was built of the present files\n"
        self.write("pc_low/stamp", "of other files\n")
        self.assertEqual(self.ran("wrong_bodies", "--built", own=True, env=env), (1, why + self.came(1, 0, 1)))
        (self.room / "pc_low/stamp").unlink()
        (self.room / "pc_low/pc_low.rlib").unlink()
        self.write("crates/pc_b/src/lib.rt", "fn one() { 1 }\n")
        self.write("wrong_bodies/pc_b/two.edit", self.EDIT)
        self.assertEqual(self.ran("wrong_bodies", "--built", own=True, env=env), (1, why + self.came(2, 1, 1)))
        self.program("bin/rt", "exit 1\n")
        status, said = self.ran("wrong_bodies", "--built", "pc_a", own=True, env=env)
        self.assertEqual((status, said.splitlines()[-1]), (1, "0 passed, 1 failed, 0 skipped"))
        self.assertIn("pc_a: the toolchain does not say how a crate is checked", said)

    def test_a_library_that_is_missing_is_skipped_by_hand(self) -> None:
        env = self.put_toolchain()
        why = "skipped pc_a: no library of pc_low was built of the present files\n"
        (self.room / "pc_low/pc_low.rlib").unlink()
        self.write("crates/pc_b/src/lib.rt", "fn one() { 1 }\n")
        self.write("wrong_bodies/pc_b/two.edit", self.EDIT)
        for words in (["--skip-missing"], ["--all", "--skip-missing"], ["--skip-missing", "--all", "pc_a", "pc_b"]):
            self.assertEqual(self.ran("wrong_bodies", "--built", *words, own=True, env=env), (0, why + self.came(2, 1, 0, 1)))
        self.write("crates/pc_b/src/lib.rt", "fn two() { 1 }\n")
        status, said = self.ran("wrong_bodies", "--built", "--skip-missing", own=True, env=env)
        self.assertEqual((status, said.splitlines()[-1]), (1, "0 passed, 1 failed, 1 skipped"))

    def test_an_edit_that_is_lost_on_the_way_fails(self) -> None:
        env = self.put_toolchain()
        file = self.room / "tools/pycheck_tools/wrong_bodies.py"
        body = file.read_text(encoding="utf-8")
        lost = body.replace("    return found\n\n\ndef size_of", "    return {}\n\n\ndef size_of")
        self.assertNotEqual(lost, body)
        file.write_text(lost, encoding="utf-8")
        self.assertEqual(self.ran("wrong_bodies", "--built", own=True, env=env), (1, self.came(1, 0)))

    def test_names(self) -> None:
        self.write("wrong_bodies/pc_a/two edits", self.EDIT)
        self.fails("its name is not of letters", "wrong_bodies", "--list", own=True)
        self.write("wrong_bodies/pc_a/one.edit", self.EDIT)
        self.fails("pc_a/one.edit: two edits have this name", "check edits", own=True)

    def test_not_tried(self) -> None:
        self.write("crates/pc_a/must-fail/three.edit", self.OF_CRATE)
        self.fails("pc_a/three.edit: it was not tried", "check edits", "--log", self.write("log", self.LOG), own=True)
        self.told("2 edits are there, and 1 were refused", self.LOG)
        self.told("pc_a: 2 edits are there, and 1 were tried", self.LOG)

    def test_another_verdict(self) -> None:
        bad = self.LOG.replace("refused, as it must be", "BAD EDIT: it cannot be read")
        self.fails("pc_a/one.edit: BAD EDIT: it cannot be read", "check edits", "--log", "-", own=True, given=bad)
        self.told("NOT REFUSED", self.LOG.replace("refused, as it must be", "NOT REFUSED: the crate is still proved"))
        self.told("NOT TRIED", self.LOG.replace("refused, as it must be", "NOT TRIED: its check was killed"))

    def test_no_file(self) -> None:
        (self.room / "crates/pc_a/must-fail/one.edit").unlink()
        self.told("pc_a/one.edit: it was tried, and there is no such file", self.LOG)

    def test_empty_log(self) -> None:
        self.fails("the log tells of no edit that was tried", "check edits", "--log", "-", own=True)
        self.told("pc_a/one.edit: it was not tried", "rt: pc_a NOT PROVED\n")

    def test_no_edit_of_crates(self) -> None:
        (self.room / "crates/pc_a/must-fail/one.edit").unlink()
        said = self.passes("check edits", "--log", "-", own=True, given="rt: ok; handles allowed: none; every proof was done in this run\n")
        self.assertIn("0 edits of crates, 0 refused; 1 of functions; 0 faults\n", said)
        self.fails("the log tells of no edit that was tried", "check edits", "--log", "-", own=True, given="rt: pc_a NOT PROVED\n")

    def test_stray_file(self) -> None:
        stray = "rt: crates/pc_a/must-fail/x.txt: BAD EDIT: an edit stands right in must-fail/\n"
        self.told("must-fail/x.txt: BAD EDIT", self.LOG + stray)
