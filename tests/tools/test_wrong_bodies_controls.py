"""Tests how tools/wrong_bodies judges an edit beside its control, and which verdicts it keeps."""
from __future__ import annotations

import os
from pathlib import Path
from typing import Dict, List

from room import Case, tool

# A crate of six functions, each of which returns one
CRATE = "".join(f"/// One.\nfn f{number}() -> u8 {{\n    0 + {number}\n}}\n\n" for number in range(6))
# A prover that refuses a body by the text in it, in the words of the real one, and counts its checks
PROVER = r"""import pathlib, re, sys
asked = [sys.argv[at + 1] for at, word in enumerate(sys.argv) if word == "--only"]
with open(pathlib.Path(__file__).parent / "checks", "a") as checks:
    checks.write(" ".join(asked) + "\n")
lines = pathlib.Path("src/lib.rt").read_text().split("\n")
GOAL = "note: src/lib.rt:{}:5: it is not proved that what the function ensures holds when it returns (`returns`); `search` gave up at one of its limits"
SUM = "note: src/lib.rt:{}:5: it is not proved that the sum fits its type; the facts known there allow values at which this goal is false"
LOOP = "note: src/lib.rt:{}:5: it is not proved that the loop ends, by the measure that rattle tried; `search` gave up at one of its limits"
TYPE = "./proofs/{}/Answers.antt:7:5: error: `returns`: the two types differ"
FAIL = "./proofs/{}/Answers.antt:8:5: error: `returns-in-Err`: `omega`: the goal does not follow from what it read. All of that holds, and the goal fails, at `a` = 2"
OPEN = "./proofs/{}/Answers.antt:8:5: error: `loop-i-preserved`: `search`: no proof of `IsTrue c.one.result`"
NAME = "./proofs/{}/Answers.antt:7:5: error: `a`: module `Goals` has no `a` that can be named from here"
for name in asked:
    at = next(number for number, line in enumerate(lines) if f"fn {name}(" in line) + 1
    body = lines[at]
    told = [text for word, text in (("goal", GOAL), ("sum", SUM), ("loop", LOOP)) if word in body]
    by_hand = ("type", TYPE), ("name", NAME), ("fail", FAIL), ("open", OPEN)
    told = [text.format(at + 1) for text in told] + [text.format(name) for word, text in by_hand if word in body]
    if "late" in body:
        sys.exit(3)
    print("\n".join(told))
    print(f"fn pc_a::{name}: {'no proof: `search` did not prove `returns`' if told else 'proved'}")
print(f"only={len(asked)} proved=0")
"""


class Controls(Case):
    """Edits with controls, tried by a prover that replaces the real one."""

    def setUp(self) -> None:
        super().setUp()
        self.copied()
        self.write("crates/pc_a/src/lib.rt", CRATE)
        self.program("bin/rt", f'[ "$*" = doc ] && echo {self.room}/kit/PAGE.md\n')
        self.write("kit/bin/rtlib.py", f"""RATTLE = "{self.room}/kit/bin/rattle"
class Crate:
    name = "pc_a"
    def below(self): return []
    def words(self, flags, keeps): return flags
def crates_below(root): return [Crate()]
""")
        self.python("kit/bin/rattle", PROVER)

    def edit(self, number: int, new: str, control: str = "1 - 0", name: str = "") -> None:
        """Writes an edit of a function, with its control."""
        lines = ["file: src/lib.rt", f"old: 0 + {number}", f"new: {new}", *([f"control: {control}"] if control else [])]
        self.write(f"wrong_bodies/pc_a/{name or f'e{number}'}.edit", "\n".join(lines) + "\n")

    def said(self, *words: str, status: int) -> List[str]:
        """Returns the output of the tool on the edits over the built libraries, which must end with this status."""
        env: Dict[str, str] = {"PATH": f"{self.room / 'bin'}:{os.environ['PATH']}"}
        came, said = self.ran("wrong_bodies", "--built", *words, own=True, env=env)
        self.assertEqual(came, status, said)
        return [line for line in said.splitlines() if line.startswith(("pc_a/", "skipped ")) or line.endswith((" tried", " skipped"))]

    def checks(self) -> List[str]:
        """Returns the functions that each check since the last call was asked for."""
        file = self.room / "kit/bin/checks"
        found = file.read_text(encoding="utf-8").splitlines() if file.exists() else []
        file.unlink(missing_ok=True)
        return found

    def test_what_counts(self) -> None:
        self.edit(0, "goal()")
        self.edit(1, "name()")
        self.edit(2, "type()")
        self.edit(3, "sum()")
        self.edit(4, "loop()")
        self.edit(5, "2 - 1")
        of = tool("wrong_bodies", self.room / "tools")
        self.assertEqual(self.said(status=1), [
            f"pc_a/e1.edit: {of.BY_NAMES}", f"pc_a/e2.edit: {of.BY_TYPES}", f"pc_a/e3.edit: {of.BY_DUTIES}",
            f"pc_a/e4.edit: {of.BY_DUTIES}", "pc_a/e5.edit: ACCEPTED", "6 edits in files, 6 tried", "1 passed, 5 failed, 0 skipped"])

    def test_a_goal_counts_beside_something_else(self) -> None:
        for number, word in enumerate(("name", "type", "sum", "loop")):
            self.edit(number, f"goal() + {word}()")
        self.edit(4, "fail() + type()")
        self.edit(5, "open() + type()")
        self.assertEqual(self.said(status=0), ["6 edits in files, 6 tried", "6 passed, 0 failed, 0 skipped"])

    def test_what_counts_without_a_control(self) -> None:
        for number, word in enumerate(("goal", "type", "sum", "loop", "sum() + goal", "sum() + type")):
            self.edit(number, f"{word}()", "none: its proof is by hand" if number % 2 else "")
        of = tool("wrong_bodies", self.room / "tools")
        # A duty alone says nothing of the meaning; the type of a step is the reason why there is no control
        self.assertEqual(self.said(status=1), [
            f"pc_a/e2.edit: {of.BY_DUTIES}", f"pc_a/e3.edit: {of.BY_DUTIES}", "6 edits in files, 6 tried", "4 passed, 2 failed, 0 skipped"])
        for number, word in ((2, "loop"), (3, "sum")):
            self.edit(number, f"{word}()", "none: its proof is by hand" if number == 2 else "")
        self.assertEqual(self.said(status=1)[:2], [f"pc_a/e2.edit: {of.BY_DUTIES}", f"pc_a/e3.edit: {of.BY_DUTIES}"])

    def test_a_goal_of_a_cycle_stands_above_its_function(self) -> None:
        self.write("crates/pc_a/src/lib.rt", CRATE.replace("/// One.\nfn f1", "/// One.\n#[cycle(a)]\nfn f1"))
        self.edit(1, "goal()")
        edit, told = self.room / "wrong_bodies/pc_a/e1.edit", "note: src/lib.rt:7:1: it is not proved that what the function ensures holds\n"
        of = tool("wrong_bodies", self.room / "tools")
        judged = "fn pc_a::f1: not proved\n"
        self.assertEqual(of.verdicts_of("pc_a", [edit], told + judged), {edit: of.REFUSED})
        self.assertEqual(of.verdicts_of("pc_a", [edit], told.replace(":7:", ":3:") + judged), {edit: of.BY_NOTHING})

    def test_a_check_that_was_stopped_says_nothing(self) -> None:
        self.edit(0, "late()")
        self.assertEqual(self.said(status=1)[0], "pc_a/e0.edit: not tried: no verdict on its function")

    def test_a_harmless_edit_that_is_refused(self) -> None:
        self.edit(0, "goal()", "goal() - 0")
        self.edit(1, "goal()")
        self.assertEqual(self.said(status=1)[0], "pc_a/e0.edit: its control is refused")
        # Both controls are tried at once, and the one that is refused once more alone
        self.assertEqual(self.checks(), ["f0 f1", "f0 f1", "f0"])
        self.edit(0, "goal()", "late()")
        self.assertEqual(self.said(status=1)[0], "pc_a/e0.edit: its control is not tried: no verdict on its function")

    def test_kept_verdicts(self) -> None:
        self.edit(0, "goal()")
        self.edit(1, "goal()", "")
        self.said("--keep", status=0)
        self.assertEqual(self.checks(), ["f0 f1", "f0"])
        page = self.room / "wrong_bodies/CONTROLS.md"
        self.assertRegex(page.read_text(encoding="utf-8"), r"\n\| `pc_a/e0` \| `[0-9a-f]{16}` \|\n$")
        said = self.passes("check edits", own=True)
        self.assertIn("1 edits of the gate have a control, 0 a reason, 1 neither\n", said)
        self.assertNotIn("stale", said)
        # The gate does not try a control again whose files are the same
        self.said(status=0)
        self.assertEqual(self.checks(), ["f0 f1"])
        self.said("--all", status=0)
        self.assertEqual(self.checks(), ["f0 f1", "f0"])
        # A change in another function has no effect; one in the function, its proof or the edit has
        file = Path(self.write("crates/pc_a/src/lib.rt", CRATE.replace("0 + 2", "2 + 0")))
        self.said(status=0)
        self.assertEqual(self.checks(), ["f0 f1"])
        for change in (lambda: file.write_text(CRATE.replace("/// One.\nfn f0", "#[inline]\nfn f0"), encoding="utf-8"),
                       lambda: self.write("crates/pc_a/proofs/f0/Answers.antt", "x"), lambda: self.edit(0, "goal()", "2 - 1 - 0")):
            change()
            self.assertIn("stale: pc_a: 1 controls, which the gate tries anew\n", self.passes("check edits", own=True))
            self.said("--keep", status=0)
            self.assertEqual(self.checks(), ["f0 f1", "f0"])
        # A control that is refused loses its row
        self.edit(0, "goal()", "goal() - 0")
        self.said("--keep", status=1)
        self.assertNotIn("pc_a/e0", page.read_text(encoding="utf-8"))
        self.write("wrong_bodies/CONTROLS.md", f"| `pc_a/e1` | `{'0' * 16}` |\n")
        self.fails("pc_a/e1: wrong_bodies/CONTROLS.md has a row, and no edit with a control has this name", "check edits", own=True)

    def test_where_time_runs_out(self) -> None:
        self.edit(0, "goal()")
        env = {"PATH": f"{self.room / 'bin'}:{os.environ['PATH']}"}
        late = ["skipped pc_a/e0.edit: the time of the gate ran out", "1 edits in files, 0 tried", "0 passed, 0 failed, 1 skipped"]
        status, said = self.ran("wrong_bodies", "--built", "--within", "0", own=True, env=env)
        self.assertEqual((status, said.splitlines()), (0, late))

    def test_the_page_counts_controls(self) -> None:
        self.edit(0, "goal()")
        self.edit(1, "goal()", "none: its proof is by hand")
        self.edit(2, "goal()", "none: its proof is by hand")
        self.edit(3, "goal()", "")
        self.write("docs/TESTED.md", "Of these, 1 edits of the gate have a\n  control, 2 a reason, 1 neither.\n")
        self.passes("check edits", own=True)
        # An edit that the gate leaves out is none of them
        self.edit(4, "goal()", name="apart/e4")
        self.write("wrong_bodies/APART.md", f"| `pc_a/e4` | today | `{'0' * 16}` |\n")
        self.assertNotIn("TESTED", self.ran("check edits", own=True)[1])
        self.edit(3, "goal()", "none: its proof is by hand")
        self.fails("docs/TESTED.md does not say: 1 edits of the gate have a control, 3 a reason, 0 neither\n", "check edits", own=True)

    def misfits(self, why: str, *lines: str) -> None:
        """Expects an edit with these lines after its new text to be read as one that does not fit, for this reason."""
        text = "\n".join(["file: src/lib.rt", "old: 0 + 1", "new: 2", *lines])
        file = Path(self.write("wrong_bodies/pc_a/e1.edit", text + "\n"))
        self.assertIn(why, tool("wrong_bodies", self.room / "tools").misfit("pc_a", file) or "it fits")

    def test_how_a_control_is_read(self) -> None:
        self.misfits("it fits", "control: 3")
        self.misfits("it fits", "control: none_of_it()")
        self.misfits("it fits", "control: none: nothing else returns a device")
        self.misfits("a control changes nothing", "control: 0 + 1")
        self.misfits("its control is the edit itself", "control: 2")
        self.misfits("stands behind no 'new:' line", "control: 3", "control: 4")
        self.misfits("'control: none' has no reason behind it", "control: none")
        self.misfits("'control: none' has no reason behind it", "control: none: ")
        self.misfits("'control: none' has no reason behind it, or stands beside a control", "control: 3", "control: none: this")
        self.misfits("or beside a reason", "control: none: this", "control: 3")
        self.misfits("it fits", "control: 3", "old: 0 + 2", "new: 5")
        self.misfits("an 'old:' text is in src/lib.rt 0 times", "control: 3", "old: 0 + 7", "new: 5", "control: 6")

    def test_a_reason_stands_beside_controls_of_other_edits(self) -> None:
        self.edit(0, "goal()")
        self.edit(1, "goal()", "none: its proof is by hand")
        self.edit(2, "goal()")
        self.assertEqual(self.said(status=0), ["3 edits in files, 3 tried", "3 passed, 0 failed, 0 skipped"])
        self.assertEqual(self.checks(), ["f0 f1 f2", "f0 f2"])

    def test_a_definition(self) -> None:
        self.write("crates/pc_a/specs/A.antt", "one = 1\ntwo = 2\n")
        self.write("crates/pc_a/src/laws.rt", "".join(f"pub fn l{it}()\n    ensures {{ L }}\n{{\n}}\n\n" for it in range(2)))
        for law, old in enumerate(("one = 1", "two = 2")):
            self.write(f"wrong_bodies/pc_a/d{law}.edit", f"law: laws::l{law}\nfile: specs/A.antt\nold: {old}\nnew: 3\ncontrol: {old} + 0\n")
        self.python("kit/bin/rattle", PROVER.replace('lines = ', 'here = pathlib.Path("specs/A.antt").read_text()\nlines = ').replace(
            "at = next", "print(f'fn pc_a::{name}: ' + ('no proof' if '3' in here else 'proved'))\n    continue\n    at = next"))
        self.assertEqual(self.said("--keep", status=0), ["2 edits in files, 2 tried", "2 passed, 0 failed, 0 skipped"])
        # Each edit is tried alone, and the controls at once
        self.assertEqual(self.checks(), ["laws::l0", "laws::l1", "laws::l0 laws::l1"])
        self.write("crates/pc_a/specs/A.antt", "one = 1\ntwo = 2\n-- none\n")
        self.said(status=0)
        self.assertEqual(self.checks(), ["laws::l0", "laws::l1", "laws::l0 laws::l1"])
        # A proof that only lacks a name says nothing about a law either
        name = "error: `a`: `b` is not in scope"
        rejected = "error: 1 declaration that depends on `a`, which was rejected, was not checked: c"
        of = tool("wrong_bodies", self.room / "tools")
        for told, verdict in ((name, of.BY_NAMES), ("error: `a`: expected type `One`, but this has type `Two`", of.REFUSED)):
            said = f"./proofs/A.antt:1:2: {told}\n./proofs/A.antt:9:2: {rejected}\nfn pc_a::laws::l0: not proved\n"
            edit = self.room / "wrong_bodies/pc_a/d0.edit"
            self.assertEqual(of.verdicts_of("pc_a", [edit], said), {edit: verdict})
