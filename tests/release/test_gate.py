"""The output and the status of the gate, with a small script in place of the toolchain and others in place of the slow
steps; and the packages that CI installs before it."""
from __future__ import annotations

import os
import re
from pathlib import Path
from typing import List

from room import MORE_TOOLS, PROGRAMS, TOOLS, Done, RoomCase

# The toolchain: it copies the programs of the folder `gives`
TOOLCHAIN = """for name in {names}; do
  mkdir -p "crates/$name/out"
  cp "{room}/gives/$name" "crates/$name/out/$name" && chmod 755 "crates/$name/out/$name"
done
echo "{last}"
exit {status}
"""
SLOW_STEPS = ("tools/check", "tests/tools/run", "tools/compare", "tests/memory/run", "tests/depth/run", "tests/search/run",
              "tests/speed/run", "tests/python_runs/run", "tests/fuzz/run", "tests/python_texts/run",
              "tests/growth/run", "tests/cookbook/run", "tests/types/run", "tests/mypy/run", "tools/shipping/web",
              "tests/web/run")
# The words of tools/check, each with the name of its step
CHECKS = {"definitions": "definitions", "edits": "edits", "tested": "tested", "pages": "links", "names": "names",
          "twice": "twice", "architecture": "architecture", "help": "help", "data": "data", "codes": "pages", "commands": "commands",
          "generated": "generated"}


class Gate(RoomCase):
    """`./test` in a clone, whose steps pass unless a test replaces them."""

    def setUp(self) -> None:
        super().setUp()
        self.few = self.folder_of_tools("more", [*TOOLS, *MORE_TOOLS])
        (self.room / "gives").mkdir()
        for name in PROGRAMS:
            (self.room / "gives" / name).write_bytes(self.shipped(name))
        self.prove(0, "75 passed, 0 failed")
        for step in SLOW_STEPS:
            self.put_step(step, "exit 0")
        self.put_step("tests/release/run", "echo '9 passed, 0 failed'")
        self.put_step("tests/reports/run", "echo '8 passed, 0 failed'")
        self.put_step("tests/server/run", "echo '7 passed, 0 failed'")
        self.put_step("tests/editors/run", "echo '1 passed, 0 failed'")
        self.put_step("tools/wrong_bodies", "echo '5 passed, 0 failed, 0 skipped'")

    def prove(self, status: int, last: str) -> None:
        """Makes the toolchain end with this status and this last line."""
        self.put_tool("rt", TOOLCHAIN.format(names=" ".join(PROGRAMS), room=self.room, status=status, last=last))

    def put_step(self, path: str, text: str) -> None:
        """Replaces a step's command by a shell script."""
        file = self.clone / path
        file.parent.mkdir(parents=True, exist_ok=True)
        file.write_text(f"#!/bin/sh\n{text}\n", encoding="utf-8")
        file.chmod(0o755)

    def gate(self, *words: object) -> "Done[str]":
        """Runs the gate."""
        return self.run_few("./test", *words)

    def last_lines(self, done: "Done[str]", number: int) -> List[str]:
        """Returns the last lines of the gate, without the time it took, which has to be the very last."""
        *lines, last = done.stderr.splitlines()
        self.assertRegex(last, r"^the gate took \d+ seconds, and \d+ of one processor$")
        return lines[-number:]

    def assert_failed(self, done: "Done[str]", steps: str) -> None:
        """Asserts that the gate failed at these steps, and listed them at the end."""
        self.assertEqual(done.returncode, 1)
        self.assertEqual(self.last_lines(done, 1), [f"FAILED: {steps}"])

    def test_it_passes(self) -> None:
        self.put_step("tools/check", f"[ $1 != edits ] || cat \"$3\" >'{self.room}/log'")
        done = self.gate()
        self.assertEqual((done.returncode, done.stdout), (0, "75 passed, 0 failed\n"), done.stderr)
        said, *both = self.last_lines(done, 3)
        self.assertEqual(said, "5 passed, 0 failed, 0 skipped")
        for seconds, head in zip(both, ("seconds", "seconds of one processor")):
            self.assertRegex(seconds, rf"^{head}: proofs \d+ definitions \d+ edits \d+ .* editors \d+ web \d+ wrong_bodies \d+$")
        self.assertEqual((self.room / "log").read_text(encoding="utf-8"), "75 passed, 0 failed\n")

    def test_seconds_of_one_processor_are_those_of_all_programs_of_a_part(self) -> None:
        self.put_step("tests/tools/run", "for each in 1 2; do (i=0; while [ $i -lt 3000000 ]; do i=$((i+1)); done) & done; wait")
        done = self.gate()
        seconds = self.last_lines(done, 1)[0]
        told = dict(re.findall(r"(\w+) (\d+)", seconds.partition(": ")[2]))
        took = re.search(r"\d+(?= of one processor$)", done.stderr.rstrip())
        self.assertGreater(int(told["tools"]), 0, seconds)
        self.assertLess(int(told["links"]), int(told["tools"]), seconds)
        self.assertTrue(took and int(took[0]) >= int(told["tools"]), done.stderr)

    def test_a_shipped_byte_that_was_not_built_fails(self) -> None:
        program = bytearray(self.shipped("pyrun"))
        program[-1] ^= 1
        (self.room / "gives" / "pyrun").write_bytes(program)
        done = self.gate()
        self.assert_failed(done, "shipped")
        self.assertIn("pyrun: the shipped program is not the one that was built", done.stderr)
        self.assertIn("tools/ship release writes the shipped programs anew", done.stderr)

    def test_each_step_that_fails_is_told(self) -> None:
        commands = {"tests/tools/run": "tools", "tools/compare": "examples left_out", "tests/cookbook/run": "cookbook",
                    "tests/memory/run": "memory", "tests/depth/run": "depth",
                    "tests/search/run": "search",
                    "tests/python_runs/run": "python_runs", "tests/fuzz/run": "fuzz",
                    "tests/python_texts/run": "python_texts",
                    "tests/speed/run": "speed", "tests/growth/run": "growth", "tests/types/run": "types",
                    "tests/mypy/run": "mypy",
                    "tests/release/run": "release",
                    "tests/reports/run": "reports", "tests/server/run": "server", "tests/editors/run": "editors",
                    "tools/shipping/web": "shipped_web", "tests/web/run": "web",
                    "tools/wrong_bodies": "wrong_bodies"}
        for step, names in commands.items():
            with self.subTest(step):
                kept = (self.clone / step).read_text(encoding="utf-8").splitlines()[1]
                self.put_step(step, "echo '2 passed, 1 failed'; exit 1")
                self.assert_failed(self.gate(), names)
                self.put_step(step, kept)

    def test_each_check_that_fails_is_told(self) -> None:
        for check, name in CHECKS.items():
            with self.subTest(check):
                self.put_step("tools/check", f"[ $1 != {check} ]")
                self.assert_failed(self.gate(), name)

    def test_what_was_skipped_is_told_at_the_end(self) -> None:
        self.put_step("tests/release/run", "echo 'skipped Hook.test_it: pre-commit is not there'\n"
                                           "echo '8 passed, 0 failed, 1 skipped'")
        self.put_step("tests/reports/run", "echo 'skipped page: there is no chromium'\n"
                                           "echo 'Types.test_all: skipped: there is no mypy'\n"
                                           "echo 'no line is skipped here'\n"
                                           "echo '6 passed, 0 failed, 2 skipped'")
        done = self.gate()
        self.assertEqual(done.returncode, 0, done.stderr)
        self.assertEqual(self.last_lines(done, 3), ["in the step release skipped Hook.test_it: pre-commit is not there",
                                                    "in the step reports skipped page: there is no chromium",
                                                    "in the step reports Types.test_all: skipped: there is no mypy"])

    def test_in_ci_nothing_is_skipped_but_by_the_list(self) -> None:
        late = "skipped pc_a/one.edit: the time of the gate ran out"
        self.put_step("tools/wrong_bodies", f"echo '{late}'\necho '5 passed, 0 failed, 1 skipped'")
        allowed = re.search(r"^MAY_SKIP='([^']*)'$", (self.clone / ".ci" / "run").read_text(encoding="utf-8"), re.MULTILINE)
        assert allowed
        done = self.run_few("./test", more={"CI": "true", "MAY_SKIP": allowed[1]})
        self.assertEqual(done.returncode, 0, done.stderr)
        self.assertEqual(self.last_lines(done, 1), [f"in the step wrong_bodies {late}"])
        self.put_step("tests/release/run", "echo 'skipped Hook.test_it: pre-commit is not there'\necho '8 passed, 0 failed, 1 skipped'")
        for may_skip in (allowed[1], f"{allowed[1]}\nin the step reports *"):
            done = self.run_few("./test", more={"CI": "true", "MAY_SKIP": may_skip})
            self.assert_failed(done, "release: skipped in CI")
        done = self.run_few("./test", more={"CI": "true", "MAY_SKIP": f"{allowed[1]}\nin the step release skipped Hook.*: pre-commit is not there"})
        self.assertEqual(done.returncode, 0, done.stderr)
        self.assertEqual(self.run_few("./test", more={"CI": "false"}).returncode, 0)
        self.assert_failed(self.run_few("./test", more={"CI": "true"}), "release: skipped in CI wrong_bodies: skipped in CI")

    def test_how_wrong_bodies_are_asked_for(self) -> None:
        self.put_step("tools/wrong_bodies", f"echo \"$*\" >>'{self.room}/asked'\necho '5 passed, 0 failed, 0 skipped'")
        self.gate()
        self.gate("--all-edits")
        self.run_few("./test", more={"CI": "true"})
        self.run_few("./test", more={"CI": "true", "GATE_BEGAN": "1"})
        *asked, in_time, too_late = (self.room / "asked").read_text(encoding="utf-8").splitlines()
        self.assertEqual((asked, too_late), (["--built", "--built --all"], "--built --within 0"))
        left = re.fullmatch(r"--built --within (\d+)", in_time)
        assert left
        self.assertTrue(8000 < int(left[1]) <= 9000, in_time)

    def test_a_skipped_test_without_a_reason_fails(self) -> None:
        self.put_step("tests/release/run", "echo '8 passed, 0 failed, 1 skipped'")
        self.assert_failed(self.gate(), "release")

    def test_a_runner_that_is_not_there(self) -> None:
        (self.clone / "tests" / "reports" / "run").unlink()
        self.assert_failed(self.gate(), "reports")
        (self.clone / "tests" / "release" / "run").unlink()
        self.assert_failed(self.gate(), "release reports")

    def test_where_the_proofs_fail_no_program_is_tried(self) -> None:
        self.prove(1, "74 passed, 1 failed")
        self.put_step("tools/check", f"[ $1 != codes ] || : >'{self.room}/ran'")
        done = self.gate()
        self.assertEqual(done.stdout, "74 passed, 1 failed\n")
        self.assert_failed(done, "proofs")
        self.assertIn("the other steps need the programs, and were not run", done.stderr)
        self.assertFalse((self.room / "ran").exists())

    def test_the_steps_alone_take_what_was_built(self) -> None:
        for name in PROGRAMS:
            self.put_built(name, self.shipped(name))
        self.put_tool("rt", f": >'{self.room}/proved'\n")
        self.put_step("tools/check", f"[ $1 != edits ] || echo \"$#$*\" >>'{self.room}/asked'")
        (self.room / "log").write_text("what rt ci said\n", encoding="utf-8")
        for words in ([], ["../log"]):
            done = self.gate("--steps", *words)
            self.assertEqual((done.returncode, done.stdout), (0, ""), done.stderr)
            for seconds, head in zip(self.last_lines(done, 2), ("seconds", "seconds of one processor")):
                self.assertRegex(seconds, rf"^{head}: programs \d+ definitions \d+ .* wrong_bodies \d+$")
        asked = (self.room / "asked").read_text(encoding="utf-8").splitlines()
        self.assertEqual(asked, ["1edits", f"3edits --log {(self.room / 'log').resolve()}"])
        self.assertFalse((self.room / "proved").exists())

    def test_the_steps_alone_take_no_program_that_is_older_than_its_sources(self) -> None:
        self.put_step("tools/check", f"[ $1 != codes ] || : >'{self.room}/ran'")
        self.assert_failed(self.gate("--steps"), "programs")
        for name in PROGRAMS:
            os.utime(self.put_built(name, self.shipped(name)), (1, 1))
        done = self.gate("--steps")
        self.assert_failed(done, "programs")
        self.assertIn("is older than its sources", done.stderr)
        self.assertIn("the other steps need the programs, and were not run", done.stderr)
        self.assertFalse((self.room / "ran").exists())

    def test_other_words_are_a_mistake(self) -> None:
        for words in (["--step"], ["log"], ["--all-edits", "log"], ["--steps", "no such file"], ["--steps", "README.md", "README.md"]):
            with self.subTest(words):
                done = self.gate(*words)
                self.assertEqual((done.returncode, done.stdout), (3, ""))
                self.assertIn("usage: ./test [--all-edits | --steps [LOG]]", done.stderr)


class InCI(RoomCase):
    """`.ci/run`."""

    def setUp(self) -> None:
        super().setUp()
        self.few = self.folder_of_tools("more", [*TOOLS, *MORE_TOOLS, "timeout"])
        (self.clone / "test").write_text("#!/bin/sh\necho 'the gate'\nexit 5\n", encoding="utf-8")
        self.put_tool("id", "echo 0\n")
        self.put_tool("dpkg-query", 'for it; do :; done\n[ "$it" = mypy ] && printf "install ok installed"\n')

    def test_what_is_missing_is_installed_and_then_the_gate_runs(self) -> None:
        self.put_tool("apt-get", f"echo \"$DEBIAN_FRONTEND $*\" >>'{self.room}/asked'\n")
        done = self.run_few(".ci/run")
        self.assertEqual((done.returncode, done.stdout), (5, "the gate\n"), done.stderr)
        asked = (self.room / "asked").read_text(encoding="utf-8").splitlines()
        apt = "noninteractive -q -y -o DPkg::Lock::Timeout=60"
        packages = ("python3-venv", "python3-pip", "pre-commit", "neovim", "chromium", "valgrind", "nodejs", "gcc", "libc6-dev")
        installs = [f"{apt} install --no-install-recommends {it}" for it in packages]
        self.assertEqual(asked, [f"{apt} update", *installs])

    def test_what_cannot_be_installed_is_told_and_is_no_fault(self) -> None:
        self.put_tool("apt-get", "exit 100\n")
        done = self.run_few(".ci/run")
        self.assertEqual((done.returncode, done.stdout), (5, "the gate\n"), done.stderr)
        self.assertIn("chromium could not be installed: tests that use it are skipped", done.stderr)

    def test_what_takes_too_long_is_left_out(self) -> None:
        text = (self.clone / ".ci" / "run").read_text(encoding="utf-8")
        (self.clone / ".ci" / "run").write_text(text.replace("limit=600", "limit=4"), encoding="utf-8")
        self.put_tool("apt-get", f'PATH=/usr/bin:/bin\necho "$*" >>\'{self.room}/asked\'\n'
                                 'case "$*" in *" install "*) exec sleep 60 ;; esac\n')
        done = self.run_few(".ci/run")
        self.assertEqual((done.returncode, done.stdout), (5, "the gate\n"), done.stderr)
        self.assertEqual((self.room / "asked").read_text(encoding="utf-8").count(" install "), 1)
        self.assertEqual(done.stderr.count("could not be installed: tests that use it are skipped, and the gate fails"), 9)

    def test_another_user_installs_nothing(self) -> None:
        self.put_tool("id", "echo 1000\n")
        self.put_tool("apt-get", f": >'{self.room}/asked'\n")
        self.assertEqual(self.run_few(".ci/run").stdout, "the gate\n")
        self.assertFalse(Path(self.room, "asked").exists())
