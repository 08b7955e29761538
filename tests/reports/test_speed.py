"""The time for a project of a thousand files."""
from __future__ import annotations

import json
import os
import random
import shutil
import subprocess
import sys
import time
from typing import List, Tuple

from support import COMMAND, Test, variables

from pycheck_tools.attack import fuzz

FILES = 1000
# Seconds on four processors, and therefore of processor time
SECONDS = 3.0
PROCESSORS = 4
# A machine that pauses for a moment makes one run long: the least of this many counts
RUNS = 5
# Work for one processor, and the seconds that it takes on the machine of the bound if all its processors do it at once
FILLED = "sum(range(5_000_000))"
FILLED_SECONDS = 0.25
# A machine that is slower has a bound as many times as high, up to this
SLOWEST = 2.0


def before_others() -> List[str]:
    """Returns the words that run a command before all other work of the machine, as on an idle one; none if that is not
    allowed."""
    words = ["chrt", "--fifo", "1"]
    tried = shutil.which("chrt") and subprocess.run([*words, "true"], capture_output=True).returncode == 0
    return words if tried else []


def used() -> float:
    """Returns the seconds of processor time of the processes that have ended."""
    now = os.times()
    return now.children_user + now.children_system


def stretch(first: List[str]) -> Tuple[float, float]:
    """Returns how many times as long the machine takes now for work that fills its processors: as many times as long as
    they work, 1.0 if it has them to itself, and more if another machine on the same hardware takes them away; and as
    many times as long as they work on the machine of the bound, from 1.0 to `SLOWEST`."""
    before, began = used(), time.monotonic()
    started = [subprocess.Popen([*first, sys.executable, "-c", FILLED]) for _ in range(PROCESSORS)]
    for it in started:
        it.wait()
    passed, worked = time.monotonic() - began, used() - before
    return max(1.0, passed * PROCESSORS / worked), min(SLOWEST, max(1.0, worked / (PROCESSORS * FILLED_SECONDS)))


class Made(Test):
    """Modules that are made at random, a third of them changed and a third broken."""

    files = FILES

    def setUp(self) -> None:
        super().setUp()
        kinds = list(fuzz.KINDS.values())
        for number in range(self.files):
            rng = random.Random(f"reports/{number}")
            self.write(f"{number // 100}/m{number:03}.py", kinds[number % len(kinds)](fuzz.made_module(rng), rng))


class Speed(Made):
    """A thousand modules."""

    def test_a_thousand_files(self) -> None:
        first = before_others()
        words = [*first, sys.executable, str(COMMAND), "."]
        is_timed = (first or os.getloadavg()[0] < 1) and (os.cpu_count() or 1) >= PROCESSORS
        runs: List[Tuple[float, float]] = []
        most = SECONDS * PROCESSORS / 2
        while len(runs) < RUNS and not any(worked < most and passed < SECONDS for worked, passed in runs):
            before, began = used(), time.monotonic()
            done = subprocess.run(words, cwd=self.folder, capture_output=True, env=variables({}), timeout=300)
            passed, worked = time.monotonic() - began, used() - before
            self.assertEqual(done.returncode, 2)
            self.assertTrue(done.stdout.decode().splitlines()[-1].startswith("1000 files: "))
            others, slower = stretch(first)
            runs.append((worked / slower, passed / others / slower))
        # A machine with other work, or with fewer processors, takes longer; the time of the processors shows as much
        self.assertLess(min(worked for worked, _ in runs), most, str(runs))
        if is_timed:
            self.assertLess(min(passed for _, passed in runs), SECONDS, str(runs))


class Options(Made):
    """Some hundreds of modules."""

    files = 300

    def test_every_option(self) -> None:
        words = ["--all-refusals", "--statistics", "--strict", "--page", "page.html"]
        whole = json.loads(self.check(*words, "--output", "json", ".").output)
        counts, files = whole["counts"], whole["files"]
        found = [
            it
            for file in files
            for it in [*file["findings"], *file.get("guides", []), *filter(None, [file["refusal"]])]
        ]
        self.assertEqual(len(found), sum(counts[it] for it in ("errors", "dynamic", "refused", "guides")))
        self.assertEqual((counts["files"], counts["not_checked"]), (self.files, 0))
        self.assertEqual(sum(whole["codes"].values()), len(found))
        self.assertEqual(
            (self.folder / "page.html").read_text(encoding="utf-8").count('<mark class="place '), len(found)
        )
        self.check("--all-refusals", "--write-baseline", "known.json", ".")
        known = self.check("--all-refusals", "--baseline", "known.json", "--strict", ".")
        shown = [line for line in known.output.splitlines() if "there may be more" not in line]
        self.assertEqual(len(shown), 1, shown)
        counts = f"{self.files} files: 0 errors, 0 dynamic places, {len(found)} known"
        self.assertRegex(shown[0], rf"^{counts}, the promise suspended in [0-9]+ files \(first at [\w./]+:[0-9]+:[0-9]+ E[0-9]+\)$")
        self.assertEqual(known.status, 0)
        lines = [
            line for line in self.check("--all-refusals", ".").output.splitlines() if "there may be more" not in line
        ]
        self.assertEqual(len(lines), len(found) + 1)
        for form, mark in (
            ("github", "\n::"),
            ("gitlab", '"fingerprint"'),
            ("sarif", '"ruleIndex"'),
            ("junit", "<testcase "),
        ):
            output = "\n" + self.check("--all-refusals", "--output", form, ".").output
            others = output.count('name="no finding"')
            if form in ("github", "junit"):
                others += output.count("there may be more refusals") + output.count("::notice title=guides::")
            marks = output.count(mark) - others
            self.assertEqual(marks, len(found), form)
