"""tutorial/shop and docs/CORE.md: the core of a shop, mypy's errors in its callers, and runs of the core."""
from __future__ import annotations

import shutil
import subprocess
from typing import List

from compared import Random, module_of
from rooms import ROOT, RoomCase

SHOP = ROOT / "tutorial" / "shop"
NAMES = ("tea", "cup", "jar")


class Core(RoomCase):
    """The core of the shop."""

    source = (SHOP / "core.py").read_text(encoding="utf-8")

    def said_by_mypy(self, text: str) -> List[str]:
        """Returns the lines of mypy's errors in a caller of the core."""
        if not shutil.which("mypy"):
            self.skipTest("mypy is not there")
        shutil.copy(SHOP / "core.py", self.room)
        (self.room / "caller.py").write_text(text, encoding="utf-8")
        words = ["mypy", "--strict", "--cache-dir", str(self.room / "cache"), "core.py", "caller.py"]
        done = subprocess.run(words, cwd=self.room, capture_output=True, text=True, timeout=300)
        self.assertIn(done.returncode, (0, 1), done.stderr)
        return [line.split(": error: ")[0] for line in done.stdout.splitlines() if ": error: " in line]

    def test_it_is_clean(self) -> None:
        self.assert_clean(str(SHOP / "core.py"))

    def test_mypy_takes_the_core_and_its_callers(self) -> None:
        for name in ("sell.py", "wrong.py"):
            self.assertEqual(self.said_by_mypy((SHOP / name).read_text(encoding="utf-8")), [], name)

    def test_mypy_finds_wrong_calls(self) -> None:
        head = "import core\nshop = core.Shop({})\n"
        self.assertEqual(self.said_by_mypy(head + "core.sell(shop, 3)\ncore.sell(shop, {}) + 1\n"),
                         ["caller.py:3", "caller.py:4"])

    def test_a_call_from_outside_is_one_of_a_main(self) -> None:
        """The results of random calls by Python are those in runs of the module with a main that makes these calls."""
        chance, core = Random("shop"), module_of(self.source)
        counts = {name: chance.randrange(40) for name in NAMES[:2]}
        shop = core.Shop({name: core.Item(100 + count, count) for name, count in counts.items()})
        shown = ", ".join(f'"{name}": Item({100 + count}, {count})' for name, count in counts.items())
        lines, served = [f"shop = Shop({{{shown}}})"], 0
        for call in range(30):
            order = {name: chance.randrange(-1, 9) for name in chance.sample(NAMES, chance.randrange(1, 3))}
            gave, name = core.sell(shop, order), f"gave_{call}"
            lines.append(f"{name} = sell(shop, {str(order).replace(chr(39), chr(34))})")
            if isinstance(gave, int):
                served += 1
                lines.append(f"assert isinstance({name}, int) and {name} == {gave}")
            else:
                lines.append(f'assert isinstance({name}, Refused) and {name}.reason == "{gave.reason}"')
        self.assertIn(served, range(5, 26))
        self.assert_holds(self.source, lines)
