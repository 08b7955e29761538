"""tutorial/ and docs/TUTORIAL.md: the heap beside Python's heapq, and the figures of the page."""
from __future__ import annotations

import heapq
import re
import subprocess
import sys
import types
from typing import Any, Iterator, List, Tuple

import rooms
from compared import Random, module_of
from rooms import ROOT, RoomCase

FOLDER, PAGE = ROOT / "tutorial", ROOT / "docs" / "TUTORIAL.md"
LAST = "heap_5.py"
STEPS = 3000
ROW = re.compile(r"^\| .*\[(heap_\d\.py)\]\([^)]*\) \| (\d+) \| (\d*) ?\| (\d*) ?\|$", re.MULTILINE)
MISTAKES = [("while at > 0", "while at > 1"), ("(at - 1) // 2", "at // 2"), ("count - 1 - done", "done"),
            ("    heap[at] = item\n\n# Moves", "\n# Moves"), ("if not heap[below] < item", "if item < 0"),
            ("heap[below + 1] < heap[below]", "heap[below] < heap[below + 1]"), ("    heap[0] = item\n", ""),
            ("heap[0] < item", "item < heap[0]"), ("        return None\n", "        return 0\n")]


def source(name: str) -> str:
    """Returns the text of a step."""
    return (FOLDER / name).read_text(encoding="utf-8")


def step(module: Any, ours: List[int], own: List[int], chance: Random) -> Tuple[str, Any, Any]:
    """Does the same to both heaps. Returns what was done, and the result of each."""
    item, kind = chance.randrange(-9, 10), chance.randrange(6)
    if kind < 2:
        heapq.heappush(own, item)
        return f"push {item}", module.push(ours, item), None
    if kind == 2:
        return "pop", module.pop(ours), heapq.heappop(own) if own else None
    if kind == 3:
        return f"push_and_pop {item}", module.push_and_pop(ours, item), heapq.heappushpop(own, item)
    if kind == 4 and own:
        return f"replace {item}", module.replace(ours, item), heapq.heapreplace(own, item)
    ours[:] = own[:] = [chance.randrange(20) for _ in range(chance.randrange(20))]
    heapq.heapify(own)
    return "heapify", module.heapify(ours), None


def differences(module: types.ModuleType) -> Iterator[str]:
    """Yields a line for each step after which the heap has another result than Python's, has other items, or is not a
    heap."""
    chance, ours, own = Random("heap"), list[int](), list[int]()
    for _ in range(STEPS):
        try:
            done, gave, wanted = step(module, ours, own, chance)
        except IndexError as fault:
            yield str(fault)
            return
        is_heap = all(ours[(at - 1) // 2] <= ours[at] for at in range(1, len(ours)))
        if gave != wanted or sorted(ours) != sorted(own) or not is_heap:
            yield f"{done} gives {gave} in place of {wanted}: {ours}"
            return


def asserts() -> List[str]:
    """Returns the results of Python's heap, as statements of a main."""
    chance, own, lines = Random("main"), [5, 3, 8, 1], ["heap = [5, 3, 8, 1]", "heapify(heap)"]
    heapq.heapify(own)
    for _ in range(40):
        item = chance.randrange(20)
        if chance.random() < 0.5:
            heapq.heappush(own, item)
            lines.append(f"push(heap, {item})")
        else:
            lines.append(f"assert pop(heap) {'== %d' % heapq.heappop(own) if own else 'is None'}")
    return [*lines, f"assert len(heap) == {len(own)}"]


class Tutorial(RoomCase):
    """The steps of the tutorial."""

    def test_as_heapq(self) -> None:
        self.assertEqual(list(differences(module_of(source(LAST)))), [])

    def test_mistakes_are_found(self) -> None:
        for old, new in MISTAKES:
            self.assertEqual(source(LAST).count(old), 1, old)
            self.assertNotEqual(list(differences(module_of(source(LAST).replace(old, new)))), [], new)

    def test_runs(self) -> None:
        self.assert_holds(source(LAST), asserts())

    def test_each_step_runs_as_the_first(self) -> None:
        for name in [*(f"heap_{number}.py" for number in range(5)), "use_heap.py"]:
            words = [sys.executable, "-B", str(FOLDER / name)]
            done = subprocess.run(words, capture_output=True, text=True, timeout=60)
            self.assertEqual((done.stdout, done.stderr), ("the two smallest come to 3\n", ""), name)

    def test_figures(self) -> None:
        rows = ROW.findall(PAGE.read_text(encoding="utf-8"))
        self.assertEqual([row[0] for row in rows], sorted(path.name for path in FOLDER.glob("heap_*.py")))
        for name, refusals, errors, dynamic in rows:
            file = str(FOLDER / name)
            report = subprocess.run([rooms.PYCHECK, file], capture_output=True, text=True, timeout=60).stdout
            if report:
                wanted = "0", f"errors {errors}, dynamic {dynamic}"
                self.assertEqual((refusals, report.splitlines()[-1]), wanted, name)
                continue
            words = [str(ROOT / "tools" / "check_all"), "--program", rooms.PYCHECK, "--all-refusals", file]
            done = subprocess.run([sys.executable, "-B", *words], capture_output=True, text=True, timeout=60)
            *listed, last = done.stdout.splitlines()
            self.assertEqual((str(len(listed)), errors, dynamic), (refusals, "", ""), last)
