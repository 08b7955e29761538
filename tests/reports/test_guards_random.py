"""Guards of cores that are made at random, called with right, wrong and aliased values."""
from __future__ import annotations

import contextlib
import importlib
import inspect
import io
import itertools
import os
import random
import signal
import subprocess
import sys
import warnings
from collections import Counter
from types import FrameType, ModuleType
from typing import Any, Callable, Iterator, List, NamedTuple, Optional, Tuple

from guards_modules import Tree, made_core, tree_of
from guards_values import NotSpelled, Spelling, Values, constants_of, shape
from support import Test

from pycheck_all import guards
from pycheck_all.program import Program
from pycheck_tools.attack import fuzz

FOUR = (TypeError, AttributeError, NameError)
CORES, CALLS = 40, 60
SECONDS = 5
# How a core with another main calls its own
OWN_MAIN = "own_main"
# The check that a list or a dict has one type in a call
ONE_TYPE = "if kind.located and not known[1].loose:"


class TooLong(BaseException):
    """A call that does not end."""


class Entrance(NamedTuple):
    """An entry of a core: how a core writes it, and the types of its parameters, an instance first if it is a
    method."""

    words: str
    trees: List[Tree]
    is_method: bool


class Outcome(NamedTuple):
    """How a call ended: its result and its arguments as they are in memory, or the exception; and its output."""

    end: str
    heap: List[str]
    printed: str


def stopped(_: int, __: Optional[FrameType]) -> None:
    """Ends a call that takes too long."""
    raise TooLong


def outcome(call: Callable[[], Any], whole: Callable[[Any], Any]) -> "Tuple[Outcome, Optional[BaseException]]":
    """Returns how a call ends, and its exception."""
    printed = io.StringIO()
    signal.signal(signal.SIGALRM, stopped)
    signal.setitimer(signal.ITIMER_REAL, SECONDS)
    try:
        with contextlib.redirect_stdout(printed):
            given = call()
        return Outcome("gives", shape(whole(given)), printed.getvalue()), None
    except (Exception, TooLong) as fault:
        return Outcome(type(fault).__name__, [], printed.getvalue()), fault
    finally:
        signal.setitimer(signal.ITIMER_REAL, 0)


def entrances(core: ModuleType) -> Iterator[Entrance]:
    """Yields the functions, classes and methods of a core."""
    for name, it in list(vars(core).items()):
        if getattr(it, "__module__", "") != core.__name__:
            continue
        if inspect.isfunction(it):
            yield Entrance(name, trees_of(it), False)
        elif isinstance(it, type):
            yield Entrance(name, [tree_of(row.type) for row in getattr(it, "__dataclass_fields__").values()], False)
            for key, method in inspect.getmembers(it, inspect.isfunction):
                if not key.startswith("__"):
                    yield Entrance(f"{name}.{key}", [(name,), *trees_of(method)[1:]], True)


def trees_of(function: Any) -> List[Tree]:
    """Returns the types of the parameters of a function."""
    names = inspect.signature(function).parameters
    return [tree_of(function.__annotations__.get(name, "object")) for name in names]


def texts() -> Iterator[bytes]:
    """Yields modules: some of tools/attack fuzz, and some whose functions write at one type and read at another."""
    for number in range(10_000):
        yield made_core(random.Random(f"guards/{number}")).encode()
        found = fuzz.made_module(random.Random(f"guards/{number}"))
        if number % 3 == 0 and "\r" not in found:
            yield found.encode()


class Random(Test):
    """Cores that are clean, with their guards, in the folder of the test."""

    def setUp(self) -> None:
        super().setUp()
        sys.path.insert(0, str(self.folder))
        self.addCleanup(sys.path.remove, str(self.folder))
        self.counts: Counter[str] = Counter()
        self.compares = True
        self.addCleanup(lambda: sys.modules.pop("pycheck_guards", None))

    def guarded(self, text: bytes, number: int) -> Optional[str]:
        """Writes guards of a core with this text, and returns its name; None if it is not clean."""
        path = self.write(f"core{number}.py", text)
        made = guards.make(guards.Asked(str(path), "", False), Program(os.environ["PYCHECK"]), 60)
        return path.stem if made.written else None

    def loaded(self, name: str) -> ModuleType:
        """Imports a module anew."""
        sys.modules.pop(name, None)
        importlib.invalidate_caches()
        with contextlib.redirect_stdout(io.StringIO()), warnings.catch_warnings():
            # A warning about `1 is None` and the like, which a random core has
            warnings.simplefilter("ignore", SyntaxWarning)
            return importlib.import_module(name)

    def is_importable(self, name: str) -> bool:
        """Whether the main of a core runs to its end, and there is something to call."""
        try:
            return any(way.trees for way in entrances(self.loaded(name)))
        except Exception:
            return False

    def cores(self) -> "Iterator[Tuple[str, random.Random]]":
        """Yields cores with their guards, each with the random numbers for its calls."""
        for number, text in enumerate(texts()):
            name = self.guarded(text, number)
            if name and self.is_importable(name):
                yield name, random.Random(f"calls/{number}")

    def test_no_call_that_is_accepted_ends_in_one_of_the_four(self) -> None:
        for name, rng in itertools.islice(self.cores(), CORES):
            self.try_core(name, rng)
        accepted = self.counts["gives"] + self.counts["other"]
        self.assertEqual(self.counts["compared"], accepted)
        self.assertEqual(accepted + self.counts["Misfit"], CORES * CALLS)
        for name, least in (("gives", 1000), ("shared", 150), ("Misfit", 500)):
            self.assertGreater(self.counts[name], least, name)

    def test_the_calls_find_a_border_without_a_check(self) -> None:
        self.compares = False
        with self.assertRaisesRegex(AssertionError, "TypeError.* is an instance of"):
            for name, rng in itertools.islice(self.cores(), CORES):
                border = self.folder / "pycheck_guards.py"
                text = border.read_text(encoding="utf-8")
                border.write_text(text.replace(ONE_TYPE, "if False:"), encoding="utf-8")
                sys.modules.pop(border.stem, None)
                self.try_core(name, rng)

    def try_core(self, name: str, rng: random.Random) -> None:
        """Calls the guards of a core, and makes the same calls from within."""
        core, api = self.loaded(name), self.loaded(f"{name}_api")
        ways, changes = list(entrances(core)), bool(constants_of(core))
        accepted: List[Tuple[List[str], Outcome]] = []
        for _ in range(CALLS):
            if changes:
                core, api = self.loaded(name), self.loaded(f"{name}_api")
            found = self.call(core, api, rng.choice(ways), rng)
            if found:
                accepted.append(found)
        if self.compares:
            self.compare(name, accepted, changes)

    def call(
        self, core: ModuleType, api: ModuleType, way: Entrance, rng: random.Random
    ) -> Optional[Tuple[List[str], Outcome]]:
        """Makes one call. If it was accepted, returns lines that do the same within the core, and how it ended."""
        values = Values(core, rng, rng.choice([0, 0, 0.05, 0.2]), rng.choice([0, 0.4, 0.8]))
        given = [values.made(tree) for tree in way.trees]
        lines, is_shared = self.spelled(core, way, given)
        target: Any = api
        for word in way.words.split("."):
            target = getattr(target, word)
        ended, fault = outcome(lambda: target(*given), lambda result: [result, *given])
        if ended.end in ("Misfit", "TooLong"):
            self.counts[ended.end] += 1
            return None
        self.assertNotIsInstance(fault, FOUR, f"calls: {core.__name__}.{way.words}{given}")
        self.counts["gives" if ended.end == "gives" else "other"] += 1
        self.counts["shared"] += is_shared
        return (lines, ended) if lines is not None else None

    def spelled(self, core: ModuleType, way: Entrance, given: List[Any]) -> "Tuple[Optional[List[str]], bool]":
        """Returns lines of a core that build these arguments, and call it with them, none if there are no such lines;
        and whether a value is reached twice."""
        spelling = Spelling(core)
        try:
            for value, tree in zip(given, way.trees):
                spelling.note(value, tree)
            lines = spelling.lines()
            words = [spelling.word(it) for it in given]
        except (NotSpelled, KeyError):
            return None, False
        name, rest = (f"{words[0]}.{way.words.split('.')[1]}", words[1:]) if way.is_method else (way.words, words)
        called = f"{OWN_MAIN if name == 'main' else name}({', '.join(rest)})"
        return [*lines, f"return ({', '.join([called, *words])},)"], spelling.is_shared

    def compare(self, name: str, accepted: List[Tuple[List[str], Outcome]], changes: bool) -> None:
        """Asserts that the core with a main that does the same is clean, and that each part of it ends as the call
        did."""
        text = (self.folder / f"{name}.py").read_text(encoding="utf-8").replace("def main(", f"def {OWN_MAIN}(")
        last = max(at for at, line in enumerate(text.split("\n")) if line.startswith("main()"))
        own = [line for at, (lines, _) in enumerate(accepted) for line in (f"def call_{at}():", *indented(lines))]
        lines = [*text.split("\n")[:last], *own, "def main():"]
        calls = [f"    call_{at}()" for at in range(len(accepted))] or ["    pass"]
        path = self.write(f"{name}_main.py", "\n".join([*lines, *calls, "main()"]))
        said = subprocess.run([os.environ["PYCHECK"], path], capture_output=True, check=False).stdout.decode()
        self.assertEqual(said, "errors 0, dynamic 0\n", f"calls: {path.read_text(encoding='utf-8')}")
        # One call after another, each by itself
        path = self.write(f"{name}_calls.py", "\n".join([*lines, "    pass", "main()"]))
        within = self.loaded(path.stem)
        for at, (_, wanted) in enumerate(accepted):
            if changes:
                within = self.loaded(path.stem)
            found, _ = outcome(getattr(within, f"call_{at}"), list)
            self.assertEqual(found, wanted, f"calls: {name} {accepted[at][0]}")
            self.counts["compared"] += 1


def indented(lines: List[str]) -> List[str]:
    """Returns lines within a function."""
    return ["    " + line for line in lines]
