"""The parts that the runners of tests share: their words, the programs that they ask, and what they print.

A runner is tests/NAME/run. It prints each test that fails, with the reason, a line `skipped TEST: REASON` for each test that
is skipped, and last `N passed, M failed`, with `, K skipped` if some were. The exit status is 0 if all passed, 1 if one failed or
none was found, and 3 after a mistake in the words or where a program does not exist.
"""
from __future__ import annotations

import os
import sys
import unittest
from pathlib import Path
from types import ModuleType
from typing import Any, Iterable, Iterator, List, Optional, Sequence, Set

ROOT = Path(__file__).resolve().parent.parent
sys.dont_write_bytecode = True
sys.path.insert(0, str(ROOT / "tools"))

from pycheck_tools.words import Words  # noqa: E402


class Result(unittest.TestResult):
    """Counts the tests, and prints those that fail or are skipped as they end."""

    def __init__(self) -> None:
        super().__init__()
        self.passed = 0
        self.failed: Set[str] = set()

    def addSuccess(self, test: unittest.TestCase) -> None:
        super().addSuccess(test)
        self.passed += 1

    def addError(self, test: unittest.TestCase, err: Any) -> None:
        super().addError(test, err)
        self.fail(test, test.id(), self.errors[-1][1])

    def addFailure(self, test: unittest.TestCase, err: Any) -> None:
        super().addFailure(test, err)
        self.fail(test, test.id(), self.failures[-1][1])

    def addSubTest(self, test: unittest.TestCase, subtest: unittest.TestCase, err: Any) -> None:
        super().addSubTest(test, subtest, err)
        if err is not None:
            found = self.failures if issubclass(err[0], test.failureException) else self.errors
            self.fail(test, subtest.id(), found[-1][1])

    def addSkip(self, test: unittest.TestCase, reason: str) -> None:
        super().addSkip(test, reason)
        print(f"skipped {test.id()}: {reason}", flush=True)

    def fail(self, test: unittest.TestCase, shown: str, trace: str) -> None:
        """Prints a failure, and counts its test once."""
        self.failed.add(test.id())
        print(f"failed {shown}\n{trace}", flush=True)


def parser(text: Optional[str]) -> Words:
    """Returns a parser of the words of the runner that runs, whose docstring this is."""
    return Words(f"tests/{Path(sys.argv[0]).resolve().parent.name}/run", text)


def existing(path: str) -> str:
    """Returns the whole path of a program. Ends the runner with status 3 if there is none."""
    if not os.access(path, os.X_OK):
        print(f"there is no program {path}", file=sys.stderr)
        sys.exit(3)
    return os.path.abspath(path)


def programs(text: Optional[str], *names: str, least: int = 0, needed: bool = True) -> List[str]:
    """Returns the programs that the words of the runner name, or those of these crates that the gate builds. The words
    are as many as the crates; if `least` is given, that many are enough. Ends the runner with status 3 after a mistake in
    the words, and where a program that is needed does not exist."""
    words = parser(text)
    words.add_argument("programs", nargs="*")
    named = words.parse_args().programs
    if named and not (least or len(names)) <= len(named) <= len(names):
        words.error(f"there are {len(named)} words")
    paths = named or [str(ROOT / "crates" / name / "out" / name) for name in names]
    return [existing(path) if needed else os.path.abspath(path) for path in paths]


def tests_of(*modules: ModuleType) -> Iterator[unittest.TestCase]:
    """Yields the tests of modules."""
    for module in modules:
        yield from tests_in_suite(unittest.defaultTestLoader.loadTestsFromModule(module))


def tests_in(folder: Path) -> Iterator[unittest.TestCase]:
    """Yields the tests of the files test_*.py of a folder."""
    yield from tests_in_suite(unittest.TestLoader().discover(str(folder), pattern="test_*.py"))


def tests_in_suite(suite: unittest.TestSuite) -> Iterator[unittest.TestCase]:
    """Yields the tests of a suite, one by one."""
    for it in suite:
        if isinstance(it, unittest.TestSuite):
            yield from tests_in_suite(it)
        else:
            yield it


def run(tests: Iterable[unittest.TestCase], names: Sequence[str] = ()) -> int:
    """Runs the tests with one of the names in their own, or all if there are no names. Returns the exit status."""
    result = Result()
    unittest.TestSuite(it for it in tests if not names or any(name in it.id() for name in names)).run(result)
    return told(result.passed, len(result.failed), len(result.skipped))


def told(passed: int, failed: int, skipped: int = 0) -> int:
    """Prints the last line of a runner. Returns the exit status."""
    print(f"{passed} passed, {failed} failed" + (f", {skipped} skipped" if skipped else ""))
    return 0 if passed + skipped and not failed else 1
