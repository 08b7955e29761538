"""Modules of Python's own library, as the machine has them: each is brought nearer to the profile, the refusals that
are left
are listed, and it does the same as before. None of them is copied into the tree."""
from __future__ import annotations

import ast
import concurrent.futures
import functools
import json
import os
import subprocess
import sys
import sysconfig
import tempfile
from pathlib import Path
from typing import Dict, List, NamedTuple

from fix_support import FixTest
from library_uses import USES

from pycheck_all import files, running
from pycheck_all.fix_heads import DOCUMENTS
from pycheck_all.fixing import REWRITES, Fixer
from pycheck_all.program import Program

LIBRARY = Path(sysconfig.get_path("stdlib"))
SECONDS = 1200
# Runs texts of a module one after the other, without their counterparts in C, and prints the output of each
RUNNER = r"""
import contextlib, io, json, random, sys, types
given = json.load(sys.stdin)
for name in ("_bisect", "_heapq", "_stat", "_operator", "_queue"):
    sys.modules[name] = None
said = []
for text in given["texts"]:
    output, m = io.StringIO(), types.ModuleType(given["name"])
    with contextlib.redirect_stdout(output):
        exec(compile(text, given["name"], "exec", dont_inherit=True), m.__dict__)
        exec(given["use"], {"m": m, "r": random.Random(5)})
    said.append(output.getvalue())
json.dump(said, sys.stdout)
"""


class Outcome(NamedTuple):
    """The result for a module: its text before and after, the rewrites, how many refusals are listed before and after,
    whether all are, and whether a second run changes anything."""

    before: str
    after: str
    made: List[str]
    listed: int
    left: int
    complete: bool
    changes: bool


def outcome(name: str) -> Outcome:
    """Fixes a module of the library."""
    used = Program(os.environ["PYCHECK"])
    data = (LIBRARY / f"{name}.py").read_bytes()
    fixed = Fixer(used, SECONDS, REWRITES).fix(data)
    again = Fixer(used, SECONDS, REWRITES).fix(fixed.after)
    with tempfile.TemporaryDirectory() as folder:
        path = Path(folder, "module.py")
        run = running.Run(used, SECONDS, True, False)
        path.write_bytes(data)
        before = run.check(files.Source(name, str(path)))
        path.write_bytes(fixed.after)
        after = run.check(files.Source(name, str(path)))
    return Outcome(
        data.decode(), fixed.after.decode(), fixed.made, len(before.findings), len(after.findings), after.complete,
        again.after != fixed.after,
    )


@functools.lru_cache(maxsize=None)
def outcomes() -> Dict[str, Outcome]:
    """Returns the result for each module that this version of Python has as one file."""
    names = [it for it in USES if (LIBRARY / f"{it}.py").is_file()]
    with concurrent.futures.ProcessPoolExecutor(running.processors()) as pool:
        return dict(zip(names, pool.map(outcome, names)))


def docstrings(text: str) -> int:
    """Returns how many docstrings a module has."""
    kinds = (ast.Module, ast.ClassDef, ast.FunctionDef, ast.AsyncFunctionDef)
    nodes = [it for it in ast.walk(ast.parse(text)) if isinstance(it, kinds)]
    return sum(ast.get_docstring(it, clean=False) is not None for it in nodes)


class Library(FixTest):
    """Modules of the library."""

    def test_each_is_brought_nearer(self) -> None:
        found = outcomes()
        self.assertGreaterEqual(len(found), 20)
        for name, it in found.items():
            with self.subTest(name):
                self.assertTrue(it.made)
                self.assertFalse(it.changes)
                self.assertGreater(it.left, 0)
                if it.complete:
                    # A docstring is one refusal, and each rewrite of one removes it
                    self.assertLessEqual(it.left, it.listed - it.made.count("docstring"))

    def test_docstrings_become_comments(self) -> None:
        unread = {name: it for name, it in outcomes().items() if not any(word in it.before for word in DOCUMENTS)}
        self.assertGreaterEqual(len(unread), 5)
        for name, it in unread.items():
            with self.subTest(name):
                self.assertEqual(it.made.count("docstring"), docstrings(it.before) - docstrings(it.after))
                self.assertGreater(it.made.count("docstring"), 0)

    def test_each_does_what_it_did(self) -> None:
        for name, it in outcomes().items():
            with self.subTest(name):
                given = {"name": name, "texts": [it.before, it.after], "use": USES[name]}
                words = [sys.executable, "-I", "-W", "ignore", "-c", RUNNER]
                done = subprocess.run(words, input=json.dumps(given).encode(), capture_output=True, timeout=120)
                self.assertEqual(done.returncode, 0, done.stderr.decode())
                before, after = json.loads(done.stdout)
                self.assertTrue(before)
                self.assertEqual(after, before)
