"""docs/COOKBOOK.md beside the modules of the cookbook: its tables of functions, and the lines that it shows of them."""
from __future__ import annotations

import ast
import re
from typing import Dict, List, Set, Tuple

from compared import COOKBOOK, FUNCTIONS
from rooms import ROOT, RoomCase, parts_of, source_of

PAGE = ROOT / "docs" / "COOKBOOK.md"
ROW = re.compile(r"^\| `[^`]+` \| `(\w+)\(([\w, ]*)\)` \|([^|]*)\| ([^|]*) \|$", re.MULTILINE)
LEAST_SHOWN = 5


def rows_of(page: str) -> Dict[str, Tuple[List[str], Set[str], str]]:
    """Returns the functions of the tables: the parameters, the functions to be copied too, and how each differs."""
    return {name: (parameters.split(", "), set(re.findall(r"`(\w+)`", calls)), differs)
            for name, parameters, calls, differs in ROW.findall(page)}


def faults_of_rows(page: str) -> List[str]:
    """Returns the differences between the tables and the modules."""
    rows, faults = rows_of(page), []
    for file in ("texts.py", "lists_of_int.py"):
        parts = parts_of(source_of(file))
        for name in FUNCTIONS[file]:
            parameters, calls, differs = rows.pop(name, ([], set(), ""))
            [node] = ast.parse(parts[name].source).body
            assert isinstance(node, ast.FunctionDef)
            calling = [call.func for call in ast.walk(node) if isinstance(call, ast.Call)]
            called = {function.id for function in calling if isinstance(function, ast.Name)}
            if parameters != [argument.arg for argument in node.args.args]:
                faults.append(f"{name}: its parameters")
            if calls != called & set(parts):
                faults.append(f"{name}: what it calls")
            if differs.startswith("no difference") != ("# Does not differ" in parts[name].comment):
                faults.append(f"{name}: whether it differs")
    return faults + [f"{name}: no function" for name in rows]


def faults_of_lines(page: str) -> List[str]:
    """Returns the blocks `py` that are in no module."""
    sources = [path.read_text(encoding="utf-8") for path in sorted(COOKBOOK.glob("*.py"))]
    blocks = re.findall(r"^```py\n(.*?)^```$", page, re.MULTILINE | re.DOTALL)
    faults = [block for block in blocks if not any(block in source for source in sources)]
    return faults + ["too few blocks"] * (len(blocks) < LEAST_SHOWN)


class Page(RoomCase):
    """docs/COOKBOOK.md."""

    page = PAGE.read_text(encoding="utf-8")

    def test_tables(self) -> None:
        self.assertEqual(faults_of_rows(self.page), [])

    def test_lines_of_modules(self) -> None:
        self.assertEqual(faults_of_lines(self.page), [])

    def test_a_wrong_page_is_found(self) -> None:
        for old, new, fault in (("`find(text, part, start)`", "`find(text, part)`", "find: its parameters"),
                                ("start)` | `starts_at`", "start)` | ", "find: what it calls"),
                                ("`sum_of(values)` | | no", "`sum_of(values)` | | a", "sum_of: whether it differs"),
                                ("`max_of(values)`", "`most_of(values)`", "most_of: no function")):
            self.assertEqual(self.page.count(old), 1, old)
            self.assertIn(fault, faults_of_rows(self.page.replace(old, new)))
        wrong = self.page.replace("            last.next = node\n", "            last.next = last\n")
        self.assertEqual(len(faults_of_lines(wrong)), 1)
        self.assertEqual(faults_of_lines(""), ["too few blocks"])
