"""Tests the rows of a page that set what mypy says of an error beside what pycheck says with `--details`."""
import sys
import unittest
from pathlib import Path
from typing import List, Tuple

sys.path.insert(0, str(Path(__file__).resolve().parent.parent.parent / "tools"))
from pycheck_tools.compare import told  # noqa: E402

MYPY = [
    'module.py:3: error: Argument 1 to "post" of "Ledger" has incompatible type "int"; expected "str"  [arg-type]',
    'module.py:5: error: Item "None" of "Optional[Account]" has no attribute "balance"  [union-attr]',
    'module.py:6: error: "Ledger" has no attribute "totals"; maybe "total"?  [attr-defined]',
    'module.py:6: note: See the documentation of "Ledger"',
]
PYCHECK = [
    "3:17 E12 flow: cannot pass int for parameter name: str of Ledger.post",
    "5:16 A1 any-flow: cannot tell whether Any fits the return of f: int",
    "5:16 E15 attribute: None | Account has no attribute balance where it is None",
    "6:11 E15 attribute: Ledger has no attribute totals",
    "8:11 E04 unassigned: last may have no value yet, see 7:13",
    "9:11 A2 any-operator: cannot tell whether Any + int is defined",
    "errors 4, dynamic 2",
]
ROWS = [
    ["3", '`Argument 1 to "post" of "Ledger" has incompatible type "int"; expected "str"`',
     "`cannot pass int for parameter name: str of Ledger.post`"],
    ["5", '`Item "None" of "Optional[Account]" has no attribute "balance"`',
     "`None | Account has no attribute balance where it is None`"],
    ["6", '`"Ledger" has no attribute "totals"; maybe "total"?`', "`Ledger has no attribute totals`"],
    ["8", "nothing", "`last may have no value yet, see 7:13`"],
]


class Told(unittest.TestCase):
    """Rows of a module whose block begins at line 2 of a page, from line 10 on."""

    def faults(self, rows: List[List[str]], mypy: List[str] = MYPY, pycheck: List[str] = PYCHECK) -> List[Tuple[int, str]]:
        found = told.rows_of(list(enumerate(rows, 10)))
        return list(told.faults_of(found, told.said_of(mypy, pycheck), 2))

    def test_rows_that_hold(self) -> None:
        self.assertEqual(self.faults(ROWS), [])
        self.assertEqual(self.faults([["Line", "mypy", "pycheck"], ["---", "---", "---"], *ROWS]), [])

    def test_a_row_for_a_dynamic_place(self) -> None:
        self.assertEqual(self.faults([*ROWS, ["9", "nothing", "`cannot tell whether Any + int is defined`"]]), [])

    def test_a_line_without_a_row(self) -> None:
        self.assertEqual(self.faults(ROWS[1:]), [(2, "line 3 has an error and no row")])
        self.assertEqual(self.faults(ROWS[:3]), [(2, "line 8 has an error and no row")])

    def test_other_messages(self) -> None:
        self.assertEqual(self.faults([*ROWS[:3], ["8", '`Name "last"`', ROWS[3][2]]]), [(13, "line 8: mypy says nothing")])
        wrong = [*ROWS[:2], [*ROWS[2][:2], "`Ledger has no attribute total`"], ROWS[3]]
        self.assertEqual(self.faults(wrong), [(12, "line 6: pycheck says Ledger has no attribute totals")])

    def test_a_name_that_pycheck_leaves_out(self) -> None:
        for old, new, name in (("name: str", "name", "str"), ("Ledger.post", "Shop.post", "Ledger"), ("int for", "it for", "int")):
            with self.subTest(name):
                rows = [[*ROWS[0][:2], ROWS[0][2].replace(old, new)], *ROWS[1:]]
                pycheck = [PYCHECK[0].replace(old, new), *PYCHECK[1:]]
                fault = f"line 3: mypy names {name}, and pycheck does not"
                self.assertEqual(self.faults(rows, pycheck=pycheck), [(10, fault)])

    def test_names_are_whole_words(self) -> None:
        rows = [[*ROWS[0][:2], ROWS[0][2].replace("int", "integer")], *ROWS[1:]]
        pycheck = [PYCHECK[0].replace("int", "integer"), *PYCHECK[1:]]
        self.assertEqual(self.faults(rows, pycheck=pycheck), [(10, "line 3: mypy names int, and pycheck does not")])

    def test_types_as_mypy_writes_them(self) -> None:
        said = 'has type "Union[List[int], Dict[str, Optional[A]]]"; did you mean "B"?'
        self.assertEqual(told.names_in(said), ["list", "int", "dict", "str", "None", "A"])
