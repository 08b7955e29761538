"""Tests tools/check commands."""
from __future__ import annotations

import os
import sys
from typing import List

from room import CLEAN, Case

class CheckCommands(Case):
    """tools/check commands."""

    LINES = "```py a.py\nx = 1\ny = 2\n```\n"
    CHANGE = "```diff a.py b.py\n x = 1\n-y = 2\n+y = 3\n\n-z = 4\n+z = 5\n```\n"
    COMMANDS = "```console\n$ ./pycheck a.py\nerrors 0, dynamic 0\n$ python3 a.py\ndone\n```\n"

    def setUp(self) -> None:
        super().setUp()
        self.copied()
        self.write("a.py", "x = 1\ny = 2\nz = 4\nprint('done')\n")
        self.write("b.py", "x = 1\ny = 3\nz = 5\n")

    def page(self, text: str) -> List[str]:
        """Returns the words for a page of this text."""
        return ["--program", self.answering(CLEAN), "--page", self.write("PAGE.md", f"# Page\n\n{text}")]

    def test_passes(self) -> None:
        words = self.page(self.LINES + self.CHANGE + self.COMMANDS + "```python\nother\n```\n")
        self.assertEqual("3 blocks, 0 wrong\n", self.passes("check commands", *words, own=True))

    def test_a_refusal_is_shown_too(self) -> None:
        program = self.program("refusing", "echo 'refused G1 at byte 0' >&2\nexit 2\n")
        page = self.write("PAGE.md", "```console\n$ ./pycheck a.py\nrefused G1 at byte 0\n```\n")
        self.passes("check commands", "--program", program, "--page", page, own=True)

    def test_the_program_is_that_of_check_all(self) -> None:
        self.python("tools/check_all", "import os, sys\nprint(os.environ['PYCHECK'][-9:], *sys.argv[1:])\n")
        self.passes("check commands", *self.page("```console\n$ tools/check_all a\nanswering a\n```\n"), own=True)

    def test_wrong_blocks(self) -> None:
        for right, old, new, fault in (
                (self.LINES, "y = 2", "y = 3", "line 3: these lines do not stand in a.py"),
                (self.LINES, "x = 1\n", "x = 1\n\n", "line 3: these lines do not stand in a.py"),
                (self.LINES, "a.py", "none.py", "line 3: these lines do not stand in none.py"),
                (self.LINES, "x = 1\ny = 2\n", "", "line 3: an empty block"),
                (self.CHANGE, "-y = 2", "-y = 9", "line 3: these lines do not stand in a.py:\n     x = 1\n    -y = 9"),
                (self.CHANGE, "+z = 5", "+z = 9", "line 3: these lines do not stand in b.py:\n    -z = 4\n    +z = 9"),
                (self.CHANGE, "-z = 4", " z = 4", "line 3: these lines do not stand in b.py"),
                (self.COMMANDS, "dynamic 0", "dynamic 1", "line 3: ./pycheck a.py prints:\n    errors 0, dynamic 0"),
                (self.COMMANDS, "done\n", "", "line 3: python3 a.py prints:\n    done"),
                (self.COMMANDS, "done\n", "done\nmore\n", "line 3: python3 a.py prints:\n    done"),
                (self.COMMANDS, "$ python3", "$ rm", "line 3: no command that can be run: $ rm a.py"),
                (self.COMMANDS, "$ ./pycheck a.py\n", "", "line 3: no command that can be run: errors 0, dynamic 0")):
            self.assertIn(old, right)
            status, said = self.ran("check commands", *self.page(right.replace(old, new)), own=True)
            self.assertEqual((status, said.splitlines()[-1]), (1, "1 blocks, 1 wrong"))
            self.assertIn(fault, said)

    def test_nothing_compared(self) -> None:
        self.fails("there is no block to compare", "check commands", *self.page("```text\nx\n```\n"), own=True)
        words = [*self.page(self.LINES), "--page", self.write("B.md", "# Page\n")]
        self.fails("B.md: there is no block to compare\n1 blocks, 1 wrong\n", "check commands", *words, own=True)

    def test_usage(self) -> None:
        self.assertEqual(self.ran("check commands", "pycheck", own=True)[0], 3)
        self.assertEqual(self.ran("check commands", "--log", "log", own=True)[0], 3)
