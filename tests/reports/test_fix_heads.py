"""Rewrites of the parts of a module: header, docstrings, the call of `main`; and the command `--fix` around them."""
from __future__ import annotations

import os
import random

from fix_support import MAIN, FixTest
from support import CLEAN, HEADER

SCRIPT = '''#!/usr/bin/env python3
"""A script.

It counts."""

def count():
    """How many."""
    return 3

def stop():
    """Does nothing."""

def main():
    print(count(), stop())  # both

if __name__ == "__main__":
    main()
'''
SCRIPT_FIXED = """#!/usr/bin/env python3
# A script.
#
# It counts.

from __future__ import annotations

def count():
    # How many.
    return 3

def stop():
    # Does nothing.
    pass

def main():
    print(count(), stop())  # both

main()
"""


class Heads(FixTest):
    """The text that is rewritten, and the text that is left."""

    def test_script(self) -> None:
        self.assert_fixed(SCRIPT, SCRIPT_FIXED)

    def test_library(self) -> None:
        self.assert_fixed("def f():\n  return 1\n", HEADER + "def f():\n  return 1\n\ndef main():\n  pass\n\nmain()\n")
        self.assert_fixed("", HEADER.rstrip() + "\n\ndef main():\n    pass\n\nmain()\n")
        self.assert_left(CLEAN, HEADER + "def main():\n    pass\n", HEADER + "x = locals\n", HEADER + "x = __name__\n")

    def test_header_of_others(self) -> None:
        old = "from __future__ import division, annotations\n"
        self.assert_fixed(old + MAIN, "from __future__ import annotations\n" + MAIN)
        self.assert_left("from __future__ import (annotations,  # why\n division)\n" + MAIN)

    def test_header_where_annotations_count(self) -> None:
        self.assert_left("def f(a: print(1)):\n    pass\n" + MAIN, "x = f.__annotations__\n" + MAIN)

    def test_docstrings_that_are_left(self) -> None:
        rows = ['"""What."""\nx = f.__doc__\n', '"""coding: latin-1"""\n', '"""a\\x00b"""\n']
        for text in rows:
            with self.subTest(text):
                self.assertNotIn("docstring", self.made(text + MAIN)[:1])
                self.assertNotIn("# ", self.fixed(text + MAIN).replace("# What", ""))

    def test_docstring_beside_another_statement(self) -> None:
        self.assert_fixed('"""a"""; x = 1\n' + MAIN, "# a\n" + HEADER + "x = 1\n" + MAIN)

    def test_guard_of_main_that_is_left(self) -> None:
        start = HEADER + "def main():\n    print(1)\n\n"
        guard = 'if __name__ == "__main__":\n'
        self.assert_left(
            start + guard + "    main()\n    main()\n",
            start + guard + "    main(1)\n",
            start + guard + "    main()\nelse:\n    print(2)\n",
            start + guard + "    # why\n    main()\n",
            start + 'if __name__ == "__other__":\n    main()\n',
            start.replace("main()", "main(n=1)") + guard + "    main()\n",
        )

    def test_lines_that_end_otherwise(self) -> None:
        self.assert_fixed(SCRIPT.replace("\n", "\r\n"), SCRIPT_FIXED.replace("\n", "\r\n"))

    def test_random_scripts(self) -> None:
        source = random.Random(7)
        texts = []
        for _ in range(25):
            parts = ['"""It is\n  a module."""\n', "# first\n", "def f(x):\n    'Text.'\n    return x\n\n"]
            body = "def main():\n    '''Runs.'''\n    print(1, 'é')\n\n"
            ends = ["main()\n", 'if __name__ == "__main__":\n    main()', 'if "__main__" == __name__: main()']
            end = source.choice(ends)
            texts.append("".join(it for it in parts if source.random() < 0.6) + body + end)
        self.assert_alike(texts, 25)


class Command(FixTest):
    """The output of the command, and the files that it writes."""

    def test_diff(self) -> None:
        path = self.write("count.py", SCRIPT)
        done = self.check("--fix", "count.py")
        self.assertEqual((done.status, done.error), (0, ""))
        self.assertEqual(path.read_text(), SCRIPT)
        lines = done.output.splitlines()
        self.assertEqual(lines[:3], ["--- count.py", "+++ count.py", "@@ -1,17 +1,19 @@"])
        removed = [it for it in lines if it.startswith("-")]
        self.assertEqual(removed[-2:], ['-if __name__ == "__main__":', "-    main()"])
        made = "count.py: 5 rewrites to make: 1 call of main, 3 docstring, 1 header"
        self.assertEqual(lines[-2:], [made, "1 file: 0 errors, 0 dynamic places"])

    def test_write(self) -> None:
        path = self.write("count.py", SCRIPT)
        done = self.check("--fix", "--write", "count.py")
        made = "count.py: 5 rewrites made: 1 call of main, 3 docstring, 1 header\n"
        self.assertEqual((done.status, done.output), (0, made + "1 file: 0 errors, 0 dynamic places\n"))
        self.assertEqual(path.read_text(), SCRIPT_FIXED)
        written = os.stat(path)
        self.assertEqual(self.check("--fix", "--write", ".").output, "1 file: 0 errors, 0 dynamic places\n")
        self.assertEqual(os.stat(path), written)

    def test_what_is_left_is_listed(self) -> None:
        self.write("a.py", "import json\n" + MAIN + "x += 1\n")
        done = self.check("--fix", "a.py", "--output", "concise")
        self.assertEqual(done.status, 2)
        self.assertIn("a.py:2:1: N1 refused: excluded keyword", done.output)
        self.assertIn("1 refused", done.output)

    def test_no_link_is_written(self) -> None:
        self.write("over/count.py", SCRIPT)
        (self.folder / "in").mkdir()
        (self.folder / "in/count.py").symlink_to("../over/count.py")
        (self.folder / "linked").symlink_to("over")
        for name in ("in/count.py", "linked/count.py"):
            done = self.check("--fix", "--write", name)
            self.assertEqual(done.status, 3, done)
            self.assertIn("link", done.output)
        self.assertEqual((self.folder / "over/count.py").read_text(), SCRIPT)

    def test_standard_input_is_not_written(self) -> None:
        done = self.check("--fix", "-", given=SCRIPT.encode())
        self.assertIn("+main()", done.output)
        done = self.check("--fix", "--write", "-", given=SCRIPT.encode())
        self.assertEqual(done.status, 3)

    def test_module_that_another_imports(self) -> None:
        self.write("count.py", SCRIPT)
        self.write("other.py", "from count import stop\n")
        done = self.check("--fix", "count.py")
        self.assertNotIn("call of main", done.output)
        self.assertEqual(done.status, 2)

    def test_what_is_no_python(self) -> None:
        self.write("a.py", "def f(:\n")
        self.write("b.py", "\ufeff" + SCRIPT)
        self.write("c.py", b"\xff\n")
        done = self.check("--fix", "--write", "a.py", "b.py", "c.py")
        self.assertEqual(done.status, 2)
        self.assertIn("3 files: 0 errors, 0 dynamic places, 3 refused", done.output)

    def test_what_takes_too_long(self) -> None:
        path = self.write("count.py", SCRIPT)
        done = self.check("--fix", "--write", "--timeout", "0.000001", "count.py")
        self.assertEqual((done.status, path.read_text()), (3, SCRIPT))
        self.assertIn("it was not fixed within 1e-06 seconds", done.output)

    def test_words(self) -> None:
        for words in (["--write", "a.py"], ["--fix", "--page", "p", "a.py"], ["--fix", "--output", "json", "a.py"]):
            self.assertEqual(self.check(*words).status, 3)


class Further(FixTest):
    """A rewrite that does not help is undone."""

    def test_useless(self) -> None:
        from pycheck_all import fix_heads
        from pycheck_all.fix_module import Edit, Fix, Module
        from pycheck_all.fixing import Fixer

        def useless(module: Module):  # type: ignore[no-untyped-def]
            """Puts a comment before the refused text, which does not help."""
            yield Fix("useless", 0, len(module.data), (Edit(0, 0, b"# why\n"),))

        for text in ("import json\n", HEADER + 'def main():\n    print("a" + 1)\n\nmain()\n'):
            with self.subTest(text):
                fixed = Fixer(self.used, 30, [useless]).fix(text.encode())
                self.assertEqual((fixed.after, fixed.made), (text.encode(), []))
        fixed = Fixer(self.used, 30, [useless, fix_heads.header]).fix(MAIN.encode())
        self.assertEqual(fixed.made, ["header"])
