"""All refusals of a file: each with its place, in the order of the text, and marked as a guide."""
from __future__ import annotations

import json

from support import CLEAN, ERROR, HEADER, REFUSED, Test

OLD = '''"""An old module."""
import os

LIMIT = 1.5

class Shop(object):
    count = 0

    def __init__(self, items=[]):
        self.items = [it for it in items]

    @property
    def size(self):
        return len(self.items)

    def add(self, *names):
        for at, name in enumerate(names):
            self.items += [name]
        def inner(x):
            return x
        return inner

def load(path):
    try:
        with open(path) as file:
            data = file.read()
    except OSError as fault:
        raise ValueError("no " + path) from fault
    finally:
        print("""a
b""")
    if data: return 1 / 2
    else: return data[1:]
    total = (1 +
             2 ** 3)
    match total:
        case 9:
            pass
\ttotal = 3
    return 1 if total else \\
        2

async def go():
    await load("a")

if __name__ == "__main__":
    print(load("x"))
    go()
'''
# Line and column of each refused statement, with its code: if a statement has two, that of the earlier layer. N1 to N5
# come before G1. Line 6, `class`, has a G1 twice, at one place: there is no header, and no @dataclass. Line 32 has a G1
# at `return` too, of a later layer than its N2. `except`, `finally` and `case` are beside their `try` and `match`
WANTED = [
    (1, 1, "L2"),
    (2, 1, "N1"),
    (4, 9, "L3"),
    (6, 1, "G1"),
    (7, 11, "G1"),
    (9, 9, "L4"),
    (10, 26, "G1"),
    (12, 5, "N5"),
    (16, 19, "G1"),
    (17, 15, "G1"),
    (18, 24, "N2"),
    (19, 9, "N3"),
    (24, 5, "N1"),
    (25, 9, "N1"),
    (28, 9, "N1"),
    (30, 15, "L2"),
    (32, 23, "N2"),
    (33, 11, "G1"),
    (35, 16, "N2"),
    (36, 11, "G1"),
    (39, 1, "L7"),
    (40, 28, "L1"),
    (43, 1, "N1"),
    (44, 5, "N1"),
    (46, 4, "L4"),
    (49, 1, "G1"),
]


class Refusals(Test):
    """The option --all-refusals."""

    def places(self, text: "str | bytes", *words: str) -> "list[tuple[int, int, str]]":
        """Returns line, column and code of each refusal that is listed, and asserts that none is left."""
        self.write("a.py", text)
        document = json.loads(self.check("--all-refusals", "--output", "json", *words, "a.py").output)
        file = document["files"][0]
        self.assertEqual(file.get("unlisted", ""), "")
        listed = [file["refusal"], *file.get("guides", [])]
        self.assertTrue(all(it["instead"] for it in listed))
        found = [(it["start"]["line"], it["start"]["column"], it["code"]) for it in listed]
        data = text if isinstance(text, bytes) else text.encode()
        for it, (line, column, _) in zip(listed, found):
            before = data[: it["start"]["byte"]].decode("utf-8", "replace")
            self.assertEqual((before.count("\n") + 1, len(before) - before.rfind("\n")), (line, column))
        return sorted(found)

    def body(self, *lines: str) -> str:
        """Returns a module with these lines in its function, from line 4."""
        return HEADER + "def main():\n" + "".join(f"    {line}\n" for line in lines) + "\nmain()\n"

    def test_a_whole_module(self) -> None:
        self.assertEqual(self.places(OLD), WANTED)

    def test_the_first_is_the_programs(self) -> None:
        self.write("a.py", OLD)
        lines = self.lines("--all-refusals", "a.py")
        self.assertEqual(
            lines[0],
            'a.py:1:1: L2 refused: bad string. Instead of `"""What it does."""` at the top write `# What it does.`.',
        )
        self.assertEqual(
            lines[1],
            "a.py:2:1: N1 guide: excluded keyword. Instead of `import math` write the functions that you need, in this"
            " module.",
        )
        self.assertEqual(sum(" guide: " in it for it in lines), len(WANTED) - 1)
        self.assertEqual(
            lines[-1], f"1 file: 0 errors, 0 dynamic places, 1 refused, {len(WANTED) - 1} more refusals as a guide"
        )
        self.assertEqual(self.check("a.py").output.splitlines()[0], "a.py:1:1: L2 refused: bad string")

    def test_files_without_a_refusal(self) -> None:
        self.write("a.py", ERROR)
        self.assertEqual(self.check("--all-refusals", "a.py").output, self.check("a.py").output)

    def test_forms(self) -> None:
        for lines, wanted in (
            (["x = 1", "x += 1", "x = x ** 2"], [(5, 7, "N2"), (6, 11, "N2")]),
            (["if True:", "    x = 1 / 2", "else:", "    y = 2 / 3"], [(5, 15, "N2"), (7, 15, "N2")]),
            (["for k, v in []:", "    del k", "print(1.5)"], [(4, 10, "G1"), (5, 9, "N1"), (6, 11, "L3")]),
            (
                ["if 1 < 2 < 3:", "    pass", "elif 1 < 2 < 3:", "    pass", "else:", "    pass"],
                [(4, 14, "G1"), (6, 16, "G1")],
            ),
            (["if True:", "    pass", "elif 1 < 2 < 3: return", "else: return"], [(6, 16, "G1"), (7, 11, "G1")]),
            (
                ["while True:", "    x = [1,", "         2 /", "         3]", "    y = f'a'"],
                [(6, 16, "N2"), (8, 14, "L2")],
            ),
            (
                ["with a: pass", "with b:", "    with c:", "        lambda: 1"],
                [(4, 5, "N1"), (5, 5, "N1"), (6, 9, "N1"), (7, 13, "N1")],
            ),
            (["x = 1", "    y = 2", "z = 3 / 4"], [(5, 9, "I2"), (6, 11, "N2")]),
            (["if True:", "        x = 1", "    y = 2 / 3"], [(6, 9, "I1"), (6, 15, "N2")]),
            (["x = '''a", "b''' / 2", "y = 1 / 2"], [(4, 9, "L2"), (6, 11, "N2")]),
        ):
            with self.subTest(lines):
                self.assertEqual(self.places(self.body(*lines)), wanted)

    def test_texts(self) -> None:
        latin = self.body("x = 'é'", "y = 'éé'", "z = 1 / 2").encode("latin-1")
        self.assertEqual(self.places(latin), [(4, 10, "S2"), (5, 10, "S2"), (6, 11, "N2")])
        marked = "\ufeff" + self.body("x = 1 / 2")
        self.assertEqual(self.places(marked), [(1, 1, "S3"), (4, 11, "N2")])
        self.assertEqual(self.places("# coding: latin-1\n" + self.body("x = 1 / 2")), [(1, 1, "S5"), (5, 11, "N2")])
        self.assertEqual(self.places(self.body("x = 1\f", "y = 1 / 2")), [(4, 10, "S4"), (5, 11, "N2")])
        crlf = self.body("x = 1 / 2", "é = 'é' / 2").replace("\n", "\r\n")
        self.assertEqual(self.places(crlf), [(4, 11, "N2"), (5, 13, "N2")])

    def test_ends(self) -> None:
        self.assertEqual(self.places(""), [(1, 1, "G1")])
        self.assertEqual(self.places(HEADER + "def f():\n    return 1 / 2\n"), [(4, 14, "N2"), (5, 1, "G1")])
        self.assertEqual(self.places(HEADER + "def f():\n    print((1 / 2)\n\nmain()\n")[-1], (7, 1, "L5"))

    def test_a_class_in_a_function(self) -> None:
        lines = [
            "class C:",
            "    def __init__(self, x):",
            "        self.x = x / 2",
            "    def m(self):",
            "        return 1.5",
        ]
        wanted = [(4, 5, "N4"), (5, 13, "L4"), (6, 24, "N2"), (7, 9, "N3"), (8, 20, "L3")]
        self.assertEqual(self.places(self.body(*lines)), wanted)

    def test_what_is_left_out_is_told(self) -> None:
        nested = [" " * (4 * depth) + "if True:" for depth in range(55)] + [" " * 220 + "x = 1 / 2"]
        self.write("a.py", self.body(*nested, "y = 1 / 2"))
        lines = self.lines("--all-refusals", "a.py")
        # The suite of main is the first of 50; the 51st is that of the 50th `if`, in line 53
        self.assertTrue(lines[0].startswith("a.py:54:205: I3 refused: too many suites. "), lines[0])
        self.assertTrue(lines[-2].startswith("a.py: there may be more refusals: "), lines[-2])

    def test_too_long(self) -> None:
        self.write("a.py", CLEAN + "# long\n" * 160000)
        lines = self.lines("--all-refusals", "a.py")
        self.assertIn(": S1 refused: too long. ", lines[0])
        self.assertEqual(lines[1], "a.py: there may be more refusals: there is no stand-in for what S1 refuses")

    def test_limit(self) -> None:
        self.write("a.py", self.body(*["x = 1 / 2"] * 300))
        lines = self.lines("--all-refusals", "a.py")
        self.assertEqual(len(lines), 103)
        self.assertEqual(
            lines[100], "a.py:104:11: N2 guide: excluded operator. Instead of `a / b` write `a // b`, rounded down."
        )
        self.assertEqual(lines[101], "a.py: there may be more refusals: only the first 100 are listed")

    def test_forms_without_a_row_have_the_sentence_of_the_code(self) -> None:
        self.write("a.py", self.body("x = 1 @ 2"))
        line = self.lines("--all-refusals", "a.py")[0]
        self.assertEqual(line, "a.py:4:11: G1 refused: no module. Write it in a form that the grammar has.")

    def test_what_is_no_refusal_is_no_guide(self) -> None:
        clauses = ["try:", "    x = 1", "except A:", "    x = 1 / 2", "else:", "    x = 2", "finally:", "    x = 1.5"]
        self.assertEqual(self.places(self.body(*clauses)), [(4, 5, "N1"), (7, 15, "N2"), (11, 13, "L3")])
        nested = ["try:", "    try:", "        pass", "    finally:", "        pass", "except A: pass", "except B: pass"]
        self.assertEqual(self.places(self.body(*nested)), [(4, 5, "N1"), (5, 9, "N1")])
        two = ["try: pass", "except A: pass", "try: pass", "except A: pass"]
        self.assertEqual(self.places(self.body(*two)), [(4, 5, "N1"), (6, 5, "N1")])
        cases = ["match x:", "    case 1:", "        y = 1 / 2", "    case _:", "        pass"]
        self.assertEqual(self.places(self.body(*cases)), [(4, 11, "G1"), (6, 19, "N2")])
        members = "class C(A):\n    '''About it.'''\n    pass\n\ndef main():\n    pass\n\nmain()\n"
        self.assertEqual(self.places(HEADER + members), [(3, 1, "G1"), (4, 5, "L2")])
        both = members.replace("    pass\n\ndef", "    x: int\n    pass\n\ndef")
        self.assertEqual(self.places(HEADER + both), [(3, 1, "G1"), (4, 5, "L2"), (6, 5, "G1")])

    def test_the_sentence_on_guides_stands_once(self) -> None:
        self.write("a.py", self.body("x = 1 / 2", "y = 1 / 2", "z = 1 / 2"))
        for form in ("full", "github", "sarif"):
            with self.subTest(form):
                shown = self.check("--all-refusals", "--output", form, "a.py").output
                self.assertEqual(" ".join(shown.split()).count("A guide is not the program's answer on the file"), 1)
                alone = self.check("--output", form, "a.py").output
                self.assertNotIn("A guide is", alone)
        full = self.lines("--all-refusals", "--output", "full", "a.py")
        self.assertTrue(full[-4].startswith("A guide is not "), full[-4:])
        self.check("--all-refusals", "--page", "page.html", "a.py")
        page = (self.folder / "page.html").read_text(encoding="utf-8")
        self.assertEqual(page.count("A guide is not the program"), 1)

    def test_an_open_bracket(self) -> None:
        said = "Close each bracket with one of its own kind. The bracket that is open is `{}` at {}."
        for lines, place, bracket, at in (
            (["x = [1,", "     2", "y = (3)"], (9, 1), "[", (4, 9)),
            (["print(f(1)", "", "# (", 'y = "("'], (10, 1), "(", (4, 10)),
            (["x = {1: (2}"], (4, 15), "(", (4, 13)),
            (["x = [1, 2, 3)"], (4, 17), "[", (4, 9)),
        ):
            with self.subTest(lines):
                self.write("a.py", self.body(*lines))
                refusal = json.loads(self.check("--output", "json", "a.py").output)["files"][0]["refusal"]
                self.assertEqual(refusal["code"], "L5")
                self.assertEqual((refusal["start"]["line"], refusal["start"]["column"]), place)
                self.assertEqual((refusal["opened"]["line"], refusal["opened"]["column"]), at)
                self.assertEqual(refusal["instead"], said.format(bracket, f"{at[0]}:{at[1]}"))
        self.write("a.py", self.body("x = 1)"))
        refusal = json.loads(self.check("--output", "json", "a.py").output)["files"][0]["refusal"]
        self.assertNotIn("opened", refusal)
        self.write("a.py", self.body("x = [1,", "     2"))
        shown = self.lines("--output", "full", "a.py")
        self.assertEqual(shown[1:3], ["  4 |     x = [1,", "    |         ^ open"])
        self.assertEqual(sum(" |" in it for it in shown), 2)
        related = json.loads(self.check("--output", "sarif", "a.py").output)["runs"][0]["results"][0]["relatedLocations"]
        self.assertEqual(related[0]["physicalLocation"]["region"]["startLine"], 4)

    def test_a_program_that_fails_meanwhile(self) -> None:
        self.write("a.py", REFUSED)
        program = self.program('case "$file" in *module.py) kill -9 $$;; esac; real "$@"')
        done = self.check("--program", program, "--all-refusals", "a.py")
        self.assertEqual(done.status, 2)
        self.assertEqual(
            done.output.splitlines()[1], "a.py: there may be more refusals: pycheck was ended by signal 9 (SIGKILL)"
        )
