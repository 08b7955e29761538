"""Tests tools/compare types: the spelling of types, and the copies that mypy is given; with stand-ins, and the
programs."""
import os
import shutil
import subprocess
import sys
import tempfile
import unittest
from pathlib import Path
from typing import List, Tuple

ROOT = Path(__file__).resolve().parent.parent.parent
sys.path.insert(0, str(ROOT / "tools"))
from pycheck_tools.compare import types  # noqa: E402
from pycheck_tools.compare.bound_names import Questions  # noqa: E402

# Lists for each line `NAME  # pycheck: TYPE` that NAME has that type, and for each line `NAME = ..  # name: TYPE` that this is
# its declared type, and the one behind `# current: ` its current type; `# error` makes it end with status 1
PYCHECK = f"""#!{sys.executable} -IS
import json, sys
at, rows, status = 0, [], 0
for number, line in enumerate(open(sys.argv[-1]).read().splitlines(True), 1):
    if "  # pycheck: " in line:
        name, kind = line.rstrip().split("  # pycheck: ")
        rows.append({{"start": at, "end": at + len(name), "line": number, "type": kind, "kind": "expression"}})
    if "  # name: " in line:
        name, kind = line.split(" = ")[0], line.rstrip().split("  # name: ")[1]
        rows.append({{"start": at, "end": at + len(name), "line": number, "type": kind, "kind": "name"}})
        rows[-1].update({{"current": part for part in kind.split(" # current: ")[1:]}})
    status |= "# error" in line
    at += len(line)
print(json.dumps({{"types": rows}}))
sys.exit(status)
"""

# Reveals for `reveal_type(NAME)` the text of a comment `# mypy: TYPE` at the end of its line, or else at the end of the line
# before, at the place of the name
MYPY = f"""#!{sys.executable} -IS
import sys
if "--version" in sys.argv:
    print("mypy 9.9.9 (stand-in)")
for file in [word for word in sys.argv[1:] if word.endswith(".py")]:
    lines = ["", *open(file)]
    for number, line in enumerate(lines[1:], 1):
        said = line if "# mypy: " in line else lines[number - 1]
        if line.startswith("reveal_type(") and "# mypy: " in said:
            text = said.rstrip().split("# mypy: ")[1]
            print(f'{{file}}:{{number}}:13: note: Revealed type is "{{text}}"')
"""

PAGE = """All are those of mypy 9.9.9 and Python 3.11.

```ini
[mypy]
```

| Types | Expressions |
|---|---|
| the same type | 2 of 4 |
| the same type of a bound name | 2 of 3 |

| pycheck | mypy | Places | Why |
|---|---|---|---|
| `bool` | `int` | 1 | so |
| `list[int]` | `list[Any]` | 1 | so |
| `str` | `none` | 1 | so |
"""

EXAMPLES = {
    "a.py": "x  # pycheck: int # mypy: builtins.int\n",
    "b.py": "x  # pycheck: int | None # mypy: Union[None, Literal[3]?]\n"
            "y  # pycheck: list[int] # mypy: builtins.list[Any]\n",
    "c.py": "z  # pycheck: str\n",
    "d.py": "# error\nx  # pycheck: str # mypy: builtins.int\n",
    "e.py": "n = 1  # name: int # mypy: builtins.int\n"
            "k = 1  # name: object # current: int # mypy: builtins.int\n"
            "m = 1  # name: bool # mypy: builtins.int\n",
}


class Spelling(unittest.TestCase):
    """A type in one spelling, and the copies of a module."""

    def test_types_of_mypy(self) -> None:
        for said, meant in (("builtins.int", "int"), ("Literal[1]?", "int"), ("Literal[-1]?", "int"),
                            ("Literal[True]", "bool"), ("Literal['a\\'b | c']?", "str"), ("None", "None"),
                            ("Union[module7.Node, None]", "Node | None"), ("Union[builtins.int, Literal[1]?]", "int"),
                            ("Union[Union[builtins.str, None], builtins.int]", "None | int | str"),
                            ("Tuple[Literal[1]?, builtins.list[builtins.str]]", "tuple[int, list[str]]"),
                            ("builtins.dict[builtins.str, Union[builtins.int, None]]", "dict[str, None | int]"),
                            ("builtins.list[<nothing>]", "list[Never]"), ("def (x: builtins.int)", "def (x: int)"),
                            ("def (x: Union[builtins.int, None]) -> Union[module.K, None]", "K | None")):
            self.assertEqual(types.plain(said), meant)

    def test_types_of_pycheck(self) -> None:
        for said, meant in (("int | None", "None | int"), ("list[None | Node]", "list[Node | None]"),
                            ("tuple[int, str]", "tuple[int, str]"),
                            ("dict[str, list[int | None]]", "dict[str, list[None | int]]")):
            self.assertEqual(types.plain(said), meant)

    def test_copies(self) -> None:
        text = "é = a\nb + c\n".encode()
        self.assertEqual(types.copy_of(text, (5, 6)), ("é = reveal_type(a)\nb + c\n".encode(), 1, 18))
        self.assertEqual(types.copy_of(text, (7, 12)), ("é = a\nreveal_type(b + c)\n".encode(), 2, 13))

    def test_questions_for_bound_names(self) -> None:
        text = (b"def  f(a, b):\n    c = a\n    for d in b:\n        e: int\n\nclass K:\n    g: int\n"
                b"    def h(self, i): return i\n\nj = (1,\n     2)\n")
        wanted = {b"f": (12, b"", "f"), b"a": (2, b"    ", "a"), b"b": (2, b"    ", "b"), b"c": (3, b"    ", "c"),
                  b"d": (4, 8 * b" ", "d"), b"e": (5, 8 * b" ", "e"), b"g": (12, b"", "K.g"), b"h": (12, b"", "K.h"),
                  b"j": (12, b"", "j")}
        found = Questions(text).found
        self.assertEqual({text[at : at + 1]: tuple(question) for at, question in found.items()}, wanted)
        copy = types.copy_of_name(text, found[text.index(b"d in")])
        self.assertEqual(copy.text.splitlines()[2:5], [b"    for d in b:", b"        reveal_type(d)", b"        e: int"])
        self.assertEqual(copy[1:], (4, 21))

    def test_notes(self) -> None:
        copy = types.Copy(b"", 2, 13)
        notes = [f'module.py:{place}: note: Revealed type is "{type}"' for place, type in
                 (("2:13", "builtins.str"), ("2:14", "builtins.bool"), ("2:13", "None"), ("3:13", "builtins.int"))]
        self.assertEqual(types.revealed(notes, copy), ["None", "str"])
        self.assertEqual(types.revealed(notes[1:2], copy), ["none"])


class TypesByStandIns(unittest.TestCase):
    """The tool with a small page and stand-ins."""

    def tool(self, page: str) -> Tuple[int, List[str]]:
        with tempfile.TemporaryDirectory() as room:
            for name, text in (("pycheck", PYCHECK), ("mypy", MYPY), ("PAGE.md", page)):
                Path(room, name).write_text(text)
                Path(room, name).chmod(0o755)
            for name, text in EXAMPLES.items():
                Path(room, "examples").mkdir(exist_ok=True)
                Path(room, "examples", name).write_text(text)
            return compared([f"{room}/pycheck", f"{room}/PAGE.md", f"{room}/examples"], f"{room}/mypy")

    def test_page_that_holds(self) -> None:
        self.assertEqual(self.tool(PAGE), (0, [
            "bool beside int: 1, first e.py:3", "list[int] beside list[Any]: 1, first b.py:2",
            "str beside none: 1, first c.py:1",
            "4 examples: 4 expressions, 2 of which agree, 3 names, 2 of which agree; 0 wrong on the page"]))

    def test_pages_that_do_not(self) -> None:
        for old, new, fault in (("2 of 4", "3 of 4", "PAGE.md:9: the same type: 2 of 4"),
                                ("2 of 3", "3 of 3", "PAGE.md:10: the same type of a bound name: 2 of 3"),
                                ("| the same type | 2 of 4 |\n", "", "PAGE.md: there is no row `the same type`"),
                                ("| `list[Any]` | 1 |", "| `list[Any]` | 2 |",
                                 "PAGE.md:15: list[int] beside list[Any]: 1 places"),
                                ("| `str` | `none` | 1 | so |\n", "",
                                 "PAGE.md: str beside none is not on the page: 1 places"),
                                ("`str` | `none`", "`str` | `int`", "PAGE.md:16: str beside int: 0 places")):
            status, said = self.tool(PAGE.replace(old, new))
            self.assertEqual(status, 1)
            self.assertIn(fault, said)

    def test_other_version_of_mypy(self) -> None:
        self.assertEqual(self.tool(PAGE.replace("9.9.9", "9.9.8").replace("2 of 4", "4 of 4"))[0], 0)
        said = self.tool(PAGE.replace("9.9.9", ""))
        self.assertEqual((said[0], said[1][-2]), (1, "PAGE.md: the versions of mypy and Python are not named"))


class TypesByThemselves(unittest.TestCase):
    """The tool with pycheck and mypy themselves."""

    pycheck = str(ROOT / "crates" / "pycheck" / "out" / "pycheck")

    def setUp(self) -> None:
        if not shutil.which("mypy") or not shutil.which(self.pycheck):
            self.skipTest(f"mypy or {self.pycheck} is not there")

    def test_the_page_holds(self) -> None:
        status, said = compared([self.pycheck], "mypy")
        self.assertEqual(status, 0, said)


def compared(words: List[str], mypy: str) -> Tuple[int, List[str]]:
    """Returns the status of the tool, and the lines that it prints."""
    tool = [sys.executable, "-I", "-S", "-B", str(ROOT / "tools" / "compare"), "types"]
    done = subprocess.run([*tool, *words], capture_output=True, env={**os.environ, "MYPY": mypy}, timeout=1800)
    return done.returncode, (done.stdout + done.stderr).decode().splitlines()
