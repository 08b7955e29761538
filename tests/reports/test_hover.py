"""The advice in hovers of the language server of the command, `--server`: at each finding it is that of the command itself,
and otherwise a hover is that of the server."""
from __future__ import annotations

import json
import os
import re
import resource
import subprocess
import sys
from typing import Any, Dict, List, Sequence, Tuple

from test_advice import AFTER, BEFORE, CASES, MEANT
from sessions import SessionTest
from support import CLEAN, COMMAND, HEADER, REFUSED, Test

from pycheck_all import hovers, program, running
from pycheck_all.files import Source

Message = Dict[str, Any]
RULE = "\n\n---\n\n"
BLOCK = re.compile(r"\*\*([A-Z]\d+)\*\* [^\n]+\n\n(?:.*\n\n)?([^\n]+)", re.DOTALL)

# A function with an error from which nothing follows
MISFIT = 'def f() -> int:\n    return "a"\n'
# Functions of a module with findings: each kind of advice that depends on the case
FUNCTIONS = [
    'def f():\n    print(int("3"))\n',
    "def f(xs: list[int]) -> int:\n    return max(xs)\n",
    "def f(xs: list[int]):\n    xs.sort()\n",
    'def f() -> str:\n    return ", ".join(["a"])\n',
    "def f(item: Item) -> int:\n    if item.parent is not None:\n        return item.parent.id\n    return 0\n",
    "def f(xs: list[int], hi: int | None):\n    if hi is None:\n        hi = len(xs)\n    lo = 0\n"
    "    while lo < hi:\n        if xs[lo] < 3:\n            lo = lo + 1\n        else:\n            hi = lo\n",
    "def f(items: list[Item]):\n    found = None\n    for item in items:\n        found = item\n",
    'def f():\n    post(3, "tea")\n',
    "def f(d: dict[str, int]):\n    d[3] = 1\n",
    'def f():\n    names: list[int] = ["a"]\n',
    "def f() -> None:\n    return 3\n",
    "def f():\n    print(len(3))\n",
    "def f(y: Lst[int]):\n    pass\n",
    "def f(item: Item):\n    print(item.cost + 1)\n",
    "def f(a: int) -> int:\n    if a > 0:\n        return 1\n    else:\n        assert False\n",
    "def f():\n    post()\n    Leaf(1)\n",
    'def f():\n    print("é", "\U0001f600", amuont, "\U0001f600" + 1)\n',
]
# Statements that the profile leaves out, with the places of their refusals
LEFT_OUT = [
    "total += 1",
    "names = [it for it in range(3)]",
    "with open(name) as file:\n        pass",
    'raise ValueError("odd")',
    'print("é\U0001f600", (1]',
    "global count",
]


def place_of(row: Message) -> Tuple[int, int]:
    """Returns the line and the column of a finding or a refusal of the form `json`."""
    return row["start"]["line"], row["start"]["column"]


class Hovers(SessionTest):
    """Hovers at each finding of modules."""

    def hover(self, number: int, name: str, line: int, character: int) -> Message:
        """Returns the request for the hover at a position of a file of the project."""
        params = {"textDocument": {"uri": self.uri(name)}, "position": {"line": line, "character": character}}
        return {"jsonrpc": "2.0", "id": number, "method": "textDocument/hover", "params": params}

    def told(self, texts: Sequence[str]) -> List[Tuple[str, Message]]:
        """Writes modules with these texts. Returns their names, and what the command tells of each in the form `json`."""
        for number, text in enumerate(texts):
            self.write(f"{number:03}.py", text)
        files = json.loads(self.check("--output", "json", ".").output)["files"]
        self.assertEqual([it["path"] for it in files], [f"{number:03}.py" for number in range(len(texts))])
        return [(it["path"], it) for it in files]

    def units(self, name: str, row: Message) -> Tuple[int, int]:
        """Returns the line and the character, in UTF-16, at which a finding of a file begins."""
        line, column = place_of(row)
        before = (self.folder / name).read_text(encoding="utf-8").split("\n")[line - 1][: column - 1]
        return line - 1, len(before.encode("utf-16-le")) // 2

    def compare(self, texts: Sequence[str]) -> int:
        """Compares the advice in the hover at the beginning of each finding of some modules with that of the command.
        Returns how many were compared."""
        files = self.told(texts)
        rows = [(name, it) for name, file in files for it in [*file["findings"], *filter(None, [file["refusal"]])]]
        asked = [self.hover(10 + at, name, *self.units(name, row)) for at, (name, row) in enumerate(rows)]
        replies = {it["id"]: it for it in self.session(*(self.opened(name) for name, _ in files), *asked) if "id" in it}
        for at, (name, row) in enumerate(rows):
            with self.subTest(f"{name} {row['code']}", text=(self.folder / name).read_text(encoding="utf-8")):
                said = replies[10 + at]["result"]["contents"]["value"]
                blocks = [found.groups() for found in map(BLOCK.fullmatch, said.split(RULE)) if found]
                self.assertIn((row["code"], row["instead"]), blocks)
        return len(rows)

    def test_each_kind_of_advice(self) -> None:
        self.assertGreater(self.compare([BEFORE + it + AFTER for it in FUNCTIONS]), len(FUNCTIONS))

    def test_each_row_of_the_page(self) -> None:
        cases = [it for _, it, _ in [*CASES, *MEANT]]
        texts = [("" if it.startswith(HEADER) else BEFORE) + it + AFTER for it in cases]
        self.assertGreaterEqual(self.compare(texts), len(cases))

    def test_each_form_that_is_left_out(self) -> None:
        texts = [HEADER + f"def main():\n    {it}\n\nmain()\n" for it in LEFT_OUT]
        texts += [CLEAN[len(HEADER) :], HEADER + "class Shop:\n    n: int\n\n" + CLEAN[len(HEADER) :], CLEAN + "print(1)\n"]
        self.assertEqual(self.compare(texts), len(texts))

    def test_a_refusal_at_the_end_of_the_text(self) -> None:
        self.write("a.py", HEADER + 'def main():\n    print("\u00e9\n')
        self.write("b.py", CLEAN + "print((1, 2)")
        found = self.session(
            self.opened("a.py"), self.opened("b.py"), self.hover(10, "a.py", 3, 4), self.hover(11, "b.py", 6, 0)
        )
        said = {it["id"]: it["result"]["contents"]["value"] for it in found if it.get("id", 0) >= 10}
        files = json.loads(self.check("--output", "json", ".").output)["files"]
        for number, file in zip((10, 11), files):
            self.assertTrue(said[number].endswith("\n\n" + file["refusal"]["instead"]), said[number])
        self.assertTrue(said[11].endswith("The bracket that is open is `(` at 7:6."))

    def test_a_fixed_sentence(self) -> None:
        self.write("a.py", HEADER + 'def main():\n    print(int("3"))\n    x = 1\n    x += 1\n\nmain()\n')
        self.write("b.py", HEADER + 'def main():\n    print(max(3))\n\nmain()\n')
        found = self.session(
            self.opened("a.py"), self.opened("b.py"), self.hover(10, "a.py", 5, 0), self.hover(11, "b.py", 3, 10)
        )
        said = {it["id"]: it["result"]["contents"]["value"] for it in found if it.get("id", 0) >= 10}
        self.assertTrue(said[10].endswith("\n\nInstead of `x += 1` write `x = x + 1`."), said[10])
        blocks = said[11].split(RULE)
        self.assertTrue(blocks[1].endswith(
            "\n\n`max` is a built-in of Python that the profile leaves out: copy `max_of` of the cookbook, for your type of "
            "items."
        ), blocks[1])
        self.assertTrue(blocks[-1].endswith("\n\nIt follows from E02 at 4:11, and goes away with it."), blocks[-1])

    def test_advice_below_a_declaration(self) -> None:
        self.write("a.py", HEADER + 'def f(n: str) -> int:\n    return n\n\ndef main():\n    print(f("a"))\n\nmain()\n')
        found = self.session(self.opened("a.py"), self.hover(10, "a.py", 3, 11))
        said = next(it["result"]["contents"]["value"] for it in found if it.get("id") == 10)
        row = json.loads(self.check("--output", "json", ".").output)["files"][0]["findings"][0]
        blocks = said.split(RULE)
        self.assertEqual(blocks[:2], ["```python\nstr\n```", "```python\ndef f(n: str) -> int:\n```"])
        self.assertTrue(blocks[2].endswith("\n\n" + row["instead"]), blocks[2])

    def test_advice_is_in_no_other_place(self) -> None:
        self.write("a.py", BEFORE + MISFIT + AFTER)
        self.write("b.py", REFUSED)
        asked = [self.hover(10 + line, name, line, 4) for name in ("a.py", "b.py") for line in (0, 2, 40)]
        given = self.whole(self.opened("a.py"), *asked[:3], self.opened("b.py", "java"), *asked[3:])
        done = subprocess.run([self.server], input=given, capture_output=True, timeout=120)
        self.assertEqual(self.ran(given), (0, done.stdout, ""))

    def test_a_program_that_fails(self) -> None:
        self.write("a.py", BEFORE + MISFIT + AFTER)
        self.write("b.py", REFUSED)
        line = BEFORE.count("\n") + 1
        given = self.whole(
            self.opened("a.py"), self.hover(10, "a.py", line, 11), self.opened("b.py"), self.hover(11, "b.py", 4, 10)
        )
        done = subprocess.run([self.server], input=given, capture_output=True, timeout=120)
        for lines, said in (
            ("exit 3", "ended with status 3"),
            ("kill -9 $$", "was ended by signal 9"),
            ("echo '{}'", "cannot be read"),
            ("head -c 9000000 /dev/zero", "its answer is too long"),
        ):
            with self.subTest(lines):
                status, output, error = self.ran(given, PYCHECK=self.program(lines))
                self.assertEqual((status, output), (0, done.stdout))
                self.assertIn(said, error)
        status, output, error = self.ran(given, PYCHECK="/nowhere/at/all")
        self.assertEqual((status, output), (0, done.stdout))
        self.assertEqual(error, "pycheck_server: no advice: /nowhere/at/all: no such program\n")

    def test_time(self) -> None:
        function = 'def f{}(xs: list[int]) -> int:\n    n = {}\n    xs.sort()\n    return max(xs) + n\n\n'
        self.write("a.py", HEADER + "".join(function.format(at, at) for at in range(200)) + CLEAN[len(HEADER) :])
        asked = [self.hover(10 + at, "a.py", 5 * at + 5, 12) for at in range(100)]
        given = self.whole(self.opened("a.py"), *asked)
        alone, _ = self.seconds([self.server], given)
        relayed, output = self.seconds([sys.executable, str(COMMAND), "--server"], given)
        self.assertEqual(output.count(b"copy `max_of` of the cookbook"), 100)
        self.assertLess(relayed, 10 * alone + 5)

    def seconds(self, words: Sequence[str], given: bytes) -> Tuple[float, bytes]:
        """Returns the seconds of a processor that a command takes with all that it starts, and its output."""
        before = resource.getrusage(resource.RUSAGE_CHILDREN)
        done = subprocess.run(
            words, input=given, capture_output=True, timeout=600, env={**os.environ, "PYCHECK_SERVER": self.server}
        )
        after = resource.getrusage(resource.RUSAGE_CHILDREN)
        self.assertEqual((done.returncode, done.stderr), (0, b""))
        return after.ru_utime + after.ru_stime - before.ru_utime - before.ru_stime, done.stdout


class Blocks(Test):
    """The text of a hover, with blocks as the server writes them."""

    def advised(self, said: str, character: int) -> str:
        """Returns the text with the advice for a position in the line `print(int("3"))`, which has an error and a dynamic
        place that follows from it."""
        self.write("a.py", HEADER + 'def main():\n    print(int("3"))\n\nmain()\n')
        used = program.Program(os.environ["PYCHECK"])
        checked = running.Run(used, 60, False, True).check(Source("a.py", str(self.folder / "a.py")))
        result = {"contents": {"kind": "markdown", "value": said}}
        hovers.advise(result, {"line": 3, "character": character}, checked, "utf-16")
        return result["contents"]["value"]

    def test_blocks_of_each_form(self) -> None:
        ours = json.loads(self.json_of('print(int("3"))'))["files"][0]["findings"]
        error, follows = (it["instead"] for it in ours)
        sentence = "\n\n```text\na sentence\n```"
        for first in ("```python\nAny\n```\n\n---\n\n", ""):
            for told in ("", sentence, ": `Any` to `int`"):
                form = f"{first}**E20** a{told}\n\nMeaning.\n\n{{}}\n\n---\n\n**A6** b{told}\n\nMeaning.\n\n{{}}"
                self.assertEqual(self.advised(form.format("Old.", "Old."), 10), form.format(error, follows))

    def test_blocks_of_other_findings(self) -> None:
        for said in ("**E21** a\n\nMeaning.\n\nOld.", "**E20** a\n\nMeaning.\n\nOld.", "```python\nint\n```", "**E20** a",
                     "**A6** b\n\nM.\n\nOld.\n\n---\n\n**E20** a\n\nM.\n\nOld.", ""):
            self.assertEqual(self.advised(said, 10), said)

    def test_the_ends_of_a_place(self) -> None:
        # The error is at characters 10 to 13, the dynamic place at 10 to 18
        said = "**A6** b\n\nMeaning.\n\nOld."
        told = [at for at in range(5, 24) if self.advised(said, at) != said]
        self.assertEqual(told, [14, 15, 16, 17, 18])

    def test_words_outside_of_code_have_no_marks(self) -> None:
        self.assertEqual(hovers.in_markdown("`a_b*` _c_ <d> [e]"), "`a_b*` \\_c\\_ \\<d> \\[e]")

    def json_of(self, line: str) -> str:
        """Returns the form `json` of a module with this line in its main."""
        self.write("b.py", HEADER + f"def main():\n    {line}\n\nmain()\n")
        return self.check("--output", "json", "b.py").output
