"""The advice on what to write instead: each row of the tables of docs/PROFILE.md, found by the text at a refusal."""
from __future__ import annotations

import json
import re
import time
from typing import Dict, Iterator, List, Tuple

from support import HEADER, ROOT, Test

CLASSES = HEADER + "from dataclasses import dataclass\n\n@dataclass\n"
TABLE = re.compile(r"^\| Python \| Answer \| Write \|\n\|[-|]+\n((?:\|.*\n)+)", re.MULTILINE)
# The name of a second row with the same form: its example is a class without @dataclass
EXCEPTIONS = "class Odd(Exception):"
# Docstrings that are refused also in a function, and others
TRIPLE = ['"""About it."""', "'''About\nit.'''", 'r"About it."', "R'''About it.'''", 'u"About it."', "b'it'", '("""a\nb""")']
SINGLE = ['"About it."', "'About it.'", "'é' # about", '"a" "b"', '("About it.")', '("a"\n     "b")', '(\n    "a"\n)', 'f"{1}"']
# Pieces of a text that takes long unless its time grows with its length alone
PIECES = [
    *(bytes([it]) for it in b"\\'\"()[:,=<@*.#x0 \n\t\xff"),
    *(b"([{", b"[a, ", b"'a' ", b"''' ", b"'\n", b"\\'''\n", b'\\"x\\\n', b'"\\', b"not ", b"a < ", b"a.", b"f'"),
    *(b"x\n", b"    x\n", b" x\nx:\n", b"if x:\n", b"#\n", b"\\\n", b"(\n"),
]


def cells(line: str) -> List[str]:
    """Returns the cells of a row of a table."""
    return [it.strip().replace("\\|", "|") for it in re.split(r"(?<!\\)\|", line)[1:-1]]


def rows_of_the_page() -> Dict[str, Tuple[str, str]]:
    """Returns for each refused form, by its text without backquotes, its cell, and what the page says to write."""
    page = (ROOT / "docs" / "PROFILE.md").read_text(encoding="utf-8")
    found = [cells(line) for table in TABLE.findall(page) for line in table.splitlines()]
    refused = [(form, write) for form, answer, write in found if re.search(r"`[SLING]\d`", answer)]
    return {form.replace("`", ""): (form, write) for form, write in refused}


def said(form: str, write: str) -> str:
    """Returns the sentence for a row."""
    return f"There is {form}: write {write}." if form.startswith("no ") else f"Instead of {form} write {write}."


def repeated(length: int) -> Iterator[bytes]:
    """Yields texts that repeat a piece: by itself, in a string and in a bracket."""
    for piece in PIECES:
        for head in (b"", b'x = """', b"f("):
            yield head + piece * (length // len(piece))


class LeftOut(Test):
    """The advice under a refusal."""

    def advice(self, texts: Dict[str, str]) -> Dict[str, str]:
        """Returns what to write instead under the first refusal of each text."""
        for number, text in enumerate(texts.values()):
            self.write(f"{number:03}.py", text)
        files = json.loads(self.check("--output", "json", ".").output)["files"]
        self.assertEqual(len(files), len(texts))
        return {name: file["refusal"]["instead"] for name, file in zip(texts, files)}

    def test_each_row_of_the_page_has_its_own_advice(self) -> None:
        rows = rows_of_the_page()
        examples = json.loads((ROOT / "examples" / "left_out.json").read_text(encoding="utf-8"))["rows"]
        texts = {it["name"]: it["input"]["text"] for it in examples if "refused" in it["check"][0]}
        texts[EXCEPTIONS] = HEADER + "class Odd(Exception):\n    pass\n\ndef main():\n    pass\n\nmain()\n"
        self.assertEqual(set(texts), set(rows))
        for name, advice in self.advice(texts).items():
            with self.subTest(name):
                self.assertEqual(advice, said(*rows[name]))

    def test_each_form_is_told_once(self) -> None:
        from pycheck_all import left_out

        forms = [form for form, _ in left_out.FORMS]
        self.assertEqual(sorted(forms), sorted(form for form, _ in rows_of_the_page().values()))

    def compare(self, cases: List[Tuple[str, str]], before: str, indent: str, after: str) -> None:
        """Compares the advice for each line with the row that it is to have."""
        rows = rows_of_the_page()
        texts = {line: before + indent + line.replace("\n", "\n" + indent) + "\n" + after for line, _ in cases}
        found = self.advice(texts)
        for line, name in cases:
            with self.subTest(line):
                self.assertEqual(found[line], said(*rows[name]))

    def test_statements_and_expressions(self) -> None:
        cases = [
            ("x = (1 +\n     [n\n      for n in []])", "[n * n for n in numbers], {..}, (..)"),
            ("x = {n: 1 for n in []}", "[n * n for n in numbers], {..}, (..)"),
            ("print(n for n in [])", "[n * n for n in numbers], {..}, (..)"),
            ("x = f(1, a if b else c)", "a if c else b"),
            ("x = y[a:b]", "names[1:]"),
            ("x = f(y)[:1]", "names[1:]"),
            ('x = "a[" + y["b"][::2]', "names[1:]"),
            ("x = {1}", "{1, 2}"),
            ("print(x not in {1})", "n in {1, 2}"),
            ("x = {f(a, b), 2}", "{1, 2}"),
            ("(a, b) = c", "a, b = pair"),
            ("a, b, c = d", "a, b = pair"),
            ("*a, b = c", "a, b = pair"),
            ("x.y, z[0] = c", "a, b = pair"),
            ("x.y = z = 0", "a = b = 0"),
            ("for (k, v) in x:\n    pass", "for k, v in pairs:"),
            ("for k, (v, w) in x:\n    pass", "for k, v in pairs:"),
            ("for n in 1, 2:\n    pass", "pair = 1, 2"),
            ("return 1, 2", "return a, b"),
            ("x -= 1", "x += 1"),
            ("x //= 2", "x += 1"),
            ("x /= 2", "a / b"),
            ("x **= 2", "2 ** n"),
            ("x |= 2", "a & b, a << b, ~a"),
            ("nonlocal x", "global count"),
            ("x = yield", "yield n"),
            ("while True: break", "if c: return"),
            ("assert 1 < x == 2", "0 < n < 9"),
            ("x = a and 0 <= n < 9", "0 < n < 9"),
            ("x = a is not b", "a is b"),
            ("print(1, *x, 2)", "f(*values)"),
            ("print(sep=1, **x)", "f(**options)"),
            ("x = [1, *y]", "[*names], {**ages}"),
            ("x = {**y}", "[*names], {**ages}"),
            ("x = - +1", "+3"),
            ("x = F'{1}'", 'f"{n} of {m}"'),
            ("x = rf'{1}'", 'f"{n} of {m}"'),
            ("x = Rb'1'", 'r"\\d", b"x"'),
            ("x = 'a\\x1b'", '"\\u00e9"'),
            ("x = '\\\\\\d'", '"\\d"'),
            ("x = '''a'''", '"""two lines"""'),
            ("'''What it does.'''", '"""What it does.""" in a function'),
            ("x = 1\n'''What follows.'''", '"""What it does.""" in a function'),
            ("x = 1.", "1.5, .5"),
            ("x = 1e-6", "1.5, .5"),
            ("x = 2E6", "1e6"),
            ("x = 0b11", "0xFF, 007"),
            ("x = ...", "... as a body"),
            ("finally:\n    pass", "try: .. except KeyError:"),
            ("super().__init__()", "super().__init__(x)"),
            ("print(self.__x)", '__version__ = "1.2", self.__count'),
        ]
        self.compare(cases, HEADER + "def main():\n", "    ", "\nmain()\n")

    def test_the_module(self) -> None:
        cases = [
            ("import dataclasses", "from dataclasses import dataclass, field"),
            ("from dataclasses import field", "from dataclasses import dataclass, field"),
            ("import typing", "import typing, from typing import Any, cast"),
            ("from typing import Any as A", "import typing, from typing import Any, cast"),
            ("from typing import List, Dict", "from typing import Optional"),
            ("import os.path as p", "import math"),
            ("from . import shop", "import math"),
            ("from __future__ import division", "no from __future__ import annotations"),
            ("while True:\n    pass", "if c: at the top level"),
            ("f.g(1)", "print(1) at the top level"),
            ("a, b = 1, 2", "a, b = pair"),
            ("a = b = 0", "a = b = 0"),
            ("'''About\nit.'''", '"""What it does.""" at the top'),
            ("'About it.'", '"""What it does.""" at the top'),
            ("class C(ValueError):\n    pass", EXCEPTIONS),
            ("class C(A):\n    pass", "class C:, class D(C): alone"),
            ("class C(str, enum.Enum):\n    A = 1", "class Color(Enum):"),
            ("class C(IntFlag):\n    A = 1", "class Color(Enum):"),
            ("class C(typing.NamedTuple):\n    a: int", "class Point(NamedTuple):, TypedDict"),
            ("class C(TypedDict, total=False):\n    a: int", "class Point(NamedTuple):, TypedDict"),
            ("class C(abc.ABC):\n    pass", "class Shape(ABC):, Protocol"),
            ("class C(Protocol):\n    pass", "class Shape(ABC):, Protocol"),
            ("class C(object):\n    pass", "class C(object):"),
            ("class C(A, metaclass=ABCMeta):\n    pass", "class C:, class D(C): alone"),
            ("class Enum:\n    pass", "class C:, class D(C): alone"),
            ("def f(*, a):\n    pass", "def f(a, *, b)"),
            ("def f(a=1, *b: int):\n    pass", "def f(*args)"),
            ("def f(\n    a,\n    **b\n):\n    pass", "def f(**options)"),
            ("def f(a={}):\n    pass", "def f(xs: list[int] = [])"),
            ("def f(a=g(1)):\n    pass", "def f(n: int = limit)"),
            ("def f() -> 'C':\n    pass", '"Node", quoted'),
            ("x: list['C'] = []", '"Node", quoted'),
            ("def f(a: t.List[int]):\n    pass", "x: shapes.Shape"),
            ("def f(a: Callable[..., int]):\n    pass", "Callable[[int], int]"),
            ("@functools.cache\ndef f():\n    pass", "@property, @staticmethod, @cache"),
            ("@dataclasses.dataclass\nclass C:\n    pass", "@dataclass(frozen=True)"),
            ("__author__ = 'A'", '__version__ = "1.2", self.__count'),
            ("x = __file__", "x.__class__, __file__"),
            ("def f():\n    print(f.__name__)", "x.__class__, __file__"),
            ("def f():\n    if g(f.__name__):\n        pass", "x.__class__, __file__"),
            ("if '__main__' == __name__:\n    main()", 'if __name__ == "__main__":'),
        ]
        self.compare(cases, HEADER, "", "\ndef main():\n    pass\n\nmain()\n")

    def test_a_class(self) -> None:
        cases = [
            ("'''About it.'''", "a docstring of a class"),
            ("x: int\n'''About x.'''", "a docstring of a class"),
            ("x: list[int] = []", "x: list[int] = field(..)"),
            ("x = y = 1", "x = 3 in a class"),
            ("def __repr__(self):\n    pass", "def __str__(self):"),
            ("def __ne__(self, other):\n    pass", "def __eq__(self, other):"),
            ("__hash__ = None", "def __hash__(self):"),
            ("def __ge__(self, other):\n    pass", "def __lt__(self, other):"),
            ("def __radd__(self, other):\n    pass", "def __add__(self, other):"),
            ("def __ifloordiv__(self, other):\n    pass", "def __add__(self, other):"),
            ("def __neg__(self):\n    pass", "def __add__(self, other):"),
            ("def __contains__(self, item):\n    pass", "def __len__(self):, __enter__, __call__"),
            ("def __exit__(self, *a):\n    pass", "def __len__(self):, __enter__, __call__"),
            ("__slots__ = ('x',)", '__all__ = ["f"], __slots__ = ("x",)'),
            ("__slots__ = names", '__all__ = ["f"], __slots__ = ("x",)'),
            ("__str__ = __repr__", "def __str__(self):"),
            ("__add__, __radd__ = made(1)", "def __add__(self, other):"),
            ("__version__ = '1'", '__version__ = "1.2", self.__count'),
            ("def m(cls):\n    pass", "def m(this):"),
            ("def m():\n    pass", "def m(this):"),
            ("def m(*a):\n    pass", "def f(*args)"),
            ("class D:\n    pass", "a class in a function"),
            ("def m(self):\n    self.x: int = 1", "self.x: int = 0"),
            ("for n in []:\n    pass", "if c: or f() in a class"),
        ]
        self.compare(cases, CLASSES + "class C:\n", "    ", "\ndef main():\n    pass\n\nmain()\n")

    def test_a_docstring_at_once(self) -> None:
        """The whole of a docstring is one refusal, and nothing behind it is refused because of it."""
        members = "from dataclasses import dataclass\n\n@dataclass\nclass C:\n    {}\n    x: int\n"
        rest = "\ndef main():\n    pass\n\nmain()\n"
        for before, form in (
            ("{}\n" + HEADER, '"""What it does.""" at the top'),
            (HEADER + "{}\n", '"""What it does.""" at the top'),
            (HEADER + members, "a docstring of a class"),
            (HEADER + "def f():\n    {}\n    return 1\n", '"""What it does.""" in a function'),
        ):
            is_taken = "def" in before
            wanted = said(*rows_of_the_page()[form])
            for text in TRIPLE if is_taken else [*TRIPLE, *SINGLE]:
                with self.subTest(before + text):
                    self.write("a.py", before.format(text) + rest)
                    lines = self.lines("--all-refusals", "a.py")
                    self.assertEqual(len(lines), 2, lines)
                    self.assertRegex(lines[0], r"^a\.py:\d+:\d+: (L2 refused: bad string|G1 refused: no module)\. ")
                    self.assertTrue(lines[0].endswith(". " + wanted), lines[0])

    def test_what_to_write_in_place_of_a_docstring(self) -> None:
        rest = HEADER + "def main():\n    'What it does.'\n\nmain()\n"
        self.write("a.py", "# What it does.\n#\n# And how.\n" + rest)
        self.assertEqual(self.check("a.py").status, 0)

    def test_a_docstring_before_other_refusals(self) -> None:
        """Without the header, that it is missing is told too."""
        for text in ("'What it does.'", '"""What it does."""'):
            self.write("a.py", text + "\nlimit = 3\n\ndef main():\n    print(limit / 2)\n\nmain()\n")
            lines = self.lines("--all-refusals", "a.py")
            self.assertIn("There is no `from __future__ import annotations`: write this line, first.", lines[1])
            self.assertEqual([it.split(" ")[0] for it in lines[:-1]], ["a.py:1:1:", "a.py:2:1:", "a.py:5:17:"])

    def test_a_header_behind_other_statements(self) -> None:
        for first in ("limit = 3", "print(1)", "f(", "('a', 'b')"):
            self.write("a.py", first + "\n" + HEADER + "def main():\n    pass\n\nmain()\n")
            lines = self.lines("--all-refusals", "a.py")
            self.assertEqual(len(lines), 2, lines)

    def test_time_grows_with_the_length(self) -> None:
        """Texts that repeat a piece take a time in proportion to their length: quadratic time would be some seconds
        here."""
        for text in repeated(1 << 15):
            self.compare_time(text, 3)

    def test_texts_of_a_mebibyte(self) -> None:
        length = 1 << 20
        for text in (
            b"\\" * length,
            b"x = '" + b"\\\\" * (length // 2),
            b"x = " + b"(" * length,
            b"''' \n" + b"\\''' \n" * (length // 6),
            b"def main():\n" + b"    x\n" * (length // 6),
        ):
            self.compare_time(text, 30)

    def compare_time(self, text: bytes, seconds: float) -> None:
        """Compares the time of all texts about a file with a generous bound on the time of the processor."""
        from pycheck_all import codes, silent, source

        with self.subTest(text[:20]):
            began = time.process_time()
            shown = source.Text(HEADER.encode() + text)
            for byte in (len(shown.data) // 2, len(shown.data)):
                spot = shown.spot(byte)
                for code in ("L2", "G1", "N1"):
                    self.assertTrue(codes.mending_of(code, spot))
                shown.opening("L5", byte)
            self.assertGreater(len(list(silent.lines_of(shown.data))), 0)
            self.assertLess(time.process_time() - began, seconds)
