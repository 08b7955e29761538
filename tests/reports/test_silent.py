"""The errors that are silent, and the sentence that they suspend the promise."""
from __future__ import annotations

import json
import re
from typing import List, Tuple

from pycheck_all import codes, silent
from support import CLEAN, ERROR, HEADER, OPERATOR, Test

# A silent error at line 5, column 9, and one that is heard at line 8, column 11
SILENT = HEADER + (
    'def f() -> int:\n    if 0:\n        return\n    return 1\n'
    'def main():\n    print(f() + "a")\nmain()\n'
)
SUSPENDED = "the promise is suspended by line {}: a run may fail before it passes through a line of the report"
IN_FILES = "the promise suspended in {} (first at silent.py:5:9 E12)"
# Places of errors in a module, each with the code and the expected kind, or none if the error is heard
WORDS = {
    "decorator ": silent.DECORATOR,
    "tested ": silent.TESTED,
    "shape ": silent.SHAPE,
    "bare ": silent.BARE,
    "parameter ": silent.PARAMETER,
    "field ": silent.FIELD,
    "function ": silent.FUNCTION,
    "": "",
}
MARK = re.compile(f"<(E\\d\\d) ({'|'.join(WORDS)})([^<>]*)>")
MARKED = '''from __future__ import annotations
k1 = isinstance(1, <E03 tested A>)
k2 = [isinstance((1, 2), (<E03 tested A>),), f(1, <E03 A>), isinstance(<E03 A>, int), isinstance(1, <E03 A>, A)]
k3 = isinstance(1, x=<E03 A>) or isinstance(f(2, <E03 A>), int) or (1, <E03 A>) or isinstance(
    f(1, isinstance(1, ")")),  # ), A
    <E03 tested A>
)
k4 = isinstance(1, f(<E03 A>)) or isinstance(1, [<E03 A>]) or <E03 isinstance(1, 2)>(A)
k5: int = <E12 "a">
@ <E02 decorator dataclass>
class A:
    a1: int = <E12 field "def">
    a2: str = <E12 field -1>
    def <E21 m1>(self, p1: int = <E12 parameter "b">, p2: int = 2) -> int:
        k6: int = <E12 "class">
        f(p1=<E12 "c">)
    def m2(self) -> int:
        <E12 bare return>
    def m3(self, p1: dict[int, str], p2: int) -> int:
        return <E12 "return">
@<E02 decorator dataclass>
class B(A):
    def <E11 m1>(self, p1: str = "", p2: str = ""): pass
    def <E11 shape m2>(self, p1): pass
@<E02 decorator dataclass>
class C(B):
    def <E11 shape m1>(self, p1: int = 1, q: int = 2): pass
    def <E11 shape m2>(self): pass
    def <E11 m3>(self, p1: dict[str, int] = 1, p2: str = "=",): pass
    def <E11 m4>(self): pass
@<E02 decorator dataclass>
class D(C):
    def <E11 shape m1>(self, p1: str = "", p2: str): pass
    def <E11 shape m3>(self, p2: int, p1: int): pass
def <E21 function f>(p1: int = <E12 parameter None>) -> int:
    if <E02 dataclass>:
        <E12 bare return>  # return 1
    return (
        <E12 "@">)
def main(): pass
'''


def marked() -> Tuple[bytes, List[Tuple[str, int, str]]]:
    """Returns the module without these marks, and the code, the first byte and the kind of each."""
    text, found, end = "", [], 0
    for mark in MARK.finditer(MARKED):
        text += MARKED[end : mark.start()]
        found.append((mark[1], len(text.encode()), WORDS[mark[2]]))
        text, end = text + mark[3], mark.end()
    return (text + MARKED[end:]).encode(), found


class Kinds(Test):
    """The errors that are silent, by the text alone."""

    def test_marked_places(self) -> None:
        data, places = marked()
        tells = silent.Silent(data)
        self.assertEqual([(code, byte, tells.kind(code, byte)) for code, byte, _ in places], places)
        self.assertEqual({kind for _, _, kind in places}, set(WORDS.values()))

    def test_the_page_says_the_same_of_each_code(self) -> None:
        for code, entry in codes.entries().items():
            kinds = silent.OF_CODE.get(code, ())
            with self.subTest(code):
                self.assertEqual(kinds == (code,), entry.run == "This error is silent.")
                self.assertEqual(bool(kinds), "is silent" in entry.run)

    def test_names_are_compared_in_their_form(self) -> None:
        text = "class A:\n def m(self, \ufb01: int): pass\n"
        text += "class B(\uff21):\n def m(self, fi: str): pass\n def \uff4d(self): pass\n"
        tells, methods = silent.Silent(text.encode()), [found.start() for found in re.finditer(r"(?<=def ).", text)]
        places = [len(text[:at].encode()) for at in methods]
        self.assertEqual([tells.kind("E11", at) for at in places], ["", "", silent.SHAPE])

    def test_what_the_text_does_not_tell_is_silent(self) -> None:
        for code, kinds in silent.OF_CODE.items():
            for byte in (0, 2, 9):
                self.assertEqual(silent.Silent(b"\n# a comment").kind(code, byte), kinds[0])

    def test_long_texts_take_little_time(self) -> None:
        chain = "".join(f"@dataclass\nclass C{at + 1}(C{at}):\n def m(self, p{at}: int): pass\n" for at in range(9000))
        names = HEADER + "k = [" + "isinstance(1, A), f(1, A), " * 9000 + "]\n"
        fields = HEADER + "class A:\n" + ' a: int = "a"\n' * 20000
        for text, code, word in ((chain, "E11", r"m(?=\()"), (names, "E03", "A"), (fields, "E12", '"a"')):
            places = [found.start() for found in re.finditer(word, text)]
            tells = silent.Silent(text.encode())
            self.assertGreater(len({tells.kind(code, at) for at in places}), 0)


class Said(Test):
    """The sentence about silent errors."""

    def test_full(self) -> None:
        self.write("silent.py", SILENT)
        self.write("heard.py", ERROR)
        shown = self.check("--output", "full", "heard.py", "silent.py")
        self.assertEqual(shown.output.count("the promise"), 2)
        counts = f"2 files: 3 errors, 0 dynamic places, {IN_FILES.format('1 file')}"
        last = f"\n\nsilent.py: {SUSPENDED.format(5)}\n\n{counts}\n"
        self.assertTrue(shown.output.endswith(last), shown.output)
        self.assertEqual(shown.status, 1)

    def test_concise_names_the_first_in_the_last_line_alone(self) -> None:
        self.write("silent.py", SILENT)
        lines = ["silent.py:5:9: E12 flow: cannot return None from f, which returns int", f"silent.py:8:11: {OPERATOR}"]
        last = f"1 file: 2 errors, 0 dynamic places, {IN_FILES.format('1 file')}"
        self.assertEqual(self.lines("silent.py"), [*lines, last])
        self.write("later.py", ERROR)
        self.write("the last\n.py", SILENT)
        self.assertTrue(self.lines(".")[-1].endswith(IN_FILES.format("2 files")))
        (self.folder / "silent.py").unlink()
        self.assertTrue(self.lines(".")[-1].endswith(IN_FILES.format("1 file").replace("silent", "the last\\n")))

    def test_what_is_known_suspends_the_promise_too(self) -> None:
        self.write("silent.py", SILENT)
        self.check("--write-baseline", "known.json", "silent.py")
        shown = self.lines("--output", "full", "--baseline", "known.json", "silent.py")
        last = f"1 file: 0 errors, 0 dynamic places, 2 known, {IN_FILES.format('1 file')}"
        self.assertEqual(shown, [f"silent.py: {SUSPENDED.format(5)}", "", last])

    def test_heard_and_harmless_errors_and_no_report(self) -> None:
        self.write("heard.py", ERROR)
        self.write("clean.py", CLEAN)
        self.write("harmless.py", HEADER + "def main():\n    k: list = 1\nmain()\n")
        self.write("refused.py", "import x\n")
        self.assertNotIn("promise", self.check("--output", "full", ".").output)

    def test_several_lines(self) -> None:
        self.assertEqual(silent.sentence([4, 9, 4]), SUSPENDED.replace("line", "lines", 1).format("4 and 9"))
        self.assertIn(" by lines 1, 2, 3, 4, 5 and 6:", silent.sentence(range(1, 7)))
        self.assertIn(" by lines 1, 2, 3, 4, 5 and 2 more:", silent.sentence(range(1, 8)))

    def test_the_page(self) -> None:
        self.write("silent.py", SILENT)
        self.write("heard.py", ERROR)
        self.check("--page", "page.html", "heard.py", "silent.py")
        page = (self.folder / "page.html").read_text(encoding="utf-8")
        self.assertEqual(page.count(f'<p class="error">T{SUSPENDED.format(5)[1:]}.</p>'), 1)
        self.assertEqual(page.count(IN_FILES.format("1 file")), 1)

    def test_documents_have_nothing_new(self) -> None:
        self.write("silent.py", SILENT)
        done = self.check("--output", "json", "silent.py")
        self.assertNotIn("suspended", json.dumps(json.loads(done.output)))
        for form in ("gitlab", "sarif", "junit", "github"):
            output = self.check("--output", form, "silent.py").output
            self.assertNotIn("is suspended", output, form)
