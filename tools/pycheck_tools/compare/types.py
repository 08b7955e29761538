"""Compares the types of expressions and of bound names by pycheck with those that mypy reveals.

    tools/compare types PYCHECK [PAGE [EXAMPLES]]

PAGE is docs/BESIDE_MYPY.md and EXAMPLES the folder examples where they are not named. mypy is the program of that name
on PATH, or the one that the variable MYPY names; it is run with the file mypy.ini of the page.

Compared are the examples in which neither program finds an error. Each expression that `pycheck --types` lists is
given to mypy as `reveal_type(EXPRESSION)`, and the two types are compared: a literal's type is that of its value, the
order of the members of a union does not count, and neither do the modules of names. An expression that mypy does not
get to has no type by mypy, `none`. Each is revealed in a copy of the module of its own, since mypy does not narrow by a
revealed expression, and gives one of two equal notes of a line. A bound name is revealed in a line of its own behind
its binding, and its current type is compared if it has another than the declared one; of a function the type that it
returns.

The page has a table with a row for each pair of types that differ: the type by pycheck, the type by mypy, the number
of places, and a reason; and rows `the same type` and `the same type of a bound name` with the numbers of those that
agree, as `90 of 102`. Where mypy has the version that the page names, each row must hold, and no pair may be missing.

Prints each pair that differs, with its number and with the first place that has it, and what is wrong with the page.
The exit status is 1 where something is wrong with the page, or where nothing was compared; 3 where a program cannot be
run.
"""
from __future__ import annotations

import ast
import json
import re
import tempfile
from collections import Counter
from pathlib import Path
from typing import Dict, Iterator, List, NamedTuple, Sequence, Set, Tuple

from .bound_names import Question, Questions
from .mypy import Failure, Page, Programs, compared, lines_of_mypy, read_page, run

REVEALED = re.compile(r'module\.py:(\d+):(\d+): note: Revealed type is "(.*)"')
LITERAL = re.compile(r"""Literal\[(?:(True|False)|(-?\d+)|('(?:[^'\\]|\\.)*'|"(?:[^"\\]|\\.)*"))\]\??""")
# The rows of the page with the numbers of those that agree, by their kind
AGREE = {"expression": "the same type", "name": "the same type of a bound name"}
CALL = b"reveal_type("
Place = Tuple[int, int]
Pair = Tuple[str, str]


class Listed(NamedTuple):
    """An expression or a bound name that pycheck lists: its bytes, its line, its kind, and its type."""

    place: Place
    line: int
    kind: str
    type: str


# Types


def canonical(node: ast.expr) -> str:
    """Returns a type in one spelling: the members of a union in order, each once."""
    if isinstance(node, ast.BinOp):
        return " | ".join(sorted(members(node)))
    if isinstance(node, ast.Subscript):
        head = canonical(node.value)
        parts = node.slice.elts if isinstance(node.slice, ast.Tuple) else [node.slice]
        if head == "Union":
            return " | ".join(sorted({member for part in parts for member in members(part)}))
        return f"{head.lower() if head == 'Tuple' else head}[{', '.join(map(canonical, parts))}]"
    return ast.unparse(node)


def members(node: ast.expr) -> Set[str]:
    """Returns the members of a union, or the type itself."""
    if isinstance(node, ast.BinOp):
        return members(node.left) | members(node.right)
    return set(canonical(node).split(" | "))


def of_literal(found: "re.Match[str]") -> str:
    """Returns the type of a literal's value."""
    return "bool" if found[1] else "int" if found[2] else "str"


def plain(text: str) -> str:
    """Returns a type as both programs would write it, or the text itself if it is not a type of the profile."""
    if text.startswith("def ("):
        text = text.rpartition(") -> ")[2]
    text = LITERAL.sub(of_literal, text)
    text = re.sub(r"\b(?:builtins|module\d*)\.", "", text).replace("<nothing>", "Never").replace("[()]", "[Empty]")
    try:
        return canonical(ast.parse(text, mode="eval").body)
    except SyntaxError:
        return text


# Revealing


class Copy(NamedTuple):
    """A copy of a module in which one type is revealed, with the line and the column where mypy says so."""

    text: bytes
    line: int
    column: int


def copy_of(text: bytes, place: Place) -> Copy:
    """Returns the copy in which the expression at this place is revealed."""
    before, after = text[: place[0]] + CALL, b")" + text[place[1] :]
    return Copy(before + text[slice(*place)] + after, before.count(b"\n") + 1, len(before) - before.rfind(b"\n"))


def copy_of_name(text: bytes, question: Question) -> Copy:
    """Returns the copy with the line that asks for a name."""
    lines = text.splitlines()
    lines.insert(question.line - 1, question.indent + CALL + question.asked.encode() + b")")
    return Copy(b"\n".join([*lines, b""]), question.line, len(question.indent) + len(CALL) + 1)


def copies_of(text: bytes, rows: Sequence[Listed]) -> Iterator[Tuple[Listed, Copy]]:
    """Yields the rows that mypy can be asked for, each with its copy of the module."""
    questions = Questions(text).found
    for row in rows:
        if row.kind == "expression":
            yield row, copy_of(text, row.place)
        elif row.place[0] in questions:
            yield row, copy_of_name(text, questions[row.place[0]])


def revealed(lines: Sequence[str], copy: Copy) -> List[str]:
    """Returns the types that mypy reveals for the expression: in a loop several, and none if mypy does not reach it."""
    notes = (REVEALED.fullmatch(line) for line in lines)
    found = {plain(note[3]) for note in notes if note and (int(note[1]), int(note[2])) == (copy.line, copy.column)}
    return sorted(found) or ["none"]


# Comparing


class Example(NamedTuple):
    """A module that both programs accept, with the expressions and the bound names that pycheck lists."""

    name: str
    text: bytes
    rows: List[Listed]


class Comparison:
    """The examples, and the pairs of types that differ, each with its places."""

    def __init__(self, programs: Programs) -> None:
        self.programs = programs
        self.examples = 0
        self.asked = Counter({kind: 0 for kind in AGREE})
        self.agreeing = Counter({kind: 0 for kind in AGREE})
        self.pairs: Dict[Pair, List[str]] = {}

    def listed(self, text: bytes) -> List[Listed]:
        """Returns the list of pycheck, or nothing if it finds an error or refuses the module."""
        words = [self.programs.pycheck, "--types", "--json", self.programs.file(text)]
        status, said, error = run(words, self.programs.folder)
        if status not in (0, 1, 2):
            raise Failure(f"pycheck ends with status {status}: {error}")
        rows = json.loads(said)["types"] if status == 0 else []
        return [Listed((row["start"], row["end"]), row["line"], row["kind"], row.get("current", row["type"]))
                for row in rows]

    def examples_in(self, folder: Path) -> List[Example]:
        """Returns the examples that both programs accept."""
        texts = {str(file.relative_to(folder)): file.read_bytes() for file in sorted(folder.rglob("*.py"))}
        found = [Example(name, text, self.listed(text)) for name, text in texts.items()]
        taken = [example for example in found if example.rows]
        answers = self.programs.answers([example.text for example in taken])
        return [example for example, lines in zip(taken, answers) if not lines_of_mypy(lines)]

    def compare(self, folder: Path) -> None:
        """Compares the types of each expression and bound name of the examples by both programs."""
        examples = self.examples_in(folder)
        self.examples = len(examples)
        asked = [(example, *pair) for example in examples for pair in copies_of(example.text, example.rows)]
        answers = self.programs.answers([copy.text for _, _, copy in asked], ["--show-column-numbers"])
        for (example, row, copy), lines in zip(asked, answers):
            self.take(f"{example.name}:{row.line}", row.kind, plain(row.type), revealed(lines, copy))

    def take(self, where: str, kind: str, ours: str, theirs: List[str]) -> None:
        """Records an expression or a name with its type by pycheck and its types by mypy."""
        self.asked[kind] += 1
        if theirs == [ours]:
            self.agreeing[kind] += 1
        else:
            self.pairs.setdefault((ours, " or ".join(theirs)), []).append(where)


def compare_page(page: Page, found: Comparison) -> None:
    """Compares the rows of the page with the pairs that were found."""
    typed = [row for row in page.rows if len(row.cells) == 4 and re.fullmatch("`[^`]+`", row.cells[0])]
    rows = {(plain(row.cells[0].strip("`")), row.cells[1].strip("`")): row for row in typed if row.cells[2].isdigit()}
    for pair, row in rows.items():
        if len(found.pairs.get(pair, [])) != int(row.cells[2]):
            page.fault(row.line, f"{pair[0]} beside {pair[1]}: {len(found.pairs.get(pair, []))} places")
    for pair in found.pairs:
        if pair not in rows:
            page.fault(0, f"{pair[0]} beside {pair[1]} is not on the page: {len(found.pairs[pair])} places")
    for kind, words in AGREE.items():
        agree = [row for row in page.rows if row.cells[0] == words]
        if not agree:
            page.fault(0, f"there is no row `{words}`")
        for row in agree:
            if row.cells[1:2] != [f"{found.agreeing[kind]} of {found.asked[kind]}"]:
                page.fault(row.line, f"{words}: {found.agreeing[kind]} of {found.asked[kind]}")


def compare(pycheck: str, file: Path, folder: Path) -> int:
    """Compares the types, and returns the exit status."""
    page = read_page(file.read_text(encoding="utf-8"))
    with tempfile.TemporaryDirectory() as work:
        programs = Programs(pycheck, work, page.config)
        found = Comparison(programs)
        found.compare(folder)
        if programs.version_of_mypy() == page.mypy:
            compare_page(page, found)
    if not found.asked["expression"]:
        page.fault(0, "nothing was compared: there are no examples that both programs take")
    for (ours, theirs), places in sorted(found.pairs.items()):
        print(f"{ours} beside {theirs}: {len(places)}, first {places[0]}")
    for line, text in sorted(page.faults):
        print(f"{file.name}:{line}: {text}" if line else f"{file.name}: {text}")
    counts = ", ".join(f"{found.asked[kind]} {kind}s, {found.agreeing[kind]} of which agree" for kind in AGREE)
    print(f"{found.examples} examples: {counts}; {len(page.faults)} wrong on the page")
    return 1 if page.faults else 0


def main(words: List[str]) -> int:
    """Compares the types of the examples, and returns the exit status."""
    return compared("types", __doc__, compare, words)
