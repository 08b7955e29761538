"""Compares the tokens and the trees of many texts, with their places, with those of Python's own `tokenize` and `ast`.

    tools/compare trees PROGRAM [--made N] [--seed WORD] [--tables SHARE] [--known FILE] [--reasons FILE] [FILE..]

asks PROGRAM, which is test_trees, for the tokens and the tree of each FILE, or without one of each module of examples/ and
cookbook/, of each form that docs/PROFILE.md leaves out, as examples/left_out.json has it, of each text of the tables of
crates/test_tables/data (with `--tables` every so many), and of `--made` N texts of the grammar, made by the generator of
tools/attack fuzz, and N that nearly fit. The same WORD, which is 1 without one, makes the same texts.

Of a text that the program takes, all rows must be those of Python: each token and mark of the layout with its bytes, each node with
its kind, its bytes, and its name, operator, digits or characters. Of a text that it refuses, its tokens must be the first of
Python's, and if Python takes the text, the refusal needs a reason: of the code G1 a row `left_out` of tests/python_texts/trees.json,
the known differences, and of another code a row of tests/python_texts/reasons.json (see `tools/compare texts`). The other rows of
the known differences are of texts that the program takes. Each row has words of docs/PROFILE.md, docs/LEXICAL.md or docs/CODES.md,
and

    left_out    a pattern `at` of what stands at the byte of the refusal, if need be a pattern `behind` of what stands before it,
                and `node`, classes of `ast` of which one has to be around that byte
    fault       a pattern of the fault that Python's parser has
    tokens      a pattern of the text, whose tokens `tokenize` splits in another way

A row that no text needs, and one whose words no page has, are wrong too. The tool prints each difference, and last how many texts,
tokens and nodes were compared. Status 1 where something is wrong, or nothing was compared; 3 after a mistake in the words.
"""
from __future__ import annotations

import ast
import collections
import json
import os
import re
import subprocess
import sys
import tempfile
import warnings
from pathlib import Path
from typing import Counter, Dict, Iterable, Iterator, List, NamedTuple, Optional, Sequence, Set, Tuple

from .. import ROOT
from ..words import Words
from . import texts
from .python_tokens import FAULTS, Text, token_of, tokens_of
from .python_tree import Tree, Unknown
from .texts import Named, Refusal

DATA = ROOT / "crates/test_tables/data"
LEFT_OUT = ROOT / "examples/left_out.json"
KNOWN = ROOT / "tests/python_texts/trees.json"
PAGES = (*texts.PAGES, ROOT / "docs/CODES.md")
MAIN = "def main():\n    pass\nmain()\n"
# The rest of a line behind a node
REST = re.compile(rb"[ \t]*(?:#[^\n]*)?")
# The files that the program is given at once
TOGETHER = 100


class Listing(NamedTuple):
    """What the program prints of a text: the rows of its tokens, those of its tree, and the refusal, if there is one."""

    tokens: List[str]
    nodes: List[str]
    refusal: Optional[Refusal]


# Texts


def completed(text: str) -> str:
    """Returns a module of a table with the header and the call of `main` that its runner adds."""
    before = "" if text.startswith("from __future__") else texts.HEADER
    if re.search(r"^main\(\)", text, re.MULTILINE):
        return before + text
    return before + text + ("main()\n" if re.search("^def main", text, re.MULTILINE) else MAIN)


def pieces_of(table: str) -> Iterator[str]:
    """Yields the texts of a table whose modules are parted by lines of dashes, each as it stands and completed."""
    for piece in re.split(r"^(?:----|====.*)\n", table, flags=re.MULTILINE):
        text = texts.written_out("".join(line for line in piece.splitlines(keepends=True) if not line.startswith("> ")))
        yield text
        yield completed(text)


def table_texts(each: int) -> Iterator[Named]:
    """Yields one in `each` of the texts of the tables. All that stands in a table is taken for a text: most are modules."""
    for file in sorted(DATA.rglob("*.*")):
        table = file.read_text(encoding="utf-8")
        framed = file.parent.name == "texts" and file.suffix == ".modules"
        body = table.partition("\n\n")[2] if framed else table
        rows = [(frame if framed else ("", ""), row) for frame, row in texts.rows_of(body)]
        found = [before + row + behind for (before, behind), row in rows] if rows else list(pieces_of(table))
        for at, text in enumerate(found):
            if at % each == 0 and len(text) < texts.LONGEST:
                yield f"{file.name} {at + 1}", text.encode()


def given_texts(each: int, seed: str, made: int) -> Iterator[Named]:
    """Yields all texts that are compared where no file is named."""
    for folder in ("examples", "cookbook"):
        for file in sorted((ROOT / folder).rglob("*.py")):
            yield file.name, file.read_bytes()
    for row in json.loads(LEFT_OUT.read_text(encoding="utf-8"))["rows"]:
        yield row["name"], row["input"]["text"].encode()
    yield from table_texts(each)
    yield from texts.made_texts(seed, made)


def once(named: Iterable[Named]) -> List[Named]:
    """Returns the texts, each once."""
    first: Dict[bytes, str] = {}
    for name, data in named:
        first.setdefault(data, name)
    return [(name, data) for data, name in first.items()]


# The program


def listings_in(output: str) -> Iterator[Listing]:
    """Yields the listings that an output of the program has, in the order of the files."""
    for part in re.split(r"^file \d+\n", output, flags=re.MULTILINE)[1:]:
        rows = part.splitlines()
        refused = re.fullmatch(r"refused (\w\d) (\d+)", rows[-1]) if rows else None
        kept = rows[:-1] if refused else rows
        tokens = [row for row in kept if row.startswith("token ")]
        yield Listing(tokens, kept[len(tokens):], (refused[1], int(refused[2])) if refused else None)


def listings_of(program: str, datas: Sequence[bytes]) -> Iterator[Listing]:
    """Yields what the program prints of each text."""
    for begin in range(0, len(datas), TOGETHER):
        part = datas[begin:begin + TOGETHER]
        with tempfile.TemporaryDirectory() as room:
            for at, data in enumerate(part):
                Path(room, str(at)).write_bytes(data)
            done = subprocess.run([program, *map(str, range(len(part)))], cwd=room, capture_output=True)
        found = list(listings_in(done.stdout.decode()))
        if done.returncode or len(found) != len(part):
            counts = f"status {done.returncode}, {len(found)} of {len(part)} listings"
            raise SystemExit(f"compare trees: {counts}, {done.stderr[-300:]!r}")
        yield from found


# The known differences


class Known:
    """The rows of known differences, and how often each was needed."""

    def __init__(self, file: Path) -> None:
        self.rows = json.loads(file.read_text(encoding="utf-8"))
        self.needed: Counter[int] = collections.Counter()

    def has(self, kind: str, *patterns: str) -> bool:
        """Returns whether a row of a kind has a pattern for what it says of a text."""
        for at, row in enumerate(self.rows):
            if row["kind"] == kind and any(re.search(row["pattern"], text, re.DOTALL) for text in patterns):
                self.needed[at] += 1
                return True
        return False

    def leaves_out(self, tree: ast.Module, text: Text, byte: int) -> bool:
        """Returns whether a row has the form that stands at a byte, and that the profile leaves out."""
        rest, before = (part.decode(errors="replace") for part in (text.data[byte:], text.data[:byte]))
        around = classes_around(tree, text, byte)
        for at, row in enumerate(self.rows):
            if (row["kind"] == "left_out" and around & set(row["node"].split("|")) and re.match(row["at"], rest, re.DOTALL)
                    and re.search(row.get("behind", "") + r"\Z", before, re.DOTALL)):
                self.needed[at] += 1
                return True
        return False

    def faults(self) -> Iterator[str]:
        """Yields the faults of the list itself."""
        page = " ".join(" ".join(page.read_text(encoding="utf-8") for page in PAGES).split())
        for at, row in enumerate(self.rows):
            if row["page"] not in page:
                yield f"no page has {row['page']!r}, which a known difference cites"
            if not self.needed[at]:
                yield f"no text needs the known difference {json.dumps(row)}"


def classes_around(tree: ast.Module, text: Text, byte: int) -> Set[str]:
    """Returns what is around a byte, or ends at it but for blanks and a comment: the names of the classes of nodes; behind the word
    `item` that of an item of the module, and behind `member` that of a member of a class; and the words `default` and
    `annotation`."""
    found = {"Module"}

    def add(word: str, nodes: Iterable[Optional[ast.AST]]) -> None:
        for node in nodes:
            if isinstance(node, (ast.expr, ast.stmt, ast.arg, ast.keyword)):
                start, end = text.place(node)
                # The decorators of a class stand before its place
                first = [text.place(each)[0] - 1 for each in getattr(node, "decorator_list", ())]
                rest = REST.match(text.data, end)
                if min([start, *first]) <= byte <= (rest.end() if rest else end):
                    found.add(word.format(type(node).__name__))

    add("item {}", tree.body)
    for node in ast.walk(tree):
        add("{}", [node])
        if isinstance(node, ast.ClassDef):
            add("member {}", node.body)
            add("default", (each.value for each in node.body if isinstance(each, ast.AnnAssign)))
        elif isinstance(node, ast.arguments):
            add("default", node.defaults)
        add("annotation", [getattr(node, "annotation", None), getattr(node, "returns", None)])
    return found


# Comparing


def first_difference(ours: Sequence[str], theirs: Sequence[str]) -> str:
    """Returns the first row at which two lists differ."""
    for at in range(max(len(ours), len(theirs))):
        one, other = (rows[at] if at < len(rows) else "nothing" for rows in (ours, theirs))
        if one != other:
            return f"{one!r}, and Python has {other!r}"
    return ""


class Comparison:
    """The lists of known differences, and what was counted."""

    def __init__(self, known: Known, reasons: texts.Reasons) -> None:
        self.known, self.reasons = known, reasons
        self.counts: Counter[str] = collections.Counter()

    def tokens_differ(self, listing: Listing, theirs: Sequence[str], data: bytes) -> str:
        """Returns how the tokens of a text differ, if that is not known."""
        rows = theirs if listing.refusal is None else theirs[:len(listing.tokens)]
        self.counts["tokens"] += len(listing.tokens)
        said = first_difference(listing.tokens, rows)
        return "" if said and self.known.has("tokens", data.decode(errors="replace")) else said

    def taken(self, listing: Listing, tree: Tree, parsed: Optional[ast.Module], fault: str) -> str:
        """Returns what is wrong with the tree of a text that the program takes."""
        if parsed is None:
            return "" if self.known.has("fault", fault) else f"the program takes it, and Python says {fault}"
        try:
            tree.module(parsed)
        except (Unknown, KeyError, IndexError) as unknown:
            return f"the program takes it, and Python has {unknown}"
        self.counts["nodes"] += len(listing.nodes)
        return first_difference(listing.nodes, tree.rows)

    def refused(self, refusal: Refusal, text: Text, parsed: ast.Module) -> str:
        """Returns what is wrong with the refusal of a text that Python takes."""
        code, byte = refusal
        self.counts["refused by the program alone"] += 1
        if self.known.leaves_out(parsed, text, byte) if code == "G1" else self.reasons.of(code, text.data, byte) is not None:
            return ""
        near = f"{text.data[max(0, byte - 40):byte]!r} {text.data[byte:byte + 30]!r}"
        around = sorted(classes_around(parsed, text, byte))
        return f"Python takes it, and the program refuses {code} at byte {byte}: {near}, in {around}"

    def text(self, data: bytes, listing: Listing) -> Iterator[str]:
        """Yields what is wrong with the listing of a text."""
        self.counts["texts"] += 1
        text = Text(data)
        tokens, untokenized = tokens_of(text)
        parsed, fault = None, ""
        try:
            parsed = ast.parse(data)
        except FAULTS as found:
            fault = f"{type(found).__name__}: {found}"
        yield self.tokens_differ(listing, [token.row() for token in tokens], data)
        if listing.refusal is None:
            self.counts["taken"] += 1
            # Where the tokens differ, those of the program are where `ast` has its places
            yield self.taken(listing, Tree(text, [token_of(row) for row in listing.tokens]), parsed, fault)
        elif parsed is not None and untokenized is None:
            yield self.refused(listing.refusal, text, parsed)

    def all(self, program: str, named: Sequence[Named]) -> bool:
        """Compares all texts, and prints what is wrong. Returns whether nothing is."""
        wrong = 0
        for (name, data), listing in zip(named, listings_of(program, [data for _, data in named])):
            for said in filter(None, self.text(data, listing)):
                wrong += 1
                print(f"{name}: {said}")
                print(data.decode(errors="backslashreplace") if len(data) < 400 else repr(data[:60]))
        faults = [*self.known.faults(), *self.reasons.faults()]
        print("".join(fault + "\n" for fault in faults), end="")
        kinds = ("texts", "taken", "refused by the program alone", "tokens", "nodes")
        print(", ".join(f"{kind} {self.counts[kind]}" for kind in kinds) + f"; {wrong} differences")
        return self.counts["texts"] > 0 and not wrong and not faults


def main(words: List[str]) -> int:
    """Compares the texts that the words name, and returns the exit status."""
    parser = Words("tools/compare trees", __doc__)
    parser.add_argument("program")
    parser.add_argument("--made", type=int, default=0)
    parser.add_argument("--seed", default="1")
    parser.add_argument("--tables", type=int, default=1)
    parser.add_argument("--known", type=Path, default=KNOWN)
    parser.add_argument("--reasons", type=Path, default=texts.REASONS)
    parser.add_argument("files", nargs="*", type=Path)
    given = parser.parse_intermixed_args(words)
    if not os.access(given.program, os.X_OK):
        print(f"compare trees: there is no program {given.program}", file=sys.stderr)
        return 3
    warnings.simplefilter("ignore")
    named = [(file.name, file.read_bytes()) for file in given.files] or once(given_texts(given.tables, given.seed, given.made))
    reasons = texts.Reasons(given.reasons, " ".join(page.read_text(encoding="utf-8") for page in texts.PAGES))
    return 0 if Comparison(Known(given.known), reasons).all(os.path.abspath(given.program), named) else 1
