"""Compares the answers of pycheck with those on the page of codes, or on another page.

    tools/check codes [--program PYCHECK] [--page PAGE]

The pages are README.md, docs/PROFILE.md, docs/CODES.md and docs/COOKBOOK.md if none is named. A page has modules, each
with its report, a block `text`, directly after it:

    python             the text of the module
    python-escaped     the same, in which escapes as \\x00 mean characters
    python-expression  an expression for its bytes: bytes literals and numbers, put together by + and *

Other blocks are ignored. A page CODES.md also has an entry for each code, under a heading `### CODE TITLE`, and the
first module of an entry is the one that shows the code.

Prints each module that is answered otherwise, and the faults of the page: a code without an entry, an entry that does not
show its code, a module without a report, a page without a module to compare. Last it says how many modules agree and how many
differ. The exit status is 1 if something was printed before that.
"""
from __future__ import annotations

import argparse
import ast
import os
from typing import Any, Callable, Dict, Iterable, Iterator, List, Optional, Tuple

from .. import ROOT
from ..compare.rows import FORMS, Answer, answer_of, show

# A module of a page: its line, its bytes and its report
Module = Tuple[int, bytes, str]
# The title and the modules of each entry of a page
Entries = Dict[str, Tuple[str, List[Module]]]

OF_CODES = "CODES.md"
PAGES = [ROOT / page for page in ("README.md", "docs/PROFILE.md", f"docs/{OF_CODES}", "docs/COOKBOOK.md")]
FAMILIES = [("S", 5, 1), ("L", 8, 1), ("I", 3, 1), ("N", 5, 1), ("G", 2, 1), ("E", 31, 2), ("A", 8, 1)]
CODES = [f"{letter}{number:0{digits}}" for letter, last, digits in FAMILIES for number in range(1, last + 1)]


def value_of(node: ast.expr) -> Any:
    """Returns the value of an expression of bytes literals, numbers, + and *."""
    if isinstance(node, ast.Constant) and type(node.value) in (bytes, int):
        return node.value
    if isinstance(node, ast.BinOp) and isinstance(node.op, (ast.Add, ast.Mult)):
        left, right = value_of(node.left), value_of(node.right)
        return left + right if isinstance(node.op, ast.Add) else left * right
    raise ValueError("an expression has something else than bytes literals, numbers, + and *")


def bytes_of_expression(text: str) -> bytes:
    """Returns the bytes of an expression."""
    return bytes(value_of(ast.parse(f"({text})", mode="eval").body))


def bytes_of_escaped(text: str) -> bytes:
    """Returns the bytes of a text with escapes."""
    return text.encode("ascii", "backslashreplace").decode("unicode_escape").encode()


KINDS: Dict[str, Callable[[str], bytes]] = {"python": str.encode, "python-escaped": bytes_of_escaped, "python-expression": bytes_of_expression}


def parts_of(page: Iterable[str]) -> Iterator[Tuple[int, str, str]]:
    """Yields the headings, the blocks and the other lines: the line where each begins, its kind, and its text."""
    lines = enumerate(page, 1)
    for at, line in lines:
        if line.startswith("```"):
            block = []
            for _, inner in lines:
                if inner.startswith("```"):
                    break
                block.append(inner)
            yield at, line[3:].strip(), "".join(block)
        elif line.startswith("#"):
            yield at, "heading", line
        elif line.strip():
            yield at, "other", line


def read_page(page: Iterable[str], name: str) -> Tuple[Entries, List[str]]:
    """Returns the entries, a title and modules for each code, and the faults of the page. A module is its line, bytes
    and report."""
    module: Optional[Tuple[int, bytes]] = None
    modules: List[Module] = []
    faults: List[str] = []
    entries: Entries = {name: ("", modules)}
    for at, kind, text in [*parts_of(page), (0, "end", "")]:
        if kind == "text" and module:
            modules.append((*module, text))
        elif kind == "text":
            faults.append(f"line {at}: a report without a module before it")
        elif module:
            faults.append(f"line {module[0]}: a module without a report after it")
        module = None
        if kind in KINDS:
            try:
                module = at, KINDS[kind](text)
            except (SyntaxError, TypeError, ValueError) as fault:
                faults.append(f"line {at}: a module that cannot be read: {fault}")
        elif kind == "heading" and text.startswith("### ") and name == OF_CODES:
            code, _, title = text[4:].strip().partition(" ")
            if code in entries or code not in CODES:
                faults.append(f"line {at}: {code} is no code, or has an entry already")
            modules = []
            entries[code] = title, modules
    return entries, faults


def shows(code: str, title: str, report: str) -> bool:
    """Whether the report has the code, an error or a dynamic place also with its label."""
    if code[0] in "EA":
        return any(line.split()[1:3] == [code, title] for line in report.splitlines())
    return report.startswith(f"refused {code} at byte ")


def faults_of_entries(entries: Entries) -> Iterator[str]:
    """Yields the faults of the entries of the codes."""
    for code in CODES:
        if code not in entries:
            yield f"{code}: there is no entry"
            continue
        title, modules = entries[code]
        if not modules or not shows(code, title, modules[0][2]):
            yield f"{code}: the first module does not show it"


def wanted(report: str) -> Answer:
    """Returns the expected exit status, standard output and standard error."""
    if report.startswith("refused "):
        return 2, "", report
    return (0 if "\nerrors 0," in "\n" + report else 1), report, ""


def compare(program: str, entries: Entries) -> Tuple[int, int]:
    """Returns how many modules agree, and how many differ."""
    agree = differ = 0
    for code, (_, modules) in entries.items():
        for at, text, report in modules:
            want, got = wanted(report), answer_of(program, text, FORMS["text2"])
            if got == want:
                agree += 1
            else:
                differ += 1
                show(f"{code}, line {at}", [("wanted", want), ("answered", got)])
    return agree, differ


def run(asked: argparse.Namespace) -> int:
    """Compares the modules of the pages, and returns the exit status."""
    agree = differ = wrong = 0
    for page in asked.page or PAGES:
        name = os.path.basename(page)
        with open(page, encoding="utf-8", newline="\n") as given:
            entries, faults = read_page(given, name)
        if name == OF_CODES:
            faults += faults_of_entries(entries)
        if not any(modules for _, modules in entries.values()):
            faults.append("there is no module with a report")
        for fault in faults:
            print(f"{name}: {fault}")
        wrong += len(faults)
        more_agree, more_differ = compare(os.path.abspath(asked.program), entries)
        agree, differ = agree + more_agree, differ + more_differ
    print(f"{agree} agree, {differ} differ")
    return 1 if wrong or differ else 0
