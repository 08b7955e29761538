"""Checks that each definition that the documents name is where they say.

    tools/check definitions

docs/DEFINITIONS.md says `NAME`, `NAME` in [CRATE/specs/FILE.antt](LINK): the file defines these names. Each code of a report
and of a refusal has a row there, which begins with the code. These rows are complete: of the files that they name, each definition
that mentions a code is in the row of that code. A table in the README of a crate, or in docs/DEFINITIONS.md under
a heading that names the crate, has rows | .. `NAME` .. | specs/FILE.antt, .. | .. |: one of the files defines each name.
Each file that these pages name exists: the target of each link, each path specs/FILE.antt, proofs/FILE.antt and src/FILE.rt,
which is one of the page's crate unless `CRATE` or CRATE/ precedes it, and each name in the column File of a table whose
first column that is, which is proofs/NAME.antt. All other pages of docs/, README.md and CONTRIBUTING.md say `NAME`, `NAME` in
[TEXT](LINK), where LINK is a file *.antt: it defines these names. Of an application, as `Explains module finding detail`, the
first word is the name.

Prints each name, file and code that is missing, and last how many names were found. The exit status is 1 if anything else
was printed, or if no name was found.
"""
from __future__ import annotations

import argparse
import functools
import glob
import os
import re
from typing import Dict, Iterator, List, Optional, Set, Tuple

from .. import ROOT
from ..antt_files import DEFINED
from .codes import CODES

PAGE = os.path.join("docs", "DEFINITIONS.md")
NAMES = re.compile(r"((?:`[^`]+`, )*`[^`]+`) in \[(\w+/specs/[\w/]+\.antt)\]\(([^)]+)\)")
BESIDE = re.compile(r"((?:`[^`]+`(?:,|,? and)\s+)*`[^`]+`)\s+(?:in|of)\s+\[[^\]]+\]\(([^)#\s]+\.antt)\)")
NAME = re.compile(r"`([^`]+)`")
CELLS = re.compile(r"(?<!\\)\|")
FILE = re.compile(r"\b(?:specs|proofs)/[\w/]+\.antt")
LINK = re.compile(r"\]\(([^)#\s]+)(?:#[^)]*)?\)")
# A crate before a path, as `CRATE`, or as a folder; and the path inside that crate
PATH = re.compile(r"(?:`(\w+)`, )?(?<![\w/.])(?:crates/)?(?:(\w+)/)?((?:specs|proofs)/[\w/]+\.antt|src/[\w/]+\.rt)")
# A definition that orders all codes and finds none
ORDERS = {"code_rank"}
OF_CODE = re.compile(r"(?<![\w'.])([SLING]\d|E\d\d|A\d)(?![\w'])")


@functools.cache
def defined_in(path: str) -> Optional[Set[str]]:
    """Returns the names that a file defines, or None if it does not exist."""
    try:
        with open(os.path.join(ROOT, path), encoding="utf-8") as file:
            return {found[2] for found in map(DEFINED.match, file) if found}
    except FileNotFoundError:
        return None


def faults_of(at: str, names: List[str], paths: List[str]) -> List[str]:
    """Returns a line for each file that is missing, and for each name that none of the files defines."""
    missing = [path for path in paths if defined_in(path) is None]
    if missing:
        return [f"{at}: there is no {path}" for path in missing]
    known = {name for path in paths for name in defined_in(path) or ()}
    return [f"{at}: {name} is not in {', '.join(paths)}" for name in names if name not in known]


def sites_in(path: str) -> Iterator[Tuple[str, str]]:
    """Yields each code that a definition of a file mentions, with the name of that definition."""
    name, in_record = "", False
    with open(os.path.join(ROOT, path), encoding="utf-8") as file:
        for line in file:
            found = DEFINED.match(line)
            words = found[1].split() if found else []
            # Below the head of a record an indented `pub NAME` is a field of it, and elsewhere a definition
            if found and not (in_record and words == ["pub"] and line[0] == " "):
                name, in_record = found[2], "record" in words
            if not re.match(r"\s*(?:use |--)", line) and name not in ORDERS:
                yield from ((code, name) for code in OF_CODE.findall(line.split("--")[0]) if code in CODES)


def faults_of_rows() -> List[str]:
    """Returns a line for each definition that mentions a code and is not in the row of that code."""
    rows: Dict[str, Set[Tuple[str, str]]] = {}
    with open(os.path.join(ROOT, PAGE), encoding="utf-8") as file:
        for line in file:
            code = re.match(r"\| `([SLINGEA]\d+)` \|", line)
            if code:
                listed = [(os.path.join("crates", path), NAME.findall(names)) for names, path, _ in NAMES.findall(line)]
                rows[code[1]] = {(path, name) for path, names in listed for name in names}
    paths = sorted({path for row in rows.values() for path, _ in row if defined_in(path) is not None})
    sites = {(code, path, name) for path in paths for code, name in sites_in(path)}
    return [f"{PAGE}: the row of {code} lacks {name} of {path}"
            for code, path, name in sorted(sites) if (path, name) not in rows.get(code, set())]


def index_of(line: str, at: str) -> Tuple[List[str], List[str]]:
    """Returns the names in a line of the index, and its faults."""
    names: List[str] = []
    faults: List[str] = []
    for listed, path, link in NAMES.findall(line):
        path = os.path.join("crates", path)
        if os.path.normpath(os.path.join(os.path.dirname(PAGE), link)) != path:
            faults.append(f"{at}: the link {link} is not to {path}")
        here = NAME.findall(listed)
        names += here
        faults += faults_of(at, here, [path])
    return names, faults


def row_of(line: str, at: str, crate: Optional[str]) -> Tuple[List[str], List[str]]:
    """Returns the names in a row of a table of a crate's definitions, and its faults."""
    cells = CELLS.split(line)
    paths = FILE.findall(cells[2]) if len(cells) > 3 else []
    if not paths or not crate:
        return [], []
    names = NAME.findall(cells[1])
    return names, faults_of(at, names, [os.path.join("crates", crate, path) for path in paths])


def files_in(line: str, page: str, crate: Optional[str]) -> Iterator[str]:
    """Yields the files that a line of a page names by a link or a path, each as a path from the top of the
    repository."""
    for target in LINK.findall(line):
        if "://" not in target:
            yield os.path.normpath(os.path.join(os.path.dirname(page), target))
    for before, folder, path in PATH.findall(line):
        named = before if os.path.isdir(os.path.join(ROOT, "crates", before)) else ""
        if folder or named or crate:
            yield os.path.join("crates", folder or named or str(crate), path)


class Table:
    """The table around a line of a page: whether its first column has names of files of proofs."""

    def __init__(self) -> None:
        self.head: Optional[str] = None

    def files_in(self, line: str, crate: Optional[str]) -> List[str]:
        """Returns the files of proofs that a further line of the page names in such a column."""
        cells = [cell.strip() for cell in CELLS.split(line)]
        if len(cells) < 3 or cells[0]:
            self.head = None
            return []
        if self.head is None:
            self.head = cells[1]
            return []
        if self.head != "File" or not crate or not cells[1].strip("-"):
            return []
        names = [name.strip() for name in cells[1].split(",")]
        return [os.path.join("crates", crate, "proofs", f"{name}.antt") for name in names if "." not in name]


def read(page: str, crate: Optional[str]) -> Tuple[List[str], List[str], List[str]]:
    """Returns the names on a page, the codes that its rows begin with, and its faults."""
    names: List[str] = []
    codes: List[str] = []
    faults: List[str] = []
    table = Table()
    with open(os.path.join(ROOT, page), encoding="utf-8") as file:
        for number, line in enumerate(file, 1):
            at = f"{page}, line {number}"
            if line.startswith("#") and page == PAGE:
                crate = (re.findall(r"crates/(\w+)", line) or [None])[0]
            found = index_of(line, at) if NAMES.search(line) else row_of(line, at, crate)
            files = [*files_in(line, page, crate), *table.files_in(line, crate)]
            names += found[0]
            faults += found[1]
            faults += [f"{at}: there is no {path}" for path in files if not os.path.exists(os.path.join(ROOT, path))]
            codes += re.findall(r"^\| `([SLINGEA]\d+)` \|", line)
    return names, codes, list(dict.fromkeys(faults))


def pages() -> Iterator[str]:
    """Yields the pages that name definitions beside links to their files, and have no index."""
    found = [path for path in (ROOT / "docs").glob("*.md") if path != ROOT / PAGE]
    found += [path for path in (ROOT / "README.md", ROOT / "CONTRIBUTING.md") if path.exists()]
    return (os.path.relpath(path, ROOT) for path in sorted(found))


def beside_links(page: str) -> Tuple[List[str], List[str]]:
    """Returns the names that a page has beside links to files of definitions, and its faults."""
    text = (ROOT / page).read_text(encoding="utf-8")
    names: List[str] = []
    faults: List[str] = []
    for found in BESIDE.finditer(text):
        here = [name.split()[0] for name in NAME.findall(found[1])]
        path = os.path.normpath(os.path.join(os.path.dirname(page), found[2]))
        names += here
        faults += faults_of(f"{page}, line {text.count(chr(10), 0, found.start()) + 1}", here, [path])
    return names, faults


def run(asked: argparse.Namespace) -> int:
    """Prints the faults, and returns the exit status."""
    names, codes, faults = read(PAGE, None)
    faults += [f"{PAGE}: {code} has no row" for code in CODES if code not in codes] + faults_of_rows()
    for readme in sorted(glob.glob(os.path.join(ROOT, "crates", "*", "README.md"))):
        crate = os.path.basename(os.path.dirname(readme))
        more, _, wrong = read(os.path.relpath(readme, ROOT), crate)
        names += more
        faults += wrong
    for page in pages():
        here, wrong = beside_links(page)
        names += here
        faults += wrong
    for fault in faults:
        print(fault)
    print(f"{len(names)} names, {len(faults)} faults")
    return 1 if faults or not names else 0
