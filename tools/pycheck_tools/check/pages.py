"""Checks what the pages say about each other and about the files.

    tools/check pages

The pages are README.md, CONTRIBUTING.md, SECURITY.md, CHANGELOG.md, docs/*.md, and the README.md of release and of each crate.

- Each link to a file of the repository leads to a file or a folder that exists, and one with a `#` to a heading of that page.
- README.md has at most 8,192 bytes, so that it stays a first page.
- docs/MEASURED.md has figures of the present tree alone: it has none of the words `before`, `since`, `older`, `earlier`.
- A block `diff` of CONTRIBUTING.md is a change that may be made to the present tree: after a line `--- FILE` the hunks of
  the file follow, each from a line `@@` on, and in each the lines that stay and those that go are in that file once, one after another.

Prints each fault, and last how many links and hunks there are. The exit status is 1 if something is wrong, or if there is no
link or no hunk.
"""
from __future__ import annotations

import argparse
import re
from functools import lru_cache
from pathlib import Path
from typing import Iterator, List, NamedTuple, Set, Tuple

from .. import ROOT

FIRST, CHANGES, FIGURES = "README.md", "CONTRIBUTING.md", "docs/MEASURED.md"
PAGES = (FIRST, CHANGES, "SECURITY.md", "CHANGELOG.md", "docs/*.md", "release/README.md", "crates/*/README.md")
MOST_BYTES = 8_192
PAST = re.compile(r"\b(before|since|older|earlier)\b", re.IGNORECASE)
LINK = re.compile(r"\]\(([^)\s]+)\)")
FENCE = re.compile(r"\s*```(.*)")


class Hunk(NamedTuple):
    """A change on a page: the line of the page, the file, and the lines that stay and those that go."""
    at: int
    file: str
    old: List[str]


def pages() -> List[str]:
    """Returns the pages, each as a path from the top of the repository."""
    found = [path for pattern in PAGES for path in sorted(ROOT.glob(pattern))]
    return [path.relative_to(ROOT).as_posix() for path in found]


def lines_of(page: str) -> Iterator[Tuple[int, str, str]]:
    """Yields the lines of a page: the number of each, the kind of the block around it, or nothing, and its text."""
    kind = ""
    for number, line in enumerate((ROOT / page).read_text(encoding="utf-8").splitlines(), 1):
        fence = FENCE.fullmatch(line)
        if fence:
            kind = "" if kind else fence[1].strip() or "text"
        else:
            yield number, kind, line


@lru_cache(maxsize=None)
def anchors(page: str) -> Set[str]:
    """Returns the words that links may have after `#`: the headings of a page, in small letters, with hyphens for
    spaces, without other signs."""
    found: Set[str] = set()
    for _, kind, line in lines_of(page):
        if line.startswith("#") and not kind:
            plain = re.sub(r"\[([^\]]*)\]\([^)]*\)", r"\1", line.lstrip("#").strip()).lower()
            anchor = re.sub(r"[^\w\- ]", "", plain).replace(" ", "-")
            taken = sum(1 for other in found if re.fullmatch(re.escape(anchor) + r"(-\d+)?", other))
            found.add(f"{anchor}-{taken}" if anchor in found else anchor)
    return found


def fault_of_link(page: str, target: str) -> str:
    """Returns why a link of a page is wrong, or nothing."""
    path, _, anchor = target.partition("#")
    file = (ROOT / page).parent / path if path else ROOT / page
    if not file.exists():
        return f"there is no {path}"
    if anchor and file.suffix == ".md" and anchor not in anchors(file.resolve().relative_to(ROOT).as_posix()):
        return f"{path or page} has no heading #{anchor}"
    return ""


def links_of(page: str) -> Iterator[Tuple[int, str]]:
    """Yields the links of a page to files of the repository, and the line of each."""
    for number, kind, line in lines_of(page):
        if not kind:
            yield from ((number, target) for target in LINK.findall(re.sub(r"`[^`]*`", "", line)) if "://" not in target)


def hunks() -> List[Hunk]:
    """Returns the hunks of the page of changes."""
    found: List[Hunk] = []
    file = ""
    lines = list(lines_of(CHANGES)) if (ROOT / CHANGES).is_file() else []
    for (number, kind, line), (_, _, after) in zip(lines, [*lines[1:], (0, "", "")]):
        if kind != "diff":
            file = ""
        # A removed line may begin this way too, such as a comment of a definition
        elif line.startswith("--- ") and after.startswith("@@"):
            file = line[4:].strip()
        elif line.startswith("@@"):
            found.append(Hunk(number, file, []))
        elif file and found and line[:1] in (" ", "-", ""):
            found[-1].old.append(line[1:])
    return found


def fault_of_hunk(hunk: Hunk) -> str:
    """Returns why a hunk does not fit its file, or nothing."""
    path = ROOT / hunk.file
    if not hunk.file or not path.is_file():
        return f"there is no file {hunk.file or 'named before @@'}"
    old, lines = hunk.old, path.read_text(encoding="utf-8").splitlines()
    times = sum(1 for at in range(len(lines)) if lines[at:at + len(old)] == old) if old else 0
    return "" if times == 1 else f"the lines that stay and go stand {times} times in {hunk.file}"


def faults() -> Tuple[List[str], int, int]:
    """Returns the faults, and how many links and hunks there are."""
    found, count = [], 0
    for page in pages():
        for number, target in links_of(page):
            count += 1
            fault = fault_of_link(page, target)
            found += [f"{page}, line {number}: {fault}"] if fault else []
    size = (ROOT / FIRST).stat().st_size
    if size > MOST_BYTES:
        found.append(f"{FIRST} has {size} bytes, and {MOST_BYTES} are the most")
    if (ROOT / FIGURES).is_file():
        found += [f"{FIGURES}, line {number}: the word {word}" for number, _, line in lines_of(FIGURES) for word in PAST.findall(line)]
    changes = hunks()
    for hunk in changes:
        fault = fault_of_hunk(hunk)
        found += [f"{CHANGES}, line {hunk.at}: {fault}"] if fault else []
    return found, count, len(changes)


def run(_: argparse.Namespace) -> int:
    """Prints the faults, and returns the exit status."""
    found, links, changes = faults()
    for fault in found:
        print(fault)
    print(f"{links} links, {changes} changes, {len(found)} faults")
    return 0 if links and changes and not found else 1
