"""The texts of the codes, as the page of codes has them."""
from __future__ import annotations

import functools
import json
import re
from pathlib import Path
from typing import Dict, List, NamedTuple, Optional

from . import left_out
from .spots import Spot

TEXTS = Path(__file__).with_name("codes.json")
LINK = re.compile(r"\[([^\]]+)\]\([^)]*\)")


class Entry(NamedTuple):
    """The entry of the page for a code; `run` says what an error is in a run."""

    title: str
    kind: str
    meaning: str
    run: str
    mend: str
    entry: str


@functools.lru_cache(maxsize=None)
def entries() -> Dict[str, Entry]:
    """Returns the entry of each code, in the order of the page; empty if the texts are missing."""
    try:
        return {code: Entry(**it) for code, it in json.loads(TEXTS.read_text(encoding="utf-8")).items()}
    except OSError:
        return {}


def named(word: str) -> str:
    """Returns the code that a word names as the code itself, its label or its title, in any case; empty if it names
    none."""
    if word.upper() in entries():
        return word.upper()
    return next((code for code, it in entries().items() if it.title.lower() == word.lower()), "")


def title_of(code: str) -> str:
    """Returns the label of an error or a dynamic place, or the title of a refusal. Empty for a code without an
    entry."""
    entry = entries().get(code)
    if entry is None:
        return ""
    keep = entry.kind != "refused" or entry.title.startswith("UTF")
    return entry.title if keep else entry.title[0].lower() + entry.title[1:]


def anchor_of(code: str) -> str:
    """Returns the anchor of the entry of a code on the page: the code and its title, in small letters. Empty for a code
    without an entry."""
    entry = entries().get(code)
    return f"{code} {entry.title}".lower().replace(" ", "-") if entry else ""


def meaning_of(code: str) -> str:
    """Returns what the code means, in words."""
    entry = entries().get(code)
    return entry.meaning if entry else ""


def mending_of(code: str, spot: Optional[Spot] = None) -> str:
    """Returns a sentence that says how to mend the code. If the spot has a form that the page of the profile leaves
    out, it says what to write instead."""
    entry = entries().get(code)
    if entry is None:
        return ""
    row = left_out.row_of(code, spot) if spot else None
    if row is None:
        return entry.mend
    return left_out.sentence(row)


def explained(code: str, width: int) -> str:
    """Returns the entry of a code as lines of at most `width` characters, except in modules and tables."""
    entry = entries()[code]
    heading = f"{code} {entry.title}"
    blocks = [heading + "\n" + "=" * len(heading)]
    text = entry.entry
    for part in re.split(r"(^```.*?^```$)", text, flags=re.MULTILINE | re.DOTALL):
        if part.startswith("```"):
            blocks.append("\n".join(("    " + line).rstrip() for line in part.splitlines()[1:-1]))
        else:
            blocks += [plain(paragraph, width) for paragraph in part.split("\n\n") if paragraph.strip()]
    return "\n\n".join(blocks) + "\n"


def plain(paragraph: str, width: int) -> str:
    """Returns a paragraph, a list or a table of the page, without marks."""
    import textwrap

    lines = LINK.sub(r"\1", paragraph).replace("**", "\0").split("\n")
    lines = [line.replace("\0", "") if "`" not in line else unmarked(line) for line in lines if line.strip()]
    if lines[0].startswith("|"):
        return table(lines)
    return textwrap.fill(" ".join(lines), width, break_long_words=False, break_on_hyphens=False)


def unmarked(line: str) -> str:
    """Returns a line without its marks for bold text; two stars in backquotes stay."""
    parts = line.split("`")
    return "`".join(part.replace("\0", "**" if at % 2 else "") for at, part in enumerate(parts))


def table(lines: List[str]) -> str:
    """Returns a table with its columns below one another."""
    rows = [[cell.strip().replace("\\|", "|") for cell in re.split(r"(?<!\\)\|", line)[1:-1]] for line in lines]
    rows = [row for row in rows if not all(set(cell) <= set("-:") for cell in row)]
    widths = [max(len(row[at]) for row in rows) for at in range(len(rows[0]))]
    rows.insert(1, ["-" * width for width in widths])
    return "\n".join("  ".join(cell.ljust(width) for cell, width in zip(row, widths)).rstrip() for row in rows)
