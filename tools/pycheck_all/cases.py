"""The advice for the case of a finding, where the word at its place or the sentence of its detail tells more than its
code does.

The rows are data, made from a table of docs/CODES.md. The first row of the code whose words and whose sentence fit is
taken; a row without words fits all words, one without a sentence all details. For an attribute the word is its name,
with which its place ends; for all else it is the word with which the place begins. Words of two parts name what stands
around the place, as `situations` finds it. In a sentence words in capitals stand for any text, the same one wherever
they come again, and are put into the advice; None is the last member of a union there. Unions of the same members are
the same text, whatever their order."""
from __future__ import annotations

import functools
import json
import re
from pathlib import Path
from typing import Dict, List, NamedTuple, Optional, Tuple

from . import situations, unions
from .findings import Checked, Finding
from .source import Place, Text

TEXTS = Path(__file__).with_name("cases.json")
ATTRIBUTE = "E15"
# How many bytes of a place are read: no word of a row is longer
LONGEST = 64
# How many characters a sentence has that is compared with the forms
LONGEST_SENTENCE = 1 << 12
FIRST = re.compile(rb"[\w\x80-\xff]+")
LAST = re.compile(rb"\.\s*([\w\x80-\xff]+)\Z")
CAPITALS = re.compile(r"(?<![A-Za-z])([A-Z]{2,})(?![A-Za-z])")
# What some of them stand for: a name, one that is no type of the profile, an operator
CLASS = r"(?!(?:int|str|bool|None|object|Any)\b)[^\W\d]\w*"
OPERATOR = r"\+|-|\*|//|%|[<>]=?|==|!="
SPECIAL = {"NAME": r"\w+", "CLASS": CLASS, "OPERATOR": OPERATOR}


class Case(NamedTuple):
    """A row of the page: a code, the words at whose places it means something else, the form of the sentence, and the
    advice for that case."""

    code: str
    words: List[str]
    detail: str
    write: str


@functools.lru_cache(maxsize=None)
def cases() -> Dict[str, List[Case]]:
    """Returns the rows of each code, in their order; empty if the texts are missing."""
    try:
        rows = [Case(**it) for it in json.loads(TEXTS.read_text(encoding="utf-8"))]
    except OSError:
        return {}
    return {code: [row for row in rows if row.code == code] for code in {row.code for row in rows}}


@functools.lru_cache(maxsize=None)
def pattern_of(form: str) -> "re.Pattern[str]":
    """Returns the pattern of a form of sentences."""
    made, named = [], set()
    for at, part in enumerate(CAPITALS.split(form)):
        if at % 2 == 0:
            made.append(re.escape(part))
        elif part in named:
            made.append(f"(?P={part})")
        else:
            named.add(part)
            made.append(f"(?P<{part}>{SPECIAL.get(part, '.+?')})")
    return re.compile("".join(made))


def word_at(code: str, text: Text, place: Place) -> str:
    """Returns the word that tells the case of an error at a place; empty if there is none."""
    start, end = place.start.byte, place.end.byte
    if code == ATTRIBUTE:
        found = LAST.search(text.data[max(start, end - LONGEST) : end])
        return found[1].decode("utf-8", "replace") if found else ""
    found = FIRST.match(text.data[start : min(end, start + LONGEST)])
    return found[0].decode("utf-8", "replace") if found else ""


def as_said(text: str, named: Dict[str, str]) -> Dict[str, str]:
    """Returns what words in capitals stand for, with each type as the sentence writes it."""
    written = unions.as_written(text)
    return {word: written.get(it, it) for word, it in named.items()}


def row_of(file: Checked, finding: Finding) -> Optional[Tuple[Case, Dict[str, str]]]:
    """Returns the first row that fits an error, and what its words in capitals stand for; None if no row fits."""
    text = finding.detail.text if finding.detail else ""
    said = unions.ordered(text) if len(text) <= LONGEST_SENTENCE else ""
    word = word_at(finding.code, file.text, finding.place)
    for row in cases().get(finding.code, []):
        found = pattern_of(row.detail).fullmatch(said) if row.detail else None
        if row.detail and found is None:
            continue
        named = {"NAME": word, **(as_said(text, found.groupdict()) if found else {})}
        if not row.words or word in row.words:
            return row, named
        around = row.words[0] if " " in row.words[0] else ""
        name = situations.found(around, file, finding) if around else None
        if name is not None:
            return row, {**named, **({"NAME": name} if name else {})}
    return None


def sentence(file: Checked, finding: Finding) -> str:
    """Returns the advice for the case of an error; empty if its code says everything."""
    row = row_of(file, finding)
    if row is None:
        return ""
    case, named = row
    return CAPITALS.sub(lambda found: named.get(found[1], found[1]), case.write)
