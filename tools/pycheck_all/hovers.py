"""The advice in the hovers of the server: at each finding that of this command, in place of the sentence of its code.

A hover explains the findings at a position in their order, each in a block of its own that ends with the advice; blocks
of other kinds stand before them."""
from __future__ import annotations

import re
from typing import Any, List

from .findings import DYNAMIC, ERROR, REFUSED, Checked, Finding
from .messages import advice_of
from .positions import Position, position_of, shown
from .session import member

RULE, PARAGRAPH = "\n\n---\n\n", "\n\n"
HEADING = re.compile(r"\*\*([A-Z]\d+)\*\* ")
CODE = re.compile(r"(`[^`]*`)")
MARKS = re.compile(r"([\\`*_<\[])")


def advise(result: Any, given: Any, file: Checked, encoding: str) -> bool:
    """Puts the advice into the result of a hover at a position, given as the request has it. Returns whether there is
    any."""
    contents = member(result, "contents")
    said, line, character = member(contents, "value"), member(given, "line"), member(given, "character")
    if not isinstance(said, str) or not isinstance(line, int) or not isinstance(character, int):
        return False
    told = advised(said, file, explained(file, Position(line, character), encoding))
    contents["value"] = told
    return told != said


def explained(file: Checked, position: Position, encoding: str) -> List[Finding]:
    """Returns the findings that a hover at a position explains: those whose places have it or end there, or the refusal
    in the line."""
    found = []
    for it in file.findings:
        start, end = it.place
        if it.kind == REFUSED and shown(file.text, it.place).start.line - 1 == position.line:
            return [it]
        is_near = it.kind in (ERROR, DYNAMIC) and start.line - 1 <= position.line <= end.line - 1
        if is_near and position_of(file.text, start, encoding) <= position <= position_of(file.text, end, encoding):
            found.append(it)
    return found


def advised(said: str, file: Checked, findings: List[Finding]) -> str:
    """Returns the text of a hover that explains these findings, with their advice; as it is if it explains others."""
    blocks = said.split(RULE)
    headings = [(at, found[1]) for at, found in enumerate(map(HEADING.match, blocks)) if found]
    if [code for _, code in headings] != [it.code for it in findings]:
        return said
    for (at, _), finding in zip(headings, findings):
        advice = in_markdown(advice_of(file, finding))
        before, _, general = blocks[at].rpartition(PARAGRAPH)
        if advice and before and general:
            blocks[at] = before + PARAGRAPH + advice
    return RULE.join(blocks)


def in_markdown(text: str) -> str:
    """Returns a sentence as Markdown that shows it: what stands between backquotes is code, and all else has no
    marks."""
    return "".join(it if at % 2 else MARKS.sub(r"\\\1", it) for at, it in enumerate(CODE.split(text)))
