"""Texts as they are printed. The content of a name, a line of source or a baseline cannot control the terminal, begin a
line
of its own, change the direction of writing, or give a command to a system that reads the output."""
from __future__ import annotations

import json
import re
from typing import Any

# C0, DEL and C1; the ends of lines and paragraphs of Unicode; its controls of direction; and halves of characters, of
# which those from DC80 to DCFF mean bytes of a name that are not UTF-8
CONTROLS = "\x00-\x1f\x7f-\x9f\u2028\u2029\u061c\u200e\u200f\u202a-\u202e\u2066-\u2069\ud800-\udfff"
CONTROL = re.compile(f"[{CONTROLS}]")
COLOUR = re.compile("(\x1b\\[[0-9;]*m)")
# CI systems take commands from any place of a line that has this: `##[`, `##vso[`
MARK = re.compile(r"(##\w*)\[")


class Command(str):
    """A line that is meant as a command of GitHub Actions, and therefore begins with two colons."""


def escape_of(found: "re.Match[str]") -> str:
    """Returns a control character in letters."""
    character = found[0]
    if "\udc80" <= character <= "\udcff":
        return f"\\x{ord(character) - 0xDC00:02x}"
    return character.encode("unicode_escape").decode()


def plain(text: str) -> str:
    """Returns a text with its control characters written as `\\xNN` and the like, so that it is a part of one line."""
    return CONTROL.sub(escape_of, text)


def line(text: str, coloured: bool = False) -> str:
    """Returns a line as it is printed; if it is coloured, its colours stay."""
    parts = COLOUR.split(text) if coloured else [text]
    safe = "".join(part if at % 2 else plain(part) for at, part in enumerate(parts))
    if isinstance(text, Command):
        return safe
    if COLOUR.sub("", safe).lstrip().startswith("::"):
        safe = safe.replace(":", "\\x3a", 1)
    return MARK.sub(r"\1\\x5b", safe)


def json_of(whole: Any) -> str:
    """Returns a document in JSON, in printable ASCII: other characters are escaped, as JSON has it."""
    return MARK.sub(r"\1\\u005b", json.dumps(whole, indent=1))
