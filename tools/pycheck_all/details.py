"""What is wrong at the findings of a report: the sentences of the program, and the other places that they are about."""
from __future__ import annotations

from typing import Any, Optional

from .findings import Detail, Finding
from .source import Text

# The words for the other places, by the codes whose details name some
OTHERS = {
    "A8": "the method that is overridden",
    "E01": "the earlier one",
    "E02": "the local of another function",
    "E03": "the definition",
    "E04": "a binding",
    "E06": "the earlier member",
    "E07": "the definition",
    "E08": "the field with a default",
    "E09": "the meaning of the name",
    "E11": "the method that is overridden",
    "E24": "the earlier binding",
    "E28": "the name",
    "E30": "the statement before",
    "E31": "the parameter with a default",
}


def detail_of(row: Any, text: Text) -> Optional[Detail]:
    """Returns the detail in a row of a report of a text; None if it has none. Raises KeyError, TypeError or ValueError
    if it has an unknown form, and IndexError if the text has no such places."""
    if "detail" not in row:
        return None
    said, places = row["detail"]["text"], row["detail"]["places"]
    if not isinstance(said, str) or not said:
        raise ValueError("a detail has no sentence")
    said.encode()
    return Detail(said, tuple(text.at(int(it["line"]), int(it["column"])) for it in places))


def seen(finding: Finding) -> str:
    """Returns the other places of a finding in words, to follow its sentence; empty if it has none."""
    others = finding.detail.others if finding.detail else ()
    places = ", ".join(f"{it.line}:{it.column}" for it in others)
    return f", see {places}" if places else ""


def name_of_others(finding: Finding) -> str:
    """Returns the words for the other places of a finding."""
    return OTHERS.get(finding.code, "another place")
