"""Dynamic places that follow from an error, in the diagnostics of a module: they are named in the diagnostic of that
error, and have none of their own. The findings are read from the diagnostics, which have the code and the place of
each."""
from __future__ import annotations

from typing import Any, Dict, List, Optional

from . import following
from .findings import DYNAMIC, ERROR, Checked, Detail, Finding
from .positions import Position, byte_at
from .session import member
from .shown import Client
from .source import Text

NAME = "module.py"
KINDS = {"E": ERROR, "A": DYNAMIC}


def gather(diagnostics: Any, client: Client) -> bool:
    """Takes the diagnostics of places that follow from an error out of the list, and adds them to that of the error.
    Returns whether there are any. If one of the list is not that of a finding at its place, all stay as they are."""
    if not isinstance(diagnostics, list) or not has_both(diagnostics):
        return False
    text = Text(client.document.text or b"")
    findings = findings_of(diagnostics, text, client.encoding)
    file = Checked(NAME, findings, text)
    under = following.followed(file)
    for at, numbers in under.items():
        add(diagnostics[at], following.sentence(file, numbers), [diagnostics[it] for it in numbers], client)
    beneath = {it for numbers in under.values() for it in numbers}
    diagnostics[:] = [it for at, it in enumerate(diagnostics) if at not in beneath]
    return bool(under)


def has_both(diagnostics: List[Any]) -> bool:
    """Whether there are an error and a dynamic place among the diagnostics."""
    return {kind_of(it) for it in diagnostics} >= {ERROR, DYNAMIC}


def kind_of(diagnostic: Any) -> str:
    """Returns the kind of the finding that a diagnostic shows; empty if it shows no finding of a report."""
    code = member(diagnostic, "code")
    return KINDS.get(code[:1], "") if isinstance(code, str) else ""


def findings_of(diagnostics: List[Any], text: Text, encoding: str) -> List[Finding]:
    """Returns the findings that diagnostics show; none if one of them shows no finding at a place of the text."""
    found = [finding_of(it, text, encoding) for it in diagnostics]
    return [] if None in found else [it for it in found if it]


def finding_of(diagnostic: Any, text: Text, encoding: str) -> Optional[Finding]:
    """Returns the finding that a diagnostic shows; None if it shows none at a place of the text."""
    kind, message = kind_of(diagnostic), member(diagnostic, "message")
    span = member(diagnostic, "range")
    start, end = (byte_of(member(span, it), text, encoding) for it in ("start", "end"))
    if not kind or not isinstance(message, str) or start is None or end is None or end < start:
        return None
    return Finding(kind, diagnostic["code"], text.place(start, end), detail=Detail(message))


def byte_of(given: Any, text: Text, encoding: str) -> Optional[int]:
    """Returns the byte at a position, given as a message has it; None if the text has no such position."""
    line, character = member(given, "line"), member(given, "character")
    if not isinstance(line, int) or not isinstance(character, int):
        return None
    return byte_at(text, Position(line, character), encoding)


def add(diagnostic: Dict[str, Any], sentence: str, others: List[Dict[str, Any]], client: Client) -> None:
    """Adds to the diagnostic of an error a sentence about the places that follow from it and, if the editor accepts
    related information, their diagnostics."""
    said = diagnostic["message"]
    diagnostic["message"] = f"{said}{'' if said.endswith('.') else '.'} {sentence}"
    if client.related:
        made = [
            {
                "location": {"uri": client.document.uri, "range": it["range"]},
                "message": f"{it['code']}: {it['message']}",
            }
            for it in others
        ]
        known = diagnostic.get("relatedInformation")
        diagnostic["relatedInformation"] = [*(known if isinstance(known, list) else []), *made]
