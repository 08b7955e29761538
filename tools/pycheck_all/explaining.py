"""The texts about one code, or about all codes, as people and programs read them."""
from __future__ import annotations

from typing import Any, Dict, List

from . import codes, left_out
from .texts import json_of

ALL = "all"
FORMAT = 1


def lines(code: str, form: str, width: int) -> List[str]:
    """Returns the entry of a code, or a list of all codes; with the form `json` as a document."""
    if form == "json":
        return document(code).split("\n")
    return listed() if code == ALL else codes.explained(code, width).splitlines()


def listed() -> List[str]:
    """Returns a line for each code: the code, its label or title, and its meaning."""
    width = max(len(codes.title_of(it)) for it in codes.entries())
    return [f"{code:<3}  {codes.title_of(code):<{width}}  {it.meaning}" for code, it in codes.entries().items()]


def document(code: str) -> str:
    """Returns the document of a code, or of all codes, in the order of the page."""
    chosen = list(codes.entries()) if code == ALL else [code]
    return json_of({"format": FORMAT, "codes": [of_code(it) for it in chosen]})


def of_code(code: str) -> Dict[str, Any]:
    """Returns the texts about a code. `instead` says how to mend it, `rows` what to write in place of each form."""
    entry = codes.entries()[code]
    return {
        "code": code,
        "title": codes.title_of(code),
        "kind": entry.kind,
        "meaning": entry.meaning,
        "run": entry.run,
        "instead": entry.mend,
        "rows": [{"of": it.form, "write": it.write} for it in left_out.rows().values() if code in it.codes],
        "entry": entry.entry,
    }
