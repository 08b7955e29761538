"""The form `json`: one document with all findings."""
from __future__ import annotations

from typing import Any, Dict

from . import codes
from .findings import DYNAMIC, ERROR, GUIDE, REFUSED, Checked, Finding, Known, Project
from .messages import advice_of, name_meant
from .source import Point
from .texts import json_of, plain

FORMAT = 1


def point(it: Point) -> Dict[str, int]:
    """Returns a point of a text."""
    return {"byte": it.byte, "line": it.line, "column": it.column}


def of_finding(file: Checked, it: Finding) -> Dict[str, Any]:
    """Returns a finding or a refusal."""
    found: Dict[str, Any] = {"code": it.code, "kind": it.kind, "title": codes.title_of(it.code)}
    if it.kind in (ERROR, DYNAMIC):
        found["label"] = found["title"]
    found.update(start=point(it.place.start), end=point(it.place.end), known=it.known)
    if it.flow:
        found.update({"from": it.flow[0], "to": it.flow[1]})
    if it.detail:
        found["detail"] = {"text": it.detail.text, "places": [point(other) for other in it.detail.others]}
    meant = name_meant(file, it)
    if meant:
        found["meant"] = meant
    found["instead"] = advice_of(file, it)
    if it.opened:
        found["opened"] = point(it.opened.start)
    return found


def of_file(file: Checked, strict: bool) -> Dict[str, Any]:
    """Returns a file with its findings, or with why it was not checked."""
    found: Dict[str, Any] = {"path": plain(file.path), "status": file.status(strict)}
    if file.failure:
        found["failure"] = file.failure
    refusals = [of_finding(file, it) for it in file.findings if it.kind == REFUSED]
    found["refusal"] = refusals[0] if refusals else None
    found["findings"] = [of_finding(file, it) for it in file.findings if it.kind not in (REFUSED, GUIDE)]
    guides = [of_finding(file, it) for it in file.findings if it.kind == GUIDE]
    if guides or file.unlisted:
        found.update(guides=guides, unlisted=file.unlisted)
    return found


def of_known(it: Known) -> Dict[str, Any]:
    """Returns an entry of the baseline."""
    return {"path": plain(it.path), "code": it.code, "line": it.line, "count": it.times}


def document(project: Project) -> str:
    """Returns the document."""
    counts = project.counted()
    names = {
        "files": "files",
        "errors": "error",
        "dynamic": "dynamic",
        "refused": "refused",
        "guides": "guide",
        "not_checked": "failed",
        "known": "known",
        "gone": "gone",
        "excluded": "excluded",
        "outside": "outside",
        "unmarked": "unmarked",
        "hidden": "hidden",
    }
    whole = {
        "format": FORMAT,
        "program": project.version,
        "status": project.status,
        "counts": {name: counts[kind] for name, kind in names.items()},
        "codes": dict(sorted(project.codes().items())),
        "files": [of_file(it, project.strict) for it in project.files],
        "gone": [of_known(it) for it in project.gone],
    }
    return json_of(whole)
