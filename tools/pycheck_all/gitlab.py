"""The form `gitlab`: a report of Code Quality, which GitLab shows in merge requests."""
from __future__ import annotations

import os
from typing import Any, Dict, Iterator

from .findings import DYNAMIC, ERROR, GUIDE, REFUSED, Checked, Project
from .messages import fingerprint, fingerprints, message_of, name_of
from .texts import json_of, plain

SEVERITIES = {ERROR: "major", REFUSED: "critical", GUIDE: "info", DYNAMIC: "minor"}


def entry(file: Checked, name: str, text: str, severity: str, mark: str, lines: Dict[str, int]) -> Dict[str, Any]:
    """Returns an entry of the report."""
    return {
        "description": text,
        "check_name": name,
        "fingerprint": mark,
        "severity": severity,
        "location": {"path": plain(os.path.normpath(file.path)), "lines": lines},
    }


def entries(project: Project) -> Iterator[Dict[str, Any]]:
    """Yields an entry for each new finding and for each file that could not be checked."""
    for file in project.files:
        if file.failure:
            yield entry(file, "not checked", file.failure, "blocker", fingerprint(file, "not checked"), {"begin": 1})
        for it, mark in zip(file.findings, fingerprints(file)):
            if it.known:
                continue
            severity = "major" if it.kind == DYNAMIC and project.strict else SEVERITIES[it.kind]
            lines = {"begin": it.place.start.line, "end": it.place.end.line}
            yield entry(file, it.code, f"{name_of(it)}: {message_of(file, it)}", severity, mark, lines)


def document(project: Project) -> str:
    """Returns the report."""
    return json_of(list(entries(project)))
