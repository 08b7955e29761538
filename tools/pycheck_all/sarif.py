"""The form `sarif`: a log of SARIF 2.1.0, which systems for code scanning read."""
from __future__ import annotations

import os
import urllib.parse
from typing import Any, Dict, List

from . import codes, details
from .findings import DYNAMIC, GUIDE, Checked, Finding, Project, has_guides
from .messages import GUIDES, fingerprints, message_of, name_of
from .source import Place
from .texts import json_of, plain

SCHEMA = "https://json.schemastore.org/sarif-2.1.0.json"


def uri_of(path: str) -> str:
    """Returns the address of a file; for a relative path a relative one."""
    quoted = urllib.parse.quote(os.fsencode(os.path.normpath(path)))
    return f"file://{quoted}" if os.path.isabs(path) else quoted


def level_of(kind: str, strict: bool) -> str:
    """Returns the level of a kind of findings: one that does not fail is not an error."""
    if kind == GUIDE:
        return "note"
    return "warning" if kind == DYNAMIC and not strict else "error"


def rule_of(code: str, strict: bool) -> Dict[str, Any]:
    """Returns a rule with its help."""
    entry = codes.entries().get(code)
    rule: Dict[str, Any] = {"id": code}
    if entry:
        text = codes.explained(code, 100)
        rule.update(
            name=entry.title,
            shortDescription={"text": entry.meaning},
            fullDescription={"text": f"{entry.meaning}. {entry.mend}"},
            defaultConfiguration={"level": level_of(entry.kind, strict)},
            help={"text": text, "markdown": f"# {code} {entry.title}\n\n{entry.entry}"},
        )
    return rule


def location_of(file: Checked, place: Place) -> Dict[str, Any]:
    """Returns a place of a file."""
    start, end = place
    region = {
        "startLine": start.line,
        "startColumn": start.column,
        "endLine": end.line,
        "endColumn": end.column,
        "byteOffset": start.byte,
        "byteLength": end.byte - start.byte,
    }
    return {"physicalLocation": {"artifactLocation": {"uri": uri_of(file.path)}, "region": region}}


def related_to(file: Checked, it: Finding) -> List[Dict[str, Any]]:
    """Returns the other places that a finding is about, each with a message."""
    bracket = [(it.opened, "the open bracket")] if it.opened else []
    others = it.detail.others if it.detail else ()
    named = [(file.text.token(other.byte), details.name_of_others(it)) for other in others]
    return [{**location_of(file, place), "message": {"text": said}} for place, said in [*bracket, *named]]


def results_of(file: Checked, rules: List[str], project: Project) -> List[Dict[str, Any]]:
    """Returns the results of a file. A known finding is suppressed, and stays in the log."""
    results = []
    for it, mark in zip(file.findings, fingerprints(file)):
        result: Dict[str, Any] = {
            "ruleId": it.code,
            "ruleIndex": rules.index(it.code),
            "level": level_of(it.kind, project.strict),
            "message": {"text": f"{name_of(it)}: {message_of(file, it)}"},
            "locations": [location_of(file, it.place)],
            "partialFingerprints": {"pathCodeLine/v1": mark},
        }
        related = related_to(file, it)
        if related:
            result["relatedLocations"] = related
        if it.known:
            result["suppressions"] = [{"kind": "external", "justification": "known in the baseline"}]
        results.append(result)
    return results


def notifications(project: Project) -> List[Dict[str, Any]]:
    """Returns the messages beside the results: files that could not be checked, and entries of the baseline that are
    gone."""
    found = []
    for file in project.files:
        location = {"physicalLocation": {"artifactLocation": {"uri": uri_of(file.path)}}}
        if file.failure:
            text = f"not checked: {file.failure}"
            found.append({"level": "error", "message": {"text": text}, "locations": [location]})
        if file.unlisted:
            text = f"there may be more refusals: {file.unlisted}"
            found.append({"level": "note", "message": {"text": text}, "locations": [location]})
    if has_guides(project):
        found.append({"level": "note", "message": {"text": GUIDES}})
    for entry in project.gone:
        text = f"known but gone: {plain(entry.path)}: {entry.code}: {entry.line}"
        found.append({"level": "note", "message": {"text": text}})
    return found


def document(project: Project) -> str:
    """Returns the log."""
    rules = sorted({it.code for file in project.files for it in file.findings})
    driver = {
        "name": "pycheck",
        "version": project.version.rpartition(" ")[2] or "unknown",
        "rules": [rule_of(code, project.strict) for code in rules],
    }
    run = {
        "tool": {"driver": driver},
        "columnKind": "unicodeCodePoints",
        "invocations": [
            {
                "executionSuccessful": not any(it.failure for it in project.files),
                "exitCode": project.status,
                "toolExecutionNotifications": notifications(project),
            }
        ],
        "results": [result for file in project.files for result in results_of(file, rules, project)],
    }
    return json_of({"$schema": SCHEMA, "version": "2.1.0", "runs": [run]})
