"""The form `junit`: an XML report for test systems, with a suite for each file and a case for each finding."""
from __future__ import annotations

import re
from typing import Iterator, List, Tuple
from xml.sax.saxutils import quoteattr

from .findings import DYNAMIC, GUIDE, Checked, Finding, Project
from .messages import message_of, name_of
from .texts import CONTROL, MARK, plain

# Characters that XML 1.0 cannot write
NO_CHARACTER = re.compile("[^\t\n\r\x20-\ud7ff\ue000-\ufffd\U00010000-\U0010ffff]")


def attribute(text: str) -> str:
    """Returns a text as the value of an attribute, in quotes, with control characters as their numbers."""
    quoted = CONTROL.sub(lambda it: f"&#{ord(it[0])};", quoteattr(NO_CHARACTER.sub("\ufffd", text)))
    return MARK.sub(r"\1&#91;", quoted)


def outcome_of(finding: Finding, strict: bool) -> str:
    """Returns the element for the outcome of a case: a finding that does not fail counts as skipped."""
    passes = finding.known or finding.kind == GUIDE or (finding.kind == DYNAMIC and not strict)
    return "skipped" if passes else "failure"


def case_of(path: str, name: str, outcome: str, message: str) -> List[str]:
    """Returns the lines of a case, with its outcome if it has one."""
    opening = f"  <testcase classname={attribute(path)} name={attribute(name)} file={attribute(path)}"
    if not outcome:
        return [opening + "/>"]
    return [opening + ">", f"   <{outcome} message={attribute(message)}/>", "  </testcase>"]


def cases_of(file: Checked, strict: bool) -> Iterator[Tuple[str, List[str]]]:
    """Yields the cases of a file, each with its outcome. A file without findings is one case that passes."""
    path = plain(file.path)
    if file.failure:
        yield "error", case_of(path, "not checked", "error", file.failure)
    elif not file.everything:
        yield "", case_of(path, "no finding", "", "")
    elif not file.findings:
        yield "skipped", case_of(path, "findings that are not shown", "skipped", f"{len(file.hidden)} not shown")
    for it in file.findings:
        start, outcome = it.place.start, outcome_of(it, strict)
        known = " Known in the baseline." if it.known else ""
        message = f"{path}:{start.line}:{start.column}: {message_of(file, it)}{known}"
        yield outcome, case_of(path, f"{start.line}:{start.column} {name_of(it)}", outcome, message)
    if file.unlisted:
        yield "skipped", case_of(path, "there may be more refusals", "skipped", file.unlisted)


def counted(outcomes: List[str]) -> str:
    """Returns the counts of a suite, as attributes."""
    names = [("failures", "failure"), ("errors", "error"), ("skipped", "skipped")]
    return f'tests="{len(outcomes)}" ' + " ".join(f'{name}="{outcomes.count(kind)}"' for name, kind in names)


def document(project: Project) -> str:
    """Returns the report."""
    lines: List[str] = []
    all_outcomes: List[str] = []
    for file in project.files:
        cases = list(cases_of(file, project.strict))
        outcomes = [outcome for outcome, _ in cases]
        all_outcomes += outcomes
        lines.append(f" <testsuite name={attribute(plain(file.path))} {counted(outcomes)}>")
        lines += [line for _, case in cases for line in case]
        lines.append(" </testsuite>")
    head = f'<?xml version="1.0" encoding="UTF-8"?>\n<testsuites name="pycheck" {counted(all_outcomes)}>'
    return "\n".join([head, *lines, "</testsuites>"])
