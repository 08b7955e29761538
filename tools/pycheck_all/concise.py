"""The form `concise`: a line for each finding, as editors read it."""
from __future__ import annotations

from typing import Iterator

from . import codes, details, messages
from .findings import GUIDE, REFUSED, Checked, Finding, Project
from .texts import plain


def line_of(file: Checked, finding: Finding, mending: bool) -> str:
    """Returns the line of a finding; with `mending`, a refusal is followed by what to write instead."""
    start, title = finding.place.start, codes.title_of(finding.code)
    if finding.kind in (REFUSED, GUIDE):
        title = finding.kind + (f": {title}" if title else "")
        if mending:
            title += ". " + messages.advice_of(file, finding)
    if finding.detail:
        title = f"{title}: {finding.detail.text}{details.seen(finding)}"
    elif finding.flow:
        title = f"{title} {finding.flow[0]} -> {finding.flow[1]}"
    return f"{plain(file.path)}:{start.line}:{start.column}: {finding.code} {title}".rstrip()


def lines(project: Project, mending: bool) -> Iterator[str]:
    """Yields the lines of the new findings of all files, and of the files that could not be checked."""
    for file in project.files:
        if file.failure:
            yield f"{plain(file.path)}: {file.failure}"
        for finding in file.new:
            yield line_of(file, finding, mending)
        if file.unlisted:
            yield f"{plain(file.path)}: there may be more refusals: {file.unlisted}"
    yield from gone(project)


def gone(project: Project) -> Iterator[str]:
    """Yields a line for each entry of the baseline that is no longer found."""
    for entry in project.gone:
        times = f" ({entry.times} times)" if entry.times > 1 else ""
        yield f"{plain(entry.path)}: {entry.code} is known but gone{times}: {plain(entry.line)}"
