"""The form `github`: workflow commands, which a run of GitHub Actions shows beside the lines."""
from __future__ import annotations

from typing import Iterator

from .findings import DYNAMIC, GUIDE, Finding, Project, has_guides
from .messages import GUIDES, message_of, name_of
from .texts import Command, plain


def data(text: str) -> str:
    """Returns a text as the message of a command."""
    return plain(text).replace("%", "%25")


def value(text: str) -> str:
    """Returns a text as a property of a command."""
    return data(text).replace(":", "%3A").replace(",", "%2C")


def level_of(finding: Finding, strict: bool) -> str:
    """Returns the level of a finding: one that does not fail is not an error."""
    if finding.kind == GUIDE:
        return "notice"
    return "warning" if finding.kind == DYNAMIC and not strict else "error"


def lines(project: Project) -> Iterator[Command]:
    """Yields the commands of a project."""
    yield from map(Command, texts_of(project))


def texts_of(project: Project) -> Iterator[str]:
    """Yields a command for each new finding and for each file that could not be checked."""
    for file in project.files:
        path = value(file.path)
        if file.failure:
            yield f"::error file={path},title=not checked::{data(file.failure)}"
        for it in file.new:
            start, end = it.place
            where = f"file={path},line={start.line},endLine={end.line},col={start.column},endColumn={end.column}"
            yield f"::{level_of(it, project.strict)} {where},title={value(name_of(it))}::{data(message_of(file, it))}"
        if file.unlisted:
            yield f"::notice file={path},title=there may be more refusals::{data(file.unlisted)}"
    if has_guides(project):
        yield f"::notice title=guides::{data(GUIDES)}"
    for entry in project.gone:
        yield f"::notice title=known but gone::{data(f'{entry.path}: {entry.code}: {entry.line}')}"
