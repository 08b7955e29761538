"""The lines of `--statistics`: how often each code occurs."""
from __future__ import annotations

from typing import Iterator

from . import codes
from .findings import Project


def lines(project: Project) -> Iterator[str]:
    """Yields a line for each code that occurs, known findings included: number, code, title; the most frequent
    first."""
    counts = project.codes()
    width = len(str(max(counts.values(), default=0)))
    for code, count in sorted(counts.items(), key=lambda it: (-it[1], it[0])):
        yield f"{count:>{width}}  {code:<3}  {codes.title_of(code)}".rstrip()
