"""Chooses the files to check in a project that has a core in the profile, and ordinary modules around it.

The core is named by its paths, or each module of it is marked by its first line. The other modules are counted."""
from __future__ import annotations

import fnmatch
import functools
import os
import re
from typing import Counter, Iterator, List, NamedTuple, Optional, Sequence

from . import reading
from .files import Found, Source
from .outputs import is_within
from .settings import Settings
from .words import UNNAMED, Words

# A byte order mark in front does not hide a file: the file is refused, and so the mark is reported
MARK = re.compile(rb"(?:\xef\xbb\xbf)?#[ \t]*pycheck:[ \t]*core[ \t]*(?:\r?\n|\Z)")
LONGEST_MARK = 100
OUTSIDE, UNMARKED, EXCLUDED = "outside", "unmarked", "excluded"


class Chosen(NamedTuple):
    """The files to check, and how many others there are, by the reason why they are left out."""

    sources: List[Source]
    left: Counter[str]


@functools.lru_cache(maxsize=256)
def real_folder(path: str) -> str:
    """Returns the path of a folder without links."""
    return os.path.realpath(path)


def placed(path: str) -> str:
    """Returns the path of a file, with no link among its folders."""
    folder, name = os.path.split(os.path.abspath(path))
    return os.path.join(real_folder(folder), name)


def is_marked(path: str) -> bool:
    """Whether the first line of a file marks it as a part of the core. One that cannot be read counts as marked, so
    that the user hears of it."""
    try:
        return MARK.match(reading.beginning(path, LONGEST_MARK)) is not None
    except OSError:
        return True


class Scope:
    """Decides what is checked: the paths of the core; without one, the marked modules, if that is asked for; otherwise
    everything. Files that the patterns of the project name are left out in each case, if these patterns replace those
    of the words."""

    def __init__(self, core: Sequence[str], marked: bool, patterns: Sequence[str], folder: str) -> None:
        self.paths = core
        self.core = [it for path in core for it in {placed(path), os.path.realpath(path)}]
        self.marked = marked and not core
        self.patterns = [it.rstrip("/") for it in patterns]
        self.folder = os.path.realpath(folder)

    def words(self, named: Sequence[str]) -> List[str]:
        """Returns the files and folders to search: those that are named, or else the folder in which the command runs.
        Before each folder come the paths of the core in it, which are found even if their folder is left out."""
        return [it for word in named or [os.curdir] for it in (*self.core_in(word), word)]

    def core_in(self, word: str) -> Iterator[str]:
        """Yields the paths of the core that are in a named folder, and that no pattern leaves out."""
        top = os.path.realpath(word)
        for path in self.paths if os.path.isdir(top) else ():
            real = os.path.realpath(path)
            left_out = self.excludes(os.path.relpath(placed(path), self.folder))
            if real != top and is_within(real, [top]) and not left_out:
                yield os.path.normpath(os.path.join(word, os.path.relpath(real, top)))

    def chosen(self, found: Found, named: Sequence[str]) -> Chosen:
        """Returns the files to check among those that were found."""
        left: Counter[str] = Counter()
        sources = []
        for source in found.sources:
            why = "" if source.name == UNNAMED or (source.failure and source.name in named) else self.leaving(source)
            left[why] += 1
            if not why:
                sources.append(source)
        del left[""]
        return Chosen(sources, left)

    def leaving(self, source: Source) -> str:
        """Returns why a file is left out; empty if it is checked."""
        path = placed(source.name)
        if self.patterns and self.excludes(os.path.relpath(path, self.folder)):
            return EXCLUDED
        if self.core:
            return "" if is_within(path, self.core) else OUTSIDE
        return UNMARKED if self.marked and not source.failure and not is_marked(source.path) else ""

    def excludes(self, path: str) -> bool:
        """Whether a pattern names a file of the project, or a folder around it."""
        names = path.split(os.sep)
        if names[0] == os.pardir:
            return False
        paths = [os.sep.join(names[: at + 1]) for at in range(len(names))]
        return any(
            fnmatch.fnmatchcase(it, pattern) for pattern in self.patterns for it in (paths if "/" in pattern else names)
        )


def of(asked: Words, used: Optional[Settings]) -> Scope:
    """Returns the scope for the words and the settings of the project."""
    real_folder.cache_clear()
    if used is None:
        return Scope(asked.core, asked.only_marked, [], os.curdir)
    core = asked.core or [os.path.join(used.folder, it) for it in used.core]
    return Scope(core, asked.only_marked, used.exclude, used.folder)
