"""Finds the files to check: those that are named, and the modules in the folders that are named."""
from __future__ import annotations

import fnmatch
import functools
import os
import stat
import sys
import tempfile
from typing import Callable, Iterator, List, NamedTuple, Optional, Sequence, Set, Tuple, Union

from . import ignored, reading

LIMIT = 1024 * 1024 + 4096
STANDARD_INPUT = "-"
# Folders with generated or installed modules, which nobody wrote there
MADE = ("build", "dist", "node_modules")
# The file by which a virtual environment is recognized
ENVIRONMENT = "pyvenv.cfg"
# Paths under these may mean another file to another process
OF_PROCESSES = ("/dev/", "/proc/")


class Source(NamedTuple):
    """A file to check: the name that reports show, the path to read, or why it cannot be read."""

    name: str
    path: str
    failure: str = ""


# A module, or the entries of a folder in order
Entry = Union[Source, "Iterator[Entry]"]
RulesFor = Callable[[bool], Optional[ignored.Rules]]


class Found(NamedTuple):
    """The files, in the order in which they are shown, and how many files and folders --exclude left out."""

    sources: List[Source]
    excluded: int


def reason(fault: OSError) -> str:
    """Returns why a file cannot be read, in the words of the system."""
    return f"cannot be read: {fault.strerror or fault}"


class Walk:
    """A walk through a folder, in the order of the names. Links to folders are not followed."""

    def __init__(self, excluding: Sequence[str], base: str = "") -> None:
        self.excluding = excluding
        self.base = base
        self.excluded: Set[str] = set()

    def excludes(self, path: str, top: str) -> bool:
        """Whether a pattern fits the path. A pattern without a slash is compared with the name. One with a slash is
        compared with the path as it is shown, from the named folder, or from the base of the patterns."""
        for pattern in (it.rstrip("/") for it in self.excluding):
            tops = filter(None, (top, self.base))
            paths = [path, *(os.path.relpath(path, it) for it in tops)]
            paths = paths if "/" in pattern else [os.path.basename(path)]
            if any(fnmatch.fnmatchcase(it, pattern) for it in paths):
                return True
        return False

    def modules(self, top: str) -> Iterator[Source]:
        """Yields the modules of a named folder and of all folders in it, without hidden ones and those that git
        ignores."""
        levels = [self.entries(top, top, lambda _: ignored.rules_of(top))]
        while levels:
            found = next(levels[-1], None)
            if found is None:
                levels.pop()
            elif isinstance(found, Source):
                yield found
            else:
                levels.append(found)

    def entries(self, folder: str, top: str, rules_for: RulesFor) -> Iterator[Entry]:
        """Yields the modules of a folder, and the entries of the folders in it, in the order of their names.
        `rules_for` returns the rules of the folder, given whether it has a `.git`."""
        try:
            with os.scandir(folder) as entries:
                inside = sorted(entries, key=lambda it: os.fsencode(it.name))
        except OSError as fault:
            yield Source(folder, folder, reason(fault))
            return
        rules = rules_for(any(it.name == ".git" for it in inside))
        if folder != top and is_made(folder, inside) and not has_tracked(rules):
            return
        for entry in inside:
            path = os.path.normpath(os.path.join(folder, entry.name))
            is_folder = is_folder_itself(entry)
            if entry.name.startswith(".") or not (is_folder or is_module(entry)):
                continue
            if rules and rules.ignore(os.fsencode(entry.name), is_folder):
                continue
            if self.excludes(path, top):
                # A folder may be walked through more than once
                self.excluded.add(os.path.abspath(path))
            elif is_folder:
                yield self.entries(path, top, functools.partial(ignored.rules_in, rules, entry.name, path))
            else:
                yield Source(path, path)


def is_made(folder: str, inside: Sequence[os.DirEntry[str]]) -> bool:
    """Whether a folder has generated or installed files, by its name, or because it is a virtual environment."""
    return os.path.basename(folder) in MADE or any(it.name == ENVIRONMENT for it in inside)


def has_tracked(rules: Optional[ignored.Rules]) -> bool:
    """Whether git tracks a file of the folder with these rules; if so, somebody wrote it."""
    return rules is not None and bool(rules.path) and rules.repository.tracks(rules.path[:-1], True)


def is_folder_itself(entry: os.DirEntry[str]) -> bool:
    """Whether an entry is a folder, and no link to one."""
    try:
        return entry.is_dir(follow_symlinks=False)
    except OSError:
        return False


def is_module(entry: os.DirEntry[str]) -> bool:
    """Whether an entry is a file `*.py`, or a link to one or to nothing; a link to a folder is not."""
    if not entry.name.endswith(".py"):
        return False
    try:
        return stat.S_ISREG(entry.stat().st_mode)
    except OSError:
        return True


def is_utf8(path: str) -> bool:
    """Whether a path can be passed to the program, which accepts only words in UTF-8."""
    return not any("\udc80" <= it <= "\udcff" for it in path)


class Files:
    """The files of a run. Texts without a path that can be read twice are kept in a folder until `close`."""

    def __init__(self, excluding: Sequence[str], stdin_name: str, base: str = "") -> None:
        self.excluding = excluding
        self.base = base
        self.stdin_name = stdin_name
        self._folder: Optional[tempfile.TemporaryDirectory[str]] = None
        self._kept = 0

    def close(self) -> None:
        """Removes the texts that were kept."""
        if self._folder is not None:
            self._folder.cleanup()

    def find(self, words: Sequence[str]) -> Found:
        """Returns the files that the words of the command line name, each once, at its first mention."""
        walk = Walk(self.excluding, self.base)
        sources: List[Source] = []
        met: Set[Tuple[bool, str]] = set()
        for word in words:
            for source in self.named(word, walk):
                key = (word == STANDARD_INPUT, os.path.abspath(source.name))
                if key not in met:
                    met.add(key)
                    sources.append(source if is_utf8(source.path) or source.failure else self.kept(source.name, None))
        return Found(sources, len(walk.excluded))

    def named(self, word: str, walk: Walk) -> Iterator[Source]:
        """Yields the files that one word names."""
        if word == STANDARD_INPUT:
            yield self.kept(self.stdin_name, 0)
            return
        try:
            kind = os.stat(word).st_mode
        except (OSError, ValueError) as fault:
            yield Source(word, word, reason(fault) if isinstance(fault, OSError) else f"cannot be read: {fault}")
            return
        if stat.S_ISDIR(kind):
            folder = os.path.normpath(word)
            yield from walk.modules(folder)
        elif stat.S_ISREG(kind) and not os.path.abspath(word).startswith(OF_PROCESSES):
            yield Source(word, word)
        else:
            yield self.kept(word, None)

    def kept(self, name: str, descriptor: Optional[int]) -> Source:
        """Copies a text that can be read only once, from an open file or by its name, into a file of its own."""
        if descriptor == 0 and sys.stdin is None:
            return Source(name, name, "cannot be read: standard input is closed")
        try:
            with open(name if descriptor is None else descriptor, "rb", closefd=descriptor is None) as file:
                data = file.read(LIMIT)
        except OSError as fault:
            return Source(name, name, reason(fault))
        if self._folder is None:
            self._folder = tempfile.TemporaryDirectory(prefix="pycheck-")
        self._kept += 1
        path = os.path.join(self._folder.name, f"{self._kept}.py")
        with open(path, "wb") as file:
            file.write(data)
        return Source(name, path)


def content_of(path: str) -> bytes:
    """Returns the bytes of a file, or slightly more of them than the program reads."""
    return reading.beginning(path, LIMIT)
