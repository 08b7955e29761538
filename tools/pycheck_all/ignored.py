"""Finds what git ignores, without git: no process is started, and no configuration of the checked files is read.

The rules are those of gitignore: the patterns of each `.gitignore` up to the top of the repository, those of its
`info/exclude`, and those of the user's own file."""
from __future__ import annotations

import os
import re
from typing import List, NamedTuple, Optional, Sequence, Tuple

from . import reading
from .patterns import Patterns
from .tracked import Tracked, tracked_by

LIMIT = 1 << 20
LONGEST_LINK = 8192
# The section of git's configuration that names the user's file of patterns
SECTION = re.compile(r"\s*\[\s*([-.\w]+)\s*\]")
VALUE = re.compile(r"\s*excludesfile\s*=\s*(.*)", re.IGNORECASE)
PIECE = re.compile(r'"((?:[^"\\]|\\.)*)"|\\(.)|([^"\\#;]+)|(.)')
ESCAPED = {"n": "\n", "t": "\t", "b": "\b"}


def content(path: str, follow: bool = True) -> bytes:
    """Returns the bytes of a small file; empty if it cannot be read."""
    try:
        return reading.regular(path, LIMIT, follow)
    except OSError:
        return b""


def value_of(text: str) -> str:
    """Returns a value of a configuration, without its quotes and its comment."""
    found, kept = "", 0
    for piece in PIECE.finditer(text.rstrip("\r\n")):
        quoted, escaped, plain, _ = piece.groups()
        if piece[0] in ("#", ";"):
            break
        if quoted is not None:
            found += re.sub(r"\\(.)", unescaped, quoted)
        else:
            found += plain or ESCAPED.get(escaped, escaped)
        kept = kept if plain else len(found)
    return found[:kept] + found[kept:].rstrip()


def unescaped(found: "re.Match[str]") -> str:
    """Returns the character that a backslash means together with the one after it."""
    return ESCAPED.get(found[1], found[1])


def excludes_file_in(text: str) -> Optional[str]:
    """Returns the value of `core.excludesFile` in a configuration; None if it has none."""
    section, found = "", None
    for line in re.sub(r"\\\r?\n", "", text).splitlines():
        opened = SECTION.match(line)
        if opened:
            section, line = opened[1].lower(), line[opened.end() :]
        elif line.lstrip().startswith("["):
            section = ""
        value = VALUE.match(line) if section == "core" else None
        if value:
            found = value_of(value[1])
    return found


def user_patterns(top: str) -> bytes:
    """Returns the patterns of the user's own file, which the system's or the user's configuration names."""
    home = os.environ.get("HOME", "")
    settings = os.environ.get("XDG_CONFIG_HOME", "")
    if not os.path.isabs(settings):
        settings = os.path.join(home, ".config")
    named = os.path.join(settings, "git", "ignore")
    for path in ("/etc/gitconfig", os.path.join(settings, "git", "config"), os.path.join(home, ".gitconfig")):
        text = content(path).decode("utf-8", "surrogateescape") if os.path.isabs(path) else ""
        found = excludes_file_in(text)
        named = found if found is not None else named
    if named.startswith("~/"):
        named = os.path.join(home, named[2:])
    return content(os.path.join(top, named)) if named else b""


class Repository:
    """A checkout: its top, and its two folders of git: its own, and the one that it shares."""

    def __init__(self, top: str, folder: str, common: str) -> None:
        self.top = top
        self.folder = folder
        self.common = common
        self.read = False
        self.index: Optional[Tracked] = None

    def tracks(self, path: bytes, is_folder: bool) -> bool:
        """Whether a module is tracked, or anything in a folder. If the index cannot be read, everything counts as
        tracked."""
        if not self.read:
            self.read, self.index = True, tracked_by(self.folder)
        return self.index is None or self.index.has(path, is_folder)

    def rules(self) -> "Rules":
        """Returns the rules for its top."""
        excluded = content(os.path.join(self.common, "info", "exclude"))
        lists = [Patterns(excluded, b""), Patterns(user_patterns(self.top), b"")]
        return Rules(self, b"", lists, False).with_file(self.top)


class Rules(NamedTuple):
    """The rules by which git ignores entries of a folder.

    `path` is the folder from the top of its repository, with a slash at its end. Earlier lists of patterns take
    precedence over later ones. In a folder that is `left_out`, everything that is not tracked is ignored."""

    repository: Repository
    path: bytes
    lists: Sequence[Patterns]
    left_out: bool

    def with_file(self, folder: str) -> "Rules":
        """Returns the same rules with the patterns of the folder's own file. A link is not followed, as git does not
        follow it."""
        if self.left_out:
            return self
        data = content(os.path.join(folder, ".gitignore"), follow=False)
        return self._replace(lists=[Patterns(data, self.path), *self.lists]) if data else self

    def leave_out(self, name: bytes, is_folder: bool) -> bool:
        """Whether the patterns leave out an entry of the folder."""
        if self.left_out:
            return True
        path = self.path + name
        said = (it.say(path, name, is_folder) for it in self.lists)
        return next((it for it in said if it is not None), False)

    def ignore(self, name: bytes, is_folder: bool) -> bool:
        """Whether a module or a folder in the folder is ignored."""
        return self.leave_out(name, is_folder) and not self.repository.tracks(self.path + name, is_folder)

    def inside(self, name: bytes, folder: str) -> "Rules":
        """Returns the rules for a folder in the folder."""
        left_out = self.leave_out(name, True)
        return Rules(self.repository, self.path + name + b"/", self.lists, left_out).with_file(folder)


class Unknown(Exception):
    """A file `.git` names no folder of git, so nobody knows what is ignored."""


def folders_of(path: str) -> Optional[Tuple[str, str]]:
    """Returns the folder of git at a path, and the one that it shares with others; None if there is none."""
    link = content(os.path.join(path, "commondir"))
    common = os.path.join(path, os.fsdecode(link).rstrip("\r\n")) if link and b"\0" not in link else path
    is_one = os.path.lexists(os.path.join(path, "HEAD"))
    is_one = is_one and all(os.path.isdir(os.path.join(common, it)) for it in ("objects", "refs"))
    return (path, common) if is_one else None


def repository_at(top: str) -> Optional[Repository]:
    """Returns the repository whose top is a folder; None if the folder is not a top. Raises Unknown for a file `.git`
    that names no folder of git."""
    path = os.path.join(top, ".git")
    if not os.path.isfile(path):
        found = folders_of(path)
        return Repository(top, *found) if found else None
    text = content(path)
    target = os.fsdecode(text.partition(b"gitdir: ")[2]).rstrip("\r\n")
    if len(text) > LONGEST_LINK or not text.startswith(b"gitdir: ") or "\0" in target:
        raise Unknown
    found = folders_of(os.path.join(top, target))
    if not found:
        raise Unknown
    return Repository(top, *found)


def repository_around(folder: str) -> Optional[Repository]:
    """Returns the repository around a folder, if it is on the same file system."""
    device = os.stat(folder).st_dev
    while True:
        found = repository_at(folder)
        above = os.path.dirname(folder)
        if found or above == folder or os.stat(above).st_dev != device:
            return found
        folder = above


def rules_of(folder: str) -> Optional[Rules]:
    """Returns the rules for a folder that is named; None if git ignores nothing there, as outside a checkout. A folder
    that is itself ignored is checked, since it is named."""
    try:
        folder = os.path.realpath(folder)
        repository = repository_around(folder)
    except (OSError, ValueError, Unknown):
        return None
    if repository is None:
        return None
    rules, path = repository.rules(), repository.top
    for name in names_of(os.path.relpath(folder, path)):
        path = os.path.join(path, name)
        rules = rules.inside(os.fsencode(name), path)
    if rules.left_out and not repository.tracks(rules.path[:-1], True):
        return None
    return rules


def names_of(path: str) -> List[str]:
    """Returns the names in a relative path that leads downwards."""
    return [it for it in path.split(os.sep) if it != os.curdir]


def rules_in(rules: Optional[Rules], name: str, folder: str, is_top: bool) -> Optional[Rules]:
    """Returns the rules for a folder in a folder with such rules. One that has a `.git` may be the top of a repository
    of its own."""
    if is_top:
        try:
            repository = repository_at(folder)
        except Unknown:
            return None
        if repository:
            return repository.rules()
    return rules.inside(os.fsencode(name), folder) if rules else None
