"""The modules that git tracks according to the index of a repository: a tracked module is not ignored.

The index is read as data, in its versions 2 to 4. A split index has a second file; entries of it that were removed
since
count as tracked too."""
from __future__ import annotations

import os
from typing import Iterator, NamedTuple, Optional, Set

from . import reading

LIMIT = 128 << 20
# How many bytes of paths are kept: names that share their beginnings take less in the file
MOST_KEPT = 64 << 20
LONGEST = 4096
SUMS = (20, 32)
EXTENDED, NAME_LENGTH = 0x4000, 0xFFF
KIND, LINK_TO_COMMIT = 0xF000, 0xE000
SPLIT, SPARSE = b"link", b"sdir"


class Unreadable(Exception):
    """The index has a form that is not known here."""


class Entry(NamedTuple):
    """An entry of an index: its mode and its path. One for a folder that is not checked out ends in a slash."""

    mode: int
    path: bytes


class Index:
    """A file of an index, whose sums have `sum_length` bytes each."""

    def __init__(self, data: bytes, sum_length: int) -> None:
        self.data = data
        self.sum_length = sum_length
        self.version = self.number(4, 4)
        self.at = 12
        if data[:4] != b"DIRC" or self.version not in (2, 3, 4):
            raise Unreadable

    def number(self, at: int, length: int) -> int:
        """Returns a number of `length` bytes at a byte."""
        if at + length > len(self.data):
            raise Unreadable
        return int.from_bytes(self.data[at : at + length], "big")

    def entries(self) -> Iterator[Entry]:
        """Yields its entries; afterwards its extensions can be read."""
        before = b""
        for _ in range(self.number(8, 4)):
            flags_at = self.at + 40 + self.sum_length
            mode, flags = self.number(self.at + 24, 4), self.number(flags_at, 2)
            start = flags_at + 2 + (2 if flags & EXTENDED else 0)
            if self.version == 4:
                before = before[: self.kept(before, start)] + self.text(self.at)
                self.at += 1
            else:
                end = self.data.find(b"\0", start)
                before = self.data[start:end]
                if end < 0 or min(len(before), NAME_LENGTH) != flags & NAME_LENGTH:
                    raise Unreadable
                self.at += (end - self.at + 8) // 8 * 8
            if len(before) > LONGEST:
                raise Unreadable
            yield Entry(mode, before)

    def kept(self, before: bytes, at: int) -> int:
        """Returns how many bytes of the path before stay, for an entry of version 4; the rest of its path is read
        next."""
        byte = self.number(at, 1)
        cut = byte & 127
        while byte & 128:
            at += 1
            byte = self.number(at, 1)
            cut = (cut + 1) << 7 | byte & 127
            if cut > LONGEST:
                raise Unreadable
        if cut > len(before):
            raise Unreadable
        self.at = at + 1
        return len(before) - cut

    def text(self, at: int) -> bytes:
        """Returns the bytes up to the next zero."""
        end = self.data.find(b"\0", at)
        if end < 0:
            raise Unreadable
        self.at = end
        return self.data[at:end]

    def shared(self) -> str:
        """Reads its extensions. Returns the sum that names the file that it shares with others; empty if there is
        none."""
        end, found = len(self.data) - self.sum_length, ""
        while self.at < end:
            name, length = self.data[self.at : self.at + 4], self.number(self.at + 4, 4)
            if name == SPLIT:
                found = self.data[self.at + 8 : self.at + 8 + self.sum_length].hex()
            elif name != SPARSE and not name[:1].isupper():
                raise Unreadable
            self.at += 8 + length
        if self.at != end:
            raise Unreadable
        return found.strip("0") and found


class Tracked:
    """The modules that are tracked, the folders that have some in them, and those that are tracked as a whole: other
    repositories, and folders that are not checked out."""

    def __init__(self) -> None:
        self.modules: Set[bytes] = set()
        self.folders: Set[bytes] = set()
        self.whole: Set[bytes] = set()
        self.length = 0

    def add(self, entry: Entry) -> None:
        """Adds an entry."""
        kind = entry.mode & KIND
        if kind == LINK_TO_COMMIT or entry.path.endswith(b"/"):
            self.keep(self.whole, entry.path.rstrip(b"/"))
        elif entry.path.endswith(b".py"):
            self.keep(self.modules, entry.path)
        else:
            return
        folder = entry.path.rstrip(b"/").rpartition(b"/")[0]
        while folder and folder not in self.folders:
            self.keep(self.folders, folder)
            folder = folder.rpartition(b"/")[0]

    def keep(self, among: Set[bytes], path: bytes) -> None:
        """Records a path."""
        self.length += len(path)
        if self.length > MOST_KEPT:
            raise Unreadable
        among.add(path)

    def has(self, path: bytes, is_folder: bool) -> bool:
        """Whether a module is tracked, or anything in a folder."""
        if path in (self.folders if is_folder else self.modules):
            return True
        ends = [at for at, byte in enumerate(path) if byte == 0x2F] if self.whole else []
        return any(path[:end] in self.whole for end in [*ends, len(path)])


def read_file(path: str, sum_length: int, found: Tracked) -> str:
    """Adds the entries of a file. Returns the sum that names the file that it shares with others."""
    index = Index(reading.regular(path, LIMIT), sum_length)
    for entry in index.entries():
        found.add(entry)
    return index.shared()


def read_index(folder: str, sum_length: int) -> Tracked:
    """Returns the modules in the index of a folder of git whose sums have `sum_length` bytes."""
    found = Tracked()
    shared = read_file(os.path.join(folder, "index"), sum_length, found)
    if shared and read_file(os.path.join(folder, f"sharedindex.{shared}"), sum_length, found):
        raise Unreadable
    return found


def tracked_by(folder: str) -> Optional[Tracked]:
    """Returns the modules that a folder of git lists as tracked; None if that cannot be read."""
    if not os.path.lexists(os.path.join(folder, "index")):
        return Tracked()
    for sum_length in SUMS:
        try:
            return read_index(folder, sum_length)
        except (OSError, Unreadable):
            pass
    return None
