"""Writing files: the page and the baseline.

A link inside the checked files and folders is not followed for this, since it may lead to any file of the user's."""
from __future__ import annotations

import errno
import os
from typing import List, Sequence


class Links:
    """Knows the links that are not followed: those in the folders that are checked and in the folders of checked files,
    and, if the path begins there, those in the folder in which the command runs."""

    def __init__(self, words: Sequence[str]) -> None:
        folders = [it if os.path.isdir(it) else os.path.dirname(os.path.abspath(it)) for it in words if it != "-"]
        self.folders = [os.path.realpath(it) for it in folders]

    def refuse(self, path: str) -> None:
        """Raises OSError if a path goes over such a link."""
        folders = self.folders if os.path.isabs(path) else [*self.folders, os.path.realpath(os.curdir)]
        at = os.sep if os.path.isabs(path) else ""
        for name in path.split(os.sep):
            at = os.path.join(at, name)
            holder = os.path.realpath(os.path.dirname(at) or os.curdir)
            if os.path.islink(at) and is_within(holder, folders):
                raise OSError(errno.ELOOP, "it goes over a link of what is checked, which is not followed")

    def write(self, path: str, text: str) -> None:
        """Writes a text into a file; raises OSError."""
        self.refuse(path)
        # The path may have become a link since the check; and do not wait for the reader of a pipe
        follow = os.O_NOFOLLOW if not os.path.islink(path) else 0
        flags = os.O_WRONLY | os.O_CREAT | os.O_TRUNC | os.O_CLOEXEC | os.O_NOCTTY | os.O_NONBLOCK | follow
        descriptor = os.open(path, flags, 0o666)
        os.set_blocking(descriptor, True)
        with open(descriptor, "w", encoding="utf-8", errors="replace") as file:
            file.write(text)


def is_within(path: str, folders: List[str]) -> bool:
    """Whether a path is one of some folders, or is inside one."""
    return any(path == it or path.startswith(it.rstrip(os.sep) + os.sep) for it in folders)
