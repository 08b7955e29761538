"""Files that are read whole, up to a limit. No file is read that has no end, or that waits for somebody."""
from __future__ import annotations

import errno
import os
import stat


def beginning(path: str, limit: int, follow: bool = True) -> bytes:
    """Returns the bytes of a regular file, at most `limit`. Raises OSError, also if it is not a regular file. A link is
    followed only with `follow`."""
    flags = os.O_RDONLY | os.O_NONBLOCK | os.O_CLOEXEC | os.O_NOCTTY | (0 if follow else os.O_NOFOLLOW)
    descriptor = os.open(path, flags)
    try:
        if not stat.S_ISREG(os.fstat(descriptor).st_mode):
            raise OSError(errno.EINVAL, "it is no regular file")
        with open(descriptor, "rb", closefd=False) as file:
            return file.read(limit)
    finally:
        os.close(descriptor)


def regular(path: str, limit: int, follow: bool = True) -> bytes:
    """Returns the bytes of a regular file, as `beginning` reads them. Raises OSError, also if it is longer than the
    limit."""
    data = beginning(path, limit + 1, follow)
    if len(data) > limit:
        raise OSError(errno.EFBIG, f"it is longer than {limit} bytes")
    return data
