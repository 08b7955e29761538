"""The messages of the Language Server Protocol between an editor and its server: each is read from one side, shown to a
listener, and passed on to the other side as it came, or as the listener changed it."""
from __future__ import annotations

import json
import os
import re
import select
from typing import Any, Callable, Optional, Protocol

LONGEST_HEAD = 4096
LONGEST_BODY = 16 << 20
PART = 65536
LENGTH = re.compile(rb"content-length:[ \t]*([0-9]{1,18})[ \t]*", re.IGNORECASE)


class Input:
    """The bytes of an open file, read in whole parts."""

    def __init__(self, file: int) -> None:
        self.file = file
        self.held = b""

    def more(self) -> bool:
        """Reads more bytes. Returns whether there were any."""
        part = os.read(self.file, PART)
        self.held += part
        return bool(part)

    def take(self, length: int) -> bytes:
        """Returns the next bytes of those read so far, at most `length`."""
        taken, self.held = self.held[:length], self.held[length:]
        return taken

    def head(self) -> bytes:
        """Returns the header of a message, with the empty line after it; empty if the input ends first or the header is
        too long."""
        at = self.held.find(b"\r\n\r\n")
        while at < 0 and len(self.held) <= LONGEST_HEAD and self.more():
            at = self.held.find(b"\r\n\r\n")
        return self.take(at + 4) if at >= 0 else b""

    def body(self, length: int) -> bytes:
        """Returns `length` bytes, or fewer at the end of the input."""
        parts = [self.take(length)]
        left = length - len(parts[0])
        while left and self.more():
            parts.append(self.take(left))
            left -= len(parts[-1])
        return b"".join(parts)


class OutputOf(Input):
    """The output of a process. It also ends where the process has ended and nothing is left to read, although another
    process may hold it open; `ended` is an open file that ends with the process."""

    def __init__(self, file: int, ended: int) -> None:
        super().__init__(file)
        self.poll = select.poll()
        self.poll.register(file, select.POLLIN)
        self.poll.register(ended, select.POLLIN)

    def more(self) -> bool:
        """Waits for more bytes, and reads them. Returns whether there were any."""
        ready = {file for file, _ in self.poll.poll()}
        return self.file in ready and super().more()


class Listener(Protocol):
    """What a relay shows the messages of its side to."""

    def changes(self, message: Any) -> bool:
        """Hears a message. Returns whether it was changed, and is to be passed on so."""

    def misses(self) -> None:
        """Hears that a message is passed on that was not read."""


class Relay:
    """Passes the messages of one side on to the other."""

    def __init__(self, listener: Listener, to: int) -> None:
        self.listener = listener
        self.to = to

    def run(self, source: Input, close: Callable[[], None]) -> None:
        """Passes all messages on, until one of the two sides ends."""
        try:
            while self.pass_message(source):
                pass
            while source.held or source.more():
                self.write(source.take(PART))
        except OSError:
            pass
        try:
            close()
        except OSError:
            pass

    def pass_message(self, source: Input) -> bool:
        """Passes a message on. Returns whether another one may follow, beginning where this one ends."""
        head = source.head()
        length = length_of(head)
        if length is None:
            self.write(head)
            return False
        if length <= LONGEST_BODY:
            body = source.body(length)
            changed = self.changed(body) if len(body) == length else None
            self.write(head + body if changed is None else changed)
            return True
        self.listener.misses()
        self.write(head)
        while length:
            part = source.body(min(length, PART))
            length -= len(part)
            if not part:
                return False
            self.write(part)
        return True

    def changed(self, body: bytes) -> Optional[bytes]:
        """Returns the message to pass on in place of this one; None if it is passed on as it came."""
        try:
            message = json.loads(body)
        except (ValueError, RecursionError):
            self.listener.misses()
            return None
        return framed(message) if self.listener.changes(message) else None

    def write(self, data: bytes) -> None:
        """Writes all of some bytes to the other side."""
        write(self.to, data)


def write(file: int, data: bytes) -> None:
    """Writes all of some bytes to an open file."""
    while data:
        data = data[os.write(file, data) :]


def length_of(head: bytes) -> Optional[int]:
    """Returns the length that a header states; None if it states none, or several."""
    found = [it for it in map(LENGTH.fullmatch, head.split(b"\r\n")) if it]
    return int(found[0][1]) if len(found) == 1 else None


def framed(message: Any) -> bytes:
    """Returns a message with its header."""
    body = json.dumps(message).encode()
    return b"Content-Length: %d\r\n\r\n" % len(body) + body
