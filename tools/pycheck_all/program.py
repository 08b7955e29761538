"""Finds the program to ask, and returns its answers."""
from __future__ import annotations

import errno
import os
import resource
import select
import shutil
import signal
import subprocess
import sys
import sysconfig
import threading
import time
from pathlib import Path
from typing import Dict, List, NamedTuple, Optional, Sequence, Set

NAME = "pycheck"
FINDER = Path(__file__).resolve().parent.parent / "ship"
# The exit status of the finder if it finds no program
NO_PROGRAM = 1
VERSION_SECONDS = 60
# The most bytes of memory that the program may take for a file, where the system can bound it
MOST_MEMORY = 1 << 30
OUT_OF_MEMORY = "out of memory"


class NoProgram(Exception):
    """There is no program to ask; the text says why."""


class Broken(NoProgram):
    """The program of a checkout is broken, and no other one may be asked instead."""


class TooLong(Exception):
    """The program did not end in time."""


class Answer(NamedTuple):
    """The answer of the program: its exit status, or minus the signal that ended it; and its two outputs."""

    status: int
    output: bytes
    error: bytes

    @property
    def lacks_memory(self) -> bool:
        """Whether the program lacked memory."""
        return self.status == 3 and self.error.decode("utf-8", "replace").strip() == OUT_OF_MEMORY

    @property
    def reason(self) -> str:
        """Why there is no report, in the words of the program or, if it has none, by its end."""
        if self.status < 0:
            try:
                name = signal.Signals(-self.status).name
            except ValueError:
                name = "unknown"
            return f"{NAME} was ended by signal {-self.status} ({name})"
        said = self.error.decode("utf-8", "replace").strip().splitlines()
        if said and self.status == 3:
            return said[0]
        return f"{NAME} ended with status {self.status} and without a report"


def search_path() -> str:
    """Returns the folders of PATH, without those that depend on the folder in which the command runs: files to check
    may be there, and none of their code is run."""
    folders = os.environ.get("PATH", os.defpath).split(os.pathsep)
    return os.pathsep.join(it for it in folders if os.path.isabs(it))


def found(name: str) -> str:
    """Returns the path of a program that is named; raises NoProgram if there is none."""
    path = shutil.which(name, path=search_path())
    if path is None:
        raise NoProgram(f"{name}: no such program")
    return os.path.abspath(path)


def in_checkout(name: str = NAME) -> str:
    """Returns the program of the checkout of this package, as its script finds it; empty outside a checkout."""
    if FINDER.parent.name != "tools" or not os.access(FINDER, os.X_OK):
        return ""
    try:
        settings = {**os.environ, "PATH": search_path()}
        words = [str(FINDER), "program", name]
        done = subprocess.run(words, stdin=subprocess.DEVNULL, capture_output=True, env=settings)
    except OSError as fault:
        raise NoProgram(f"{FINDER}: {fault.strerror}") from None
    lines = os.fsdecode(done.stdout).splitlines()
    if done.returncode == 0 and lines:
        return found(lines[0])
    said = done.stderr.decode("utf-8", "replace").strip().splitlines()
    kind = NoProgram if done.returncode == NO_PROGRAM else Broken
    raise kind(said[-1] if said else f"{FINDER} ended with status {done.returncode}")


def is_in_user_site() -> bool:
    """Whether this package is installed for one user alone."""
    folder = sysconfig.get_path("purelib", f"{os.name}_user")
    return bool(folder) and os.path.realpath(folder) == os.path.realpath(FINDER.parent)


def beside(name: str = NAME) -> str:
    """Returns the program in the folder of the interpreter's scripts, beside this command, or in that of the scripts
    with which this package was installed; empty if there is none."""
    # A one-line command has no folder
    own = os.path.dirname(os.path.abspath(sys.argv[0])) if os.path.basename(sys.argv[0]) not in ("", "-c", "-m") else ""
    # The folder of `pip install --user`; the list below ends with that of `pip install --target`
    user = sysconfig.get_path("scripts", f"{os.name}_user") if is_in_user_site() else ""
    for folder in (sysconfig.get_path("scripts"), own, user, str(FINDER.parent / "bin")):
        path = shutil.which(os.path.join(folder, name)) if folder else None
        if path:
            return os.path.abspath(path)
    return ""


def chosen(named: str, name: str = NAME, variable: str = "PYCHECK") -> str:
    """Returns the program to ask: the one that a word or a variable names; otherwise that of the checkout, of the
    wheel, or on PATH."""
    named = named or os.environ.get(variable, "")
    if named:
        return found(named)
    why = f"no program: name it by {'--program or by ' if name == NAME else ''}the variable {variable}"
    try:
        path = in_checkout(name)
    except Broken:
        raise
    except NoProgram as fault:
        path, why = "", str(fault)
    path = path or beside(name) or os.path.abspath(shutil.which(name, path=search_path()) or "")
    if path == os.path.abspath(""):
        raise NoProgram(why)
    return path


class Program:
    """The program, which many threads may ask at once. An answer has `most` bytes at most, if that is given."""

    def __init__(self, path: str, most: Optional[int] = None) -> None:
        self.path = path
        self.most = most
        self._running: Set["subprocess.Popen[bytes]"] = set()
        self._lock = threading.Lock()
        self._stopped = False
        self._variables = dict(os.environ)

    def ask(self, until: float, *words: str) -> Answer:
        """Runs the program with these words, until a time of the clock `time.monotonic`. Raises TooLong if it has to be
        ended then, and OSError if it could not be run or its answer is too long."""
        with self._started(words) as process:
            try:
                output, error = read_all(process, until, self.most)
                status = process.wait(max(0.0, until - time.monotonic()))
            except BaseException as fault:
                process.kill()
                if isinstance(fault, subprocess.TimeoutExpired):
                    raise TooLong from None
                raise
            finally:
                with self._lock:
                    self._running.discard(process)
        return Answer(status, output, error)

    def _started(self, words: Sequence[str]) -> "subprocess.Popen[bytes]":
        with self._lock:
            if self._stopped:
                raise OSError(0, "stopped")
            process = subprocess.Popen([self.path, *words], bufsize=0, stdin=subprocess.DEVNULL, stdout=subprocess.PIPE,
                                       stderr=subprocess.PIPE, env=self._variables)
            self._running.add(process)
        bound_memory(process.pid)
        return process

    def stop(self) -> None:
        """Ends the programs that still run, and starts no more."""
        with self._lock:
            self._stopped = True
            for process in self._running:
                process.kill()

    def version(self) -> str:
        """Returns the line in which the program tells its version."""
        try:
            answer = self.ask(time.monotonic() + VERSION_SECONDS, "--version")
        except TooLong:
            return ""
        said = answer.output.decode("utf-8", "replace").strip().splitlines()
        return said[0] if answer.status == 0 and said else ""


def bound_memory(process: int) -> None:
    """Has a program that has begun answer that it lacks memory rather than take more than MOST_MEMORY."""
    try:
        resource.prlimit(process, resource.RLIMIT_AS, (MOST_MEMORY, MOST_MEMORY))
    except (AttributeError, OSError, ValueError):
        # This system has no such call, a lower bound holds already, or the program has ended
        pass


def read_all(process: "subprocess.Popen[bytes]", until: float, most: Optional[int] = None) -> List[bytes]:
    """Reads the outputs of a program side by side to their ends. Returns their bytes; raises TooLong if the ends do not
    come in time, and OSError if they have more bytes together than `most`."""
    read = 0
    parts: Dict[int, List[bytes]] = {file.fileno(): [] for file in (process.stdout, process.stderr) if file}
    poll = select.poll()
    for file in parts:
        poll.register(file, select.POLLIN)
    left = set(parts)
    while left:
        if time.monotonic() > until:
            raise TooLong
        for file, _ in poll.poll(1000 * max(0.0, until - time.monotonic())):
            part = os.read(file, 65536)
            parts[file].append(part)
            read += len(part)
            if most is not None and read > most:
                raise OSError(errno.EFBIG, "its answer is too long")
            if not part:
                poll.unregister(file)
                left.discard(file)
    return [b"".join(found) for found in parts.values()]
