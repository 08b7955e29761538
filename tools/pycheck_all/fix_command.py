"""The command `--fix`: shows the rewrites as a diff, or writes them."""
from __future__ import annotations

import collections
import difflib
import os
import re
import stat
from typing import List, NamedTuple

from . import files, reading, texts
from .findings import Checked, amount
from .fixing import OF_SCRIPTS, REWRITES, Fixed, Fixer, NotFixed
from .outputs import Links
from .program import Program, TooLong


class Outcome(NamedTuple):
    """The result for one file: the lines to show, and its check afterwards."""

    lines: List[str]
    checked: Checked


def fixer(program: Program, seconds: float, source: files.Source) -> Fixer:
    """Returns the object that fixes a file; a module that another one imports is not fixed as if it were a script."""
    return Fixer(program, seconds, REWRITES if is_imported(source.name) else (*REWRITES, *OF_SCRIPTS))


def fix_file(fixer: Fixer, source: files.Source, links: Links, write: bool) -> Outcome:
    """Fixes a file. Returns the lines to show, and its check afterwards."""
    try:
        if source.failure:
            raise NotFixed(source.failure)
        data = reading.regular(source.path, files.LIMIT)
        fixed = fixer.fix(data)
        if write and fixed.after != data:
            rewrite(source, links, fixed)
    except TooLong:
        failure = f"it was not fixed within {fixer.run.seconds:g} seconds; --timeout gives it more"
        return Outcome([], Checked(source.name, failure=failure))
    except NotFixed as fault:
        return Outcome([], Checked(source.name, failure=str(fault)))
    except OSError as fault:
        return Outcome([], Checked(source.name, failure=files.reason(fault)))
    lines = [*([] if write else diff(source.name, fixed)), *told(source.name, fixed, write)]
    return Outcome(lines, fixer.check(source.name, fixed.after))


def rewrite(source: files.Source, links: Links, fixed: Fixed) -> None:
    """Writes a file; raises OSError or NotFixed if it is a link, or no longer has the text that was read."""
    if source.name != source.path or os.path.islink(source.path):
        raise NotFixed("it is not written: it is a link, or no file of its own")
    links.refuse(source.path)
    descriptor = os.open(source.path, os.O_RDWR | os.O_CLOEXEC | os.O_NOFOLLOW | os.O_NONBLOCK)
    with open(descriptor, "r+b") as file:
        if not stat.S_ISREG(os.fstat(descriptor).st_mode) or file.read() != fixed.before:
            raise NotFixed("it is not written: it was changed meanwhile")
        file.seek(0)
        file.write(fixed.after)
        file.truncate()


def diff(name: str, fixed: Fixed) -> List[str]:
    """Returns the changes of a file, as a diff with three lines around each."""
    before, after = (lines_of(it) for it in (fixed.before, fixed.after))
    return list(difflib.unified_diff(before, after, texts.plain(name), texts.plain(name), lineterm=""))


def lines_of(data: bytes) -> List[str]:
    """Returns the lines of a text, without their ends."""
    lines = data.decode("utf-8", "replace").split("\n")
    return lines if lines[-1] else lines[:-1]


def is_imported(path: str) -> bool:
    """Whether a module beside a file imports it by its name; true as well if such a module cannot be read."""
    folder, name = os.path.split(os.path.abspath(path))
    imports = re.compile(rb"^[ \t]*(?:from|import)\b.*\b" + re.escape(os.fsencode(name[:-3])) + rb"\b", re.MULTILINE)
    try:
        others = [it.path for it in os.scandir(folder) if it.name.endswith(".py") and it.name != name]
        return any(imports.search(reading.beginning(it, files.LIMIT)) for it in sorted(others))
    except OSError:
        return True


def told(name: str, fixed: Fixed, write: bool) -> List[str]:
    """Returns a line that says which rewrites were made."""
    if fixed.before == fixed.after:
        return []
    counted = collections.Counter(fixed.made)
    parts = ", ".join(f"{number} {what}" for what, number in sorted(counted.items()))
    number = amount(sum(counted.values()), "rewrite")
    return [f"{texts.plain(name)}: {number} {'made' if write else 'to make'}: {parts}"]
