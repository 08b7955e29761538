"""Guards: for a clean core, a module through which other code calls it. No value that breaks the promise of the core's
report
gets past them."""
from __future__ import annotations

import hashlib
import keyword
import os
import tempfile
from pathlib import Path
from typing import List, NamedTuple

from . import files, reading, running
from .findings import REFUSED, Checked, amount
from .guard_core import Core
from .guard_text import Modules, Writer
from .outputs import Links
from .program import Program

RUNTIME = Path(__file__).with_name("pycheck_guards.py")
MARK = b"pycheck-all --guards"


class NoGuards(Exception):
    """No guards can be written; the text says why."""


class Asked(NamedTuple):
    """The guards that are asked for: the file of the core, the file to write, or none, and whether they are written
    even if the report is not clean."""

    core: str
    to: str
    anyway: bool

    @property
    def output(self) -> str:
        """The path of the guards."""
        return self.to or self.core[:-3] + "_api.py"


class Made(NamedTuple):
    """The result: the core as it was checked, and a line that says what was written, or why nothing was."""

    checked: Checked
    written: str
    withheld: str


def name_of(path: str) -> str:
    """Returns the name by which a module is imported: that of its file, after those of the packages around it."""
    name = os.path.basename(path)[:-3]
    if not path.endswith(".py") or not name.isidentifier() or keyword.iskeyword(name):
        raise NoGuards(f"{path}: no module of this name can be imported")
    return ".".join([*packages(os.path.dirname(os.path.abspath(path))), name])


def packages(folder: str) -> List[str]:
    """Returns the names of the package that a folder is, from the outermost on; empty if it is not a package."""
    found: List[str] = []
    while os.path.exists(os.path.join(folder, "__init__.py")) and os.path.basename(folder).isidentifier():
        found.insert(0, os.path.basename(folder))
        folder = os.path.dirname(folder)
    return found


def make(asked: Asked, program: Program, seconds: float) -> Made:
    """Checks the core, and writes its guards. Returns the check, with a line that says what was written or why nothing
    was; raises NoGuards."""
    core, runtime = name_of(asked.core), os.path.join(os.path.dirname(asked.output), RUNTIME.name)
    own = name_of(asked.output)
    if own in (core, name_of(runtime)):
        raise NoGuards(f"{asked.output}: the guards cannot have this name")
    try:
        data = files.content_of(asked.core)
    except OSError as fault:
        raise NoGuards(f"{asked.core}: {files.reason(fault)}") from None
    run = running.Run(program, seconds, False, True)
    checked = check(run, asked.core, data)
    withheld = reason(asked, checked)
    if withheld:
        return Made(checked, "", withheld)
    try:
        read = Core(data)
    except (SyntaxError, ValueError, RecursionError) as fault:
        raise NoGuards(f"{asked.core}: Python does not take it for a module: {fault}") from None
    if not asked.anyway:
        refuse_hidden(read, run, asked.core, data)
    digest = hashlib.sha256(data.replace(b"\r\n", b"\n")).hexdigest()
    unclean = f"\n\nIt is not clean: {counts(checked)}." if checked.findings else ""
    text = Writer(read, Modules(core, name_of(runtime), digest, unclean)).text()
    refuse_broken(asked, text)
    put(asked, runtime, text)
    methods = sum(len(it.methods) for it in read.classes.values())
    number = f"{amount(len(read.functions), 'function')}, {amount(len(read.classes), 'class', 'classes')}"
    return Made(checked, f"{asked.output}: guards of {number} and {amount(methods, 'method')}{apart(asked.core)}", "")


def apart(path: str) -> str:
    """Returns a warning about a core whose folder is not a package but is inside one, from which the core cannot be
    imported by that name; empty for others."""
    folder = os.path.dirname(os.path.abspath(path))
    if packages(folder) or not packages(os.path.dirname(folder)):
        return ""
    return f"; they import `{name_of(path)}`, since there is no {os.path.join(os.path.dirname(path), '__init__.py')}"


def check(run: running.Run, name: str, data: bytes) -> Checked:
    """Checks a text under a name."""
    with tempfile.TemporaryDirectory(prefix="pycheck-") as folder:
        path = os.path.join(folder, "core.py")
        with open(path, "wb") as file:
            file.write(data)
        return run.check(files.Source(name, path))


def counts(checked: Checked) -> str:
    """Returns how many errors and dynamic places a report has."""
    errors = sum(it.kind == "error" for it in checked.findings)
    return f"{amount(errors, 'error')}, {amount(len(checked.findings) - errors, 'dynamic place')}"


def reason(asked: Asked, checked: Checked) -> str:
    """Returns why there are no guards of a core that was checked; empty if there may be guards."""
    if checked.failure:
        return f"{asked.core}: no guards, since it was not checked"
    if any(it.kind == REFUSED for it in checked.findings):
        return f"{asked.core}: no guards, since it is no module of the profile"
    if checked.findings and not asked.anyway:
        return f"{asked.core}: no guards, since the promise excludes what is listed; --guards-anyway writes them"
    return ""


def refuse_hidden(read: Core, run: running.Run, name: str, data: bytes) -> None:
    """Raises NoGuards if a constant has no annotation, and its text does not show its type."""
    hidden = [it for it in read.constants.values() if it.column is not None and not it.type]
    guessed = [it for it in read.constants.values() if it.column is not None and it.type]
    if guessed and not hidden:
        checked = check(run, name, read.annotated(data))
        if checked.failure or checked.findings:
            lines = {it.place.start.line for it in checked.findings}
            hidden = [it for it in guessed if it.line in lines] or guessed
    if hidden:
        names = ", ".join(f"{it.name} (line {it.line})" for it in hidden)
        raise NoGuards(f"{name}: no guards, since these constants do not show their types; annotate them: {names}")


def refuse_broken(asked: Asked, text: str) -> None:
    """Raises NoGuards if the guards of a core with errors would not be a module, for example if two fields have one
    name."""
    try:
        compile(text, asked.output, "exec", dont_inherit=True)
    except (SyntaxError, ValueError, RecursionError) as fault:
        raise NoGuards(f"{asked.core}: no guards, since errors of the core would be errors of them: {fault}") from None


def put(asked: Asked, runtime: str, text: str) -> None:
    """Writes the guards, and the file of the border beside them."""
    links = Links([asked.core])
    for path, content in ((runtime, RUNTIME.read_text(encoding="utf-8")), (asked.output, text)):
        try:
            if os.path.lexists(path) and MARK not in reading.beginning(path, 1000):
                raise NoGuards(f"{path}: it is there already, and not written by --guards")
            links.write(path, content)
        except OSError as fault:
            raise NoGuards(f"{path}: {fault.strerror or fault}") from None
