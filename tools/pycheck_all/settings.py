"""The settings of a project: the table `[tool.pycheck]` of its `pyproject.toml`.

The file is a stranger's. Each value is checked for its type and its form, no path leads out of the project, and an
unknown key is a fault, since its meaning would be ignored."""
from __future__ import annotations

import os
from typing import Any, Callable, Dict, List, NamedTuple, Optional, Sequence, Tuple

from . import reading, texts, toml
from .words import FORMS, Words

NAME = "pyproject.toml"
TABLE = ("tool", "pycheck")
LIMIT = 256 << 10
MOST_ENTRIES = 200
LONGEST = 1024
# How many folders, from the one in which the command runs upwards, are searched at most
MOST_ABOVE = 64


class NoSettings(Exception):
    """The settings of a project cannot be read; the text says why."""


class Settings(NamedTuple):
    """The settings of the project in a folder. Paths are relative to it; an empty text means that the setting is
    missing."""

    folder: str
    core: List[str]
    exclude: List[str]
    output: str
    baseline: str


def of_project() -> Optional[Settings]:
    """Returns the settings of the project in which the command runs; None if there are none. Raises NoSettings."""
    return of_folders(folders(os.path.abspath(os.curdir)))


def of_folders(looked_in: Sequence[str]) -> Optional[Settings]:
    """Returns the settings of the first of some folders that has any; None if none has. Raises NoSettings."""
    for folder in looked_in:
        path = os.path.join(folder, NAME)
        if os.path.lexists(path):
            try:
                found = read(path, folder)
            except OSError as fault:
                raise NoSettings(f"{path}: {fault.strerror or fault}") from None
            except (toml.NoToml, ValueError) as fault:
                raise NoSettings(f"{path}: {fault}") from None
            if found:
                return found
    return None


def folders(start: str, tops: Sequence[str] = ()) -> List[str]:
    """Returns a folder; in a checkout of git also those above it, up to the top, and elsewhere up to one of some
    folders. Others above may belong to anybody."""
    found = [start]
    known = 1
    while len(found) < MOST_ABOVE:
        if os.path.lexists(os.path.join(found[-1], ".git")):
            return found
        known = len(found) if found[-1] in tops else known
        above = os.path.dirname(found[-1])
        if above == found[-1]:
            break
        found.append(above)
    return found[:known]


def read(path: str, folder: str) -> Optional[Settings]:
    """Returns the settings of a file; None if it has no such table. Raises ValueError if they are wrong."""
    table = toml.table_of(reading.regular(path, LIMIT).decode("utf-8"), TABLE)
    if table is None:
        return None
    if not isinstance(table, dict):
        raise ValueError("tool.pycheck is no table")
    for key in table:
        if key not in KEYS:
            named = ascii(key[:LONGEST])
            raise ValueError(f"[tool.pycheck] has no key {named}: its keys are {', '.join(KEYS)}")
    return Settings(folder, **{key: value(table, folder) for key, value in KEYS.items()})


def text_in(key: str, value: Any) -> str:
    """Returns a value that is a text; raises ValueError for others."""
    if not isinstance(value, str) or not 0 < len(value) <= LONGEST or texts.CONTROL.search(value):
        raise ValueError(f"{key} is no text of 1 to {LONGEST} characters without control characters")
    return value


def texts_in(key: str, value: Any) -> List[str]:
    """Returns a value that is an array of texts; raises ValueError for others."""
    if not isinstance(value, list) or not len(value) <= MOST_ENTRIES:
        raise ValueError(f"{key} is no array of at most {MOST_ENTRIES} texts")
    return [text_in(f"an entry of {key}", it) for it in value]


def inside(key: str, path: str, folder: str) -> str:
    """Returns a path that leads to something in the folder, also over its links; raises ValueError for others. The path
    is resolved as it is used: over a link two dots lead elsewhere than in the text of the path."""
    found = os.path.normpath(path)
    top, end = os.path.realpath(folder), os.path.realpath(os.path.join(folder, found))
    if os.path.isabs(found) or os.path.commonpath([top, end]) != top:
        raise ValueError(f"{key} leads out of the project: {found}")
    return found


def core_in(table: Dict[str, Any], folder: str) -> List[str]:
    """Returns the paths of the core, each of which must exist."""
    paths = [inside("an entry of core", it, folder) for it in texts_in("core", table.get("core", []))]
    if "core" in table and not paths:
        raise ValueError("core is empty")
    for path in paths:
        if not os.path.exists(os.path.join(folder, path)):
            raise ValueError(f"an entry of core is not there: {path}")
    return paths


def output_in(table: Dict[str, Any]) -> str:
    """Returns the form of the output."""
    form = table.get("output", "")
    if "output" in table and form not in FORMS:
        raise ValueError(f"output is none of {', '.join(FORMS)}")
    return str(form)


def baseline_in(table: Dict[str, Any], folder: str) -> str:
    """Returns the path of the baseline."""
    return inside("baseline", text_in("baseline", table["baseline"]), folder) if "baseline" in table else ""


KEYS: Dict[str, Callable[[Dict[str, Any], str], Any]] = {
    "core": core_in,
    "exclude": lambda table, _: texts_in("exclude", table.get("exclude", [])),
    "output": lambda table, _: output_in(table),
    "baseline": baseline_in,
}


def applied(asked: Words) -> Tuple[Words, Optional[Settings]]:
    """Returns the words, with the settings of the project for each that is not given; and these settings."""
    found = None if asked.no_project else of_project()
    if found is None:
        return asked, None
    used = found._replace(
        core=[] if asked.core else found.core,
        exclude=[] if asked.exclude else found.exclude,
    )
    baseline = os.path.relpath(os.path.join(found.folder, found.baseline)) if found.baseline else ""
    known = asked.baseline or ("" if asked.write_baseline else baseline)
    return asked._replace(output=asked.output or found.output, baseline=known), used
