"""The name that was meant at an error: the most similar one of the names that could be there, by Python's `difflib`.

The sentence of a detail names the unknown name. The names that could be there are found in the tree of Python's `ast`:
those of the module, of the function around the place, of a class and its ancestors, or of the parameters of a call."""
from __future__ import annotations

import ast
import difflib
import functools
import re
from typing import Callable, Dict, Iterator, List, NamedTuple, Optional

from .cases import LONGEST_SENTENCE
from .findings import Checked, Finding
from .source import Text

TYPES = ("int", "str", "bool", "None", "object", "list", "dict", "tuple", "Any")
BUILT_IN = ("print", "len", "range", "isinstance", "str", "True", "False", "None")
METHODS = {"list": ["append", "pop"], "dict": ["get"]}
# How alike two names have to be, from 0 to 1, and how many names are compared at most
LIKENESS = 0.7
MOST_NAMES = 400
# A file with more findings than this has no such names: to compare them all would take too long
MOST_FINDINGS = 500
# Of how many texts and functions the names are kept
KEPT = 16


class Unknown(NamedTuple):
    """A form of sentences about an unknown name, and the names that could be in its place."""

    form: "re.Pattern[str]"
    names: Callable[[Text, Finding, "re.Match[str]"], List[str]]


def values(text: Text, finding: Finding, said: "re.Match[str]") -> List[str]:
    """Returns the names of values at a place: those of the function around it, of the module, and built-in ones."""
    function = text.function_around(finding.place.start.byte)
    return [*(locals_of(function) if function else []), *of_module(text), *BUILT_IN]


def types(text: Text, finding: Finding, said: "re.Match[str]") -> List[str]:
    """Returns the names of types."""
    return [*classes_of(text), *TYPES]


def attributes(text: Text, finding: Finding, said: "re.Match[str]") -> List[str]:
    """Returns the attributes of the members of a union that do not lack the name, or of the whole type."""
    lacking = (said["lacking"] or "").split(" or ")
    members = [it for it in said["of"].split(" | ") if not said["lacking"] or it in lacking]
    found = [METHODS.get(it.partition("[")[0]) or members_of(text, it) for it in members]
    return [name for names in found for name in names if all(name in others for others in found)]


def parameters(text: Text, finding: Finding, said: "re.Match[str]") -> List[str]:
    """Returns the parameters of a function or a method, or the fields of a class."""
    owner, _, name = said["of"].rpartition(".")
    suite = classes_of(text)[owner].body if owner in classes_of(text) else text.tree.body if not owner else []
    for it in suite:
        if isinstance(it, ast.FunctionDef) and it.name == name:
            return [parameter.arg for parameter in it.args.args[1 if owner else 0 :]]
    return members_of(text, name)


FORMS: Dict[str, Unknown] = {
    "E02": Unknown(re.compile(r"nothing named (?P<name>\w+) is known here"), values),
    "E09": Unknown(re.compile(r"no class is named (?P<name>\w+)"), types),
    "E14": Unknown(re.compile(r"(?P<of>[\w.]+) has no parameter (?P<name>\w+)"), parameters),
    "E15": Unknown(
        re.compile(r"(?P<of>.+) has no attribute (?P<name>\w+)(?: where it is (?P<lacking>.+))?"), attributes
    ),
}


@functools.lru_cache(maxsize=KEPT)
def of_module(text: Text) -> List[str]:
    """Returns the names that a module binds: of functions, classes and constants."""
    return [name for it in text.tree.body for name in bound_by(it)]


def bound_by(node: ast.stmt) -> Iterator[str]:
    """Yields the names that a statement of a module or of a class binds."""
    if isinstance(node, (ast.FunctionDef, ast.ClassDef)):
        yield node.name
    elif isinstance(node, ast.AnnAssign) and isinstance(node.target, ast.Name):
        yield node.target.id
    elif isinstance(node, ast.Assign):
        yield from (it.id for it in node.targets if isinstance(it, ast.Name))


@functools.lru_cache(maxsize=KEPT)
def locals_of(function: ast.FunctionDef) -> List[str]:
    """Returns the names of the parameters and locals of a function, in their order."""
    names = [it.arg for it in function.args.args]
    names += [it.id for it in ast.walk(function) if isinstance(it, ast.Name) and isinstance(it.ctx, ast.Store)]
    return list(dict.fromkeys(names))


@functools.lru_cache(maxsize=KEPT)
def classes_of(text: Text) -> Dict[str, ast.ClassDef]:
    """Returns the classes of a module by their names."""
    return {it.name: it for it in text.tree.body if isinstance(it, ast.ClassDef)}


def members_of(text: Text, name: str) -> List[str]:
    """Returns the fields and methods of a class and its ancestors; none if the module has no such class."""
    classes, found, seen = classes_of(text), [], set()
    while name in classes and name not in seen:
        seen.add(name)
        found += [member for it in classes[name].body for member in bound_by(it)]
        name = next((it.id for it in classes[name].bases if isinstance(it, ast.Name)), "")
    return found


def most_similar(name: str, names: List[str]) -> str:
    """Returns the name that is most similar to one, where the case of letters counts less than the letters; empty if
    none is similar enough."""
    others = [it for it in dict.fromkeys(names) if it != name][:MOST_NAMES]
    lower, exact = (difflib.SequenceMatcher(None, "", it, autojunk=False) for it in (name.lower(), name))
    best, chosen = (LIKENESS, 0.0), ""
    for other in others:
        lower.set_seq1(other.lower())
        if lower.real_quick_ratio() >= best[0] and lower.quick_ratio() >= best[0]:
            exact.set_seq1(other)
            likeness = (lower.ratio(), exact.ratio())
            best, chosen = (likeness, other) if likeness > best else (best, chosen)
    return chosen


def name_at(file: Checked, finding: Finding) -> Optional[str]:
    """Returns the name that was meant at an error; None if no name is similar."""
    unknown = FORMS.get(finding.code) if len(file.findings) <= MOST_FINDINGS else None
    text = finding.detail.text if finding.detail else ""
    said = unknown.form.fullmatch(text) if unknown and len(text) <= LONGEST_SENTENCE else None
    if unknown is None or said is None:
        return None
    return most_similar(said["name"], unknown.names(file.text, finding, said)) or None


def forget() -> None:
    """Keeps nothing any more of the texts that were read."""
    of_module.cache_clear()
    locals_of.cache_clear()
    classes_of.cache_clear()
