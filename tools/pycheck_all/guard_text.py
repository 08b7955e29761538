"""The text of the guards of a core: a module with a wrapper for each of its functions, classes and methods."""
from __future__ import annotations

import json
import re
from typing import Dict, Iterator, List, NamedTuple, Sequence

from .guard_core import Class, Core, Function, Parameter

WIDTH = 88
ANY_WORD = re.compile(r"\bAny\b")
# The comment at the head of the guards
PROMISE = """\
Where the report of the core is clean, a call through this module either raises a
TypeError here, or the core raises none of the four exceptions, as long as nobody
rebinds names of the core or writes into these values from another thread meanwhile."""
HEAD = '''\
"""Guards of the core `{core}`, written by pycheck-all --guards; not to be changed.

{promise}
"""
from __future__ import annotations

{typing}import {runtime} as {guards}
import {core} as {name}
'''


class Modules(NamedTuple):
    """How the core and the file of the border are imported, the digest of the text of the core, and the findings of its
    report if it is not clean."""

    core: str
    runtime: str
    digest: str
    unclean: str


class Writer:
    """Writes the guards of a core. The names that it adds occur nowhere in the core."""

    def __init__(self, core: Core, modules: Modules) -> None:
        self.core, self.modules = core, modules
        self.names = {it: self.fresh(it) for it in ("_core", "_guards", "_border", "_typing")}

    def fresh(self, name: str) -> str:
        """Returns a name that the core does not have, made from this one."""
        while name in self.core.words:
            name += "_"
        return name

    def text(self) -> str:
        """Returns the whole text."""
        parts = [*self.classes(), *(self.function(it) for it in self.core.functions.values())]
        body = "".join([self.exported(), self.border(), *parts])
        own = self.names
        typing = [f"import typing as {own['_typing']}\n"] if f"{own['_typing']}." in body else []
        typing += ["from typing import Any\n"] if ANY_WORD.search(body) else []
        head = HEAD.format(
            core=self.modules.core,
            runtime=self.modules.runtime,
            promise=PROMISE + self.modules.unclean,
            typing="".join([*typing, "\n"]) if typing else "",
            guards=own["_guards"],
            name=own["_core"],
        )
        return head + body

    def exported(self) -> str:
        """Returns the names of the guards, as a list of the module."""
        names = [*self.core.classes, *self.core.functions]
        return "\n" + call("__all__ = ", "[", [json.dumps(it, ensure_ascii=False) for it in names], "]\n")

    def border(self) -> str:
        """Returns the facts about the core that the border needs."""
        fields = {it.name: {field.name: field.type for field in it.fields} for it in self.core.classes.values()}
        parts = [
            self.names["_core"],
            f'digest="{self.modules.digest}"',
            f"classes={table(fields)}",
            f"constants={texts(self.core.roots())}",
        ]
        return f"\n{self.names['_border']} = {self.names['_guards']}.Border(\n" + "".join(
            f"    {indented(it)},\n" for it in parts
        ) + ")\n"

    def classes(self) -> Iterator[str]:
        """Yields the guards of the classes; a type checker sees the classes themselves."""
        if not self.core.classes:
            return
        names = [f"{it} as {it}" for it in self.core.classes]
        yield f"\nif {self.names['_typing']}.TYPE_CHECKING:\n    "
        yield indented(call(f"from {self.modules.core} import ", "(", names, ")", plain=True)) + "\nelse:\n"
        for it in self.core.classes.values():
            yield "".join(f"    {line}\n" if line else "\n" for line in self.class_lines(it))

    def class_lines(self, made: Class) -> Iterator[str]:
        """Yields the guard of a class, with those of its methods."""
        yield from ("", f"@{self.names['_border']}.class_", f"class {made.name}:")
        own = self.free("self", [it.name for it in made.fields])
        yield from indented_lines(signature("__init__", made.fields, "None", own) + " ...")
        for it in made.methods.values():
            own = self.free("self", [parameter.name for parameter in it.parameters])
            yield ""
            yield from indented_lines(signature(it.name, it.parameters, it.returns, own) + " ...")

    def free(self, name: str, others: Sequence[str]) -> str:
        """Returns a name that differs from the others, made from this one."""
        while name in others:
            name += "_"
        return name

    def function(self, made: Function) -> str:
        """Returns the guard of a function."""
        name = f"{self.names['_core']}.{made.name}"
        if made.untyped:
            name = f"{self.names['_typing']}.cast(Any, {name})"
        given = call(f"    return {name}", "(", [it.name for it in made.parameters], ")", plain=True)
        head = signature(made.name, made.parameters, made.returns)
        return f"\n\n@{self.names['_border']}.function\n{head}\n{given}\n"


def signature(name: str, parameters: Sequence[Parameter], returns: str, first: str = "") -> str:
    """Returns the head of a function."""
    given = [f"{it.name}: {it.type}" + (f" = {it.default}" if it.default else "") for it in parameters]
    return call(f"def {name}", "(", [first, *given] if first else given, f") -> {returns}:")


def call(before: str, opening: str, parts: Sequence[str], closing: str, plain: bool = False) -> str:
    """Returns parts between brackets, on one line if they fit, otherwise one on each line."""
    line = f"{before}{opening}{', '.join(parts)}{closing}"
    if plain and opening == "(" and before.startswith("from "):
        line = f"{before}{', '.join(parts)}"
    if len(line) <= WIDTH or not parts:
        return line
    margin = " " * (len(before) - len(before.lstrip()))
    return f"{before}{opening}\n" + "".join(f"{margin}    {it},\n" for it in parts) + margin + closing


def indented(text: str) -> str:
    """Returns a text with the lines after the first indented by four more blanks."""
    return text.replace("\n", "\n    ")


def indented_lines(text: str) -> List[str]:
    """Returns the lines of a text, indented by four more blanks."""
    return [f"    {line}" for line in text.split("\n")]


def texts(rows: Dict[str, str]) -> str:
    """Returns a dict of texts as source text."""
    return call("", "{", [f"{quoted(name)}: {quoted(text)}" for name, text in rows.items()], "}")


def table(rows: Dict[str, Dict[str, str]]) -> str:
    """Returns a dict of dicts of texts as source text, a line for each."""
    if not rows:
        return "{}"
    return "{\n" + "".join(f"    {quoted(name)}: {indented(texts(row))},\n" for name, row in rows.items()) + "}"


def quoted(text: str) -> str:
    """Returns a text between quotes."""
    return json.dumps(text, ensure_ascii=False)
