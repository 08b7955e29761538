"""Rewrites of several targets that take the items of a tuple, `a, b = e` and `for a, b in e`. A rewrite is made only if
an
annotation or the report of the result tells how many items there are, since values of other types can be unpacked too,
with any number of items."""
from __future__ import annotations

import ast
from typing import Callable, Dict, FrozenSet, Iterator, List, NamedTuple, Optional, Set, Tuple, Union

from .fix_module import Edit, Fix, Module
from .fix_places import Guess, function_of
from .fix_statements import is_whole, lines_in_place
from .fix_types import told

GUESSED = "unpacking by its type"
# The local by which the program is asked for the type of the unpacked value
ASKING = "asked"


class Site(NamedTuple):
    """A statement that takes the items of one value, which must be a tuple for the meaning to stay the same: its
    targets, and the value, or the iterable of the loop."""

    node: Union[ast.Assign, ast.For]
    targets: List[ast.expr]
    value: ast.expr


def unpacked(module: Module) -> Iterator[Fix]:
    """Rewrites `a, b = e` and `for a, b in e`, if an annotation or a display tells that tuples of that length are
    unpacked."""
    taken: List[str] = []
    for site in sites(module):
        if is_told(module, site):
            yield rewritten(module, site, "unpacking", taken, False)


def guessed(without: FrozenSet[Guess], asks: bool) -> "Callable[[Module], Iterator[Fix]]":
    """Returns a rewrite of all other such statements, except those in `without`. With `asks`, each gets a line by which
    the report tells whether the meaning is kept: see `guesses`."""

    def rewrite(module: Module) -> Iterator[Fix]:
        """Yields the rewrites of a module."""
        taken: List[str] = []
        for site in sites(module):
            if not is_told(module, site) and guess_of(module, site.node, site.targets) not in without:
                yield rewritten(module, site, GUESSED, taken, asks)

    return rewrite


def guesses(module: Module, before: Set[str]) -> Dict[Tuple[int, int], Guess]:
    """Returns the rewritten statements with a line that asks, by the places of these questions. `before` are the names
    that the module had before. If the report has no finding at such a place, a tuple of that length is unpacked."""
    found: Dict[Tuple[int, int], Guess] = {}
    for node in module.nodes:
        if not isinstance(node, ast.AnnAssign) or not isinstance(node.target, ast.Name) or node.value is None:
            continue
        name = node.target.id
        if name in before or name.rstrip("_0123456789") != ASKING or not isinstance(node.annotation, ast.Subscript):
            continue
        count = length_of(ast.unparse(node.annotation))
        suite = module.body_of(node)
        lines = suite[suite.index(node) + 1 :][:count]
        targets = [it.targets[0] for it in lines if isinstance(it, ast.Assign)]
        guess = guess_of(module, node, targets)
        for line in [node, *lines]:
            value = getattr(line, "value", None)
            found.update({module.at(it): guess for it in ast.walk(value or line) if isinstance(it, ast.expr)})
    return found


def guess_of(module: Module, node: ast.AST, targets: List[ast.expr]) -> Guess:
    """Returns what identifies a statement: its function and the texts of its targets."""
    return Guess(function_of(module, node), ", ".join(map(ast.unparse, targets)), b"")


def sites(module: Module) -> Iterator[Site]:
    """Yields the statements of functions that assign the items of one value, each to a target of its own."""
    for node in module.nodes:
        if isinstance(node, ast.Assign) and len(node.targets) == 1 and is_whole(module, node):
            site = Site(node, items_of(node.targets[0]), node.value)
        elif isinstance(node, ast.For) and has_own_lines(module, node):
            site = Site(node, items_of(node.target), node.iter)
        else:
            continue
        is_display = isinstance(node, ast.Assign) and isinstance(site.value, (ast.Tuple, ast.List))
        if site.targets and not is_display and module.function(node) is not None and not module.reflects:
            yield site


def items_of(target: ast.expr) -> List[ast.expr]:
    """Returns the targets inside a target, if each takes one item; otherwise none."""
    parts = target.elts if isinstance(target, (ast.Tuple, ast.List)) else []
    return [] if any(isinstance(it, (ast.Starred, ast.Tuple, ast.List)) for it in parts) else list(parts)


def has_own_lines(module: Module, node: ast.For) -> bool:
    """Whether lines can be put before the body of a loop, and no comment is between its targets."""
    body = node.body[0]
    blanks = module.indent(node) + (module.indent(body) if body.lineno > node.lineno else b"")
    is_plain = not blanks.strip(b" ") and not getattr(body, "decorator_list", [])
    return is_plain and not module.has_comment(module.at(node)[0], module.at(node.iter)[0])


def is_told(module: Module, site: Site) -> bool:
    """Whether annotations or displays tell that the value is a tuple of that length, or that the loop iterates over
    such tuples."""
    if module.binds("tuple") or module.binds("list"):
        return False
    count, text = len(site.targets), told(module, site.value)
    if isinstance(site.node, ast.Assign):
        return length_of(text) == count
    if isinstance(site.value, (ast.Tuple, ast.List)):
        rows = [it.elts for it in site.value.elts if isinstance(it, ast.Tuple)]
        plain = not any(isinstance(it, ast.Starred) for row in rows for it in row)
        return plain and [len(it) for it in rows] == [count] * len(site.value.elts)
    item = inside(text, "list")
    return item is not None and length_of(ast.unparse(item)) == count


def inside(text: str, name: str) -> Optional[ast.expr]:
    """Returns the text in the brackets of a type with this name; None for another type."""
    found = ast.parse(text or "None", mode="eval").body
    is_it = isinstance(found, ast.Subscript) and isinstance(found.value, ast.Name) and found.value.id == name
    return found.slice if is_it and isinstance(found, ast.Subscript) else None


def length_of(text: str) -> int:
    """Returns how many items a tuple of a type has; 0 for another type."""
    part = inside(text, "tuple")
    parts = part.elts if isinstance(part, ast.Tuple) else [part] if part else []
    is_any = any(isinstance(it, ast.Constant) and it.value is Ellipsis for it in parts)
    return 0 if is_any else len(parts)


def rewritten(module: Module, site: Site, name: str, taken: List[str], asks: bool) -> Fix:
    """Returns the rewrite of a statement: an assignment for each target, after a line that asks, if wanted. New names
    are added to `taken`."""
    bound = {it.id for it in site.targets if isinstance(it, ast.Name)}
    is_named = isinstance(site.value, ast.Name) and site.value.id not in bound
    if isinstance(site.node, ast.Assign) and is_named and not asks and not module.rebinds:
        whole = module.segment(site.value)
    else:
        taken.append(module.fresh("pair" if len(site.targets) == 2 else "items", taken))
        whole = taken[-1].encode()
    lines = [module.segment(it) + b" = " + whole + b"[%d]" % at for at, it in enumerate(site.targets)]
    if asks:
        taken.append(module.fresh(ASKING, taken))
        kind = b"tuple[" + b", ".join([b"object"] * len(site.targets)) + b"]"
        lines.insert(0, taken[-1].encode() + b": " + kind + b" = " + whole)
    if isinstance(site.node, ast.Assign):
        first = [whole + b" = " + module.value(site.value)] if whole != module.segment(site.value) else []
        return Fix(name, *module.at(site.node), (lines_in_place(module, site.node, [*first, *lines]),), True)
    edits = (Edit(*head_of(module, site.node), b" " + whole + b" "), lines_before(module, site.node, lines))
    return Fix(name, *module.at(site.node.target), edits)


def lines_before(module: Module, node: ast.For, lines: List[bytes]) -> Edit:
    """Returns the edit that puts lines before the body of a loop; a body on the line of its head is moved below
    them."""
    start = at = module.at(node.body[0])[0]
    if node.body[0].lineno > node.lineno:
        return Edit(at, at, b"".join(it + module.newline + module.indent(node.body[0]) for it in lines))
    while module.data[start - 1 : start] == b" ":
        start -= 1
    step = module.newline + module.indent(node) + module.step()
    return Edit(start, at, b"".join(step + it for it in [*lines, b""]))


def head_of(module: Module, node: ast.For) -> Tuple[int, int]:
    """Returns the place between the words `for` and `in` of a loop."""
    words = module.between(module.at(node)[0], module.at(node.iter)[0])
    return words[0].end, [it.start for it in words if it.text == "in"][-1]
