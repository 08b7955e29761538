"""Rewrites of methods, built-in functions and slices to calls of the cookbook's functions, which are put into the
module
once each. A rewrite is made only if an annotation tells the type of the value."""
from __future__ import annotations

import ast
import functools
from pathlib import Path
from typing import Dict, Iterator, List, NamedTuple, Optional, Sequence, Set

from .fix_expressions import in_format
from .fix_module import Edit, Fix, Module
from .fix_types import INTEGERS, TEXT, TEXTS, is_number, is_whole_number, told

HERE = Path(__file__).resolve().parent
# The cookbook in the wheel, and in a checkout
FOLDERS = (HERE / "cookbook", HERE.parent.parent / "cookbook")
FILES = ("texts.py", "lists_of_int.py", "lists_of_str.py")
# By method of a text: how many arguments it may have, and the function, with the arguments that are added
METHODS = {
    "strip": {0: ("strip", ""), 1: ("strip", "")},
    "split": {0: ("words_of", ""), 1: ("split", "")},
    "join": {1: ("join", "")},
    "find": {1: ("find", ""), 2: ("find", "")},
    "startswith": {1: ("starts_at", ", 0")},
    "replace": {2: ("replace", "")},
}
# By built-in function or slice: the function for each type of the argument
FUNCTIONS_OF = {
    "sorted": {INTEGERS: "sorted_of", TEXTS: "sorted_of_str"},
    "max": {INTEGERS: "max_of", TEXTS: "max_of_str"},
    "min": {INTEGERS: "min_of", TEXTS: "min_of_str"},
    "sum": {INTEGERS: "sum_of"},
    "int": {TEXT: "int_of"},
}
SLICES = {TEXT: "slice_of", INTEGERS: "slice_of_list", TEXTS: "slice_of_list_str"}


class Recipe(NamedTuple):
    """A function of the cookbook: its text with the comment above it, its tree, and the functions that it calls."""

    text: bytes
    tree: ast.FunctionDef
    calls: List[str]


@functools.lru_cache(maxsize=None)
def recipes() -> Dict[str, Recipe]:
    """Returns the functions of the cookbook by their names; none if the cookbook is missing."""
    folder = next((it for it in FOLDERS if it.is_dir()), None)
    found: Dict[str, Recipe] = {}
    for name in FILES if folder else ():
        module = Module((folder / name).read_bytes())  # type: ignore[operator]
        defined = {it.name: it for it in module.tree.body if isinstance(it, ast.FunctionDef) and it.name != "main"}
        for one in defined.values():
            called = {it.id for it in ast.walk(one) if isinstance(it, ast.Name)} & set(defined) - {one.name}
            found[one.name] = Recipe(text_with_comment(module, one), one, sorted(called))
    return found


def text_with_comment(module: Module, node: ast.FunctionDef) -> bytes:
    """Returns the text of a function with the lines of comment directly above it."""
    first = node.lineno - 1
    while first and module.data[module.starts[first - 1] :].startswith(b"#"):
        first -= 1
    return module.data[module.starts[first] : module.at(node)[1]]


def closure(name: str) -> List[str]:
    """Returns the names of a function of the cookbook and of all that it calls, in the order of the cookbook."""
    needed: Set[str] = set()
    left = [name]
    while left:
        one = left.pop()
        if one not in needed:
            needed.add(one)
            left += recipes()[one].calls
    return [it for it in recipes() if it in needed]


def pasted(module: Module, name: str) -> Optional[List[Edit]]:
    """Returns the edits that put a function, and what it calls, into the module unless it has them already; None if one
    of the names means something else there."""
    if name not in recipes():
        return None
    own = {it.name: it for it in module.tree.body if isinstance(it, ast.FunctionDef)}
    wanting = []
    for one in closure(name):
        tree = own.get(one)
        if tree is not None and ast.dump(tree) == ast.dump(recipes()[one].tree) and module.binds(one) == 1:
            continue
        if module.binds(one) or any(isinstance(it, ast.Name) and it.id == one for it in module.nodes):
            return None
        wanting.append(recipes()[one].text.replace(b"\n", module.newline))
    if not wanting:
        return []
    apart = 2 * module.newline
    at = module.at(module.tree.body[-1])[0] if is_call(module.tree.body[-1]) else len(module.data)
    text = apart.join(wanting) + apart
    return [Edit(at, at, text if at < len(module.data) else apart + text.rstrip() + module.newline)]


def is_call(node: ast.stmt) -> bool:
    """Whether a statement is a call, such as that of `main`."""
    return isinstance(node, ast.Expr) and isinstance(node.value, ast.Call)


def call(module: Module, node: ast.expr, name: str, arguments: Sequence[bytes], rest: str = "") -> Iterator[Fix]:
    """Rewrites an expression to a call of a function of the cookbook."""
    edits = pasted(module, name)
    start, end = module.at(node)
    if edits is None or module.has_comment(start, end) or in_format(module, node):
        return
    text = name.encode() + b"(" + b", ".join(arguments) + rest.encode() + b")"
    yield Fix(f"cookbook's {name}", start, end, (*edits, Edit(start, end, text)))


def methods(module: Module) -> Iterator[Fix]:
    """Rewrites methods of texts."""
    for node in module.nodes:
        if not isinstance(node, ast.Call) or not isinstance(node.func, ast.Attribute) or not is_simple(node):
            continue
        found = METHODS.get(node.func.attr, {}).get(len(node.args))
        owner = node.func.value
        if found and told(module, owner) == TEXT and arguments_fit(module, node):
            yield from call(module, node, found[0], [module.value(it) for it in (owner, *node.args)], found[1])


def arguments_fit(module: Module, node: ast.Call) -> bool:
    """Whether annotations show that the arguments of a method of a text have the types that it takes."""
    name = getattr(node.func, "attr", "")
    wanted = {"join": [TEXTS], "find": [TEXT, "int"]}.get(name, [TEXT, TEXT])
    return all(told(module, it) == type_ or is_number(it, type_) for it, type_ in zip(node.args, wanted))


def is_simple(node: ast.Call) -> bool:
    """Whether all arguments of a call are positional."""
    return not node.keywords and not any(isinstance(it, ast.Starred) for it in node.args)


def built_ins(module: Module) -> Iterator[Fix]:
    """Rewrites built-in functions of one argument."""
    for node in module.nodes:
        if not isinstance(node, ast.Call) or not isinstance(node.func, ast.Name) or not is_simple(node):
            continue
        name = node.func.id
        if len(node.args) == 1 and name in FUNCTIONS_OF and not module.binds(name):
            made = FUNCTIONS_OF[name].get(told(module, node.args[0]))
            if made:
                yield from call(module, node, made, [module.value(node.args[0])])


def slices(module: Module) -> Iterator[Fix]:
    """Rewrites slices that are read, without a step."""
    for node in module.nodes:
        part = node.slice if isinstance(node, ast.Subscript) else None
        if not isinstance(node, ast.Subscript) or not isinstance(part, ast.Slice) or part.step is not None:
            continue
        made = SLICES.get(told(module, node.value)) if isinstance(node.ctx, ast.Load) else None
        if made and all(it is None or is_whole_number(module, it) for it in (part.lower, part.upper)):
            lower = [b"0"] if part.lower is None and part.upper is not None else []
            bounds = [module.value(it) for it in (part.lower, part.upper) if it is not None]
            yield from call(module, node, made, [module.value(node.value), *lower, *bounds])
