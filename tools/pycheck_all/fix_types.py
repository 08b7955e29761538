"""The types that annotations tell: of locals, of fields of the module's classes, of items, and of functions' results.
As for the checker, an annotation is trusted."""
from __future__ import annotations

import ast
from typing import Dict, Iterator, List, Set

from .fix_module import FUNCTIONS, Module

TEXT, INTEGERS, TEXTS = "str", "list[int]", "list[str]"
# The types of the methods of a text
RESULTS = {"strip": TEXT, "split": TEXTS, "join": TEXT, "find": "int", "replace": TEXT}
OPERATORS = {ast.Add: b"+", ast.Sub: b"-", ast.Mult: b"*", ast.FloorDiv: b"//", ast.Mod: b"%"}
# In a module with one of these an attribute may differ from what its class declares
HOOKS = (
    "setattr", "delattr", "__dict__", "__class__", "__getattr__", "__getattribute__", "__setattr__", "__set_name__",
)


def told(module: Module, node: ast.expr) -> str:
    """Returns the type of an expression that an annotation tells: of a local of its function, of a field or an item, or
    of a function of the module; empty if none does."""
    if isinstance(node, ast.Constant) and isinstance(node.value, str):
        return TEXT
    if isinstance(node, ast.Subscript) and isinstance(node.slice, ast.Slice):
        return told(module, node.value)
    if isinstance(node, ast.Call) and isinstance(node.func, ast.Attribute):
        return RESULTS.get(node.func.attr, "") if told(module, node.func.value) == TEXT else ""
    if isinstance(node, ast.Call) and isinstance(node.func, ast.Name):
        made = [it for it in module.tree.body if isinstance(it, ast.FunctionDef) and it.name == node.func.id]
        if len(made) == 1 and module.binds(node.func.id) == 1 and not made[0].decorator_list and made[0].returns:
            return ast.unparse(made[0].returns)
        return TEXT if node.func.id == "str" and not module.binds("str") else ""
    if isinstance(node, ast.Attribute):
        return field_type(module, node)
    if isinstance(node, ast.Subscript):
        return item_type(module, node)
    function = module.function(node)
    if not isinstance(node, ast.Name) or function is None or module.rebinds or not module.has_header:
        return ""
    found = {ast.unparse(it) for it in declared(function, node.id)}
    return found.pop() if len(found) == 1 else ""


def declared(function: ast.AST, name: str) -> Iterator[ast.expr]:
    """Yields the annotations of a name in a function, without those of functions inside it."""
    for it in own_nodes(function):
        if isinstance(it, ast.arg) and it.arg == name:
            yield it.annotation or ast.Constant("")
        elif isinstance(it, ast.AnnAssign) and isinstance(it.target, ast.Name) and it.target.id == name:
            yield it.annotation


def own_nodes(function: ast.AST) -> Iterator[ast.AST]:
    """Yields the nodes of a function, without those of functions and classes inside it."""
    left: List[ast.AST] = list(ast.iter_child_nodes(function))
    while left:
        node = left.pop()
        yield node
        if not isinstance(node, (*FUNCTIONS, ast.Lambda, ast.ClassDef)):
            left += ast.iter_child_nodes(node)


def item_type(module: Module, node: ast.Subscript) -> str:
    """Returns the type of an item of a list or of a dict; empty if the annotation of a local does not tell it."""
    owner = told(module, node.value) if isinstance(node.value, ast.Name) else ""
    if not owner or module.binds("list") or module.binds("dict"):
        return ""
    whole = ast.parse(owner, mode="eval").body
    if not isinstance(whole, ast.Subscript) or not isinstance(whole.value, ast.Name):
        return ""
    if whole.value.id == "list":
        return ast.unparse(whole.slice)
    parts = whole.slice.elts if isinstance(whole.slice, ast.Tuple) else []
    return ast.unparse(parts[1]) if whole.value.id == "dict" and len(parts) == 2 else ""


def field_type(module: Module, node: ast.Attribute) -> str:
    """Returns the type of a field of an instance of a class of the module; empty if no class tells it, or if a class
    customizes the access to fields."""
    owner = class_of(module, node.value) if isinstance(node.value, ast.Name) else ""
    classes = {it.name: it for it in module.tree.body if isinstance(it, ast.ClassDef) and module.binds(it.name) == 1}
    if owner not in classes or module.mentions(HOOKS) or is_set_otherwise(module, node.attr, set(classes)):
        return ""
    related = relatives(classes, owner)
    if not all(is_plain(it, classes) for it in related):
        return ""
    types = [it for one in related for it in types_in(one, node.attr)]
    return types[0] if types and types == [types[0]] * len(types) else ""


def class_of(module: Module, node: ast.Name) -> str:
    """Returns the name of a local's class, given by its annotation or by its place as the first parameter of a
    method."""
    function = module.function(node)
    parent = module.parents.get(function) if function is not None else None
    if not isinstance(function, ast.FunctionDef) or not isinstance(parent, ast.ClassDef) or function.decorator_list:
        return told(module, node)
    parameters = [*function.args.posonlyargs, *function.args.args]
    if not parameters or parameters[0].arg != node.id or parameters[0].annotation is not None:
        return told(module, node)
    binds = [it for it in own_nodes(function) if isinstance(it, ast.Name) and not isinstance(it.ctx, ast.Load)]
    is_bound = any(it.id == node.id for it in binds) or module.rebinds or module.parents[parent] is not module.tree
    return "" if is_bound or not module.has_header else parent.name


def relatives(classes: Dict[str, ast.ClassDef], name: str) -> List[ast.ClassDef]:
    """Returns a class of the module and all that are linked to it by inheritance."""
    found: Set[str] = set()
    left = [name]
    while left:
        one = left.pop()
        if one not in found:
            found.add(one)
            left += [it for it in bases_of(classes[one]) if it in classes]
            left += [it for it in classes if one in bases_of(classes[it])]
    return [classes[it] for it in sorted(found)]


def bases_of(node: ast.ClassDef) -> List[str]:
    """Returns the names of the bases of a class."""
    return [it.id for it in node.bases if isinstance(it, ast.Name)]


def is_plain(node: ast.ClassDef, classes: Dict[str, ast.ClassDef]) -> bool:
    """Whether a class has no decorator but `dataclass`, and no bases but classes of the module."""
    known = all(it in classes or it == "object" for it in bases_of(node)) and len(bases_of(node)) == len(node.bases)
    return known and not node.keywords and all(ast.unparse(it) == "dataclass" for it in node.decorator_list)


def types_in(node: ast.ClassDef, name: str) -> Iterator[str]:
    """Yields the annotations of a field in a class; an empty one if the class binds its name otherwise."""
    for it in node.body:
        if isinstance(it, ast.AnnAssign) and isinstance(it.target, ast.Name) and it.target.id == name:
            yield ast.unparse(it.annotation) if it.value is None or isinstance(it.value, ast.Constant) else ""
        elif isinstance(it, (*FUNCTIONS, ast.ClassDef)):
            yield from [""] if it.name == name else []
        else:
            names = [one.id for one in ast.walk(it) if isinstance(one, ast.Name) and not isinstance(one.ctx, ast.Load)]
            yield from [""] if name in names else []


def is_set_otherwise(module: Module, name: str, classes: Set[str]) -> bool:
    """Whether an attribute may be set on a class rather than on its instances."""
    for it in module.nodes:
        if isinstance(it, ast.Attribute) and it.attr == name and not isinstance(it.ctx, ast.Load):
            if isinstance(it.value, ast.Call) or (isinstance(it.value, ast.Name) and it.value.id in classes):
                return True
    return False


def is_number(node: ast.expr, type_: str) -> bool:
    """Whether the type is a whole number, and the expression is one."""
    return type_ == "int" and isinstance(node, ast.Constant) and type(node.value) is int


def is_whole_number(module: Module, node: ast.expr) -> bool:
    """Whether a bound of a slice is a whole number: a literal, or told by an annotation, or computed from those."""
    if isinstance(node, ast.UnaryOp) and isinstance(node.op, ast.USub):
        return is_whole_number(module, node.operand)
    if isinstance(node, ast.BinOp) and type(node.op) in OPERATORS:
        return is_whole_number(module, node.left) and is_whole_number(module, node.right)
    if isinstance(node, ast.Call) and isinstance(node.func, ast.Name) and node.func.id == "len":
        return not module.binds("len")
    return is_number(node, "int") or told(module, node) == "int"
