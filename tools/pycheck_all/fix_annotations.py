"""Rewrites of annotations: those of `typing` to the forms of the profile, and those in quotes."""
from __future__ import annotations

import ast
from typing import Iterator, List, Optional, Set

from .fix_heads import ANNOTATIONS, annotations_of
from .fix_module import Edit, Fix, Module, tree_of

GENERICS = {"List": "list", "Dict": "dict", "Tuple": "tuple"}
KNOWN = frozenset(["Optional", "Union", "Any", *GENERICS])
# In these a string is not an annotation
TEXTS = ("Literal", "Annotated")


def typing(module: Module) -> Iterator[Fix]:
    """Replaces an import of names of `typing` that only annotations use, and the annotations with them."""
    whole = [] if module.mentions(ANNOTATIONS) else list(annotations_of(module))
    within = {it for node in whole for it in ast.walk(node)}
    for node in module.tree.body:
        if not isinstance(node, ast.ImportFrom) or node.module != "typing" or node.level or not module.is_alone(node):
            continue
        names = {it.name for it in node.names}
        start, end = module.at(node)
        if not names <= KNOWN or names == {"Any"} or module.has_comment(start, end):
            continue
        old = names - {"Any"}
        if not module.has_header or is_used_elsewhere(module, old, within) or not imported_once(module, names):
            continue
        edits = [it for it in (edit_of(module, one, old) for one in whole) if it is not None]
        yield Fix("typing", start, end, (*edits, header_edit(module, node, "Any" in names)))


def imported_once(module: Module, names: Set[str]) -> bool:
    """Whether some names are bound by an import alone."""
    imports = [it for node in module.nodes if isinstance(node, (ast.Import, ast.ImportFrom)) for it in node.names]
    bound = [(it.asname or it.name).split(".")[0] for it in imports]
    others = {it.id for it in module.nodes if isinstance(it, ast.Name) and not isinstance(it.ctx, ast.Load)}
    others |= {it.arg for it in module.nodes if isinstance(it, ast.arg)}
    others |= {it.name for it in module.nodes if isinstance(it, (ast.FunctionDef, ast.AsyncFunctionDef, ast.ClassDef))}
    # An import under another name does not bind it
    return all(bound.count(it) == 1 for it in names) and not names & others and "*" not in bound


def is_used_elsewhere(module: Module, names: Set[str], within: Set[ast.AST]) -> bool:
    """Whether names are used outside of annotations, or in a string that is not one."""
    for node in module.nodes:
        if node in within:
            continue
        if isinstance(node, ast.Name) and node.id in names:
            return True
        if isinstance(node, ast.Constant) and isinstance(node.value, str) and node.value in names:
            return True
    return False


def header_edit(module: Module, node: ast.ImportFrom, has_any: bool) -> Edit:
    """Returns the edit that leaves `Any` alone in the import, or removes its line."""
    start, end = module.at(node)
    if has_any:
        return Edit(start, end, b"from typing import Any")
    rest = module.data[end:].split(b"\n", 1)[0]
    if rest.strip():
        return Edit(start, end, b"")
    return Edit(start, min(len(module.data), end + len(rest) + 1), b"")


def edit_of(module: Module, node: ast.expr, names: Set[str]) -> Optional[Edit]:
    """Returns the edit of an annotation that has a removed name; None for another annotation."""
    text = spelled(node, names)
    start, end = module.at(node)
    if text is None or module.has_comment(start, end):
        return None
    return Edit(start, end, text.encode())


def spelled(node: ast.expr, names: Set[str]) -> Optional[str]:
    """Returns an annotation without some names and without quotes; None if nothing changes."""
    tree = Spelling(names)
    found = tree.visit(ast.parse(ast.unparse(node), mode="eval").body)
    return ast.unparse(found) if tree.changed else None


class Spelling(ast.NodeTransformer):
    """Rewrites an annotation. `changed` says whether anything changed."""

    def __init__(self, names: Set[str]) -> None:
        self.names = names
        self.changed = False

    def visit_Constant(self, node: ast.Constant) -> ast.AST:
        """Rewrites an annotation in quotes."""
        if not isinstance(node.value, str):
            return node
        found = quoted(node.value)
        if found is None:
            return node
        self.changed = True
        inner: ast.AST = self.visit(found)
        return inner

    def visit_Name(self, node: ast.Name) -> ast.AST:
        """Leaves a generic type without its types as a name."""
        if node.id in self.names and node.id in GENERICS:
            self.changed = True
            return ast.Name(GENERICS[node.id], ast.Load())
        return node

    def visit_Subscript(self, node: ast.Subscript) -> ast.AST:
        """Rewrites `Optional[..]`, `Union[..]` and generic types."""
        name = node.value.id if isinstance(node.value, ast.Name) else getattr(node.value, "attr", "")
        if name in TEXTS:
            return node
        self.generic_visit(node)
        if name not in self.names or name not in ("Optional", "Union"):
            return node
        self.changed = True
        parts: List[ast.expr] = node.slice.elts if isinstance(node.slice, ast.Tuple) else [node.slice]
        if name == "Optional":
            parts = [*parts, ast.Constant(None)]
        whole = parts[0]
        for part in parts[1:]:
            whole = ast.BinOp(whole, ast.BitOr(), part)
        return whole


def quoted(text: str) -> Optional[ast.expr]:
    """Returns the annotation that a string contains; None if it contains none."""
    try:
        body = tree_of(text.strip().encode()).body
    except (SyntaxError, ValueError, RecursionError):
        return None
    return body[0].value if len(body) == 1 and isinstance(body[0], ast.Expr) else None


def quotes(module: Module) -> Iterator[Fix]:
    """Removes the quotes of an annotation with a part in quotes."""
    if not module.has_header or module.mentions(ANNOTATIONS):
        return
    for node in annotations_of(module):
        edit = edit_of(module, node, set())
        if edit is not None:
            yield Fix("quoted annotation", edit.start, edit.end, (edit,))
