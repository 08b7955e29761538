"""Rewrites of expressions: chains of comparisons, `isinstance` with several classes, and expressions that become
statements
before their own: conditional expressions, named ones, and comprehensions of lists and dicts."""
from __future__ import annotations

import ast
import builtins
from typing import Dict, Iterator, List, NamedTuple, Optional, Sequence, Tuple, Union

from .fix_module import FUNCTIONS, SCOPES, Edit, Fix, Module, applied
from .fix_statements import is_whole, lines_in_place

COMPARING = ("__lt__", "__le__", "__gt__", "__ge__", "__eq__", "__ne__", "__contains__")
# Operators that bind less than `and`, or brackets
LOOSE = (ast.stmt, ast.Call, ast.keyword, ast.List, ast.Tuple, ast.Dict, ast.BoolOp)
OPERATORS = {
    ast.Lt: "<", ast.LtE: "<=", ast.Gt: ">", ast.GtE: ">=", ast.Eq: "==", ast.NotEq: "!=",
    ast.In: "in", ast.NotIn: "not in", ast.Is: "is", ast.IsNot: "is not",
}
COMPREHENSIONS = (ast.ListComp, ast.SetComp, ast.DictComp, ast.GeneratorExp)
# The comprehensions that become loops
Comprehension = Union[ast.ListComp, ast.DictComp]


def comparisons(module: Module) -> Iterator[Fix]:
    """Rewrites `a < b < c` to two comparisons: in place if the middle is a name or a literal, otherwise through a
    local."""
    if module.mentions(COMPARING):
        return
    for node in module.nodes:
        if not isinstance(node, ast.Compare) or len(node.ops) < 2 or in_format(module, node):
            continue
        start, end = module.at(node)
        if all(map(is_quiet, node.comparators[:-1])):
            yield Fix("chain of comparisons", start, end, tuple(Edit(*it) for it in two_of(module, node, {})))
        else:
            yield from by_locals(module, node)


def two_of(module: Module, node: ast.Compare, names: Dict[ast.expr, bytes]) -> "Iterator[Tuple[int, int, bytes]]":
    """Yields the edits that make two comparisons of a chain, in which names replace some of its parts."""
    start, end = module.at(node)
    is_loose = isinstance(module.parents[node], LOOSE)
    yield from [] if is_loose else [(start, start, b"(")]
    for part, name in names.items():
        yield (*with_brackets(module, part), name)
    for part in node.comparators[:-1]:
        place = with_brackets(module, part)[1]
        yield place, place, b" and " + names.get(part, module.segment(part))
    yield from [] if is_loose else [(end, end, b")")]


def by_locals(module: Module, node: ast.Compare) -> Iterator[Fix]:
    """Rewrites a chain whose first middle part is evaluated before the statement, like the part before it. Yields
    nothing if that part may not be moved, or if a later middle part has effects."""
    place = place_of(module, node)
    if place is None or module.has_comment(*module.at(node)) or not all(map(is_quiet, node.comparators[1:-1])):
        return
    names: Dict[ast.expr, bytes] = {}
    for part in (node.left, node.comparators[0]):
        if not is_quiet(part):
            names[part] = module.fresh("value", [it.decode() for it in names.values()]).encode()
    start, step = module.at(place.statement)[0], module.newline + module.indent(place.statement)
    lines = b"".join(name + b" = " + module.value(part) + step for part, name in names.items())
    edits = (Edit(start, start, lines), *(Edit(*it) for it in two_of(module, node, names)))
    yield Fix("chain of comparisons", *module.at(node), edits, True)


def in_format(module: Module, node: ast.AST) -> bool:
    """Whether an expression is in an f-string."""
    return any(isinstance(it, ast.JoinedStr) for it in module.ancestors(node))


def with_brackets(module: Module, node: ast.expr) -> Tuple[int, int]:
    """Returns the first byte of an expression and the byte after it, with all brackets around it."""
    start, end = module.at(node)
    while True:
        before = [it for it in module.between(0, start) if it.text.strip()][-1:]
        after = [it for it in module.between(end, len(module.data)) if it.text.strip()][:1]
        if not before or not after or before[0].text != "(" or after[0].text != ")":
            return start, end
        start, end = before[0].start, after[0].end


def isinstances(module: Module) -> Iterator[Fix]:
    """Rewrites `isinstance(x, (A, B))`, if `x` is a name, to tests with `or`."""
    if "isinstance" in module.bound:
        return
    classes = {it.name for it in module.tree.body if isinstance(it, ast.ClassDef) and module.binds(it.name) == 1}
    types = {it for it in dir(builtins) if isinstance(getattr(builtins, it), type)} - module.bound
    for node in module.nodes:
        if not isinstance(node, ast.Call) or len(node.args) != 2 or node.keywords or in_format(module, node):
            continue
        value, among = node.args
        if not isinstance(node.func, ast.Name) or node.func.id != "isinstance" or not isinstance(value, ast.Name):
            continue
        if not isinstance(among, ast.Tuple) or not among.elts or module.has_comment(*module.at(node)):
            continue
        names = [it.id for it in among.elts if isinstance(it, ast.Name) and it.id in classes | types]
        if len(names) == len(among.elts):
            tests = " or ".join(f"isinstance({value.id}, {it})" for it in names)
            start, end = module.at(node)
            yield Fix("isinstance", start, end, (Edit(start, end, in_place(module, node, tests).encode()),))


def in_place(module: Module, node: ast.expr, tests: str) -> str:
    """Returns tests with `or`, fit for the place of an expression."""
    parent = module.parents[node]
    is_loose = isinstance(parent, (ast.stmt, ast.Call, ast.keyword, ast.List, ast.Tuple))
    return tests if is_loose or " or " not in tests else f"({tests})"


class Place(NamedTuple):
    """An expression that may be evaluated before its statement: the statement, and whether the statement evaluates
    nothing but the expression first and then assigns it to one target."""

    statement: ast.stmt
    is_value: bool


def place_of(module: Module, node: ast.expr) -> Optional[Place]:
    """Returns the place of an expression that is evaluated once and unconditionally, with nothing with effects before
    it; None for another expression."""
    statement = module.statement(node)
    if statement is None or module.function(node) is None or module.reflects or module.rebinds:
        return None
    root = root_of(statement)
    if root is None or not is_first_on_line(module, statement):
        return None
    if any(isinstance(it, ast.NamedExpr) and it is not node for it in ast.walk(root)):
        return None
    inner: ast.AST = node
    for outer in module.ancestors(node):
        if inner is root:
            break
        if not isinstance(outer, ast.expr) and not isinstance(outer, (ast.keyword, ast.comprehension)):
            return None
        if not is_before_all(outer, inner):
            return None
        inner = outer
    return Place(statement, node is root) if inner is root else None


def root_of(statement: ast.stmt) -> Optional[ast.expr]:
    """Returns the expression that a statement evaluates first, and once."""
    if isinstance(statement, (ast.Assign, ast.AnnAssign, ast.Return, ast.Expr)):
        return statement.value
    if isinstance(statement, ast.If):
        return statement.test
    return statement.iter if isinstance(statement, ast.For) else None


def is_first_on_line(module: Module, statement: ast.stmt) -> bool:
    """Whether a statement begins its line, and is not an `elif`."""
    if isinstance(statement, (ast.If, ast.For)):
        start = module.at(statement)[0]
        return not module.indent(statement).strip(b" ") and module.data[start : start + 4] != b"elif"
    return module.is_alone(statement)


def is_before_all(outer: ast.AST, inner: ast.AST) -> bool:
    """Whether a part of an expression is evaluated unconditionally, after names and literals alone."""
    if isinstance(outer, (ast.Lambda, *COMPREHENSIONS, ast.comprehension, ast.JoinedStr, ast.FormattedValue, ast.Dict)):
        return False
    if isinstance(outer, ast.BoolOp):
        return outer.values[0] is inner
    if isinstance(outer, ast.IfExp):
        return outer.test is inner
    if isinstance(outer, ast.Compare):
        return inner in [outer.left, *outer.comparators[:1]] and (inner is outer.left or is_quiet(outer.left))
    before: List[ast.AST] = []
    for part in ast.iter_child_nodes(outer):
        if part is inner:
            return all(is_quiet(it) or (is_method(outer, it) and not calls(inner)) for it in before)
        before.append(part)
    return False


def is_method(outer: ast.AST, node: ast.AST) -> bool:
    """Whether a node is the method that a call of a name's method calls."""
    is_called = isinstance(outer, ast.Call) and outer.func is node
    return is_called and isinstance(node, ast.Attribute) and isinstance(node.value, ast.Name)


def calls(node: ast.AST) -> bool:
    """Whether an expression calls something, or lets other code run."""
    return any(isinstance(it, (ast.Call, ast.Await, ast.Yield, ast.YieldFrom)) for it in ast.walk(node))


def is_quiet(node: ast.AST) -> bool:
    """Whether evaluating an expression has no effect, and results in the same value later."""
    if isinstance(node, ast.UnaryOp) and isinstance(node.op, ast.USub):
        return isinstance(node.operand, ast.Constant) and isinstance(node.operand.value, int)
    return isinstance(node, (ast.operator, ast.unaryop, ast.expr_context, ast.Name, ast.Constant))


def conditionals(module: Module) -> Iterator[Fix]:
    """Rewrites `a if c else b` to an `if` statement."""
    for node in module.nodes:
        place = place_of(module, node) if isinstance(node, ast.IfExp) else None
        if place is None or not isinstance(node, ast.IfExp) or module.has_comment(*module.at(node)):
            continue
        statement, step = place.statement, module.newline + module.indent(place.statement)
        start, end = module.at(statement)
        if place.is_value and is_whole(module, statement) and isinstance(statement, (ast.Assign, ast.Return)):
            lead = module.data[start : with_brackets(module, node)[0]].rstrip() + b" "
            text = branches(module, node, lead, step)
            yield Fix("conditional expression", *module.at(node), (Edit(start, end, text),), True)
        else:
            name = module.fresh("chosen").encode()
            text = branches(module, node, name + b" = ", step) + step
            yield hoisted("conditional expression", module, node, start, text, name)


def branches(module: Module, node: ast.IfExp, lead: bytes, apart: bytes) -> bytes:
    """Returns the lines of an `if` statement with the same words before both values."""
    inner = apart + module.step() + lead
    test, one, other = (module.value(it) for it in (node.test, node.body, node.orelse))
    return b"".join([b"if ", test, b":", inner, one, apart, b"else:", inner, other])


def hoisted(what: str, module: Module, node: ast.expr, start: int, lines: bytes, name: bytes) -> Fix:
    """Returns the rewrite that puts lines before a statement, and a name in place of an expression."""
    first, last = module.at(node)
    return Fix(what, first, last, (Edit(start, start, lines), Edit(first, last, name)), True)


def named(module: Module) -> Iterator[Fix]:
    """Rewrites `(n := e)` to `n = e` on a line before."""
    for node in module.nodes:
        place = place_of(module, node) if isinstance(node, ast.NamedExpr) else None
        if place is None or not isinstance(node, ast.NamedExpr) or module.has_comment(*module.at(node)):
            continue
        name, (first, last) = node.target.id, module.at(node)
        before = [it for it in ast.walk(place.statement) if isinstance(it, ast.Name) and it.id == name]
        if any(module.at(it)[0] < first for it in before):
            continue
        parent = module.parents[node]
        # The brackets of a call do not belong to its argument
        if not isinstance(parent, ast.Call) or node is parent.func:
            first, last = with_brackets(module, node)
        start = module.at(place.statement)[0]
        line = name.encode() + b" = " + module.value(node.value) + module.newline + module.indent(place.statement)
        edits = (Edit(start, start, line), Edit(first, last, apart(module, first, last, name.encode())))
        yield Fix("named expression", *module.at(node), edits, True)


def apart(module: Module, start: int, end: int, name: bytes) -> bytes:
    """Returns a name to replace a part of the text, with blanks where it would touch a word."""
    before, after = (module.data[it : it + 1].isalnum() for it in (start - 1, end))
    return (b" " if before else b"") + name + (b" " if after else b"")


def comprehensions(module: Module) -> Iterator[Fix]:
    """Rewrites a comprehension of a list or of a dict to a loop."""
    for node in module.nodes:
        if not isinstance(node, (ast.ListComp, ast.DictComp)) or module.has_comment(*module.at(node)):
            continue
        place, names = place_of(module, node), renamed(module, node)
        if place is None or names is None:
            continue
        start, end = module.at(place.statement)
        step = module.newline + module.indent(place.statement)
        direct = direct_name(module, place, node)
        if direct:
            lead = module.data[start : with_brackets(module, node)[0]]
            lines = loops(module, node, names, direct.encode(), lead, step)
            yield Fix("comprehension", *module.at(node), (Edit(start, end, lines),), True)
            continue
        name = module.fresh("items", list(names.values())).encode()
        lines = loops(module, node, names, name, name + b" = ", step) + step
        yield hoisted("comprehension", module, node, start, lines, name)


def direct_name(module: Module, place: Place, node: Comprehension) -> str:
    """Returns the local that a comprehension makes, if it may be visible while it grows; empty if it may not."""
    statement = place.statement
    if not place.is_value or not is_whole(module, statement) or module.catches:
        return ""
    targets: List[ast.expr] = []
    if isinstance(statement, ast.Assign):
        targets = statement.targets
    elif isinstance(statement, ast.AnnAssign):
        targets = [statement.target]
    target = targets[0] if len(targets) == 1 else None
    if not isinstance(target, ast.Name):
        return ""
    function = module.function(statement)
    nested = [it for it in ast.walk(function or statement) if isinstance(it, SCOPES) and it not in (function, node)]
    mentioned = {it.id for it in ast.walk(node) if isinstance(it, ast.Name)}
    at_once = (ast.ListComp, ast.SetComp, ast.DictComp)
    return "" if target.id in mentioned or any(not isinstance(it, at_once) for it in nested) else target.id


def renamed(module: Module, node: Comprehension) -> Optional[Dict[str, str]]:
    """Returns the names of the loops, each with a name that its function does not have; None if there are no such
    names."""
    if not all(isinstance(it.target, ast.Name) and not it.is_async for it in node.generators):
        return None
    inner = [it for part in ast.walk(node) for it in ast.iter_child_nodes(part)]
    if any(isinstance(it, (*SCOPES, ast.JoinedStr, ast.Await, ast.Yield, ast.YieldFrom)) for it in inner):
        return None
    function = module.function(node)
    within = set(ast.walk(node))
    others = {it.id for it in ast.walk(function or node) if isinstance(it, ast.Name) and it not in within}
    others |= {it.arg for it in ast.walk(function or node) if isinstance(it, ast.arg)}
    others |= {it.id for it in within if isinstance(it, ast.Name) and it in set(ast.walk(node.generators[0].iter))}
    found: Dict[str, str] = {}
    for part in node.generators:
        name = part.target.id if isinstance(part.target, ast.Name) else ""
        if name in found:
            return None
        taken = name in others or name in module_names(module)
        found[name] = module.fresh(name, list(found.values())) if taken else name
    return found


def module_names(module: Module) -> "set[str]":
    """Returns the names that the module binds at its top level, which a local would hide."""
    found = {it.name for it in module.tree.body if isinstance(it, (*FUNCTIONS, ast.ClassDef))}
    for node in module.tree.body:
        if isinstance(node, (ast.Assign, ast.AnnAssign)):
            found |= {it.id for it in ast.walk(node) if isinstance(it, ast.Name)}
    return found


def text_under(module: Module, node: ast.expr, names: Dict[str, str]) -> bytes:
    """Returns the text of an expression with some names replaced."""
    start = module.at(node)[0]
    edits = []
    for it in ast.walk(node):
        if isinstance(it, ast.Name) and names.get(it.id, it.id) != it.id:
            first, last = module.at(it)
            edits.append(Edit(first - start, last - start, names[it.id].encode()))
    text = applied(module.segment(node), edits)
    return b"(" + text + b")" if module.value(node) != module.segment(node) else text


def loops(
    module: Module, node: Comprehension, names: Dict[str, str], name: bytes, lead: bytes, apart: bytes
) -> bytes:
    """Returns the lines that make a list or a dict in loops."""
    lines, deeper = [lead + (b"[]" if isinstance(node, ast.ListComp) else b"{}")], b""
    for number, part in enumerate(node.generators):
        target = names[getattr(part.target, "id")].encode()
        over = text_under(module, part.iter, names if number else {})
        lines.append(deeper + b"for " + target + b" in " + over + b":")
        deeper += module.step()
        for test in part.ifs:
            lines.append(deeper + b"if " + text_under(module, test, names) + b":")
            deeper += module.step()
    lines += [deeper + it for it in growing(module, node, names, name)]
    return apart.join(lines)


def growing(module: Module, node: Comprehension, names: Dict[str, str], name: bytes) -> List[bytes]:
    """Returns the lines that put an item into a list, or a value under its key into a dict. The key is evaluated before
    the value, as in a comprehension."""
    if isinstance(node, ast.ListComp):
        return [name + b".append(" + text_under(module, node.elt, names) + b")"]
    key, value = text_under(module, node.key, names), text_under(module, node.value, names)
    if is_quiet(node.key) or is_quiet(node.value):
        return [name + b"[" + key + b"] = " + value]
    local = module.fresh("key", [*names.values(), name.decode()]).encode()
    return [local + b" = " + key, name + b"[" + local + b"] = " + value]
