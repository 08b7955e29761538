"""Runs a module of the profile in an interpreter of Python, and records the places that it evaluates.

`run_of` returns a run in the sense of docs/RUNS.md, made by the interpreter that runs this library. Each expression of
the tree of `ast` that leaves an event gets a call that records the place and then acts. Free answers are those of
pyrun: false and empty. The module runs in a process of its own, with limits, and once more as it is written.
"""
from __future__ import annotations

import ast
import json
import operator
import os
import resource
import sys
import types
from typing import Any, Callable, Dict, List, NamedTuple, Tuple, Type

SECONDS = 4
BYTES = 1 << 29
MOST_TURNS = 300000
ACTIONS: Dict[Type[ast.AST], Callable[..., Any]] = {ast.Add: operator.add, ast.Sub: operator.sub, ast.Mult: operator.mul, ast.FloorDiv: operator.floordiv,
           ast.Mod: operator.mod, ast.USub: operator.neg, ast.Not: operator.not_, ast.Lt: operator.lt, ast.LtE: operator.le,
           ast.Gt: operator.gt, ast.GtE: operator.ge}
SIMPLE = (int, str, type(None))


class Run(NamedTuple):
    """A run: its places, its end, whether a free answer differed from Python's, and how the module itself ends."""
    events: List[List[int]]
    end: str
    answered_otherwise: bool
    plain_end: str


class Enough(BaseException):
    """The run has left more places than are compared."""


class Instrument(ast.NodeTransformer):
    """Puts calls of a Trace around expressions that leave an event."""

    def __init__(self, data: bytes) -> None:
        self.text = data
        self.starts = [0]
        for line in data.splitlines(keepends=True) if b"\r" not in data else data.split(b"\n"):
            self.starts.append(self.starts[-1] + len(line) + (b"\r" in data))
        self.places: List[Tuple[int, int]] = []

    def place(self, node: ast.expr, start: "Tuple[int, int] | None" = None) -> ast.Constant:
        """Returns the number of the place of a node, or of one that starts earlier."""
        line, column = start or (node.lineno, node.col_offset)
        last, end = node.end_lineno or line, node.end_col_offset or column
        self.places.append((self.starts[line - 1] + column, self.starts[last - 1] + end))
        return ast.Constant(len(self.places) - 1)

    def value(self, node: ast.expr) -> ast.expr:
        """Returns an expression with the calls around its parts."""
        made = self.visit(node)
        assert isinstance(made, ast.expr)
        return made

    def call(self, method: str, *parts: ast.expr, keywords: "List[ast.keyword] | None" = None) -> ast.Call:
        return ast.Call(ast.Attribute(ast.Name("@trace", ast.Load()), method, ast.Load()), list(parts), keywords or [])

    def visit_Constant(self, node: ast.Constant) -> ast.expr:
        return self.call("leave", self.place(node), node)

    def visit_Name(self, node: ast.Name) -> ast.expr:
        if isinstance(node.ctx, ast.Store):
            return node
        pair = ast.Tuple([self.call("leave", self.place(node), ast.Constant(None)), node], ast.Load())
        return ast.Subscript(pair, ast.Constant(1), ast.Load())

    def visit_List(self, node: ast.List) -> ast.expr:
        place = self.place(node)
        return self.call("leave", place, ast.List([self.value(each) for each in node.elts], ast.Load()))

    def visit_Tuple(self, node: ast.Tuple) -> ast.expr:
        place = self.place(node)
        return self.call("leave", place, ast.Tuple([self.value(each) for each in node.elts], ast.Load()))

    def visit_Dict(self, node: ast.Dict) -> ast.expr:
        pairs = [self.value(part) for pair in zip(node.keys, node.values) for part in pair if part is not None]
        return self.call("table", self.place(node), ast.List(pairs, ast.Load()))

    def visit_BinOp(self, node: ast.BinOp) -> ast.expr:
        return self.call("act", self.place(node), ast.Constant(type(node.op).__name__), self.value(node.left), self.value(node.right))

    def visit_UnaryOp(self, node: ast.UnaryOp) -> ast.expr:
        return self.call("act", self.place(node), ast.Constant(type(node.op).__name__), self.value(node.operand))

    def visit_BoolOp(self, node: ast.BoolOp) -> ast.expr:
        """Rewrites `a and b and c`, which is one node in the tree of Python, as `(a and b) and c`."""
        made = self.value(node.values[0])
        for value in node.values[1:]:
            both = ast.BoolOp(node.op, [made, self.value(value)])
            made = self.call("leave", self.place_up_to(node, value), both)
        return made

    def place_up_to(self, node: ast.BoolOp, value: ast.expr) -> ast.Constant:
        """Returns the place of the part of a row of operands that ends with a value, with its brackets."""
        last = value is node.values[-1]
        end = node if last else value
        number = self.place(end, (node.lineno, node.col_offset))
        if not last:
            self.places[-1] = (self.places[-1][0], self.past_brackets(self.places[-1][1], node, value))
        return number

    def past_brackets(self, end: int, node: ast.BoolOp, value: ast.expr) -> int:
        """Returns the end of a value with the brackets around it, which come before the next operator."""
        following = node.values[node.values.index(value) + 1]
        between = self.text[end : self.starts[following.lineno - 1] + following.col_offset].decode()
        before = between[: between.index("and" if isinstance(node.op, ast.And) else "or")]
        return end + len(before[: before.rfind(")") + 1].encode()) if "#" not in before else end

    def visit_Compare(self, node: ast.Compare) -> ast.expr:
        kind = type(node.ops[0]).__name__
        if kind in ("Is", "IsNot"):
            return self.call("is_none", self.place(node), ast.Constant(kind), self.value(node.left))
        return self.call("compare", self.place(node), ast.Constant(kind), self.value(node.left), self.value(node.comparators[0]))

    def visit_Call(self, node: ast.Call) -> ast.expr:
        test = isinstance(node.func, ast.Name) and node.func.id == "isinstance" and len(node.args) == 2 and not node.keywords
        callee = self.value(node.func)
        args = [node.args[1] if test and at == 1 else self.value(arg) for at, arg in enumerate(node.args)]
        keywords = [ast.keyword(f"@name of {each.arg}", self.value(each.value)) for each in node.keywords]
        return self.call("call", self.place(node), callee, *args, keywords=keywords)

    def visit_Attribute(self, node: ast.Attribute) -> ast.expr:
        return self.call("attribute", self.place(node), self.value(node.value), ast.Constant(node.attr))

    def visit_Subscript(self, node: ast.Subscript) -> ast.expr:
        return self.call("item", self.place(node), self.value(node.value), self.value(node.slice))

    def assigned(self, target: ast.expr, value: ast.expr) -> ast.stmt:
        """Returns an assignment: the value first, then the parts of its target, then its place."""
        if isinstance(target, ast.Name):
            return ast.Assign([target], value)
        if isinstance(target, ast.Attribute):
            parts = [self.value(target.value), ast.Constant(target.attr)]
            return ast.Expr(self.call("set_attribute", self.place(target), value, *parts))
        assert isinstance(target, ast.Subscript)
        return ast.Expr(self.call("set_item", self.place(target), value, self.value(target.value), self.value(target.slice)))

    def visit_Assign(self, node: ast.Assign) -> ast.stmt:
        return self.assigned(node.targets[0], self.value(node.value))

    def visit_AnnAssign(self, node: ast.AnnAssign) -> ast.stmt:
        return self.assigned(node.target, self.value(node.value)) if node.value else node

    def visit_For(self, node: ast.For) -> ast.stmt:
        self.generic_visit(node)
        node.body.insert(0, ast.Expr(self.call("turn")))
        return node

    def visit_While(self, node: ast.While) -> ast.stmt:
        self.generic_visit(node)
        node.body.insert(0, ast.Expr(self.call("turn")))
        return node

    def visit_FunctionDef(self, node: ast.FunctionDef) -> ast.stmt:
        node.body = [self.visit(each) for each in node.body]
        return node

    def visit_ClassDef(self, node: ast.ClassDef) -> ast.stmt:
        """Rewrites the methods of a class, each of which leaves the place of its name; defaults leave none."""
        for member in node.body:
            if isinstance(member, ast.FunctionDef):
                self.visit_FunctionDef(member)
                member.body.insert(0, ast.Expr(self.call("leave", self.place_of_name(member), ast.Constant(None))))
        return node

    def place_of_name(self, method: ast.FunctionDef) -> ast.Constant:
        """Returns the place of the name in a header `def NAME(`, as it is written."""
        start = self.starts[method.lineno - 1] + method.col_offset
        head = self.text[start : start + 4096].decode(errors="ignore")
        gap = len(head) - len(head[3:].lstrip(" \t\f"))
        end = head.index("(", gap)
        name = head[gap:end].rstrip(" \t\f")
        begin = start + len(head[:gap].encode())
        self.places.append((begin, begin + len(name.encode())))
        return ast.Constant(len(self.places) - 1)

    def visit_Module(self, node: ast.Module) -> ast.Module:
        """Rewrites all but the last line, `main()`, which leaves nothing."""
        node.body[:-1] = [self.visit(each) for each in node.body[:-1]]
        return node


class Trace:
    """The calls of an instrumented module: each records a place, and then acts."""

    def __init__(self, places: List[Tuple[int, int]], most: int) -> None:
        self.places, self.most = places, most
        self.events: List[Tuple[int, int]] = []
        self.turns, self.answered_otherwise = 0, False
        self.actions = {kind.__name__: action for kind, action in ACTIONS.items()}

    def leave(self, place: int, value: Any) -> Any:
        if len(self.events) >= self.most:
            raise Enough
        self.events.append(self.places[place])
        return value

    def turn(self) -> None:
        self.turns += 1
        if self.turns > MOST_TURNS:
            raise Enough

    def table(self, place: int, parts: List[Any]) -> Dict[Any, Any]:
        self.leave(place, None)
        return dict(zip(parts[::2], parts[1::2]))

    def act(self, place: int, kind: str, *operands: Any) -> Any:
        self.leave(place, None)
        return self.actions[kind](*operands)

    def is_none(self, place: int, kind: str, operand: Any) -> bool:
        self.leave(place, None)
        return (operand is None) == (kind == "Is")

    def freely(self, answer: Any, taken: Any) -> Any:
        """Returns a free answer as pyrun has it."""
        self.answered_otherwise |= answer != taken
        return taken

    def compare(self, place: int, kind: str, left: Any, right: Any) -> Any:
        self.leave(place, None)
        if kind in ("Eq", "NotEq"):
            is_free = getattr(type(left), "__eq__") is not object.__eq__ and alike(left, right)
            answer = left == right
            return (self.freely(answer, False) if is_free else answer) == (kind == "Eq")
        if kind in ("In", "NotIn"):
            answer = left in right
            return (self.freely(answer, False) if isinstance(right, (list, tuple)) else answer) == (kind == "In")
        return self.actions[kind](left, right)

    def call(self, place: int, callee: Any, *args: Any, **named: Any) -> Any:
        self.leave(place, None)
        answer = callee(*args, **{name[len("@name of ") :]: value for name, value in named.items()})
        return self.freely(answer, "") if callee is str and args and not isinstance(args[0], SIMPLE) else answer

    def attribute(self, place: int, value: Any, name: str) -> Any:
        self.leave(place, None)
        return getattr(value, name)

    def item(self, place: int, value: Any, index: Any) -> Any:
        self.leave(place, None)
        return value[index]

    def set_attribute(self, place: int, new: Any, value: Any, name: str) -> None:
        self.leave(place, None)
        setattr(value, name, new)

    def set_item(self, place: int, new: Any, value: Any, index: Any) -> None:
        self.leave(place, None)
        value[index] = new


def alike(left: object, right: object) -> bool:
    """Whether both are lists, dicts, tuples or instances."""
    def kind(value: object) -> object:
        return "simple" if isinstance(value, SIMPLE) else type(value) if isinstance(value, (list, dict, tuple)) else "instance"
    return kind(left) == kind(right) != "simple"


def end_of(code: types.CodeType, names: Dict[str, object]) -> str:
    """Returns how code ends: Done, the name of an exception, or `no end`."""
    module = types.ModuleType("compared")
    sys.modules["compared"] = module
    module.__dict__.update(names)
    try:
        exec(code, module.__dict__)
    except Enough:
        return "no end"
    except Exception as fault:
        return type(fault).__name__
    return "Done"


def run_here(data: bytes, most: int, out: int) -> None:
    """Runs a module here, instrumented and as it is, and writes the results, a line for each."""
    resource.setrlimit(resource.RLIMIT_CPU, (SECONDS, SECONDS))
    resource.setrlimit(resource.RLIMIT_AS, (BYTES, BYTES))
    sys.stdout = open(os.devnull, "w", encoding="utf-8")
    try:
        plain = compile(data, "compared", "exec", dont_inherit=True)
    except (SyntaxError, ValueError, RecursionError, MemoryError) as fault:
        os.write(out, json.dumps([[], type(fault).__name__, False]).encode() + b"\n" + type(fault).__name__.encode())
        return
    instrument = Instrument(data)
    made = ast.fix_missing_locations(instrument.visit(ast.parse(data)))
    trace = Trace(instrument.places, most)
    end = end_of(compile(made, "compared", "exec", dont_inherit=True), {"@trace": trace})
    with open(out, "w", encoding="utf-8", closefd=False) as file:
        file.write(json.dumps([trace.events, end, trace.answered_otherwise]) + "\n")
    os.write(out, (end if end == "no end" else end_of(plain, {})).encode())


def run_of(data: bytes, most: int) -> Run:
    """Returns the run of a module, with at most `most` places."""
    reading, writing = os.pipe()
    child = os.fork()
    if child == 0:
        try:
            run_here(data, most, writing)
        finally:
            os._exit(0)
    os.close(writing)
    with open(reading, encoding="utf-8") as file:
        first, _, plain = file.read().partition("\n")
    os.waitpid(child, 0)
    if not first:
        return Run([], "no answer", False, "no end")
    events, end, answered_otherwise = json.loads(first)
    return Run(events, end, answered_otherwise, plain or "no end")
