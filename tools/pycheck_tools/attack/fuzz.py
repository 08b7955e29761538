"""Makes modules, breaks some of them, and looks for what pycheck and pyrun may never do.

    tools/attack fuzz PYCHECK PYRUN SECONDS [SEED]

makes modules of the profile for so many seconds. A third of them stay as they are made, a third have names, literals, types,
operators or whole lines changed for others, and a third are broken: tokens left out, put in or swapped, bytes changed, the end
cut off. Each goes through `pycheck`, `pycheck --json` and `pyrun --fuel 2000`, and some through `pycheck` once more. These are
findings:

    status    a status outside 0 to 2, or a signal. No device fails here, and pycheck has ample memory, so its 3 is wrong as well.
              Each program gets 1 GiB: a run may make texts that double at each step, and may then answer that memory is wanting
    output    text on standard output beside a refusal, or a refusal that is no line of the right form
    past      a refusal past the end of the text
    refused   a module that is made by the grammar and left as it is, and is refused
    sound     a report without error, and a run that ends in TypeError, AttributeError, NameError, UnboundLocalError or Outside
              with none of the report's dynamic places among its events
    differ    pycheck and pyrun tell a refusal differently
    read      the reader of tools/attack truncate tells a refusal differently (it knows no G2); asked of what was broken
    twice     two answers for one input
    json      JSON that does not agree with the text, with itself or with the places in the module

Each finding is made small (whole lines are left out, then tokens, as long as the same kind of finding stays), printed, and the
exit status is then 1, as it is where no module was tried. Last stand how many modules of each kind were tried, how they were
answered, how their runs ended, and in how many modules each code stood.
The same SEED makes the same modules; without one it is 1.
"""
from __future__ import annotations

import collections
import json
import random
import re
import resource
import subprocess
import tempfile
import time
from types import ModuleType
from typing import Any, Callable, Counter, Dict, Iterable, List, Optional, Sequence, Set, Tuple

from .. import ROOT
from ..words import Words
from . import truncate

FUEL = "2000"
# Seconds after which a program counts as one that gives no answer; long, since other programs may take the processor
WAIT = 300
MEMORY = 1 << 30
WANTING = (3, b"", b"out of memory\n")
FAULTS = {"TypeError", "AttributeError", "NameError", "UnboundLocalError", "Outside"}
HEADER = "from __future__ import annotations\n"
# The label of each error and dynamic place, as docs/CODES.md has it
CODES = json.loads((ROOT / "tools/pycheck_all/codes.json").read_text(encoding="utf-8"))
LABELS = {code: CODES[code]["title"] for code in sorted(CODES) if CODES[code]["kind"] != "refused"}
TOKEN = re.compile(r"""'(?:[^'\\\n]|\\.)*'|"(?:[^"\\\n]|\\.)*"|\w+|->|==|!=|<=|>=|//|[^\w\s]|\r?\n[ ]*|[ \t]+""")

# An expression with its level, a parameter with its type and whether it has a default, and the parameters and what is returned
Type = Tuple[Any, ...]
Made = Tuple[str, int]
Param = Tuple[str, Type, bool]
Signature = Tuple[List[Param], Type]
# The lines of a suite, and whether a run may reach its end
Suite = Tuple[List[str], bool]
# An exit status and two outputs; a finding as JSON has it; pycheck, pyrun and the reader
Given = Tuple[int, bytes, bytes]
Finding = Dict[str, Any]
Programs = Tuple[str, str, ModuleType]
# A type is a tuple whose first part is its head: ("int",), ("list", T), ("dict", K, V), ("tuple", T, ..), ("class", name),
# ("union", T, ..).
ANY, OBJECT, INT, BOOL, STR, NONE = (("Any",), ("object",), ("int",), ("bool",), ("str",), ("None",))
ATOMS: List[Type] = [INT, INT, INT, BOOL, STR, STR, NONE]


def type_text(ty: Type) -> str:
    """Returns a type as an annotation spells it."""
    head, parts = ty[0], ty[1:]
    if head == "class":
        return str(parts[0])
    if head == "union":
        return " | ".join(map(type_text, parts))
    if head == "tuple" and not parts:
        return "tuple[()]"
    return f"{head}[{', '.join(map(type_text, parts))}]" if parts else str(head)


def members(ty: Type) -> List[Type]:
    return list(ty[1:]) if ty[0] == "union" else [ty]


class Module:
    """The parts of a module that is being made."""

    def __init__(self, rng: random.Random) -> None:
        self.rng = rng
        self.classes: Dict[str, Dict[str, Any]] = {}
        self.functions: Dict[str, Signature] = {}
        self.constants: Dict[str, Type] = {}
        self.any_share: float = rng.choice([0, 0, 0.04, 0.15, 0.3])
        self.wrong_share: float = rng.choice([0, 0, 0, 0.01, 0.05])
        self.number = 0

    def chance(self, share: float) -> bool:
        return self.rng.random() < share

    def new_name(self, start: str) -> str:
        self.number += 1
        return f"{start}{self.number}"

    def ancestors(self, name: Optional[str]) -> List[str]:
        """Returns a class and all above it, nearest first."""
        found = []
        while name:
            found.append(name)
            name = self.classes[name]["base"]
        return found

    def fields(self, name: str) -> List[Param]:
        """Returns the fields of a class, those of the base first."""
        return [field for each in reversed(self.ancestors(name)) for field in self.classes[each]["fields"]]

    def methods(self, name: str) -> Dict[str, Signature]:
        """Returns the methods of a class, the nearest of each name."""
        found = {}
        for each in reversed(self.ancestors(name)):
            found.update(self.classes[each]["methods"])
        return found

    def below(self, one: Type, other: Type) -> bool:
        """Whether each value of one type is one of the other, by the rule for types with each Any read as object."""
        one, other = (OBJECT if ty == ANY else ty for ty in (one, other))
        if other == OBJECT or one == other:
            return True
        if one[0] == "union":
            return all(self.below(each, other) for each in one[1:])
        if other[0] == "union":
            return any(self.below(one, each) for each in other[1:])
        if (one, other) == (BOOL, INT):
            return True
        if one[0] == other[0] == "class":
            return other[1] in self.ancestors(one[1])
        if one[0] != other[0] or len(one) != len(other):
            return False
        pairs = list(zip(one[1:], other[1:]))
        if one[0] == "tuple":
            return all(self.below(a, b) for a, b in pairs)
        return one[0] in ("list", "dict") and all(self.below(a, b) and self.below(b, a) for a, b in pairs)

    def some_type(self, deep: int = 2) -> Type:
        """Returns a type that an annotation may spell."""
        pick = self.rng.random()
        if self.chance(self.any_share):
            return ANY
        if deep == 0 or pick < 0.5:
            return self.rng.choice(ATOMS)
        if pick < 0.62 and self.classes:
            return ("class", self.rng.choice(list(self.classes)))
        if pick < 0.74:
            return ("list", self.some_type(deep - 1))
        if pick < 0.80:
            return ("dict", self.rng.choice([INT, STR]), self.some_type(deep - 1))
        if pick < 0.86:
            return ("tuple", *(self.some_type(deep - 1) for _ in range(self.rng.randint(0, 3))))
        return OBJECT if pick < 0.88 else self.some_union(deep)

    def some_union(self, deep: int) -> Type:
        """Returns a union of types with different heads, or the one type that is left of it."""
        found: List[Type] = []
        for ty in [NONE] * self.chance(0.6) + [self.some_type(deep - 1) for _ in range(self.rng.randint(1, 3))]:
            for each in members(ty):
                suits = each not in (ANY, OBJECT) and not any(self.meet(each, one) for one in found)
                found += [each] * suits
        return found[0] if len(found) == 1 else ("union", *found) if found else INT

    def meet(self, one: Type, other: Type) -> bool:
        """Whether two types may not be in one union: equal heads, bool beside int, a class beside its ancestor."""
        if one[0] == other[0] == "class":
            return self.below(one, other) or self.below(other, one)
        return (one[0], len(one)) == (other[0], len(other)) or {one, other} == {INT, BOOL}


def grouped(made: Made, least: int) -> str:
    """Returns the text of an expression for a place that accepts at least this level: from 0, `or`, to 7, the operand
    of a dot."""
    return made[0] if made[1] >= least else f"({made[0]})"


class Body:
    """Makes the statements of one function or method. `known` has the type of each assigned local."""

    def __init__(self, module: Module, params: Dict[str, Type], returns: Type) -> None:
        self.of, self.rng, self.returns = module, module.rng, returns
        self.declared: Dict[str, Optional[Type]] = {**params}
        self.known = dict(params)
        self.room, self.loops = module.rng.choice([1, 2, 3, 5, 8, 14]), 0

    # Expressions: each maker returns a text and its level.

    def expr(self, ty: Type, deep: int = 3) -> Made:
        """Returns an expression of a type, or now and then of another one."""
        if self.of.chance(self.of.wrong_share):
            ty = self.of.some_type()
        if ty[0] == "union" and self.of.chance(0.7):
            return self.expr(self.rng.choice(ty[1:]), deep)
        held = self.held(ty)
        if held and self.of.chance(0.5):
            return self.rng.choice(held), 7
        if deep > 0 and self.of.chance(self.of.any_share):
            made = self.of_any(deep - 1)
            if made:
                return made
        if deep > 0 and self.of.chance(0.35):
            made = self.called(ty, deep - 1)
            if made:
                return made
        if deep > 0 and self.of.chance(0.06 if len(ty) == 1 else 0.005):
            word = self.rng.choice(["and", "or"])
            left, right = self.expr(ty, deep - 1), self.expr(ty, deep - 1)
            return (f"{grouped(left, 0)} or {grouped(right, 1)}", 0) if word == "or" else (f"{grouped(left, 1)} and {grouped(right, 2)}", 1)
        return self.plain(ty, deep)

    def held(self, ty: Type) -> List[str]:
        """Returns the names, fields and items that hold a type."""
        found = []
        for name, has in [*self.known.items(), *self.of.constants.items()]:
            fits = self.of.below(has, ty) or (has == ANY and self.of.chance(self.of.any_share))
            found += [name] * fits
            if has[0] == "class":
                found += [f"{name}.{field}" for field, of, _ in self.of.fields(has[1]) if self.of.below(of, ty)]
            if has[0] == "tuple":
                found += [f"{name}[{at}]" for at, of in enumerate(has[1:]) if self.of.below(of, ty)]
            if has[0] in ("list", "dict") and self.of.below(has[-1], ty) and self.of.chance(0.3):
                found.append(f"{name}[{grouped(self.plain(INT if has[0] == 'list' else has[1], 0), 0)}]")
        return found

    def arguments(self, params: List[Param], deep: int) -> str:
        """Returns the arguments of a call, some of them by name, some left to their defaults."""
        texts, by_name = [], False
        for name, ty, has_default in params:
            if has_default and self.of.chance(0.4):
                by_name = True
                continue
            by_name = by_name or self.of.chance(0.1)
            value = grouped(self.expr(ty, deep), 0)
            texts.append(f"{name}={value}" if by_name else value)
        named = [text for text in texts if re.match(r"\w+=[^=]", text)]
        if len(named) > 1 and self.of.chance(0.3):
            self.rng.shuffle(named)
            texts = [text for text in texts if text not in named] + named
        return ", ".join(texts)

    def called(self, ty: Type, deep: int) -> Optional[Made]:
        """Returns a call that results in the type; None if there is none."""
        calls = [(name, params) for name, (params, returns) in self.of.functions.items() if self.of.below(returns, ty)]
        calls += [(name, self.of.fields(name)) for name in self.of.classes if self.of.below(("class", name), ty)]
        for name, has in self.known.items():
            if has[0] == "class":
                known = self.of.methods(has[1]).items()
                calls += [(f"{name}.{method}", params) for method, (params, returns) in known if self.of.below(returns, ty)]
            if has[0] == "list" and self.of.below(has[1], ty):
                calls.append((f"{name}.pop", []))
            if has[0] == "list" and ty == NONE:
                calls.append((f"{name}.append", [("", has[1], False)]))
            if has[0] == "dict" and self.of.below(has[2], ty) and self.of.below(NONE, ty):
                calls.append((f"{name}.get", [("", has[1], False)]))
        if not calls:
            return None
        name, params = self.rng.choice(calls)
        given = self.arguments(params, deep) if not params or params[0][0] else grouped(self.expr(params[0][1], deep), 0)
        return f"{name}({given}{',' if given and self.of.chance(0.05) else ''})", 7

    def of_any(self, deep: int) -> Optional[Made]:
        """Returns a use of a local of type Any: an attribute, a call, an item, an operator; None if there is no such
        local."""
        held = [name for name, ty in self.known.items() if ty == ANY]
        if not held:
            return None
        name, pick = self.rng.choice(held), self.rng.random()
        fields = [field for each in self.of.classes.values() for field, _, _ in each["fields"]] + ["a0"]
        methods = [method for each in self.of.classes.values() for method in each["methods"]] + ["append", "get", "pop"]
        value = grouped(self.expr(self.of.some_type(1), deep), 0)
        if pick < 0.25:
            return f"{name}.{self.rng.choice(fields)}", 7
        if pick < 0.5:
            return f"{name}.{self.rng.choice(methods)}({self.rng.choice(['', value])})", 7
        if pick < 0.7:
            return f"{name}[{value}]", 7
        if pick < 0.75:
            return f"{name}({value})", 7
        if pick < 0.85:
            return f"len({name})", 7
        return (f"{name} in ({value}, {name})", 3) if pick < 0.9 else (f"{name} + {grouped(self.expr(INT, deep), 5)}", 4)

    def plain(self, ty: Type, deep: int) -> Made:
        """Returns an expression of the type, made of literals and operators."""
        head = ty[0]
        if head in ("list", "tuple", "dict"):
            return self.display(ty, deep)
        if head == "class":
            name = self.rng.choice([name for name in self.of.classes if self.of.below(("class", name), ty)])
            if deep < -6:
                return "None", 7
            return f"{name}({self.arguments(self.of.fields(name), deep - 1)})", 7
        if head == "union":
            return self.expr(self.rng.choice(ty[1:]), deep)
        if head in ("Any", "object"):
            return self.expr(self.rng.choice(ATOMS) if deep <= 0 else self.of.some_type(1), deep - 1)
        if head == "None":
            return ("None", 7) if deep <= 0 or self.of.chance(0.8) else (f"print({grouped(self.expr(OBJECT, deep - 1), 0)})", 7)
        if deep <= 0 or self.of.chance(0.45):
            return self.literal(head), 7
        return {"int": self.number, "bool": self.truth, "str": self.string}[head](deep - 1)

    def literal(self, head: str) -> str:
        if head == "bool":
            return self.rng.choice(["True", "False"])
        if head == "int":
            return self.rng.choice(["0", "1", "2", "3", "7", "1_0", "12"])
        return self.rng.choice(['"a"', "'b'", '""', '"a\\n"', '"é"', "'\"'", '"#"'])

    def display(self, ty: Type, deep: int) -> Made:
        head, parts = ty[0], ty[1:]
        count = self.rng.choice([0, 1, 1, 2, 3]) if deep > -3 else 0
        if head == "tuple":
            items = [grouped(self.expr(part, deep - 1), 0) for part in parts]
            return f"({', '.join(items)}{',' if len(items) == 1 else ''})", 7
        if head == "list":
            return f"[{', '.join(grouped(self.expr(parts[0], deep - 1), 0) for _ in range(count))}]", 7
        pairs = [f"{grouped(self.expr(parts[0], 0), 0)}: {grouped(self.expr(parts[1], deep - 1), 0)}" for _ in range(max(1, count))]
        return "{" + ", ".join(pairs) + "}", 7

    def number(self, deep: int) -> Made:
        pick = self.rng.random()
        if pick < 0.15:
            return f"-{grouped(self.expr(INT, deep), 6)}", 6
        if pick < 0.3:
            return f"len({grouped(self.expr(self.rng.choice([STR, ('list', INT), ('tuple', INT)]), deep), 0)})", 7
        sign, level = self.rng.choice([("+", 4), ("-", 4), ("*", 5), ("//", 5), ("%", 5)])
        return f"{grouped(self.expr(INT, deep), level)} {sign} {grouped(self.expr(INT, deep), level + 1)}", level

    def string(self, deep: int) -> Made:
        pick = self.rng.random()
        if pick < 0.4:
            return f"str({grouped(self.expr(OBJECT, deep), 0)})", 7
        if pick < 0.5:
            return f"{grouped(self.expr(STR, deep), 7)}[{grouped(self.expr(INT, deep), 0)}]", 7
        return f"{grouped(self.expr(STR, deep), 4)} + {grouped(self.expr(STR, deep), 5)}", 4

    def truth(self, deep: int) -> Made:
        pick, ty = self.rng.random(), self.rng.choice([INT, STR])
        if pick < 0.15:
            return f"not {grouped(self.expr(OBJECT, deep), 2)}", 2
        if pick < 0.3:
            return self.contained(deep)
        if pick < 0.45:
            tail = self.rng.choice(["is None", "is not None"])
            return f"{grouped(self.expr(OBJECT, deep), 4)} {tail}", 3
        if pick < 0.55:
            tested = self.rng.choice(["int", "str", "bool", "list", *self.of.classes])
            return f"isinstance({grouped(self.expr(OBJECT, deep), 0)}, {tested})", 7
        sign = self.rng.choice(["==", "!=", "<", "<=", ">", ">="])
        return f"{grouped(self.expr(ty, deep), 4)} {sign} {grouped(self.expr(ty, deep), 4)}", 3

    def contained(self, deep: int) -> Made:
        left, right = self.rng.choice([(STR, STR), (INT, ("list", INT)), (INT, ("dict", INT, STR)), (OBJECT, ("tuple", INT, STR))])
        word = self.rng.choice(["in", "not in"])
        return f"{grouped(self.expr(left, deep), 4)} {word} {grouped(self.expr(right, deep), 4)}", 3

    # Statements: each maker returns lines.

    def suite(self, deep: int, first: Sequence[str] = ()) -> Suite:
        """Returns the lines of a suite, and whether a run may reach its end."""
        lines = list(first)
        for _ in range(self.rng.randint(1, 4)):
            more, goes_on = self.statement(deep)
            lines += more
            if not goes_on:
                return lines, False
        return lines, True

    def statement(self, deep: int) -> Suite:
        self.room -= 1
        pick = self.rng.random()
        if deep and self.room > 0 and pick < 0.34:
            return self.rng.choice([self.branch, self.branch, self.narrowed, self.narrowed, self.loop, self.over])(deep - 1)
        if pick < 0.40 and deep < 3:
            return self.leave()
        if pick < 0.62:
            return self.bind(), True
        if pick < 0.78:
            return self.store(), True
        if pick < 0.82:
            message = f", {grouped(self.expr(OBJECT, 1), 0)}" if self.of.chance(0.3) else ""
            return [f"assert {grouped(self.expr(BOOL, 1), 0)} or True{message}"], True
        return [grouped(self.expr(self.of.some_type(1)), 0)] if self.of.chance(0.8) else ["pass"], True

    def leave(self) -> Suite:
        """Returns a statement that ends the suite."""
        if self.loops and self.of.chance(0.6):
            return [self.rng.choice(["break", "continue"])], False
        if self.returns == NONE:
            return ["return"], False
        return [f"return {grouped(self.expr(self.returns), 0)}"], False

    def bind(self) -> List[str]:
        """Returns lines that bind a local, often a new one with an annotation."""
        old = {name: ty for name, ty in self.declared.items() if ty is not None and name != "self"}
        if old and self.of.chance(0.45):
            name = self.rng.choice(list(old))
            made = self.expr(old[name])
            while made[0] == name:
                made = self.plain(old[name], 1)
            self.known[name] = old[name]
            return [f"{name} = {grouped(made, 0)}"]
        name, ty = self.of.new_name("x"), self.of.some_type()
        if self.of.chance(0.1):
            self.declared[name] = ty
            return [f"{name}: {type_text(ty)}"]
        value = grouped(self.expr(ty), 0)
        if ty in (INT, STR) and self.of.chance(0.5):
            value, note = self.literal(ty[0]), ""
        else:
            note = f": {type_text(ty)}"
        self.declared[name] = self.known[name] = ty
        return [f"{name}{note} = {value}"]

    def store(self) -> List[str]:
        """Returns a store to a field or an item, if there is one."""
        places = []
        for name, has in self.known.items():
            if has[0] == "class":
                places += [(f"{name}.{field}", ty) for field, ty, _ in self.of.fields(has[1])]
            if has[0] == "dict":
                places.append((f"{name}[{grouped(self.expr(has[1], 1), 0)}]", has[2]))
            if has[0] == "list":
                places += [(f"{name}[0]", has[1]), (f"{name}.append", has[1])]
        if not places:
            return self.bind()
        place, ty = self.rng.choice(places)
        value = grouped(self.expr(ty), 0)
        return [f"{place}({value})" if place.endswith(".append") else f"{place} = {value}"]

    def inside(self, deep: int, first: Sequence[str] = (), **narrowed: Type) -> Suite:
        """Returns the lines of a deeper suite, indented; its bindings are forgotten after it, except declared types."""
        kept = dict(self.known)
        self.known.update(narrowed)
        lines, goes_on = self.suite(deep, first)
        self.known = {name: self.declared.get(name) or ty for name, ty in kept.items()}
        return ["    " + line for line in lines], goes_on

    def branch(self, deep: int) -> Suite:
        lines, any_end = [], False
        for word in ["if", *["elif"] * self.rng.choice([0, 0, 1, 2])]:
            condition = grouped(self.expr(BOOL, 2), 0)
            inner, end = self.inside(deep)
            lines += [f"{word} {condition}:", *inner]
            any_end = any_end or end
        if self.of.chance(0.4):
            inner, end = self.inside(deep)
            return lines + ["else:", *inner], any_end or end
        return lines, True

    def narrowed(self, deep: int) -> Suite:
        """Returns an `if` whose condition narrows a local's type."""
        wide = [name for name, ty in self.known.items() if ty[0] in ("union", "object", "Any")]
        if not wide:
            return self.branch(deep)
        name = self.rng.choice(wide)
        ty = self.known[name]
        parts = members(ty) if ty[0] == "union" else [INT, STR, ("list", ANY), *(("class", each) for each in self.of.classes)]
        one = self.rng.choice([each for each in parts if each[0] in ("None", "int", "str", "bool", "list", "class")] or [NONE])
        rest = [each for each in members(ty) if not self.of.below(each, one)]
        left = ty if ty[0] != "union" else rest[0] if len(rest) == 1 else ("union", *rest) if rest else NONE
        test = f"{name} is None" if one == NONE else f"isinstance({name}, {one[1] if one[0] == 'class' else one[0]})"
        if self.of.chance(0.3):
            test, one, left = f"not {test}" if one != NONE else f"{name} is not None", left, one
        if self.of.chance(0.2):
            test = f"{test} and {grouped(self.expr(BOOL, 1), 2)}"
            left = ty
        inner, end = self.inside(deep, **{name: one})
        lines = [f"if {test}:", *inner]
        if self.of.chance(0.5):
            inner, end_of_else = self.inside(deep, **{name: left})
            return lines + ["else:", *inner], end or end_of_else
        if not end:
            self.known[name] = left
        return lines, True

    def loop(self, deep: int) -> Suite:
        """Returns a `while` loop, which mostly ends soon."""
        self.loops += 1
        name = self.of.new_name("n")
        self.declared[name] = None
        self.known[name] = INT
        wide = [each for each, ty in self.known.items() if ty[0] == "union" and NONE in ty]
        narrowed, more = {}, ""
        if wide and self.of.chance(0.3):
            each = self.rng.choice(wide)
            rest = [ty for ty in self.known[each][1:] if ty != NONE]
            narrowed, more = {each: rest[0] if len(rest) == 1 else ("union", *rest)}, f" and {each} is not None"
        inner, _ = self.inside(deep, [f"{name} = {name} + 1"], **narrowed)
        self.loops -= 1
        return [f"{name} = 0", f"while {name} < {self.rng.randint(0, 3)}{more}:", *inner], True

    def over(self, deep: int) -> Suite:
        """Returns a `for` loop."""
        self.loops += 1
        item, pick = self.of.some_type(1), self.rng.random()
        lines: List[str] = []
        if pick < 0.25:
            item, text = INT, f"range({grouped(self.plain(INT, 0), 0)})"
        elif pick < 0.4:
            item, text = STR, grouped(self.expr(STR, 1), 0)
        elif pick < 0.55:
            item = self.rng.choice([INT, STR])
            text, lines = self.annotated(("dict", item, INT))
        else:
            text, lines = self.annotated(("list", item))
        name = self.of.new_name("i")
        self.declared[name] = None
        inner, _ = self.inside(deep, **{name: item})
        self.loops -= 1
        return [*lines, f"for {name} in {text}:", *inner], True

    def annotated(self, ty: Type) -> Tuple[str, List[str]]:
        """Returns a local of the type, new or old, and the lines that bind it."""
        old = [name for name, has in self.known.items() if has == ty]
        if old and self.of.chance(0.5):
            return self.rng.choice(old), []
        name, value = self.of.new_name("x"), grouped(self.expr(ty), 0)
        self.declared[name] = self.known[name] = ty
        return name, [f"{name}: {type_text(ty)} = {value}"]

    def lines(self) -> List[str]:
        """Returns the whole body, each line indented by four spaces."""
        made, goes_on = [], True
        while goes_on and self.room > 0:
            more, goes_on = self.suite(3)
            made += more
        if goes_on and not self.of.below(NONE, self.returns):
            made.append(f"return {grouped(self.expr(self.returns), 0)}")
        return ["    " + line for line in made]


def default_for(module: Module, ty: Type) -> Optional[str]:
    """Returns a literal that fits a type, or None."""
    fits = [text for text, of in (("0", INT), ("-1", INT), ("True", BOOL), ('"d"', STR), ("None", NONE)) if module.below(of, ty)]
    return module.rng.choice(fits) if fits and module.chance(0.4) else None


def some_params(module: Module, count: int) -> Tuple[List[str], List[Param]]:
    """Returns parameters as they are written and as they are known: a name, a type, whether it has a default."""
    texts, known, defaults = [], [], False
    for _ in range(count):
        name, ty = module.new_name("p"), module.some_type()
        value = default_for(module, ty)
        if defaults and value is None:
            ty, value = INT, "3"
        defaults = defaults or value is not None
        note = "" if ty == ANY and module.chance(0.5) else f": {type_text(ty)}"
        texts.append(f"{name}{note}" + ("" if value is None else f" = {value}"))
        known.append((name, ty, value is not None))
    return texts, known


def body_of(module: Module, params: List[Param], returns: Type, own: Iterable[Tuple[str, Type]] = ()) -> List[str]:
    held = {name: ty for name, ty, _ in params}
    return Body(module, {**dict(own), **held}, returns).lines()


def add_function(module: Module) -> List[str]:
    name, returns = module.new_name("f"), module.some_type()
    texts, params = some_params(module, module.rng.randint(0, 3))
    arrow = "" if returns == ANY and module.chance(0.5) else f" -> {type_text(returns)}"
    lines = [f"def {name}({', '.join(texts)}){arrow}:", *body_of(module, params, returns)]
    module.functions[name] = (params, returns)
    return lines


def override(module: Module, above: Dict[str, Signature], name: str) -> Signature:
    """Returns the parameters and the result type of a method that overrides another one, mostly so that it fits."""
    params, returns = above[name]
    params = [(each, OBJECT if module.chance(0.15) else ANY if module.chance(module.any_share) else ty, has) for each, ty, has in params]
    if returns[0] == "union" and module.chance(0.4):
        returns = module.rng.choice(returns[1:])
    elif module.chance(module.any_share):
        returns = ANY
    return params, returns


def add_class(module: Module) -> List[str]:
    """Returns a class, with a base now and then, and methods, some of which override."""
    name = module.new_name("C")
    base = module.rng.choice([None, *module.classes]) if module.chance(0.7) else None
    made: Dict[str, Any] = {"base": base, "fields": [], "methods": {}}
    module.classes[name] = made
    lines = ["@dataclass", f"class {name}({base}):" if base else f"class {name}:"]
    defaults = any(has for _, _, has in (module.fields(base) if base else []))
    for _ in range(module.rng.randint(0, 2)):
        field, ty = module.new_name("a"), module.some_type(1)
        if ty[0] == "class":
            ty = INT
        value = default_for(module, ty)
        if defaults and value is None:
            ty, value = INT, "5"
        defaults = defaults or value is not None
        made["fields"].append((field, ty, value is not None))
        lines.append(f"    {field}: {type_text(ty)}" + ("" if value is None else f" = {value}"))
    for _ in range(module.rng.randint(0, 2)):
        lines += add_method(module, name, base)
    return lines if len(lines) > 2 else lines + ["    pass"]


def add_method(module: Module, name: str, base: Optional[str]) -> List[str]:
    made, above = module.classes[name], module.methods(base) if base else {}
    free = [each for each in above if each not in made["methods"]]
    if free and module.chance(0.6):
        method = module.rng.choice(free)
        params, returns = override(module, above, method)
        texts = [f"{each}: {type_text(ty)}" + (f" = {literal_of(module, ty)}" if has else "") for each, ty, has in params]
    else:
        method, returns = module.new_name("m"), module.some_type()
        texts, params = some_params(module, module.rng.randint(0, 2))
    made["methods"][method] = (params, returns)
    lines = [f"def {method}({', '.join(['self', *texts])}) -> {type_text(returns)}:"]
    lines += body_of(module, params, returns, {"self": ("class", name)}.items())
    return ["    " + line for line in lines]


def literal_of(module: Module, ty: Type) -> str:
    """Returns a literal for a parameter of an overriding method, whose type is at least as wide as the one that had a
    default."""
    for text, of in (("0", INT), ("True", BOOL), ('"d"', STR), ("None", NONE)):
        if module.below(of, ty):
            return text
    return "0"


def add_constant(module: Module) -> List[str]:
    name, ty = module.new_name("k"), module.some_type(1)
    body = Body(module, {}, NONE)
    functions, module.functions = module.functions, {}
    value = grouped(body.expr(ty, 1), 0)
    module.functions = functions
    module.constants[name] = ty
    return [f"{name}: {type_text(ty)} = {value}"]


def spelled(module: Module, lines: List[str]) -> str:
    """Returns the text, now and then with other gaps, comments and line ends."""
    rng = module.rng
    if rng.random() < 0.2:
        lines = [line + rng.choice(["", "", "  # note", "\t", "\n", "\n        # deep"]) for line in lines]
    text = "\n".join(lines) + rng.choice(["\n", "\n", ""])
    if rng.random() < 0.1:
        text = text.replace("x1", rng.choice(["café", "cafe\u0301", "ﬁ1", "变量"]))
    return text.replace("\n", "\r\n") if rng.random() < 0.05 else text


def called_all(module: Module, body: Body) -> List[str]:
    """Returns lines that call most functions, and most methods of an instance of each class, so that a run enters each
    body."""
    lines, rng = [], module.rng
    for name, (params, _) in module.functions.items():
        lines.append(f"{name}({body.arguments(params, 1)})")
    for name in module.classes:
        one, kind = module.new_name("o"), rng.choice(module.ancestors(name))
        lines.append(f"{one}: {kind} = {name}({body.arguments(module.fields(name), 1)})")
        body.declared[one] = body.known[one] = ("class", kind)
        for method, (params, _) in module.methods(kind).items():
            lines.append(f"{one}.{method}({body.arguments(params, 1)})")
    return ["    " + line for line in lines]


def made_module(rng: random.Random) -> str:
    """Returns a whole module as a text."""
    module, lines = Module(rng), []
    for _ in range(rng.randint(1, 5)):
        add = rng.choice([add_class, add_class, add_function, add_function, add_function, add_constant])
        lines += add(module)
    body = Body(module, {}, NONE)
    calls = called_all(module, body)
    lines += ["def main():", *calls, *body.lines(), "main()"]
    heads = [HEADER[:-1], "from dataclasses import dataclass", "from typing import Any"]
    return spelled(module, heads + lines)


# Changes

def alike(text: str, rng: random.Random) -> str:
    """Returns the text with a few names, literals, types, operators or lines changed for others of the same kind."""
    for _ in range(rng.choice([1, 1, 2, 3])):
        if rng.random() < 0.25:
            text = moved_line(text, rng)
            continue
        tokens = TOKEN.findall(text)
        kinds = [kind_of(token) or "" for token in tokens]
        places = [at for at, kind in enumerate(kinds) if kind and at > 24]
        if not places:
            return text
        at = rng.choice(places)
        others = [token for token, kind in zip(tokens, kinds) if kind == kinds[at] and token != tokens[at]] + EXTRA.get(kinds[at], [])
        if others:
            tokens[at] = rng.choice(others)
        text = "".join(tokens)
    return text


EXTRA = {"type": ["int", "str", "bool", "object", "Any", "None"], "sign": ["+", "-", "*", "//", "%"],
         "order": ["==", "<", ">="], "literal": ["0", '"s"', "None", "True", "[]", "(1,)", "{1: 2}"],
         "name": ["x1", "x2", "p1", "p2", "self"]}


def kind_of(token: str) -> Optional[str]:
    """Returns the kind of a token that may be changed for another one, or None."""
    if token in EXTRA["sign"]:
        return "sign"
    if token in ("==", "!=", "<", "<=", ">", ">="):
        return "order"
    if token in ("int", "str", "bool", "object", "Any"):
        return "type"
    if token in ("None", "True", "False") or token[0] in "'\"0123456789":
        return "literal"
    return "name" if re.fullmatch(r"[a-zA-Z]\d+", token) else None


def moved_line(text: str, rng: random.Random) -> str:
    """Returns the text with one line left out, doubled or swapped with the next of the same column."""
    lines = text.split("\n")
    at = rng.randrange(3, len(lines)) if len(lines) > 4 else 0
    pick = rng.random()
    if pick < 0.4:
        del lines[at]
    elif pick < 0.7:
        lines.insert(at, lines[at])
    elif at + 1 < len(lines):
        lines[at], lines[at + 1] = lines[at + 1], lines[at]
    return "\n".join(lines)


WORDS = ("( ) [ ] { } , : . = == | -> + - * // % @ if else elif for in while def class return pass break not and or is None assert"
         " lambda x1 self 0 1 'a' \" ' ** ; := \\ ?").split() + ["\n", "\n    ", "\t", "  ", "\r", "\0", "é", "\ufb01", "𝟘", "'''", "\\"]


def broken(data: bytes, rng: random.Random) -> bytes:
    """Returns the bytes with tokens left out, inserted or swapped, bytes changed, or the end cut off."""
    pick = rng.random()
    if pick < 0.25:
        return data[:rng.randrange(len(data) + 1)]
    if pick < 0.45:
        changed = bytearray(data)
        for _ in range(rng.randint(1, 3)):
            changed[rng.randrange(len(changed))] = rng.choice([rng.randrange(256), rng.randrange(32, 127)])
        return bytes(changed)
    tokens = TOKEN.findall(data.decode())
    for _ in range(rng.randint(1, 3)):
        at, other = rng.randrange(len(tokens)), rng.randrange(len(tokens))
        change = rng.randrange(4)
        if change == 0 and len(tokens) > 1:
            del tokens[at]
        elif change == 1:
            tokens.insert(at, rng.choice(WORDS))
        elif change == 2:
            tokens[at] = rng.choice(WORDS)
        else:
            tokens[at], tokens[other] = tokens[other], tokens[at]
    return "".join(tokens).encode()


# Findings

class Found(Exception):
    """Raised for a finding: its kind, and a description."""


def read_apart(apart: ModuleType, data: bytes, told: str) -> None:
    """Compares a refusal, or that there is none, with the answer of the reader; raises Found."""
    says = apart.reading(data, apart.Grammar())
    if says != told and not told.startswith("G2"):
        raise Found("read", f"{told or 'a module'}, and the reader says {says or 'a module'}")


def answer(words: Sequence[str], file: str) -> Given:
    """Returns the exit status, the bytes of standard output and those of standard error."""
    try:
        done = subprocess.run([*words, file], capture_output=True, timeout=WAIT)
    except subprocess.TimeoutExpired:
        raise Found("status", f"{' '.join(words[1:]) or 'pycheck'}: no answer in {WAIT} seconds") from None
    given = done.returncode, done.stdout, done.stderr
    if given[0] not in (0, 1, 2) and not ("--fuel" in words and given == WANTING):
        raise Found("status", f"{words}: status {done.returncode}, {done.stderr[-300:]!r}")
    return given


def refusal(given: Given, length: int) -> Tuple[bytes, int]:
    """Returns the code and byte of a refusal."""
    _, out, said = given
    match = re.fullmatch(rb"refused ([SLING]\d) at byte (\d+)\n", said)
    if out or not match:
        raise Found("output", f"{out[:100]!r} and {said[:200]!r} beside status 2")
    if int(match[2]) > length:
        raise Found("past", f"{said!r} in {length} bytes")
    return match[1], int(match[2])


def line_of(data: bytes, finding: Finding) -> str:
    """Returns the line of the text report for a finding of the JSON."""
    before = data[: finding["start"]]
    line = before.count(b"\n") + 1
    column = len(before[before.rfind(b"\n") + 1 :].decode()) + 1
    if (line, column) != (finding["line"], finding["column"]):
        raise Found("json", f"{finding} stands at {line}:{column}")
    flow = f" {finding['from']} -> {finding['to']}" if "from" in finding else ""
    return f"{line}:{column} {finding['code']} {LABELS[finding['code']]}{flow}\n"


def findings(data: bytes, text: bytes, status: int, from_json: bytes) -> List[Finding]:
    """Returns the findings of the JSON; raises Found if it does not agree with the text."""
    try:
        told = json.loads(from_json)
    except ValueError as fault:
        raise Found("json", str(fault)) from None
    if json.dumps(told, sort_keys=True, separators=(",", ":"), ensure_ascii=False).encode() + b"\n" != from_json:
        raise Found("json", "it is spelled otherwise than the format says")
    errors = sum(each["code"][0] == "E" for each in told["findings"])
    lines = [line_of(data, each) for each in told["findings"]]
    lines.append(f"errors {errors}, dynamic {len(lines) - errors}\n")
    order = [(each["start"], each["end"], each["code"]) for each in told["findings"]]
    if "".join(lines).encode() != text or (told["errors"], told["dynamic"]) != (errors, len(lines) - 1 - errors):
        raise Found("json", f"{from_json[:300]!r} beside {text[:300]!r}")
    if order != sorted(set(order)) or any(not 0 <= start < end <= len(data) for start, end, _ in order):
        raise Found("json", f"places out of order, twice or outside: {order[:20]}")
    if status != (1 if errors else 0):
        raise Found("status", f"status {status} beside {errors} errors")
    return list(told["findings"])


def trace_of(given: Given) -> Tuple[Set[Tuple[int, ...]], str]:
    """Returns the events and the end of a run; a run that ran out of memory has no events and an empty end."""
    if given == WANTING:
        return set(), "want of memory"
    *events, end = given[1].decode().splitlines() or [""]
    if not end.startswith("end ") or given[0] != 0:
        raise Found("output", f"pyrun: status {given[0]}, {given[1][-100:]!r}, {given[2][-200:]!r}")
    return {tuple(map(int, line.split())) for line in events}, end[len("end "):]


def refused_alike(answers: Sequence[Given], length: int) -> str:
    """Returns the refusal that all three answers tell, as a code and a byte."""
    if {each[0] for each in answers} != {2}:
        raise Found("differ", f"{[each[0] for each in answers]}: {[each[2] for each in answers]!r}")
    told = {refusal(each, length) for each in answers}
    if len(told) > 1:
        raise Found("differ", str(told))
    code, byte = told.pop()
    return f"{code.decode()} {byte}"


def tried(programs: Programs, data: bytes, again: bool = True, as_made: bool = False, is_broken: bool = True) -> Tuple[str, str, Set[str]]:
    """Tries one input. Returns how it was answered, how its run ended, and the codes of its findings; raises Found."""
    pycheck, pyrun, apart = programs
    with tempfile.NamedTemporaryFile(suffix=".py") as file:
        file.write(data)
        file.flush()
        as_text, run = answer([pycheck], file.name), answer([pyrun, "--fuel", FUEL], file.name)
        as_json = answer([pycheck, "--json"], file.name)
        if again and answer([pycheck], file.name) != as_text:
            raise Found("twice", "pycheck")
    answers, told = (as_text, as_json, run), ""
    if 2 in [each[0] for each in answers]:
        told = refused_alike(answers, len(data))
        if as_made:
            raise Found("refused", told)
    if is_broken:
        read_apart(apart, data, told)
    if told:
        return "refused", told.split()[0], set()
    if as_text[2] or as_json[2] or as_json[0] != as_text[0]:
        raise Found("output", f"{as_text[2]!r}, {as_json[2]!r} beside a report")
    listed = findings(data, as_text[1], as_text[0], as_json[1])
    return judged(listed, *trace_of(run))


def judged(listed: List[Finding], events: Set[Tuple[int, ...]], end: str) -> Tuple[str, str, Set[str]]:
    """Returns how a report and its run agree, in the form of `tried`."""
    codes = {each["code"] for each in listed}
    if any(code[0] == "E" for code in codes):
        return "errors", end, codes
    dynamic = {(each["start"], each["end"]) for each in listed}
    if end in FAULTS and not dynamic & events:
        raise Found("sound", f"the run ends in {end}, the report has no error, and no place that it lists was evaluated")
    return ("no error, dynamic places" if dynamic else "no finding"), end, codes


def kind_found(programs: Programs, data: bytes) -> Optional[str]:
    """Returns the kind of finding for an input, or None."""
    try:
        tried(programs, data)
    except Found as found:
        return str(found.args[0])
    return None


def without(parts: List[bytes], still: Callable[[List[bytes]], bool]) -> List[bytes]:
    """Returns the fewest parts that were found to show it: runs of parts are left out, long ones first."""
    size = max(1, len(parts) // 2)
    while True:
        at, smaller = 0, False
        while at < len(parts):
            fewer = parts[:at] + parts[at + size :]
            if fewer and still(fewer):
                parts, smaller = fewer, True
            else:
                at += size
        if size == 1 and not smaller:
            return parts
        size = max(1, size // 2)


def smallest(programs: Programs, data: bytes, kind: str) -> bytes:
    """Returns a small input with the same kind of finding."""
    if kind == "refused":
        return data
    until = time.monotonic() + 60

    def still(parts: List[bytes]) -> bool:
        return time.monotonic() < until and kind_found(programs, b"".join(parts)) == kind

    data = b"".join(without(data.splitlines(keepends=True), still))
    try:
        parts = [token.encode() for token in TOKEN.findall(data.decode())]
    except UnicodeDecodeError:
        parts = [bytes([byte]) for byte in data]
    return b"".join(without(parts, still)) if b"".join(parts) == data else data


KINDS: Dict[str, Callable[[str, random.Random], bytes]] = {
    "as made": lambda text, rng: text.encode(), "alike": lambda text, rng: alike(text, rng).encode(),
    "broken": lambda text, rng: broken(text.encode(), rng)}


def show(found: Found, seed: str, kind: str, data: bytes) -> None:
    print(f"FOUND {found.args[0]} (seed {seed}, {kind}): {found.args[1]}")
    print(data.decode(errors="backslashreplace"), flush=True)
    print("-" * 20, repr(data) if len(data) < 400 else "", flush=True)


def fuzz(programs: Programs, seconds: int, seed: str) -> int:
    """Tries inputs for `seconds` seconds, and prints the findings and the counts. Returns the exit status."""
    counts: Counter[str] = collections.Counter()
    codes: Counter[str] = collections.Counter()
    seen: Counter[str] = collections.Counter()
    until, number = time.monotonic() + seconds, 0
    while time.monotonic() < until:
        rng = random.Random(f"{seed}/{number}")
        kind = list(KINDS)[number % 3]
        data = KINDS[kind](made_module(rng), rng)
        number += 1
        try:
            answered, end, listed = tried(programs, data, number % 8 == 0, kind == "as made", kind == "broken")
        except Found as found:
            seen[found.args[0]] += 1
            if seen[found.args[0]] <= 3:
                show(found, f"{seed}/{number - 1}", kind, smallest(programs, data, found.args[0]))
            continue
        counts[f"{kind}: {answered}"] += 1
        counts[f"refused with {end}" if answered == "refused" else f"run of a module with {answered} ends in {end}"] += 1
        codes.update(listed)
    print(f"{number} modules, {sum(seen.values())} findings {dict(seen) or ''}")
    for what in sorted(counts):
        print(f"  {counts[what]:7} {what}")
    print("modules with each code:", ", ".join(f"{code} {codes[code]}" for code in LABELS))
    return 1 if seen or not number else 0


def main(words: List[str]) -> int:
    """Makes modules for as long as the words say, and returns the exit status."""
    parser = Words("tools/attack fuzz", __doc__)
    parser.add_argument("pycheck")
    parser.add_argument("pyrun")
    parser.add_argument("seconds", type=int)
    parser.add_argument("seed", nargs="?", default="1")
    asked = parser.parse_args(words)
    resource.setrlimit(resource.RLIMIT_AS, (MEMORY, MEMORY))  # which the programs inherit
    return fuzz((asked.pycheck, asked.pyrun, truncate), asked.seconds, asked.seed)
