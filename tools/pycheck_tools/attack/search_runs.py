"""Looks for a run that fails beside errors, and passes through no line of the report.

    tools/attack search_runs PYCHECK PYRUN MODULES [--seed WORD] [--hear KIND].. [--first] [--jobs N]

makes so many modules with errors at random. Each goes through `pycheck --json` and `pyrun --fuel 20000`, and one with a
form that may take a free answer through `pyrun` once more, with `--choices` and digits at random. A module of which a run
ends in TypeError, AttributeError, NameError, UnboundLocalError or Outside, with no place of its report among the
events of the run, must have a silent error: tools/pycheck_all/silent.py says which errors are silent. Any other is a
counterexample: it is made small, line by line, and printed with its report, its choices and its run, and the exit status
is then 1, as it is where no module was tried or a program gave no answer. With `--first` the search ends at the first one.

`--hear` takes a kind of silent errors for heard, so that a search which reaches this kind finds a counterexample. At
the end stands how often each kind was met so: in how many failing runs that passed through no line of the report it was
the only kind of silent error. A KIND is a name of silent.KINDS, such as `E25` or `E21 of a function`.

A module has items of the generator of tools/attack fuzz, and often a plant: items with an error, and uses of them by which a
run may come to harm. Some have names, literals, types, operators or lines changed for others besides. `main` does some
of what the module offers, in any order, a part of it as a free answer decides. Without choices the free answers of a run are
false and empty. A run with choices counts only if its events or its end are others; the last lines say how many did. The
same WORD makes the same modules and choices; without one it is 1. `--jobs` says how many modules are tried side by side: as many as there are processors, at most four.
"""
from __future__ import annotations

import argparse
import collections
import json
import multiprocessing
import os
import random
import re
import resource
import tempfile
from typing import Any, Counter, Dict, List, Optional, Sequence, Set, Tuple

from pycheck_all import silent

from ..words import Words
from . import fuzz

FUEL = "20000"
MOST_SHOWN = 3
# A parameter: its name, its type and its default; pycheck and pyrun; the choices of a run, its events and its end; the findings
# of a report, and the runs
Written = Tuple[str, fuzz.Type, str]
Programs = Tuple[str, str]
Run = Tuple[str, Set[Tuple[int, ...]], str]
Answered = Tuple[List[fuzz.Finding], List[Run]]
# The result for a module: how its different runs ended, the kinds of silent errors, the codes, and the text to show
Result = Tuple[List[str], Set[str], Set[str], str]
# The forms that may take a free answer, and the head of a loop, in which `in` takes none
FREE = re.compile(rb"[=!]=|\b(in|str)\b")
LOOP = re.compile(rb"\bfor \w+ in\b")
INT, STR, NONE, ANY = fuzz.INT, fuzz.STR, fuzz.NONE, fuzz.ANY
LIST: fuzz.Type = ("list", INT)
# For each type: values of it, literals of other types, and statements that fail if X has another type
GOOD: Dict[fuzz.Type, List[str]] = {INT: ["0", "7", "len('ab')"], STR: ["'a'", "str(3)"], LIST: ["[1]", "[3, 4]"]}
WRONG: Dict[fuzz.Type, List[str]] = {INT: ["'w'", "None"], STR: ["0", "None", "-1"], LIST: ["None", "5", "'w'"]}
NEEDS: Dict[fuzz.Type, List[str]] = {INT: ["print(X - 1)", "print(-X)", "for q1 in range(X):\n    pass", "print(X < 3)", "q2: int = X * 2"],
         STR: ["print(X + 's')", "print(len(X))", "print(X[0])", "q3: str = 'a' + X"],
         LIST: ["X.append(1)", "print(X[0])", "for q4 in X:\n    print(q4)", "print(len(X))"]}


class Plan:
    """The parts that a module will have: blocks of lines for its items, and groups of lines that `main` may have."""

    def __init__(self, rng: random.Random) -> None:
        self.rng = rng
        self.module = fuzz.Module(rng)
        self.module.any_share = rng.choice([0, 0, 0, 0, 0.03])
        self.module.wrong_share = rng.choice([0, 0, 0.01, 0.05])
        self.main = fuzz.Body(self.module, {}, NONE)
        self.main.room = rng.choice([1, 1, 2, 4])
        self.blocks: List[List[str]] = []
        self.uses: List[List[str]] = []
        self.heads = [fuzz.HEADER[:-1], "from dataclasses import dataclass", "from typing import Any"]
        self.head_of_main = "def main():"

    def name(self, start: str) -> str:
        return self.module.new_name(start)

    def pick(self, *choices: Any) -> Any:
        return self.rng.choice(choices)

    def type(self) -> fuzz.Type:
        return self.rng.choice([INT, INT, STR, LIST])

    def good(self, ty: fuzz.Type) -> str:
        return self.rng.choice(GOOD[ty])

    def wrong(self, ty: fuzz.Type) -> str:
        return self.rng.choice(WRONG[ty])

    def needs(self, ty: fuzz.Type, text: str) -> List[str]:
        """Returns lines that fail if a text has no value of a type."""
        return self.rng.choice(NEEDS[ty]).replace("X", text).split("\n")

    def put(self, *blocks: List[str]) -> None:
        """Puts blocks among the existing ones, in this order."""
        places = sorted(self.rng.randint(0, len(self.blocks)) for _ in blocks)
        for at, block in reversed(list(zip(places, blocks))):
            self.blocks.insert(at, block)

    def cls(self, name: str, members: List[str], base: str = "") -> List[str]:
        """Returns the lines of a class."""
        return ["@dataclass", f"class {name}({base}):" if base else f"class {name}:", *indented(members or ["pass"])]

    def in_class(self, method: List[str]) -> str:
        """Puts a method into a class of its own, which may inherit it, and returns a text that makes an instance."""
        name = self.name("C")
        blocks = [self.cls(name, method)]
        if self.rng.random() < 0.3:
            blocks.append(self.cls(self.name("C"), [], name))
            name = f"C{self.module.number}"
        self.put(*blocks)
        return f"{name}()"

    def condition(self) -> str:
        return fuzz.grouped(self.main.expr(fuzz.BOOL, 1), 0)


def indented(lines: List[str]) -> List[str]:
    return ["    " + line for line in lines]


# Plants: each adds items with an error, and uses that make a run fail

def lost_return(plan: Plan) -> None:
    """Plants a function or method that ends without the value that it promises."""
    ty = plan.type()
    name, good, wide = plan.name("f"), plan.good(ty), plan.pick("", "", " | None")
    head, loop = f"{plan.pick('if', 'while')} {plan.condition()}:", "for q5 in [1, 2]:"
    ends = plan.pick(["return"], ["pass"], [head, "    return", f"return {good}"], [head, f"    return {good}"],
                     [loop, "    return", f"return {good}"], [head, f"    return {good}", "return"])
    own = plan.rng.random() < 0.4
    lines = [f"def {name}({'self' * own}) -> {fuzz.type_text(ty)}{wide}:", *indented(ends)]
    if own:
        plan.uses.append(plan.needs(ty, f"{plan.in_class(lines)}.{name}()"))
    else:
        plan.put(lines)
        plan.uses.append(plan.needs(ty, f"{name}()"))


def wrong_default(plan: Plan) -> None:
    """Plants a parameter of a function or method whose default is of another type."""
    ty = plan.type()
    name, p, q = plan.name("f"), plan.name("p"), plan.name("p")
    default, used = plan.wrong(ty), plan.needs(ty, p)
    own = plan.rng.random() < 0.4
    params = ["self"] * own + plan.pick([], [f"{q}: int"], [f"{q}: str = 'd'"])
    known = len(params) - own and "=" not in params[-1]
    params.append(f"{p}: {fuzz.type_text(ty)} = {default}")
    lines = [f"def {name}({', '.join(params)}):", *indented(used)]
    given = "1" if known else ""
    if own:
        plan.uses.append([f"{plan.in_class(lines)}.{name}({given})"])
    else:
        plan.put(lines)
        plan.uses.append([f"{name}({given})"])


def wrong_field(plan: Plan) -> None:
    """Plants a field whose default is of another type."""
    ty = plan.type()
    name, field, method = plan.name("C"), plan.name("a"), plan.name("m")
    members = [f"{field}: {fuzz.type_text(ty)} = {plan.wrong(ty)}"]
    if plan.rng.random() < 0.5:
        members += [f"def {method}(self):", *indented(plan.needs(ty, f"self.{field}"))]
        plan.uses.append([f"{name}().{method}()"])
    else:
        plan.uses.append(plan.needs(ty, f"{name}().{field}"))
    plan.put(plan.cls(name, members))


def early_test(plan: Plan) -> None:
    """Plants an initializer that tests for a class below it, or for something that is not a class."""
    name, later = plan.name("k"), plan.name("C")
    value = plan.pick("1", "'a'", "None", "[]", "(1, 2)", f"isinstance(2, {plan.pick('int', later)})")
    test = f"isinstance({value}, {plan.pick(later, later, f'({later})', f'{later},')})"
    form = plan.pick("X", "X", "not X", "[X]", "(0, X)", "X and True", "False or X", "str(X)", "{1: X}", "False and X")
    below = plan.pick(plan.cls(later, []), plan.cls(later, []), [f"def {later}():", "    pass"], [f"{later} = 1"])
    plan.put([f"{name} = {form.replace('X', test)}"], below)


SHAPES = ("fewer", "more", "renamed", "swapped", "without default", "same")


def other_parameters(plan: Plan, params: List[Written]) -> List[Written]:
    """Returns parameters of another shape: names, types and defaults."""
    how = plan.pick(*SHAPES)
    found = list(params)
    if how == "fewer" and found:
        del found[plan.rng.randrange(len(found))]
    elif how == "more":
        found.insert(0, (plan.name("p"), INT, ""))
    elif how == "renamed" and found:
        at = plan.rng.randrange(len(found))
        found[at] = (plan.name("p"), *found[at][1:])
    elif how == "swapped":
        found = [(name, ty, default) for (name, _, _), (_, ty, default) in zip(found[::-1], found)]
    elif how == "without default":
        found = [(name, ty, "") for name, ty, _ in found]
    if plan.rng.random() < 0.2 and found:
        found[0] = (found[0][0], plan.pick(STR, fuzz.OBJECT, ANY), found[0][2] and "'d'")
    return found


def spelled(params: List[Written]) -> str:
    """Returns parameters after `self` as a header has them."""
    texts = [f"{name}: {fuzz.type_text(ty)}" + (f" = {default}" if default else "") for name, ty, default in params]
    return ", ".join(["self", *texts])


def other_override(plan: Plan) -> None:
    """Plants a method that overrides one above it in another shape, called through the ancestor."""
    method, function, a = plan.name("m"), plan.name("f"), plan.name("p")
    params: List[Written] = [(plan.name("p"), INT, "") for _ in range(plan.rng.randint(0, 2))]
    params += [(plan.name("p"), INT, "4")] * plan.pick(0, 1)
    names = [plan.name("C") for _ in range(plan.pick(2, 2, 3))]
    made = [plan.cls(names[0], [f"def {method}({spelled(params)}) -> int:", "    return 1"])]
    for base, name in zip(names, names[1:]):
        new = other_parameters(plan, params)
        lines = [f"def {method}({spelled(new)}) -> {plan.pick('int', 'int', 'str')}:", "    return 2"]
        made.append(plan.cls(name, lines if name == names[-1] or plan.rng.random() < 0.5 else [], base))
    plan.put(*made)
    given = [plan.pick("1", "1", f"{name}=1") for name, _, default in params if not default or plan.pick(0, 1)]
    given.sort(key=lambda text: "=" in text)
    call = f"{{}}.{method}({', '.join(given)})"
    if plan.rng.random() < 0.5:
        plan.put([f"def {function}({a}: {names[0]}) -> int:", f"    return {call.format(a)} + 1"])
        plan.uses.append([f"{function}({names[-1]}())"])
    else:
        values = f"{a}: list[{names[0]}] = [{names[0]}(), {names[-1]}()]"
        plan.uses.append([values, f"for q6 in {a}:", f"    {call.format('q6')}"])


def lost_header(plan: Plan) -> None:
    """Leaves out the header for the decorator."""
    plan.heads.remove("from dataclasses import dataclass")
    plan.put(plan.cls(plan.name("C"), []))


def wrong_base(plan: Plan) -> None:
    """Plants a base that is not an earlier class."""
    name, other = plan.name("C"), plan.name("C")
    made = plan.cls(name, [], other)
    below = plan.pick([], [plan.cls(other, [])])
    above = plan.pick([], [[f"def {other}():", "    pass"]], [[f"{other} = 1"]]) if not below else []
    plan.put(*above, made, *below)


def late_field(plan: Plan) -> None:
    """Plants a field without a default after one with a default."""
    name, below = plan.name("C"), plan.name("C")
    first, second = f"{plan.name('a')}: int = 1", f"{plan.name('a')}: str"
    if plan.rng.random() < 0.5:
        plan.put(plan.cls(name, [first, second]))
    else:
        plan.put(plan.cls(name, [first]), plan.cls(below, [second], name))


def no_test(plan: Plan) -> None:
    """Plants a test for something that is not a type."""
    name, p = plan.name("f"), plan.name("p")
    other = plan.pick("1", "'int'", "None", "(int, str)", "object", "dict", "len", "q7", p, name, "main", "[int]")
    test = f"isinstance({p}, {other})"
    head = f"{plan.pick('if', 'while not', 'assert')} {test}"
    lines = plan.pick([f"print({test})"], [f"q8 = [{test}]"], [head] if head[0] == "a" else [f"{head}:", "    return"])
    plan.put([f"def {name}({p}: int | str):", *indented(lines)])
    plan.uses.append([f"{name}({plan.pick('1', '0')})"])


def name_twice(plan: Plan) -> None:
    """Plants a name that is bound or given twice."""
    name, p = plan.name("f"), plan.name("p")
    block = [f"def {name}({p}: int = 0):", "    pass"]
    how = plan.pick("function", "parameter", "argument", "constant")
    if how == "parameter":
        block[0] = f"def {name}({p}: int, {p}: int):"
    elif how == "argument":
        plan.uses.append([f"{name}({p}=1, {p}=2)"])
    else:
        plan.put([f"{name} = 1"] if how == "constant" else list(block))
    plan.put(block)


def lost_loop(plan: Plan) -> None:
    """Plants a `break` or `continue` outside a loop."""
    word = plan.pick("break", "continue")
    plan.put([f"def {plan.name('f')}():", *indented(plan.pick([word], ["if False:", "    " + word]))])


def member_twice(plan: Plan) -> None:
    """Plants a member whose name the class or an ancestor has."""
    name, a = plan.name("C"), plan.name("a")
    field, method = [f"{a}: int = 1"], [f"def {a}(self):", "    pass"]
    if plan.rng.random() < 0.5:
        plan.put(plan.cls(name, plan.pick(field + method, method + method, field + field)))
    else:
        one, other = plan.pick((field, method), (method, field), (field, field))
        plan.put(plan.cls(name, one), plan.cls(plan.name("C"), other, name))


def lost_main(plan: Plan) -> None:
    """Leaves out a `main` without parameters."""
    plan.head_of_main = plan.pick("def main(p0):", "def main(p0: int = 1):", "def main1():")


def reserved(plan: Plan) -> None:
    """Plants a binding of a reserved name, or a field `mro`."""
    word = plan.pick("len", "print", "range", "Any", "object", "tuple")
    name, field = plan.name("f"), plan.cls(plan.name("C"), ["mro: int = 1"])
    function, local = [f"def {word}():", "    pass"], [f"def {name}():", f"    {word} = 2"]
    plan.put(plan.pick(function, local, field, [f"{word} = 1"], [f"def {name}({word}: int):", "    pass"]))


def late_parameter(plan: Plan) -> None:
    """Plants a parameter without a default after one with a default."""
    params = f"{plan.name('p')}: int = 1, {plan.name('p')}: int"
    if plan.rng.random() < 0.5:
        plan.put([f"def {plan.name('f')}({params}):", "    pass"])
    else:
        plan.put(plan.cls(plan.name("C"), [f"def {plan.name('m')}(self, {params}):", "    pass"]))


# The statements of functions with a parameter X of some type, each with an error that is heard or harmless
HEARD = """
q9 = {}|q9[1] = 'a'|print(q9[1] + 1)
q9 = {None: 1, X: 2}
q9 = len|q9(X)
q9 = range(3)|print(q9)
for q9 in 5:|    print(q9)
X[0] = 1
print(1 in X, 1 in 5)
print(X - 1, X + 's')
print(X, sep='a')
str(X, 1)
X()
X.m = 1|X.m()
X.pop(1)
None.a
len(1)
print(q9)
if False:|    q9 = 1|print(q9 + 1)
if X:|    return 1|else:|    return 2|print(X.a)
q9 = 'a'|q9: int = X|print(q9 + 1)
q9 = None|q9 = X|print(q9 + 1)
q9: list = X|print(q9[0])
q9: int | bool = X|print(q9 + 1)
q9: int | None = X|print(q9 + 1)
q9: C0 = X|print(q9.a)
q9 = [X]|q9.append('a')|q9.append(None)|q9[0] = None|print(q9[0] + 1)
q9: list[int] = [X]|q8: list[int | str] = q9|q8.append('a')|print(q9[1] + 1)
q9 = (X, X, X, X)|q8 = (q9, q9, q9, q9)|q7 = (q8, q8, q8, q8)|q6 = (q7, q7, q7, q7)|print(q6[0][0][0][0] + 1)
""".strip().split("\n")
# Initializers that use items below them, or call something that is not a name
EARLY = ("f0()", "C0(1)", "k0 + 1", "1()", "[1].pop()", "[f0]", "main()", "len(k0)", "(1, f0)[0]", "C0(1).m()", "-k0",
         "(1)()", "[1].pop", "print(C0)")


def heard_body(plan: Plan) -> None:
    """Plants a function with an error in its body, which is called with values that fit or do not fit its parameter."""
    name, p, ty = plan.name("f"), plan.name("p"), plan.type()
    lines = plan.rng.choice(HEARD).replace("X", p).split("|")
    arrow = plan.pick("", " -> int", f" -> {fuzz.type_text(ty)}")
    lines.append(plan.pick("return 1", "return 'a'", f"return {p}"))
    plan.put([f"def {name}({p}: {fuzz.type_text(ty)}){arrow}:", *indented(lines)])
    plan.uses.append(plan.needs(ty, f"{name}({plan.pick(plan.good(ty), plan.good(ty), plan.wrong(ty))})"))


def early_name(plan: Plan) -> None:
    """Plants an initializer that uses an item below it, or calls something that is not a name."""
    cls = plan.cls("C0", ["a: int", "def m(self) -> int:", "    return self.a"])
    others = [cls, ["def f0():", "    return 1"], ["k0 = 1"]]
    plan.rng.shuffle(others)
    plan.put([f"{plan.name('k')} = {plan.rng.choice(EARLY)}"], *others)


# Plants of errors that are mostly silent, those with many forms more than once, and plants of others
PLANTS = (*[lost_return] * 3, *[wrong_default] * 2, *[other_override] * 3, wrong_field, early_test, lost_header,
          wrong_base, late_field, no_test, name_twice, lost_loop, member_twice, lost_main, reserved, late_parameter)
OTHERS = (heard_body, heard_body, heard_body, early_name, other_override, lost_return)


def groups_of(lines: List[str]) -> List[List[str]]:
    """Returns the lines of `main` in groups: one that makes an instance with the calls of its methods, each other by
    itself."""
    groups: List[List[str]] = []
    for line in lines:
        begun = groups and groups[-1][0].partition(":")[0]
        if begun and line.startswith(begun + "."):
            groups[-1].append(line)
        else:
            groups.append([line])
    return groups


# Conditions that a free answer decides
DECIDED = ("[1] == [1]", "[] != [2]", "2 in [1]", "0 not in (1, 2)", "{1: 2} == {1: 2}", "str([]) == 'x'", "str(()) != ''",
           "len(str({'a': 0})) == 3")


def decided(group: List[str], rng: random.Random) -> List[str]:
    """Returns lines of `main` under a condition that a free answer decides, some in the branch in which it is false."""
    lost: List[str] = rng.choice([[], ["    pass", "else:"]])
    return [f"if {rng.choice(DECIDED)}:", *lost, *indented(group)]


def made_module(rng: random.Random) -> bytes:
    """Returns a module with errors, as bytes."""
    plan = Plan(rng)
    for _ in range(rng.choice([0, 1, 1, 2, 3])):
        plan.blocks.append(plan.pick(fuzz.add_class, *[fuzz.add_function] * 2, fuzz.add_constant)(plan.module))
    for plant in plan.pick(rng.sample(PLANTS, plan.pick(1, 1, 2)), rng.sample(OTHERS, plan.pick(0, 1, 2, 3))):
        plant(plan)
    own = groups_of([line[4:] for line in fuzz.called_all(plan.module, plan.main)])
    chosen = [group for group in own if rng.random() < 0.5] + [group for group in plan.uses if rng.random() < 0.9]
    rng.shuffle(chosen)
    chosen = [decided(group, rng) if rng.random() < 0.2 else group for group in chosen]
    body = [line for group in chosen for line in indented(group)] + plan.main.lines()
    items = [line for block in plan.blocks for line in block]
    text = "\n".join([*plan.heads, *items, plan.head_of_main, *(body or ["    pass"]), "main()"]) + "\n"
    return (fuzz.alike(text, rng) if rng.random() < 0.35 else text).encode()


# Findings

def choices_for(data: bytes, rng: random.Random) -> List[str]:
    """Returns the choices for the runs of a module: none, and digits if the module may take a free answer."""
    digits = "".join(rng.choice("0123") for _ in range(rng.choice([1, 3, 9, 40])))
    return ["", digits] if FREE.search(LOOP.sub(b"", data)) else [""]


def answers(programs: Programs, data: bytes, choices: Sequence[str]) -> Optional[Answered]:
    """Returns the findings of a report and a run for each of these choices; None if the module is refused."""
    pycheck, pyrun = programs
    runs: List[Run] = []
    with tempfile.NamedTemporaryFile(suffix=".py") as file:
        file.write(data)
        file.flush()
        report = fuzz.answer([pycheck, "--json"], file.name)
        if report[0] == 2:
            return None
        for word in choices:
            given = ["--choices", word] if word else []
            events, end = fuzz.trace_of(fuzz.answer([pyrun, "--fuel", FUEL, *given], file.name))
            runs.append((word, events, end))
    return json.loads(report[1])["findings"], runs


def silent_kinds(data: bytes, findings: List[fuzz.Finding], heard: Sequence[str]) -> Set[str]:
    """Returns the kinds of silent errors of a report."""
    tells = silent.Silent(data)
    return {tells.kind(each["code"], each["start"]) for each in findings} - {"", *heard}


def judged(findings: List[fuzz.Finding], run: Run, kinds: Set[str]) -> str:
    """Returns how a run ended, beside these kinds of silent errors."""
    _, events, end = run
    if end not in fuzz.FAULTS:
        return "without fault"
    if events & {(each["start"], each["end"]) for each in findings}:
        return "after a listed place"
    return "by a silent error" if kinds else "unheard"


def searched(given: Tuple[Programs, str, int, Sequence[str]]) -> Result:
    """Returns the result for one module."""
    programs, seed, number, heard = given
    data = made_module(random.Random(f"{seed}/{number}"))
    choices = choices_for(data, random.Random(f"{seed}/{number}/choices"))
    try:
        answered = answers(programs, data, choices)
    except fuzz.Found as found:
        return ["unanswered"], set(), set(), f"NO ANSWER: {found.args[1]}\n{data.decode()}"
    if answered is None:
        return ["refused"], set(), set(), ""
    findings, runs = answered
    kinds = silent_kinds(data, findings, heard)
    runs = [run for run in runs if not run[0] or run[1:] != runs[0][1:]]
    verdicts = [judged(findings, run, kinds) for run in runs]
    shown = counterexample(programs, data, runs[verdicts.index("unheard")][0], heard) if "unheard" in verdicts else ""
    return verdicts, kinds, {each["code"] for each in findings}, shown


def smallest(programs: Programs, data: bytes, choices: str, heard: Sequence[str]) -> Tuple[bytes, str]:
    """Returns the fewest lines that show the same, and the fewest of these choices."""
    def still(text: bytes, word: str) -> bool:
        answered = answers(programs, text, [word])
        if answered is None:
            return False
        findings, runs = answered
        return judged(findings, runs[0], silent_kinds(text, findings, heard)) == "unheard"

    lines = data.splitlines(keepends=True)
    data = b"".join(fuzz.without(lines, lambda parts: still(b"".join(parts), choices)))
    shorter = (choices[:at] for at in range(len(choices)))
    return data, next((word for word in shorter if still(data, word)), choices)


def counterexample(programs: Programs, data: bytes, choices: str, heard: Sequence[str]) -> str:
    """Returns a counterexample, made small, with its report, its choices and its run."""
    data, choices = smallest(programs, data, choices, heard)
    findings, runs = answers(programs, data, [choices]) or ([], [(choices, set(), "refused")])
    _, events, end = runs[0]
    report = ", ".join(f"{each['code']} at {each['start']} to {each['end']}" for each in findings) or "no finding"
    evaluated = ", ".join(f"{start} to {stop}" for start, stop in sorted(events)) or "none"
    first = "COUNTEREXAMPLE: a run fails, and passes through no line of the report"
    return (f"{first}\n{data.decode()}report: {report}\nchoices: {choices or 'none'}\nevents: {evaluated}\n"
            f"end: {end}")


def search(words: argparse.Namespace) -> int:
    """Tries modules, prints the findings, and returns the exit status."""
    programs = os.path.abspath(words.pycheck), os.path.abspath(words.pyrun)
    verdicts: Counter[str] = collections.Counter()
    met: Counter[str] = collections.Counter()
    codes: Counter[str] = collections.Counter()
    tried = by_choices = counterexamples = 0
    given = ((programs, words.seed, number, tuple(words.hear)) for number in range(words.modules))
    with multiprocessing.Pool(words.jobs) as pool:
        for ended, kinds, listed, shown in pool.imap(searched, given, 8):
            tried, by_choices = tried + 1, by_choices + len(ended) - 1
            counterexamples += "unheard" in ended
            verdicts.update(ended)
            codes.update(listed)
            for kind in kinds if len(kinds) == 1 else ():
                met[kind] += ended.count("by a silent error")
            if shown and counterexamples + verdicts["unanswered"] <= MOST_SHOWN:
                print(shown, flush=True)
            if shown and words.first:
                break
    print("met:", ", ".join(f"{kind} {met[kind]}" for kind in silent.KINDS))
    print("modules with each code:", ", ".join(f"{code} {codes[code]}" for code in sorted(codes)))
    ends = ("after a listed place", "by a silent error", "unheard", "without fault")
    runs = sum(verdicts[end] for end in ends)
    print(f"{tried} modules, {verdicts['refused']} refused, {verdicts['unanswered']} unanswered")
    print(f"{runs} runs: {', '.join(f'{verdicts[end]} {end}' for end in ends)}; {by_choices} by choices")
    print(f"{counterexamples} counterexamples")
    return 1 if counterexamples or verdicts["unanswered"] or tried == verdicts["refused"] else 0


def main(words: List[str]) -> int:
    """Searches as the words say, and returns the exit status."""
    parser = Words("tools/attack search_runs", __doc__)
    parser.add_argument("pycheck")
    parser.add_argument("pyrun")
    parser.add_argument("modules", type=int)
    parser.add_argument("--seed", default="1")
    parser.add_argument("--hear", action="append", default=[], choices=silent.KINDS)
    parser.add_argument("--first", action="store_true")
    parser.add_argument("--jobs", type=int, default=min(4, os.cpu_count() or 1))
    asked = parser.parse_args(words)
    resource.setrlimit(resource.RLIMIT_AS, (fuzz.MEMORY, fuzz.MEMORY))  # which the programs inherit
    return search(asked)
