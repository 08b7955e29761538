"""The advice for the case of an error: for each form of sentences in the table of docs/CODES.md a module whose error
has it, and the advice that it is to have, written by hand; and the names that were meant."""
from __future__ import annotations

import json
import re
from typing import Any, Dict, Iterator, List, Tuple

from support import HEADER, ROOT, Test

TABLE = re.compile(r"^\| Code \| Words \| Detail \| Advice \|\n\|[-|]+\n((?:\|.*\n)+)", re.MULTILINE)
CAPITALS = re.compile(r"(?<![A-Za-z])[A-Z]{2,}(?![A-Za-z])")
BEFORE = (
    HEADER
    + """from dataclasses import dataclass

limit: int = 3

@dataclass
class Item:
    id: int
    parent: Item | None

    def price(self, tax: int) -> int:
        return self.id + tax

@dataclass
class Leaf(Item):
    size: int

def post(name: str, amount: int = 1):
    print(name)

def count(values: list[int | None]) -> int | None:
    return len(values)

"""
)
AFTER = "\ndef main():\n    pass\n\nmain()\n"
NONE_FIRST = "Test a local that has the value for None first."
ONE_TYPE = (
    "A list has one type of items for good: make it a `list[int | None]` where it begins, or fill a new one in a loop."
)
AT_HEAD = (
    "The loop assigns `hi`, so at its head `hi` may be None again: before the loop give the value to a second local, "
    "and use that."
)
WHERE_FROM = (
    "No parameter lacks an annotation here: give the value a type where it comes from, such as a function without "
    "`->`, an empty list or an annotation with `Any`{}."
)
UNKNOWN = "def g():\n    return 1\n\n"

# The code of an error, a module that has this error once, without its first part if that is `BEFORE`, and the advice
CASES: List[Tuple[str, str, str]] = [
    (
        "E02",
        "@dataclass\nclass Cart:\n    total: int\n\n    def show(self):\n        print(total)\n",
        "Write `self.total`, or take it of another instance.",
    ),
    (
        "E02",
        "def f():\n    fee = 1\n    print(fee)\n\ndef g():\n    print(fee)\n",
        "A local is known in its function alone: pass its value as an argument, or return it.",
    ),
    (
        "E02",
        HEADER + "@dataclass\nclass Cart:\n    total: int\n",
        "Import it at the top of the module: `from dataclasses import dataclass`.",
    ),
    (
        "E09",
        "def f(a: Shop):\n    pass\n",
        "`Shop` is no class of the module and no type of the profile: spell it as one.",
    ),
    (
        "E09",
        "def f(a: limit):\n    pass\n",
        "`limit` is a function or a constant: write a class of the module or a type of the profile.",
    ),
    (
        "E09",
        "def f(a: list):\n    pass\n",
        "Say what it holds, as in `list[int]`, `dict[str, int]` or `tuple[int, str]`.",
    ),
    ("E09", "def f(a: Item[int]):\n    pass\n", "Write `Item` alone."),
    ("E09", "def f(a: dict[Item, int]):\n    pass\n", "Write `int` or `str` before the comma."),
    (
        "E11",
        "@dataclass\nclass New(Item):\n    def price(self, tax: int) -> str:\n        return \"\"\n",
        "Return `int` here too, or a type that fits it.",
    ),
    (
        "E11",
        "@dataclass\nclass New(Item):\n    def price(self, tax: str) -> int:\n        return 1\n",
        "Let it take `int` here too, or a wider type.",
    ),
    (
        "E11",
        "@dataclass\nclass New(Item):\n    def price(self, fee: int) -> int:\n        return 1\n",
        "Name it `tax` here too.",
    ),
    (
        "E11",
        "@dataclass\nclass Old:\n    def cut(self, by: int = 1):\n        pass\n\n"
        "@dataclass\nclass New(Old):\n    def cut(self, by: int):\n        pass\n",
        "Give `by` a default here too.",
    ),
    ("E12", "def f() -> None:\n    return 3\n", "Leave the value out, or write `-> int` in the head of `f`."),
    (
        "E12",
        "def f(items: list[Item]):\n    found = None\n    for item in items:\n        found = item\n",
        "The first value gives a local its type: annotate it there, as `found: Item | None = None`.",
    ),
    ("E12", "def f(a: int = None):\n    pass\n", "Allow None in the annotation: `a: int | None = None`."),
    (
        "E12",
        "def g(x: str | int):\n    pass\n\ndef f(a: int | str | None):\n    g(a)\n",
        "Test a local that has the value for None first: behind the test it is `str | int`.",
    ),
    (
        "E12",
        "@dataclass\nclass Cart:\n    owner: Item = None\n",
        "Allow None in the annotation: `owner: Item | None = None`.",
    ),
    (
        "E12",
        'def f(a: int | None):\n    post("x", a)\n',
        "Test a local that has the value for None first: behind the test it is `int`.",
    ),
    (
        "E12",
        "def f(item: Item) -> Item:\n    return item.parent\n",
        "Test a local that has the value for None first, or write `-> Item | None`.",
    ),
    (
        "E12",
        "def f(a: int | None):\n    b = 1\n    b = a\n",
        "Test a local that has the value for None first, or annotate the first binding: `b: int | None`.",
    ),
    (
        "E12",
        "def f(item: Item, a: int | None):\n    item.id = a\n",
        "Test a local that has the value for None first, or allow None in the field: `id: int | None`.",
    ),
    ("E12", "def f(values: list[int]):\n    count(values)\n", ONE_TYPE),
    ("E12", "def f(values: list[int]) -> list[int | None]:\n    return values\n", ONE_TYPE),
    ("E12", "def f(values: list[int]):\n    more: list[int | None] = values\n", ONE_TYPE),
    (
        "E12",
        'def f():\n    values: list[int] = ["a"]\n',
        "Its items are of type `int`: write one, or give the list another type where it begins.",
    ),
    (
        "E12",
        'def f(values: list[int]):\n    values.append("a")\n',
        "Its items are of type `int`: append one, or give the list another type where it begins.",
    ),
    (
        "E12",
        "def f(ages: dict[str, int]):\n    ages[3] = 1\n",
        "Its keys are of type `str`: use one, or give the dict another type where it begins.",
    ),
    (
        "E12",
        'def f(ages: dict[str, int]):\n    ages["a"] = "b"\n',
        "Its values are of type `int`: use one, or give the dict another type where it begins.",
    ),
    ("E12", 'def f(values: list[int]) -> int:\n    return values["a"]\n', "Use an index of type `int`."),
    (
        "E12",
        "def f():\n    post(3)\n",
        "Pass a value of type `str`, or give `name` a type that `int` fits.",
    ),
    (
        "E12",
        'def f() -> int:\n    return "a"\n',
        "Return a value of type `int`, or write another type behind `->`.",
    ),
    (
        "E12",
        'def f(item: Item):\n    item.id = "a"\n',
        "Assign a value of type `int`, or give the field a type that `str` fits.",
    ),
    (
        "E12",
        'def f():\n    a = 1\n    a = "b"\n',
        "A local keeps the type of its first binding: use a second local, or annotate the first binding with a type "
        "that both fit.",
    ),
    ("E12", 'most: int = "a"\n', "Write a value of type `int`, or another type behind the colon."),
    (
        "E12",
        'def f(a: int = "b"):\n    pass\n',
        "Write a default of type `int`, or another type behind the colon.",
    ),
    (
        "E13",
        "def f(a: list[int], hi: int | None):\n    if hi is None:\n        hi = len(a)\n    lo = 0\n"
        "    while lo < hi:\n        hi = a[lo]\n        lo = lo + 1\n",
        AT_HEAD,
    ),
    ("E13", "def f(a: int | None) -> int:\n    return a + 1\n", "Test a local that has the left value for None first."),
    (
        "E13",
        "def f(a: int | None) -> int:\n    return 1 + a\n",
        "Test a local that has the right value for None first.",
    ),
    (
        "E13",
        "def g() -> None:\n    pass\n\ndef f():\n    print(g() + 1)\n",
        "The left side is None, as what a function gives that returns no value: write a value.",
    ),
    ("E13", "def f():\n    print([1] + [2])\n", "Lists have no `+`: append the items in a loop."),
    ("E13", 'def f():\n    print(1 + "a")\n', "Turn the number into a string: `str(..)`."),
    ("E13", 'def f():\n    print("a" + 1)\n', "Turn the number into a string: `str(..)`."),
    ("E13", 'def f():\n    print("a" * 2)\n', "Strings have no `*`: write a loop with `+`."),
    ("E13", 'def f():\n    print(2 * "a")\n', "Strings have no `*`: write a loop with `+`."),
    (
        "E13",
        'def f():\n    print("%d" % 2)\n',
        "Strings have no `%`: join them with `+`, and turn other values into strings with `str`.",
    ),
    (
        "E13",
        "def f(item: Item):\n    print(item < item)\n",
        "Instances have no operators: write a method of `Item`, and call it.",
    ),
    ("E14", "def f():\n    post()\n", "Give `name` an argument, or a default."),
    ("E14", "def f():\n    Leaf(1)\n", "Give each of parent, size an argument, or a default."),
    (
        "E14",
        'def f():\n    post("a", b=1)\n',
        "Use the name of a parameter of `post`, or leave the argument out.",
    ),
    ("E14", 'def f():\n    post("a", name="b")\n', "Leave one of the two out."),
    (
        "E14",
        "def f():\n    for n in range(1, 3):\n        print(n)\n",
        "`range` takes its end alone: count from 0, and reckon the number in the loop.",
    ),
    ("E14", 'def f():\n    post("a", 1, 2)\n', "Leave arguments out, or give `post` more parameters."),
    (
        "E14",
        "def f(values: list[int]):\n    values.append(item=1)\n",
        "Leave the name out, and give the value by its position.",
    ),
    ("E14", "def f(item: Item):\n    item.id()\n", "Leave out the parentheses: this is a value already."),
    (
        "E15",
        "def f(item: Item) -> int:\n    if item.parent is not None:\n        return item.parent.id\n    return 0\n",
        "A test narrows locals alone: give the value to a local, as `parent = item.parent`, and test that.",
    ),
    (
        "E15",
        "def f(hi: Item | None, more: Item) -> int:\n    if hi is None:\n        hi = more\n    while True:\n"
        "        print(hi.id)\n        hi = more.parent\n    return 0\n",
        AT_HEAD,
    ),
    ("E15", "def f(item: Item) -> int:\n    return item.parent.id\n", NONE_FIRST),
    (
        "E15",
        'def f() -> str:\n    return ", ".join(["a"])\n',
        "Strings have no methods in the profile: copy `join` of the cookbook.",
    ),
    (
        "E15",
        'def f() -> bool:\n    return "a".startswith("a")\n',
        "Strings have no methods in the profile: copy `starts_at` of the cookbook.",
    ),
    (
        "E15",
        'def f() -> str:\n    return "a".upper()\n',
        "Strings have no methods in the profile: write a function of the module with a loop over the string.",
    ),
    (
        "E15",
        "def f(values: list[int]):\n    values.sort()\n",
        "Lists have only `append` and `pop` in the profile: copy `sorted_of` of the cookbook, for your type of items.",
    ),
    (
        "E15",
        "def f(values: list[int]):\n    values.reverse()\n",
        "Lists have only `append` and `pop` in the profile: copy `reversed_of` of the cookbook, for your type of "
        "items.",
    ),
    (
        "E15",
        "def f(values: list[int]):\n    values.insert(0, 1)\n",
        "Lists have only `append` and `pop` in the profile: copy `insert` of the cookbook, for your type of items.",
    ),
    (
        "E15",
        "def f(values: list[int]):\n    values.clear()\n",
        "Lists have only `append` and `pop` in the profile: write a function of the module with a loop.",
    ),
    (
        "E15",
        "def f(ages: dict[str, int]):\n    for age in ages.values():\n        print(age)\n",
        "Dicts have only `get` in the profile: write `for key in ages:`, and `ages[key]`.",
    ),
    (
        "E15",
        "def f(ages: dict[str, int]):\n    ages.clear()\n",
        "Dicts have only `get` in the profile: write a function of the module with a loop over the keys.",
    ),
    ("E15", "def f(values: list[int]):\n    print(values.pop)\n", "Call it, as `.pop(..)`."),
    (
        "E15",
        "def f(item: Item):\n    print(item.size)\n",
        "Test for the subclass first, with `isinstance(.., Leaf)`.",
    ),
    (
        "E15",
        "def f(item: Item | int):\n    print(item.id)\n",
        "Test first that it is none of these, with `isinstance` or `is None`.",
    ),
    ("E15", "def f(item: Item):\n    print(item.cost)\n", "Use an attribute of `Item`, or add a field or a method."),
    ("E16", "def f(a: str | None):\n    print(a[0])\n", NONE_FIRST),
    ("E16", "def f(item: Item):\n    print(item[0])\n", "Instances have no items: use a field or a method of `Item`."),
    ("E18", "def f(a: list[int] | None):\n    for n in a:\n        print(n)\n", NONE_FIRST),
    (
        "E18",
        "def f(item: Item):\n    for n in item:\n        print(n)\n",
        "Instances cannot be looped over: use a field of `Item` that holds a list.",
    ),
    (
        "E20",
        "def f():\n    print(post)\n",
        "Call it, as `post(..)`; instead of a function pass an instance with a method.",
    ),
    ("E20", "def f():\n    print(Item)\n", "Make an instance, as `Item(..)`."),
    ("E20", "def f(item: Item):\n    print(item.price)\n", "Call it: write parentheses behind it."),
    ("E20", "def f():\n    print(len)\n", "Call it, as `len(..)`."),
    (
        "E21",
        "def f(a: int) -> int:\n    if a > 0:\n        return 1\n    else:\n        assert False\n",
        "Only a `return` ends a path here: assert the last case in place of testing for it, and return a value of type "
        "`int`.",
    ),
    (
        "E21",
        "def f(a: int) -> int:\n    while True:\n        a = a + 1\n        if a > 3:\n            return a\n",
        "The code behind a loop always counts as reached: return a value of type `int` there.",
    ),
    (
        "E21",
        "def f(a: int) -> str:\n    if a > 0:\n        return \"a\"\n",
        "Return a value of type `str` on every path, or allow None: `-> str | None`.",
    ),
    ("E27", "def f(a: str | None):\n    print(len(a))\n", NONE_FIRST),
    ("E27", "def f():\n    print(len(3))\n", "Give `len` a string, a list, a tuple or a dict."),
    ("A2", UNKNOWN + "def f(n: int):\n    print(n + g())\n", WHERE_FROM.format("")),
    ("A2", UNKNOWN + "limit_of: int = 1\n\ndef f():\n    print(-g())\n", WHERE_FROM.format("")),
    ("A2", "@dataclass\nclass Box:\n    def m(self, a: list[int]):\n        b = []\n        print(b[0] + a[0])\n",
     WHERE_FROM.format("")),
    ("A2", "@dataclass\nclass Box:\n    def m(self, a):\n        print(a + 1)\n", "Annotate the parameters."),
    ("A2", UNKNOWN + "def f(n):\n    print(1 + g())\n", "Annotate the parameters."),
    ("A3", UNKNOWN + "def f():\n    print(g()[0])\n", WHERE_FROM.format("")),
    ("A3", "def f(a):\n    print(a[0])\n", "Annotate the parameter."),
    ("A4", UNKNOWN + "def f():\n    print(g().size)\n", WHERE_FROM.format("; or test it with `isinstance`")),
    ("A5", UNKNOWN + "def f():\n    for n in g():\n        print(n)\n", WHERE_FROM.format("")),
    ("A6", UNKNOWN + "def f():\n    print(len(g()))\n", WHERE_FROM.format("")),
    (
        "A7",
        "def f(a: object):\n    value = a\n    if isinstance(value, list):\n        print(1)\n",
        "Name the list in the type of `value`, where it is first bound.",
    ),
    (
        "A7",
        "def f(value: object):\n    if isinstance(value, list):\n        print(1)\n",
        "Name the list in the type of the parameter.",
    ),
]
# The code of an error, the functions of a module that has this error once, and the name that was meant; empty for none
MEANT: List[Tuple[str, str, str]] = [
    ("E02", "def f(amount: int):\n    print(amuont)\n", "amount"),
    ("E02", "def f():\n    total = 1\n    print(totl)\n", "total"),
    ("E02", "def f():\n    print(Itme(1, None))\n", "Item"),
    ("E02", "def f():\n    print(limti)\n", "limit"),
    ("E02", "def f():\n    print(lenn([1]))\n", "len"),
    ("E02", "def f():\n    print(zzz)\n", ""),
    ("E02", "def f(mux: int):\n    print(max(1))\n", ""),
    ("E09", "def f(a: Lst[int]):\n    pass\n", "list"),
    ("E09", "def f(a: Itm):\n    pass\n", "Item"),
    ("E09", "def f(a: Shop):\n    pass\n", ""),
    ("E14", 'def f():\n    post("a", amout=2)\n', "amount"),
    ("E14", "def f():\n    Leaf(1, None, sise=2)\n", "size"),
    ("E14", "def f(item: Item):\n    item.price(tacks=2, tex=1)\n", ""),
    ("E14", "def f(item: Item):\n    item.price(taxe=1)\n", "tax"),
    ("E15", "def f(leaf: Leaf):\n    print(leaf.parnt)\n", "parent"),
    ("E15", "def f(leaf: Leaf):\n    leaf.prise(1)\n", "price"),
    ("E15", "def f(values: list[int]):\n    values.apend(1)\n", "append"),
    ("E15", "def f(item: Item | None):\n    print(item.id)\n", ""),
]


def rows() -> Iterator[Tuple[str, str, str, str]]:
    """Yields the code, the words, the form of sentences and the advice of each row on the page."""
    for table in TABLE.findall((ROOT / "docs" / "CODES.md").read_text(encoding="utf-8")):
        for line in table.splitlines():
            code, words, detail, advice = (it.strip().replace("\\|", "|") for it in re.split(r"(?<!\\)\|", line)[1:-1])
            yield code.strip("`"), words, detail.strip("`"), advice


def form_of(advice: str) -> "re.Pattern[str]":
    """Returns the pattern of an advice, whose words in capitals stand for any text."""
    return re.compile(".+".join(map(re.escape, CAPITALS.split(advice))))


class Advice(Test):
    """The advice under an error, and the name that was meant."""

    def told(self, cases: List[Tuple[str, str, str]]) -> List[List[Dict[str, Any]]]:
        """Returns for each case the findings of its code that its module has."""
        for number, (_, functions, _) in enumerate(cases):
            before = "" if functions.startswith(HEADER) else BEFORE
            self.write(f"{number:03}.py", before + functions + AFTER)
        files = json.loads(self.check("--output", "json", ".").output)["files"]
        self.assertEqual([it["refusal"] for it in files], [None] * len(cases))
        return [[row for row in it["findings"] if row["code"] == case[0]] for it, case in zip(files, cases)]

    def test_each_case_has_its_advice(self) -> None:
        for (code, functions, advice), found in zip(CASES, self.told(CASES)):
            with self.subTest(f"{code} {functions}"):
                self.assertEqual([it["instead"].partition("? ")[2] or it["instead"] for it in found], [advice])

    def test_each_form_of_the_page_has_a_case(self) -> None:
        forms = [it for it in rows() if it[2] and it[1] != "`swapped arguments`"]
        self.assertGreater(len(forms), 60)
        for code, words, detail, advice in forms:
            with self.subTest(f"{code} {words} {detail}"):
                pattern = form_of(advice)
                self.assertTrue(any(code == it and pattern.fullmatch(said) for it, _, said in CASES))

    def test_names_that_were_meant(self) -> None:
        for (code, functions, meant), found in zip(MEANT, self.told(MEANT)):
            with self.subTest(f"{code} {functions}"):
                self.assertEqual([it.get("meant", "") for it in found], [meant])
                self.assertEqual(found[0]["instead"].startswith(f"Did you mean `{meant}`? "), bool(meant))

    def test_swapped_arguments(self) -> None:
        swapped = "Two arguments are swapped: give them in the order of the parameters of `post`, or by name."
        apart = "Pass a value of type `{}`, or give `{}` a type that `{}` fits."
        both = [apart.format("str", "name", "int"), apart.format("int", "amount", "str")]
        cases = [
            ("E12", 'def f():\n    post(3, "a")\n', [swapped, swapped]),
            ("E12", 'def f():\n    post(name=3, amount="a")\n', [swapped, swapped]),
            ("E12", 'def f():\n    post(3)\n    post("a", "b")\n', both),
            ("E12", "def f():\n    post(3, None)\n", [both[0], apart.format("int", "amount", "None")]),
        ]
        found = self.told([(code, functions, "") for code, functions, _ in cases])
        for (_, functions, wanted), rows_of in zip(cases, found):
            with self.subTest(functions):
                self.assertEqual([it["instead"] for it in rows_of], wanted)

    def test_tests_of_another_function_say_nothing(self) -> None:
        first = "def f(item: Item):\n    if item.parent is None:\n        print(1)\n\n"
        found = self.told([("E15", first + "def g(item: Item) -> int:\n    return item.parent.id\n", "")])
        self.assertEqual([it["instead"] for it in found[0]], [NONE_FIRST])

    def test_a_loop_that_assigns_no_tested_local(self) -> None:
        tested = "def f(a: int | None, b: int):\n    {}\n        b = 1\n    while b < a:\n        {}\n"
        left = "Test a local that has the right value for None first."
        head = AT_HEAD.replace("`hi`", "`a`")
        none, other = "if a is None:", "if b == 1:"
        cases = [(none, "a = None", head), (other, "a = None", left), (none, "b = 2", left)]
        found = self.told([("E13", tested.format(first, inner), "") for first, inner, _ in cases])
        self.assertEqual([it[0]["instead"] for it in found], [it[2] for it in cases])

    def test_an_exception_that_ends_a_path(self) -> None:
        advice = next(said for code, words, _, said in rows() if (code, words) == ("N1", "`last raise`"))
        last = 'def f(a: int){}:\n    if a > 0:\n        return {}\n    raise ValueError("odd")\n'
        first = 'def f(a: int) -> int:\n    if a > 0:\n        raise ValueError("odd")\n    return a\n'
        plain = 'Instead of `raise ValueError("odd")` write `assert False, "odd"`.'
        functions = {last.format(" -> int", "a"): advice, last.format("", "a"): plain, first: plain}
        functions[last.format(" -> None", "")] = plain
        for number, text in enumerate(functions):
            self.write(f"{number}.py", HEADER + text + AFTER)
        files = json.loads(self.check("--output", "json", ".").output)["files"]
        self.assertEqual([it["refusal"]["instead"] for it in files], list(functions.values()))

    def test_what_follows_from_an_error(self) -> None:
        self.write("a.py", BEFORE + "def f():\n    print(zzz + 1)\n" + AFTER)
        line = (BEFORE + "def f():").count("\n") + 2
        findings = json.loads(self.check("--output", "json", "a.py").output)["files"][0]["findings"]
        said = f"It follows from E02 at {line}:11, and goes away with it."
        self.assertEqual({it["code"]: it["instead"] for it in findings}["A2"], said)
        self.assertIn(said, self.check("--output", "github", "a.py").output)
