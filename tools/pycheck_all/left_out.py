"""Finds the form at a refusal that the profile leaves out: the rows of the tables of docs/PROFILE.md.

The texts of the rows are data, made from the page. This module recognizes each form by the tokens of the logical line
alone. The first form that fits is taken."""
from __future__ import annotations

import dataclasses
import functools
import json
import re
from pathlib import Path
from typing import Callable, Dict, List, NamedTuple, Optional, Sequence, Set, Tuple

from .spots import Spot
from .statements import CLASS, FUNCTION, MODULE

TEXTS = Path(__file__).with_name("left_out.json")
EXCEPTION = re.compile(r"(?:\w*(?:Error|Exception|Warning|Interrupt)|SystemExit|StopIteration)$")
ENUMS = frozenset("Enum IntEnum StrEnum Flag IntFlag".split())
COMPARING = ("__lt__", "__le__", "__gt__", "__ge__")
OPERATING = re.compile(
    r"__[ri]?(?:add|sub|mul|matmul|truediv|floordiv|mod|divmod|pow|and|or|xor|lshift|rshift)__$"
    r"|__(?:neg|pos|abs|invert)__$"
)
COMPARISONS = frozenset("< > <= >= == != in is".split())
# Between these, comparisons are chained
CLAUSES = frozenset("and or not , = : if elif while return assert else ( [ { lambda for".split())
SUITES = frozenset("if elif else for while try except finally with def class".split())
F_PREFIXES = frozenset("f F fr Fr fR FR rf Rf rF RF".split())
OPERANDS = frozenset("= ( [ { , + - * / // % < > <= >= == != : and or not in return".split())
OPTION = re.compile(r"@\s*(?:\w+\.)*dataclass\b")
HEADLESS = "G1"
Tells = Callable[[Spot], bool]


class Row(NamedTuple):
    """A row of the page: the form, the codes that refuse it, and what to write instead."""

    form: str
    codes: List[str]
    write: str


@functools.lru_cache(maxsize=None)
def rows() -> Dict[str, Row]:
    """Returns the rows by their forms, in the order of the page; none if the texts are missing."""
    try:
        found = [Row(**it) for it in json.loads(TEXTS.read_text(encoding="utf-8"))]
    except OSError:
        return {}
    return {it.form: it for it in found}


def row_of(code: str, spot: Spot) -> Optional[Row]:
    """Returns the row of the refused form at a spot; None if no form of the page is there."""
    found = rows()
    # If the header is missing, one code alone refuses the first word
    spot = dataclasses.replace(spot, first=spot.first and code == HEADLESS)
    for form, tells in FORMS:
        row = found.get(form)
        if row and code in row.codes and tells(spot):
            return row
    return None


def sentence(row: Row) -> str:
    """Returns the sentence about a form that is left out."""
    if row.form.startswith("no "):
        return f"There is {row.form}: write {row.write}."
    return f"Instead of {row.form} write {row.write}."


def imports(spot: Spot, *names: str) -> bool:
    """Whether the statement imports from one of some modules."""
    words = [spot.word, *spot.after]
    return words[0] in ("import", "from") and bool(set(words[1:2]) & set(names))


def bases(spot: Spot) -> Set[str]:
    """Returns the names in the bases of the class that begins at the spot."""
    if spot.word != "class" or spot.before or spot.after[1:2] != ["("]:
        return set()
    end = spot.after.index(")") if ")" in spot.after else len(spot.after)
    return set(spot.after[2:end]) - {",", "."}


def in_chain(spot: Spot) -> bool:
    """Whether a comparison is before the spot, with nothing between them that ends it."""
    level = spot.level
    ends = [at for at, token in enumerate(level) if token in CLAUSES and not is_not_in(level, at)]
    return bool(COMPARISONS & set(level[ends[-1] + 1 :] if ends else level))


def is_not_in(level: List[str], at: int) -> bool:
    """Whether a `not` belongs to `not in` or to `is not`."""
    return level[at] == "not" and (level[at + 1 : at + 2] == ["in"] or level[at - 1 : at] == ["is"])


def unpacks(spot: Spot) -> bool:
    """Whether the spot is in the targets of an assignment with several targets."""
    if spot.keyword in SUITES or spot.keyword in ("return", "assert"):
        return False
    level = spot.levels[0]
    if spot.word == "=":
        return level in (["()"], ["[]"]) or "," in level
    if spot.word == "*" and not spot.before:
        return True
    return spot.word == "," and "=" not in level and "=" in spot.after


def loops_over_pairs(spot: Spot) -> bool:
    """Whether the spot is in the targets of a loop or of a comprehension."""
    return spot.keyword == "for" and bool(spot.before) and "in" not in spot.levels[0]


def is_tuple(spot: Spot) -> bool:
    """Whether a tuple without brackets continues at the spot."""
    level = spot.levels[0]
    return spot.word == "," and not spot.bracket and ("=" in level or (spot.keyword == "for" and "in" in level))


def is_suite(spot: Spot) -> bool:
    """Whether the spot begins a suite in the line of its colon."""
    return spot.keyword in SUITES and not spot.bracket and spot.last == ":"


def is_set(spot: Spot) -> bool:
    """Whether a set continues or ends at the spot."""
    return spot.bracket == "{" and spot.word in (",", "}") and ":" not in spot.part


def before_set(spot: Spot) -> str:
    """Returns the token before the innermost open bracket."""
    levels = spot.levels
    return levels[-2][-2] if len(levels) > 1 and len(levels[-2]) > 1 else ""


def is_starred(spot: Spot) -> bool:
    """Whether a star begins an item of a bracket."""
    return spot.word in ("*", "**") and bool(spot.bracket) and not spot.part


def in_default(spot: Spot) -> bool:
    """Whether the spot is in the default of a parameter, in no further bracket."""
    return spot.is_parameter and "=" in spot.part


def is_string(spot: Spot) -> bool:
    """Whether a string is at the spot."""
    return spot.word[:1] in ('"', "'")


def is_text(spot: Spot) -> bool:
    """Whether the string at the spot has three quotes, or a prefix other than that of an f-string."""
    return spot.word[:3] in ('"""', "'''") or bool(spot.glued) and spot.glued not in F_PREFIXES


def has_escape(spot: Spot, pattern: str) -> bool:
    """Whether the string at the spot has an escape; two backslashes do not count."""
    return bool(re.search(r"(?<!\\)(?:\\\\)*\\" + pattern, spot.word))


def at_top(spot: Spot) -> bool:
    """Whether the statement is at the top level."""
    return spot.place == MODULE and spot.keyword not in ("def", "class", "@", "from", "import") and bool(spot.word)


def is_method(spot: Spot, *names: str) -> bool:
    """Whether a method with one of some names is defined, or is given a value; without names, one with any."""
    is_defined = spot.before[-1:] == ["def"] or is_method_given(spot)
    return is_defined and (not names or spot.word in names)


def is_method_given(spot: Spot) -> bool:
    """Whether a member of a class is assigned the value of a name, as in `__str__ = __repr__`."""
    value = spot.after[spot.after.index("=") + 1 :] if "=" in spot.after else []
    return spot.place == CLASS and not spot.before and bool(value) and value[0].isidentifier()


def owned(spot: Spot, name: str) -> bool:
    """Whether a bracket after a name is open, as in `Literal[`."""
    return any(level[-2:] == [name, "["] for level in spot.levels)


def is_field(spot: Spot) -> bool:
    """Whether the spot is in the default of a field."""
    level = spot.levels[0]
    return spot.place == CLASS and level[1:2] == [":"] and "=" in level


FORMS: Sequence[Tuple[str, Tells]] = (
    # The module
    ('`"""What it does."""` at the top', lambda it: it.is_alone and it.place == MODULE),
    ("a docstring of a class", lambda it: it.is_alone and it.place == CLASS),
    (
        '`"""What it does."""` in a function',
        lambda it: it.is_alone and it.place == FUNCTION and is_text(it),
    ),
    ("no `from __future__ import annotations`", lambda it: it.first or imports(it, "__future__")),
    ("`from typing` before `from dataclasses`", lambda it: it.word == "from" and not it.before),
    ("`from dataclasses import dataclass, field`", lambda it: imports(it, "dataclasses")),
    (
        "`import typing`, `from typing import Any, cast`",
        lambda it: imports(it, "typing") and (it.word == "import" or "Any" in it.after),
    ),
    ("`from typing import Optional`", lambda it: imports(it, "typing", "typing_extensions")),
    ("`import math`", lambda it: it.word in ("import", "from")),
    ('`if __name__ == "__main__":`', lambda it: it.word == "__name__" and it.last in ("if", "==")),
    ("no `main()` at the end", lambda it: it.word == ""),
    ('`__all__ = ["f"]`, `__slots__ = ("x",)`', lambda it: it.word in ("__all__", "__slots__")),
    # Functions and classes
    ("`def __init__(self, x: int):`", lambda it: is_method(it, "__init__")),
    ("`def __str__(self):`", lambda it: is_method(it, "__str__", "__repr__", "__format__")),
    ("`def __eq__(self, other):`", lambda it: is_method(it, "__eq__", "__ne__")),
    ("`def __hash__(self):`", lambda it: is_method(it, "__hash__")),
    ("`def __lt__(self, other):`", lambda it: is_method(it, *COMPARING)),
    ("`def __add__(self, other):`", lambda it: is_method(it) and bool(OPERATING.match(it.word))),
    ("`def __len__(self):`, `__enter__`, `__call__`", lambda it: is_method(it) and it.word.endswith("__")),
    ("`super().__init__(x)`", lambda it: it.word in ("__init__", "__new__") and it.last == "."),
    (
        "`x.__class__`, `__file__`",
        lambda it: it.word.startswith("__") and it.word.endswith("__") and bool(it.before) and it.last != "def",
    ),
    ('`__version__ = "1.2"`, `self.__count`', lambda it: it.word.startswith("__")),
    (
        "`class Odd(Exception):`",
        lambda it: it.word == "class" and bool(EXCEPTION.match("".join(it.after[2:3]))) and it.after[1:2] == ["("],
    ),
    ("`class Color(Enum):`", lambda it: bool(ENUMS & bases(it))),
    ("`class Point(NamedTuple):`, `TypedDict`", lambda it: bool({"NamedTuple", "TypedDict"} & bases(it))),
    ("`class Shape(ABC):`, `Protocol`", lambda it: bool({"ABC", "Protocol"} & bases(it))),
    ("`class C(object):`", lambda it: bases(it) == {"object"}),
    ("`class C:`, `class D(C):` alone", lambda it: it.word == "class" and not it.before),
    ("`class C():`", lambda it: it.keyword == "class" and it.bracket == "(" and (it.word == ")" or it.word == "=")),
    ("`class C(A, B):`", lambda it: it.keyword == "class" and it.word == ","),
    (
        "`class C(shapes.Shape):`, `class C(Box[int]):`",
        lambda it: it.keyword == "class" and it.word in (".", "[", "(") and it.bracket == "(",
    ),
    (
        "`def f[T](x: T) -> T:`",
        lambda it: it.word == "[" and it.before[:1] in (["def"], ["class"]) and len(it.before) == 2,
    ),
    ("`@dataclass(frozen=True)`", lambda it: bool(OPTION.match(it.rest))),
    ("`@property`, `@staticmethod`, `@cache`", lambda it: it.word == "@" and not it.before),
    ("`def f(a, *, b)`", lambda it: it.is_parameter and it.word == "*" and it.after[:1] == [","]),
    ("`def f(*args)`", lambda it: it.is_parameter and it.word == "*" and not it.part),
    ("`def f(**options)`", lambda it: it.is_parameter and it.word == "**" and not it.part),
    ("`def f(a, /)`", lambda it: it.is_parameter and it.word == "/" and not it.part),
    ("`def f(xs: list[int] = [])`", lambda it: in_default(it) and it.last == "=" and it.word in ("[", "{", "(")),
    (
        "`x: list[int] = field(..)`",
        lambda it: is_field(it) and (it.word in ("field", "[", "{") or "field" in it.before),
    ),
    ("`def m(this):`", lambda it: it.is_parameter and it.place == CLASS and not it.level),
    # Annotations
    ("`Callable[[int], int]`", lambda it: owned(it, "Callable")),
    ('`Literal["a"]`', lambda it: owned(it, "Literal")),
    ("`tuple[int, ...]`", lambda it: it.word == "..." and it.bracket == "["),
    ('`"Node"`, quoted', lambda it: is_string(it) and not it.glued and it.is_annotation),
    ("`x: shapes.Shape`", lambda it: it.word == "." and it.is_annotation),
    (
        "`self.x: int = 0`",
        lambda it: it.word == ":" and not it.bracket and "." in it.levels[0] and it.keyword not in SUITES,
    ),
    # Numbers and strings
    ('`f"{n} of {m}"`', lambda it: it.glued in F_PREFIXES),
    ('`u"tea"`', lambda it: it.glued in ("u", "U")),
    ('`r"\\d"`, `b"x"`', lambda it: bool(it.glued) and it.word[:1] in ('"', "'")),
    ('`"""two lines"""`', lambda it: it.word[:3] in ('"""', "'''")),
    ("a string that goes on after `\\`", lambda it: is_string(it) and has_escape(it, r"\r?\n")),
    ('`"\\u00e9"`', lambda it: is_string(it) and has_escape(it, "[0-7xuUNabfv]")),
    ('`"\\d"`', lambda it: is_string(it) and has_escape(it, r"""[^\\'"ntr\r\n]""")),
    ("`1e6`", lambda it: bool(re.match(r"\d[\d_]*[eE][+]?\d", it.rest))),
    ("`0xFF`, `007`", lambda it: bool(re.match(r"0[\dxXoObB_]", it.rest)) and not re.match(r"[\d_]*\.", it.rest)),
    ("`1.5`, `.5`", lambda it: bool(re.match(r"[\d_]*\.|\d[\d_]*[eE]-", it.rest))),
    # Statements
    ("`x += 1`", lambda it: it.word in ("+=", "-=", "*=", "//=", "%=")),
    ("`for k, v in pairs:`", loops_over_pairs),
    ("`a, b = pair`", unpacks),
    ("`a = b = 0`", lambda it: it.word == "=" and not it.bracket and "=" in it.level),
    ("`a = 1; b = 2`", lambda it: it.word == ";"),
    ("`if c: return`", is_suite),
    ("`match x:`", lambda it: it.before == ["match"]),
    ("`else:` after a loop", lambda it: it.word == "else" and not it.before),
    ("`try:` `..` `except KeyError:`", lambda it: it.word in ("try", "except", "finally")),
    ('`raise ValueError("odd")`', lambda it: it.word == "raise"),
    ("`with open(name) as file:`", lambda it: it.word == "with"),
    ("`global count`", lambda it: it.word in ("global", "nonlocal")),
    ("`del ages[name]`", lambda it: it.word == "del"),
    ("`yield n`", lambda it: it.word == "yield"),
    ("a `def` in a `def`", lambda it: it.word == "def"),
    ("a `class` in a function", lambda it: it.word == "class"),
    ("`async def f():`", lambda it: it.word == "async"),
    ("`await f()`", lambda it: it.word == "await"),
    ("`...` as a body", lambda it: it.word == "..."),
    ("`return a, b`", lambda it: it.word == "," and not it.bracket and it.keyword == "return"),
    # Expressions
    ("`a if c else b`", lambda it: it.word == "if" and bool(it.before) and "for" not in it.level),
    ("`lambda n: n + 1`", lambda it: it.word == "lambda"),
    ("`[n * n for n in numbers]`, `{..}`, `(..)`", lambda it: it.word == "for" and bool(it.bracket)),
    ("`n in {1, 2}`", lambda it: is_set(it) and before_set(it) == "in"),
    ("`{1, 2}`", is_set),
    ("`pair = 1, 2`", is_tuple),
    ("`names[1:]`", lambda it: it.word == ":" and it.bracket == "[" and bool(it.owner)),
    ("`grid[x, y]`", lambda it: it.word == "," and it.bracket == "[" and bool(it.owner) and not it.is_annotation),
    ("`(n := f())`", lambda it: it.word == ":="),
    ("`a is b`", lambda it: it.last == "is" or it.before[-2:] == ["is", "not"]),
    ("`0 < n < 9`", lambda it: it.word in COMPARISONS | {"not"} and in_chain(it)),
    ("`f(*values)`", lambda it: it.word == "*" and is_starred(it) and bool(it.owner)),
    ("`f(**options)`", lambda it: it.word == "**" and is_starred(it) and bool(it.owner)),
    ("`[*names]`, `{**ages}`", is_starred),
    ("`a / b`", lambda it: it.word in ("/", "/=")),
    ("`2 ** n`", lambda it: it.word in ("**", "**=")),
    ("`a & b`, `a << b`, `~a`", lambda it: it.word in ("&", "^", "~", "<<", ">>", "&=", "|=", "^=", "<<=", ">>=")),
    ("`a | b`", lambda it: it.word == "|"),
    ("`+3`", lambda it: it.word == "+" and (not it.part or it.last in OPERANDS)),
    ('`"a" "b"`', lambda it: is_string(it) and it.last[-1:] in ('"', "'")),
    ("a line that ends in `\\`", lambda it: it.word == "\\"),
    ("`x = 3` in a class", lambda it: it.place == CLASS and it.word == "=" and not it.bracket),
    ("`pass` beside members of a class", lambda it: it.place == CLASS and it.word == "pass"),
    ("`if c:` or `f()` in a class", lambda it: it.place == CLASS and it.keyword not in ("def", "class", "@")),
    ("`def f(n: int = limit)`", in_default),
    ("`if c:` at the top level", lambda it: at_top(it) and not it.before and it.word.isidentifier()),
    ("`print(1)` at the top level", at_top),
)
