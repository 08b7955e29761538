"""How long pycheck takes on modules of one shape, by their length.

    tools/measure shapes PYCHECK [--most SECONDS | --instructions VALGRIND] [--bytes N,N,..] [SHAPE..]
    tools/measure shapes PYCHECK --products [--most SECONDS | --instructions VALGRIND] [--bytes N,N,..] [THING.. or USE..]

makes, for each shape, the longest module of that shape that is not longer than N bytes (262144, 524288 and 1048576 where no
numbers are given), checks it, and prints the seconds of processor time that it took. Where time doubles with the text, each number is
some twice the one before it. Each of these modules has a report. A check that gives none, or none within 120 seconds, is shown by its
status or by `over 120`; then the exit status is 1, and a last line names it.

With `--products` a shape is a thing and a use of it: half of the module is a thing that has many parts, as a class of many fields,
and the other half uses it again and again, as by a call. Without words each thing is tried with each use; a word takes those pairs
alone that have it. Many uses do not fit their thing: the report then lists errors, which is as good, since each of them is judged.

With `--most` the exit status is 1 too where a check takes more than so many seconds, and a last line names each shape
of which one does. The seconds are those of a machine on which a plain module of a million bytes, as tools/measure speed makes
it, takes 0.11 seconds. That module is checked three times first; where the least of these takes longer, the bound is
as many times as high, up to five times, and it is printed before the rows. A check that takes more is tried up to
three times, of which the least counts.

With `--instructions` nothing is timed: VALGRIND, a path of that program or its name on PATH, counts the instructions
of each check, which other work does not change, and millions of them are printed, with how many times of n log n they
grow. The exit status is 1, and a last line names the shape, where they grow faster than n log n from one length to the
next: by more than 1.15 times of what the n log n of the two lengths tell.
"""
from __future__ import annotations

import bisect
import functools
import itertools
import math
import resource
import subprocess
import sys
import tempfile
from typing import Callable, Dict, Iterator, List, NamedTuple, Optional, Tuple

from ..words import Words
from . import speed

HEADER = "from __future__ import annotations\n"
DATACLASS = "from dataclasses import dataclass\n"
EMPTY_MAIN = "def main():\n    pass\nmain()\n"
SECONDS = 120
LENGTHS = "262144,524288,1048576"
# How much more than n log n instructions may grow
SLACK = 1.15
# Makes a module of a shape from a number; and makes a thing from the number of its parts: the text before `main`, and
# lines of `main`
Shape = Callable[[int], str]
Thing = Callable[[int], Tuple[str, str]]


def each(count: int, line: str) -> str:
    """Returns `count` lines, each with its number and the one before."""
    if "{i}" not in line:
        return line * count
    return "".join(line.replace("{i}", str(i)).replace("{before}", str(i - 1)) for i in range(1, count + 1))


def in_main(lines: str) -> str:
    """Returns a module of these lines."""
    return "def main():\n    x = 1\n" + lines + "main()\n"


def listed(count: int, item: str) -> str:
    return ", ".join(item.replace("{i}", str(i)) for i in range(1, count + 1))


def class_chain(count: int, members: str) -> str:
    head = "@dataclass\nclass A0:\n    pass\n"
    return DATACLASS + head + each(count, "@dataclass\nclass A{i}(A{before}):\n" + members) + EMPTY_MAIN


def overrides_in_turn(count: int, returned: Shape) -> str:
    """Returns a chain of classes whose methods have in turn no return annotation and the one that `returned` gives for
    their number."""
    head = "@dataclass\nclass A0:\n    def m(self, x: A0) -> A0:\n        return x\n"
    lines = (
        f"@dataclass\nclass A{i}(A{i - 1}):\n" + ("    def m(self, x):\n" if i % 2 else returned(i)) + "        return x\n"
        for i in range(1, count + 1)
    )
    return DATACLASS + head + "".join(lines) + EMPTY_MAIN


SHAPES: Dict[str, Shape] = {
    "functions": lambda n: each(n, "def f{i}(a: int, b: str) -> int:\n    c = a + {i}\n    print(b)\n    return c\n") + EMPTY_MAIN,
    "statements": lambda n: in_main(each(n, "    x{i} = {i} + 1\n")),
    "elif": lambda n: in_main("    if x == 0:\n        print(0)\n" + each(n, "    elif x == {i}:\n        print({i})\n")),
    "elif-binds": lambda n: in_main(each(n, "    x{i}: int | None = None\n") + "    if x == 0:\n        print(0)\n" + each(n, "    elif x == {i}:\n        x{i} = {i}\n")),
    "elif-tests": lambda n: in_main(each(n, "    x{i}: int | None = None\n") + "    if x == 0:\n        print(0)\n" + each(n, "    elif x{i} is None:\n        print({i})\n")),
    "breaks": lambda n: in_main(each(n, "    x{i}: int | None = None\n") + "    while x < 3:\n" + each(n, "        if x == {i}:\n            x{i} = {i}\n            break\n") + "        x = 2\n"),
    "list": lambda n: in_main("    xs = [" + listed(n, "{i}") + "]\n"),
    "dict": lambda n: in_main("    d = {" + listed(n, '{i}: "a"') + "}\n"),
    "conditions": lambda n: in_main(each(n, "    if " + " and ".join(["x"] * 30) + ":\n        print(x)\n")),
    "constants": lambda n: each(n, "c{i}: int = {i}\n") + EMPTY_MAIN,
    "parameters": lambda n: "def f(" + listed(n, "a{i}") + "):\n    pass\n" + EMPTY_MAIN,
    "classes": lambda n: DATACLASS + each(n, "@dataclass\nclass A{i}:\n    a: int\n    def m(self) -> int:\n        return self.a\n") + EMPTY_MAIN,
    "members": lambda n: DATACLASS + "@dataclass\nclass A:\n" + each(n, "    a{i}: int\n") + EMPTY_MAIN,
    "chain": lambda n: class_chain(n, "    a{i}: int\n"),
    "overrides": lambda n: class_chain(n, "    def m(self) -> int:\n        return {i}\n"),
    "overrides-any": lambda n: overrides_in_turn(n, lambda i: "    def m(self, x: A0) -> A0:\n"),
    "overrides-own": lambda n: overrides_in_turn(n, lambda i: f"    def m(self, x: A0) -> A{i}:\n"),
    "branches": lambda n: in_main(each(n, "    x{i} = {i}\n    if x:\n        x{i} = 2\n")),
    "loops": lambda n: in_main(each(n, "    x{i} = {i}\n    while x{i} < 3:\n        x{i} = x{i} + 1\n")),
    "names": lambda n: "def f(" + listed(n, "a{i}=0") + "):\n    pass\n" + in_main("    f(" + listed(n, "a{i}=1") + ")\n"),
    "union": lambda n: DATACLASS + each(n, "@dataclass\nclass A{i}:\n    pass\n")
    + "def f(x: " + " | ".join(f"A{i}" for i in range(1, n + 1)) + "):\n    pass\n" + EMPTY_MAIN,
}


def classes(count: int, members: str = "    pass\n") -> str:
    return DATACLASS + each(count, "@dataclass\nclass A{i}:\n" + members)


def one_class(members: str) -> str:
    return DATACLASS + "@dataclass\nclass A1:\n" + members


def chain(count: int, members: str) -> Tuple[str, str]:
    return class_chain(count, members).removesuffix(EMPTY_MAIN), f"    x = A{count}()\n"


def functions(count: int) -> str:
    return each(count, "def f{i}(a: int) -> int:\n    return a\n") + "def f(a: int) -> int:\n    return a\n"


def unions(count: int) -> str:
    union = " | ".join(f"A{i}" for i in range(1, 100))
    return classes(100) + each(count, f"def f{{i}}(a: {union}):\n    f{{i}}(a)\n")


def union_of(count: int, name: str = "A") -> str:
    """Returns the union of `count` classes."""
    return " | ".join(f"{name}{i}" for i in range(1, count + 1))


def over_unions(line: str, members: str = "    pass\n") -> Shape:
    """Returns a line again and again, in which `a` and `b` are of unions of 24 classes, and `c` is a test."""
    before = DATACLASS + each(24, "@dataclass\nclass A{i}:\n" + members) + each(24, "@dataclass\nclass B{i}:\n    pass\n")
    head = f"def f(c: bool, a: {union_of(24)}, b: {union_of(24, 'B')}, x: {union_of(24)} | {union_of(24, 'B')}):\n"
    return lambda n: before + head + line * n + EMPTY_MAIN


def listed_unions(head: str, items: str) -> Shape:
    """Returns a list of two locals in turn, of these types."""
    before = DATACLASS + each(24, "@dataclass\nclass A{i}:\n    pass\n") + each(24, "@dataclass\nclass B{i}:\n    pass\n")
    return lambda n: before + f"def f({head}):\n    x = [" + items * n + "a]\n" + EMPTY_MAIN


def over_chains(line: str) -> Shape:
    """Returns a line again and again, in which `a` is of a union of 16 roots, and `b` of the ends of chains of 4
    classes below them."""
    below = "".join(f"@dataclass\nclass {name}{{i}}({base}{{i}}):\n    pass\n" for base, name in zip("AKLM", "KLMN"))
    before = DATACLASS + each(16, "@dataclass\nclass A{i}:\n    pass\n" + below)
    return lambda n: before + f"def f(a: {union_of(16)}, b: {union_of(16, 'N')}):\n" + line * n + EMPTY_MAIN


def over_tuples(line: str) -> Shape:
    """Returns a line again and again, in which `k6` and `m6` are tuples of 127 nodes, and `k7` is one of 255."""
    front = "    k1 = (1, 1)\n    m1 = (\"\", \"\")\n"
    doubled = "".join(f"    {name}{i} = ({name}{i - 1}, {name}{i - 1})\n" for i in range(2, 8) for name in "km")
    return lambda n: "def f():\n" + front + doubled + line * n + EMPTY_MAIN


OWN_UNION = f"    x: {union_of(24)}\n"
SHAPES.update({
    "attributes-of-unions": over_unions("    a" + ".x" * 63 + "\n", OWN_UNION),
    "fields-of-unions": over_unions("    a.x = a.x\n", OWN_UNION),
    "tests-of-unions": over_unions("    if " + " and ".join(f"not isinstance(a, A{i})" for i in range(1, 24)) + ":\n        print(c)\n"),
    "list-of-unions": listed_unions(f"a: {union_of(24)}, b: {union_of(24, 'B')}", "a, b, "),
    "list-of-tuples": listed_unions(f"a: tuple[{union_of(24)}, int], b: tuple[{union_of(24, 'B')}, int]", "a, b, "),
    "or-of-unions": over_unions("    a or b\n"),
    "and-of-unions": over_unions("    a and b\n"),
    "union-and-number": over_unions("    [a, 1]\n"),
    "dicts-of-unions": over_unions("    {1: a, 2: b}\n"),
    "methods-of-unions": over_unions("    a.m()\n", "    def m(self) -> int:\n        return 1\n"),
    "ways-of-unions": over_unions("    if c:\n        x = a\n    else:\n        x = b\n    print(x)\n"),
    "ends-of-chains": over_chains("    a = b\n"),
    "pairs-of-tuples": over_tuples("    (k7, k7)\n"),
    "or-of-tuples": over_tuples("    k6 or m6\n"),
})


# Things with many parts: the text before `main`, and lines of `main`, by the number of parts. The local `x` is the
# thing, or the last of its parts; `f` is a function, `A1` a class, and `Z` the last class of a chain, if there is one.
THINGS: Dict[str, Thing] = {
    "tuple-of-classes": lambda n: (classes(n), "    x = (" + listed(n, "A{i}()") + ",)\n"),
    "tuple-of-numbers": lambda n: ("", "    x = (" + listed(n, "{i}") + ",)\n"),
    "list-of-numbers": lambda n: ("", "    x = [" + listed(n, "{i}") + "]\n"),
    "list-of-classes": lambda n: (classes(n), "    x = [" + listed(n, "A{i}()") + "]\n"),
    "dict": lambda n: ("", "    x = {" + listed(n, '{i}: "a"') + "}\n"),
    "fields": lambda n: (one_class(each(n, "    a{i}: int = 1\n")), "    x = A1()\n"),
    "methods": lambda n: (one_class(each(n, "    def m{i}(self) -> int:\n        return 1\n")), "    x = A1()\n"),
    "chain": lambda n: chain(n, "    pass\n"),
    "chain-of-methods": lambda n: chain(n, "    def m1(self) -> int:\n        return 1\n"),
    "chain-of-fields": lambda n: chain(n, "    a{i}: int = 1\n"),
    "last-of-chain": lambda n: (chain(n, "    a{i}: int = 1\n")[0] + f"@dataclass\nclass Z(A{n}):\n    pass\n", "    x = Z()\n"),
    "method-of-parameters": lambda n: (one_class("    def m1(self, " + listed(n, "a{i}: int = 1") + ") -> int:\n        return 1\n"), "    x = A1()\n"),
    "parameters": lambda n: ("def f(" + listed(n, "a{i}: int = 1") + ") -> int:\n    return 1\n", "    x = f()\n"),
    "late-parameter": lambda n: ("def f(" + listed(n, "a{i}: int = 1") + ", z: int) -> int:\n    return 1\n", "    x = f(z=1)\n"),
    "locals": lambda n: ("", each(n, "    x{i} = {i}\n") + "    x = x1\n"),
    "constants": lambda n: (each(n, "c{i}: int = {i}\n"), "    x = c1\n"),
    "functions": lambda n: (functions(n), "    x = f(1)\n"),
    "unions": lambda n: (unions(n), "    x = A1()\n"),
    "branches": lambda n: ("", "    x = 0\n" + each(n, "    if x == {i}:\n        x = {i}\n")),
    "elif": lambda n: ("", "    x = 0\n    if x == 0:\n        x = 1\n" + each(n, "    elif x == {i}:\n        x{i} = {i}\n")),
    "nothing": lambda n: ("", "    x = 1\n"),
}

# The uses that are repeated.
USES: Dict[str, str] = {
    "item": "    print(x[i])\n",
    "first": "    print(x[0])\n",
    "field": "    print(x.a1)\n",
    "method": "    print(x.m1())\n",
    "call": "    f()\n",
    "call-by-name": "    f(a{i}=1)\n",
    "call-by-last-name": "    f(z=1)\n",
    "method-by-name": "    x.m1(a{i}=1)\n",
    "make": "    A1()\n",
    "make-by-name": "    A1(a{i}=1)\n",
    "make-last": "    Z()\n",
    "make-last-by-name": "    Z(a{i}=1)\n",
    "argument": "    g(x)\n",
    "equal": "    print(x == x)\n",
    "sum": "    y = x + x\n",
    "among": "    print(x in [x])\n",
    "test": "    if isinstance(x, A1):\n        print(x)\n",
    "none": "    if x is None:\n        print(x)\n",
    "copy": "    y{i} = x\n",
    "again": "    y = x\n    x = y\n",
    "store": "    x[0] = x\n",
    "field-store": "    x.a1 = 1\n",
    "list": "    y = [x, x]\n",
    "pair": "    y = (x, x)\n",
    "pair-of-types": "    y = [x, {i}]\n",
    "loop": "    for y in x:\n        print(y)\n",
    "while": "    while x == x:\n        y = x\n",
    "break": "    while x == x:\n        y{i} = x\n        break\n",
    "two-ways": "    if x == x:\n        y = x\n    else:\n        y = 1\n",
    "not": "    print(not x)\n",
    "and": "    print(x and x or x)\n",
    "annotated": "    y{i}: object = x\n",
}


def product(thing: str, parts: int, use: str, uses: int) -> str:
    """Returns a module in which a thing of `parts` parts is used `uses` times."""
    before, lines = THINGS[thing](parts)
    main = "def g(a: object):\n    pass\ndef main():\n    i = 0\n    y = 0\n" + lines
    return before + main + each(uses, USES[use]) + "main()\n"


def longest_product(thing: str, use: str, most: int) -> str:
    """Returns the longest such module within `most` bytes, of which the thing takes about half."""
    parts = parts_of(thing, most // 2)
    ends = ends_of_uses(use, most)
    room = most - len(HEADER + product(thing, parts, use, 0))
    return HEADER + product(thing, parts, use, max(1, bisect.bisect_right(ends, room)))


@functools.lru_cache(maxsize=None)
def parts_of(thing: str, most: int) -> int:
    """Returns the greatest number of parts of a thing with which a module that does not use it stays within `most`
    bytes."""
    return greatest(lambda n: product(thing, n, "first", 0), most) if thing != "nothing" else 1


@functools.lru_cache(maxsize=None)
def ends_of_uses(use: str, most: int) -> List[int]:
    """Returns the end of each use when it is repeated, up to `most` bytes."""
    lengths = (len(each(1, USES[use].replace("{i}", str(i)))) for i in itertools.count(1))
    return list(itertools.takewhile(lambda end: end <= most, itertools.accumulate(lengths)))


def greatest(shape: Shape, most: int) -> int:
    """Returns the greatest number with which a module of a shape stays within `most` bytes."""
    least, past = 1, 2
    while len(HEADER + shape(past)) <= most:
        least, past = past, 2 * past
    while past - least > 1:
        between = (least + past) // 2
        if len(HEADER + shape(between)) <= most:
            least = between
        else:
            past = between
    return least


def longest(shape: Shape, most: int) -> str:
    """Returns the longest module of a shape within `most` bytes."""
    return HEADER + shape(greatest(shape, most))


class Taken(NamedTuple):
    """The cost of a check, seconds or millions of instructions, as it is shown, and whether there was a report."""

    number: float
    shown: str
    is_well: bool


def processor_time() -> float:
    used = resource.getrusage(resource.RUSAGE_CHILDREN)
    return used.ru_utime + used.ru_stime


def timed(program: str, most: int, text: str) -> Taken:
    """Returns the seconds of processor time of a check, which is ended after `most` seconds."""
    with tempfile.NamedTemporaryFile("w", suffix=".py") as file:
        file.write(text)
        file.flush()
        before = processor_time()
        try:
            status = subprocess.run([program, file.name], stdout=subprocess.DEVNULL, timeout=SECONDS,
                                    preexec_fn=lambda: resource.setrlimit(resource.RLIMIT_CPU, (most, most))).returncode
        except subprocess.TimeoutExpired:
            return Taken(SECONDS, f"over {SECONDS}", False)
    took = processor_time() - before
    if status in (0, 1):
        return Taken(took, f"{took:.2f}", True)
    return Taken(took, f"over {most}" if took > 0.9 * most else f"status {status}", False)


def counted(program: str, valgrind: str, instructions: "Callable[..., float]", text: str) -> Taken:
    """Returns the millions of instructions of a check."""
    with tempfile.NamedTemporaryFile("w", suffix=".py") as file:
        file.write(text)
        file.flush()
        number = instructions(valgrind, [program, file.name], (0, 1))
    return Taken(number, f"{number:.2f}", True)


class Asked(NamedTuple):
    """The parsed words of a call."""

    program: str
    makers: Dict[str, Shape]
    lengths: List[int]
    most: Optional[float]
    valgrind: Optional[str]


def all_makers(of_products: bool) -> Dict[str, Shape]:
    """Returns the functions that make the longest module of each shape, or of each thing and use."""
    if of_products:
        return {f"{thing} {use}": functools.partial(longest_product, thing, use) for thing in THINGS for use in USES}
    return {name: functools.partial(longest, shape) for name, shape in SHAPES.items()}


def lengths_of(word: str) -> List[int]:
    """Returns the numbers `N,N,..`."""
    return [int(number) for number in word.split(",")]


def asked_of(words: List[str]) -> Asked:
    """Returns the parsed words."""
    parser = Words("tools/measure shapes", __doc__)
    bounds = parser.add_mutually_exclusive_group()
    bounds.add_argument("--most", type=float)
    bounds.add_argument("--instructions")
    parser.add_argument("--products", action="store_true")
    parser.add_argument("--bytes", type=lengths_of, default=lengths_of(LENGTHS))
    parser.add_argument("program")
    parser.add_argument("names", nargs="*")
    asked = parser.parse_intermixed_args(words)
    makers = all_makers(asked.products)
    parts = {name: {name, *name.split()} for name in makers}
    if not set(asked.names) <= set().union(*parts.values()):
        parser.error(f"there is none of {', '.join(asked.names)}")
    chosen = {name: make for name, make in makers.items() if not asked.names or parts[name] & set(asked.names)}
    return Asked(asked.program, chosen, asked.bytes, asked.most, asked.instructions)


def number_of(taken: Taken) -> float:
    """Returns the seconds or the instructions of a check."""
    return taken.number


def taker(asked: Asked) -> "Tuple[Callable[[str], Taken], float]":
    """Returns the function that measures a check of a text, and its bound."""
    if asked.valgrind is not None:
        return functools.partial(counted, asked.program, asked.valgrind, speed.instructions), math.inf
    if asked.most is None:
        return functools.partial(timed, asked.program, SECONDS), math.inf
    bound = asked.most * speed.slowness(lambda text: timed(asked.program, SECONDS, text).number)
    print(f"The bound here is {bound:.2f} seconds.\n")
    take = functools.partial(timed, asked.program, math.ceil(2 * bound))
    return lambda text: speed.quickest(functools.partial(take, text), number_of, bound), bound


def growths(sizes: List[int], row: List[Taken]) -> List[float]:
    """Returns for each number how many times n log n it has grown from the one before it."""
    told = [size * math.log(size) for size in sizes]
    pairs = zip(zip(row, told), zip(row[1:], told[1:]))
    return [after.number / before.number * of_before / of_after for (before, of_before), (after, of_after) in pairs]


def faults_of(sizes: List[int], row: List[Taken], grown: List[float], bound: float) -> Iterator[str]:
    """Yields the faults in the measurements of a shape."""
    for size, taken in zip(sizes, row):
        if not taken.is_well:
            yield f"{taken.shown} at {size:,} bytes"
        elif taken.number > bound:
            yield f"{taken.shown} seconds at {size:,} bytes"
    for size, after, times in zip(sizes, sizes[1:], grown):
        if times > SLACK:
            yield f"grows faster than n log n from {size:,} bytes to {after:,}: {times:.2f} times of it"


def show_all(asked: Asked) -> List[str]:
    """Prints the cost of each check, and returns the faults."""
    take, bound = taker(asked)
    columns = ["shape", *(f"{length:,} bytes" for length in asked.lengths), *(["of n log n"] if asked.valgrind else [])]
    print(f"| {' | '.join(columns)} |\n|{'---|' * len(columns)}", flush=True)
    wrong = []
    for name, make in asked.makers.items():
        texts = [make(length) for length in asked.lengths]
        sizes, row = [len(text.encode()) for text in texts], [take(text) for text in texts]
        grown = growths(sizes, row) if asked.valgrind else []
        shown = [taken.shown for taken in row] + [f"{max(grown, default=1.0):.2f}"] * bool(asked.valgrind)
        print(f"| {name} | {' | '.join(shown)} |", flush=True)
        wrong += [f"{name}: {fault}" for fault in faults_of(sizes, row, grown, bound)]
    return wrong


def main(words: List[str]) -> int:
    """Checks the shapes that the words name, and returns the exit status."""
    asked = asked_of(words)
    try:
        wrong = show_all(asked)
    except speed.Uncounted as why:
        sys.exit(f"tools/measure shapes: {why}")
    print("".join(f"{fault}\n" for fault in wrong), end="")
    return 1 if wrong else 0
