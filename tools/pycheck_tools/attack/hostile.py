"""Tries pycheck on crafted texts: as long as a text may be, and at and past each limit of the language.

    tools/attack hostile PYCHECK [NAME..]

checks each text below, or the named ones, with a stack of 1 MiB (as `ulimit -s 1024` gives it), and prints a row for each: the
exit status, the first line of the answer, the seconds of processor time and the peak of memory in MiB. A long text has
1,048,576 bytes. What each must be answered with stands beside it here, worked out from the rules and not by the program: the
exit status, and the first and the last line; of a text of random tokens the reader of tools/attack truncate tells it.
A run is ended after 20 seconds of processor time. All texts take some minutes.

A text fails where pycheck was ended by a signal, gave a status other than 0 to 2, took more than 2 seconds of
processor time, or 1 where its types are large unions and tuples, took more than 80 MiB, or answered otherwise. These
seconds are those of a machine on which a plain module of a million bytes, as tools/measure speed makes it, takes 0.11 seconds.
That module is checked three times first; where the least of these takes longer, the bound is as many times as high, up
to five times, and it is printed before the rows. A text that takes more is tried up to four times more, each time with
the bound that the plain module shows right after it, if that is higher. Some texts are known to take more, and are listed here under KNOWN with the bound that they go over: that alone
is no failure of theirs. The failures are told again at the end, then the known texts that went over a bound and those
that did not, and the exit status is 1 where there was a failure. No peak is told lower than some 20 MiB, which this
script itself has when it starts the program.
"""
from __future__ import annotations

import fcntl
import functools
import itertools
import os
import random
import resource
import signal
import subprocess
import tempfile
from typing import IO, AbstractSet, Callable, Dict, Iterator, List, NamedTuple, Optional, Sequence, Set, Tuple, Union

from ..measure import speed
from ..words import Words
from . import truncate

SECONDS, MEBIBYTES, LENGTH = 2.0, 80.0, 1 << 20
STACK, MOST_SECONDS, MOST_BYTES = 1 << 20, 20, 2 << 30
# The most bytes of the first and of the last line of an answer that are compared
ENDS = 200
# The texts that are known to exceed a bound, and which bound: docs/MEASURED.md says by how much, and why
KNOWN: Dict[str, Set[str]] = {
    "an unknown name as every item": {"MiB"},
    "one parameter again": {"MiB"},
    "a comparison as every item": {"MiB"},
    "a part of an unknown name as every item": {"MiB"},
    "an attribute of an unknown name as every item": {"MiB"},
    "flows into a wide tuple": {"MiB"},
}
HEADER = "from __future__ import annotations\n"
DATACLASS = HEADER + "from dataclasses import dataclass\n"
MAIN = "def main():\n"
END = "main()\n"
EMPTY_MAIN = MAIN + "    pass\n" + END
RETURN = HEADER + MAIN + "    return "
DIGITS = "0123456789abcdefghijklmnopqrstuvwxyz"


class Want(NamedTuple):
    """The expected answer to a text: the exit status, and the first and the last line, both empty if any will do."""

    status: int
    first: str
    last: str


# A text, or bytes that are none, with the expected answer; if there is none, only the end of the run is examined
Case = Tuple[Union[str, bytes], Optional[Want]]
Make = Callable[[], Case]
# Makes a text from the number of its parts, and the expected answer to it
Texts = Callable[[int], str]
Wants = Union[Want, Callable[[int], Want]]
# The exit status, the ends of the answer, the seconds and the MiB of a run
Got = Tuple[int, str, str, float, float]
CLEAN = Want(0, "errors 0, dynamic 0", "errors 0, dynamic 0")


def refused(code: str, byte: "int | str") -> Want:
    line = f"refused {code} at byte {byte}"
    return Want(2, line, line)


def found(first: str, errors: int, dynamic: int) -> Want:
    return Want(1 if errors else 0, first, f"errors {errors}, dynamic {dynamic}")


def short(number: int) -> str:
    """Returns a number in as few letters and digits as may follow the first character of a name."""
    text = ""
    while True:
        number, digit = divmod(number, 36)
        text = DIGITS[digit] + text
        if not number:
            return text


def each(count: int, line: str) -> str:
    """Returns the line so often, with {i} and {before} for the number of each, from 1."""
    return "".join(line.replace("{i}", short(i)).replace("{before}", short(i - 1)) for i in range(1, count + 1))


def listed(count: int, item: str) -> str:
    return ",".join(item.replace("{i}", short(i)) for i in range(1, count + 1))


def longest(make: Texts) -> Tuple[int, str]:
    """Returns the largest number for which the text is no longer than a long text, and that text, filled up by a
    comment."""
    least, past = 1, 2
    while len(make(past).encode()) <= LENGTH:
        least, past = past, 2 * past
    while past - least > 1:
        between = (least + past) // 2
        if len(make(between).encode()) <= LENGTH:
            least = between
        else:
            past = between
    return least, filled(make(least))


def filled(text: str) -> str:
    rest = LENGTH - len(text.encode())
    return text + ("#" + "a" * (rest - 1) if rest else "")


def in_main(lines: str) -> str:
    return HEADER + MAIN + " x=1\n" + lines + END


def fitted(make: Texts, want: Wants = CLEAN) -> Case:
    """Returns a text of as many parts as fit. The expected answer may depend on how many those are."""
    count, text = longest(make)
    return text, want if isinstance(want, Want) else want(count)


def chain(count: int, body: str) -> str:
    return DATACLASS + "@dataclass\nclass C0:\n" + body + each(count, "@dataclass\nclass C{i}(C{before}):\n" + body) + EMPTY_MAIN


# Long texts

def one_character(character: str, want: Want) -> Make:
    def make() -> Case:
        text = character * (LENGTH // len(character.encode()))
        return text + " " * (LENGTH - len(text.encode())), want
    return make


def long_front() -> Case:
    """Returns names of 500 characters that differ in their last alone."""
    front = "a" * 500
    return fitted(lambda n: HEADER + each(n, front + "{i}=1\n") + EMPTY_MAIN)


def long_front_locals() -> Case:
    front = "a" * 250
    return fitted(lambda n: in_main(each(n, f" {front}{{i}}=x\n print({front}{{i}})\n")))


@functools.cache
def spelling(number: int) -> str:
    """Returns one of the spellings of a name of 20 letters, each of which may be full-width."""
    return "".join(chr(ord(letter) + (0xFEE0 if number >> at & 1 else 0)) for at, letter in enumerate("abcdefghijklmnopqrst"))


def same_form() -> Case:
    """Returns one local, each time in another spelling of its name."""
    return fitted(lambda n: in_main("".join(f" {spelling(i)}=1\n" for i in range(n))))


def same_form_constants() -> Case:
    """Returns one constant, bound again and again, each time in another spelling: each but the first is E01."""
    return fitted(lambda n: HEADER + "".join(f"{spelling(i)}=1\n" for i in range(n)) + EMPTY_MAIN,
                  lambda n: found("3:1 E01 twice", n - 1, 0))


def marks() -> Case:
    """Returns one name of a letter and half a million marks, each two in the order that their form reverses."""
    text = "a" + "\u0301\u0316" * ((LENGTH - 1) // 4)
    return text + " " * (LENGTH - len(text.encode())), refused("G1", 0)


# The start value and the multiplier of the kit's hasher without a key, and a number of 64 bits
SEED, MULTIPLIER, WORD = 0x243F_6A88_85A3_08D3, 0x9E37_79B9_7F4A_7C15, (1 << 64) - 1


def folded(first: int, second: int) -> int:
    """Returns the two halves of a product of 128 bits, joined by xor."""
    product = first * second
    return product & WORD ^ product >> 64


def mixed(state: int, name: bytes, at: int) -> int:
    """Returns the hasher's state after the 16 bytes of a name that begin here."""
    first, second = (int.from_bytes(name[k : k + 8], "little") for k in (at, at + 8))
    return folded(first ^ state, second ^ MULTIPLIER)


def unkeyed_hash(name: bytes) -> int:
    """Returns the hash of a name of at least 9 bytes by the kit's FoldHasher without a key."""
    state = SEED + len(name) & WORD
    for at in range(0, len(name) - 16, 16):
        state = mixed(state, name, at)
    # (a text is hashed as its bytes, then one of eight bits that are set)
    return folded(mixed(state, name, len(name) - 16) ^ 255, MULTIPLIER ^ 2)


def colliding_front(length: int = 32) -> str:
    """Returns the first 24 bytes of names of this length that all have the same hash without a key. The last 8 of them
    are the state after those before, so the last product is zero for all bytes that follow."""
    blocks = (b"a%015d" % number for number in itertools.count())
    fronts = (block + mixed(SEED + length, block, 0).to_bytes(8, "little") for block in blocks)
    return next(front.decode() for front in fronts if front[16:].replace(b"_", b"a").isalnum())


def colliding_names() -> Case:
    """Returns some 30,000 constants whose names all have the same hash by the kit's hasher without a key."""
    front = colliding_front()
    return fitted(lambda n: HEADER + "".join(f"{front}{i:08d}=1\n" for i in range(n)) + EMPTY_MAIN)


def colliding_arguments() -> Case:
    """Returns a call with some 14,000 arguments by name, whose names all have the same hash."""
    front = colliding_front()

    def make(count: int) -> str:
        names = [f"{front}{i:08d}" for i in range(count)]
        return HEADER + f"def f({'=1,'.join(names)}=1):\n pass\n" + MAIN + f" f({'=2,'.join(names)}=2)\n" + END
    return fitted(make)


def arguments_by_name() -> Case:
    """Returns a call with some 137,000 arguments by name, of a function that has no parameters."""
    return fitted(lambda n: HEADER + "def f():\n pass\n" + MAIN + " f(" + listed(n, "x{i}=1") + ")\n" + END, found("5:2 E14 call", 1, 0))


def arguments_that_suit() -> Case:
    return fitted(lambda n: HEADER + "def f(" + listed(n, "x{i}:int=1") + "):\n pass\n" + MAIN + " f(" + listed(n, "x{i}=2") + ")\n" + END)


def arguments_backwards() -> Case:
    """Returns a call with as many arguments by name as fit, the last parameter first."""
    def make(count: int) -> str:
        given = ",".join(reversed(listed(count, "x{i}=2").split(",")))
        return HEADER + "def f(" + listed(count, "x{i}:int") + "):\n pass\n" + MAIN + " f(" + given + ")\n" + END
    return fitted(make)


def arguments_twice() -> Case:
    """Returns one name given again and again: each but the first is E01."""
    return fitted(lambda n: HEADER + "def f(a=1):\n pass\n" + MAIN + " f(" + ",".join(["a=1"] * n) + ")\n" + END,
                  lambda n: found("5:8 E01 twice", n - 1, 0))


def overriding(header: str, returned: str) -> Make:
    return lambda: fitted(lambda n: chain(n, f" def m(self{header}:\n  return {returned}\n"))


def fields_of_chain() -> Case:
    """Returns a chain of classes, each of which adds a field, and a call of the last one with all of them."""
    def make(count: int) -> str:
        text = DATACLASS + "@dataclass\nclass C0:\n x0:int\n" + each(count, "@dataclass\nclass C{i}(C{before}):\n x{i}:int\n")
        return text + MAIN + f" x=C{short(count)}(" + ",".join(["1"] * (count + 1)) + ")\n" + END
    return fitted(make)


def locals_and_ifs() -> Case:
    return fitted(lambda n: in_main(each(n, " x{i}=1\n if x:\n  x{i}=2\n")))


def locals_then_ifs() -> Case:
    """Returns all locals first, then as many `if`, each of which narrows one."""
    return fitted(lambda n: HEADER + MAIN + each(n, " x{i}:int|None=1\n") + each(n, " if x{i} is None:\n  x{i}=2\n") + END)


def locals_and_loops() -> Case:
    return fitted(lambda n: in_main(each(n, " x{i}=1\n while x{i}<3:\n  x{i}=x{i}+1\n")))


def elif_over_locals(branch: str) -> Make:
    """Returns one `if` with many `elif` over as many locals that may be None."""
    return lambda: fitted(lambda n: in_main(each(n, " y{i}:int|None=None\n") + " if x==0:\n  pass\n" + each(n, branch)))


def loops_with_breaks() -> Case:
    """Returns loops with many breaks, over many locals."""
    return fitted(lambda n: in_main(each(n, " y{i}=x\n") + " while x<3:\n" + each(n, "  if x==1:\n   y{i}=2\n   break\n") + "  x=2\n"))


def conditions(condition: str) -> Make:
    """Returns conditions 63 deep, as many as fit, on a local that may be None."""
    line = f" if {condition}:\n  pass\n"
    return lambda: fitted(lambda n: HEADER + "def f(x:int|None):\n" + line * n + EMPTY_MAIN)


def nested(count: int, left: str, middle: str, right: str) -> str:
    return left * count + middle + right * count


TURNS = "x is None or (x is not None and ("


def turning() -> str:
    """Returns conditions with `and` and `or` in turn, 63 deep, each in the right side of the one before."""
    return nested(30, TURNS, "x is None or x is not None and x==1", "))")


def from_the_left(outer: str, inner: str) -> str:
    """Returns conditions with `and` and `or` in turn, each in the left side of the one after: the narrowing of each
    needs all before it."""
    condition = "x is None"
    for _ in range(30):
        condition = f"({condition} {inner} x is not None) {outer} x is None"
    return condition


def negated() -> str:
    """Returns conditions in turn with a `not` before each: the narrowing of the true case needs that of the false case
    inside."""
    return nested(15, "not (x is None or not (x is not None and ", "not not x is None", "))")


def listed_lines(line: str, first: str, dynamic: bool = False) -> Make:
    return lambda: fitted(lambda n: HEADER + MAIN + line * n + END, lambda n: found(first, 0 if dynamic else n, n if dynamic else 0))


def listed_items(item: str, want: Wants = CLEAN) -> Make:
    """Returns a list display of this item, as often as it fits."""
    return lambda: fitted(lambda n: HEADER + MAIN + " [" + ",".join([item] * n) + "]\n" + END, want)


def parameter_again() -> Case:
    """Returns a function all of whose parameters have the name of the first."""
    return fitted(lambda n: HEADER + "def f(" + ",".join(["a"] * n) + "):\n pass\n" + EMPTY_MAIN,
                  lambda n: found("2:9 E01 twice", n - 1, 0))


def any_lines() -> Case:
    """Returns a dynamic place on every line."""
    return fitted(lambda n: HEADER + "def f(a):\n" + " a.b\n" * n + EMPTY_MAIN, lambda n: found("3:2 A4 any-attribute", 0, n))


def flows_into_long(letters: int, width: int, count: int) -> Case:
    """Returns `count` dynamic flows, a line each, into a class with a name of `letters` letters, or into a tuple of
    `width` of that class. The text of the type is on each line of the report."""
    name = "C" + "a" * (letters - 1)
    into = f"tuple[{', '.join([name] * width)}]" if width else name
    line = f" t = ({', '.join(['c'] * width)})\n" + " t = a\n" * count if width else " c = a\n" * count
    text = DATACLASS + f"@dataclass\nclass {name}:\n x: int\ndef g(c: {name}, a):\n" + line + EMPTY_MAIN
    return text, found(f"{8 if width else 7}:6 A1 any-flow Any -> {into}"[:200], 0, count)


def flows_into_wide() -> Case:
    """Returns a dynamic flow on every line into a tuple of 254 parts, one less than a type may have."""
    into = f"tuple[{', '.join(['int'] * 254)}]"
    return fitted(lambda n: HEADER + f"def f(a,x:{into}):\n" + " x=a\n" * n + EMPTY_MAIN,
                  lambda n: found(f"3:4 A1 any-flow Any -> {into}"[:200], 0, n))


def flows_between_nested() -> Case:
    """Returns a dynamic flow on every line between two tuples of 255 nodes, pairs of pairs, which differ in the last
    one alone."""
    lines, whole, part = HEADER + "def f(a):\n k=(1,1)\n m=(1,a)\n", "tuple[int, int]", "tuple[int, Any]"
    for last, number in zip(["", *map(str, range(5))], range(6)):
        lines += f" k{number}=(k{last},k{last})\n m{number}=(k{last},m{last})\n"
        whole, part = f"tuple[{whole}, {whole}]", f"tuple[{whole}, {part}]"
    return fitted(lambda n: lines + " k5=m5\n" * n + EMPTY_MAIN, lambda n: found(f"17:5 A1 any-flow {part} -> {whole}"[:200], 0, n))


def calls_with_long() -> Case:
    """Returns as many calls, each of which passes a value of any type for a class with a long name."""
    name = "C" + "a" * 19999
    text = DATACLASS + f"@dataclass\nclass {name}:\n x: int\ndef f(c: {name}):\n pass\ndef g(a):\n" + " f(a)\n" * 20000 + EMPTY_MAIN
    return text, found(f"9:4 A1 any-flow Any -> {name}"[:200], 0, 20000)


def random_bytes() -> Case:
    data = random.Random(1).randbytes(LENGTH)
    try:
        data.decode()
    except UnicodeDecodeError as fault:
        return data, refused("S2", fault.start)
    raise ValueError("random bytes that are a text")


def read_apart(text: str) -> Optional[Want]:
    """Returns the answer of the reader of tools/attack truncate to a text."""
    refusal = truncate.reading(text.encode(), truncate.Grammar())
    return refused(*refusal.split()) if refusal else None


TOKENS = ("def class if else while for in return pass not and or is None True x y f int str 1 23 'a' \"b\" + - * // % == < = , : . | ->"
          " @ ( ) [ ] { }").split()


def random_tokens(with_brackets: bool, start: str = "") -> Make:
    """Returns random tokens, in lines of eight at the same column, after a beginning."""
    def make() -> Case:
        rng = random.Random(2)
        words = TOKENS if with_brackets else [word for word in TOKENS if word not in "()[]{}"]
        parts, length = [start], len(start)
        while length < LENGTH:
            parts.append((" " if start else "") + " ".join(rng.choices(words, k=8)) + "\n")
            length += len(parts[-1])
        text = "".join(parts)[: LENGTH - 1]
        text = text[: text.rindex("\n") + 1]
        text += " " * (LENGTH - len(text))
        return text, read_apart(text)
    return make


def random_statements() -> Case:
    """Returns random statements that are all valid, and a condition or a loop here and there."""
    rng, parts, length = random.Random(3), [HEADER, MAIN, " x=1\n"], 60
    lines = [" x=x+1\n", " print(x)\n", " if x<3:\n  x=2\n else:\n  print('a')\n", " while x<3:\n  x=x*2\n", " y=(x,'a')\n", " for z in [x]:\n  x=z\n"]
    while length < LENGTH - 60:
        parts.append(rng.choice(lines))
        length += len(parts[-1])
    return filled("".join(parts) + END), CLEAN


# Long texts over large unions

def of_roots(count: int, name: str, members: str = " pass\n") -> Tuple[str, str]:
    """Returns classes without base, and the union of them."""
    text = "".join(f"@dataclass\nclass {name}{i}:\n{members}" for i in range(count))
    return text, "|".join(f"{name}{i}" for i in range(count))


def over_union(line: str, member: str = " pass\n", want: Wants = CLEAN) -> Make:
    """Returns a line again and again, in which `a` is of a union of 127 classes. A member may name that union."""
    union = of_roots(127, "C")[1]
    front = DATACLASS + of_roots(127, "C", member.replace("UNION", union))[0] + f"def f(a:{union}):\n"
    return lambda: fitted(lambda n: front + line * n + EMPTY_MAIN, want)


def over_two_unions(line: Texts, of_each: str = "{union}") -> Make:
    """Returns a line again and again, in which `a` and `b` are of two types over unions of 60 classes each."""
    (first, left), (second, right) = of_roots(60, "C"), of_roots(60, "D")
    types = of_each.replace("{union}", left), of_each.replace("{union}", right)
    front = DATACLASS + first + second + "def f(c:bool,a:{0},b:{1},x:{2}):\n".format(*types, f"{left}|{right}")
    return lambda: fitted(lambda n: front + line(n) + EMPTY_MAIN)


def tested_unions() -> Case:
    """Returns tests of 63 locals of a union of 127 classes, joined where the conditions end."""
    classes, union = of_roots(127, "C")
    front = DATACLASS + classes + "def f(" + ",".join(f"p{i}:{union}" for i in range(63)) + "):\n"
    line = " if " + " and ".join(f"not isinstance(p{i},C{i})" for i in range(63)) + ":\n  pass\n"
    return fitted(lambda n: front + line * n + EMPTY_MAIN)


def ends_of_chains() -> Case:
    """Returns the union of the ends of 127 chains of 20 classes, given to that of their beginnings."""
    text, roots = of_roots(127, "C")
    for root in range(127):
        names = [f"C{root}", *(f"K{root}x{i}" for i in range(20))]
        text += "".join(f"@dataclass\nclass {name}({base}):\n pass\n" for base, name in zip(names, names[1:]))
    front = DATACLASS + text + f"def f(a:{roots},b:{'|'.join(f'K{root}x19' for root in range(127))}):\n"
    return fitted(lambda n: front + " a=b\n" * n + EMPTY_MAIN)


def large_tuples(line: str, want: Wants = CLEAN) -> Make:
    """Returns a line again and again, in which `k6` and `m6` are tuples of 127 nodes, and `k7` is one of 255."""
    doubled = "".join(f" {name}{i}=({name}{i - 1},{name}{i - 1})\n" for i in range(2, 8) for name in "km")
    front = HEADER + "def f():\n k1=(1,1)\n m1=('','')\n" + doubled
    return lambda: fitted(lambda n: front + line * n + EMPTY_MAIN, want)


# Each may take half of the seconds that the others may
UNIONS: Dict[str, Make] = {
    "attributes of a large union": over_union(" a" + ".x" * 63 + "\n", " x:UNION\n"),
    "fields of a large union": over_union(" a.x=a.x\n", " x:UNION\n"),
    "methods of a large union": over_union(" a.m()\n", " def m(self)->int:\n  return 1\n"),
    "a large union beside a number": over_union(" [a,1]\n"),
    "large unions that are tested": tested_unions,
    "two large unions in turn": over_two_unions(lambda n: " [" + "a,b," * n + "a]\n"),
    "two tuples of large unions in turn": over_two_unions(lambda n: " [" + "a,b," * n + "a]\n", "tuple[{union},int]"),
    "or of two large unions": over_two_unions(lambda n: " a or b\n" * n),
    "and of two large unions": over_two_unions(lambda n: " a and b\n" * n),
    "dicts of two large unions": over_two_unions(lambda n: " {1:a,2:b}\n" * n),
    "two large unions where ways meet": over_two_unions(lambda n: " if c:\n  x=a\n else:\n  x=b\n x\n" * n),
    "the ends of chains given to their beginnings": ends_of_chains,
    "pairs of large tuples": large_tuples(" (k7,k7)\n", lambda n: found("17:2 E26 size", n, 0)),
    "or of large tuples": large_tuples(" k6 or m6\n"),
}

LONG: Dict[str, Make] = {
    "only (": one_character("(", refused("L6", 64)),
    'only "': one_character('"', refused("L2", 0)),
    "only '": one_character("'", refused("L2", 0)),
    "only digits": one_character("7", refused("L8", 0)),
    "only zeros": one_character("0", refused("L3", 0)),
    "only underscores": one_character("_", refused("L4", 0)),
    "only spaces": one_character(" ", refused("G1", LENGTH)),
    "only tabs": one_character("\t", refused("G1", LENGTH)),
    "only line ends": one_character("\n", refused("G1", LENGTH)),
    "only line ends of two bytes": one_character("\r\n", refused("G1", LENGTH)),
    "only #": one_character("#", refused("G1", LENGTH)),
    "only -": one_character("-", refused("G1", 0)),
    "only :": one_character(":", refused("G1", 0)),
    "only dots": one_character(".", refused("N2", 0)),
    "one name": one_character("a", refused("G1", 0)),
    "one name of wide letters": one_character("ａ", refused("G1", 0)),
    "one name of marks": marks,
    "names with a long front": long_front,
    "locals with a long front": long_front_locals,
    "one local in many spellings": same_form,
    "one constant in many spellings": same_form_constants,
    "constants whose names collide": colliding_names,
    "arguments whose names collide": colliding_arguments,
    "arguments by name": arguments_by_name,
    "arguments by name that suit": arguments_that_suit,
    "arguments by name, backwards": arguments_backwards,
    "one argument by name again": arguments_twice,
    "a chain of classes that override": overriding(")", "1"),
    "the same with types": overriding(",a:int)->int", "a"),
    "a chain of classes with fields": fields_of_chain,
    "locals and ifs": locals_and_ifs,
    "locals, then ifs": locals_then_ifs,
    "locals and loops": locals_and_loops,
    "an if that binds many locals": elif_over_locals(" elif x==1:\n  y{i}=2\n"),
    "an if that tests many locals": elif_over_locals(" elif y{i} is None:\n  pass\n"),
    "a loop with many breaks": loops_with_breaks,
    "conditions of not": conditions("not " * 62 + "x is None"),
    "conditions of and": conditions(" and ".join(["x is not None"] * 63)),
    "conditions of or": conditions(" or ".join(["x is None"] * 63)),
    "conditions of and and or": conditions(turning()),
    "conditions of and, or and not": conditions(negated()),
    "conditions of or over and, from the left": conditions(from_the_left("or", "and")),
    "conditions of and over or, from the left": conditions(from_the_left("and", "or")),
    "a finding on every line": listed_lines(' 1+""\n', "3:2 E13 operator"),
    "an unknown name on every line": listed_lines(" a\n", "3:2 E02 unknown-name"),
    "an unknown name as every item": listed_items("a", lambda n: found("3:3 E02 unknown-name", n, 0)),
    "a part of an unknown name as every item": listed_items("a[1]", lambda n: found("3:3 E02 unknown-name", n, n)),
    "an attribute of an unknown name as every item": listed_items("a.b", lambda n: found("3:3 E02 unknown-name", n, n)),
    "a comparison as every item": listed_items("1<2"),
    "a tuple as every item": listed_items("(1,)"),
    "a list as every item": listed_items("[1]"),
    "a dict as every item": listed_items("{1:1}"),
    "one parameter again": parameter_again,
    "a dynamic place on every line": any_lines,
    "a flow into a long class on every line": lambda: flows_into_long(20000, 0, 20000),
    "a flow into a long tuple on every line": lambda: flows_into_long(2000, 120, 300),
    "flows into a wide tuple": flows_into_wide,
    "flows between nested tuples": flows_between_nested,
    "a call with a long class on every line": calls_with_long,
    "random bytes": random_bytes,
    "random tokens": random_tokens(True),
    "random tokens without brackets": random_tokens(False),
    "random tokens in main": random_tokens(False, HEADER + MAIN),
    "random statements": random_statements,
}


# Limits, at the edge and past it

def returned(text: str, want: Want = CLEAN) -> Make:
    return lambda: (RETURN + text + "\n" + END, want)


def too_deep(text: str, byte: int = 58) -> Make:
    return returned(text, refused("G2", byte))


def suites(count: int) -> Make:
    """Returns this many suites inside that of main. The 51st begins at the `pass` in the innermost one."""
    lines = "".join(" " * k + "if True:\n" for k in range(1, count + 1))
    last = HEADER + MAIN + lines + " " * (count + 1)
    return lambda: (last + "pass\n" + END, CLEAN if count < 50 else refused("I3", len(last)))


def taken(ann: str, is_over: bool = False) -> Make:
    """Returns a function whose parameter has the annotation."""
    want = found("2:10 E26 size", 1, 0) if is_over else CLEAN
    return lambda: (HEADER + f"def f(x: {ann}):\n    pass\n" + EMPTY_MAIN, want)


def of_classes(count: int, ann: str, is_over: bool = False) -> Make:
    """Returns a function whose parameter has the annotation, over this many classes: {union} is the union of them
    all."""
    classes = each(count, "@dataclass\nclass C{i}:\n    pass\n")
    text = ann.replace("{union}", " | ".join(f"C{short(i)}" for i in range(1, count + 1)))
    line = DATACLASS.count("\n") + classes.count("\n") + 1
    want = found(f"{line}:10 E26 size", 1, 0) if is_over else CLEAN
    return lambda: (DATACLASS + classes + f"def f(x: {text}):\n    pass\n" + EMPTY_MAIN, want)


def with_class(line: str, depth_is_over: bool = False) -> Make:
    """Returns a function over a class A whose field `a` and whose method `m` result in an A again; the line's first `x`
    begins its expression."""
    text = DATACLASS + "@dataclass\nclass A:\n    a: A\n    def m(self) -> A:\n        return self\ndef f(x: A):\n    "
    byte = len(text) + line.index("x")
    return lambda: (text + line + "\n" + EMPTY_MAIN, refused("G2", byte) if depth_is_over else CLEAN)


def with_any(line: str, first: str, dynamic: int) -> Make:
    return lambda: (HEADER + "def f(x):\n    return " + line + "\n" + EMPTY_MAIN, found(first, 0, dynamic))


def with_function(text: str, want: "Want | str" = CLEAN) -> Make:
    """Returns a call in main of a function of one parameter `a`."""
    front = HEADER + "def f(a: int) -> int:\n    return a\n" + MAIN + "    return "
    return lambda: (front + text + "\n" + END, refused("G2", len(front)) if isinstance(want, str) else want)


def displayed(text: str, over_at: Optional[int] = None) -> Make:
    """Returns an expression statement in main, E26 at a column if it is too large."""
    want = CLEAN if over_at is None else found(f"3:{over_at} E26 size", 1, 0)
    return lambda: (HEADER + MAIN + "    " + text + "\n" + END, want)


def doubling() -> Case:
    """Returns tuples each of which holds the one before it twice: 1, 3, 7 .. 255 nodes, then 511."""
    lines = "    a0 = 1\n" + "".join(f"    a{k} = (a{k - 1}, a{k - 1})\n" for k in range(1, 10))
    return HEADER + MAIN + lines + END, found("11:10 E26 size", 1, 0)


def long_comment(over: int) -> Make:
    text = EMPTY_MAIN
    text = HEADER + text + "#" + "a" * (LENGTH - len(HEADER + text) - 1 + over)
    return lambda: (text, refused("S1", LENGTH) if over else CLEAN)


def items(count: int) -> Make:
    return lambda: (HEADER + MAIN + "    xs = [" + ", ".join(["1"] * count) + "]\n" + END, CLEAN)


def elifs(count: int) -> Make:
    lines = "".join(f"    elif x == {k}:\n        pass\n" for k in range(count))
    return lambda: (HEADER + MAIN + "    x = 1\n    if x == 0:\n        pass\n" + lines + END, CLEAN)


def ints(count: int) -> str:
    return ", ".join(["int"] * count)


def ones(count: int) -> str:
    return ", ".join(["1"] * count)


def annotated(ann: str, want: Want = CLEAN) -> Make:
    """Returns a local without a value that has the annotation, which begins at byte 54."""
    return lambda: (HEADER + MAIN + f"    x: {ann}\n" + END, want)


LIMITS: Dict[str, Make] = {
    "length": long_comment(0), "length + 1": long_comment(1),
    "49 suites in main": suites(49), "50 suites in main": suites(50),
    "64 brackets": returned(nested(64, "(", "1", ")")), "65 brackets": returned(nested(65, "(", "1", ")"), refused("L6", 122)),
    "unary 64": returned("-" * 64 + "1"), "unary 65": too_deep("-" * 65 + "1"),
    "not 64": returned("not " * 64 + "1"), "not 65": too_deep("not " * 65 + "1"),
    "sum to the left 64": returned("1" + " + 1" * 64), "sum to the left 65": too_deep("1" + " + 1" * 65),
    "sum to the right 64": returned(nested(63, "1 + (", "1 + 1", ")")), "sum to the right 65": too_deep(nested(64, "1 + (", "1 + 1", ")")),
    "product 64": returned("1" + " * 1" * 64), "product 65": too_deep("1" + " * 1" * 65),
    "and 64": returned("1" + " and 1" * 64), "and 65": too_deep("1" + " and 1" * 65),
    "or to the right 64": returned(nested(63, "1 or (", "1 or 1", ")")), "or to the right 65": too_deep(nested(64, "1 or (", "1 or 1", ")")),
    "comparison 64": returned(nested(63, "(", "1 < 1", ") < 1")), "comparison 65": too_deep(nested(64, "(", "1 < 1", ") < 1")),
    "comparison to the right 64": returned(nested(63, "1 < (", "1 < 1", ")")),
    "comparison to the right 65": too_deep(nested(64, "1 < (", "1 < 1", ")")),
    "is None 64": returned(nested(63, "(", "1 is None", ") is None")), "is None 65": too_deep(nested(64, "(", "1 is None", ") is None")),
    "in 64": returned(nested(62, "(", "1 in [1]", ") in [1]")), "in 65": too_deep(nested(63, "(", "1 in [1]", ") in [1]")),
    "attribute 64": with_class("return x" + ".a" * 64), "attribute 65": with_class("return x" + ".a" * 65, True),
    "attribute of Any 64": with_any("x" + ".a" * 64, "3:12 A4 any-attribute", 64),
    "target 64": with_class("x" + ".a" * 64 + " = x"), "target 65": with_class("x" + ".a" * 65 + " = x", True),
    "index 64": returned('"a"' + "[0]" * 64), "index 65": too_deep('"a"' + "[0]" * 65),
    "index in an index 64": returned(nested(32, 'len("a"[', "0", "])")),
    "index in an index 65": too_deep(nested(32, 'len("a"[', "-0", "])")),
    "method call 64": with_class("return x" + ".m()" * 32), "method call 65": with_class("return x" + ".m()" * 32 + ".a", True),
    "call of Any 64": with_any("x" + "()" * 64, "3:12 A6 any-call", 64),
    "argument 64": returned(nested(64, "str(", "1", ")")), "argument 65": too_deep(nested(64, "str(", "-1", ")")),
    "argument by name 64": with_function(nested(64, "f(a=", "1", ")")), "argument by name 65": with_function(nested(64, "f(a=", "-1", ")"), "deep"),
    "tuple 64": returned(nested(64, "(", "1", ",)")), "tuple 65": too_deep(nested(64, "(", "-1", ",)")),
    "list 64": returned(nested(64, "[", "1", "]")), "list 65": too_deep(nested(64, "[", "-1", "]")),
    "dict 64": returned(nested(64, "{1: ", "1", "}")), "dict 65": too_deep(nested(64, "{1: ", "-1", "}")),
    "annotation 64": annotated(nested(64, "list[", "int", "]")),
    "annotation 65": annotated(nested(64, "list[", "int | None", "]"), refused("G2", 54)),
    "tuple of 256 nodes": taken(f"tuple[{ints(255)}]"), "tuple of 257 nodes": taken(f"tuple[{ints(256)}]", True),
    "lists of 256 nodes": taken(f"tuple[{', '.join(['list[int]'] * 127)}, int]"),
    "lists of 257 nodes": taken(f"tuple[{', '.join(['list[int]'] * 128)}]", True),
    "deep list of 256 nodes": annotated(nested(63, "list[", f"tuple[{ints(192)}]", "]")),
    "deep list of 257 nodes": annotated(nested(63, "list[", f"tuple[{ints(193)}]", "]"), found("3:8 E26 size", 1, 0)),
    "dict of 256 nodes": taken(f"dict[int, tuple[{ints(253)}]]"), "dict of 257 nodes": taken(f"dict[int, tuple[{ints(254)}]]", True),
    "union of 255 nodes": of_classes(128, "{union}"), "union of 257 nodes": of_classes(129, "{union}", True),
    "list of a union of 256 nodes": of_classes(128, "list[{union}]"), "tuple with a union of 257 nodes": of_classes(128, "tuple[{union}, int]", True),
    "union with None of 257 nodes": of_classes(128, "{union} | None", True),
    "tuple display of 256 nodes": displayed(f"({ones(255)})"), "tuple display of 257 nodes": displayed(f"({ones(256)})", 5),
    "list display of 256 nodes": displayed(f"[({ones(254)})]"), "list display of 257 nodes": displayed(f"[({ones(255)})]", 5),
    "dict display of 256 nodes": displayed(f"{{1: ({ones(253)})}}"), "dict display of 257 nodes": displayed(f"{{1: ({ones(254)})}}", 5),
    "doubled tuples": doubling,
    "1,000 digits": returned("7" * 1000), "1,001 digits": returned("7" * 1001, refused("L8", 58)),
    "1,000 digits with underscores": returned("_".join("7" * 1000)), "1,001 digits with underscores": returned("_".join("7" * 1001), refused("L8", 58)),
    "200,000 items": items(200000), "20,000 elif": elifs(20000),
}


# Running

def limited() -> None:
    resource.setrlimit(resource.RLIMIT_STACK, (STACK, STACK))
    resource.setrlimit(resource.RLIMIT_CPU, (MOST_SECONDS, MOST_SECONDS))
    resource.setrlimit(resource.RLIMIT_AS, (MOST_BYTES, MOST_BYTES))


def ends_of(file: IO[bytes]) -> Tuple[str, str]:
    """Reads a stream to its end, keeps its ends alone, and returns the first and the last line, at most 200 bytes of
    each."""
    first = last = b""
    while block := os.read(file.fileno(), LENGTH):
        first, last = (first + block[:ENDS])[:ENDS], (last + block)[-ENDS:]
    lines = last.decode(errors="replace").splitlines()
    return first.split(b"\n")[0].decode(errors="replace"), lines[-1] if lines else ""


def measured(program: str, words: Sequence[str], data: bytes) -> Got:
    """Returns how a run ended, the ends of its answer, and the seconds and the MiB that it took. The answer goes through
    a pipe: a disk may take longer to store hundreds of MiB than the check takes."""
    with tempfile.NamedTemporaryFile(suffix=".py") as file, tempfile.TemporaryFile() as said:
        file.write(data)
        file.flush()
        reads, writes = os.pipe()
        with open(reads, "rb") as out, open(writes, "wb") as given:
            fcntl.fcntl(given, fcntl.F_SETPIPE_SZ, LENGTH)
            run = subprocess.Popen([program, *words, file.name], stdin=subprocess.DEVNULL, stdout=given, stderr=said, preexec_fn=limited)
            given.close()
            ends = ends_of(out)
        _, status, used = os.wait4(run.pid, 0)
        run.returncode = os.waitstatus_to_exitcode(status)
        said.seek(0)
        first, last = ends if run.returncode in (0, 1) else ends_of(said)
    return run.returncode, first, last, used.ru_utime + used.ru_stime, used.ru_maxrss / 1024


def is_stopped(got: Got) -> bool:
    """Whether the run was ended because it had used all of its seconds."""
    return got[0] in (-signal.SIGXCPU, -signal.SIGKILL) and got[3] > 0.9 * MOST_SECONDS


def over_bounds(got: Got, most: float) -> Dict[str, str]:
    """Returns the bounds that a run exceeded, each with the amount; the bound of time is `most` seconds."""
    seconds, peak = got[3:]
    over = {"seconds": f"{seconds:.2f} seconds"} if seconds > most else {}
    return {**over, "MiB": f"{peak:.0f} MiB"} if peak > MEBIBYTES else over


def faults_of(got: Got, want: Optional[Want], known: AbstractSet[str] = frozenset(), most: float = SECONDS) -> Iterator[str]:
    """Yields the faults of the end of a run. Known bounds may be exceeded; an expected answer without lines means the
    status alone."""
    status, first, last = got[:3]
    if status < 0 and not is_stopped(got):
        yield f"ended by signal {-status}"
    elif status > 2:
        yield f"status {status}"
    yield from (taken for bound, taken in over_bounds(got, most).items() if bound not in known)
    if status >= 0 and want is not None and (status != want.status or want.first and (first, last) != want[1:]):
        yield f"wanted {want}"


class Tally:
    """Collects the faults of the texts that were tried, and the known texts that exceeded a bound."""

    def __init__(self, slowness: float) -> None:
        self.slowness = slowness
        self.failures: List[str] = []
        self.known_over: List[str] = []
        self.known_within: List[str] = []

    def most_of(self, name: str, slowness: Optional[float] = None) -> float:
        """Returns the seconds that a text may take on a machine of this slowness, or of the one at the beginning."""
        return (SECONDS / 2 if name in UNIONS else SECONDS) * (slowness or self.slowness)

    def take(self, name: str, shown: str, got: Got, want: Optional[Want], most: float) -> bool:
        """Records one run that may take `most` seconds, and returns whether something is wrong with it."""
        known = KNOWN.get(name, set())
        wrong = list(faults_of(got, want, known, most))
        over = [taken for bound, taken in over_bounds(got, most).items() if bound in known]
        self.failures += [f"{shown}: {', '.join(wrong)}"] if wrong else []
        self.known_over += [f"{shown}: {', '.join(over)}"] if over else []
        self.known_within += [shown] if known and not over else []
        return bool(wrong)

    def tell(self, count: int) -> None:
        """Prints how many texts and failures there were, and each failure."""
        print(f"{count} texts, {len(self.failures)} failures", *self.failures, sep="\n")
        for text in self.known_over:
            print(f"over a bound, as is known: {text}")
        for text in self.known_within:
            print(f"known, and within its bounds: {text}")


# The words for each form of a report, and the name of the form in the rows
FORMS: Dict[Tuple[str, ...], str] = {(): "", ("--json",): " (JSON)", ("--format=1",): " (format 1)", ("--details",): " (details)"}
# The forms of which the status alone is compared
UNREAD = (("--json",), ("--details",))


def forms_of(name: str) -> Iterator[Tuple[str, ...]]:
    """Yields the forms in which a text is tried: JSON too if there are many findings, format 1 if there are many flows,
    and with details if types are long."""
    yield ()
    if name in LONG and ("every" in name or "again" in name):
        yield ("--json",)
    if name in LONG and ("flow" in name or "call with" in name):
        yield ("--format=1",)
    if name in LONG and "long" in name:
        yield ("--details",)


def want_in_form(want: Optional[Want], words: Tuple[str, ...]) -> Optional[Want]:
    """Returns the expected answer in another form of the report: of JSON, which is one line, and of details only the
    status is compared, and format 1 has no types."""
    if not words or want is None:
        return want
    return Want(want.status, "", "") if words in UNREAD else want._replace(first=want.first.split(" any-flow")[0] + " any-flow")


def seconds_of(got: Got) -> float:
    """Returns the seconds of a run."""
    return got[3]


def slowness_of(program: str) -> float:
    """Returns how many times slower than the stated machine this one is now."""
    return speed.slowness(lambda text: measured(program, (), text.encode())[3])


def tried(program: str, name: str, make: Make, tally: Tally, words: Tuple[str, ...] = ()) -> None:
    """Tries one text, more than once if it takes too long, prints its row, and adds it to the tally."""
    text, want = make()
    data = text if isinstance(text, bytes) else text.encode()
    del text
    want = want_in_form(want, words)
    got, most = speed.fairest(lambda: measured(program, words, data), seconds_of, tally.most_of(name),
                              lambda: tally.most_of(name, slowness_of(program)))
    status, first, last, seconds, peak = got
    in_form = name + FORMS[words]
    fails = " FAILS" if tally.take(name, in_form, got, want, most) else ""
    shown = first[:60] if words or first == last else f"{first[:40]} .. {last}"
    print(f"| {in_form} | {len(data):,} | {status} | {shown} | {seconds:.2f} | {peak:.0f} |{fails}", flush=True)


def main(words: List[str]) -> int:
    """Tries the texts that the words name, and returns the exit status."""
    parser = Words("tools/attack hostile", __doc__)
    parser.add_argument("program")
    parser.add_argument("names", nargs="*")
    asked = parser.parse_args(words)
    program, names = asked.program, asked.names
    cases = {**LONG, **UNIONS, **LIMITS}
    tally = Tally(slowness_of(program))
    print(f"The bound here is {SECONDS * tally.slowness:.2f} seconds.\n")
    print("| text | bytes | status | answer | seconds | MiB |\n|---|---|---|---|---|---|", flush=True)
    for name in names or cases:
        for form in forms_of(name):
            tried(program, name, cases[name], tally, form)
    tally.tell(len(names or cases))
    return 1 if tally.failures else 0
