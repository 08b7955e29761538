"""The functions of cookbook/, compared with Python's own functions on random input.

`differences` calls the functions of a file on as many cases as are asked for, and yields the differences. The random
numbers come from a seed, so the cases are the same each time.
"""
from __future__ import annotations

import collections
import copy
import random
import re
import sys
import types
from pathlib import Path
from typing import Any, Callable, Dict, Iterator, List, NamedTuple, Optional, Tuple

try:
    import tomllib
except ImportError:
    tomllib = None  # type: ignore

COOKBOOK = Path(__file__).resolve().parent.parent.parent / "cookbook"
WHITE_SPACE = " \t\n\r"
# Adjacent letters, white space of the functions and other white space, digits and characters like digits
ALPHABETS = ("ab", "a ", " \t\n\rab", "ab\u00a0\x0b\x0c\x1c\u2003 \n", "a\u00e9\u4e2d\U0001f600",
             "0123456789", "12_+- \n", "0_\u0663\u00b2x")
HAS_TOMLLIB = tomllib is not None
Random = random.Random


class Case(NamedTuple):
    """A call: its arguments, its result, and the first argument afterwards, if the function changes it."""
    given: Tuple[Any, ...]
    result: Any
    changed: Any = None


def module_of(source: str, name: str = "cookbook_module") -> types.ModuleType:
    """Returns the module of a source."""
    made = types.ModuleType(name)
    sys.modules[name] = made
    exec(compile(source, name, "exec"), made.__dict__)
    return made


def some_text(chance: Random, longest: int = 9) -> str:
    """Returns a text of characters that reach each case of the function."""
    alphabet = chance.choice(ALPHABETS)
    return "".join(chance.choice(alphabet) for _ in range(chance.randrange(longest + 1)))


def part_of(text: str, chance: Random) -> str:
    """Returns a part of a text, or another short text."""
    if text and chance.random() < 0.7:
        at = chance.randrange(len(text))
        return text[at:at + chance.randrange(3)]
    return some_text(chance, 2)


def words(text: str) -> List[str]:
    """Returns the words between the white space of the functions: text.split() itself, if there is no other white
    space."""
    found = re.findall(r"[^ \t\n\r]+", text)
    if set(text) & set("".join(filter(str.isspace, text))) <= set(WHITE_SPACE):
        assert found == text.split(), text
    return found


def number(text: str) -> Optional[int]:
    """Returns int(text), or None if it raises ValueError or accepts a character that the function does not."""
    if set(text) - set("0123456789+-_" + WHITE_SPACE):
        return None
    try:
        return int(text)
    except ValueError:
        return None


def place(chance: Random, length: int) -> int:
    """Returns a place in something of this length, or beyond an end of it."""
    return chance.randrange(-length - 3, length + 4)


def strip(chance: Random) -> Case:
    text = some_text(chance)
    if chance.random() < 0.5:
        characters = some_text(chance, 3)
        return Case((text, characters), text.strip(characters))
    if not any(character.isspace() and character not in WHITE_SPACE for character in text):
        return Case((text,), text.strip())
    return Case((text,), text.strip(WHITE_SPACE))


def split(chance: Random) -> Case:
    text = some_text(chance)
    if chance.random() < 0.3:
        return Case((text,), words(text))
    separator = part_of(text, chance)
    return Case((text, separator), text.split(separator) if separator else [text])


def words_of(chance: Random) -> Case:
    text = some_text(chance)
    return Case((text,), words(text))


def join(chance: Random) -> Case:
    parts = [some_text(chance, 3) for _ in range(chance.randrange(5))]
    separator = some_text(chance, 2)
    return Case((separator, parts), separator.join(parts))


def find(chance: Random) -> Case:
    text = some_text(chance)
    part = part_of(text, chance)
    if chance.random() < 0.4:
        return Case((text, part), text.find(part))
    start = place(chance, len(text))
    return Case((text, part, start), text.find(part, start))


def starts_at(chance: Random) -> Case:
    text = some_text(chance)
    part, at = part_of(text, chance), place(chance, len(text))
    return Case((text, part, at), at >= 0 and text.startswith(part, at))


def replace(chance: Random) -> Case:
    text = some_text(chance)
    old, new = part_of(text, chance), some_text(chance, 2)
    return Case((text, old, new), text.replace(old, new))


def sliced(make: Callable[[Random], Any]) -> Callable[[Random], Case]:
    """Returns the cases of a slice of a value that is made this way."""
    def slice_case(chance: Random) -> Case:
        whole = make(chance)
        start, stop = place(chance, len(whole)), place(chance, len(whole))
        form = chance.randrange(4)
        if form == 0:
            return Case((whole,), whole[:])
        if form == 1:
            return Case((whole, start), whole[start:])
        if form == 2:
            return Case((whole, start, None), whole[start:])
        return Case((whole, start, stop), whole[start:stop])
    return slice_case


def int_of(chance: Random) -> Case:
    if chance.random() < 0.3:
        value = chance.randrange(-10 ** chance.randrange(1, 40), 10 ** chance.randrange(1, 40))
        text = chance.choice(["", " ", "\n\t"]) + str(value) + chance.choice(["", "\r", "_1"])
        return Case((text,), number(text))
    text = some_text(chance)
    return Case((text,), number(text))


def ints(chance: Random) -> List[int]:
    """Returns a list of small numbers, so that many are equal; truth values are numbers too."""
    most = chance.choice([0, 3, 10, 60])
    return [chance.choice([chance.randrange(-5, 6), chance.random() < 0.5]) for _ in range(chance.randrange(most + 1))]


def strs(chance: Random) -> List[str]:
    """Returns a list of short texts."""
    return [some_text(chance, 2) for _ in range(chance.randrange(chance.choice([0, 3, 10, 60]) + 1))]


def of_list(make: Callable[[Random], List[Any]], own: Callable[[List[Any]], Any]) -> Callable[[Random], Case]:
    """Returns the cases of a function of one list."""
    def list_case(chance: Random) -> Case:
        values = make(chance)
        return Case((values,), own(list(values)))
    return list_case


def inserted(make: Callable[[Random], List[Any]]) -> Callable[[Random], Case]:
    """Returns the cases of `insert`."""
    def insert_case(chance: Random) -> Case:
        values, more = make(chance), make(chance)
        at, value = place(chance, len(values)), more[0] if more else values[0] if values else None
        changed = list(values)
        if value is None:
            return insert_case(chance)
        changed.insert(at, value)
        return Case((values, at, value), None, changed)
    return insert_case


def of_lists(make: Callable[[Random], List[Any]], suffix: str) -> Dict[str, Callable[[Random], Case]]:
    """Returns the cases of the functions for lists of one type."""
    return {
        "max_of" + suffix: of_list(make, lambda values: max(values, default=None)),
        "min_of" + suffix: of_list(make, lambda values: min(values, default=None)),
        "sorted_of" + suffix: of_list(make, sorted),
        "insert" + suffix: inserted(make),
        "reversed_of" + suffix: of_list(make, lambda values: list(reversed(values))),
        "slice_of_list" + suffix: sliced(make),
    }


FUNCTIONS: Dict[str, Dict[str, Callable[[Random], Case]]] = {
    "texts.py": {"strip": strip, "split": split, "words_of": words_of, "join": join, "find": find,
                 "starts_at": starts_at, "replace": replace, "slice_of": sliced(some_text), "int_of": int_of},
    "lists_of_int.py": {**of_lists(ints, ""), "sum_of": of_list(ints, sum)},
    "lists_of_str.py": of_lists(strs, "_str"),
}


def cases(file: str, name: str, count: int) -> Iterator[Case]:
    """Yields cases of a function of a file."""
    chance = Random(f"{file} {name}")
    for _ in range(count):
        yield FUNCTIONS[file][name](chance)


def differences(module: types.ModuleType, file: str, count: int) -> Iterator[str]:
    """Yields a line for each case in which a function of the module has another result than expected, or changes its
    argument."""
    for name in FUNCTIONS[file]:
        function = getattr(module, name)
        for case in cases(file, name, count):
            given = copy.deepcopy(case.given)
            try:
                result = function(*given)
            except Exception as fault:
                result = fault
            wanted = case.given if case.changed is None else (case.changed, *case.given[1:])
            # True is equal to 1, but not the same value
            if repr((result, given)) != repr((case.result, wanted)):
                yield f"{name}{case.given}: {result!r} and {given!r}, wanted {case.result!r} and {wanted!r}"


def steps_of_queue(queue: Any, own: "collections.deque[int]", chance: Random, count: int) -> Iterator[str]:
    """Yields the differences between a queue and Python's, over `count` steps."""
    for _ in range(count):
        value, step = chance.randrange(5), chance.random()
        if step < 0.5:
            queue.put(value)
            own.append(value)
        elif step < 0.9 or not hasattr(queue, "reverse"):
            taken, wanted = queue.take(), own.popleft() if own else None
            if taken != wanted:
                yield f"take gives {taken}, wanted {wanted}"
        elif step < 0.95:
            queue.reverse()
            own.reverse()
        else:
            queue.remove_all(value)
            own = collections.deque(other for other in own if other != value)
        if queue.size() != len(own) or hasattr(queue, "reverse") and queue.values() != list(own):
            yield f"{queue} in place of {own}"


def differences_of_queues(module: types.ModuleType, count: int) -> Iterator[str]:
    """Yields the differences between the queues and Python's: each begins empty, or a list's queue with the list's
    values."""
    chance = Random("queues")
    for _ in range(count // 20):
        values = ints(chance)
        yield from steps_of_queue(module.Queue(list(values)), collections.deque(values), chance, 40)
        yield from steps_of_queue(module.Chain(), collections.deque(), chance, 40)


# The parts of a line of a document: before a name, a name, a sign, a number, and the rest
PIECES = (["", " ", "\t"], ["a", "b-1", "_", "C", "", "\u00e9", "a b"], ["=", " = ", "= ", " =", " ", "=="],
          ["1", "-23", "+4", "5_6", "70", "7_", "_8", "", "9 9", "--1", "1" * 30], ["", "", " ", " # = 1", "#"])


def some_document(chance: Random) -> str:
    """Returns a text that is nearly a document. No number begins with 0, which TOML does not accept."""
    lines = []
    for _ in range(chance.randrange(4)):
        pieces = [chance.choice(choices) for choices in PIECES]
        if chance.random() < 0.3:
            del pieces[chance.randrange(len(pieces))]
        lines.append("".join(pieces if chance.random() < 0.8 else pieces[-1:]))
    return "\n".join(lines)


def differences_of_results(module: types.ModuleType, count: int) -> Iterator[str]:
    """Yields a line for each text that `parse` and tomllib do not both accept, for each other result, and for each
    other line of an error."""
    assert tomllib
    chance, met = Random("results"), collections.Counter()  # type: ignore
    for _ in range(count):
        text = some_document(chance)
        found = module.parse(text)
        try:
            wanted = tomllib.loads(text)
            same = isinstance(found, module.Document) and found.values == wanted
            same = same and module.total_of(text) == sum(wanted.values())
        except tomllib.TOMLDecodeError as fault:
            at = re.search(r"at line (\d+)", str(fault))
            line = int(at[1]) if at else text.count("\n") + 1
            same = isinstance(found, module.ParseError) and found.line == line and module.total_of(text) == found
        met[type(found).__name__] += 1
        if not same:
            yield f"{text!r}: {found}"
    if len(met) != 2 or min(met.values()) * 5 < count:
        yield f"too few of a kind: {met}"
