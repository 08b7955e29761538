"""The modules of the cookbook in runs of pyrun, with a main that asserts the results of Python's own functions."""
from __future__ import annotations

import collections
from typing import Any, List

from compared import FUNCTIONS, Random, cases
from rooms import RoomCase, source_of

CASES = 25
# The greatest number that a model of 128 bits can hold
LARGEST = 2 ** 126
ESCAPES = {"\\": "\\\\", '"': '\\"', "\n": "\\n", "\t": "\\t", "\r": "\\r"}
# Lists are compared item by item, since == on lists is a free answer of the model
MORE = """
def same(left: list[{type}], right: list[{type}]) -> bool:
    for at in range(len(left)):
        if at >= len(right) or left[at] != right[at]:
            return False
    return len(left) == len(right)

def inserted(values: list[{type}], at: int, value: {type}) -> list[{type}]:
    {insert}(values, at, value)
    return values

"""
DOCUMENT = """document = parse("a = 1 # one\\n\\n b-2 = -2_0\\n")
assert isinstance(document, Document), "a document"
assert document.values["a"] == 1 and document.values["b-2"] == -20 and len(document.values) == 2
assert total_of("a = 1\\nb = 2") == 3
missing = parse("a = 1\\nb = two")
assert isinstance(missing, ParseError), "an error"
assert missing.line == 2 and missing.message == "no number after ="
again = total_of("a = 1\\n\\na = 1")
assert isinstance(again, ParseError), "an error"
assert again.line == 3 and again.message == "a second value for a"
nameless = parse("= 1")
assert isinstance(nameless, ParseError), "an error"
assert nameless.line == 1 and nameless.message == "no name before ="
signless = parse("#\\na")
assert isinstance(signless, ParseError), "an error"
assert signless.line == 2 and signless.message == "no ="
"""


def is_shown(value: Any) -> bool:
    """Whether a value can be written in the profile, and is one of the model."""
    if isinstance(value, (list, tuple)):
        return all(is_shown(item) for item in value)
    if isinstance(value, str):
        return all(character.isprintable() or character in ESCAPES for character in value)
    return value is None or abs(value) < LARGEST


def literal(value: Any) -> str:
    """Returns a value as source text of the profile."""
    if isinstance(value, list):
        return "[" + ", ".join(map(literal, value)) + "]"
    if isinstance(value, str):
        return '"' + "".join(ESCAPES.get(character, character) for character in value) + '"'
    return repr(value)


def asserted(call: str, wanted: Any) -> str:
    """Returns a statement that fails if a call has another result."""
    if isinstance(wanted, list):
        return f"assert same({call}, {literal(wanted)})"
    if wanted is None or isinstance(wanted, bool):
        return f"assert {call} is None" if wanted is None else f"assert {call} == {wanted}"
    return f"assert {call} == {literal(wanted)}"


def asserts_of(file: str, name: str) -> List[str]:
    """Returns the assertions about a function of a file."""
    found = []
    for case in cases(file, name, 4 * CASES):
        if is_shown([*case.given, case.result, case.changed]):
            arguments = ", ".join(map(literal, case.given))
            found.append(asserted(f"{name}({arguments})", case.result) if case.changed is None else
                         asserted(f"inserted({arguments})", case.changed))
    return found[:CASES]


def asserts_of_queues() -> List[str]:
    """Returns the assertions about both queues, step by step."""
    chance, own = Random("runs"), collections.deque([7])
    steps = ["queue = Queue([7])", "chain = Chain()", "chain.put(7)"]
    for step in range(60):
        if chance.random() < 0.5:
            steps += [f"queue.put({step})", f"chain.put({step})"]
            own.append(step)
        else:
            taken = own.popleft() if own else None
            steps += [asserted(f"{name}.take()", taken) for name in ("queue", "chain")]
        steps += [f"assert {name}.size() == {len(own)}" for name in ("queue", "chain")]
    return steps


class Runs(RoomCase):
    """Runs of the modules."""

    def with_functions(self, file: str) -> str:
        """Writes a module with the functions that compare lists, of texts if the functions are for them."""
        kind = "int" if file == "lists_of_int.py" else "str"
        if file == "texts.py":
            more = MORE.split("def inserted")[0].format(type=kind)
        else:
            more = MORE.format(type=kind, insert="insert" if kind == "int" else "insert_str")
        return source_of(file).replace("def main()", more.lstrip("\n") + "def main()")

    def test_functions(self) -> None:
        for file, functions in FUNCTIONS.items():
            for name in functions:
                with self.subTest(name):
                    found = asserts_of(file, name)
                    self.assertEqual(len(found), CASES)
                    self.assert_holds(self.with_functions(file), found)

    def test_queues(self) -> None:
        self.assert_holds(source_of("queues.py"), asserts_of_queues())

    def test_results(self) -> None:
        self.assert_holds(source_of("results.py"), DOCUMENT.splitlines())

    def test_a_wrong_assert_fails(self) -> None:
        for file, wrong in (("texts.py", 'assert strip(" a") == " a"'),
                            ("texts.py", 'assert same(split("a b"), ["a"])'),
                            ("lists_of_int.py", "assert max_of([1, 2]) is None"),
                            ("lists_of_int.py", "assert same(inserted([1], 0, 2), [1, 2])")):
            self.assertEqual(self.end_of_run(self.with_main(self.with_functions(file), [wrong])), "end Other", wrong)
