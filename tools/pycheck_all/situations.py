"""What stands around the place of an error, where that decides the advice, read from the tree of Python's `ast`.

Each test has a name of two words, which rows of docs/CODES.md have in place of words, and returns the name that the
advice is about; None if the error is another case. If the text cannot be read, no test is passed."""
from __future__ import annotations

import ast
import functools
import re
from typing import Callable, Dict, Iterator, List, Optional, Set, Tuple, Union

from .findings import Checked, Finding
from .source import Text
from .unions import ordered

Loop = Union[ast.For, ast.While]
Test = Callable[[Checked, Finding], Optional[str]]
# How many bytes before an attribute are searched for a test of its value
NEAR = 1 << 12
LONGEST = 64
# Of how many functions what was found in them is kept
KEPT = 16
NAME = re.compile(rb"[\w\x80-\xff]+")
LAST = re.compile(rb"\.\s*[\w\x80-\xff]+\Z")
TESTED = re.compile(rb"isinstance\s*\(\s*([\w\x80-\xff]+)\s*,")
PASSED = re.compile(r"cannot pass (.+) for parameter \w+: (.+) of ([\w.]+)")


def found(around: str, file: Checked, finding: Finding) -> Optional[str]:
    """Returns the name that a test is passed with; None if it is not passed."""
    return TESTS[around](file, finding)


def is_tested(file: Checked, finding: Finding) -> Optional[str]:
    """The value of the attribute is an attribute, and the lines before test it for None."""
    data, (start, end) = file.text.data, finding.place
    value = LAST.sub(b"", data[start.byte : end.byte])
    if b"." not in value or len(value) > LONGEST:
        return None
    function = file.text.function_around(start.byte)
    first = file.text.range_of(function)[0] if function else 0
    before = data[max(first, start.byte - NEAR) : start.byte]
    tested = re.search(rb"(?<![\w.])" + re.escape(value) + rb"\s+is\s+(?:not\s+)?None\b", before)
    return "" if tested else None


def is_assigned_in_loop(file: Checked, finding: Finding) -> Optional[str]:
    """The place is in a loop that assigns a local of it, and the lines before the loop test that local for None."""
    start, end = finding.place.start.byte, finding.place.end.byte
    function = file.text.function_around(start)
    if function is None or end - start > NEAR:
        return None
    for loop, names in renewing(function):
        first, last = file.text.range_of(loop)
        if first <= start and end <= last:
            read = [it[0].decode("utf-8", "replace") for it in NAME.finditer(file.text.data[start:end])]
            if names.intersection(read):
                return next(it for it in read if it in names)
    return None


@functools.lru_cache(maxsize=KEPT)
def renewing(function: ast.FunctionDef) -> List[Tuple[Loop, Set[str]]]:
    """Returns the loops of a function that assign locals which were tested for None before, with these locals."""
    tests = compared_with_none(function)
    loops = [it for it in ast.walk(function) if tests and isinstance(it, (ast.For, ast.While))]
    found = [(it, assigned(it) & {name for name, line in tests if line < it.lineno}) for it in loops]
    return [(loop, names) for loop, names in found if names]


def is_swapped(file: Checked, finding: Finding) -> Optional[str]:
    """The value would fit a parameter of another argument of the same call, and that argument this parameter."""
    mine = PASSED.fullmatch(ordered(finding.detail.text)) if finding.detail else None
    if mine is None:
        return None
    for other in file.near(finding):
        said = other.detail.text if other.detail and other.code == finding.code else ""
        theirs = PASSED.fullmatch(ordered(said))
        if theirs and mine.groups() == (theirs[2], theirs[1], theirs[3]) and in_one_call(file.text, finding, other):
            return ""
    return None


def ends_with_assert(file: Checked, finding: Finding) -> Optional[str]:
    """A path of the function ends with an assertion of False."""
    return "" if any(is_false(it) for it in last_statements(file.text, finding)) else None


def ends_with_loop(file: Checked, finding: Finding) -> Optional[str]:
    """A path of the function ends with a loop whose condition is True."""
    return "" if any(is_endless(it) for it in last_statements(file.text, finding)) else None


def ends_with_raise(file: Checked, finding: Finding) -> Optional[str]:
    """A path of a function that promises a value ends with the statement at the place."""
    function = file.text.function_around(finding.place.start.byte)
    promised = function.returns if function else None
    if function is None or promised is None or (isinstance(promised, ast.Constant) and promised.value is None):
        return None
    ends = [it for it in ends_of(function.body) if isinstance(it, ast.Raise)]
    return "" if any(file.text.range_of(it)[0] == finding.place.start.byte for it in ends) else None


def is_all_annotated(file: Checked, finding: Finding) -> Optional[str]:
    """The function around has no parameter without an annotation."""
    function = file.text.function_around(finding.place.start.byte)
    if function is None:
        return "" if file.text.tree.body else None
    # The first parameter of a method has the type of its class
    listed = function.args.args[1:] if function.col_offset else function.args.args
    return "" if all(it.annotation for it in listed) else None


def is_no_parameter(file: Checked, finding: Finding) -> Optional[str]:
    """The test with `isinstance` at the place is of a local that is no parameter."""
    function = file.text.function_around(finding.place.start.byte)
    tested = TESTED.match(file.text.data[finding.place.start.byte :][:LONGEST])
    if function is None or tested is None:
        return None
    name = tested[1].decode("utf-8", "replace")
    return None if name in [it.arg for it in function.args.args] else name


TESTS: Dict[str, Test] = {
    "is None": is_tested,
    "in loop": is_assigned_in_loop,
    "swapped arguments": is_swapped,
    "assert False": ends_with_assert,
    "while True": ends_with_loop,
    "last raise": ends_with_raise,
    "all annotated": is_all_annotated,
    "no parameter": is_no_parameter,
}


def compared_with_none(function: ast.FunctionDef) -> List[Tuple[str, int]]:
    """Returns the names that a function compares with None, each with its line."""
    tests = [it for it in ast.walk(function) if isinstance(it, ast.Compare) and isinstance(it.left, ast.Name)]
    nones = [it for it in tests if isinstance(it.comparators[0], ast.Constant) and it.comparators[0].value is None]
    return [(it.left.id, it.lineno) for it in nones if isinstance(it.left, ast.Name)]


def assigned(loop: Loop) -> Set[str]:
    """Returns the names that a loop assigns."""
    return {it.id for it in ast.walk(loop) if isinstance(it, ast.Name) and isinstance(it.ctx, ast.Store)}


def in_one_call(text: Text, one: Finding, other: Finding) -> bool:
    """Whether two places are arguments of the same call."""
    calls = arguments(text, text.function_around(one.place.start.byte) or text.tree)
    mine, theirs = (calls.get((it.place.start.byte, it.place.end.byte)) for it in (one, other))
    return mine is not None and mine is theirs


@functools.lru_cache(maxsize=KEPT)
def arguments(text: Text, node: "ast.FunctionDef | ast.Module") -> Dict[Tuple[int, int], ast.Call]:
    """Returns the call of each argument in a part of the tree, by the place of the argument."""
    calls = [it for it in ast.walk(node) if isinstance(it, ast.Call)]
    return {text.range_of(it): call for call in calls for it in [*call.args, *(named.value for named in call.keywords)]}


def last_statements(text: Text, finding: Finding) -> Iterator[ast.stmt]:
    """Yields the last statements of the paths of the function whose name is at the place of a finding."""
    function = text.function_around(finding.place.start.byte)
    if function:
        yield from ends_of(function.body)


def ends_of(suite: List[ast.stmt]) -> Iterator[ast.stmt]:
    """Yields the last statement of a suite, or those of its branches."""
    last = suite[-1] if suite else None
    if isinstance(last, ast.If):
        yield from ends_of(last.body)
        yield from ends_of(last.orelse)
    elif last is not None:
        yield last


def is_false(node: ast.stmt) -> bool:
    """Whether a statement asserts False."""
    return isinstance(node, ast.Assert) and isinstance(node.test, ast.Constant) and node.test.value is False


def is_endless(node: ast.stmt) -> bool:
    """Whether a statement is a loop whose condition is True."""
    return isinstance(node, ast.While) and isinstance(node.test, ast.Constant) and node.test.value is True


def forget() -> None:
    """Keeps nothing any more of the texts that were read."""
    renewing.cache_clear()
    arguments.cache_clear()
