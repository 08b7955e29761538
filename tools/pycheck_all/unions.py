"""Types in sentences, whose unions come in the order of an annotation or in that of a report."""
from __future__ import annotations

import functools
import re
from typing import Dict, Iterator, List, Mapping, Tuple

MEMBER = re.compile(r"[\w.]+")
BETWEEN = " | "
NOTHING = "None"
# How many sentences are remembered: a file often has the same one at many places
REMEMBERED = 1 << 12


def end_of_member(text: str, at: int) -> int:
    """Returns the end of the member of a union that begins there."""
    found = MEMBER.match(text, at)
    if found is None:
        return at
    end, depth = found.end(), 0
    for here in range(end, len(text)):
        depth += {"[": 1, "]": -1}.get(text[here], 0)
        if depth <= 0:
            return here + 1 if depth == 0 and text[here] == "]" else here
    return len(text)


def members_at(text: str, at: int) -> Tuple[List[str], int]:
    """Returns the members of the type that begins there, and its end."""
    members, start, end = [], at, end_of_member(text, at)
    while text.startswith(BETWEEN, end):
        members.append(text[start:end])
        start = end + len(BETWEEN)
        end = end_of_member(text, start)
    return [*members, text[start:end]], end


def none_last(members: List[str]) -> str:
    """Returns members as a union, with None as the last one."""
    return BETWEEN.join([it for it in members if it != NOTHING] + [it for it in members if it == NOTHING])


def ordered_inside(member: str) -> str:
    """Returns a member with the types in its brackets in one order."""
    head, bracket, inside = member.partition("[")
    return head + bracket + ordered(inside)


@functools.lru_cache(maxsize=REMEMBERED)
def ordered(text: str) -> str:
    """Returns a sentence with the members of each union in one order, None as the last one."""
    made, at = [], 0
    while at < len(text):
        members, end = members_at(text, at)
        made.append(none_last(sorted(map(ordered_inside, members))) if end > at else text[at])
        at = max(end, at + 1)
    return "".join(made)


def types_in(text: str) -> Iterator[List[str]]:
    """Gives the members of each type of a sentence, those in brackets before the type around them."""
    at = 0
    while at < len(text):
        members, end = members_at(text, at)
        for it in members:
            yield from types_in(it.partition("[")[2])
        if end > at:
            yield members
        at = max(end, at + 1)


@functools.lru_cache(maxsize=REMEMBERED)
def as_written(text: str) -> Mapping[str, str]:
    """Returns the types of a sentence as they are written there, None as the last member, by their texts in one order;
    those of unions without None too. Of types that have one order in common it is the last."""
    written: Dict[str, str] = {}
    for members in types_in(text):
        others = [it for it in members if it != NOTHING]
        for of in (members, others):
            if of and not (of is others and len(of) == len(members)):
                written[ordered(BETWEEN.join(of))] = none_last(of)
    return written
