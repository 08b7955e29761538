"""Findings that are not shown, by their codes. They count as before: for the status, the counts and the baseline."""
from __future__ import annotations

from typing import FrozenSet, Sequence

from . import codes
from .findings import Checked

FAMILIES = "SLINGEA"


def codes_of(word: str) -> FrozenSet[str]:
    """Returns the codes that a word names: a code, a label, or the letter of a family. Empty if it names nothing."""
    letter = word.upper()
    if letter in FAMILIES and len(letter) == 1:
        return frozenset(it for it in codes.entries() if it[0] == letter)
    code = codes.named(word)
    return frozenset([code] if code else [])


def hidden_codes(select: Sequence[str], ignore: Sequence[str]) -> FrozenSet[str]:
    """Returns the codes that are not shown: those that are ignored, and if some are selected, all others."""
    hidden = frozenset(codes.entries()) if select else frozenset()
    for code in select:
        hidden -= codes_of(code)
    for code in ignore:
        hidden |= codes_of(code)
    return hidden


def hide(files: Sequence[Checked], hidden: FrozenSet[str]) -> None:
    """Moves the findings of these codes from the shown ones of each file to the hidden ones."""
    for file in files:
        file.hidden = [it for it in file.findings if it.code in hidden]
        file.findings = [it for it in file.findings if it.code not in hidden]
