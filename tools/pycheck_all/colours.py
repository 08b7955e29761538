"""Colours of a terminal."""
from __future__ import annotations

import os
from typing import TextIO

CODES = {
    "error": "1;31",
    "dynamic": "1;33",
    "refused": "1;35",
    "guide": "35",
    "path": "1",
    "number": "34",
    "mend": "36",
}


class Colours:
    """Colours texts by their roles, or leaves them as they are."""

    def __init__(self, used: bool) -> None:
        self.used = used

    def __call__(self, role: str, text: str) -> str:
        """The text in the colour of its role."""
        return f"\x1b[{CODES[role]}m{text}\x1b[0m" if self.used and text else text


def wanted(choice: str, output: TextIO) -> bool:
    """Whether to use colours: as chosen, otherwise on a terminal that has some, if the variable NO_COLOR is not set."""
    if choice != "auto":
        return choice == "always"
    return output.isatty() and not os.environ.get("NO_COLOR") and os.environ.get("TERM") != "dumb"
