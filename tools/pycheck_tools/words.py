"""The words of a command, and of each of its tools."""
from __future__ import annotations

import argparse
import importlib
import sys
from typing import NoReturn, Optional, Sequence


class Words(argparse.ArgumentParser):
    """A parser whose help is the docstring of a module. After a mistake it prints that help too, and ends with status 3
    or another one."""

    def __init__(self, prog: str, text: Optional[str], mistake: int = 3) -> None:
        super().__init__(prog, allow_abbrev=False)
        self.text, self.mistake = (text or "").strip() + "\n", mistake

    def format_help(self) -> str:
        return self.text

    def error(self, message: str) -> NoReturn:
        self.exit(self.mistake, f"{self.text}\n{self.prog}: {message}\n")


def run_tool(command: str, text: Optional[str], tools: Sequence[str]) -> int:
    """Runs the tool of a command that the first word names, with the words after it, and returns the exit status. The
    tool is the module of that name in the folder of the command; no other module is read."""
    parser = Words(f"tools/{command}", text)
    parser.add_argument("tool", choices=tools)
    parser.add_argument("words", nargs=argparse.REMAINDER)
    asked = parser.parse_args(sys.argv[1:])
    tool = importlib.import_module(f"{__package__}.{command}.{asked.tool}")
    return int(tool.main(asked.words))
