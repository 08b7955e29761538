"""The words of the command line."""
from __future__ import annotations

import argparse
import os
import re
import sys
from typing import List, NamedTuple, NoReturn, Optional, Sequence

from . import codes, explaining, hiding, texts
from .files import STANDARD_INPUT

UNNAMED = "<stdin>"
FORMS = ("concise", "full", "json", "github", "gitlab", "sarif", "junit")
USAGE = 3
MOST_SECONDS = 86_400
# How many seconds a file may take
SECONDS = 60.0
NUMBER = re.compile(r"[0-9]{1,9}(?:\.[0-9]{1,9})?")
EPILOG = """exit status: 0 no error, 1 errors (with --strict also dynamic places), 2 a refused file, 3 usage, memory or
input/output error; the worst of all files"""


class Words(NamedTuple):
    """The values of the words. An empty text means that the option is not given."""

    files: List[str]
    program: str
    exclude: List[str]
    stdin_name: str
    output: str
    color: str
    timeout: float
    strict: bool
    statistics: bool
    baseline: str
    write_baseline: str
    all_refusals: bool
    page: str
    guards: str
    guards_to: str
    guards_anyway: bool
    fix: bool
    write: bool
    explain: str
    version: bool
    core: List[str]
    only_marked: bool
    no_project: bool
    select: List[str]
    ignore: List[str]
    watch: bool
    server: bool


def seconds_of(word: str) -> float:
    """Returns a number of seconds; raises the error of argparse."""
    if not NUMBER.fullmatch(word) or not 0 < float(word) <= MOST_SECONDS:
        raise argparse.ArgumentTypeError(f"no number of seconds up to {MOST_SECONDS}: {word!r}")
    return float(word)


class Parser(argparse.ArgumentParser):
    """A parser whose errors of usage have the exit status of the program."""

    def error(self, message: str) -> NoReturn:
        self.print_usage(sys.stderr)
        self.exit(USAGE, texts.line(f"{self.prog}: error: {message}") + "\n")


def parser_of(name: str) -> Parser:
    """Returns the parser of the command, under the name by which it is called."""
    parser = Parser(
        prog=name,
        description="Checks many files by the program pycheck, and shows what it finds.",
        epilog=EPILOG,
        allow_abbrev=False,
    )
    add = parser.add_argument
    add("files", nargs="*", metavar="FILE", help="a module, a folder (without one, this one), or - for standard input")
    add("--program", default="", metavar="PYCHECK", help="the program; else the variable PYCHECK names it")
    add(
        "--exclude",
        action="append",
        default=[],
        metavar="GLOB",
        help="leave out what has this name in a folder; with a slash, what has this path; may stand several times",
    )
    add("--stdin-name", default=UNNAMED, metavar="NAME", help="the path that reports show for standard input")
    add("--output", default="", choices=FORMS, help="the form; full on a terminal, else concise")
    add("--color", default="auto", choices=("auto", "always", "never"), help="colours in the form full")
    add(
        "--timeout",
        default=SECONDS,
        type=seconds_of,
        metavar="SECONDS",
        help=f"the time that a file may take; then it counts as not checked (default: {SECONDS:g})",
    )
    add("--strict", action="store_true", help="fail on dynamic places too")
    add("--statistics", action="store_true", help="say how often each code stands")
    add("--baseline", default="", metavar="FILE", help="do not fail on what this file has as known")
    add("--write-baseline", default="", metavar="FILE", help="write down what is found as known")
    add(
        "--all-refusals", action="store_true", help="list all refusals of a file, as a guide, and what to write instead"
    )
    add("--page", default="", metavar="FILE.html", help="write a page that shows the modules with their findings")
    add_guards(parser)
    add_fixes(parser)
    add("--version", action="store_true", help="say the version of the program that is used, and check nothing")
    add_choices(parser)
    return parser


def add_guards(parser: Parser) -> None:
    """Adds the words that ask for guards."""
    add = parser.add_argument
    add("--guards", default="", metavar="CORE.py", help="write guards of a core, through which other code calls it")
    add("--guards-to", default="", metavar="FILE.py", help="where to write them (default: CORE_api.py)")
    add("--guards-anyway", action="store_true", help="write them of a core that is not clean too")


def add_fixes(parser: Parser) -> None:
    """Adds the words that ask for rewrites into the profile."""
    add = parser.add_argument
    add("--fix", action="store_true", help="show as a diff how to bring the files nearer to the profile")
    add("--write", action="store_true", help="with --fix: write it into the files")


def add_choices(parser: Parser) -> None:
    """Adds the options that choose what is checked of a project, and what is shown or explained."""
    add = parser.add_argument
    add(
        "--core",
        action="append",
        default=[],
        metavar="PATH",
        help="check what is this file or in this folder alone, and count the rest; may stand several times",
    )
    add(
        "--only-marked",
        action="store_true",
        help="where no core is named, check files whose first line is `# pycheck: core` alone, and count the rest",
    )
    add("--no-project", action="store_true", help="do not read the settings of the project, in pyproject.toml")
    for name, what in (("--select", "these codes alone"), ("--ignore", "all but these codes")):
        add(
            name,
            action="append",
            default=[],
            metavar="CODE,..",
            help=f"show {what}: codes, labels, or letters of families; the exit status stays",
        )
    add(
        "--explain",
        nargs="?",
        default="",
        const=explaining.ALL,
        metavar="CODE",
        help="explain a code or a label, or list them all, and check nothing",
    )
    add(
        "--server",
        action="store_true",
        help="first, and alone or with --only-marked: be a language server with the advice of this command, which "
        "checks the core of a project alone",
    )
    add("--watch", action="store_true", help="check again whenever a file changes, until it is interrupted")


def read(name: str, words: Optional[Sequence[str]]) -> Words:
    """Returns the values of the words; errors of usage end the process."""
    parser = parser_of(name)
    found = Words(**vars(parser.parse_args(words)))
    if found.server:
        parser.error("argument --server: it is the first word")
    if found.explain:
        code = codes.named(found.explain) or found.explain
        if code != explaining.ALL and code not in codes.entries():
            parser.error(f"argument --explain: there is no code {found.explain}")
        return found._replace(explain=code)
    if found.guards:
        refuse_others(parser, found)
    elif found.guards_to or found.guards_anyway:
        parser.error("arguments --guards-to and --guards-anyway: there is no --guards")
    elif found.write and not found.fix:
        parser.error("argument --write: there is no --fix")
    elif found.fix and not found.files:
        parser.error("argument --fix: there is no FILE")
    if found.fix:
        refuse_beside_fix(parser, found)
    if found.files.count(STANDARD_INPUT) and found.stdin_name == "":
        parser.error("argument --stdin-name: the name is empty")
    for path in found.core:
        if not os.path.exists(path):
            parser.error(f"argument --core: there is no {path}")
    if found.watch and (STANDARD_INPUT in found.files or found.write_baseline):
        parser.error("argument --watch: not with standard input, nor with --write-baseline")
    select, ignore = (chosen(parser, name, getattr(found, name)) for name in ("select", "ignore"))
    return found._replace(select=select, ignore=ignore)


def chosen(parser: Parser, name: str, words: Sequence[str]) -> List[str]:
    """Returns the codes, labels and letters of an option, each by itself."""
    found = [it for word in words for it in word.split(",")]
    for word in found:
        if not hiding.codes_of(word):
            parser.error(f"argument --{name}: there is no code {word}")
    return found


def refuse_others(parser: Parser, found: Words) -> None:
    """Ends the process if guards are asked for together with words that exclude them."""
    names = ("baseline", "write_baseline", "page", "exclude", "all_refusals", "strict", "statistics", "fix")
    others = [f"--{name.replace('_', '-')}" for name in names if getattr(found, name)]
    if found.files or others:
        parser.error(f"argument --guards: it goes alone, without {[*found.files, *others][0]}")
    if found.output not in ("", "concise", "full", "github"):
        parser.error(f"argument --guards: not in the form {found.output}")


def refuse_beside_fix(parser: Parser, found: Words) -> None:
    """Ends the process if files are to be fixed together with words that exclude it."""
    names = ("baseline", "write_baseline", "page", "all_refusals", "statistics")
    others = [f"--{name.replace('_', '-')}" for name in names if getattr(found, name)]
    if others:
        parser.error(f"argument --fix: it goes without {others[0]}")
    if found.output not in ("", "concise", "full"):
        parser.error(f"argument --fix: not in the form {found.output}")
