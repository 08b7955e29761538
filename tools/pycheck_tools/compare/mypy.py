"""Compares what a page says about pycheck and mypy with what both programs say.

    tools/compare mypy PYCHECK [PAGE [EXAMPLES]]

PAGE is docs/BESIDE_MYPY.md and EXAMPLES the folder examples where they are not named. mypy is the program of that name
on PATH, or the one that the variable MYPY names.

Of the examples, each module NAME.py that pycheck gives a report is compared: the lines of its errors with the lines of
mypy's errors. Of EXAMPLES/left_out.json, where it is there, each form that the profile leaves out, and what to write
instead, is given to mypy. The page has

    a sentence that ends in `those of mypy VERSION and Python VERSION`
    a block `ini`, the file mypy.ini with which mypy is run
    tables: a row whose first cell is
        `mypy WORDS` has the number of examples that agree where mypy is called so, as `51 of 57`
        a link to ../examples/NAME.py names an example that differs, its lines with errors by pycheck and by mypy, and a
            reason, which links to a heading of the page
        `the forms` or `what to write instead` has the number of these in which mypy finds no error, as `90 of 102`
        the name of a row of left_out.json names one in which mypy finds an error, and the codes of its errors,
            with `none` for an error without one
        a number is the line of an error in the module above, with the messages of both: see `told`
    modules: a block `python`, and directly after it a block `console` with lines `$ PROGRAM WORDS module.py`, each
        followed by what is printed. PROGRAM is pycheck, mypy or python3. Of a traceback the last line is shown, and of
        mypy nothing but `Success: no issues found in 1 source file` where it finds nothing, and else no summary.

What pycheck and python3 print is compared as a whole. So is what mypy prints if it is the version that the page names,
else the lines of its errors. From another version of Python the kind of exception is compared, not its message.

Prints each example that differs, and what is wrong with the page, with the line (from 1). The exit status is 1 where
something is wrong with the page, or where nothing was compared; 3 where a program cannot be run.
"""
from __future__ import annotations

import json
import os
import re
import shutil
import subprocess
import sys
import tempfile
from pathlib import Path
from typing import Callable, Dict, Iterator, List, NamedTuple, Optional, Sequence, Set, Tuple

from .. import ROOT
from ..words import Words
from . import told

SUCCESS = "Success: no issues found in 1 source file"
VERSIONS = re.compile(r"those of mypy (\d[\d.]*\d)\s+and\s+Python (\d+\.\d+)")
EXAMPLE = re.compile(r"\[[^\]]*\]\(\.\./examples/([^)]+\.py)\)")
CALL_OF_MYPY = re.compile(r"`mypy((?: \S+)*)`")
ANCHOR = re.compile(r"\(#([^)]*)\)")
COUNT = re.compile(r"(\d+) of (\d+)")
PROMPT = re.compile(r"\$ (pycheck|mypy|python3)((?: \S+)*) module\.py")
SAID_BY_MYPY = re.compile(r"(module\d+)\.py:(\d+)(?::\d+)?: .*")
ERROR_OF_MYPY = re.compile(r"module\.py:(\d+): error: .*?(?:  \[([a-z-]+)\])?")
ERROR_OF_PYCHECK = re.compile(r"(\d+):\d+ E\d\d ")
WRITTEN = ", written: "
SECONDS = 300


class Failure(Exception):
    """A program cannot be run, or gives no answer."""


class Command(NamedTuple):
    """A line of the page that calls a program, with the words before the file and the lines below it."""

    line: int
    program: str
    words: Tuple[str, ...]
    output: List[str]


class Module(NamedTuple):
    """A module of the page, with the line where its block begins."""

    line: int
    text: str
    commands: List[Command]


class Row(NamedTuple):
    """A row of a table, with its line."""

    line: int
    cells: List[str]


class Page:
    """The contents of a page, and its faults so far, each with its line, which is 0 for one of the whole page."""

    def __init__(self) -> None:
        self.modules: List[Module] = []
        self.rows: List[Row] = []
        self.anchors: Set[str] = set()
        self.faults: List[Tuple[int, str]] = []
        self.config = ""
        self.mypy = ""
        self.python = ""

    def fault(self, line: int, text: str) -> None:
        self.faults.append((line, text))


# The page


def parts_of(text: str) -> Iterator[Tuple[int, str, List[str]]]:
    """Yields the blocks of a page, each with its line, its kind and its lines, and the other lines, of kind `line`."""
    lines = enumerate(text.split("\n"), 1)
    for at, line in lines:
        if not line.startswith("```"):
            yield at, "line", [line]
            continue
        block: List[str] = []
        for _, inner in lines:
            if inner.startswith("```"):
                break
            block.append(inner)
        yield at, line[3:].strip(), block


def anchor_of(heading: str) -> str:
    """Returns the name by which a link finds a heading."""
    kept = re.sub(r"[^\w\- ]", "", heading.lstrip("#").strip().lower())
    return kept.replace(" ", "-")


def cells_of(line: str) -> List[str]:
    """Returns the cells of a row. In a cell, a bar has a backslash before it."""
    return [cell.strip().replace("\\|", "|") for cell in re.split(r"(?<!\\)\|", line.strip())[1:-1]]


def commands_of(at: int, block: Sequence[str], page: Page) -> List[Command]:
    """Returns the commands of a block `console` whose first line has the number `at`."""
    commands: List[Command] = []
    for number, line in enumerate(block, at):
        prompt = PROMPT.fullmatch(line)
        if prompt:
            commands.append(Command(number, prompt[1], tuple(prompt[2].split()), []))
        elif line.startswith("$ ") or not commands:
            page.fault(number, f"no command that can be run: {line}")
        else:
            commands[-1].output.append(line)
    return commands


def read_line(at: int, line: str, page: Page) -> None:
    """Reads a heading or a row of a table."""
    if line.startswith("#"):
        page.anchors.add(anchor_of(line))
    elif line.startswith("|"):
        page.rows.append(Row(at, cells_of(line)))


def read_page(text: str) -> Page:
    """Returns the contents of a page, with the faults that can be seen without running a program."""
    page = Page()
    module: Optional[Tuple[int, str]] = None
    parts = list(parts_of(text))
    parts.append((0, "end", []))
    for at, kind, lines in parts:
        if kind == "line" and not lines[0].strip():
            continue
        if kind == "console" and module:
            page.modules.append(Module(*module, commands_of(at + 1, lines, page)))
        elif kind == "console":
            page.fault(at, "answers without a module before them")
        elif module:
            page.fault(module[0], "a module without answers after it")
        module = (at, "\n".join([*lines, ""])) if kind == "python" else None
        if kind == "ini" and not page.config:
            page.config = "\n".join([*lines, ""])
        elif kind == "line":
            read_line(at, lines[0], page)
    versions = VERSIONS.search(text)
    if versions:
        page.mypy, page.python = versions.groups()
    else:
        page.fault(0, "the versions of mypy and Python are not named")
    if not page.config:
        page.fault(0, "there is no mypy.ini")
    return page


# The programs


def run(words: Sequence[str], folder: str) -> Tuple[int, str, str]:
    """Returns the exit status of a program, its output, and its error output."""
    try:
        done = subprocess.run(words, cwd=folder, stdin=subprocess.DEVNULL, capture_output=True, timeout=SECONDS)
    except (OSError, subprocess.TimeoutExpired) as fault:
        raise Failure(f"{words[0]}: {fault}") from fault
    return done.returncode, done.stdout.decode(errors="replace"), done.stderr.decode(errors="replace")


class Programs:
    """The three programs, run in a folder of their own with mypy.ini."""

    def __init__(self, pycheck: str, folder: str, config: str) -> None:
        self.pycheck = os.path.abspath(shutil.which(pycheck) or pycheck)
        self.mypy = shutil.which(os.environ.get("MYPY") or "mypy") or ""
        self.folder = folder
        if not self.mypy:
            raise Failure("mypy is not there")
        Path(folder, "mypy.ini").write_text(config, encoding="utf-8")

    def version_of_mypy(self) -> str:
        _, text, error = run([self.mypy, "--version"], self.folder)
        version = re.match(r"mypy (\S+)", text)
        if not version:
            raise Failure(f"mypy tells no version: {text or error}")
        return version[1]

    def file(self, text: bytes, name: str = "module.py") -> str:
        """Writes a text into a file in the folder, and returns its name."""
        Path(self.folder, name).write_bytes(text)
        return name

    def report(self, text: bytes, words: Sequence[str] = ()) -> str:
        """Returns the report of pycheck, or its refusal."""
        status, said, error = run([self.pycheck, *words, self.file(text)], self.folder)
        if status not in (0, 1, 2):
            raise Failure(f"pycheck ends with status {status}: {error}")
        return error if status == 2 else said

    def ran(self, text: bytes) -> str:
        """Returns the output of a run, and the last line of its traceback, if it ends with one."""
        status, said, error = run([sys.executable, "-I", "-B", self.file(text)], self.folder)
        return said + (error.rstrip("\n").rsplit("\n", 1)[-1] + "\n" if status else "")

    def said_of(self, files: Sequence[str], words: Sequence[str]) -> Tuple[bool, Dict[str, List[str]]]:
        """Returns whether mypy ran to its end, and its messages for each file."""
        fixed = ["--no-error-summary", "--no-color-output", "--cache-dir", "cache"]
        status, text, error = run([self.mypy, *fixed, *words, *files], self.folder)
        if status not in ((1, 2) if ": error: " in text else (0,)) or "mypy.ini" in error:
            raise Failure(f"mypy ends with status {status}: {error}")
        said: Dict[str, List[str]] = {file: [] for file in files}
        for line in text.splitlines():
            name = SAID_BY_MYPY.fullmatch(line)
            if not name or f"{name[1]}.py" not in said:
                raise Failure(f"mypy says: {line}")
            said[f"{name[1]}.py"].append(re.sub(rf"\b{name[1]}\b", "module", line))
        return status < 2, said

    def answers(self, texts: Sequence[bytes], words: Sequence[str] = ()) -> List[List[str]]:
        """Returns the messages of mypy for each module. A syntax error ends a call of mypy, so a module with one is
        checked alone."""
        files = [self.file(text, f"module{at}.py") for at, text in enumerate(texts)]
        answers: Dict[str, List[str]] = {}
        alone = [file for file, text in zip(files, texts) if not compiles(text)]
        left = [file for file in files if file not in alone]
        while alone or left:
            for file in alone:
                answers[file] = self.said_of([file], words)[1][file]
            if not left:
                break
            ended, said = self.said_of(left, words)
            if ended:
                answers.update(said)
                break
            alone = self.blocking(said)
            left = [file for file in left if file not in alone]
        return [answers[file] for file in files]

    @staticmethod
    def blocking(said: Dict[str, List[str]]) -> List[str]:
        """Returns the files that may have ended a call of mypy."""
        faulty = [file for file, lines in said.items() if any(line.endswith("[syntax]") for line in lines)]
        return faulty or [file for file, lines in said.items() if lines]


def compiles(text: bytes) -> bool:
    """Whether Python accepts the text as a module."""
    try:
        compile(text, "module.py", "exec", dont_inherit=True)
    except (SyntaxError, ValueError):
        return False
    return True


# Comparing


def errors_of_mypy(lines: Sequence[str]) -> List[Tuple[int, str]]:
    """Returns the line and the code of each error that mypy printed."""
    errors = (ERROR_OF_MYPY.fullmatch(line) for line in lines)
    return [(int(error[1]), error[2] or "") for error in errors if error]


def lines_of_mypy(lines: Sequence[str]) -> List[int]:
    return sorted({line for line, _ in errors_of_mypy(lines)})


def lines_of_pycheck(report: str) -> List[int]:
    errors = (ERROR_OF_PYCHECK.match(line) for line in report.splitlines())
    return sorted({int(error[1]) for error in errors if error})


def shown(lines: Sequence[int]) -> str:
    """Returns lines as a table has them."""
    return ", ".join(map(str, lines)) or "none"


class Comparison:
    """The page beside the programs: how many answers and examples were compared, and the faults of the page."""

    def __init__(self, page: Page, programs: Programs) -> None:
        self.page, self.programs = page, programs
        self.same_mypy = programs.version_of_mypy() == page.mypy
        self.same_python = page.python == "{}.{}".format(*sys.version_info)
        self.answers = self.examples = self.agreeing = self.forms = 0

    def count(self, row: Row, good: int, every: int) -> None:
        """Compares a row's second cell with a number of modules."""
        if len(row.cells) < 2 or row.cells[1] != f"{good} of {every}":
            self.page.fault(row.line, f"{row.cells[0]}: {good} of {every}")

    def compare_modules(self) -> None:
        """Compares each module of the page with its answers."""
        by_words: Dict[Tuple[str, ...], List[Tuple[Module, Command]]] = {}
        for module in self.page.modules:
            programs = {command.program for command in module.commands}
            if not programs >= {"pycheck", "mypy"}:
                self.page.fault(module.line, "an answer of pycheck or of mypy is missing")
            for command in module.commands:
                if command.program == "mypy":
                    by_words.setdefault(command.words, []).append((module, command))
                else:
                    self.compare_whole(module, command)
        for words, asked in by_words.items():
            answers = self.programs.answers([module.text.encode() for module, _ in asked], words)
            for (_, command), lines in zip(asked, answers):
                self.compare_mypy(command, lines or [SUCCESS])

    def compare_told(self) -> None:
        """Compares the rows that set what mypy says of an error beside what pycheck says, module by module."""
        ends = [module.line for module in self.page.modules[1:]]
        for module, end in zip(self.page.modules, [*ends, sys.maxsize]):
            rows = told.rows_of([row for row in self.page.rows if module.line < row.line < end])
            outputs = {command.program: command.output for command in module.commands}
            shown = any(command.words[:1] == (told.DETAILS,) for command in module.commands)
            if rows and not shown:
                self.page.fault(rows[0].at, f"the module above has no answer of pycheck {told.DETAILS}")
            elif shown:
                said = told.said_of(outputs.get("mypy", []), outputs.get("pycheck", []))
                for at, text in told.faults_of(rows, said, module.line):
                    self.page.fault(at, text)

    def compare_whole(self, module: Module, command: Command) -> None:
        """Compares an answer of pycheck or of Python."""
        text = module.text.encode()
        got = self.programs.ran(text) if command.program == "python3" else self.programs.report(text, command.words)
        want = command.output
        if command.program == "python3" and not self.same_python:
            want, got = without_message(want), "\n".join(without_message(got.splitlines()))
        self.compare_lines(command, want, got.splitlines())

    def compare_mypy(self, command: Command, lines: List[str]) -> None:
        """Compares an answer of mypy: all of it or, for another version than that of the page, the lines of its
        errors."""
        if self.same_mypy:
            self.compare_lines(command, command.output, lines)
        else:
            self.compare_lines(command, [shown(lines_of_mypy(command.output))], [shown(lines_of_mypy(lines))])

    def compare_lines(self, command: Command, want: List[str], got: List[str]) -> None:
        self.answers += 1
        if want != got:
            answer = "\n    ".join([f"{command.program} {' '.join(command.words)}".strip() + " says otherwise:", *got])
            self.page.fault(command.line, answer)

    def compare_examples(self, folder: Path) -> None:
        """Compares the examples that pycheck gives a report by the lines of their errors, with mypy called as each row
        says."""
        texts = {str(file.relative_to(folder)): file.read_bytes() for file in sorted(folder.rglob("*.py"))}
        reports = {name: self.programs.report(text) for name, text in texts.items()}
        names = [name for name in texts if not reports[name].startswith("refused ")]
        errors = {name: lines_of_pycheck(reports[name]) for name in names}
        found = self.lines_by_mypy(texts, names, ())
        self.examples = len(names)
        self.agreeing = sum(errors[name] == found[name] for name in names)
        differing = {name: (errors[name], found[name]) for name in names if errors[name] != found[name]}
        self.compare_table(differing)
        calls = [(row, CALL_OF_MYPY.fullmatch(row.cells[0])) for row in self.page.rows if row.cells]
        for row, call in calls:
            if call:
                lines = self.lines_by_mypy(texts, names, call[1].split()) if call[1] else found
                self.count(row, sum(errors[name] == lines[name] for name in names), len(names))
        if not any(call and not call[1] for _, call in calls):
            self.page.fault(0, f"there is no row: `mypy`, {self.agreeing} of {self.examples}")

    def lines_by_mypy(self, texts: Dict[str, bytes], names: List[str], words: Sequence[str]) -> Dict[str, List[int]]:
        """Returns the lines of the errors that mypy finds in examples."""
        answers = self.programs.answers([texts[name] for name in names], words)
        return {name: lines_of_mypy(lines) for name, lines in zip(names, answers)}

    def compare_table(self, differing: Dict[str, Tuple[List[int], List[int]]]) -> None:
        """Compares the examples that differ with those that the page names."""
        named: Dict[str, Row] = {}
        for row in self.page.rows:
            example = EXAMPLE.fullmatch(row.cells[0]) if row.cells else None
            if example:
                named[example[1]] = row
        for name, (errors, found) in differing.items():
            print(f"{name}: pycheck {shown(errors)}, mypy {shown(found)}")
            if name not in named:
                self.page.fault(0, f"{name}: it differs, and is not on the page")
        for name, row in named.items():
            if name in differing:
                self.compare_named(name, row, differing[name])
            else:
                self.page.fault(row.line, f"{name}: it is no example that differs")

    def compare_named(self, name: str, row: Row, lines: Tuple[List[int], List[int]]) -> None:
        """Compares the row of an example that differs."""
        if row.cells[1:3] != [shown(lines[0]), shown(lines[1])]:
            self.page.fault(row.line, f"{name}: pycheck {shown(lines[0])}, mypy {shown(lines[1])}")
        reason = ANCHOR.search(row.cells[-1])
        if not reason or reason[1] not in self.page.anchors:
            self.page.fault(row.line, f"{name}: its reason links to no heading of the page")

    def compare_left_out(self, file: Path) -> None:
        """Compares the forms that the profile leaves out, and what to write instead, with mypy's errors in them."""
        rows = json.loads(file.read_bytes())["rows"] if file.exists() else []
        texts = {row["name"]: row["input"]["text"].encode() for row in rows}
        answers = dict(zip(texts, self.programs.answers(list(texts.values()))))
        self.forms = len(texts)
        named = {row.cells[0].replace("`", ""): row for row in self.page.rows if row.cells}
        wrong = {name: codes_of(lines) for name, lines in answers.items() if errors_of_mypy(lines)}
        for title, is_written in (("the forms", False), ("what to write instead", True)):
            names = [name for name in texts if (WRITTEN in name) == is_written]
            good = sum(name not in wrong for name in names)
            if title in named:
                self.count(named[title], good, len(names))
            elif names:
                self.page.fault(0, f"there is no row: {title}, {good} of {len(names)}")
        plain = {name.replace("`", ""): name for name in texts}
        for name in plain:
            self.compare_form(plain[name], wrong.get(plain[name]), named.get(name))

    def compare_form(self, name: str, codes: Optional[str], row: Optional[Row]) -> None:
        """Compares a form with the row that names it: there must be one exactly if mypy finds an error."""
        if row is None and codes is not None:
            self.page.fault(0, f"{name}: mypy finds an error, {codes}, and it is not on the page")
        elif row is not None and codes is None:
            self.page.fault(row.line, f"{name}: mypy finds no error")
        elif row is not None and self.same_mypy and row.cells[1:2] != [codes]:
            self.page.fault(row.line, f"{name}: mypy says {codes}")


def codes_of(lines: Sequence[str]) -> str:
    """Returns the codes of mypy's errors, each once; `none` means an error without one."""
    return ", ".join(sorted({f"`{code or 'none'}`" for _, code in errors_of_mypy(lines)}))


def without_message(lines: Sequence[str]) -> List[str]:
    """Returns the output of a run, with only the kind of an exception."""
    return [*lines[:-1], re.sub(r"^(\w+(?:Error|Exception)):.*", r"\1", lines[-1])] if lines else []


def compare(pycheck: str, file: Path, folder: Path) -> int:
    """Compares the page, and returns the exit status."""
    page = read_page(file.read_text(encoding="utf-8"))
    with tempfile.TemporaryDirectory() as work:
        comparison = Comparison(page, Programs(pycheck, work, page.config))
        comparison.compare_modules()
        comparison.compare_told()
        comparison.compare_examples(folder)
        comparison.compare_left_out(folder / "left_out.json")
    if not comparison.answers or not comparison.examples:
        page.fault(0, "nothing was compared: there are no answers, or no examples with a report")
    for line, text in sorted(page.faults):
        print(f"{file.name}:{line}: {text}" if line else f"{file.name}: {text}")
    differing = comparison.examples - comparison.agreeing
    print(f"{comparison.examples} examples: {comparison.agreeing} agree, {differing} differ; {comparison.forms} forms; "
          f"{comparison.answers} answers of the page; {len(page.faults)} wrong on the page")
    return 1 if page.faults else 0


def compared(name: str, about: Optional[str], by: Callable[[str, Path, Path], int], words: List[str]) -> int:
    """Reads the words of a comparison with a page, makes it by `by`, and returns its exit status, 3 where it failed."""
    parser = Words(f"tools/compare {name}", about)
    parser.add_argument("pycheck")
    parser.add_argument("page", nargs="?", type=Path, default=ROOT / "docs" / "BESIDE_MYPY.md")
    parser.add_argument("folder", nargs="?", type=Path, default=ROOT / "examples")
    asked = parser.parse_args(words)
    try:
        return by(asked.pycheck, asked.page, asked.folder)
    except (Failure, OSError) as fault:
        print(f"compare {name}: {fault}", file=sys.stderr)
        return 3


def main(words: List[str]) -> int:
    """Compares the page that the words name, and returns the exit status."""
    return compared("mypy", __doc__, compare, words)
