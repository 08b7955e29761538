"""How long pycheck takes beside CPython's own compile of the same file, and how much memory.

    tools/measure speed PYCHECK [--runs N] [--python PYTHON] [--keep FOLDER] [--server PYCHECK_SERVER]
    tools/measure speed PYCHECK --instructions VALGRIND [--python PYTHON] [--keep FOLDER]

makes modules of many small classes and functions, with annotations, loops and branches: one of fifty lines, and
three of some 225,000, 450,000 and 900,000 bytes. Then it runs `PYCHECK FILE` and `PYTHON -c
"compile(open(FILE).read(), FILE, 'exec')"` in turn, N times each (7 where no number is given), and prints the least
of each: the seconds of processor time of the process, user and system together, the ratio of the two, and the most
memory that each process held. Two more rows of each file leave the start-up of Python out: `python -I -S` reads no
site packages, and `compile alone` is the time of that one call inside a process that runs already.

PYTHON is the interpreter that runs this tool, where no other is named. With `--keep` the modules are left in
FOLDER. The modules are the same at each call. Every one is a module of the profile without an error; a check that
answers otherwise ends the tool with status 1.

With `--server` an edit in the language server is timed too: a module of 1,000 lines is opened and then changed whole,
once and a hundred times more. So is a hover: it is asked for once and a hundred times more. What one of these takes is
printed, by the least of N runs each; a server that does not publish the diagnostics of each text, or shows nothing
under the pointer, ends the tool with status 1.

The memory of a process is told by the system as no less than this tool's own at the time when it started the
process, which is printed.

With `--instructions` nothing is timed: VALGRIND, a path of that program or its name on PATH, counts the instructions of a
check, which other work does not change, on modules of some 10, 225, 815 and 900 thousand bytes, start-up included. With
`--python` it counts those of that interpreter's compile too, start-up left out, which takes some minutes. A count or a
memory over its bound is told on a line of its own, and then the exit status is 1: four million instructions for 10,240
bytes, 300 million for 815,752, and 25 MiB.
"""
from __future__ import annotations

import argparse
import json
import os
import random
import re
import resource
import subprocess
import sys
import tempfile
from pathlib import Path
from typing import Any, Callable, Dict, List, Optional, Sequence, Tuple, TypeVar

from ..words import Words

# The result of a try
Tried = TypeVar("Tried")
# A message of a session: its method and its parameters
Said = Tuple[str, Any]
HEADER = "from __future__ import annotations\nfrom dataclasses import dataclass\n"
LENGTHS = (225_000, 450_000, 900_000)
EDITED_LINES, EDITS = 1_000, 100  # the lines of the module that is edited, and how many edits and hovers are timed
URI = "file:///module.py"
THINGS = ("order invoice customer account payment parcel ticket sensor reading route station booking member lesson"
          " recipe shipment").split()
FIELDS = "count price weight level amount width height score offset limit total rank".split()
COMPILE = "compile(open({file!r}).read(), {file!r}, 'exec')"
ALONE = ("import time\ntext = open({file!r}).read()\nstart = time.process_time()\ncompile(text, {file!r}, 'exec')\n"
         "print(time.process_time() - start)\n")

# Each part of a module: C is its class, c a word for it, a b d are fields, and n is a number of its own.
CLASS = '''
# One C of the list.
@dataclass
class C:
    name: str
    a: int
    b: int = 1
    d: bool = False

    def value(self) -> int:
        return self.a * self.b

    def is_larger(self, other: C) -> bool:
        if self.d and not other.d:
            return True
        return self.value() > other.value()
'''
BELOW = '''
@dataclass
class SpecialC(C):
    parent: C | None = None

    def value(self) -> int:
        parent = self.parent
        if parent is None:
            return self.a + self.b
        return parent.value() + self.a * 2
'''
TOTAL = '''
def total_n(items: list[C]) -> int:
    total = 0
    for item in items:
        # Those that are marked count twice.
        if item.d:
            total = total + 2 * item.value()
        elif item.a > limit_n:
            total = total + limit_n
        else:
            total = total + item.value()
    return total
'''
FIND = '''
def find_n(items: list[C], name: str) -> C | None:
    for item in items:
        if item.name == name and item.a >= 0:
            return item
    return None
'''
COUNTS = '''
def counts_n(items: list[C]) -> dict[str, int]:
    counts: dict[str, int] = {}
    for item in items:
        known = counts.get(item.name)
        if known is None:
            counts[item.name] = 1
        else:
            counts[item.name] = known + 1
    return counts
'''
SEARCH = '''
def search_n(values: list[int], wanted: int) -> int:
    low = 0
    high = len(values)
    while low < high:
        middle = (low + high) // 2
        value = values[middle]
        if value == wanted:
            return middle
        if value < wanted:
            low = middle + 1
        else:
            high = middle
    return -1
'''
WORDS = '''
def word_n(code: int, short: bool = False) -> str:
    if code == 0:
        return "none"
    elif code == 1:
        return "one c"
    elif code < limit_n and not short:
        return "some c: " + str(code)
    return "many"
'''
SHOWN = '''
def shown_n(value: int | str | list[C] | None, names: list[str]) -> str:
    if value is None:
        return "nothing"
    if isinstance(value, int):
        return names[value % len(names)]
    if isinstance(value, str):
        return value
    text = ""
    for each in value:
        text = text + each.name + ", "
    return text
'''
PAIRS = '''
def pairs_n(first: list[C], second: list[C]) -> list[tuple[str, int]]:
    pairs: list[tuple[str, int]] = []
    for one in first:
        for other in second:
            if one.is_larger(other):
                pairs.append((one.name, one.value() - other.value()))
    return pairs
'''
USED = '''
def report_n(items: list[C], width: int = 72) -> list[str]:
    lines = ["c: " + str(len(items))]
    best = find_n(items, "best")
    if best is not None:
        lines.append(word_n(best.b, short=True))
    for pair in pairs_n(items, items):
        line = pair[0] + " " + str(pair[1])
        if len(line) > width:
            continue
        lines.append(line)
    lines.append(str(total_n(items) + search_n([1, 2, 3], limit_n)))
    return lines
'''
UNTYPED = '''
def scaled_n(amount, factor):
    result = amount * factor
    return result + limit_n
'''
LIMIT = '\nlimit_n: int = 12\n'
EVERY = (CLASS, BELOW, LIMIT, TOTAL, FIND, COUNTS, SEARCH, WORDS, SHOWN, PAIRS, USED)
SOME = (CLASS, LIMIT, TOTAL, FIND, WORDS)
# The modules whose instructions are counted, and how many millions a check of so many bytes may take, if there is a
# bound
COUNTED = ((10_240, SOME, 4), (225_000, EVERY, None), (815_752, EVERY, 300), (900_000, EVERY, None))
HELD = 25  # MiB that a check of any of them may hold
# The speed of a machine is measured by a check of a module of so many bytes, which takes so many seconds on the machine
# that the bounds of seconds are for; how many times as long it may take elsewhere, how often a check that takes too
# long is tried, and how often if the speed of the machine is measured beside each of these tries
PLAIN, PLAIN_SECONDS, MOST_TIMES, TRIES, FAIR_TRIES = 1_000_000, 0.11, 5.0, 3, 5


def group(number: int, rng: random.Random, parts: Sequence[str]) -> str:
    """Returns some parts of a module about one class; their definitions have a number of their own."""
    thing, (a, b, d) = rng.choice(THINGS), rng.sample(FIELDS, 3)
    kind = f"{thing.capitalize()}{number}"
    words = {"C": kind, "SpecialC": f"Special{kind}", "c": thing, "a": a, "b": b, "d": f"is_{d}"}
    text = "".join(parts) + (UNTYPED if rng.random() < 0.1 else "")
    return re.sub(r"\w+", lambda found: words.get(found[0]) or re.sub("_n$", f"_{number}", found[0]), text)


def module(length: int, parts: Sequence[str]) -> str:
    """Returns the shortest module of such groups that has at least this length."""
    rng, text, number = random.Random(1), HEADER, 0
    while number == 0 or len(text) < length:
        number += 1
        text += group(number, rng, parts)
    return text + f"\ndef main():\n    print(total_{number}([]))\n\nmain()\n"


def ended(process: subprocess.Popen[bytes]) -> Any:
    """Waits until a process ends, and returns its use of resources."""
    _, status, used = os.wait4(process.pid, 0)
    process.returncode = os.waitstatus_to_exitcode(status)
    return used


def measured(words: List[str]) -> Tuple[float, float, str]:
    """Returns the seconds of processor time that a process takes, the MiB that it held at most, and its output."""
    with subprocess.Popen(words, stdout=subprocess.PIPE) as process:
        printed = process.stdout.read().decode() if process.stdout else ""
        used = ended(process)
    if process.returncode != 0:
        sys.exit(f"tools/measure speed: {' '.join(words)} ended with status {process.returncode}: {printed[-300:]}")
    return used.ru_utime + used.ru_stime, used.ru_maxrss / 1024, printed


def least(commands: Dict[str, List[str]], runs: int) -> Dict[str, Tuple[float, float]]:
    """Runs the commands in turn, and returns the least seconds and the most memory of each."""
    found = {name: (float("inf"), 0.0) for name in commands}
    for _ in range(runs):
        for name, words in commands.items():
            seconds, held, printed = measured(words)
            if name == "pycheck" and not printed.split("\n")[-2].startswith("errors 0, "):
                sys.exit(f"tools/measure speed: {words[-1]} is not answered as it should be: {printed[-300:]}")
            if name == "compile alone":
                seconds = float(printed)
            found[name] = min(found[name][0], seconds), max(found[name][1], held)
    return found


def commands_for(program: str, python: str, file: str) -> Dict[str, List[str]]:
    """Returns the commands that are run on a file."""
    compiled = COMPILE.format(file=file)
    return {
        "pycheck": [program, file],
        "python": [python, "-c", compiled],
        "python -I -S": [python, "-I", "-S", "-c", compiled],
        "compile alone": [python, "-I", "-S", "-c", ALONE.format(file=file)],
    }


def show(text: str, program: str, python: str, runs: int, file: Path) -> None:
    """Prints the cost of the commands on a module."""
    file.write_text(text, encoding="utf-8")
    found = least(commands_for(program, python, str(file)), runs)
    seconds, held = found["pycheck"]
    shown = [f"{len(text):,}", f"{text.count(chr(10)):,}", f"{1000 * seconds:.1f}", f"{held:.0f}"]
    for name in ("python", "python -I -S", "compile alone"):
        shown.append(f"{1000 * found[name][0]:.1f} ({seconds / found[name][0]:.2f})")
    print(f"| {' | '.join(shown)} |", flush=True)


def changes_of(text: str, number: int) -> List[Said]:
    """Returns so many changes of the open module, each in one line."""
    return [("textDocument/didChange", {"textDocument": {"uri": URI, "version": version},
                                        "contentChanges": [{"text": text + f"# {version}\n"}]}) for version in range(1, number + 1)]


def hovers_of(text: str, number: int) -> List[Said]:
    """Returns so many requests for what is shown under the pointer in the open module, at names that begin lines."""
    lines = text.split("\n")
    places = [(line, 8) for line, said in enumerate(lines) if re.match(r" {8}\w+(?: =|\.)", said)]
    chosen = [places[at * len(places) // number] for at in range(number)]
    return [("textDocument/hover", {"textDocument": {"uri": URI}, "position": {"line": line, "character": character}})
            for line, character in chosen]


def session(text: str, more: List[Said]) -> bytes:
    """Returns the bytes of a session that opens a module and says more of it."""
    document = {"uri": URI, "languageId": "python", "version": 0, "text": text}
    said: List[Said] = [("initialize", {"capabilities": {}}), ("initialized", {}), ("textDocument/didOpen", {"textDocument": document}),
                        *more, ("shutdown", None), ("exit", None)]
    given = b""
    for at, (method, params) in enumerate(said):
        number = {"id": at} if method in ("initialize", "shutdown", "textDocument/hover") else {}
        body = json.dumps({"jsonrpc": "2.0", "method": method, "params": params, **number}).encode()
        given += b"Content-Length: %d\r\n\r\n" % len(body) + body
    return given


def served(server: str, given: bytes, texts: int, shown: int) -> float:
    """Returns the seconds of processor time that the server takes for a session, which has to end as it should, with the
    diagnostics of so many texts and so many replies that show something."""
    with tempfile.TemporaryFile() as input_file, tempfile.TemporaryFile() as output_file:
        input_file.write(given)
        input_file.seek(0)
        with subprocess.Popen([server], stdin=input_file, stdout=output_file) as process:
            used = ended(process)
        output_file.seek(0)
        output = output_file.read()
    told = output.count(b"textDocument/publishDiagnostics"), output.count(b'"contents"')
    status = process.returncode
    if status != 0 or told != (texts, shown):
        sys.exit(f"tools/measure speed: {server} ended with status {status} after the diagnostics of {told[0]} texts and"
                 f" {told[1]} texts of hovers")
    return float(used.ru_utime + used.ru_stime)


def show_session(server: str, runs: int) -> None:
    """Prints the cost of an edit in the language server, and of a hover."""
    length = 0
    while module(length, EVERY).count("\n") < EDITED_LINES:
        length += 500
    text = module(length, EVERY)
    lines = text.count("\n")

    def each(made: Callable[[str, int], List[Said]], shown: bool) -> float:
        """Returns the milliseconds of one message, by the least of several sessions with one and with many of them."""
        few, many = (min(served(server, session(text, made(text, number)), 1 if shown else number + 1, number if shown else 0)
                         for _ in range(runs)) for number in (1, EDITS + 1))
        return 1000 * (many - few) / EDITS

    print(f"An edit of a module of {lines:,} lines in the language server: {each(changes_of, False):.1f} milliseconds of processor time")
    print(f"A hover in a module of {lines:,} lines in the language server: {each(hovers_of, True):.1f} milliseconds of processor time")


class Uncounted(Exception):
    """Instructions could not be counted; the text says why."""


def instructions(valgrind: str, words: Sequence[str], statuses: Sequence[int] = (0,)) -> float:
    """Returns the millions of instructions of a process that must end with one of these statuses."""
    counted = [valgrind, "--tool=callgrind", "--callgrind-out-file=/dev/null", *words]
    try:
        done = subprocess.run(counted, stdout=subprocess.DEVNULL, stderr=subprocess.PIPE, text=True, errors="replace")
    except OSError as error:
        raise Uncounted(f"{valgrind} cannot be run: {error.strerror}") from error
    found = re.search(r"^==\d+== Collected : (\d+)$", done.stderr, re.MULTILINE)
    if done.returncode not in statuses or found is None:
        raise Uncounted(f"{' '.join(words)} under {valgrind} ended with status {done.returncode}: {done.stderr[-300:]}")
    return int(found[1]) / 1e6


def slowness(take: "Callable[[str], float]") -> float:
    """Returns how many times slower than the stated machine this one is: at least once, and at most five times, so that
    a program that is slow at everything is not mistaken for a slow machine. `take` returns the seconds of a check of a
    text."""
    text = module(PLAIN, EVERY)
    return min(max(1.0, min(take(text) for _ in range(TRIES)) / PLAIN_SECONDS), MOST_TIMES)


def quickest(take: Callable[[], Tried], seconds: Callable[[Tried], float], most: float) -> Tried:
    """Returns the try with the least seconds: it is made once, and up to twice more while each takes more than
    `most`."""
    taken: List[Tried] = []
    while len(taken) < TRIES and all(seconds(it) > most for it in taken):
        taken.append(take())
    return min(taken, key=seconds)


def fairest(
    take: Callable[[], Tried], seconds: Callable[[Tried], float], most: float, now: Callable[[], float]
) -> Tuple[Tried, float]:
    """Returns a try and the seconds that it may take. The first may take `most`. While each takes more than it may,
    another is made, up to four more, which may take what `now` tells right after it, if that is more than `most`: the
    speed of a machine may change between two texts. Of several the one that takes the least part of its seconds is
    returned."""
    tries = [(take(), most)]
    while len(tries) < FAIR_TRIES and all(seconds(it) > bound for it, bound in tries):
        tries.append((take(), max(most, now())))
    return min(tries, key=lambda it: seconds(it[0]) / it[1])


def show_instructions(
    valgrind: str, text: str, program: str, python: Optional[str], file: Path
) -> Tuple[float, float]:
    """Prints how many instructions a check of a module takes, and the compile by a Python if one is given. Returns
    those of the check, and the MiB that it held."""
    file.write_text(text, encoding="utf-8")
    held = least({"pycheck": [program, str(file)]}, 1)["pycheck"][1]
    checked = instructions(valgrind, [program, str(file)])
    shown = [f"{len(text):,}", f"{text.count(chr(10)):,}", f"{checked:.2f}", f"{1e6 * checked / len(text):.0f}", f"{held:.0f}"]
    if python:
        codes = (COMPILE.format(file=str(file)), "")
        compiled, started = (instructions(valgrind, [python, "-I", "-S", "-c", code]) for code in codes)
        shown.append(f"{compiled - started:.1f} ({checked / (compiled - started):.2f})")
    print(f"| {' | '.join(shown)} |", flush=True)
    return checked, held


def show_all_instructions(valgrind: str, program: str, python: Optional[str], folder: Path) -> int:
    """Prints the instructions for each length, and those over their bound. Returns the exit status."""
    columns = ["bytes", "lines", "millions of instructions", "instructions for each byte", "MiB"]
    columns += ["compile, in millions"] if python else []
    print(f"| {' | '.join(columns)} |\n|{'---|' * len(columns)}", flush=True)
    over = []
    for length, parts, most in COUNTED:
        text = module(length, parts)
        checked, held = show_instructions(valgrind, text, program, python, folder / f"speed_{len(text)}.py")
        # A module is some bytes longer than it has to be.
        if most is not None and checked * length / len(text) > most:
            over.append(f"{len(text):,} bytes: over {most} million instructions for {length:,} bytes")
        if held > HELD:
            over.append(f"{len(text):,} bytes: over {HELD} MiB")
    print("".join(f"{it}\n" for it in over), end="")
    return 1 if over else 0


def asked_of(words: List[str]) -> argparse.Namespace:
    """Returns the parsed words."""
    parser = Words("tools/measure speed", __doc__)
    parser.add_argument("program")
    parser.add_argument("--runs", type=int, default=7)
    parser.add_argument("--python")
    parser.add_argument("--keep", type=Path)
    parser.add_argument("--server")
    parser.add_argument("--instructions")
    asked = parser.parse_args(words)
    asked.program, asked.server = os.path.abspath(asked.program), asked.server and os.path.abspath(asked.server)
    return asked


def show_all(asked: argparse.Namespace, folder: Path) -> None:
    """Prints the cost of the commands on each module, which is left in the folder."""
    own = resource.getrusage(resource.RUSAGE_SELF).ru_maxrss / 1024
    print(f"Milliseconds of processor time, the least of {asked.runs} runs; in brackets, pycheck's part of it."
          f" Memory is told from {own:.0f} MiB.")
    print("| bytes | lines | pycheck | MiB | python | python -I -S | compile alone |\n|---|---|---|---|---|---|---|")
    for length, parts in ((0, SOME), *((length, EVERY) for length in LENGTHS)):
        text = module(length, parts)
        show(text, asked.program, asked.python or sys.executable, asked.runs, folder / f"speed_{len(text)}.py")
    if asked.server:
        show_session(asked.server, asked.runs)


def main(words: List[str]) -> int:
    """Measures what the words ask for, and returns the exit status."""
    asked = asked_of(words)
    with tempfile.TemporaryDirectory() as folder:
        kept = asked.keep or Path(folder)
        if asked.instructions is None:
            show_all(asked, kept)
            return 0
        try:
            return show_all_instructions(asked.instructions, asked.program, asked.python, kept)
        except Uncounted as why:
            sys.exit(f"tools/measure speed: {why}")
