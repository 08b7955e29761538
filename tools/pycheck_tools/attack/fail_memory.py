"""Makes each request for memory of pycheck fail in turn, and compares what it answers.

    tools/attack fail_memory ROWS.json [--numbers A-B] [NAME..]
    tools/attack fail_memory --native PYCHECK [--run PYRUN] ROWS.json [--numbers A-B] [NAME..]

takes from ROWS.json, or from a folder of modules in its place (see tools/compare rows), each row that has an answer, or
the named ones. In turn for N from 1 on the Nth request for memory fails, and each row's module is checked: the answer
must be the row's, or status 3 with nothing on standard output and `out of memory` on standard error. It goes on until no request failed in any of the rows, or to B, and asks with ample memory too.

The first way runs the program by `rt try --fail-alloc N --cases`, which compiles the sources with checks and needs the
Rattle toolchain on PATH; it stands in the folder of this repository and compiles anew for each N, one to three minutes
each, so give it few numbers. There a failure shows in the answer alone: a sweep ends where three numbers in a row
brought no answer with status 3.

The second way takes a built program that takes its memory from the C library (for ./pycheck and ./pyrun the programs
that these have built), and puts before it a library that counts and refuses; it needs the C compiler `cc`, and takes a
few milliseconds for each N and row. After each request that failed it asks once more with ample memory, and the answer
must be the row's. It asks for each form of the report that the row has, and with `--run` also for the run of each
module by `pyrun --fuel 1000`, whose answer is to be the one with ample memory. What asks more than 6,000 times has the
first 4,000 numbers tried and then 2,000 that are spread over the rest.

Prints each answer that is another one, and last how many numbers there were and how many answers agree. The exit status
is 1 where one is another one, and where nothing was compared.
"""
from __future__ import annotations

import os
import re
import subprocess
import sys
import tempfile
from pathlib import Path
from typing import Callable, Dict, Iterable, Iterator, List, NamedTuple, Optional, Sequence, Tuple

from .. import ROOT
from ..compare import rows as examples
from ..words import Words


# The words that ask for format one, in which every row with an answer has a report
FORM = ["--format", "1"]
RUN = ["--fuel", "1000"]
ALL_OF, SPREAD = 6000, 2000
QUIET = 3

# The complete message of each program on standard error when memory runs out
MEMORY = "out of memory\n"

# The library that is loaded before a program. In place of the program's one start there is one for each number that the
# variable FAIL_MEMORY_NUMBERS lists, each in a process of its own, in which the request of that number fails (0 means
# none). Each reads the file FAIL_MEMORY_INPUT on standard input, if that is set. The end of each, the number of its
# requests and its output are written to the file FAIL_MEMORY_ANSWERS.
COUNTER = r"""
#define _GNU_SOURCE
#include <dlfcn.h>
#include <fcntl.h>
#include <stdio.h>
#include <stdlib.h>
#include <sys/mman.h>
#include <sys/wait.h>
#include <unistd.h>

enum { SECONDS = 300, FAILED = 99 };

static unsigned long *asked, wanted;
static void *(*real_malloc)(size_t);
static void *(*real_realloc)(void *, size_t);

static void give(FILE *to, int from, long length) {
  char part[1 << 16];
  lseek(from, 0, SEEK_SET);
  while (length > 0) {
    ssize_t got = read(from, part, sizeof part);
    if (got <= 0 || fwrite(part, 1, got, to) != (size_t)got) _exit(FAILED);
    length -= got;
  }
}

static void read_from(const char *file) {
  int from = open(file, O_RDONLY);
  if (from < 0 || dup2(from, 0) < 0) _exit(FAILED);
  close(from);
}

static int is_program(unsigned long number, int out, int said) {
  const char *input = getenv("FAIL_MEMORY_INPUT");
  pid_t process;
  *asked = 0;
  if (ftruncate(out, 0) || ftruncate(said, 0)) _exit(FAILED);
  lseek(out, 0, SEEK_SET);
  lseek(said, 0, SEEK_SET);
  process = fork();
  if (process < 0) _exit(FAILED);
  if (process == 0) {
    wanted = number;
    alarm(SECONDS);
    if (input) read_from(input);
    if (dup2(out, 1) < 0 || dup2(said, 2) < 0) _exit(FAILED);
    close(out);
    close(said);
    return 1;
  }
  return 0;
}

static void tell(FILE *answers, unsigned long number, int out, int said) {
  int status = 0;
  long printed, told;
  if (wait(&status) < 0) _exit(FAILED);
  printed = lseek(out, 0, SEEK_END);
  told = lseek(said, 0, SEEK_END);
  status = WIFEXITED(status) ? WEXITSTATUS(status) : -WTERMSIG(status);
  fprintf(answers, "%lu %d %lu %ld %ld\n", number, status, *asked, printed, told);
  give(answers, out, printed);
  give(answers, said, told);
}

__attribute__((constructor)) static void begin(void) {
  char *numbers = getenv("FAIL_MEMORY_NUMBERS"), *end;
  const char *file = getenv("FAIL_MEMORY_ANSWERS");
  FILE *answers = file ? fopen(file, "wbe") : 0;
  int out = memfd_create("out", MFD_CLOEXEC), said = memfd_create("said", MFD_CLOEXEC);
  real_malloc = dlsym(RTLD_NEXT, "malloc");
  real_realloc = dlsym(RTLD_NEXT, "realloc");
  asked = mmap(0, sizeof *asked, PROT_READ | PROT_WRITE, MAP_SHARED | MAP_ANONYMOUS, -1, 0);
  if (!numbers || !answers || out < 0 || said < 0 || asked == MAP_FAILED) _exit(FAILED);
  for (;; numbers = end) {
    unsigned long number = strtoul(numbers, &end, 10);
    if (end == numbers) break;
    fflush(answers);
    if (is_program(number, out, said)) return;
    tell(answers, number, out, said);
  }
  _exit(fclose(answers) ? FAILED : 0);
}

void *malloc(size_t size) {
  if (!real_malloc) real_malloc = dlsym(RTLD_NEXT, "malloc");
  return asked && ++*asked == wanted ? 0 : real_malloc(size);
}

void *realloc(void *old, size_t size) {
  if (!real_realloc) real_realloc = dlsym(RTLD_NEXT, "realloc");
  return asked && ++*asked == wanted ? 0 : real_realloc(old, size);
}
"""


# A status, standard output and standard error
Answer = Tuple[int, str, str]
# A name, the bytes, and the answer
Row = Tuple[str, bytes, Answer]


def rows_of(file: str, names: Sequence[str]) -> List[Row]:
    """Returns the rows that have an answer, or the named ones of these, with the answer in format one."""
    found = examples.examples_of_folder(file) if os.path.isdir(file) else examples.examples_of_rows(file)
    return [(name, data, want) for name, data, want in found if want and (not names or name in names)]


def forms_of(file: str, names: Sequence[str]) -> List[Tuple[str, bytes, List[str], Answer]]:
    """Returns the rows that have an answer, or the named ones of these, in each form that they have, with the words of
    the form."""
    found = examples.forms_of_folder(file) if os.path.isdir(file) else examples.forms_of_rows(file)
    return [(name, data, words, want) for name, data, words, want in found if want and (not names or name in names)]


def is_wanting(got: Answer) -> bool:
    """Whether the answer is that memory ran out."""
    return got == (QUIET, "", MEMORY)


class Tally:
    """Counts the answers that agree, those of them that report a lack of memory, and those that differ."""

    def __init__(self) -> None:
        self.agree = self.differ = self.refused = 0

    def take(
        self, name: str, number: int, got: Answer, want: Optional[Answer], wanting: Callable[[Answer], bool]
    ) -> None:
        """Compares the answer when the request of that number fails: it must be the row's, or that memory ran out."""
        wants = got != want and wanting(got)
        if got == want or wants:
            self.agree += 1
            self.refused += wants
        else:
            self.tell(f"{name}, request {number} fails: wanted {want}, answered {got}")

    def take_plain(self, name: str, when: str, got: Answer, want: Optional[Answer]) -> None:
        """Compares the answer when no request fails."""
        if got == want:
            self.agree += 1
        else:
            self.tell(f"{name}, {when}: wanted {want}, answered {got}")

    def tell(self, fault: str) -> None:
        """Counts and prints a fault."""
        self.differ += 1
        print(fault[:600], flush=True)


# With a library that counts and refuses

def built_program(program: str) -> str:
    """Returns the program that a script of this repository has built and runs, or the program itself."""
    with open(program, "rb") as file:
        is_script = file.read(2) == b"#!"
    name = os.path.basename(program)
    return str(ROOT / "crates" / name / "out" / name) if is_script else os.path.abspath(program)


def built_counter(folder: str) -> str:
    """Compiles the library into a file in the folder, and returns the path."""
    source, made = Path(folder) / "counter.c", Path(folder) / "counter.so"
    source.write_text(COUNTER)
    subprocess.run(["cc", "-O1", "-shared", "-fPIC", "-o", str(made), str(source), "-ldl"], check=True)
    return str(made)


def read_answers(data: bytes) -> Iterable[Tuple[int, Answer, int]]:
    """Reads the records of the library. Yields for each start the failing request, the answer, and the number of
    requests."""
    at = 0
    while at < len(data):
        end = data.index(b"\n", at)
        number, status, asked, printed, told = map(int, data[at:end].split())
        out, at = data[end + 1 : end + 1 + printed], end + 1 + printed + told
        yield number, (status, out.decode(errors="replace"), data[at - told : at].decode(errors="replace")), asked


class Failing:
    """Programs that are started in a folder, with one of their requests for memory failing."""

    def __init__(self, folder: str) -> None:
        self.folder, self.counter, self.told = Path(folder), built_counter(folder), Path(folder) / "answers"

    def answers(self, words: Sequence[str], numbers: Iterable[int], read: str = "") -> List[Tuple[int, Answer, int]]:
        """Returns the answers to a command, one for each number: that request fails, or none for 0. The command reads
        the named file."""
        listed = " ".join(map(str, numbers))
        asks = {"FAIL_MEMORY_NUMBERS": listed, "FAIL_MEMORY_ANSWERS": str(self.told), "LD_PRELOAD": self.counter}
        if read:
            asks["FAIL_MEMORY_INPUT"] = str(self.folder / read)
        self.told.write_bytes(b"")
        done = subprocess.run(words, cwd=self.folder, env={**os.environ, **asks}, stdin=subprocess.DEVNULL)
        found = list(read_answers(self.told.read_bytes()))
        if done.returncode != 0 or [number for number, _, _ in found] != [int(each) for each in listed.split()]:
            sys.exit(f"fail_memory: {words[0]} was not started for each request: status {done.returncode},"
                     f" {len(found)} answers. A program that is linked statically cannot be tried so")
        return found


def numbers_up_to(asked: int, span: Optional[Tuple[int, int]]) -> Sequence[int]:
    """Returns the numbers of the requests to be tried, out of `asked` requests."""
    first, last = span or (1, asked)
    last = min(last, asked)
    if span or last <= ALL_OF:
        return range(first, last + 1)
    rest = last - (ALL_OF - SPREAD)
    spread = (ALL_OF - SPREAD + 1 + rest * at // SPREAD for at in range(SPREAD))
    return [*range(1, ALL_OF - SPREAD + 1), *spread, last]


class Command(NamedTuple):
    """A command to run: its name, its bytes, the words, a test for the answer that memory ran out, and the expected
    answer; a run has none. The bytes are in a file that the words name last, or that is read on standard input."""
    name: str
    data: bytes
    words: Sequence[str]
    wanting: Callable[[Answer], bool]
    want: Optional[Answer]
    file: str = "module.py"
    is_read: bool = False


def commands_of(pycheck: str, pyrun: str, file: str, names: Sequence[str]) -> Iterator[Command]:
    """Yields the commands for the rows of a file or of a folder."""
    for name, data, words, want in forms_of(file, names):
        yield Command(" ".join([name, *words]), data, [pycheck, *words], is_wanting, want)
    for name, data, _ in rows_of(file, names) if pyrun else []:
        yield Command(f"{name}, run", data, [pyrun, *RUN], is_wanting, None)


class Sweep:
    """Runs one command after another, each with every request failing in turn, and again with ample memory each
    time."""

    def __init__(self, folder: str, span: Optional[Tuple[int, int]] = None) -> None:
        self.failing, self.span = Failing(folder), span
        self.tally, self.most, self.commands, self.tried = Tally(), 0, 0, 0

    def take(self, asked: Command) -> str:
        """Tries one command, and returns a line about it."""
        file, words = self.failing.folder / asked.file, [*asked.words, *([] if asked.is_read else [asked.file])]
        read = asked.file if asked.is_read else ""
        file.parent.mkdir(exist_ok=True)
        file.write_bytes(asked.data)
        (_, got, count), = self.failing.answers(words, [0], read)
        want = got if asked.want is None and got[0] in (0, 2) else asked.want
        self.tally.take_plain(asked.name, "with ample memory", got, want)
        numbers, before = numbers_up_to(count, self.span), self.tally.refused
        for number, got, _ in self.failing.answers(words, [each for number in numbers for each in (number, 0)], read):
            if number:
                self.tally.take(asked.name, number, got, want, asked.wanting)
            else:
                self.tally.take_plain(asked.name, "asked again", got, want)
        refused = self.tally.refused - before
        if not refused and not self.span:
            self.tally.tell(f"{asked.name}: no request of {count} was answered by the want of memory")
        self.most, self.commands, self.tried = max(self.most, count), self.commands + 1, self.tried + len(numbers)
        return f"{asked.name}: {count} requests, {len(numbers)} tried, {refused} answered that memory is wanting"


def sweep_natively(commands: Iterable[Command], span: Optional[Tuple[int, int]]) -> int:
    """Tries all commands, and returns the exit status."""
    with tempfile.TemporaryDirectory() as folder:
        sweep = Sweep(folder, span)
        for command in commands:
            print(sweep.take(command), flush=True)
    tally = sweep.tally
    print(f"{sweep.commands} commands, at most {sweep.most} requests, {sweep.tried} made to fail,"
          f" {tally.agree} answers agree, {tally.differ} differ")
    return 1 if tally.differ or not sweep.tried else 0


# With `rt try`

CASE = re.compile(r"(?P<said>(?:.*\n)*?)case=(?P<name>\S+) run=(?P<run>\S+) status=(?P<status>\S+) .*\n")


def tried_answers(folder: str, number: int) -> Dict[str, Answer]:
    """Returns the answer of `rt try` for each file of the folder when that request fails."""
    fails = ["--fail-alloc", str(number)] if number else []
    words = ["rt", "try", "pycheck", *fails, "--cases", folder, "--", *FORM, "{}"]
    done = subprocess.run(words, cwd=ROOT / "crates/pycheck", stdin=subprocess.DEVNULL, capture_output=True, text=True,
                          errors="replace")
    printed = re.split(r"^== (\S+)\n", done.stdout, flags=re.M)
    outputs = dict(zip(printed[1::2], printed[2::2]))
    answers: Dict[str, Answer] = {}
    for case in CASE.finditer(done.stderr):
        said = "".join(line for line in case["said"].splitlines(keepends=True) if not line.startswith("allocations:"))
        status = int(case["status"]) if case["run"] == "ended" and case["status"].isdigit() else -1
        answers[case["name"]] = status, outputs.get(case["name"], ""), said
    if not answers:
        sys.exit(f"fail_memory: rt try told nothing of the rows:\n{done.stderr[-2000:]}")
    return answers


def sweep_by_try(rows: List[Row], span: Optional[Tuple[int, int]]) -> int:
    """Tries all rows with `rt try`, and returns the exit status."""
    tally, number, quiet = Tally(), span[0] if span else 1, 0
    with tempfile.TemporaryDirectory() as folder:
        for name, data, _ in rows:
            (Path(folder) / name).write_bytes(data)
        while quiet < QUIET and not (span and number > span[1]):
            answers, before = tried_answers(folder, number), tally.refused
            for name, _, want in rows:
                tally.take(name, number, answers.get(name, (-1, "", "no answer")), want, is_wanting)
            quiet = quiet + 1 if tally.refused == before else 0
            refused = tally.refused - before
            print(f"request {number}: {refused} of {len(rows)} rows answered that memory is wanting", flush=True)
            number += 1
        answers = tried_answers(folder, 0)
    for name, _, want in rows:
        if answers.get(name) != want:
            tally.differ += 1
            print(f"{name}: with ample memory, wanted {want}, answered {answers.get(name)}"[:600])
    print(f"{len(rows)} rows, to request {number - 1}, {tally.agree} answers agree, {tally.differ} differ")
    return 1 if tally.differ or not rows else 0


def span_of(word: str) -> Tuple[int, int]:
    """Returns the first and the last of the numbers `A-B`, or of A alone."""
    first, _, last = word.partition("-")
    return int(first), int(last or first)


def main(words: List[str]) -> int:
    """Tries the rows that the words name, and returns the exit status."""
    parser = Words("tools/attack fail_memory", __doc__)
    parser.add_argument("--native", default="")
    parser.add_argument("--run", default="")
    parser.add_argument("--numbers", type=span_of)
    parser.add_argument("file")
    parser.add_argument("names", nargs="*")
    asked = parser.parse_intermixed_args(words)
    if asked.run and not asked.native:
        parser.error("--run is for a sweep with --native")
    if asked.native:
        pycheck, pyrun = (program and built_program(program) for program in (asked.native, asked.run))
        return sweep_natively(commands_of(pycheck, pyrun, asked.file, asked.names), asked.numbers)
    return sweep_by_try(rows_of(asked.file, asked.names), asked.numbers)
