"""Compares what pycheck and Python's own parser take of many texts.

    tools/compare texts PYCHECK [--made N] [--seed WORD] [--tables SHARE] [--reasons FILE] [FILE..]

asks pycheck, and `ast.parse` and `tokenize` of the python3 that runs this script, whether they take a text: each FILE, or
without one each of examples/ and of the modules of the tables of crates/test_tables/data/texts (with `--tables` every so
many), and `--made` N texts of the grammar, made by the generator of tools/attack fuzz, and N that nearly fit: those with tokens, bytes or their ends changed.
The same WORD, which is 1 without one, makes the same texts.

Python must take all that pycheck takes. Of what pycheck refuses, Python may take only what docs/PROFILE.md leaves out: each
such refusal must have a reason in FILE, tests/python_texts/reasons.json: a code, a pattern of what stands at its byte, and words
of docs/PROFILE.md or docs/LEXICAL.md. A reason that no text needs, and one whose words no page has, are wrong too. Refusals of
the code G1 are counted alone: `tools/compare trees` judges those. The tool prints each text that has none, and each such reason,
and last how many texts there were. Status 1 where something is wrong, 3 after a mistake in the words.
"""
from __future__ import annotations

import ast
import collections
import io
import json
import os
import random
import re
import subprocess
import sys
import tempfile
import tokenize
import warnings
from pathlib import Path
from typing import IO, Counter, Iterable, Iterator, List, Optional, Tuple, Union

from .. import ROOT
from ..attack import fuzz
from ..words import Words

# A name, and the bytes of a text
Named = Tuple[str, bytes]
# A code and a byte
Refusal = Tuple[str, int]

TABLES = ROOT / "crates/test_tables/data/texts"
REASONS = ROOT / "tests/python_texts/reasons.json"
PAGES = ROOT / "docs/PROFILE.md", ROOT / "docs/LEXICAL.md"
HEADER = "from __future__ import annotations\n"
CLASS = HEADER + "from dataclasses import dataclass\n"
END = "\nmain()\n"
FRAMES = {"WHOLE": ("", ""), "TEXT": ("", END), "ITEM": (HEADER, END), "LAST_LINE": (HEADER + "def main():\n    pass\n", ""),
          "PARAMETERS": (HEADER + "def f(", "):\n    pass" + END), "DEFAULT": (HEADER + "def f(x=", "):\n    pass" + END),
          "DECORATED": (CLASS, END), "CLASS": (CLASS + "@dataclass\n", END), "ANNOTATION": (HEADER + "x: ", " = 1" + END),
          "MEMBER": (CLASS + "@dataclass\nclass A:\n    ", END), "STATEMENT": (HEADER + "def main():\n    ", END),
          "EXPRESSION": (HEADER + "def main():\n    return ", END)}
LONGEST = 20000
# The one error of a report for which Python's parser has a SyntaxError: a parameter without a default after one with a default
ERROR = "E31"


def written_out(row: str) -> str:
    """Returns the text of a row, with its repeated parts written out, as crates/test_rows does."""
    def repeated(found: "re.Match[str]") -> str:
        times, _, part = found[1].partition("×")
        if ".." not in times:
            return part * int(times)
        first, last = map(int, times.split(".."))
        return "".join(part.replace("#", str(at)).replace("♭", str(at - 1)) for at in range(first, last))
    return re.sub("⟨(.*?)⟩", repeated, row, flags=re.DOTALL)


def rows_of(table: str) -> Iterator[Tuple[Tuple[str, str], str]]:
    """Yields the frame and the text of each row of a table."""
    frame = FRAMES["WHOLE"]
    lines: List[str] = []
    for line in table.split("\n"):
        text, mark, _ = line.partition("  ⇒ ")
        if line.startswith("§ "):
            frame, lines = FRAMES.get(line[2:].partition(":")[0], FRAMES["WHOLE"]), []
        else:
            lines.append(text if mark else line)
            if mark:
                yield frame, written_out("\n".join(lines))
                lines = []


def written_texts(each: int) -> Iterator[Named]:
    """Yields the name and the bytes of each text of examples/, and of one in `each` of the tables."""
    for file in sorted((ROOT / "examples").rglob("*.py")):
        yield file.name, file.read_bytes()
    for file in sorted(TABLES.glob("*.modules")):
        body = file.read_text(encoding="utf-8").partition("\n\n")[2]
        for at, ((before, after), row) in enumerate(rows_of(body)):
            if at % each == 0 and len(row) < LONGEST:
                yield f"{file.name} {at + 1}", (before + row + after).encode()


def made_texts(seed: str, number: int) -> Iterator[Named]:
    """Yields texts of the generator of tools/attack fuzz, each as it is and broken."""
    for at in range(number):
        rng = random.Random(f"texts {seed}/{at}")
        text = fuzz.made_module(rng)
        yield f"made {seed}/{at}", text.encode()
        yield f"broken {seed}/{at}", fuzz.broken(text.encode(), rng)


def refusal_of(pycheck: str, data: bytes, room: "IO[bytes]") -> Union[None, str, Refusal]:
    """Returns the code and the byte of a refusal, None if pycheck accepts the text, or the error that Python
    refuses."""
    room.seek(0)
    room.truncate()
    room.write(data)
    room.flush()
    done = subprocess.run([pycheck, room.name], capture_output=True, text=True)
    if done.returncode in (0, 1):
        return ERROR if f" {ERROR} " in done.stdout else None
    found = re.fullmatch(r"refused (\w\d) at byte (\d+)\n", done.stderr)
    if not found:
        raise SystemExit(f"compare texts: status {done.returncode}, {done.stderr!r}")
    return found[1], int(found[2])


def fault_of_python(data: bytes) -> Optional[str]:
    """Returns why Python does not accept a text, or None if it does."""
    try:
        ast.parse(data)
        for _ in tokenize.tokenize(io.BytesIO(data).readline):
            pass
    except (SyntaxError, ValueError, tokenize.TokenError, RecursionError, MemoryError) as fault:
        return f"{type(fault).__name__}: {fault}"
    return None


class Reasons:
    """The list of reasons, and how often each was needed."""

    def __init__(self, file: Path, page: str) -> None:
        self.rows = json.loads(Path(file).read_text(encoding="utf-8"))
        self.page = " ".join(page.split())
        self.needed: Counter[int] = collections.Counter()

    def of(self, code: str, data: bytes, byte: int) -> Optional[int]:
        """Returns the number of the first reason for a refusal, or None."""
        rest, before = data[byte:].decode(errors="replace"), data[:byte].decode(errors="replace")
        for at, row in enumerate(self.rows):
            if row["code"] == code and re.match(row["at"], rest, re.DOTALL) and re.search(row.get("behind", "") + r"\Z", before, re.DOTALL):
                self.needed[at] += 1
                return at
        return None

    def faults(self) -> Iterator[str]:
        """Yields the faults of the list itself."""
        for at, row in enumerate(self.rows):
            if row["page"] not in self.page:
                yield f"no page has {row['page']!r}, which a reason for {row['code']} cites"
            if not self.needed[at]:
                yield f"no text needs the reason {row['code']} at {row['at']!r}"


def compare(pycheck: str, texts: Iterable[Named], reasons: Reasons) -> bool:
    """Compares the answers to each text, and prints the faults. Returns whether there are none."""
    counts: Counter[str] = collections.Counter()
    with tempfile.NamedTemporaryFile(suffix=".py") as room:
        for name, data in texts:
            answered, fault = refusal_of(pycheck, data, room), fault_of_python(data)
            if answered == ERROR and fault:
                counts["with E31, which Python refuses"] += 1
                continue
            refused = None if isinstance(answered, str) else answered
            counts["taken" if refused is None else "refused by pycheck alone" if fault is None else "refused by both"] += 1
            said = ""
            if refused is None and fault:
                said = f"pycheck takes it, and Python says {fault}"
            elif refused and fault is None and refused[0] == "G1":
                counts["refused by pycheck alone with G1, not judged"] += 1
            elif refused and fault is None and reasons.of(refused[0], data, refused[1]) is None:
                at = refused[1]
                said = f"Python takes it, and pycheck refuses {refused[0]} at byte {at}: {data[max(0, at - 30):at]!r} {data[at:at + 30]!r}"
            if said:
                counts["without a reason"] += 1
                print(f"{name}: {said}")
                print(data.decode(errors="backslashreplace") if len(data) < 400 else repr(data[:60]))
    faults = list(reasons.faults())
    print("".join(fault + "\n" for fault in faults), end="")
    kinds = ("taken", "refused by both", "refused by pycheck alone", "without a reason", "with E31, which Python refuses",
             "refused by pycheck alone with G1, not judged")
    print(f"{sum(counts[kinds[at]] for at in (0, 1, 2, 4))} texts; " + ", ".join(f"{kind} {counts[kind]}" for kind in kinds))
    return counts["taken"] > 0 and counts[kinds[4]] > 0 and not counts["without a reason"] and not faults


def main(words: List[str]) -> int:
    """Compares the texts that the words name, and returns the exit status."""
    parser = Words("tools/compare texts", __doc__)
    parser.add_argument("pycheck")
    parser.add_argument("--made", type=int, default=0)
    parser.add_argument("--seed", default="1")
    parser.add_argument("--tables", type=int, default=1)
    parser.add_argument("--reasons", type=Path, default=REASONS)
    parser.add_argument("files", nargs="*", type=Path)
    given = parser.parse_intermixed_args(words)
    if not os.access(given.pycheck, os.X_OK):
        print(f"compare texts: there is no program {given.pycheck}", file=sys.stderr)
        return 3
    warnings.simplefilter("ignore")
    texts = [(file.name, file.read_bytes()) for file in given.files] or list(written_texts(given.tables))
    texts += made_texts(given.seed, given.made)
    reasons = Reasons(given.reasons, " ".join(page.read_text(encoding="utf-8") for page in PAGES))
    return 0 if compare(given.pycheck, texts, reasons) else 1
