"""Compares what pycheck answers with worked examples.

    tools/compare rows PYCHECK ROWS.json
    tools/compare rows PYCHECK FOLDER

ROWS.json holds a list `rows`, each with a `name`, an `input` (`text`, `hex`, or `parts`: texts, repetitions and counts that
are put together) and answers under `check`: `refused`, a code and a byte, or the report with `status`: `text` and `json` in format
one, `text2` and `json2` in format two, each of which is compared where it is given. Of several answers the one counts that holds at
the last step. A FOLDER and the folders below it hold modules NAME.py, each beside its
report in NAME.txt, where there is one.

Prints each example that is answered otherwise, or has no answer to compare with, and last how many agree, how many differ and, if
there are any, how many have none. The exit status is 1 where one differs or has no answer, and where nothing was compared.
"""
from __future__ import annotations

import json
import os
import re
import subprocess
import tempfile
from typing import Any, Dict, Iterable, Iterator, List, Optional, Sequence, Tuple

from ..words import Words

# A row, a part of its input, or an answer, as JSON has it
Data = Dict[str, Any]
# An exit status, what is printed, and what is printed as an error
Answer = Tuple[int, str, str]
# A name, the bytes, the words of a form, and the expected answer
Form = Tuple[str, bytes, List[str], Optional[Answer]]


def bytes_of_part(part: Data) -> bytes:
    """Returns the bytes of a part of an input."""
    if "text" in part:
        return str(part["text"]).encode()
    if "repeat" in part:
        return (str(part["repeat"]) * int(part["times"])).encode()
    lines = []
    for k in range(part["from"], part["to"] + 1):
        line = part["count"].replace("{spaces}", " " * k)
        lines.append(line.replace("{k}", str(k)).replace("{j}", str(k - 1)))
    return "".join(lines).encode()


def bytes_of(given: Data) -> bytes:
    """Returns the bytes of an input."""
    if "text" in given:
        return str(given["text"]).encode()
    if "hex" in given:
        return bytes.fromhex(given["hex"])
    return b"".join(bytes_of_part(part) for part in given["parts"])


def last_answer(row: Data) -> Optional[Data]:
    """Returns the answer that holds at the last step, if there is one."""
    answers = [answer for answer in row.get("check", []) if "until" not in answer]
    return answers[-1] if answers else None


# The words that ask for each form of a report in a row
FORMS: Dict[str, List[str]] = {"text": ["--format", "1"], "json": ["--json", "--format", "1"], "text2": [], "json2": ["--json"]}


def wanted(answer: Data, form: str = "text") -> Answer:
    """Returns the exit status, the output, and the error output."""
    if "refused" in answer:
        code, byte = answer["refused"]
        return 2, "", f"refused {code} at byte {byte}\n"
    return answer["status"], answer[form], ""


def rows_in(file: str) -> Iterator[Tuple[str, bytes, Optional[Data]]]:
    """Yields the rows, with their bytes and the answer that holds at the last step, or None."""
    with open(file, encoding="utf-8") as given:
        rows = json.load(given)["rows"]
    for row in rows:
        yield row["name"], bytes_of(row["input"]), last_answer(row)


def examples_of_rows(file: str) -> Iterator[Tuple[str, bytes, Optional[Answer]]]:
    """Yields each row with its report as text in format one, or None."""
    for name, text, answer in rows_in(file):
        yield name, text, wanted(answer) if answer else None


def forms_of_rows(file: str) -> Iterator[Form]:
    """Yields each row in each form that it has, or once with None: its name, its bytes, the words of the form, and the
    expected answer."""
    for name, text, answer in rows_in(file):
        forms = [form for form in FORMS if answer and ("refused" in answer or form in answer)]
        for form in forms:
            yield name, text, FORMS[form], wanted(answer or {}, form)
        if not forms:
            yield name, text, [], None


def report_beside(file: str) -> Optional[Answer]:
    """Returns the answer in the file beside a module, if there is one."""
    try:
        with open(file[: -len(".py")] + ".txt") as report:
            text = report.read()
    except FileNotFoundError:
        return None
    if text.startswith("refused "):
        return 2, "", text
    return (0 if text.rsplit("\n", 2)[-2].startswith("errors 0,") else 1), text, ""


def modules_in(folder: str) -> Iterator[str]:
    """Yields the modules in a folder and in those below it."""
    for at, _, names in os.walk(folder):
        for name in names:
            if name.endswith(".py"):
                yield os.path.join(at, name)


def in_format_one(text: str) -> str:
    """Returns a report without the types of its flows."""
    return re.sub(r"( A1 any-flow) .*", r"\1", text)


def modules_with_reports(folder: str) -> Iterator[Tuple[str, bytes, Optional[Answer]]]:
    """Yields each module with the report beside it, in format two."""
    for file in sorted(modules_in(folder)):
        with open(file, "rb") as module:
            yield os.path.relpath(file, folder), module.read(), report_beside(file)


def examples_of_folder(folder: str) -> Iterator[Tuple[str, bytes, Optional[Answer]]]:
    """Yields each module with its report in format one."""
    for name, text, want in modules_with_reports(folder):
        yield name, text, (want[0], in_format_one(want[1]), want[2]) if want else None


def forms_of_folder(folder: str) -> Iterator[Form]:
    """Yields each module in both formats."""
    for name, text, want in modules_with_reports(folder):
        yield name, text, [], want
        if want is not None:
            yield name, text, FORMS["text"], (want[0], in_format_one(want[1]), want[2])


def answer_of(program: str, text: bytes, words: Sequence[str] = FORMS["text"]) -> Answer:
    """Returns the answer of the program."""
    with tempfile.NamedTemporaryFile(suffix=".py") as file:
        file.write(text)
        file.flush()
        done = subprocess.run([program, *words, file.name], capture_output=True, timeout=120)
    return done.returncode, done.stdout.decode(), done.stderr.decode()


def show(name: str, answers: List[Tuple[str, Answer]]) -> None:
    """Prints answers."""
    print(f"{name}:")
    for word, (status, text, error) in answers:
        print(f"  {word}: status {status}")
        for line in (text + error).splitlines():
            print(f"    {line}")


def compare(program: str, examples: Iterable[Form]) -> int:
    """Compares each example, and returns the exit status."""
    agree = differ = without = 0
    for name, text, words, want in examples:
        got = answer_of(program, text, words)
        if want is None:
            without += 1
            show(name, [("has no answer to compare with; answered", got)])
        elif got == want:
            agree += 1
        else:
            differ += 1
            show(" ".join([name, *words]), [("wanted", want), ("answered", got)])
    print(f"{agree} agree, {differ} differ" + (f", {without} without an answer" if without else ""))
    return 0 if agree and not differ and not without else 1


def main(words: List[str]) -> int:
    """Compares the examples that the words name, and returns the exit status."""
    parser = Words("tools/compare rows", __doc__)
    parser.add_argument("program")
    parser.add_argument("given")
    asked = parser.parse_args(words)
    found = forms_of_folder(asked.given) if os.path.isdir(asked.given) else forms_of_rows(asked.given)
    return compare(asked.program, found)
