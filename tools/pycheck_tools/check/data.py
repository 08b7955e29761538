"""Writes the texts of docs/CODES.md and docs/PROFILE.md as data, which tools/check_all and the page of web/ show.

    tools/check data [--write]

writes tools/pycheck_all/codes.json, an object with a member for each code, in the order of docs/CODES.md:

    title    the title of its entry, which is the label of an error and of a dynamic place
    kind     `refused`, `error` or `dynamic`
    meaning  its meaning in the table of all codes
    run      of an error, the sentence of its paragraph `In a run`, which says whether it is heard, harmless or silent
    mend     one sentence that says how to mend it: the first of the paragraph `Instead` or `To make it static`
    entry    the whole entry, in Markdown, without its heading

and tools/pycheck_all/left_out.json, a list with an object for each form that docs/PROFILE.md says is left out and
refused, in the order of its tables:

    form     the form, as the first column has it
    codes    the codes of the second column
    write    the third column: what to write instead

and tools/pycheck_all/cases.json, a list with an object for each row of the table of docs/CODES.md that has other advice
for some words at the place of an error, or for some forms of the sentence of its detail:

    code     the code
    words    the words; none for all places
    detail   the form of the sentence; empty for all sentences
    write    what is said there

and web/texts.json, an object with what the page shows:

    codes     for each code its entry of codes.json, without the member `entry`
    cases     the rows of cases.json
    forms     those of left_out.json
    examples  the modules of examples/ by name, those of the folder itself first

The first three files are in the package that a wheel contains. Without `--write` it only compares, prints a line for each
file that differs, and the exit status is then 1. It also reports a page without such forms, and a form that is listed
twice. A code without a title, a kind, a meaning or a sentence that mends it is reported, and so is an error that does not
say what it is in a run, in the form of the others; the exit status is 1 in these cases too.
"""
from __future__ import annotations

import argparse
import json
import re
from typing import Any, Dict, Iterator, List, Tuple

from .. import ROOT

PAGE = ROOT / "docs" / "CODES.md"
DATA = ROOT / "tools" / "pycheck_all" / "codes.json"
PROFILE = ROOT / "docs" / "PROFILE.md"
LEFT_OUT = ROOT / "tools" / "pycheck_all" / "left_out.json"
HEADING = re.compile(r"### ([SLINGEA]\d+) (.+)")
ROW = re.compile(r"\| \[([SLINGEA]\d+)\]\([^)]*\) \| [^|]+ \| (.+) \|")
MENDING = re.compile(r"^\*\*(?:Instead|To make it static):\*\* (.+?)(?:\n\n|\Z)", re.MULTILINE | re.DOTALL)
RUN = re.compile(r"^\*\*In a run:\*\* (This error is [^.]+\.)\n\n", re.MULTILINE)
BEING = re.compile(r"This error is (?:heard|harmless|silent)(?: (?:at|where) .+, and heard(?: (?:at|where) .+| elsewhere))?\.")
FORMS = re.compile(r"^\| Python \| Answer \| Write \|\n\|[-|]+\n((?:\|.*\n)+)", re.MULTILINE)
CASES = ROOT / "tools" / "pycheck_all" / "cases.json"
EXAMPLES = ROOT / "examples"
WEB = ROOT / "web" / "texts.json"
WORDS = re.compile(r"^\| Code \| Words \| Detail \| Advice \|\n\|[-|]+\n((?:\|.*\n)+)", re.MULTILINE)
WORD = re.compile(r"`(\w+(?: \w+)?)`")
CELLS = re.compile(r"(?<!\\)\|")
REFUSAL = re.compile(r"`([SLING]\d+)`")
SENTENCE = re.compile(r"(?:[^`.]|`[^`]*`|\.(?!\s|\Z))+\.(?=\s|\Z)")
KINDS = {"E": "error", "A": "dynamic"}


def entries_of(page: str) -> Iterator[Tuple[str, str, str]]:
    """Yields the entries: the code, the title and the text of each."""
    heads = [(found.start(), found) for found in re.finditer(r"^#{2,3} .*$", page, re.MULTILINE)]
    ends = [at for at, _ in heads[1:]] + [len(page)]
    for (_, found), end in zip(heads, ends):
        named = HEADING.fullmatch(found[0])
        if named:
            yield named[1], named[2], page[found.end() : end].strip() + "\n"


def left_out_of(page: str) -> Iterator[Dict[str, Any]]:
    """Yields the forms that the page lists as left out and refused."""
    for table in FORMS.findall(page):
        for line in table.splitlines():
            form, answer, write = (cell.strip().replace("\\|", "|") for cell in CELLS.split(line)[1:-1])
            codes = list(dict.fromkeys(REFUSAL.findall(answer)))
            if codes:
                yield {"form": form, "codes": codes, "write": write}


def cases_of(page: str) -> Iterator[Dict[str, Any]]:
    """Yields the rows about words at a place that tell more than the code."""
    for table in WORDS.findall(page):
        for line in table.splitlines():
            code, words, detail, write = (cell.strip().replace("\\|", "|") for cell in CELLS.split(line)[1:-1])
            yield {"code": code.strip("`"), "words": WORD.findall(words), "detail": detail.strip("`"), "write": write}


def run_of(code: str, entry: str) -> str:
    """Returns the sentence that says what an error is in a run; empty if the entry has none of that form, and for other
    codes."""
    found = RUN.search(entry) if KINDS.get(code[0]) == "error" else None
    return found[1] if found and BEING.fullmatch(found[1]) else ""


def texts_of(page: str) -> Dict[str, Dict[str, Any]]:
    """Returns the texts of each code."""
    meanings = {found[1]: found[2] for found in map(ROW.fullmatch, page.splitlines()) if found}
    texts: Dict[str, Dict[str, Any]] = {}
    for code, title, entry in entries_of(page):
        paragraph = MENDING.search(entry)
        sentence = SENTENCE.match(" ".join(paragraph[1].split())) if paragraph else None
        texts[code] = {
            "title": title,
            "kind": KINDS.get(code[0], "refused"),
            "meaning": meanings.get(code, ""),
            "run": run_of(code, entry),
            "mend": sentence[0] if sentence else "",
            "entry": entry,
        }
    return texts


def missing_in(texts: Dict[str, Dict[str, Any]], forms: List[Dict[str, Any]]) -> Iterator[str]:
    """Yields a line for each text that the pages lack."""
    for code, it in texts.items():
        for part in ("title", "kind", "meaning", "mend"):
            if not it[part]:
                yield f"{PAGE.name}: the entry of {code} has no {part}"
    for code, it in texts.items():
        if it["kind"] == "error" and not it["run"]:
            yield f"{PAGE.name}: the entry of {code} has no sentence `In a run`"
    names = [it["form"] for it in forms]
    for name in sorted({name for name in names if names.count(name) > 1}):
        yield f"{PROFILE.name}: {name} stands twice"
    if not texts or not forms:
        yield f"{PROFILE.name if texts else PAGE.name}: there is nothing to write"


def faults_of(cases: List[Dict[str, Any]], texts: Dict[str, Dict[str, Any]]) -> Iterator[str]:
    """Yields the faults of the rows of words."""
    named = [(it["code"], word, it["detail"]) for it in cases for word in it["words"] or [""]]
    for code, word, detail in sorted({it for it in named if named.count(it) > 1}):
        yield f"{PAGE.name}: {word or detail} of {code} stands twice"
    for it in cases:
        tells = it["words"] or it["detail"]
        if it["code"] not in texts or not tells or not it["write"].endswith("."):
            yield f"{PAGE.name}: a row has no code of the page, neither words nor a sentence, or no advice: {it['code']}"


def examples() -> List[Dict[str, str]]:
    """Returns the modules that the page offers. It leaves out a text that the page's editor could not hold."""
    found = []
    for file in sorted(EXAMPLES.rglob("*.py"), key=lambda it: (len(it.parts), it)):
        text = file.read_bytes().decode(errors="replace")
        if not any(it in text for it in "\r\0\ufffd"):
            found.append({"name": file.relative_to(EXAMPLES).with_suffix("").as_posix(), "text": text})
    return found


def shown_on_the_page(texts: Dict[str, Dict[str, Any]], cases: List[Dict[str, Any]], forms: List[Dict[str, Any]]) -> Dict[str, Any]:
    """Returns the data of web/texts.json."""
    codes = {code: {part: text for part, text in it.items() if part != "entry"} for code, it in texts.items()}
    return {"codes": codes, "cases": cases, "forms": forms, "examples": examples()}


def data_of(whole: Any) -> str:
    """Returns data as it is written."""
    return json.dumps(whole, ensure_ascii=False, indent=1) + "\n"


def run(asked: argparse.Namespace) -> int:
    """Writes or compares the data. Returns the exit status: 1 if a text is missing or the data differs."""
    page = PAGE.read_text(encoding="utf-8")
    texts, cases = texts_of(page), list(cases_of(page))
    forms = list(left_out_of(PROFILE.read_text(encoding="utf-8")))
    missing = [*missing_in(texts, forms), *faults_of(cases, texts)]
    for line in missing:
        print(line)
    status = 1 if missing else 0
    written = {DATA: texts, LEFT_OUT: forms, CASES: cases, WEB: shown_on_the_page(texts, cases, forms)}
    for file, whole in written.items():
        text = data_of(whole)
        if asked.write:
            file.write_text(text, encoding="utf-8")
        elif not file.exists() or file.read_text(encoding="utf-8") != text:
            print(f"{file.name} is not what tools/check data --write writes; run it")
            status = 1
    return status
