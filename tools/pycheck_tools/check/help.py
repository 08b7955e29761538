"""Compares the texts of the crate of texts with the page of codes.

    tools/check help [--page PAGE]

PAGE is docs/CODES.md if none is named. Reads the titles of refusals and, for each code, its meaning and how to mend
it from crates/pc_code_texts/src, and the labels of errors and dynamic places from crates/pc_tree/src. Prints each title or
label that is not that of the page's heading `### CODE TITLE`, each text that is no single sentence of ASCII, and each
code without a text. Last it says how many codes agree and how many differ; the exit status is 1 if one differs.
"""
from __future__ import annotations

import argparse
import os
import re
from pathlib import Path
from typing import Dict, List

from .. import ROOT
from ..rt_files import body_of

TEXTS = os.path.join("crates", "pc_code_texts", "src")


def text_in(*names: str) -> str:
    """Returns the text of a file of the repository."""
    with open(os.path.join(ROOT, *names), encoding="utf-8") as file:
        return file.read()


def function_texts(source: str, function: str) -> Dict[str, str]:
    """Returns the text for each code in a function of a source; empty if there is no such function."""
    return dict(re.findall(r'Code::([A-Z]\d+) =>\s+\{?\s*"([^"]*)"', body_of(source, function)))


def is_sentence(text: str) -> bool:
    """Whether a text is one sentence of ASCII."""
    return text.isascii() and text.endswith(".") and ". " not in text and text[:1].isupper()


def faults_of(code: str, headings: Dict[str, str], titles: Dict[str, str], texts: List[Dict[str, str]]) -> List[str]:
    """Returns the faults of a code."""
    faults = []
    if titles.get(code) != headings.get(code):
        faults.append(f"the title is {titles.get(code)!r}, and on the page {headings.get(code)!r}")
    for kind, found in zip(["meaning", "mending"], texts):
        if not is_sentence(found.get(code, "")):
            faults.append(f"the {kind} is no sentence: {found.get(code)!r}")
    return faults


def run(asked: argparse.Namespace) -> int:
    """Compares the texts with each page, and returns the exit status."""
    return max(compared(page.read_text(encoding="utf-8")) for page in asked.page or [Path(ROOT, "docs", "CODES.md")])


def compared(text: str) -> int:
    """Compares the texts with those of a page, and returns the exit status."""
    headings = dict(re.findall(r"^### ([A-Z]\d+) (.+)$", text, re.MULTILINE))
    findings = text_in(TEXTS, "findings.rt")
    refusals = text_in(TEXTS, "refusals.rt")
    titles = {**function_texts(refusals, "refusal_title"),
              **function_texts(text_in("crates", "pc_tree", "src", "code.rt"), "label")}
    meanings = {**function_texts(refusals, "refusal_meaning"), **function_texts(findings, "meaning")}
    mendings = {**function_texts(refusals, "refusal_mending"), **function_texts(findings, "mending")}
    codes = sorted(set(headings) | set(titles) | set(meanings) | set(mendings))
    differ = 0
    for code in codes:
        faults = faults_of(code, headings, titles, [meanings, mendings])
        differ += bool(faults)
        for fault in faults:
            print(f"{code}: {fault}")
    print(f"{len(codes) - differ} agree, {differ} differ")
    return 1 if differ or not codes else 0
