"""The texts of findings, and the fingerprints that tell them apart, as systems show and compare them."""
from __future__ import annotations

import collections
import hashlib
import os
from typing import Counter, List, Tuple

from . import cases, codes, details, meant
from .findings import GUIDE, REFUSED, Checked, Finding


GUIDES = "A guide is not the program's answer on the file as it is: it was asked again without the refusals before."


def name_of(finding: Finding) -> str:
    """Returns the name of a finding: its code and its title, for a refusal or a guide with that word between them."""
    kind = f" {finding.kind}:" if finding.kind in (REFUSED, GUIDE) else ""
    return f"{finding.code}{kind} {codes.title_of(finding.code)}".rstrip(" :")


def message_of(file: Checked, finding: Finding) -> str:
    """Returns the text of a finding and how to mend it, in a line."""
    return f"{said_of(finding)}{details.seen(finding)}. {advice_of(file, finding)}".strip()


def said_of(finding: Finding) -> str:
    """Returns what is wrong at a finding: the sentence of its detail or, if it has none, the meaning of its code."""
    if finding.detail:
        return finding.detail.text
    flow = f" ({finding.flow[0]} -> {finding.flow[1]})" if finding.flow else ""
    return f"{codes.meaning_of(finding.code) or finding.code}{flow}"


def advice_of(file: Checked, finding: Finding) -> str:
    """Returns what to write instead, and where the mismatched bracket is."""
    cause = file.causes.get(finding)
    if cause:
        start = cause.place.start
        return f"It follows from {cause.code} at {start.line}:{start.column}, and goes away with it."
    advice = cases.sentence(file, finding)
    advice = advice or codes.mending_of(finding.code, file.spot_of(finding))
    meant = name_meant(file, finding)
    if meant:
        advice = f"Did you mean `{meant}`? {advice}"
    if finding.opened:
        start, end = finding.opened
        bracket = file.text.data[start.byte : end.byte].decode("utf-8", "replace")
        advice += f" The bracket that is open is `{bracket}` at {start.line}:{start.column}."
    return advice.strip()


def name_meant(file: Checked, finding: Finding) -> str:
    """Returns the name that was meant at an error; empty if none is similar, or if rows about its name say more."""
    row = cases.row_of(file, finding)
    if row and row[0].words and not row[0].detail:
        return ""
    return meant.name_at(file, finding) or ""


def fingerprints(file: Checked) -> List[str]:
    """Returns for each finding of a file a text that no other finding has and that stays when lines move: a hash of the
    path, the code, the text of the line, and how many such findings are before it."""
    counts: Counter[Tuple[str, str]] = collections.Counter()
    made: List[str] = []
    for finding in file.findings:
        key = (finding.code, file.line_of(finding))
        made.append(fingerprint(file, *key, str(counts[key])))
        counts[key] += 1
    return made


def fingerprint(file: Checked, *parts: str) -> str:
    """Returns a hash of the path of a file and of some texts."""
    path = os.fsencode(os.path.normpath(file.path))
    return hashlib.sha256(b"\0".join([path, *(it.encode() for it in parts)])).hexdigest()
