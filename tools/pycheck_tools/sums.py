"""The verdicts on wrong bodies that pages keep, each beside the sum of the files that it was made from.

`wrong_bodies/CONTROLS.md` has the edits whose control was accepted, with the sum of the texts by which edit and control
are tried, and `wrong_bodies/APART.md` those that the gate leaves out, with the sum of the sources, definitions and
proofs
of their crate.
"""
from __future__ import annotations

import datetime
import hashlib
import re
from pathlib import Path
from typing import Dict, Iterable, List

from . import ROOT

CONTROLS = ROOT / "wrong_bodies" / "CONTROLS.md"
APART = ROOT / "wrong_bodies" / "APART.md"
# A row of either page: the edit, the cells between, and the sum, which a row of the second may lack
CONTROL = re.compile(r"^\| `(\w+/[\w.-]+)` \| `([0-9a-f]{16})` \|$", re.M)
ROW = re.compile(r"^\| `(\w+/[\w.-]+)` \| (.*) \| refused(?:, (\S+))? \|(?: (?:`([0-9a-f]{16})`|of other files) \|)?$", re.M)


def sum_of(texts: Iterable[str]) -> str:
    """Returns a short sum of texts in their order."""
    whole = hashlib.sha256()
    for text in texts:
        data = text.encode("utf-8")
        whole.update(len(data).to_bytes(8, "big") + data)
    return whole.hexdigest()[:16]


def sum_of_crate(folder: Path) -> str:
    """Returns the sum of the sources, definitions and proofs of a crate, with their names."""
    files = sorted(file for part in ("src", "specs", "proofs") for file in (folder / part).rglob("*") if file.is_file())
    return sum_of(text for file in files for text in (str(file.relative_to(folder)), file.read_text(encoding="utf-8")))


def read(page: Path) -> str:
    """Returns the text of a page, or nothing if it does not exist."""
    return page.read_text(encoding="utf-8") if page.exists() else ""


def kept_controls() -> Dict[str, str]:
    """Returns the sums of the controls that were accepted, by the crates and names of their edits."""
    return dict(CONTROL.findall(read(CONTROLS)))


def rows_of_apart() -> Dict[str, str]:
    """Returns the sums of the edits that the gate leaves out, or nothing for one that was tried over other files."""
    return {found[1]: found[4] or "" for found in ROW.finditer(read(APART))}


def write_controls(new: Dict[str, str]) -> None:
    """Puts new sums into the page of controls, and removes those that are empty."""
    head = read(CONTROLS).split("\n| `")[0].rstrip("\n")
    rows = {**kept_controls(), **new}
    lines: List[str] = [f"| `{name}` | `{rows[name]}` |" for name in sorted(rows) if rows[name]]
    CONTROLS.write_text("\n".join([head, *lines]) + "\n", encoding="utf-8")


def write_apart(new: Dict[str, str]) -> None:
    """Puts new sums, with the date, into the page of the edits that the gate leaves out."""
    today = datetime.date.today().isoformat()

    def row(found: "re.Match[str]") -> str:
        return f"| `{found[1]}` | {found[2]} | refused, {today} | `{new[found[1]]}` |" if found[1] in new else found[0]

    APART.write_text(ROW.sub(row, read(APART)), encoding="utf-8")
