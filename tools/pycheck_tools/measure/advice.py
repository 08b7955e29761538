"""Counts how many refusals of real code get advice for their case, and how many the general sentence of their code.

    tools/measure advice [--list] [COMMAND [FILES [FOLDER]]]

COMMAND is the command that is asked, tools/check_all where it is left out. FILES is how many modules are taken, 300
where it is left out: every so many of those below FOLDER, in the order of their paths, without those of tests. FOLDER
is the library of the Python that runs this tool where it is left out. Nothing is copied and nothing is written.

Prints how many lines `--all-refusals` lists, and how many of them have the sentence of the code's entry in
docs/CODES.md, which is the same for each refusal of the code; and the same for each code. `--list` prints these lines
too. The exit status is 1 where nothing is listed.
"""
from __future__ import annotations

import collections
import json
import subprocess
import sys
import sysconfig
from pathlib import Path
from typing import Any, Counter, Dict, Iterator, List

from .. import ROOT
from ..words import Words

COMMAND = ROOT / "tools" / "check_all"
TEXTS = ROOT / "tools" / "pycheck_all" / "codes.json"
FILES = 300
OF_TESTS = {"test", "tests", "idle_test", "site-packages", "dist-packages", "__pycache__"}


def sample(folder: Path, count: int) -> List[str]:
    """Returns `count` modules of a folder, spread over it, in the order of their paths."""
    found = sorted(str(it) for it in folder.rglob("*.py") if not OF_TESTS & set(it.relative_to(folder).parts))
    step = max(1, len(found) // count)
    return found[::step][:count]


def refusals_of(command: str, files: List[str]) -> Iterator[Dict[str, Any]]:
    """Yields the refusals of some files, each with the path of its file."""
    words = [command, "--all-refusals", "--timeout", "600", "--output", "json", "--", *files]
    done = subprocess.run([sys.executable, *words], capture_output=True)
    for file in json.loads(done.stdout)["files"]:
        for it in [file["refusal"], *file.get("guides", [])]:
            if it:
                yield {**it, "path": file["path"]}


def main(words: List[str]) -> int:
    """Counts the refusals, prints the counts, and returns the exit status."""
    parser = Words("tools/measure advice", __doc__)
    parser.add_argument("--list", action="store_true")
    parser.add_argument("command", nargs="?", default=str(COMMAND))
    parser.add_argument("files", nargs="?", type=int, default=FILES)
    parser.add_argument("folder", nargs="?", type=Path, default=sysconfig.get_path("stdlib"))
    asked = parser.parse_args(words)
    if asked.files < 1:
        parser.error("some files are needed")
    general = {code: it["mend"] for code, it in json.loads(TEXTS.read_text(encoding="utf-8")).items()}
    listed: Counter[str] = collections.Counter()
    generic: Counter[str] = collections.Counter()
    files = sample(Path(asked.folder), asked.files)
    for it in refusals_of(asked.command, files):
        listed[it["code"]] += 1
        if it["instead"] == general.get(it["code"]):
            generic[it["code"]] += 1
            if asked.list:
                print(f"{it['path']}:{it['start']['line']}:{it['start']['column']}: {it['code']}")
    for code, number in listed.most_common():
        print(f"{code}: {generic[code]} of {number}")
    print(f"{len(files)} files: {sum(generic.values())} of {sum(listed.values())} lines have the general sentence")
    return 0 if listed else 1
