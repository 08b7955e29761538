"""The Rattle toolchain: the builds of proved crates, and the LLVM modules that they are compiled from."""
from __future__ import annotations

import importlib
import shutil
import subprocess
import sys
from pathlib import Path
from typing import Any, List

from . import ROOT

KEEPING = """#!/bin/sh
for word in "$@"; do
  case $word in *.bc) cp "$word" '{kept}' ;; esac
done
exec '{clang}' "$@"
"""


class Fault(Exception):
    """The program or module could not be made; the text says why."""


def run(*words: object, **how: Any) -> None:
    """Runs a command, which must succeed."""
    done = subprocess.run([str(it) for it in words], capture_output=True, text=True, **how)
    if done.returncode:
        raise Fault(f"{words[0]} failed:\n{done.stdout[-2000:]}{done.stderr[-2000:]}")


def kit() -> Path:
    """Returns the folder of the toolchain."""
    found = shutil.which("rt")
    if found is None:
        raise Fault("the Rattle toolchain is needed: its command rt is not on PATH")
    return Path(found).resolve().parent.parent


def keeping_toolchain(room: Path) -> Path:
    """Returns the folder of LLVM, with a clang that keeps the module that it compiles in `module.bc`."""
    own, made = kit() / "toolchain", room / "toolchain"
    (made / "bin").mkdir(parents=True)
    for it in own.iterdir():
        if it.name != "bin":
            (made / it.name).symlink_to(it)
    for it in (own / "bin").iterdir():
        if it.name != "clang":
            (made / "bin" / it.name).symlink_to(it)
    script = made / "bin" / "clang"
    script.write_text(KEEPING.format(kept=room / "module.bc", clang=own / "bin" / "clang"), encoding="utf-8")
    script.chmod(0o755)
    return made


def words_of_build(name: str, room: Path, made: Path) -> List[str]:
    """Returns the command that proves a crate and builds it into a file, over the libraries of the present files."""
    sys.dont_write_bytecode = True
    sys.path.insert(0, str(kit() / "bin"))
    # The toolchain's own module is used, so that the words are those of `rt lib`
    rtlib = importlib.import_module("rtlib")
    crate = next(it for it in rtlib.crates_below(str(ROOT)) if it.name == name)
    for below in crate.below():
        stamp = Path(below.rlib).parent / "stamp"
        # A library of `rt ci` has no stamp
        if not Path(below.rlib).exists() or (stamp.exists() and not below.is_built()):
            raise Fault(f"no library of {below.name} was built of the present files: run rt ci first")
    words = [rtlib.RATTLE, "build", *crate.words(["--jobs", "1"], keeps=False)]
    return [*words, "--toolchain", str(keeping_toolchain(room)), "--backend", "llvm", "-o", str(made)]


def build_module(name: str, room: Path, made: Path) -> Path:
    """Proves a crate and builds it into a file. Returns the LLVM module that it was compiled from."""
    run(*words_of_build(name, room, made), cwd=ROOT / "crates" / name)
    if not (room / "module.bc").exists():
        raise Fault(f"the build of {name} gave clang no module")
    return room / "module.bc"


def write_text_of(module: Path, text: Path) -> None:
    """Writes an LLVM module of x86-64 as text, as it is."""
    plain = ("-S", "-emit-llvm", "-Xclang", "-disable-llvm-passes", "-Wno-override-module")
    clang = kit() / "toolchain" / "bin" / "clang"
    run(clang, "--target=x86_64-unknown-linux-gnu", "-x", "ir", module, *plain, "-o", text)
