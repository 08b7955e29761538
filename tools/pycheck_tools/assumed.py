"""Leaves the contract alone of each function of a crate that edits do not change.

The proof of a function knows no more of another one than its contract, so a check of edited functions need not prove those that
they call, which `rt ci` has proved. In a copy of the crate a loop without an end is their body, so that they call nothing, and a hole
is their proof. The crate is then checked with `--allow-holes`. Functions that are derived are proved as ever.
"""
from __future__ import annotations

import re
from pathlib import Path
from typing import Dict, Iterator, List, NamedTuple, Set, Tuple

from .rt_files import CYCLE, FUNCTION, Changed, function_at

# The line of a check about a function that is proved but for holes, and the last line of a check that admits holes
BUT_FOR_HOLES = re.compile(r"^(fn \S+: )(?:no holes|depends on a hole in (`.*`))$", re.MULTILINE)
WITH_HOLES = re.compile(r"^(only=\d+) holes=\d+$", re.MULTILINE)
# The message of a check about a hole, with the lines about its goal, and the message about a proof of no function
GOAL = re.compile(r"^(?:\./)?(proofs/\S+/Proof\.antt):\d+:\d+: goal .*\n(?: .*\n)*", re.MULTILINE)
OF_NOTHING = re.compile(r"^(?:\./)?proofs/\S+: error: `\w+` has no function ", re.MULTILINE)
HOLE = """use Rattle.{crate}.proofs.{module}.Statement.{{statement}}

pub {name}_spec : {{M : Type 1}} → statement M
{name}_spec = ?
"""
TYPE = re.compile(r"(?:pub(?:\(\w+\))? )?(?:struct|enum) (\w+)")
BLOCK = re.compile(r"(?:pub(?:\(\w+\))? )?(?:impl|trait|mod)\b")
FILES = "Answers.antt", "Invariants.antt", "Proof.antt"


class Source(NamedTuple):
    """A source file of a crate: its path in the crate, its lines, and the path of its module, part by part."""

    path: str
    lines: List[str]
    module: Tuple[str, ...]


class Found(NamedTuple):
    """A function of a source file with a body of its own lines: its path below the crate, part by part, and the lines on
    which it and its body begin, and on which it ends."""

    path: Tuple[str, ...]
    changed: Changed
    begin: int
    body: int
    end: int


def sources_of(folder: Path) -> List[Source]:
    """Returns the source files of a crate's folder."""
    files = [file.relative_to(folder) for file in sorted((folder / "src").rglob("*.rt"))]
    return [Source(str(file), (folder / file).read_text(encoding="utf-8").split("\n"),
                   tuple(part for part in file.with_suffix("").parts[1:] if part not in ("lib", "main", "mod"))) for file in files]


def modules_of_types(sources: List[Source]) -> Dict[str, Tuple[str, ...]]:
    """Returns the module of each type, which its methods are named after, wherever they are written."""
    return {found[1]: source.module for source in sources for found in map(TYPE.match, source.lines) if found}


def body_of(lines: List[str], at: int) -> Tuple[int, int]:
    """Returns the lines of the brackets around the body of the function that begins on a line; twice the same line if
    they are on one."""
    indent = lines[at][: len(lines[at]) - len(lines[at].lstrip())]
    begin = next((k for k in range(at, len(lines)) if re.match(rf"{indent}(?:\S.*)?\{{\}}?$", lines[k])), at)
    end = next((k for k in range(begin, len(lines)) if lines[k] == f"{indent}}}"), begin)
    return (begin, begin) if lines[begin].endswith("}") else (begin, end)


def functions_in(source: Source, modules: Dict[str, Tuple[str, ...]]) -> Iterator[Found]:
    """Yields the functions of a source file that have a body, but for those of traits and of the compiler."""
    block = ""
    for at, line in enumerate(source.lines):
        block = line if BLOCK.match(line) else block
        head = FUNCTION.match(line)
        if not head or head[1] and not block.startswith("impl") or "const fn" in head[0]:
            continue
        changed, (body, end) = function_at(source.path, "\n".join(source.lines[: at + 1])), body_of(source.lines, at)
        if changed and body < end:
            owner, _, name = changed.name.rpartition("::")
            yield Found((*modules.get(owner, source.module), owner, name) if head[1] else tuple(changed.name.split("::")), changed, at, body, end)


def is_kept(found: Found, names: Set[str], cycles: Set[str]) -> bool:
    """Whether a function has one of the names, or is in one of the cycles of calls."""
    return found.changed.name in names or found.changed.cycle in cycles


def without_body(lines: List[str], found: Found) -> None:
    """Puts a loop without an end in the place of a function's body, and takes it out of its cycle of calls. The file has
    as many lines as before."""
    lines[found.body + 1 : found.end] = ["loop {}", *[""] * (found.end - found.body - 2)]
    above = found.begin - 1
    while above >= 0 and lines[above].lstrip().startswith(("#[", "//")):
        lines[above] = "" if CYCLE.fullmatch(lines[above]) else lines[above]
        above -= 1


def remove_proofs(room: Path, kept: List[Found]) -> None:
    """Removes the proofs of the cycles of calls in which none of these functions is."""
    for place in sorted((room / "proofs").rglob("+*")):
        parts = place.relative_to(room / "proofs").parts
        if not any(f"+{it.changed.cycle or it.path[-1]}" == parts[-1] and it.path[: len(parts) - 1] == parts[:-1] for it in kept):
            for name in FILES:
                (place / name).unlink(missing_ok=True)


def put_hole(room: Path, crate: str, path: Tuple[str, ...]) -> Tuple[str, str]:
    """Puts a hole in the place of the proof of a function. Returns its file, and the name by which a check tells it."""
    folder = room.joinpath("proofs", *path)
    folder.mkdir(parents=True, exist_ok=True)
    for name in FILES:
        (folder / name).unlink(missing_ok=True)
    text = HOLE.format(crate=crate, module=".".join(path), name=path[-1])
    (folder / "Proof.antt").write_text(text, encoding="utf-8")
    return "/".join(["proofs", *path, "Proof.antt"]), ".".join(["Rattle", crate, "proofs", *path, "Proof", f"{path[-1]}_spec"])


def assume(room: Path, crate: str, names: Set[str]) -> Dict[str, str]:
    """Leaves the contracts alone, in a copy of a crate, of all functions but those whose names end in one of these, and
    those in their cycles of calls. Returns the files of the holes, each with its name."""
    sources, holes = sources_of(room), {}
    modules = modules_of_types(sources)
    found = {source.path: list(functions_in(source, modules)) for source in sources}
    every = [it for those in found.values() for it in those]
    cycles = {it.changed.cycle for it in every if it.changed.name in names} - {""}
    remove_proofs(room, [it for it in every if is_kept(it, names, cycles)])
    for source in sources:
        lines = list(source.lines)
        for it in reversed(found[source.path]):
            if not is_kept(it, names, cycles):
                without_body(lines, it)
                file, name = put_hole(room, crate, it.path)
                holes[file] = name
        (room / source.path).write_text("\n".join(lines), encoding="utf-8")
    return holes


def as_proved(said: str, holes: Dict[str, str]) -> str:
    """Returns the output of a check as if what the holes stand for were proved; nothing if a hole is of no function."""
    def told(found: "re.Match[str]") -> str:
        named = re.findall("`([^`]*)`", found[2] or "")
        return f"{found[1]}proved" if set(named) <= set(holes.values()) else found[0]

    without = GOAL.sub(lambda found: "" if found[1] in holes else found[0], said)
    return "" if OF_NOTHING.search(said) else WITH_HOLES.sub(r"\1 proved=0", BUT_FOR_HOLES.sub(told, without))
