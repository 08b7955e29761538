"""Which declarations of a crate stand on which others, as far as their texts say.

A declaration stands on the names in its text, and on what these say in turn: a definition says its whole text, a lemma its
type, and a function its contract. Names are compared without their modules, so a declaration may seem to stand on more than
it does.
"""
from __future__ import annotations

import re
from collections import defaultdict
from pathlib import Path
from typing import DefaultDict, Dict, Iterable, Iterator, List, NamedTuple, Sequence, Set, Tuple

from .changes import definitions_in
from .rt_files import FUNCTION, function_at, without_text

NAME = re.compile(r"[\w'-]*\w[\w'-]*")
# The words that may stand before the name of a declaration, and a line that declares a name, or is a clause of one
BEFORE = r"(?:(?:abbrev|unfoldable|pub|record|data)\s+)*"
DECLARES = re.compile(rf"\s*{BEFORE}([^\s:(){{}}]+)(?=\s|:).*(?:\s:\s|\s:$|\s=\s|\s=$)|\s*{BEFORE}([^\s:(){{}}]+) :$")
FIELD = re.compile(r"\s+(?:pub\s+)?([^\s:(){}]+(?: [^\s:(){}]+)*) : ")
NO_NAMES = {"use", "let", "in", "if", "then", "else", "mod", "module", "where", "open", "elim", "unfolding", "mutual"}
# The lines by which a file imports declarations and modules, and a source imports definitions
USE = re.compile(r"\buse\s+Rattle\.(\w+)\.(specs|proofs)\.([\w.'+-]+)\.\{([^}]*)\}")
USE_MODULE = re.compile(r"\buse\s+Rattle\.(\w+)\.(specs|proofs)\.([\w.'+-]+?)(?:\s+as\s+([\w'-]+))?\s*;?$", re.M)
GHOST_USE = re.compile(r"\bghost use ([\w.'-]+)\.\{([^}]*)\}")
# The text of a function without parameters whose body is empty
LAW = re.compile(r"\(\)\n[^{]*(?:.|\n)*\n *\{\}$")
# A declaration: its file in the crate, or nothing for a function, and its name
Node = Tuple[str, str]
Graph = DefaultDict[Node, Set[Node]]


class Proved(NamedTuple):
    """A function of a crate: the end of the name that a check prints for it, the declarations in its contract, the
    length of its text and of its proofs, and whether it is a law or a worked case, which have an empty body."""

    name: str
    contract: Set[Node]
    length: int
    is_law: bool


def names_in(text: str) -> Set[str]:
    """Returns the names in a text."""
    return set(NAME.findall(text))


def blocks(lines: Sequence[str]) -> Iterator[Tuple[int, List[str]]]:
    """Yields the runs of lines of definitions or proofs with no empty line and no comment in them, each with the number
    of its first line, from zero."""
    block: List[str] = []
    for number, line in enumerate([*lines, ""]):
        if line.strip() and not line.lstrip().startswith("--"):
            block.append(line)
        elif block:
            yield number - len(block), block
            block = []


def declared_in(block: Sequence[str]) -> List[str]:
    """Returns the names that a block declares, with fields and constructors."""
    lines = [line for line in block if not re.match(r"\s*(abbrev )?mutual\s*$", line)]
    indent = min((len(line) - len(line.lstrip()) for line in lines), default=0)
    found = [DECLARES.match(line) for line in lines if len(line) - len(line.lstrip()) == indent]
    names = [name for it in found if it for name in it.groups() if name]
    if any(re.match(rf"\s*{BEFORE}", line) and re.search(r"\b(record|data)\b", line.split(":")[0]) for line in lines):
        names += [name for line in lines for it in [FIELD.match(line)] if it for name in it[1].split()]
    return [name for name in dict.fromkeys(names) if name not in NO_NAMES]


def statement_of(block: Sequence[str]) -> Sequence[str]:
    """Returns the lines of a lemma in front of its first clause; all of a block that has no clause, or that unfolds
    wherever it is used."""
    names = declared_in(block)
    clause = next((at for at, line in enumerate(block) if at and names and line.split()[0] == names[0]), len(block))
    return block if block[0].split()[0] in ("abbrev", "unfoldable", "record", "data") else block[:clause]


class Scope:
    """The declarations that a file of a crate may name: its own, and those that it imports from files of the crate."""

    def __init__(self, crate: str, path: str, source: str) -> None:
        self.source = source
        self.blocks = [block for _, block in blocks(source.split("\n"))] if path.endswith(".antt") else []
        self.nodes: Dict[str, Node] = {}
        self.modules: Dict[str, str] = {}
        for owner, part, module, names in USE.findall(source):
            for name, _, alias in [it.strip().partition(" as ") for it in names.split(",")] if owner == crate else []:
                self.nodes[(alias or name).strip()] = (f"{part}/{module.replace('.', '/')}.antt", name.strip())
        for owner, part, module, alias in USE_MODULE.findall(source):
            if owner == crate:
                self.modules[alias or module.split(".")[-1]] = f"{part}/{module.replace('.', '/')}.antt"
        self.nodes.update({name: (path, name) for block in self.blocks for name in declared_in(block)})

    def named_in(self, text: str) -> Set[Node]:
        """Returns the declarations that a text names."""
        there = {(self.modules[module], name) for module, name in re.findall(r"([\w'-]+)\.([\w'-]+)", text) if module in self.modules}
        return there | {self.nodes[name] for name in names_in(text) if name in self.nodes}


def functions_of(folder: Path) -> Iterator[Tuple[Scope, str, str, str]]:
    """Yields the functions of a crate: what their file may name, the end of the name that a check prints, the clauses,
    and the whole text."""
    for file in sorted((folder / "src").rglob("*.rt")):
        path = str(file.relative_to(folder))
        scope = Scope(folder.name, path, file.read_text(encoding="utf-8"))
        lines = scope.source.split("\n")
        for at, head in enumerate(map(FUNCTION.match, lines)):
            changed = function_at(path, "\n".join(lines[:at + 1])) if head else None
            if head is None or changed is None:
                continue
            end = next((it for it in range(at, len(lines)) if lines[it] in (head[1] + "}", head[1] + "{}")), len(lines) - 1)
            body = next((it for it in range(at, end + 1) if lines[it].startswith((head[1] + "{", head[1] + "{}"))), end)
            yield scope, changed.name, "\n".join(lines[at:body]), "\n".join(lines[at:end + 1])


class Reach:
    """What the declarations of a crate stand on: definitions, lemmas and functions."""

    def __init__(self, folder: Path) -> None:
        self.said: Graph = defaultdict(set)
        self.own: Graph = defaultdict(set)
        self.functions: List[Proved] = []
        for part in ("specs", "proofs"):
            for file in sorted((folder / part).rglob("*.antt")):
                owner = file.parent.name.lstrip("+") if part == "proofs" and file.parent.name != part else ""
                self.add(Scope(folder.name, str(file.relative_to(folder)), file.read_text(encoding="utf-8")), owner)
        self.add_functions(folder)

    def add(self, scope: Scope, owner: str) -> None:
        """Adds the declarations of a file. Those in the folder of a function belong to its proof too."""
        for block in scope.blocks:
            named = scope.named_in("\n".join(block))
            for node in [scope.nodes[name] for name in declared_in(block)]:
                self.own[node] |= named
                self.said[node] |= named if node[0].startswith("specs/") else scope.named_in("\n".join(statement_of(block)))
            if owner:
                self.own["", owner] |= named

    def add_functions(self, folder: Path) -> None:
        """Adds the functions of a crate."""
        functions = list(functions_of(folder))
        names = {name.split("::")[-1] for _, name, _, _ in functions}
        for scope, name, clauses, text in functions:
            node = ("", name.split("::")[-1])
            self.own[node] |= scope.named_in(text) | {("", it) for it in names_in(without_text(text)) & names}
            self.said[node] |= scope.named_in(clauses)
        for scope, name, clauses, text in functions:
            # A method of a trait has no body, and its clauses are those of each implementation
            if not name.startswith("::"):
                proofs = folder / "proofs" / name.replace("::", "/")
                length = len(text) + sum(len(it.read_text(encoding="utf-8")) for it in proofs.rglob("*.antt"))
                says = re.search(r"\bensures\b", clauses)
                contract = scope.named_in(clauses) if says else self.said["", name.split("::")[-1]]
                self.functions.append(Proved(name, contract, length, LAW.search(text) is not None))

    def depths(self, nodes: Iterable[Node]) -> Dict[Node, int]:
        """Returns all declarations that some stand on, with these, each with the number of steps to it."""
        found = {node: 0 for node in nodes}
        work = list(found)
        for node in work:
            for other in self.said.get(node, ()):
                if other not in found:
                    found[other] = found[node] + 1
                    work.append(other)
        return found

    def stands_on(self, nodes: Iterable[Node]) -> Set[Node]:
        """Returns all declarations that these stand on, with their proofs and bodies, and these too."""
        those = list(nodes)
        return set(those) | set(self.depths(other for node in those for other in self.own.get(node, ())))

    def judges(self, node: Node, laws: bool = False) -> List[str]:
        """Returns the functions whose contract stands on a definition, or the laws and worked cases among them: those
        first whose contract is nearest to it, then the shortest."""
        depths = [(self.depths(it.contract), it) for it in self.functions if it.is_law or not laws]
        found = sorted((those[node], it.length, it.name) for those, it in depths if node in those)
        return [function for _, _, function in found]

    def with_called(self, names: Iterable[str], nodes: Set[Node]) -> Set[str]:
        """Returns functions, with those that they call, however indirectly, whose contracts stand on some declarations."""
        those = [it.name for it in self.functions if set(self.depths(it.contract)) & nodes]
        found = list(names)
        for name in found:
            called = {last for path, last in self.own.get(("", name.split("::")[-1]), ()) if not path}
            found += [it for it in those if it.split("::")[-1] in called and it not in found]
        return set(found)


def declared_at(source: str, line: int) -> List[str]:
    """Returns the names of the block of definitions or proofs around a line, which counts from one."""
    around = (block for first, block in blocks(source.split("\n")) if first < line <= first + len(block))
    return next(map(declared_in, around), [])


def cited_in(source: str) -> Set[str]:
    """Returns the definitions that a source imports for its clauses and uses there."""
    words = names_in(GHOST_USE.sub("", source))
    imports = [it.strip().partition(" as ") for _, names in GHOST_USE.findall(source) for it in names.split(",")]
    return {name.strip() for name, _, alias in imports if (alias or name).strip() in words or not NAME.match(name)}


def unneeded(root: Path) -> Iterator[Node]:
    """Yields the public definitions on which no clause of any crate stands, as far as the texts say: each with its file
    below the folder of crates. Definitions of one name are taken for one."""
    said: DefaultDict[str, Set[str]] = defaultdict(set)
    needed: Set[str] = set()
    specs = {file: file.read_text(encoding="utf-8") for file in sorted(root.glob("crates/*/specs/**/*.antt"))}
    for source in specs.values():
        for _, block in blocks(source.split("\n")):
            for name in declared_in(block):
                said[name] |= names_in("\n".join(block))
            for name, alias in re.findall(r"([\w'-]+) as ([\w'-]+)", "\n".join(block)):
                said[alias].add(name)
    for file in sorted(root.glob("crates/*/src/**/*.rt")):
        needed |= cited_in(file.read_text(encoding="utf-8"))
    work = list(needed)
    for name in work:
        new = said.get(name, set()) - needed
        needed |= new
        work += new
    for file, source in specs.items():
        for it in definitions_in(source):
            if it.name not in needed and NAME.fullmatch(it.name):
                yield file.relative_to(root / "crates").as_posix(), it.name
