"""What a refusal may be due to: all that a law or a function stands on, as far as the texts of its crate say.

It is taken widely, so that two edits of which neither is on the ground of the other may be tried at once. A declaration
stands on each name in its text, a function on those in its clauses, its body, its attributes and its proof, and these on
others in turn, with their proofs. All that follow a record's head and are indented further belong to the record. A method
may be called by an operator, a loop or a `?`, which name none, so a function with a body stands on all methods, and
everything stands on what the types of the crate say. A name that a file only passes on, or that the texts do not show,
stands on all that its file names.
"""
from __future__ import annotations

import re
from collections import defaultdict
from pathlib import Path
from typing import DefaultDict, Dict, Iterable, Iterator, List, NamedTuple, Sequence, Set

from .reach import LAW, NAME, USE, USE_MODULE, Node, blocks, declared_in, names_in
from .rt_files import FUNCTION, function_at, without_text

# A line that declares nothing: the head of a module or of a cycle of definitions, an import, or how an operator binds
HEAD = re.compile(r"\s*(?:(?:abbrev )?mutual\s*$|(?:pub )?(?:module|open|use|mod)\b|infix[lr]?\b)")
# A name in full, in definitions and proofs, and in the attributes of sources
WHOLE = re.compile(r"\bRattle\.(\w+)\.(specs|proofs)\.([\w.'+-]+)\.([^\s.(){},;]+)")
IN_ATTRIBUTE = re.compile(r"\b(\w+)::(specs|proofs)::((?:\w+::)*)(\w+)")
# A function that a clause names, behind the brackets of its type
BRACKETED = re.compile(r"⟧\.([\w'-]+)")
# The node of all that sources say outside functions
TYPES: Node = ("", "")


class Part(NamedTuple):
    """A declaration with the records, fields and clauses below it: its first line, from zero, its lines, and the names
    that it declares, none for a head."""

    first: int
    lines: List[str]
    names: List[str]


def indent_of(lines: Sequence[str]) -> int:
    """Returns the least indentation of some lines."""
    return min(len(line) - len(line.lstrip()) for line in lines if line.strip())


def head_of(block: Sequence[str]) -> int:
    """Returns how many lines at the beginning of a block are heads."""
    end = 0
    while end < len(block) and HEAD.match(block[end]):
        is_module = re.match(r"\s*module\b", block[end])
        end += 1
        while is_module and end < len(block) and not block[end - 1].rstrip().endswith("where"):
            end += 1
    return end


def parts_of(source: str) -> List[Part]:
    """Returns the declarations of a file of definitions or of proofs, and its heads."""
    parts: List[Part] = []
    for first, block in blocks(source.split("\n")):
        end = head_of(block)
        if end:
            parts.append(Part(first, block[:end], []))
        if end == len(block):
            continue
        last = parts[-1] if parts else None
        if last and last.names and indent_of(block) > indent_of(last.lines):
            gap = [""] * (first - last.first - len(last.lines))
            lines = [*last.lines, *gap, *block]
            parts[-1] = Part(last.first, lines, declared_in([line for line in lines if line.strip()]))
        else:
            parts.append(Part(first + end, block[end:], declared_in(block[end:])))
    return parts


def declared_around(source: str, line: int) -> List[str]:
    """Returns the names of the declaration around a line, which counts from one; none if it is in no declaration."""
    return next((it.names for it in parts_of(source) if it.first < line <= it.first + len(it.lines)), [])


def file_of(part: str, module: str) -> str:
    """Returns the file of a module of a crate, such as `specs/A/B.antt` for `A.B`."""
    return f"{part}/{module.replace('::', '/').replace('.', '/').rstrip('/')}.antt"


class Names:
    """The declarations that the texts of a file may name: those of the file itself, and those that it imports from
    files of its crate."""

    def __init__(self, crate: str, path: str, source: str) -> None:
        self.crate = crate
        self.parts = parts_of(source) if path.endswith(".antt") else []
        self.nodes: Dict[str, Node] = {}
        for owner, part, module, names in USE.findall(source):
            for name, _, alias in [it.strip().partition(" as ") for it in names.split(",")] if owner == crate else []:
                self.nodes[(alias or name).strip()] = (file_of(part, module), name.strip())
        self.modules = {alias or module.split(".")[-1]: file_of(part, module)
                        for owner, part, module, alias in USE_MODULE.findall(source) if owner == crate}
        self.nodes.update({name: (path, name) for it in self.parts for name in it.names})
        self.operators = {name: [word for word in name.split("◌") if word] for name in self.nodes if not NAME.fullmatch(name)}

    def named_in(self, text: str) -> Set[Node]:
        """Returns the declarations that a text names."""
        found = {self.nodes[name] for name in names_in(text) if name in self.nodes}
        found |= {self.nodes[name] for name, words in self.operators.items() if all(word in text for word in words)}
        found |= {(self.modules[module], name) for module, name in re.findall(r"([\w'-]+)\.([\w'-]+)", text) if module in self.modules}
        whole = [*WHOLE.findall(text), *IN_ATTRIBUTE.findall(text)]
        return found | {(file_of(part, module), name) for owner, part, module, name in whole if owner in ("crate", self.crate)}


class Code(NamedTuple):
    """A function of a source: the end of the name that a check prints, its text with its attributes, the first and the
    last of its lines, from zero, and whether it is a law or a worked case, whose body is empty."""

    name: str
    text: str
    first: int
    last: int
    is_law: bool


def functions_in(path: str, lines: List[str]) -> Iterator[Code]:
    """Yields the functions of a source."""
    for at, head in enumerate(map(FUNCTION.match, lines)):
        changed = function_at(path, "\n".join(lines[:at + 1])) if head else None
        if head is None or changed is None:
            continue
        last = next((it for it in range(at, len(lines)) if lines[it] in (head[1] + "}", head[1] + "{}")), len(lines) - 1)
        first = at
        while first and lines[first - 1].lstrip().startswith(("#[", "//")):
            first -= 1
        attributes = [line for line in lines[first:at] if line.lstrip().startswith("#[")]
        text = "\n".join(lines[at:last + 1])
        yield Code(changed.name, "\n".join([*attributes, text]), first, last, LAW.search(text) is not None)


def last_of(name: str) -> str:
    """Returns the last part of the name of a function."""
    return name.split("::")[-1]


class Grounds:
    """The grounds of the laws and the functions of a crate."""

    def __init__(self, folder: Path) -> None:
        self.folder = folder
        self.edges: DefaultDict[Node, Set[Node]] = defaultdict(set)
        # All that a file names, by its path
        self.files: Dict[str, Set[Node]] = {}
        self.methods: Set[Node] = set()
        for file in sorted(it for part in ("specs", "proofs") for it in (folder / part).rglob("*.antt")):
            self.add(str(file.relative_to(folder)), file.read_text(encoding="utf-8"))
        self.add_sources()

    def add(self, path: str, source: str) -> None:
        """Adds the declarations of a file. Those in the folder of a function belong to its proof too."""
        names = Names(self.folder.name, path, source)
        self.files[path] = set(names.nodes.values())
        heads = names.named_in("\n".join(line for it in names.parts if not it.names for line in it.lines if not USE.search(line)))
        for it in [it for it in names.parts if it.names]:
            named = heads | names.named_in("\n".join(it.lines)) | {(path, name) for name in it.names}
            for node in [*((path, name) for name in it.names), *owners_of(path)]:
                self.edges[node] |= named

    def add_sources(self) -> None:
        """Adds the functions of the crate, and what its sources say outside them."""
        sources = {file: file.read_text(encoding="utf-8") for file in sorted((self.folder / "src").rglob("*.rt"))}
        found = {file: list(functions_in(str(file.relative_to(self.folder)), text.split("\n"))) for file, text in sources.items()}
        known = {last_of(it.name) for those in found.values() for it in those}
        self.methods = {("", last_of(it.name)) for those in found.values() for it in those if it.name[:1].isupper()}
        # An attribute at the head of a crate or of a module holds for all below it
        heads = "\n".join(line for text in sources.values() for line in text.split("\n") if line.startswith("#!["))
        for file, text in sources.items():
            names, lines = Names(self.folder.name, str(file.relative_to(self.folder)), text), text.split("\n")
            for it in found[file]:
                called = set(BRACKETED.findall(it.text)) if it.is_law else names_in(without_text(it.text))
                self.edges["", last_of(it.name)] |= names.named_in(it.text + heads) | {("", name) for name in called & known}
                if not it.is_law:
                    self.edges["", last_of(it.name)] |= self.methods
                lines[it.first:it.last + 1] = [""] * (it.last + 1 - it.first)
            self.edges[TYPES] |= names.named_in("\n".join(line for line in lines if not line.startswith("ghost use")))

    def next_to(self, node: Node) -> Set[Node]:
        """Returns the declarations on which one stands directly. What `rt` makes of a function has its name in its path."""
        path, name = node
        if not path or node in self.edges:
            return self.edges.get(node, set())
        made = {("", it.lstrip("+")) for it in [*Path(path).with_suffix("").parts, name]}
        return self.files.get(path, made)

    def of(self, names: Iterable[str]) -> Set[Node]:
        """Returns all that functions or laws stand on, with these."""
        found = {TYPES, *(("", last_of(name)) for name in names)}
        work = list(found)
        for node in work:
            new = self.next_to(node) - found
            found |= new
            work += new
        return found


def owners_of(path: str) -> List[Node]:
    """Returns the function, or the cycle of calls, in whose folder a file of proofs stands, if it stands in one."""
    folder = Path(path).parent
    return [("", folder.name.lstrip("+"))] if path.startswith("proofs/") and folder.name != "proofs" else []


def declared_at_place(path: str, line: int, text: str) -> Set[Node]:
    """Returns the declaration around a line of the text of a file, with the function in whose folder the file stands, or
    of a source the function around it; none if there is none."""
    if not path.startswith("src/"):
        return {*((path, name) for name in declared_around(text, line)), *owners_of(path)}
    lines = text.split("\n")
    # A goal of a cycle of calls is reported at the lines directly above its function
    while line < len(lines) and lines[line - 1].lstrip().startswith(("#[", "//")):
        line += 1
    function = function_at(path, "\n".join(lines[:line]))
    return {("", last_of(function.name))} if function else set()
