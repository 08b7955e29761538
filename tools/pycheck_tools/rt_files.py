"""Reads the sources of crates, which are files *.rt: the items of a module, and the functions at its lines."""
from __future__ import annotations

import re
from pathlib import Path
from typing import Dict, Iterator, List, NamedTuple, Optional, Set, Tuple

from . import ROOT
from .antt_files import Definition, used_in

# Comments, strings and characters, which hold no code
NO_CODE = re.compile(r'//[^\n]*|"(?:[^"\\]|\\.)*"|\'(?:[^\'\\\n]|\\.[^\'\n]*)\'', re.S)
ITEM = re.compile(r"\b(?P<pub>pub(?P<within>\s*\([^)]*\))?\s+)?(?P<kind>fn|mod|use|struct|enum|trait|type)\b\s*")
IMPL = re.compile(r"\bimpl\b")
WRITTEN = re.compile(r"\bfn\s+(?=\w)")
CLAUSE = re.compile(r"\b(?:ensures|requires|decreases)\b")
NAME = re.compile(r"[A-Za-z_]\w*")
# A function, an impl block and an attribute of a cycle of calls, each as a line of a source has it
FUNCTION = re.compile(r"( *)(?:pub(?:\(\w+\))? )?(?:const )?(?:extern .C. )?fn (\w+)")
IMPLEMENTED = re.compile(r"(?:(.*) for )?&?([\w:]+)")
CYCLE = re.compile(r" *#\[cycle\((\w+)\)\]")


class Written(NamedTuple):
    """A function as a source has it: its name, and the places of its parameters, of its body, and after it. A function of a
    trait may have a semicolon for a body."""
    name: str
    params: int
    body: int
    end: int


class Function(NamedTuple):
    """A function of the sources: whether it takes `self`, whether its body is empty, and the text from its parameters to
    its body."""
    name: str
    is_pub: bool
    takes_self: bool
    is_law: bool
    head: str


class Module:
    """The contents of a module of a crate: its functions, the functions of its types and traits, and what it exports
    again."""

    def __init__(self) -> None:
        self.functions: Dict[str, Function] = {}
        self.methods: Dict[str, List[Function]] = {}
        self.traits: Set[str] = set()
        self.pub_types: Set[str] = set()
        self.pub_modules: List[str] = []
        self.uses: List[Tuple[str, str]] = []
        # The names that other modules may use, also those of the crate alone
        self.offered_types: Set[str] = set()
        self.offered_functions: Set[str] = set()
        # The definitions that its clauses may cite, by the names that they have there
        self.definitions: Dict[str, Definition] = {}


def without_text(source: str) -> str:
    """Returns the source with spaces in place of comments, strings and characters."""
    return NO_CODE.sub(lambda found: re.sub(r"[^\n]", " ", found[0]), source)


def named_at(code: str, at: int) -> str:
    """Returns the name that begins at a place."""
    found = NAME.match(code, at)
    if found is None:
        raise ValueError("an item has no name")
    return found[0]


def closing(code: str, at: int) -> int:
    """Returns the place after the bracket that closes the one at a place."""
    opens, closes = code[at], {"{": "}", "(": ")", "[": "]"}[code[at]]
    depth = 0
    for place in range(at, len(code)):
        depth += (code[place] == opens) - (code[place] == closes)
        if depth == 0:
            return place + 1
    raise ValueError(f"a bracket {opens} is never closed")


def written_at(code: str, at: int) -> Written:
    """Returns the function whose name begins at a place. Its clauses come before its body."""
    name = named_at(code, at)
    params = code.index("(", at)
    place = closing(code, params)
    while True:
        brace, semicolon = code.find("{", place), code.find(";", place)
        if brace < 0 or 0 <= semicolon < brace:
            return Written(name, params, semicolon, semicolon + 1)
        end = closing(code, brace)
        if not CLAUSE.search(code, place, brace):
            return Written(name, params, brace, end)
        place = end


def written_in(code: str) -> Iterator[Written]:
    """Yields all functions of a source without text, also those of types, of traits and of other functions."""
    return (written_at(code, found.end()) for found in WRITTEN.finditer(code))


def body_of(source: str, name: str) -> str:
    """Returns the body of the first function of this name in a source; empty if there is none."""
    return next((source[it.body : it.end] for it in written_in(without_text(source)) if it.name == name), "")


def read_function(code: str, at: int, is_pub: bool) -> Tuple[Function, int]:
    """Returns the function whose name begins at a place, and the place after it."""
    it = written_at(code, at)
    takes_self = re.match(r"\(\s*(?:&\s*(?:'\w+\s+)?)?(?:mut\s+)?self\b", code[it.params : it.body]) is not None
    is_law = code[it.body : it.body + 1] == "{" and not code[it.body + 1 : it.end - 1].strip()
    return Function(it.name, is_pub, takes_self, is_law, code[it.params : it.body]), it.end


def functions_in(code: str, all_pub: bool) -> List[Function]:
    """Returns the functions in the body of a type or of a trait; all of a public trait's functions are public."""
    found, place = [], 0
    for item in ITEM.finditer(code):
        if item.start() >= place and item["kind"] == "fn":
            function, place = read_function(code, item.end(), all_pub or bool(item["pub"]) and not item["within"])
            found.append(function)
    return found


def without_brackets(text: str) -> str:
    """Returns a text without the brackets < > that it may begin with; the > of an arrow does not count."""
    depth = 0
    for at, letter in enumerate(text):
        depth += (letter == "<") - (letter == ">" and text[at - 1:at] != "-")
        if depth == 0:
            return text[at + 1:] if at else text
    return text


def type_of_impl(header: str) -> str:
    """Returns the type to which an `impl` adds functions, or nothing if they are those of a trait."""
    header = without_brackets(header.strip())
    return "" if re.search(r"\bfor\b", header) else (NAME.search(header) or [""])[0]


def read_use(module: Module, tree: str, before: str = "") -> None:
    """Records the names that a `pub use` exports again: each name, with the path before it."""
    tree = tree.strip()
    brace = tree.find("{")
    if brace < 0:
        path, _, name = f"{before}{tree}".rpartition("::")
        module.uses.append((path, name))
        return
    for part in re.split(r",(?![^{]*\})", tree[brace + 1 : tree.rindex("}")]):
        if part.strip():
            read_use(module, part, before + tree[:brace])


def read_items(code: str) -> Module:
    """Returns the contents of a module, whose source has no text in it."""
    module, place = Module(), 0
    module.definitions = used_in(code)
    starts = [(found.start(), found) for found in ITEM.finditer(code)]
    starts += [(found.start(), found) for found in IMPL.finditer(code)]
    for start, found in sorted(starts, key=lambda each: each[0]):
        if start >= place:
            place = read_item(module, code, found)
    return module


def read_item(module: Module, code: str, found: "re.Match[str]") -> int:
    """Reads an item of a module, and returns the place after it."""
    if found[0] == "impl":
        brace = code.index("{", found.end())
        end, name = closing(code, brace), type_of_impl(code[found.end() : brace])
        if name:
            module.methods.setdefault(name, []).extend(functions_in(code[brace + 1 : end - 1], False))
        return end
    is_pub, kind = bool(found["pub"]) and not found["within"], found["kind"]
    if kind == "fn":
        function, end = read_function(code, found.end(), is_pub)
        module.functions[function.name] = function
        if found["pub"]:
            module.offered_functions.add(function.name)
        return end
    if kind in ("use", "mod"):
        end = code.index(";", found.end())
        if is_pub and kind == "use":
            read_use(module, code[found.end() : end])
        elif is_pub:
            module.pub_modules.append(code[found.end() : end].strip())
        return end
    if found["pub"]:
        module.offered_types.add(named_at(code, found.end()))
    return read_type(module, code, found.end(), kind, is_pub)


def read_type(module: Module, code: str, at: int, kind: str, is_pub: bool) -> int:
    """Reads a type or a trait whose name begins at a place, and returns the place after it."""
    name, brace, semicolon = named_at(code, at), code.find("{", at), code.find(";", at)
    if is_pub:
        module.pub_types.add(name)
    if brace < 0 or 0 <= semicolon < brace:
        return semicolon + 1
    end = closing(code, brace)
    if kind == "trait":
        module.traits.add(name)
        module.methods.setdefault(name, []).extend(functions_in(code[brace + 1 : end - 1], True))
    return end


def path_of(source: Path, file: Path) -> str:
    """Returns the path of a module, given its file: empty for the root."""
    parts = list(file.relative_to(source).with_suffix("").parts)
    return "" if parts in (["lib"], ["main"]) else "::".join(parts[:-1] if parts[-1] == "mod" else parts)


def modules_of(crate: str) -> Dict[str, Module]:
    """Returns the modules of a crate, by their paths."""
    source = ROOT / "crates" / crate / "src"
    return {path_of(source, file): read_items(without_text(file.read_text(encoding="utf-8"))) for file in sorted(source.rglob("*.rt"))}


# The function around a place of a source, as a check names it

def owner_of(lines: List[str]) -> str:
    """Returns the type, with the trait behind it, of the last impl block that begins in these lines, as a check names
    it: without lifetimes and type parameters."""
    head = next((line for line in reversed(lines) if re.match(r"impl\b", line)), "")[len("impl"):]
    rest = without_brackets(head)
    block = IMPLEMENTED.match(rest.strip())
    if block is None:
        return ""
    parameters = re.findall(r"[<,]\s*(\w+)", head[: len(head) - len(rest)])
    words = re.findall(r"[\w:]+", re.sub(r"'\w+", "", block.group(1) or ""))
    return "".join(word.split("::")[-1] for word in [block.group(2), *words] if word not in parameters)


class Changed(NamedTuple):
    """A function: the end of the name that a check prints for it, and its cycle of calls, if it is in one."""

    name: str
    cycle: str

    @property
    def proof(self) -> str:
        """The unit of proof: the functions of a cycle of calls have one proof."""
        return f"+{self.cycle}" if self.cycle else self.name


def cycle_of(lines: List[str]) -> str:
    """Returns the cycle of calls that the attributes and comments at the end of these lines name, if they name one."""
    for line in reversed(lines):
        named = CYCLE.fullmatch(line)
        if named or not line.lstrip().startswith(("#[", "//")):
            return named[1] if named else ""
    return ""


def function_at(path: str, before: str) -> Optional[Changed]:
    """Returns the function around the end of a text of a source file, if there is one."""
    lines = before.split("\n")
    heads = [(at, found) for at, found in enumerate(map(FUNCTION.match, lines)) if found]
    if not heads or f"{heads[-1][1].group(1)}}}" in lines[heads[-1][0] + 1:]:
        return None
    at, head = heads[-1]
    module = [part for part in Path(path).with_suffix("").parts[1:] if part not in ("lib", "main", "mod")]
    name = "::".join([*([owner_of(lines[:at])] if head.group(1) else module), head.group(2)])
    return Changed(name, cycle_of(lines[:at]))


def function_of(text: str, path: str, names: Set[str]) -> str:
    """Returns the functions of a source file that have one of these names, each with the lines directly above it."""
    lines, found = text.split("\n"), []
    for at, head in enumerate(map(FUNCTION.match, lines)):
        changed = function_at(path, "\n".join(lines[: at + 1])) if head else None
        if head and changed and changed.name in names:
            end = next((k for k in range(at, len(lines)) if lines[k] == f"{head[1]}}}"), len(lines) - 1)
            begin = at
            while begin and lines[begin - 1].lstrip().startswith(("#[", "//")):
                begin -= 1
            found.append("\n".join(lines[begin : end + 1]))
    return "\n".join(found)
