"""Changes of definitions, one at a time: those that tools/attack definitions picks from.

A change keeps the form of a definition: its names, its fields and the number of its parts. So what stands on the definition
names nothing that is gone, and a refusal says something about what the definition means.
"""
from __future__ import annotations

import re
from itertools import combinations
from pathlib import Path
from typing import Dict, Iterator, List, NamedTuple, Sequence, Set, Tuple

from .antt_files import DEFINED

# The words of a text: strings, brackets, commas, and everything else that stands between spaces
WORD = re.compile(r'"[^"]*"|[(){}\[\],λ]|[^\s(){}\[\],λ"]+')
OPENS, CLOSES = "([{", ")]}"
# The words at which an operand of the logic, of a test, and of a list ends
ENDS = {"=", ",", "then", "else", "if", "let", "in", "↦", "|"}
OF_LOGIC = ENDS | {"×", "⊎", "→", "↔", ":"}
OF_TESTS = OF_LOGIC | {"&&", "||", "≡", "++", "∷"}
OF_LISTS = OF_LOGIC | {"++", "≡", "∷"}
# For each operator: the words at which its operands end, what stands for a dropped operand, and the kind of the change
DROPS: Dict[str, Tuple[Set[str], str, str]] = {
    "×": (OF_LOGIC, "Unit {0}", "factor"), "&&": (OF_TESTS, "true", "factor"), "⊎": (OF_LOGIC, "⊥", "disjunct"),
    "||": (OF_TESTS, "false", "disjunct"), "→": (OF_LOGIC, "Unit {0}", "premise"), "++": (OF_LISTS, "[]", "part")}
STRICTNESS = {"<": "≤", "≤": "<", "nat_lt": "nat_le", "nat_le": "nat_lt"}
OPPOSITES = {"true": "false", "false": "true"}
# What a change may bring that a file has to import
BROUGHT = {"true", "false", "nat_lt", "nat_le", "◌<◌", "◌≤◌"}
# Types of many values that are written with an argument, and so look like the premises that they are not
HOLDERS = {"List", "Option", "Type", "Vec", "IndexMap", "Bor", "Result"}
KINDS = ("constant", "strictness", "branches", "factor", "disjunct", "premise", "part")
LISTED = re.compile(r"\buse\s+Rattle\.(\w+)\.specs\.([\w.-]+)\.\{([^}]*)\}")
RENAMED = re.compile(r"\buse\s+Rattle\.(\w+)\.specs\.declared\.[\w.-]*?(\w+)\.TheVariants\s+as\s+(\w+)")
PRELUDE = re.compile(r"^use Rattle\.std\.specs\.Prelude\.\{.*$", re.MULTILINE)
VARIANTS = re.compile(r"\benum\s+(\w+)[^{]*\{(.*?)\n\}", re.DOTALL)


class Definition(NamedTuple):
    """A definition: its name, its sort (`record`, `data` or nothing), and its lines, from the first one on."""

    name: str
    sort: str
    first: int
    lines: List[str]


class Change(NamedTuple):
    """A change of a definition in a file of its crate: pairs of an old line and a new one."""

    kind: str
    name: str
    path: str
    pairs: Tuple[Tuple[str, str], ...]


class Word(NamedTuple):
    """A word of a line, with the column at which it begins and the number of brackets that are open there."""

    text: str
    at: int
    depth: int


class Region(NamedTuple):
    """A part of a line that may change: the number of the line, the column at which the part begins, whether it goes on
    from the line before, and whether it goes on in the next one."""

    line: int
    start: int
    continues: bool
    goes_on: bool


def indent_of(line: str) -> int:
    """Returns the number of spaces before a line."""
    return len(line) - len(line.lstrip())


def definitions_in(source: str) -> Iterator[Definition]:
    """Yields the public definitions of a file."""
    lines = source.split("\n")
    at = 0
    while at < len(lines):
        head = DEFINED.match(lines[at])
        words = head[1].split() if head else []
        if not head or "pub" not in words or head[2] in ("mod", "use", "mutual"):
            at += 1
            continue
        end, indent = at + 1, indent_of(lines[at])
        while end < len(lines) and lines[end].strip():
            if indent_of(lines[end]) <= indent and lines[end].split()[0] != head[2]:
                break
            end += 1
        sort = next((it for it in ("record", "data") if it in words), "")
        yield Definition(head[2], sort, at, lines[at:end])
        at = end


def words_of(text: str, start: int = 0) -> List[Word]:
    """Returns the words of a line from a column on."""
    words: List[Word] = []
    depth = 0
    for found in WORD.finditer(text, start):
        depth -= found[0] in CLOSES
        words.append(Word(found[0], found.start(), depth))
        depth += found[0] in OPENS
    return words


def begins(definition: Definition, line: str, indent: int) -> bool:
    """Whether a line begins what may change: a clause, a field or a constructor."""
    if definition.sort:
        return re.match(r"\s+(pub\s+)?[^\s:]+( [^\s:]+)* : ", line) is not None
    return indent_of(line) == indent and line.split()[0] == definition.name


def regions(definition: Definition) -> Iterator[Region]:
    """Yields the parts of a definition that may change: what stands behind the `=` of a clause, and the types of fields
    and constructors."""
    indent, mark = indent_of(definition.lines[0]), " : " if definition.sort else " ="
    is_open = False
    for number, line in enumerate(definition.lines[1:], 1):
        starts = begins(definition, line, indent)
        is_open = (is_open or starts) and not line.lstrip().startswith(("--", "unfolding "))
        if is_open:
            after = definition.lines[number + 1] if number + 1 < len(definition.lines) else ""
            goes_on = bool(after) and not begins(definition, after, indent)
            yield Region(number, line.find(mark) + len(mark) if starts else 0, not starts, goes_on)


def replaced(line: str, word: Word, text: str) -> str:
    """Returns a line with another text in the place of a word."""
    return line[:word.at] + text + line[word.at + len(word.text):]


def clauses(definition: Definition) -> List[Tuple[int, str, str]]:
    """Returns the clauses of a function that stand on one line each: the number of the line, and what stands before and
    behind its `=`."""
    found = []
    for region in regions(definition):
        line = definition.lines[region.line]
        if not definition.sort and not region.continues and not region.goes_on and line[region.start:].strip():
            found.append((region.line, line[:region.start], line[region.start:]))
    return found


def variables(text: str) -> Set[str]:
    """Returns the words of a text that may be variables of a pattern."""
    return {part for word in words_of(text) for part in [word.text.split(".")[0]] if re.match(r"[a-z]\w*'?$", part)}


def swapped_clauses(definition: Definition) -> Iterator[Tuple[Tuple[str, str], ...]]:
    """Yields the swaps of two clauses of a function that use no variable of their own patterns that the other one lacks."""
    for (_, head, body), (_, other, instead) in combinations(clauses(definition), 2):
        bound = variables(head), variables(other)
        lost = (variables(body) & bound[0]) - bound[1] | (variables(instead) & bound[1]) - bound[0]
        if body != instead and not lost:
            yield (head + body, head + instead), (other + instead, other + body)


def span(words: Sequence[Word], at: int, step: int, ends: Set[str]) -> Tuple[int, bool]:
    """Returns the last word of the operand that stands at one side of an operator, and whether the line ends there."""
    here = at
    while 0 <= here + step < len(words):
        word = words[here + step]
        is_end = word.text in ends or len(word.text) > 1 and word.text.endswith(".")
        if word.depth < words[at].depth or word.depth == words[at].depth and is_end:
            return here, False
        here += step
    return here, True


def is_operand(text: str, operator: str) -> bool:
    """Whether a text may be dropped as an operand of an operator: it binds no variable and is not itself what stands for
    a dropped operand; and in front of an arrow it is a fact, and no type of a value."""
    if not text or text == DROPS[operator][1] or re.match(r"[({][^(){}]* : ", text) or text.startswith("{"):
        return False
    head = text.strip("(").split()[0]
    return operator != "→" or " " in text and head not in HOLDERS


def dropped(line: str, words: Sequence[Word], at: int, region: Region) -> Iterator[str]:
    """Yields the line without one of the operands of the operator at a place, or of the one before an arrow."""
    operator = words[at].text
    ends, stand_in, _ = DROPS[operator]
    for step in (-1, 1) if operator != "→" else (-1,):
        last, is_cut = span(words, at, step, ends - {"∷"} if step > 0 else ends)
        if last == at or is_cut and (region.continues if step < 0 else region.goes_on):
            continue
        first, last = (last, at - 1) if step < 0 else (at + 1, last)
        start, end = words[first].at, words[last].at + len(words[last].text)
        if is_operand(line[start:end], operator):
            yield line[:start] + stand_in + line[end:]


def swapped_arms(line: str, words: Sequence[Word], region: Region) -> Iterator[str]:
    """Yields the line with the two arms of a choice that stands on it swapped."""
    for at, word in enumerate(words):
        same = [other for other in range(at + 1, len(words)) if words[other].depth == word.depth]
        arms = [other for other in same if words[other].text in ("then", "else")][:2]
        if word.text != "if" or [words[it].text for it in arms] != ["then", "else"]:
            continue
        then, other = arms
        last, is_cut = span(words, other, 1, {","})
        if last > other and not (is_cut and region.goes_on):
            end = words[last].at + len(words[last].text)
            one, two = line[words[then].at + 5:words[other].at - 1], line[words[other].at + 5:end]
            yield f"{line[:words[then].at]}then {two} else {one}{line[end:]}"


class Values(NamedTuple):
    """The words of a file that stand for values of one type: those without an argument, each list of one type."""

    lists: List[List[str]]

    def others(self, word: str) -> List[str]:
        """Returns the next value and the one before, of the type that a word is of."""
        for those in self.lists:
            if word in those and len(those) > 1:
                at = those.index(word)
                return sorted({those[at - 1], those[(at + 1) % len(those)]})
        return []


def plain_variants(root: Path, crate: str) -> Dict[str, List[str]]:
    """Returns the variants without a payload of each enum of a crate."""
    found: Dict[str, List[str]] = {}
    for file in sorted((root / "crates" / crate / "src").rglob("*.rt")):
        for name, body in VARIANTS.findall(file.read_text(encoding="utf-8")):
            lines = re.sub(r"//.*|#\[.*?\]", "", body).split("\n")
            found[name] = [it for line in lines for it in re.findall(r"^\s*([A-Z]\w*)\s*(?:,|$)", line)]
    return found


def plain_constructors(source: str) -> Iterator[List[str]]:
    """Yields the constructors without an argument of each type of a file."""
    for it in definitions_in(source):
        if it.sort == "data":
            lines = [line.strip().split(" : ") for line in it.lines[1:] if line.strip().endswith(f" : {it.name}")]
            yield [name for names, *_ in lines for name in names.split()]


def values_of(root: Path, source: str) -> Values:
    """Returns the values that the changes of a file may put in the place of one another."""
    lists = list(plain_constructors(source))
    for crate, path, names in LISTED.findall(source):
        told = {it.strip() for it in names.split(",")}
        if path.endswith(".TheVariants"):
            lists.append([it for it in plain_variants(root, crate).get(path.split(".")[-2], []) if it in told])
        else:
            file = root / "crates" / crate / "specs" / f"{path.replace('.', '/')}.antt"
            found = plain_constructors(file.read_text(encoding="utf-8")) if file.is_file() else iter(())
            lists += [[it for it in those if it in told] for those in found]
    for crate, name, alias in RENAMED.findall(source):
        lists.append([f"{alias}.{it}" for it in plain_variants(root, crate).get(name, [])])
    return Values(lists)


def constants(line: str, words: Sequence[Word], at: int, values: Values) -> Iterator[str]:
    """Yields the line with a neighbour of the constant at a place."""
    word = words[at]
    others = values.others(word.text)
    if word.text in OPPOSITES:
        others = [OPPOSITES[word.text]]
    elif word.text.isdigit() and line[word.at - 1:word.at] != "{":
        others = [str(it) for it in (int(word.text) - 1, int(word.text) + 1) if it >= 0]
    elif len(word.text) > 2 and word.text[0] == word.text[-1] == '"':
        others = [re.sub(r'\\?."$', '"', word.text)]
    for other in others:
        yield replaced(line, word, other)


def first_items(line: str, words: Sequence[Word], at: int, region: Region) -> Iterator[str]:
    """Yields the line without the item that stands in front of the rest of a list."""
    last, is_cut = span(words, at, -1, OF_LISTS)
    if last < at and not (is_cut and region.continues) and at + 1 < len(words):
        yield line[:words[last].at] + line[words[at + 1].at:]


def changes_of_line(line: str, region: Region, values: Values) -> Iterator[Tuple[str, str]]:
    """Yields the changes of a part of a line, each with its kind."""
    words = words_of(line, region.start)
    for at, word in enumerate(words):
        if word.text in DROPS:
            yield from ((DROPS[word.text][2], it) for it in dropped(line, words, at, region))
        elif word.text in STRICTNESS:
            yield "strictness", replaced(line, word, STRICTNESS[word.text])
        elif word.text == "∷":
            yield from (("part", it) for it in first_items(line, words, at, region))
        else:
            yield from (("constant", it) for it in constants(line, words, at, values))
    yield from (("branches", it) for it in swapped_arms(line, words, region))


def known_in(source: str) -> Set[str]:
    """Returns what a file imports by name."""
    return {it.strip() for names in re.findall(r"\buse \S+\.\{([^}]*)\}", source) for it in names.split(",")}


def with_import(source: str, pairs: Tuple[Tuple[str, str], ...]) -> Tuple[Tuple[str, str], ...]:
    """Returns the pairs of a change, with one that imports the empty list where the change brings it to a file that does
    not know it."""
    is_brought = any("[]" in new and "[]" not in old for old, new in pairs) and "[]" not in known_in(source)
    line = PRELUDE.search(source) if is_brought else None
    return (*pairs, (line[0], line[0].replace("{", "{[], ", 1))) if line else pairs


def fits(source: str, pairs: Sequence[Tuple[str, str]]) -> bool:
    """Whether each old line occurs once in a file, one pair after another, and each word that a change brings is known
    there."""
    known = known_in(source)
    for old, new in pairs:
        brought = {it.text for it in words_of(new)} - {it.text for it in words_of(old)}
        used = {"◌<◌" if it == "<" else "◌≤◌" if it == "≤" else it for it in brought}
        if source.count(old) != 1 or used & BROUGHT - known:
            return False
        source = source.replace(old, new)
    return True


def changes_in(root: Path, path: str, source: str) -> Iterator[Change]:
    """Yields the changes of the definitions of a file. The path is that in its crate."""
    values = values_of(root, source)
    for definition in definitions_in(source):
        found: List[Tuple[str, Tuple[Tuple[str, str], ...]]] = []
        for region in regions(definition):
            line = definition.lines[region.line]
            found += [(kind, ((line, it),)) for kind, it in changes_of_line(line, region, values)]
        found += [("branches", pairs) for pairs in swapped_clauses(definition)]
        seen: Set[Tuple[Tuple[str, str], ...]] = set()
        for kind, pairs in found:
            if pairs not in seen and fits(source, pairs):
                seen.add(pairs)
                yield Change(kind, definition.name, path, with_import(source, pairs))
