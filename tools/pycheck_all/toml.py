"""One table of a file in TOML.

Python has a reader of its own only from 3.11 on, so this one is used in every version, with the same answers in each.
The other tables are skipped by their words alone: their numbers and dates are not checked."""
from __future__ import annotations

import re
from typing import Any, Dict, Iterator, List, NamedTuple, Sequence, Set, Tuple

MOST_LEVELS = 32
BLANK = re.compile(r"[ \t]*")
# The text allowed between the values of an array: also comments and ends of lines
BETWEEN = re.compile(r"(?:[ \t\r\n]|#[^\n]*)*")
END = re.compile(r"[ \t]*(?:#[^\n]*)?(?:\r?\n|\Z)")
BARE = re.compile(r"[A-Za-z0-9_-]+")
# A number, a truth value or a time, which may have a blank between its day and its hour
OTHER = re.compile(r"[A-Za-z0-9_+.:-]+(?: [0-9]+:[0-9:.Z+-]+)?")
STRINGS = (
    ('"""', re.compile(r'"""([^"\\]*(?:(?:\\.|"{1,2}(?!"))[^"\\]*)*"{0,2})"""', re.DOTALL)),
    ("'''", re.compile(r"'''([^']*(?:'{1,2}(?!')[^']*)*'{0,2})'''", re.DOTALL)),
    ('"', re.compile(r'"([^"\\\n]*(?:\\[^\n][^"\\\n]*)*)"')),
    ("'", re.compile(r"'([^'\n]*)'")),
)
ESCAPE = re.compile(r"\\(?:u([0-9A-Fa-f]{4})|U([0-9A-Fa-f]{8})|([ \t]*\r?\n[ \t\r\n]*)|(.))", re.DOTALL)
ESCAPED = {"b": "\b", "t": "\t", "n": "\n", "f": "\f", "r": "\r", '"': '"', "\\": "\\"}
Path = Tuple[str, ...]


class NoToml(Exception):
    """A text is not TOML; the text of the exception says where and why."""


class Other(NamedTuple):
    """A value that is neither a text nor an array nor a table, as it is written."""

    text: str


class Statement(NamedTuple):
    """A value at its path; or the head of a table, which has none."""

    path: Path
    value: Any
    is_head: bool
    is_of_array: bool


def unescaped(found: "re.Match[str]") -> str:
    """Returns the characters of an escape; raises ValueError."""
    short, long, end, letter = found.groups()
    if end is not None:
        return ""
    if letter is not None:
        return ESCAPED[letter] if letter in ESCAPED else character(-1)
    return character(int(short or long, 16))


def character(number: int) -> str:
    """Returns the character with a number; raises ValueError if there is none."""
    if not 0 <= number <= 0x10FFFF or 0xD800 <= number <= 0xDFFF:
        raise ValueError
    return chr(number)


class Reader:
    """Reads the statements of a text, one after the other."""

    def __init__(self, text: str) -> None:
        self.text = text
        self.at = 0

    def fault(self, why: str) -> NoToml:
        """Returns the fault at the place that was reached."""
        return NoToml(f"line {1 + self.text.count(chr(10), 0, self.at)}: {why}")

    def has(self, sign: str) -> bool:
        """Reads a sign, if it comes next. Returns whether it did."""
        found = self.text.startswith(sign, self.at)
        self.at += len(sign) if found else 0
        return found

    def pass_over(self, pattern: "re.Pattern[str]") -> bool:
        """Reads the text that a pattern fits, if it comes next. Returns whether it did."""
        found = pattern.match(self.text, self.at)
        self.at = found.end() if found else self.at
        return found is not None

    def statements(self) -> Iterator[Statement]:
        """Yields the statements, each with the path of its table before its own."""
        table: Path = ()
        while True:
            self.pass_over(BETWEEN)
            if self.at >= len(self.text):
                return
            if self.has("["):
                is_of_array = self.has("[")
                table = self.path()
                if not self.has("]]" if is_of_array else "]"):
                    raise self.fault("the head of a table is not closed")
                yield Statement(table, None, True, is_of_array)
            else:
                yield Statement(table + self.path(), self.assigned(0), False, False)
            if not self.pass_over(END):
                raise self.fault("something stands after a statement")

    def path(self) -> Path:
        """Reads a key, with the dots in it."""
        names = [self.name()]
        while self.has("."):
            names.append(self.name())
        return tuple(names)

    def name(self) -> str:
        """Reads a part of a key, with the blanks around it."""
        self.pass_over(BLANK)
        found = BARE.match(self.text, self.at)
        if found:
            self.at = found.end()
            name = found[0]
        elif self.text.startswith(('"', "'"), self.at) and not self.text.startswith(('"""', "'''"), self.at):
            name = self.string()
        else:
            raise self.fault("a key is missing")
        self.pass_over(BLANK)
        return name

    def assigned(self, level: int) -> Any:
        """Reads the value after the equals sign."""
        if not self.has("="):
            raise self.fault("a key has no value")
        self.pass_over(BLANK)
        return self.value(level)

    def value(self, level: int) -> Any:
        """Reads a value."""
        if level > MOST_LEVELS:
            raise self.fault("it is nested too deep")
        if self.text.startswith(('"', "'"), self.at):
            return self.string()
        if self.has("["):
            return self.array(level + 1)
        if self.has("{"):
            return self.inline(level + 1)
        found = OTHER.match(self.text, self.at)
        if not found:
            raise self.fault("a value is missing")
        self.at = found.end()
        return Other(found[0])

    def string(self) -> str:
        """Reads a text in quotes."""
        for quotes, pattern in STRINGS:
            if self.text.startswith(quotes, self.at):
                break
        found = pattern.match(self.text, self.at)
        if not found:
            raise self.fault("a text has no end")
        inner = found[1]
        if len(quotes) == 3:
            inner = re.sub(r"\A\r?\n", "", inner)
        try:
            text = ESCAPE.sub(unescaped, inner) if quotes[0] == '"' else inner
        except ValueError:
            raise self.fault("a text has an escape that is none") from None
        self.at = found.end()
        return text

    def array(self, level: int) -> List[Any]:
        """Reads the values of an array whose opening bracket was read."""
        values: List[Any] = []
        while True:
            self.pass_over(BETWEEN)
            if self.has("]"):
                return values
            values.append(self.value(level))
            self.pass_over(BETWEEN)
            if not self.has(",") and not self.text.startswith("]", self.at):
                raise self.fault("an array is not closed")

    def inline(self, level: int) -> Dict[str, Any]:
        """Reads the values of a table in braces whose opening brace was read."""
        table: Dict[str, Any] = {}
        self.pass_over(BLANK)
        if self.has("}"):
            return table
        while True:
            path = self.path()
            self.put(table, path, self.assigned(level))
            self.pass_over(BLANK)
            if self.has("}"):
                return table
            if not self.has(","):
                raise self.fault("a table in braces is not closed")

    def open(self, table: Dict[str, Any], path: Sequence[str]) -> Dict[str, Any]:
        """Returns the table at a path from another one, which is made if it is missing."""
        for name in path:
            table = table.setdefault(name, {})
            if not isinstance(table, dict):
                raise self.fault("a key stands twice")
        return table

    def put(self, table: Dict[str, Any], path: Sequence[str], value: Any) -> None:
        """Puts a value into a table at a path, which must be free."""
        holder = self.open(table, path[:-1])
        if path[-1] in holder:
            raise self.fault("a key stands twice")
        holder[path[-1]] = value


def table_of(text: str, path: Path) -> Any:
    """Returns the value at a path: a table as a dictionary, and None if nothing is there. Raises NoToml if the text is
    not TOML, or has the table twice."""
    reader = Reader(text)
    found: Any = {}
    heads: Set[Path] = set()
    for statement in reader.statements():
        common = min(len(path), len(statement.path))
        if statement.path[:common] != path[:common] or (statement.is_head and len(statement.path) < len(path)):
            continue
        if not statement.is_head:
            reader.put(found, statement.path, statement.value)
        elif statement.is_of_array or statement.path in heads:
            raise reader.fault("a table stands twice, or is one of many")
        else:
            heads.add(statement.path)
            reader.open(found, statement.path)
    for name in path:
        found = found.get(name) if isinstance(found, dict) else None
    return found
