"""Cuts modules at every length, and compares what pycheck answers with an independent reading.

    tools/attack truncate PYCHECK ROWS.json [NAME..]
    tools/attack truncate PYCHECK FOLDER [NAME..]

takes from ROWS.json or a FOLDER of modules (see tools/compare rows) the named ones, or without a name each of at most 400 bytes
that is answered with a report. Each is cut at every length from 0 to its own, inside characters too, and each cut is
checked. What the answer must be is told by a reader of its own, which stands in this file and knows nothing of the program: the
rules of source text, tokens and layout as docs/LEXICAL.md states them, and the grammar as a table, read by Earley's method, which
finds the first token after which no module can follow. A cut that spells a module must be answered with the row's own report:
it lacks no more than the last line end. `G2` needs an expression 65 deep, which no such row has, and the reader leaves it out.
For the module of 73 bytes some answers are also given here as numbers, worked out by hand; the reader is compared with them too.

Prints each cut that is answered otherwise, and last how many agree and how many differ. The exit status is 1 where one differs.
"""
from __future__ import annotations

import os
import unicodedata
from typing import Dict, Iterator, List, NoReturn, Optional, Sequence, Set, Tuple

from ..compare import rows
from ..words import Words

# A token: its kind, its form, and the characters at which it begins and ends; and one of the layout, without its end
Token = Tuple[str, str, int, int]
LaidOut = Tuple[str, str, int]
# A logical line: its column, its tokens, and the place of its end
Line = Tuple[int, List[Token], int]
# A rule of the grammar: its name, and the parts that it reads; and how much of it is read, from which column
Rule = Tuple[str, Tuple[str, ...]]
Item = Tuple[Rule, int, int]

MOST = 400
KEYWORDS = set("False None True and as assert async await break class continue def del elif else except finally for from global if"
               " import in is lambda nonlocal not or pass raise return try while with yield".split())
RESERVED = set("Any annotations bool dataclass dict int isinstance len list object print range str tuple".split())
EXCLUDED = set("as async await del except finally from global import lambda nonlocal raise try with yield".split())
OPERATORS = sorted("+ - * // % == != < <= > >= = ( ) [ ] { } , : . | -> @".split(), key=len, reverse=True)
UNUSED = sorted("/ ** & ^ ~ << >> := += -= *= /= //= %= **= &= |= ^= <<= >>= @= ; ...".split(), key=len, reverse=True)
SIGNS = sorted(OPERATORS + UNUSED, key=len, reverse=True)
CLOSES = {")": "(", "]": "[", "}": "{"}
HEADERS = [words.split() for words in ("from __future__ import annotations", "from dataclasses import dataclass", "from typing import Any")]

# By hand: the lengths of the module of 73 bytes, and the answer to each cut; 0 for its own report.
BY_HAND = {0: "G1 0", 3: "G1 0", 4: "N1 0", 7: "L4 5", 15: "N1 0", 20: "N1 0", 33: "N1 0", 34: "G1 34", 44: "L5 44", 45: "G1 45",
           46: "G1 46", 51: "G1 51", 61: "G1 61", 62: "G1 62", 63: "L2 62", 64: "L2 62", 65: "G1 65", 71: "L5 71", 72: "", 73: ""}

# A word in quotes is a token of that text, a word in capitals one of that kind; an empty choice is nothing.
GRAMMAR = """
module: 'from' '__future__' 'import' 'annotations' NEWLINE dataclasses any items 'main' '(' ')' NEWLINE END
dataclasses: | 'from' 'dataclasses' 'import' 'dataclass' NEWLINE
any: | 'from' 'typing' 'import' 'Any' NEWLINE
items: | items item
item: NAME '=' expr NEWLINE | NAME ':' ann '=' expr NEWLINE | class | def
class: '@' 'dataclass' NEWLINE 'class' NAME base ':' NEWLINE INDENT members DEDENT
base: | '(' NAME ')'
members: 'pass' NEWLINE | some_members
some_members: member | some_members member
member: NAME ':' ann NEWLINE | NAME ':' ann '=' literal NEWLINE | 'def' NAME '(' 'self' more_params comma ')' returns ':' suite
more_params: | more_params ',' param
comma: | ','
literal: INT | '-' INT | STR | 'True' | 'False' | 'None'
def: 'def' NAME '(' ')' returns ':' suite | 'def' NAME '(' param more_params comma ')' returns ':' suite
param: NAME | NAME ':' ann | NAME '=' literal | NAME ':' ann '=' literal
returns: | '->' ann
suite: NEWLINE INDENT stmts DEDENT
stmts: stmt | stmts stmt
stmt: simple NEWLINE | 'while' expr ':' suite | 'for' NAME 'in' expr ':' suite | 'if' expr ':' suite elifs else
elifs: | elifs 'elif' expr ':' suite
else: | 'else' ':' suite
simple: 'pass' | 'break' | 'continue' | 'return' | 'return' expr | 'assert' expr | 'assert' expr ',' expr | binding
binding: NAME ':' ann | NAME ':' ann '=' expr | target '=' expr | expr
target: NAME | postfix '.' NAME | postfix '[' expr ']'
expr: and | expr 'or' and
and: not | and 'and' not
not: 'not' not | cmp
cmp: sum | sum compared sum | sum 'is' 'None' | sum 'is' 'not' 'None'
compared: '==' | '!=' | '<' | '<=' | '>' | '>=' | 'in' | 'not' 'in'
sum: term | sum '+' term | sum '-' term
term: unary | term '*' unary | term '//' unary | term '%' unary
unary: '-' unary | postfix
postfix: atom | postfix '.' NAME | postfix '[' expr ']' | postfix '(' ')' | postfix '(' arguments comma ')'
arguments: exprs | named | exprs ',' named
exprs: expr | exprs ',' expr
named: NAME '=' expr | named ',' NAME '=' expr
atom: NAME | INT | STR | 'True' | 'False' | 'None' | '(' expr ')' | '(' ')' | '(' expr ',' ')' | '(' expr ',' exprs comma ')' | display
display: '[' ']' | '[' exprs comma ']' | '{' '}' | '{' entries comma '}'
entries: expr ':' expr | entries ',' expr ':' expr
ann: part | ann '|' part
part: NAME | 'None' | NAME '[' anns ']' | NAME '[' '(' ')' ']'
anns: ann | anns ',' ann
"""


class Refused(Exception):
    """Raised for a refusal: its code and its byte."""


# The source text

def coding_fault(line: str) -> Optional[int]:
    """Returns the place of the first `#` of a line, if a coding other than utf-8 is named after it."""
    mark = line.find("#")
    for word in ("coding:", "coding=") if mark >= 0 else ():
        at = line.find(word, mark)
        while at >= 0:
            if not line[at + len(word) :].lstrip(" ").startswith("utf-8"):
                return mark
            at = line.find(word, at + 1)
    return None


def text_of(data: bytes) -> str:
    """Returns the text of the bytes; raises Refused if they have a fault of the source."""
    if len(data) > 1 << 20:
        raise Refused("S1", 1 << 20)
    if data.startswith(b"\xef\xbb\xbf"):
        raise Refused("S3", 0)
    try:
        text = data.decode()
    except UnicodeDecodeError as fault:
        raise Refused("S2", fault.start) from None
    faults: List[Tuple[int, str]] = []
    start = 0
    for at, byte in enumerate(data):
        if byte in (0, 12) or (byte == 13 and data[at + 1 : at + 2] != b"\n"):
            faults.append((at, "S4"))
            break
    for line in text.split("\n")[:2]:
        named = coding_fault(line)
        if named is not None:
            faults.append((start + len(line[:named].encode()), "S5"))
        start += len(line.encode()) + 1
    if faults:
        byte, code = min(faults)
        raise Refused(code, byte)
    return text


# Tokens: (kind, form, character at which it begins, character after it)

def begins_name(character: str) -> bool:
    return character.isidentifier()


def goes_on(character: str) -> bool:
    return character != "" and ("a" + character).isidentifier()


def is_digit(character: str) -> bool:
    return character != "" and character in "0123456789"


class Lexer:
    """Reads a text into logical lines: each a column, its tokens, and the place of its end."""

    def __init__(self, text: str) -> None:
        self.text, self.at, self.column = text, 0, 0
        self.lines: List[Line] = []
        self.line: List[Token] = []
        self.open: List[str] = []

    def refuse(self, code: str, at: int) -> NoReturn:
        raise Refused(code, len(self.text[:at].encode()))

    def peek(self, more: int = 0) -> str:
        return self.text[self.at + more : self.at + more + 1]

    def at_line_end(self) -> bool:
        return self.text.startswith(("\n", "\r\n"), self.at)

    def end_line(self) -> None:
        if self.line:
            self.lines.append((self.column, self.line, self.at))
        self.line = []

    def read(self) -> List[Line]:
        """Returns all logical lines."""
        self.begin_line()
        while self.at < len(self.text):
            if self.at_line_end():
                if not self.open:
                    self.end_line()
                self.at = self.text.index("\n", self.at) + 1
                if not self.open:
                    self.begin_line()
            elif self.peek() in " \t":
                self.at += 1
            elif self.peek() == "#":
                self.skip_comment()
            else:
                self.token()
        if self.open:
            self.refuse("L5", len(self.text))
        self.end_line()
        return self.lines

    def skip_comment(self) -> None:
        while self.at < len(self.text) and not self.at_line_end():
            self.at += 1

    def begin_line(self) -> None:
        """Reads the column of a line outside brackets; raises Refused for a tab in front of its first token."""
        start = self.at
        while self.peek() in (" ", "\t") and self.peek():
            self.at += 1
        gap = self.text[start : self.at]
        has_token = self.at < len(self.text) and not self.at_line_end() and self.peek() != "#"
        if has_token and "\t" in gap:
            self.refuse("L7", start + gap.index("\t"))
        self.column = len(gap)

    def token(self) -> None:
        character = self.peek()
        if begins_name(character):
            self.name()
        elif is_digit(character):
            self.number()
        elif character in "'\"":
            self.string()
        else:
            self.sign()

    def put(self, kind: str, form: str, start: int) -> None:
        self.line.append((kind, form, start, self.at))

    def name(self) -> None:
        start = self.at
        while goes_on(self.peek()):
            self.at += 1
        word = self.text[start : self.at]
        form = unicodedata.normalize("NFKC", word)
        after_from = bool(self.line) and self.line[-1][:2] == ("from", "from")
        if form.startswith("__") and not (word == "__future__" and after_from):
            self.refuse("L4", start)
        if not word.isascii() and form in KEYWORDS | RESERVED:
            self.refuse("L4", start)
        self.put(word if word in KEYWORDS else "NAME", form, start)

    def number(self) -> None:
        start = self.at
        while is_digit(self.peek()) or self.peek() == "_":
            self.at += 1
        word = self.text[start : self.at]
        zeros = word != "0" and word[0] == "0"
        if zeros or word.endswith("_") or "__" in word or goes_on(self.peek()) or self.peek() == ".":
            self.refuse("L3", start)
        if len(word.replace("_", "")) > 1000:
            self.refuse("L8", start)
        self.put("INT", "", start)

    def string(self) -> None:
        start, quote = self.at, self.peek()
        if self.line and self.line[-1][3] == start and self.line[-1][0] in KEYWORDS | {"NAME", "INT"}:
            self.refuse("L2", start)
        self.at += 1
        while self.peek() != quote:
            if self.at >= len(self.text) or self.at_line_end():
                self.refuse("L2", start)
            if self.peek() == "\\":
                if self.peek(1) == "" or self.peek(1) not in "\\'\"ntr":
                    self.refuse("L2", start)
                self.at += 1
            self.at += 1
        self.at += 1
        if self.at == start + 2 and self.peek() == quote:
            self.refuse("L2", start)
        self.put("STR", "", start)

    def sign(self) -> None:
        start = self.at
        word = next((sign for sign in SIGNS if self.text.startswith(sign, start)), None)
        if word is None:
            self.refuse("L1", start)
        if word == "." and is_digit(self.peek(1)):
            self.refuse("L3", start)
        if word in "([{":
            if len(self.open) == 64:
                self.refuse("L6", start)
            self.open.append(word)
        if word in CLOSES and (not self.open or self.open.pop() != CLOSES[word]):
            self.refuse("L5", start)
        self.at += len(word)
        self.put(word, word, start)


# Layout

def forms(line: List[Token]) -> List[str]:
    return [form for _, form, _, _ in line]


def faults_of_line(column: int, line: List[Token], suites: List[Tuple[int, str]]) -> Iterator[Tuple[int, bool, str]]:
    """Yields the faults of one line, except those of its column: a character, whether it is an N code, a code."""
    first, words = line[0], forms(line)
    if first[0] == "def" and any(opener == "def" for _, opener in suites):
        yield first[2], True, "N3"
    if first[0] == "class" and column > 0:
        yield first[2], True, "N4"
    if first[0] == "@" and not (words == ["@", "dataclass"] and line[1][0] == "NAME"):
        yield first[2], True, "N5"
    for kind, _, start, _ in line:
        if kind in EXCLUDED and not (words in HEADERS and column == 0):
            yield start, True, "N1"
        if kind in UNUSED:
            yield start, True, "N2"


def layout_of(text: str, lines: List[Line]) -> List[LaidOut]:
    """Returns the tokens with NEWLINE, INDENT, DEDENT and END: for each a kind, a form and the character at which it
    begins."""
    tokens: List[LaidOut] = []
    suites: List[Tuple[int, str]] = [(0, "")]
    before: Optional[List[Token]] = None
    for column, line, end in lines:
        faults: List[Tuple[int, bool, str]] = []
        at = line[0][2]
        if before is None or column > suites[-1][0]:
            if column > 0 and (before is None or before[-1][0] != ":"):
                faults.append((at, False, "I2"))
            elif column > 0 and before is not None:
                suites.append((column, before[0][0]))
                tokens.append(("INDENT", "", at))
                if len(suites) > 51:
                    faults.append((at, False, "I3"))
        else:
            while suites[-1][0] > column:
                suites.pop()
                tokens.append(("DEDENT", "", at))
            if suites[-1][0] != column:
                faults.append((at, False, "I1"))
        faults += faults_of_line(column, line, suites)
        if faults:
            at, _, code = min(faults)
            raise Refused(code, len(text[:at].encode()))
        tokens += [(kind, form, start) for kind, form, start, _ in line] + [("NEWLINE", "", end)]
        before = line
    end = len(text)
    return tokens + [("DEDENT", "", end)] * (len(suites) - 1) + [("END", "", end)]


# The grammar, by Earley's method: an item is a rule, how much of it is read, and the column at which it began.

def table_of(grammar: str) -> Tuple[List[Rule], Dict[str, List[Rule]], Set[str]]:
    """Returns the rules, those of each name, and the names that may be empty."""
    rules: List[Rule] = []
    for line in grammar.strip().splitlines():
        made, _, choices = line.partition(":")
        made, words = made.strip(), choices.split()
        while words:
            stop = words.index("|") if "|" in words else len(words)
            rules.append((made, tuple(words[:stop])))
            words = words[stop + 1 :]
    named: Dict[str, List[Rule]] = {}
    for rule in rules:
        named.setdefault(rule[0], []).append(rule)
    return rules, named, {made for made, reads in rules if not reads}


RULES, NAMED, EMPTY = table_of(GRAMMAR)


def suits(wanted: str, token: LaidOut) -> bool:
    """Whether a token is one that a rule accepts."""
    kind, form, _ = token
    if wanted[0] == "'":
        return wanted[1:-1] == form and kind not in ("INT", "STR")
    return wanted == kind


def closed(column: Set[Item], number: int, columns: Sequence[Set[Item]]) -> Set[Item]:
    """Returns a column with all items that follow from its items without a further token."""
    items, work = set(column), list(column)

    def add(item: Item) -> None:
        if item not in items:
            items.add(item)
            work.append(item)

    while work:
        (made, reads), done, began = work.pop()
        if done == len(reads):
            for rule, at, start in list(items if began == number else columns[began]):
                if at < len(rule[1]) and rule[1][at] == made:
                    add((rule, at + 1, start))
        elif reads[done] in NAMED:
            for rule in NAMED[reads[done]]:
                add((rule, 0, number))
            if reads[done] in EMPTY:
                add(((made, reads), done + 1, began))
    return items


class Grammar:
    """Reads lists of tokens, and keeps the columns of the last one, since cuts of one text begin alike."""

    def __init__(self) -> None:
        self.columns = [closed({(rule, 0, 0) for rule in NAMED["module"]}, 0, [])]
        self.read: List[Tuple[str, str]] = []

    def first_wrong(self, tokens: List[LaidOut]) -> Optional[int]:
        """Returns the number of the first token after which no module can follow, or None if the tokens spell one."""
        plain = [token[:2] for token in tokens]
        same = 0
        while same < min(len(plain), len(self.read)) and plain[same] == self.read[same]:
            same += 1
        del self.columns[same + 1 :]
        self.read = plain[:same]
        for number in range(same, len(tokens)):
            found = {(rule, at + 1, began) for rule, at, began in self.columns[number]
                     if at < len(rule[1]) and rule[1][at] not in NAMED and suits(rule[1][at], tokens[number])}
            if not found:
                return number
            self.columns.append(closed(found, number + 1, self.columns))
            self.read.append(plain[number])
        return None


def reading(data: bytes, grammar: Grammar) -> str:
    """Returns the refusal of the bytes as a code and a byte, or nothing if they spell a module."""
    try:
        text = text_of(data)
        tokens = layout_of(text, Lexer(text).read())
    except Refused as refused:
        return "{} {}".format(*refused.args)
    wrong = grammar.first_wrong(tokens)
    return "" if wrong is None else f"G1 {len(text[: tokens[wrong][2]].encode())}"


# The comparison

def wanted_of(refusal: str, report: rows.Answer) -> rows.Answer:
    """Returns the answer for a refusal, or for none."""
    if not refusal:
        return report
    code, byte = refusal.split()
    return 2, "", f"refused {code} at byte {byte}\n"


def rows_of(given: str, names: List[str]) -> Iterator[Tuple[str, bytes, rows.Answer]]:
    """Yields the modules to be cut: a name, the bytes, the answer to the whole."""
    found = rows.examples_of_folder(given) if os.path.isdir(given) else rows.examples_of_rows(given)
    for name, data, want in found:
        if want and want[0] != 2 and data and (name in names if names else len(data) <= MOST):
            yield name, data, want


def cut(program: str, name: str, data: bytes, report: rows.Answer, grammar: Grammar) -> Tuple[int, int]:
    """Compares each cut of one row. Returns how many agree and how many differ."""
    agree = differ = 0
    for length in range(len(data) + 1):
        read = reading(data[:length], grammar)
        if len(data) == 73 and BY_HAND.get(length, read) != read:
            print(f"{name}, cut at {length}: the reader says {read or 'a module'}, by hand it is {BY_HAND[length] or 'a module'}")
            differ += 1
        want, got = wanted_of(read, report), rows.answer_of(program, data[:length], ["--format", "1"])
        if want == got:
            agree += 1
        else:
            differ += 1
            print(f"{name}, cut at {length}: wanted {want}, answered {got}", flush=True)
    return agree, differ


def main(words: List[str]) -> int:
    """Cuts the modules that the words name, and returns the exit status."""
    parser = Words("tools/attack truncate", __doc__)
    parser.add_argument("program")
    parser.add_argument("file")
    parser.add_argument("names", nargs="*")
    asked = parser.parse_args(words)
    grammar, sums, number = Grammar(), [0, 0], 0
    for name, data, report in rows_of(asked.file, asked.names):
        number += 1
        sums = [one + other for one, other in zip(sums, cut(asked.program, name, data, report, grammar))]
    print(f"{number} rows, {sums[0]} cuts agree, {sums[1]} differ")
    return 1 if sums[1] or not number else 0
