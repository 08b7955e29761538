# A result in place of an exception: `parse` gives a document, or the first line that is wrong, and why. A caller tells
# the two apart by isinstance. In one that forgets to, `.values` of the result is an error of the report.
#
# A text has lines `name = number`, empty lines, and comments from `#` to the end of a line. This is a part of TOML.
# Differs from tomllib.loads: nothing else of TOML is accepted, and there is a ParseError where tomllib raises
# TOMLDecodeError. Numbers may begin with 0, a carriage return counts as white space, and a comment may have any
# character.
from __future__ import annotations
from dataclasses import dataclass

@dataclass
class Document:
    values: dict[str, int]

@dataclass
class ParseError:
    line: int
    message: str

@dataclass
class Entry:
    name: str
    value: int

# The document of a text, or the first error in it.
def parse(text: str) -> Document | ParseError:
    document = Document({})
    lines = split(text, "\n")
    for at in range(len(lines)):
        entry = entry_of(lines[at], at + 1)
        if isinstance(entry, ParseError):
            return entry
        if entry is not None:
            if entry.name in document.values:
                return ParseError(at + 1, "a second value for " + entry.name)
            document.values[entry.name] = entry.value
    return document

# The content of a line: an entry, nothing, or an error.
def entry_of(line: str, number: int) -> Entry | ParseError | None:
    text = strip(without_comment(line))
    if text == "":
        return None
    sign = find(text, "=")
    if sign < 0:
        return ParseError(number, "no =")
    name = strip(slice_of(text, 0, sign))
    if not is_name(name):
        return ParseError(number, "no name before =")
    value = int_of(slice_of(text, sign + 1))
    if value is None:
        return ParseError(number, "no number after =")
    return Entry(name, value)

# The line up to its comment.
def without_comment(line: str) -> str:
    sign = find(line, "#")
    if sign < 0:
        return line
    return slice_of(line, 0, sign)

# Whether a text is a name: letters and digits of ASCII, `_` and `-`, at least one.
def is_name(text: str) -> bool:
    for character in text:
        if character not in "abcdefghijklmnopqrstuvwxyzABCDEFGHIJKLMNOPQRSTUVWXYZ0123456789_-":
            return False
    return text != ""

# The sum of the values of a text, or the error in it: how a caller passes an error on.
def total_of(text: str) -> int | ParseError:
    document = parse(text)
    if isinstance(document, ParseError):
        return document
    total = 0
    for name in document.values:
        total = total + document.values[name]
    return total

# From here on, functions of texts.py

# Python also strips other white space, such as the form feed and the no-break space.
def strip(text: str, characters: str = " \t\n\r") -> str:
    start = 0
    stop = len(text)
    while start < stop and text[start] in characters:
        start = start + 1
    while start < stop and text[stop - 1] in characters:
        stop = stop - 1
    return slice_of(text, start, stop)

# separator, where Python raises ValueError, the whole text is the only part. There is no `maxsplit`.
def split(text: str, separator: str | None = None) -> list[str]:
    if separator is None:
        return words_of(text)
    if separator == "":
        return [text]
    parts: list[str] = []
    start = 0
    at = find(text, separator)
    while at >= 0:
        parts.append(slice_of(text, start, at))
        start = at + len(separator)
        at = find(text, separator, start)
    parts.append(slice_of(text, start))
    return parts

# Differs: white space is only the space, the tab, the line feed and the carriage return.
def words_of(text: str) -> list[str]:
    words: list[str] = []
    word = ""
    for character in text:
        if character not in " \t\n\r":
            word = word + character
        elif word != "":
            words.append(word)
            word = ""
    if word != "":
        words.append(word)
    return words

# Does not differ, a negative `start` included, which counts from the end. There is no end of the search.
def find(text: str, part: str, start: int = 0) -> int:
    at = start
    if at < 0:
        at = at + len(text)
    if at < 0:
        at = 0
    while at + len(part) <= len(text):
        if starts_at(text, part, at):
            return at
        at = at + 1
    return -1

# Differs for a negative place, which counts from the end in Python: the answer is False.
def starts_at(text: str, part: str, at: int) -> bool:
    if at < 0 or at + len(part) > len(text):
        return False
    for offset in range(len(part)):
        if text[at + offset] != part[offset]:
            return False
    return True

# Does not differ; negative places count from the end. For text[:stop], `start` is 0. There is no step.
def slice_of(text: str, start: int = 0, stop: int | None = None) -> str:
    at = start
    if at < 0:
        at = at + len(text)
    if at < 0:
        at = 0
    end = len(text)
    if stop is not None and stop < end:
        end = stop
    if end < 0:
        end = end + len(text)
    result = ""
    while at < end:
        result = result + text[at]
        at = at + 1
    return result

# 9. There is no limit of 4,300 digits.
def int_of(text: str) -> int | None:
    digits = strip(text)
    negative = starts_at(digits, "-", 0)
    if negative or starts_at(digits, "+", 0):
        digits = slice_of(digits, 1)
    number = 0
    after_digit = False
    for character in digits:
        value = find("0123456789", character)
        if value >= 0:
            number = number * 10 + value
        elif character != "_" or not after_digit:
            return None
        after_digit = value >= 0
    if not after_digit:
        return None
    if negative:
        return -number
    return number

def main() -> None:
    pass

main()
