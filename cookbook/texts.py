# Functions for texts, in place of methods of `str`, slices and `int`. Copy those that you need into your module, with
# those that they call. Each comment says how a function differs from Python's own.
from __future__ import annotations

# text.strip(characters): the text without these characters at both ends.
# Differs where `characters` is left out: then only the space, the tab, the line feed and the carriage return go, while
# Python also strips other white space, such as the form feed and the no-break space.
def strip(text: str, characters: str = " \t\n\r") -> str:
    start = 0
    stop = len(text)
    while start < stop and text[start] in characters:
        start = start + 1
    while start < stop and text[stop - 1] in characters:
        stop = stop - 1
    return slice_of(text, start, stop)

# text.split(separator): the parts between the separators; without a separator, the words between white space.
# Differs in two ways. White space is only the space, the tab, the line feed and the carriage return. For an empty
# separator, where Python raises ValueError, the whole text is the only part. There is no `maxsplit`.
def split(text: str, separator: str | None = None) -> list[str]:
    if separator is None:
        return words_of(text)
    if separator == "":
        return [text]
    parts: list[str] = []
    start = 0
    at = find(text, separator)
    while at >= 0:
        parts.append(slice_of(text, start, at))
        start = at + len(separator)
        at = find(text, separator, start)
    parts.append(slice_of(text, start))
    return parts

# text.split(): the words between white space.
# Differs: white space is only the space, the tab, the line feed and the carriage return.
def words_of(text: str) -> list[str]:
    words: list[str] = []
    word = ""
    for character in text:
        if character not in " \t\n\r":
            word = word + character
        elif word != "":
            words.append(word)
            word = ""
    if word != "":
        words.append(word)
    return words

# separator.join(parts): the parts with the separator between them.
# Does not differ.
def join(separator: str, parts: list[str]) -> str:
    result = ""
    for at in range(len(parts)):
        if at > 0:
            result = result + separator
        result = result + parts[at]
    return result

# text.find(part, start): the place where the part first occurs, from `start` on, or -1.
# Does not differ, a negative `start` included, which counts from the end. There is no end of the search.
def find(text: str, part: str, start: int = 0) -> int:
    at = start
    if at < 0:
        at = at + len(text)
    if at < 0:
        at = 0
    while at + len(part) <= len(text):
        if starts_at(text, part, at):
            return at
        at = at + 1
    return -1

# text.startswith(part, at): whether the part is at this place.
# Differs for a negative place, which counts from the end in Python: the answer is False.
def starts_at(text: str, part: str, at: int) -> bool:
    if at < 0 or at + len(part) > len(text):
        return False
    for offset in range(len(part)):
        if text[at + offset] != part[offset]:
            return False
    return True

# text.replace(old, new): the text with `new` in place of each `old`.
# Does not differ: for an empty `old`, `new` is put before each character and at the end. There is no `count`.
def replace(text: str, old: str, new: str) -> str:
    if old != "":
        return join(new, split(text, old))
    result = new
    for character in text:
        result = result + character
        result = result + new
    return result

# text[start:stop]: the characters from `start` up to, but not including, `stop`.
# Does not differ; negative places count from the end. For text[:stop], `start` is 0. There is no step.
def slice_of(text: str, start: int = 0, stop: int | None = None) -> str:
    at = start
    if at < 0:
        at = at + len(text)
    if at < 0:
        at = 0
    end = len(text)
    if stop is not None and stop < end:
        end = stop
    if end < 0:
        end = end + len(text)
    result = ""
    while at < end:
        result = result + text[at]
        at = at + 1
    return result

# int(text): the whole number that the text spells.
# Differs in four ways. For a text that is no number, where Python raises ValueError, the answer is None. White space
# around the number is only the space, the tab, the line feed and the carriage return. Digits are only those from 0 to
# 9. There is no limit of 4,300 digits.
def int_of(text: str) -> int | None:
    digits = strip(text)
    negative = starts_at(digits, "-", 0)
    if negative or starts_at(digits, "+", 0):
        digits = slice_of(digits, 1)
    number = 0
    after_digit = False
    for character in digits:
        value = find("0123456789", character)
        if value >= 0:
            number = number * 10 + value
        elif character != "_" or not after_digit:
            return None
        after_digit = value >= 0
    if not after_digit:
        return None
    if negative:
        return -number
    return number

def main() -> None:
    pass

main()
