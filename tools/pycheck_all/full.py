"""The form `full`: each finding with its text, its lines, and how to mend it."""
from __future__ import annotations

import textwrap
from typing import Iterator, List, Tuple

from . import codes, concise, details, following, widths
from .colours import Colours
from .findings import Checked, Finding, Project, has_guides
from .messages import GUIDES, advice_of
from .source import Place
from .texts import plain

FIRST_LINES, LAST_LINES = 4, 2
# How many of the other places of a finding are shown
MOST_OTHERS = 3
NARROWEST = 40


class Full:
    """Shows findings in a given number of columns."""

    def __init__(self, colours: Colours, width: int) -> None:
        self.colours = colours
        self.width = max(NARROWEST, width)

    def lines(self, project: Project) -> Iterator[str]:
        """Yields the lines of all new findings, with an empty line after each, of the files whose promise is suspended,
        and of those that could not be checked."""
        for file in project.files:
            name = self.colours("path", plain(file.path))
            if file.failure:
                yield f"{name}: {self.colours('refused', 'not checked')}: {plain(file.failure)}"
                yield ""
            under = following.followed(file)
            beneath = {it for numbers in under.values() for it in numbers}
            for at, finding in enumerate(file.findings):
                if not finding.known and at not in beneath:
                    yield from self.finding(file, finding, following.sentence(file, under.get(at, [])))
                    yield ""
            if file.suspended:
                yield f"{name}: {file.suspended}"
                yield ""
            if file.unlisted:
                yield f"{name}: there may be more refusals: {plain(file.unlisted)}"
                yield ""
        if has_guides(project):
            yield from textwrap.wrap(GUIDES, self.width, break_long_words=False, break_on_hyphens=False)
            yield ""
        yield from concise.gone(project)

    def finding(self, file: Checked, finding: Finding, follows: str) -> Iterator[str]:
        """Yields the lines of one finding; `follows` is a sentence that says which others follow from it."""
        start = finding.place.start
        title = codes.title_of(finding.code)
        meaning = finding.detail.text if finding.detail else codes.meaning_of(finding.code)
        where = self.colours("path", f"{plain(file.path)}:{start.line}:{start.column}:")
        what = self.colours(finding.kind, f"{finding.kind} {finding.code} {title}".rstrip())
        yield f"{where} {what}" + (f": {plain(meaning)}" if meaning else "")
        others = finding.detail.others[:MOST_OTHERS] if finding.detail else ()
        gutter = max(len(str(it)) for it in (finding.place.end.line, *(other.line for other in others)))
        if finding.opened:
            yield from self.excerpt(file, finding.opened, finding.kind, " open")
        if not finding.opened or start.byte < len(file.text.data):
            flow = finding.flow if not finding.detail else None
            beside = plain(f" {flow[0]} -> {flow[1]}") if flow else ""
            yield from self.excerpt(file, finding.place, finding.kind, beside, gutter)
        for other in others:
            beside = f" {details.name_of_others(finding)}"
            yield from self.excerpt(file, file.text.token(other.byte), "mend", beside, gutter)
        for said in (advice_of(file, finding), follows):
            yield from self.said(said, gutter)

    def said(self, sentence: str, gutter: int) -> Iterator[str]:
        """Yields the lines of a sentence below an excerpt whose numbers take `gutter` columns."""
        before = " " * (3 + gutter)
        room = self.width - len(before) - 2
        lines = textwrap.wrap(plain(sentence).strip(), room, break_long_words=False, break_on_hyphens=False)
        for at, line in enumerate(lines):
            sign = " " if at else self.colours("number", "=")
            yield f"{before}{sign} {self.colours('mend', line)}"

    def excerpt(self, file: Checked, place: Place, kind: str, beside: str, gutter: int = 0) -> Iterator[str]:
        """Yields the lines of a place, each with its number, which takes `gutter` columns or more, and with its part
        underlined; the text `beside` follows the last one."""
        numbers = self.numbers(place)
        gutter = max(gutter, len(str(place.end.line)))
        for at, number in enumerate(numbers):
            if at and numbers[at - 1] != number - 1:
                yield self.colours("number", f"  {'.' * gutter} |")
            line = file.text.line(number)
            start, end = part_of(line, number, place)
            shown = widths.cut(line, start, end, self.width - gutter - 5)
            yield f"{self.colours('number', f'  {number:>{gutter}} |')} {shown.text}".rstrip()
            mark = self.colours(kind, "^" * (shown.end - shown.start))
            under = f"{self.colours('number', '  ' + ' ' * gutter + ' |')} {' ' * shown.start}{mark}"
            if number == place.end.line:
                under += self.colours(kind, beside)
            yield under

    def numbers(self, place: Place) -> List[int]:
        """Returns the lines to show: all of the place, or its first and its last ones."""
        all_of_them = list(range(place.start.line, place.end.line + 1))
        if len(all_of_them) <= FIRST_LINES + LAST_LINES + 1:
            return all_of_them
        return all_of_them[:FIRST_LINES] + all_of_them[-LAST_LINES:]


def part_of(line: str, number: int, place: Place) -> Tuple[int, int]:
    """Returns the characters of a line that belong to a place, without the blanks in front: the first, from 0, and the
    one after the last."""
    start = place.start.column - 1 if number == place.start.line else len(line) - len(line.lstrip())
    end = place.end.column - 1 if number == place.end.line else len(line.rstrip())
    return start, max(start, end)
