"""The page: one document of HTML with a table of the files and each module with its places marked.

It loads nothing and has no scripts. A finding is one `mark` of class `place`; if its place spans several lines, or has
another one inside it, the other parts are marks of class `rest`."""
from __future__ import annotations

import html
import re
from typing import Iterator, List, NamedTuple, Sequence, Set, Tuple

from . import following, full
from .findings import DYNAMIC, ERROR, GUIDE, REFUSED, Checked, Finding, Project, has_guides, summary
from .messages import GUIDES, advice_of, name_of, said_of
from .texts import plain
from .widths import REPLACEMENT, UNFIT

STYLE = """
:root { --back: #fff; --fore: #1b1f24; --soft: #59636e; --line: #d8dee4; --code: #f6f8fa; --link: #0550ae;
  --error: #b91c1c; --error-back: #fecaca; --dynamic: #8a5a00; --dynamic-back: #fde68a; --refused: #7c2d9c;
  --refused-back: #e9d5ff }
@media (prefers-color-scheme: dark) { :root { --back: #0d1117; --fore: #e6edf3; --soft: #9198a1; --line: #30363d;
  --code: #161b22; --link: #79b8ff; --error: #ff9c94; --error-back: #6b1d1d; --dynamic: #f2cc60;
  --dynamic-back: #574108; --refused: #dbb7ff; --refused-back: #4a2268 } }
* { box-sizing: border-box }
body { margin: 0 auto; padding: 1rem; max-width: 80rem; background: var(--back); color: var(--fore);
  font: 1rem/1.5 system-ui, sans-serif }
h1 { font-size: 1.5rem; margin: 0 } h2 { font-size: 1.1rem; margin: 2rem 0 .5rem; overflow-wrap: anywhere }
a { color: var(--link) } p { margin: .25rem 0 }
table { width: 100%; border-collapse: collapse; margin: 1rem 0; font-variant-numeric: tabular-nums }
th, td { text-align: right; padding: .3rem .4rem; border-bottom: 1px solid var(--line); vertical-align: top }
th:first-child, td:first-child { text-align: left; overflow-wrap: anywhere }
td.said { text-align: left; overflow-wrap: anywhere }
.error, .failed { color: var(--error) } .dynamic { color: var(--dynamic) } .refused, .guide { color: var(--refused) }
.soft { color: var(--soft) }
ul { padding-left: 1.2rem; margin: .5rem 0 } li { overflow-wrap: anywhere }
summary { cursor: pointer; color: var(--soft) }
.code { overflow-x: auto; background: var(--code); border: 1px solid var(--line); border-radius: .4rem;
  padding: .5rem 0; font: .85rem/1.6 ui-monospace, monospace; tab-size: 4 }
.line { white-space: pre; min-height: 1.6em; width: max-content; min-width: 100%; padding-right: 1rem }
.line:target, li:target { outline: 2px solid var(--link) }
.number { display: inline-block; min-width: 4em; padding-right: 1em; text-align: right; color: var(--soft);
  text-decoration: none; user-select: none }
@media (max-width: 40rem) { table { font-size: .85rem } th:first-child, td:first-child { width: 40% } }
mark.place, mark.rest { color: inherit; background: var(--error-back); box-shadow: inset 0 -2px var(--error) }
mark.place.dynamic, mark.rest.dynamic { background: var(--dynamic-back); box-shadow: inset 0 -2px var(--dynamic) }
mark.place.refused, mark.rest.refused, mark.place.guide, mark.rest.guide { background: var(--refused-back);
  box-shadow: inset 0 -2px var(--refused) }
mark.place.known, mark.rest.known { background: none }
ul code { background: var(--code); border-radius: .2rem; padding: 0 .2rem }
mark.empty::after { content: "\\25b2" }
"""
# The words before a dynamic place that is listed under the error from which it follows
FOLLOWS = "The type is unknown because of the error above."
HEAD = f"""<!doctype html>
<html lang="en">
<head>
<meta charset="utf-8">
<meta http-equiv="Content-Security-Policy" content="default-src 'none'; style-src 'unsafe-inline'; img-src data:">
<meta name="viewport" content="width=device-width, initial-scale=1">
<meta name="color-scheme" content="light dark">
<title>pycheck</title>
<link rel="icon" href="data:,">
<style>{STYLE}</style>
</head>
<body>"""


class Part(NamedTuple):
    """A part of a line that belongs to a finding: its first character, from 0, the one after the last, and the number
    of the finding."""

    start: int
    end: int
    number: int


def escaped(text: str) -> str:
    """Returns a text of a module as HTML; characters that cannot be shown are replaced."""
    return html.escape(UNFIT.sub(REPLACEMENT, text))


def worded(text: str) -> str:
    """Returns a text of the page of codes as HTML."""
    return re.sub("`([^`]*)`", r"<code>\1</code>", escaped(text))


def tooltip(finding: Finding) -> str:
    """Returns the HTML that is shown when a pointer rests on the place of a finding."""
    said = escaped(f"{name_of(finding)}: {said_of(finding)}")
    return f"{said}{' (known)' if finding.known else ''}"


def parts_of(findings: Sequence[Finding], touching: Sequence[int], number: int, line: str) -> List[Part]:
    """Returns the parts of a line that belong to the findings that touch it, outer ones first."""
    parts = []
    for at in touching:
        place = findings[at].place
        start, end = full.part_of(line, number, place)
        if start < end or number == place.start.line:
            parts.append(Part(start, end, at))
    return sorted(parts, key=lambda it: (it.start, -it.end, it.number))


class Module:
    """A module on the page, with a number of its own."""

    def __init__(self, number: int, file: Checked) -> None:
        self.name = f"f{number}"
        self.file = file
        self.begun: Set[int] = set()
        self.under = following.followed(file)
        # For each dynamic place that follows from an error, that error
        self.above = {it: at for at, numbers in self.under.items() for it in numbers}

    def opening(self, part: Part, outer: Sequence[Part]) -> str:
        """Returns the opening of a mark, with the texts of the findings around it too."""
        finding = self.file.findings[part.number]
        kinds = [finding.kind] + ["known"] * finding.known + ["empty"] * (part.start == part.end)
        first = part.number not in self.begun
        self.begun.add(part.number)
        words = "\n\n".join(tooltip(self.file.findings[it.number]) for it in [*outer, part])
        place = f' id="{self.name}-p{part.number}"' if first else ""
        return f'<mark class="{"place" if first else "rest"} {" ".join(kinds)}"{place} title="{words}">'

    def code(self, line: str, parts: Sequence[Part]) -> str:
        """Returns a line with its parts marked."""
        cuts = sorted({0, len(line), *(min(it, len(line)) for part in parts for it in part[:2])})
        shown_parts = [self.piece("", [it for it in parts if it.start == it.end == 0])] if parts else []
        for start, end in zip(cuts, cuts[1:]):
            shown_parts.append(self.piece(line[start:end], [it for it in parts if it.start <= start and end <= it.end]))
            shown_parts.append(self.piece("", [it for it in parts if it.start == it.end and it.start == end]))
        return "".join(shown_parts)

    def piece(self, text: str, around: Sequence[Part]) -> str:
        """Returns a piece of a line inside the marks of some parts."""
        opened = "".join(self.opening(part, around[:at]) for at, part in enumerate(around))
        return opened + escaped(text) + "</mark>" * len(around)

    def lines(self) -> Iterator[str]:
        """Yields the lines of the module; the number of a line with a finding links to its first one."""
        findings = self.file.findings
        last = max([self.file.text.lines, *(it.place.start.line for it in findings)])
        touching: List[List[int]] = [[] for _ in range(last + 1)]
        for at, finding in enumerate(findings):
            for number in range(finding.place.start.line, min(last, finding.place.end.line) + 1):
                touching[number].append(at)
        for number in range(1, last + 1):
            line = self.file.text.line(number)
            parts = parts_of(findings, touching[number], number, line)
            target = f"{self.name}-n{min(it.number for it in parts)}" if parts else f"{self.name}-l{number}"
            link = f'<a class="number" href="#{target}">{number}</a>'
            yield f'<div class="line" id="{self.name}-l{number}">{link}{self.code(line, parts)}</div>'

    def list(self) -> Iterator[str]:
        """Yields the findings, each with a link to its line, and below each error the dynamic places that follow from
        it."""
        for at in range(len(self.file.findings)):
            if at not in self.above:
                yield self.item(at)

    def item(self, at: int) -> str:
        """Returns a finding, with those that follow from it below."""
        it = self.file.findings[at]
        start = it.place.start
        link = f'<a href="#{self.name}-l{start.line}">{start.line}:{start.column}</a>'
        known = ' <span class="soft">known</span>' if it.known else ""
        said = f"{escaped(said_of(it)) if it.detail else worded(said_of(it))}{self.others(it)}"
        advice = FOLLOWS if at in self.above else advice_of(self.file, it)
        name = f'<b class="{it.kind}">{escaped(name_of(it))}</b>'
        under = "".join(map(self.item, self.under.get(at, [])))
        inner = f"<ul>{under}</ul>" if under else ""
        return f'<li id="{self.name}-n{at}">{link} {name}{known}: {said}. {worded(advice)}{inner}</li>'

    def others(self, finding: Finding) -> str:
        """Returns the other places of a finding, each with a link to its line; empty if it has none."""
        points = finding.detail.others if finding.detail else ()
        links = [f'<a href="#{self.name}-l{it.line}">{it.line}:{it.column}</a>' for it in points]
        return f", see {', '.join(links)}" if links else ""

    def section(self) -> Iterator[str]:
        """Yields the module with its findings; one without findings is folded."""
        yield f'<section id="{self.name}"><h2>{escaped(plain(self.file.path))}</h2>'
        if self.file.failure:
            yield f'<p class="failed">not checked: {escaped(self.file.failure)}</p></section>'
            return
        yield from ["<ul>", *self.list(), "</ul>"] if self.file.findings else []
        if self.file.suspended:
            yield f'<p class="error">{self.file.suspended.capitalize()}.</p>'
        if self.file.unlisted:
            yield f'<p class="refused">There may be more refusals: {escaped(self.file.unlisted)}.</p>'
        opened = " open" if self.file.findings else ""
        yield f'<details{opened}><summary>{self.file.text.lines} lines</summary><div class="code">'
        yield "".join(self.lines()) + "</div></details></section>"


def free_lines(file: Checked) -> Tuple[int, int]:
    """Returns how many lines no error and no dynamic place touches, and how many there are."""
    touched = {
        number
        for it in file.findings
        if it.kind in (ERROR, DYNAMIC)
        for number in range(it.place.start.line, it.place.end.line + 1)
    }
    return file.text.lines - len(touched), file.text.lines


def share(free: int, lines: int) -> str:
    """Returns a share of the lines in percent, rounded down, so that 100 means all."""
    return f"{100 * free // lines} %" if lines else "none"


def row(module: Module) -> str:
    """Returns the row of a file."""
    file = module.file
    name = f'<td><a href="#{module.name}">{escaped(plain(file.path))}</a></td>'
    if file.failure:
        return f'<tr>{name}<td colspan="3" class="said failed">not checked: {escaped(file.failure)}</td></tr>'
    refusal = next((it for it in file.findings if it.kind == REFUSED), None)
    if refusal:
        guides = sum(it.kind == GUIDE for it in file.findings)
        more = f", and {guides} more as a guide" if guides else ""
        said = f"{name_of(refusal)}{more}{' (known)' if refusal.known else ''}"
        return f'<tr>{name}<td colspan="3" class="said refused">{escaped(said)}</td></tr>'
    cells = ""
    for kind in (ERROR, DYNAMIC):
        number = sum(it.kind == kind for it in file.findings)
        cells += f'<td class="{kind if number else ""}">{number}</td>'
    return f"<tr>{name}{cells}<td>{share(*free_lines(file))}</td></tr>"


def total(files: Sequence[Checked]) -> str:
    """Returns the row of all files that have a report."""
    reported = [it for it in files if not it.failure and not it.refused]
    errors, dynamic = (sum(it.kind == kind for file in reported for it in file.findings) for kind in (ERROR, DYNAMIC))
    free = [free_lines(it) for it in reported]
    part = share(sum(it[0] for it in free), sum(it[1] for it in free))
    return f"<tr><th>All that have a report</th><th>{errors}</th><th>{dynamic}</th><th>{part}</th></tr>"


def gone_list(project: Project) -> Iterator[str]:
    """Yields the list of known findings that are gone, if there are any."""
    if project.gone:
        yield "<h2>Known but gone</h2>\n<ul>"
        for it in project.gone:
            words = f"{escaped(plain(it.path))}: {escaped(it.code)}: <code>{escaped(it.line)}</code>"
            yield f"<li>{words}{f' ({it.times} times)' if it.times > 1 else ''}</li>"
        yield "</ul>"


def document(project: Project) -> str:
    """Returns the page of a project."""
    modules = [Module(at, file) for at, file in enumerate(project.files)]
    heads = "".join(f"<th>{it}</th>" for it in ("File", "Errors", "Dynamic places", "Lines without either"))
    lines = [
        HEAD,
        f"<h1>pycheck</h1>\n<p>{html.escape(summary(project))}</p>",
        f"<table>\n<thead><tr>{heads}</tr></thead>\n<tbody>",
        *map(row, modules),
        f"</tbody>\n<tfoot>{total(project.files)}</tfoot>\n</table>",
        *gone_list(project),
        *(line for module in modules for line in module.section()),
        *([f"<p>{html.escape(GUIDES)}</p>"] if has_guides(project) else []),
        "</body>\n</html>\n",
    ]
    return "\n".join(lines)
