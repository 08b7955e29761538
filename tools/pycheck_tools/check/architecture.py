"""Writes what crates.txt says into docs/ARCHITECTURE.md: what each crate stands on, and the picture of the stages.

    tools/architecture [--check]
    tools/check architecture [--write]

On the page each stage has a heading `### STAGE: WHAT IT DOES` below the heading `## The stages`, and a table of its crates, rows
| [CRATE](LINK) | WHAT IT HOLDS | WHAT IT STANDS ON |. The last cell is written by this tool: the libraries that crates.txt has in the
crate's line, without those of this repository that another one of them stands on. So is docs/architecture.svg, a picture of the
stages, in which an arrow goes from a stage to each that stands on it and on no stage between.

With `--check`, and in tools/check without `--write`, it writes nothing, and the exit status is 1 where a file is not the one that it would write, with a line that says so.
A crate that stands in no stage or in two, one that is not in crates.txt, and a stage that stands on a later one are told, and the exit
status is 1 too.
"""
from __future__ import annotations

import argparse
import re
from html import escape
from textwrap import wrap
from typing import Dict, List, NamedTuple, Set

from .. import ROOT
from ..words import Words

CRATES = ROOT / "crates.txt"
PAGE = ROOT / "docs" / "ARCHITECTURE.md"
PICTURE = ROOT / "docs" / "architecture.svg"
STAGES = "## The stages"
HEADING = re.compile(r"### (.+?): (.+)")
ROW = re.compile(r"\| \[(\w+)\]\(\.\./crates/\1\) \| (.+) \|([^|]*)\|")
# Sizes of the picture: of a box, of the room between two, and of a line of text; and the letters of a line
WIDTH, ACROSS, DOWN, LINE, LETTERS = 360, 40, 40, 18, 44


class Stage(NamedTuple):
    """A stage: its name, what it does, and its crates."""
    name: str
    does: str
    crates: List[str]


def libraries() -> Dict[str, List[str]]:
    """Returns the libraries in the line of each crate."""
    lines = (line.split("#")[0].strip() for line in CRATES.read_text(encoding="utf-8").splitlines())
    parts = (line.partition(":") for line in lines if line)
    return {name.split()[0]: below.split() for name, _, below in parts}


def reached(graph: Dict[str, List[str]], start: str) -> Set[str]:
    """Returns all nodes of a graph that a node depends on, directly or not."""
    found: Set[str] = set()
    left = list(graph.get(start, []))
    while left:
        node = left.pop()
        if node not in found:
            found.add(node)
            left += graph.get(node, [])
    return found


def nearest(graph: Dict[str, List[str]], node: str) -> List[str]:
    """Returns the nodes that a node depends on directly, without those that another of these depends on."""
    return [low for low in graph[node] if not any(low in reached(graph, other) for other in graph[node] if other != low)]


def stages_of(page: str) -> List[Stage]:
    """Returns the stages of the page, with the crates of their tables."""
    found: List[Stage] = []
    within = False
    for line in page.splitlines():
        if line.startswith("## "):
            within = line == STAGES
        heading, row = HEADING.fullmatch(line), ROW.fullmatch(line)
        if within and heading:
            found.append(Stage(heading[1], heading[2], []))
        elif within and row and found:
            found[-1].crates.append(row[1])
    return found


def graph_of(stages: List[Stage], below: Dict[str, List[str]]) -> Dict[str, List[str]]:
    """Returns the stages that each stage depends on, in the order of the page."""
    home = {crate: stage.name for stage in stages for crate in stage.crates}
    graph = {}
    for stage in stages:
        lows = {home[low] for crate in stage.crates for low in below.get(crate, []) if low in home}
        graph[stage.name] = [other.name for other in stages if other.name in lows - {stage.name}]
    return graph


def faults_of(stages: List[Stage], below: Dict[str, List[str]]) -> List[str]:
    """Returns a line for each crate that is not in exactly one stage, and for each stage that depends on a later
    one."""
    listed = [crate for stage in stages for crate in stage.crates]
    faults = [f"{crate} is in crates.txt, and in no stage" for crate in below if crate not in listed]
    faults += [f"{crate} is in a stage, and not in crates.txt" for crate in listed if crate not in below]
    faults += [f"{crate} is in two stages" for crate in sorted(set(listed)) if listed.count(crate) > 1]
    names = [stage.name for stage in stages]
    for name, lows in graph_of(stages, below).items():
        later = [low for low in lows if names.index(low) > names.index(name)]
        faults += [f"the stage {name} stands on {low}, which comes later" for low in later]
    return faults


def page_with(page: str, below: Dict[str, List[str]]) -> str:
    """Returns the page, with the dependencies of each crate in its row."""
    def row(line: str) -> str:
        found = ROW.fullmatch(line)
        if not found or found[1] not in below:
            return line
        lows = ", ".join(f"`{low}`" for low in nearest(below, found[1]))
        return f"| [{found[1]}](../crates/{found[1]}) | {found[2]} | {lows or '–'} |"
    return "\n".join(map(row, page.split("\n")))


def levels_of(stages: List[Stage], graph: Dict[str, List[str]]) -> Dict[str, int]:
    """Returns how far below the top each stage is drawn: one further than the lowest that it depends on."""
    levels: Dict[str, int] = {}
    for stage in stages:
        levels[stage.name] = max((levels[low] + 1 for low in graph[stage.name]), default=0)
    return levels


class Box(NamedTuple):
    """A stage in the picture: its left and upper edges, its height, and the lines that it has."""
    left: int
    top: int
    height: int
    lines: List[str]


def boxes_of(stages: List[Stage], levels: Dict[str, int]) -> Dict[str, Box]:
    """Returns where each stage is drawn: those of one level side by side, a level below the one before."""
    boxes: Dict[str, Box] = {}
    top = 10
    for level in range(max(levels.values(), default=-1) + 1):
        here = [stage for stage in stages if levels[stage.name] == level]
        texts = [wrap(", ".join(stage.crates), LETTERS) for stage in here]
        height = (max(map(len, texts)) + 1) * LINE + 16
        for column, (stage, lines) in enumerate(zip(here, texts)):
            boxes[stage.name] = Box(10 + column * (WIDTH + ACROSS), top, height, lines)
        top += height + DOWN
    return boxes


def drawn_box(stage: Stage, box: Box) -> str:
    """Returns the SVG of a stage: its name and its purpose, and below them its crates."""
    head = f'<tspan font-weight="bold">{escape(stage.name)}</tspan>: {escape(stage.does)}'
    texts = [head, *(escape(line) for line in box.lines)]
    lines = "".join(f'<text x="{box.left + 12}" y="{box.top + 22 + at * LINE}">{text}</text>\n' for at, text in enumerate(texts))
    return f'<rect x="{box.left}" y="{box.top}" width="{WIDTH}" height="{box.height}" rx="6"/>\n{lines}'


def drawn_arrow(low: Box, high: Box) -> str:
    """Returns the SVG of an arrow from a stage to one that depends on it."""
    start, end, middle = low.left + WIDTH // 2, high.left + WIDTH // 2, high.top - DOWN // 2
    return f'<path d="M{start} {low.top + low.height} V{middle} H{end} V{high.top - 2}" marker-end="url(#head)"/>\n'


def picture(stages: List[Stage], below: Dict[str, List[str]]) -> str:
    """Returns the picture of the stages, as SVG."""
    graph = graph_of(stages, below)
    boxes = boxes_of(stages, levels_of(stages, graph))
    arrows = "".join(drawn_arrow(boxes[low], boxes[name]) for name in graph for low in nearest(graph, name))
    width = max((box.left for box in boxes.values()), default=0) + WIDTH + 10
    height = max((box.top + box.height for box in boxes.values()), default=0) + 10
    return (f'<svg xmlns="http://www.w3.org/2000/svg" viewBox="0 0 {width} {height}" width="{width}" height="{height}" '
            'font-family="sans-serif" font-size="14">\n'
            '<title>The stages, and which stands on which</title>\n'
            '<defs><marker id="head" markerWidth="8" markerHeight="8" refX="6" refY="3" orient="auto">'
            '<path d="M0 0 L6 3 L0 6 Z" fill="#555"/></marker></defs>\n'
            f'<rect width="{width}" height="{height}" fill="white"/>\n'
            f'<g fill="none" stroke="#555">\n{arrows}</g>\n'
            '<g fill="#222"><style>g > rect { fill: #f4f6f8; stroke: #888 }</style>\n'
            f'{"".join(drawn_box(stage, boxes[stage.name]) for stage in stages)}</g>\n</svg>\n')


def run(asked: argparse.Namespace) -> int:
    """Writes both files, or compares them, and returns the exit status."""
    below, page = libraries(), PAGE.read_text(encoding="utf-8")
    stages = stages_of(page)
    faults = faults_of(stages, below)
    if faults:
        print("\n".join(faults))
        return 1
    wanted = {PAGE: page_with(page, below), PICTURE: picture(stages, below)}
    if not asked.write:
        stale = [path for path, text in wanted.items() if not path.is_file() or path.read_text(encoding="utf-8") != text]
        for path in stale:
            print(f"{path.relative_to(ROOT)} is not what crates.txt says; tools/architecture writes it")
        print(f"{len(below)} crates, {len(stages)} stages, {len(stale)} faults")
        return 1 if stale or not stages else 0
    for path, text in wanted.items():
        path.write_text(text, encoding="utf-8")
    return 0


def main(words: List[str]) -> int:
    """Does what the words of tools/architecture ask for, and returns the exit status."""
    parser = Words("tools/architecture", __doc__)
    parser.add_argument("--check", dest="write", action="store_false")
    return run(parser.parse_args(words))
