#!/usr/bin/env python3
"""Draws the pictures of the documents: gate/pictures.py

docs/crates.svg has the crates of crates.txt by floor, and docs/measured.svg bars of the tables in docs/MEASURED.md. Both are
made by this script alone, and gate/check_texts fails where they are not what it makes.
"""

import os
import re
import sys
from collections import defaultdict
from math import fsum
from typing import Dict, List, NamedTuple, Tuple

import documents

TOP = os.path.dirname(os.path.dirname(os.path.abspath(__file__)))
CRATES, MEASURED = "docs/crates.svg", "docs/measured.svg"
FIGURES = "docs/MEASURED.md"

STYLE = """
text { font-family: sans-serif; font-size: 12px; fill: #1f2328; }
.page { fill: #ffffff; stroke: #d1d9e0; }
.title { font-weight: bold; }
.faint { fill: #59636e; }
.name { font-family: monospace; text-anchor: middle; }
.line { fill: none; stroke: #8c959f; }
.other { fill: #eaeef2; stroke: #8c959f; }
.port { fill: #ddf4ff; stroke: #218bff; }
.command { fill: #dafbe1; stroke: #2da44e; }
.library { fill: #fff1c4; stroke: #bf8700; }
.ours { fill: #2da44e; }
.rust { fill: #d4a72c; }
.git { fill: #8c959f; }
@media (prefers-color-scheme: dark) {
  text { fill: #f0f6fc; }
  .page { fill: #0d1117; stroke: #3d444d; }
  .faint { fill: #9198a1; }
  .line { stroke: #6e7681; }
  .other { fill: #262c36; stroke: #6e7681; }
  .port { fill: #0c2d6b; stroke: #388bfd; }
  .command { fill: #033a16; stroke: #2ea043; }
  .library { fill: #4b2900; stroke: #bb8009; }
}
"""
"""The colours, for a light and for a dark page. Nothing but generic fonts is asked for."""

BOX, RISE, MARGIN = 24, 62, 20
"""The height of a crate's box, from floor to floor, and what stays free at the edges of a picture."""

PLAN_WIDTH, FLOOR_NUMBER, LETTER, PADDING, GAP, WAY = 1280, 24, 7.3, 14, 12, 8
"""The plan's width, the room for the number of a floor, the widths of a letter, of the room around a name, of the gap between
two boxes, and of a line that passes between them."""

SWEEPS = 24
"""How often each floor of the plan is put in the order of its neighbours, and how often it is moved towards them."""

KINDS = (
    ("port", "gix-commitgraph, and what it uses of gix-hash and gix-chunk", re.compile(r"gix_\w+")),
    ("command", "commands and programs", re.compile(r"\w+_commands|\w+tool|\w*question\w*")),
    ("library", "the library for C", re.compile(r"c_\w+|\w+_c")),
    ("other", "other crates", re.compile(r"\w+")),
)
"""The kinds of crates, by their names: the first that fits."""

Node = Tuple[str, int]
"""A crate and a floor: that of the crate, where its box stands, or one above it, which its line passes."""


class Bar(NamedTuple):
    """A bar: its colour, its name, and the place of its figure: the row of a table, and the column."""

    colour: str
    name: str
    row: str
    column: str


class Group(NamedTuple):
    """Bars that are compared: what was measured, its unit, the section of the tables, and the bars."""

    title: str
    unit: str
    section: str
    bars: Tuple[Bar, ...]


def of_three(title, unit, section, row):
    """A group of a row that has a figure of ours, one of plain Rust, and one of Git."""
    columns = (("ours", "ours"), ("rust", "plain Rust"), ("git", "Git"))
    return Group(title, unit, section, tuple(Bar(colour, name, row, name) for colour, name in columns))


def beside_git(title, unit, section, row):
    """A group of a row that has a figure of ours and one of Git."""
    return Group(title, unit, section, (Bar("ours", "ours", row, "ours"), Bar("git", "Git", row, "Git")))


GROUPS = (
    Group("Check a file of a million commits", "s", "Whole processes", (
        Bar("ours", "ours", "1,000,000", "ours"), Bar("rust", "plain Rust", "1,000,000", "plain Rust"))),
    Group("Compare it with the commits too", "s", "Graphs and their commits", (
        Bar("ours", "ours", "`git cgraph verify --objects`", "topics, elapsed"),
        Bar("ours", "ours, -j 4", "`git cgraph verify --objects -j 4`", "topics, elapsed"),
        Bar("git", "Git", "`git commit-graph verify`", "topics, elapsed"))),
    of_three("Is a commit an ancestor? Any two, graph in memory", "ms", "Queries", "is-ancestor, any"),
    of_three("Merge bases of any two, graph in memory", "ms", "Queries", "merge-base, any"),
    beside_git("historytool is-ancestor --unchecked, near commits", "ms", "A graph that is trusted", "is-ancestor, near"),
    beside_git("historytool merge-base-ids --unchecked, near", "ms", "A graph that is trusted", "merge-base, near"),
    beside_git("git cgraph is-ancestor --unchecked, near commits", "ms", "A graph that is trusted", "by `git cgraph`, near"),
    beside_git("Merge ten layers with filters", "s", "Merging layers", "with filters, elapsed"),
    beside_git("Write a file of a million commits", "s", "Writing a commit-graph", "one file, elapsed"),
    beside_git("Write a layer of 1,000 on top of a million", "s", "Writing a commit-graph", "a layer of 1,000 commits, elapsed"),
)
"""What the bars show, in their order: two groups side by side."""

GROUP_WIDTH, NAME_WIDTH, LONGEST, BAR_RISE, BAR_HEIGHT, GROUP_RISE = 440, 84, 250, 18, 12, 94
"""The widths of a group, of the name of a bar and of the longest bar; from bar to bar, the height of one, from group to group."""


def main():
    """Writes both pictures, and answers the exit status."""
    texts = {path: read(path) for path in ("crates.txt", FIGURES)}
    for path, picture in pictures(texts).items():
        with open(os.path.join(TOP, path), "w", encoding="utf-8") as file:
            file.write(picture)
    return 0


def read(path):
    """The text of a file of the repository."""
    with open(os.path.join(TOP, path), encoding="utf-8") as file:
        return file.read()


def pictures(texts):
    """The pictures, by their paths, that are made of the texts of the repository."""
    return {CRATES: plan(texts["crates.txt"]), MEASURED: bars(texts[FIGURES])}


def stale(texts):
    """The pictures that are not what this script makes, or the figure of which the tables have none."""
    try:
        return [path for path, picture in pictures(texts).items() if texts.get(path) != picture]
    except KeyError as missing:
        return ["%s has no figure %s" % (FIGURES, missing)]


def svg(width, height, title, source, lines):
    """A picture on a page of its own, so that it can be read wherever it stands."""
    yield "<!-- Made by gate/pictures.py of %s: change that, and run the script. -->" % source
    yield '<svg xmlns="http://www.w3.org/2000/svg" viewBox="0 0 %d %d" width="%d" height="%d" role="img">' % (2 * (width, height))
    yield "<title>%s</title>" % title
    yield "<style>%s</style>" % STYLE
    yield '<rect class="page" x="0.5" y="0.5" width="%d" height="%d" rx="6"/>' % (width - 1, height - 1)
    yield from lines
    yield "</svg>\n"


def rect(kind, x, y, width, height):
    """A box, by its left upper corner."""
    return '<rect class="%s" x="%.1f" y="%.1f" width="%.1f" height="%.1f" rx="3"/>' % (kind, x, y, width, height)


def text(kind, x, y, words):
    """Words that begin, or have their middle, at a point of their base line."""
    return '<text class="%s" x="%.1f" y="%.1f">%s</text>' % (kind, x, y, words)


def plan(listing):
    """The picture of the crates, those of tests aside: each above all that it stands on, the lowest at the bottom."""
    above = {crate: highest for crate, highest in documents.highest_crates(listing).items() if not crate.startswith("test_")}
    floors = floors_of(above)
    segments = list(segments_of(above, floors))
    columns = placed(ordered(floors, segments), segments)
    count = max(floors.values())
    bottom = MARGIN + (count - 1) * RISE + BOX
    lines = [curve(lower, upper, columns, floors, bottom) for lower, upper in segments]
    lines += [text("faint", MARGIN / 2, top_of(floor, bottom) + 16, floor) for floor in range(1, count + 1)]
    lines += [line for crate, floor in floors.items() for line in box(crate, columns[crate, floor], top_of(floor, bottom))]
    lines += key(bottom + 24)
    return "\n".join(svg(PLAN_WIDTH, bottom + 60, "The crates by floor", "crates.txt", lines))


def floors_of(above):
    """For each crate its floor: 1, or one more than the highest that it stands on."""

    def floor(crate):
        return 1 + max(map(floor, above[crate]), default=0)

    return {crate: floor(crate) for crate in above}


def segments_of(above, floors):
    """The parts of the lines, each from one floor to the next. The lines up from one crate are one as far as they can be."""
    users = defaultdict(list)
    for crate, highest in above.items():
        for lower in sorted(highest):
            users[lower].append(crate)
    for lower, crates in users.items():
        for floor in range(floors[lower], max(floors[crate] for crate in crates) - 1):
            yield (lower, floor), (lower, floor + 1)
        yield from (((lower, floors[crate] - 1), (crate, floors[crate])) for crate in crates)


def neighbours_of(segments):
    """For each node those to which a part of a line leads, below it and above it."""
    below, above = defaultdict(list), defaultdict(list)
    for lower, upper in segments:
        below[upper].append(lower)
        above[lower].append(upper)
    return below, above


def ordered(floors, segments):
    """The nodes of each floor, the lowest first, in an order in which few lines cross."""
    rows: Dict[int, List[Node]] = {floor: [] for floor in range(1, max(floors.values()) + 1)}
    for node in dict.fromkeys([*floors.items(), *(node for segment in segments for node in segment)]):
        rows[node[1]].append(node)
    best, below_and_above = rows, neighbours_of(segments)
    for sweep in range(SWEEPS):
        rows = swept(rows, below_and_above[sweep % 2], upwards=sweep % 2 == 0)
        best = min(best, rows, key=lambda rows: crossings(rows, segments))
    return best


def swept(rows, neighbours, upwards):
    """The floors, from one to the next, each in the order of where the neighbours of its nodes stand in the mean."""
    rows = dict(rows)
    for floor in sorted(rows, reverse=not upwards):
        places = {node: at / len(row) for row in rows.values() for at, node in enumerate(row)}
        rows[floor] = sorted(rows[floor], key=lambda node: mean([places[other] for other in neighbours[node]], places[node]))
    return rows


def mean(numbers, otherwise):
    """The mean of some numbers, or another one where there are none: the same for each version of Python."""
    return fsum(numbers) / len(numbers) if numbers else otherwise


def crossings(rows, segments):
    """How many pairs of parts of lines cross."""
    places = {node: at for row in rows.values() for at, node in enumerate(row)}
    by_floor = defaultdict(list)
    for lower, upper in segments:
        by_floor[lower[1]].append((places[lower], places[upper]))
    return sum((a - c) * (b - d) < 0 for pairs in by_floor.values() for at, (a, b) in enumerate(pairs) for c, d in pairs[:at])


def placed(rows, segments):
    """The middle of each node, as near to the middles of its neighbours as the others on its floor allow."""
    below, above = neighbours_of(segments)
    columns = {node: PLAN_WIDTH * (at + 0.5) / len(row) for row in rows.values() for at, node in enumerate(row)}
    for _ in range(SWEEPS):
        for row in rows.values():
            wanted = [mean([columns[other] for other in below[node] + above[node]], columns[node]) for node in row]
            columns.update(zip(row, apart(wanted, [width_of(node, rows) for node in row])))
    return columns


def width_of(node, rows):
    """The width that a node takes on its floor, with the gap to the next."""
    is_box = not any(crate == node[0] for crate, _ in rows.get(node[1] - 1, ()))
    return GAP + (box_width(node[0]) if is_box else WAY)


def box_width(crate):
    """The width of the box of a crate."""
    return LETTER * len(crate) + PADDING


def apart(wanted, widths):
    """Middles in the order of those wanted and as near to them as possible, so that the widths do not overlap."""
    starts = [fsum(widths[:at]) + widths[at] / 2 for at in range(len(widths))]
    blocks = []
    for place, start in zip(wanted, starts):
        blocks.append([place - start])
        while len(blocks) > 1 and mean(blocks[-2], 0) > mean(blocks[-1], 0):
            last = blocks.pop()
            blocks[-1] += last
    first, last = MARGIN + FLOOR_NUMBER, PLAN_WIDTH - MARGIN - fsum(widths)
    shifts = [min(max(mean(block, 0), first), last) for block in blocks for _ in block]
    return [start + shift for start, shift in zip(starts, shifts)]


def top_of(floor, bottom):
    """The upper edge of the boxes of a floor."""
    return bottom - BOX - (floor - 1) * RISE


def curve(lower, upper, columns, floors, bottom):
    """A part of a line, from one floor to the next; where it passes that one, it goes on to the upper edge of its boxes."""
    left, right = columns[lower], columns[upper]
    start, end = top_of(lower[1], bottom), top_of(upper[1], bottom) + BOX
    further = "" if floors[upper[0]] == upper[1] else " V %d" % (end - BOX)
    middle = (start + end) / 2
    points = (left, start, left, middle, right, middle, right, end)
    return '<path class="line" d="M %.1f %d C %.1f %d %.1f %d %.1f %d%s"/>' % (*points, further)


def kind_of(crate):
    """The kind of a crate."""
    return next(kind for kind, _, names in KINDS if names.fullmatch(crate))


def box(crate, middle, top):
    """The box of a crate, and its name."""
    yield rect(kind_of(crate), middle - box_width(crate) / 2, top, box_width(crate), BOX)
    yield text("name", middle, top + 16, crate)


def key(top):
    """What the colours of the boxes mean."""
    left = MARGIN + FLOOR_NUMBER
    for kind, meaning, _ in KINDS:
        yield rect(kind, left, top, 16, 16)
        yield text("faint", left + 22, top + 12, meaning)
        left += 48 + 6.4 * len(meaning)


def bars(measured):
    """The picture of the figures: of each group one scale, which its greatest figure fills."""
    figures = figures_of(measured)
    rows = (len(GROUPS) + 1) // 2
    lines = [line for at, group in enumerate(GROUPS) for line in group_of(group, figures, at)]
    return "\n".join(svg(2 * GROUP_WIDTH + MARGIN, rows * GROUP_RISE + MARGIN, "Measured: less is better", FIGURES, lines))


def figures_of(measured):
    """The figures of the tables, by section, row and column, be they bold or not."""
    figures = {}
    for section in measured.split("\n## ")[1:]:
        title, columns = section.partition("\n")[0], []
        for line in section.split("\n"):
            cells = [cell.strip() for cell in line.strip().strip("|").split("|")] if line.startswith("|") else []
            columns = (columns or cells) if cells else []
            figures.update(((title, cells[0], column), cell.strip("*")) for column, cell in zip(columns[1:], cells[1:]))
    return figures


def group_of(group, figures, at):
    """The title of a group, and its bars."""
    left, top = MARGIN + at % 2 * GROUP_WIDTH, MARGIN + at // 2 * GROUP_RISE
    yield text("title", left, top + 12, group.title)
    told = [figures[group.section, bar.row, bar.column] for bar in group.bars]
    greatest = max(map(number, told))
    for place, (bar, figure) in enumerate(zip(group.bars, told)):
        length, base = LONGEST * number(figure) / greatest, top + 20 + place * BAR_RISE
        yield text("faint", left, base + 10, bar.name)
        yield rect(bar.colour, left + NAME_WIDTH, base, max(length, 1), BAR_HEIGHT)
        yield text("figure", left + NAME_WIDTH + length + 8, base + 10, "%s %s" % (figure, group.unit))


def number(figure):
    """The number that a figure tells."""
    return float(figure.replace(",", ""))


if __name__ == "__main__":
    sys.exit(main())
