#!/usr/bin/env python3
"""What is made of texts: the map of the crates, of crates.txt and the first words of each crate; the README's bars.

    dev/map.py --table      what each crate is, by room (the packages hold it as docs/dev/crates.txt)
    dev/map.py --write      writes the pictures docs/pictures/crates-*.svg and speed-*.svg
    dev/map.py --check      says whether they are as --write makes them; status 1 where one is not
    dev/map.py --chains     for each crate how long the longest chain below it is, itself counted, and how many crates
                            and lines of proved text a change of it proves again, itself and the tests counted

A heading of crates.txt (`# room: what is in it`) is a room; the comment that begins a crate's root file says what it is.
A row of the README's table "Speed" whose third column begins with a number is a bar: the part of the converter's (or of
clp's) time that it takes, whose own bar is 1, and the floor's part where the fourth column has one.
"""
from __future__ import annotations

import re
import sys
from collections.abc import Sequence
from dataclasses import dataclass
from functools import lru_cache
from itertools import takewhile
from xml.sax.saxutils import escape

from shared import TOP, Room, asked, own_uses, reached, rooms

PICTURES = TOP / "docs" / "pictures"

# The colours of the map: ground, ink, faint ink, a box and its edge, which arrows have, too.
MAP = {
    "light": ("#ffffff", "#1f2328", "#59636e", "#eef3fb", "#7d95b8"),
    "dark": ("#0d1117", "#e6edf3", "#9198a1", "#16202e", "#6f8fbf"),
}
# Of the bars: ground, ink, our bar, the bar of what stands beside it, and the mark of the floor.
BARS = {
    "light": ("#ffffff", "#1f2328", "#1a7f37", "#e2e5e9", "#bf8700"),
    "dark": ("#0d1117", "#e6edf3", "#3fb950", "#2a313a", "#d29922"),
}
WIDTH = 1120  # of the picture of the crates
GAP = 24  # between boxes of a row
BAND = 46  # between rows
EDGE = 10  # within a box
BARS_WIDTH = 900  # of the picture of the bars
LEFT = 330  # where bars begin
HIGH = 16  # of a bar
STEP = 30  # from one bar to the next
ROW = re.compile(r"^\| ([^|\n]*) \|[^|\n]*\| (\d+\.\d+)[^|\n]*\| (\d+\.\d+)?", re.M)
LINE, LETTER = 16, 6.4  # the height of a line of names, the width of a letter, as boxes reckon it


def first_words(crate: str) -> str:
    """What the comment at the head of a crate's root file says."""
    source = TOP / "crates" / crate / "src"
    root = source / "lib.rt" if (source / "lib.rt").exists() else source / "main.rt"
    return " ".join(
        line.lstrip("/!").strip()
        for line in takewhile(lambda it: it.startswith("//"), root.read_text().splitlines())
    )


def table() -> str:
    """What each crate is, below its room."""
    return "\n".join(
        line
        for room in rooms()[0]
        for line in (
            f"{room.name}: {room.what}",
            *(f"    {crate}: {first_words(crate)}" for crate in room.crates),
        )
    )


def below(uses: dict[str, list[str]]) -> dict[str, set[str]]:
    """Of each crate those that it stands on, and those below, itself among them."""
    return {name: {name, *reached([name], lambda it: set(uses[it]))} for name in uses}


def reduced(uses: dict[str, list[str]]) -> dict[str, list[str]]:
    """Of the crates that one stands on, those that none of the others stands on."""
    under = below(uses)
    return {
        name: [it for it in used if not any(it in under[other] for other in used if other != it)]
        for name, used in uses.items()
    }


def ranks(uses: dict[str, list[str]]) -> dict[str, int]:
    """The length of the longest chain below each, itself counted."""

    @lru_cache(maxsize=None)
    def rank(name: str) -> int:
        return 1 + max(map(rank, uses[name]), default=0)

    return {name: rank(name) for name in uses}


def line_count(crate: str) -> int:
    """The lines of a crate's code, definitions and proofs."""
    files = [
        path
        for part in ("src", "specs", "proofs")
        for path in (TOP / "crates" / crate / part).rglob("*")
    ]
    return sum(
        len(path.read_text().splitlines()) for path in files if path.suffix in (".rt", ".antt")
    )


def chains() -> str:
    """A line a crate, those with the longest chain last."""
    uses = own_uses()
    counts = {name: line_count(name) for name in uses}
    rank = ranks(uses)
    under = below(uses)
    told = []
    for name in sorted(uses, key=lambda it: rank[it]):
        above = [it for it in uses if name in under[it]]
        again = sum(counts[it] for it in above)
        told.append(
            f"{name:20} chain {rank[name]:2}  lines {counts[name]:6}  "
            f"proves again {len(above):2} crates, {again:6} lines, {100 * again // sum(counts.values()):2}%"
        )
    return "\n".join(told)


def steps_between(found: list[Room], uses: dict[str, list[str]]) -> list[tuple[str, str]]:
    """The pairs of rooms of which a crate of the first stands on one of the second.

    The tests are left out: they stand on nearly all.
    """
    room = {crate: it.name for it in found for crate in it.crates}
    steps = {(room[crate], room[other]) for crate, used in reduced(uses).items() for other in used}
    return sorted((one, other) for one, other in steps if one not in (other, "tests"))


def arrows(
    found: list[Room], uses: dict[str, list[str]]
) -> tuple[dict[str, list[str]], list[tuple[str, str]]]:
    """The rooms that each room stands on, those left out that another one of these stands on; and the pairs that lead
    the other way, to a room that comes later in crates.txt.
    """
    order = {it.name: place for place, it in enumerate(found)}
    down: dict[str, list[str]] = {it.name: [] for it in found}
    up: list[tuple[str, str]] = []
    for one, other in steps_between(found, uses):
        if order[other] < order[one]:
            down[one].append(other)
        else:
            up.append((one, other))
    return reduced(down), up


def wrapped(names: list[str], width: float) -> list[str]:
    """Names in lines of a width."""
    lines = [""]
    for name in names:
        longer = f"{lines[-1]}, {name}" if lines[-1] else name
        if len(longer) * LETTER > width and lines[-1]:
            lines.append(name)
        else:
            lines[-1] = longer
    return lines


@dataclass
class Box:
    """A room at its place, with its lines."""

    room: Room
    x: float
    y: float
    width: float
    height: float
    lines: list[str]


def placed(found: list[Room], down: dict[str, list[str]]) -> tuple[dict[str, Box], float]:
    """The boxes by room, a row for each step of the longest chain below, the longest on top; and the height of all."""
    boxes: dict[str, Box] = {}
    rank, y = ranks(down), 14.0
    for level in sorted(
        {rank[room.name] for room in found if down[room.name] or room is found[0]}, reverse=True
    ):
        row = [room for room in found if rank[room.name] == level and room.name != "tests"]
        width = min((WIDTH - 2 * GAP - GAP * (len(row) - 1)) / len(row), 620.0)
        x = (WIDTH - width * len(row) - GAP * (len(row) - 1)) / 2
        texts = [wrapped(room.crates, width - 2 * EDGE) for room in row]
        height = 46 + LINE * max(map(len, texts))
        for room, lines in zip(row, texts):
            boxes[room.name] = Box(room, x, y, width, height, lines)
            x += width + GAP
        y += height + BAND
    return boxes, y - BAND + 14


def downward(start: Box, end: Box) -> str:
    """The way from the lower side of one box to the upper side of another."""
    lean = (end.x + end.width / 2 - start.x - start.width / 2) / 6
    a, b = start.x + start.width / 2 + lean, end.x + end.width / 2 - lean
    top, bottom = start.y + start.height, end.y
    middle = (top + bottom) / 2
    return f"M{a:.0f} {top:.0f} C{a:.0f} {middle:.0f} {b:.0f} {middle:.0f} {b:.0f} {bottom:.0f}"


def upward(start: Box, end: Box, place: int) -> str:
    """That from the left side of a box to that of one above it, beside both."""
    lane = max(8.0, min(start.x, end.x) - 14 - 10 * place)
    leaves_at = start.y + 20 + 12 * place
    arrives_at = end.y + end.height / 2
    return f"M{start.x:.0f} {leaves_at:.0f} H{lane:.0f} V{arrives_at:.0f} H{end.x:.0f}"


def arrow(start: Box, end: Box, stroke: str, way: str, dashes: str = "") -> str:
    return (
        f'<path {dashes}d="{way}" fill="none" stroke="{stroke}" stroke-width="1.5" marker-end="url(#tip)">'
        f"<title>{start.room.name} stands on {end.room.name}</title></path>"
    )


def drawn(box: Box, ink: str, faint: str, fill: str, edge: str) -> str:
    """A room as SVG: its name, what it holds, and its crates, in these colours."""
    left = box.x + EDGE
    lines = "".join(
        f'<text x="{left:.0f}" y="{box.y + 54 + LINE * place:.0f}" font-size="12" fill="{ink}">{line}</text>'
        for place, line in enumerate(box.lines)
    )
    return (
        f'<rect x="{box.x:.0f}" y="{box.y:.0f}" width="{box.width:.0f}" height="{box.height:.0f}" rx="6" fill="{fill}" '
        f'stroke="{edge}"/><text x="{left:.0f}" y="{box.y + 20:.0f}" font-size="14" font-weight="bold" fill="{ink}">'
        f'{escape(box.room.name)}</text><text x="{left:.0f}" y="{box.y + 36:.0f}" font-size="11.5" fill="{faint}">'
        f"{escape(box.room.what)}</text>{lines}"
    )


def map_picture(scheme: str) -> str:
    """A box a room, arrows between rooms."""
    ground, ink, faint, fill, edge = MAP[scheme]
    found = rooms()[0]
    down, up = arrows(found, own_uses())
    boxes, height = placed(found, down)
    tip = (
        '<defs><marker id="tip" viewBox="0 0 8 8" refX="7" refY="4" markerWidth="7" markerHeight="7" orient="auto">'
        f'<path d="M0 0L8 4L0 8Z" fill="{edge}"/></marker></defs>'
    )
    parts = [
        arrow(boxes[one], boxes[other], edge, downward(boxes[one], boxes[other]))
        for one, used in down.items()
        if one in boxes
        for other in used
    ]
    parts += [
        arrow(
            boxes[one],
            boxes[other],
            edge,
            upward(boxes[one], boxes[other], place),
            'stroke-dasharray="5 4" ',
        )
        for place, (one, other) in enumerate(up)
    ]
    parts += [drawn(box, ink, faint, fill, edge) for box in boxes.values()]
    said = "The rooms, with their crates: each stands on those that arrows lead to; dashed: some of its crates do"
    return drawing(WIDTH, f"{height:.0f}", said, ground, parts, defined=[tip])


def bars() -> list[tuple[str, float, float | None]]:
    """The rows of the table that have a ratio: what was timed, its part of the time of what stands beside it, the floor's."""
    text = (TOP / "README.md").read_text().partition("\n## Speed\n")[2].partition("\n## ")[0]
    return [
        (name.replace("`", ""), float(part), float(floor) if floor else None)
        for name, part, floor in ROW.findall(text)
    ]


def bars_picture(scheme: str) -> str:
    """The ratios of the README's table as bars, light or dark."""
    ground, ink, ours, other, mark = BARS[scheme]
    found, out = bars(), []
    height = STEP * len(found) + 40
    unit = (BARS_WIDTH - LEFT - 60) / max([1.0, *(part for _, part, _ in found)])
    for place, (name, part, floor) in enumerate(found):
        y = 8 + place * STEP
        out.append(
            f'<text x="{LEFT - 10}" y="{y + 13}" text-anchor="end" fill="{ink}">{escape(name)}</text>'
            f'<rect x="{LEFT}" y="{y}" width="{unit:.1f}" height="{HIGH}" fill="{other}"/>'
            f'<rect x="{LEFT}" y="{y + 3}" width="{unit * part:.1f}" height="{HIGH - 6}" fill="{ours}"/>'
            f'<text x="{LEFT + unit * max(part, 1.0) + 8:.1f}" y="{y + 13}" fill="{ink}">{part:.2f}</text>'
        )
        if floor is not None:
            out.append(
                f'<path d="M{LEFT + unit * floor:.1f} {y - 2} v{HIGH + 4}" stroke="{mark}" stroke-width="2.5"/>'
            )
    y = height - 12
    out.append(
        f'<rect x="{LEFT}" y="{y - 10}" width="14" height="10" fill="{ours}"/><text x="{LEFT + 20}" y="{y}" fill="{ink}">'
        f'bridge</text><rect x="{LEFT + 90}" y="{y - 10}" width="14" height="10" fill="{other}"/>'
        f'<text x="{LEFT + 110}" y="{y}" fill="{ink}">converter in doubles, or clp: 1</text>'
        f'<path d="M{LEFT + 330} {y - 12} v14" stroke="{mark}" stroke-width="2.5"/>'
        f'<text x="{LEFT + 340}" y="{y}" fill="{ink}">the floor</text>'
    )
    title = (
        "Time of bridge beside that of a converter in doubles, or of clp reading alone, which is 1"
    )
    return drawing(BARS_WIDTH, height, title, ground, out, ' font-size="13"')


def drawing(
    width: int,
    height: object,
    title: str,
    ground: str,
    parts: Sequence[str],
    font: str = "",
    defined: Sequence[str] = (),
) -> str:
    """A picture in SVG."""
    return "\n".join(
        [
            f'<svg xmlns="http://www.w3.org/2000/svg" viewBox="0 0 {width} {height}" font-family="sans-serif"{font}>',
            f"<title>{title}</title>",
            *defined,
            f'<rect width="{width}" height="{height}" fill="{ground}"/>',
            *parts,
            "</svg>",
            "",
        ]
    )


def stale_pictures() -> dict[str, str]:
    """The pictures that are not as the texts say, by file, each as it is to be."""
    made = {
        f"{name}-{scheme}.svg": draw(scheme)
        for name, draw in (("crates", map_picture), ("speed", bars_picture))
        for scheme in MAP
    }
    return {
        name: text
        for name, text in made.items()
        if not (PICTURES / name).exists() or (PICTURES / name).read_text() != text
    }


def main(word: str) -> int:
    if word == "--table":
        print(table())
    elif word == "--chains":
        print(chains())
    elif word == "--write":
        for name, text in stale_pictures().items():
            (PICTURES / name).write_text(text)
    elif word == "--check":
        stale = stale_pictures()
        for name in stale:
            print(f"docs/pictures/{name} is not as map.py --write makes it")
        return 1 if stale else 0
    else:
        sys.exit(__doc__)
    return 0


if __name__ == "__main__":
    sys.exit(main("".join(asked(__doc__, 1, 1))))
