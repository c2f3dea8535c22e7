#!/usr/bin/env python3
"""Draws the layers of the crates, docs/layers.svg, from crates.txt: a band for each heading there,
a box for each crate, and a line from a crate to each that it stands on, but for those that it
reaches through others. Makes the table of crates of docs/ARCHITECTURE.md too: a row for each crate,
with the first sentence of its lib.rt.

Usage: layers.py, which ends with status 0 if no crate stands on one of a later heading, and the
drawing and the table are those of the crates; layers.py --write makes both anew.
"""
import html
import pathlib
import re
import sys
from collections.abc import Iterator

TOP = pathlib.Path(__file__).resolve().parent.parent
DRAWING = TOP / "docs" / "layers.svg"
PAGE = TOP / "docs" / "ARCHITECTURE.md"
TABLE = re.compile(r"\| Crate \| What it holds \|\n(?:\|.*\n)*")
WIDTH, LEFT, ROW, BOX, GAP, LETTER = 1180, 150, 38, 22, 14, 7.2

Layers = list[tuple[str, list[str]]]  # headings and their crates
Below = dict[str, list[str]]  # what each crate stands on
Spots = dict[str, tuple[float, float]]  # the middle of each box


def read_crates() -> tuple[Layers, Below]:
    """The headings with their crates, and what each crate stands on."""
    layers, below = [], {}
    for line in (TOP / "crates.txt").read_text(encoding="utf-8").split("\n")[1:]:
        text, _, comment = line.partition("#")
        if not text.strip():
            if comment:
                layers.append((comment.strip(), []))
            continue
        name, _, stands_on = text.partition(":")
        name = name.split()[0]
        below[name] = stands_on.split()
        layers[-1][1].append(name)
    ours = {name: [it for it in crates if it in below] for name, crates in below.items()}
    return layers, ours


def upward(layers: Layers, below: Below) -> list[str]:
    """The crates that stand on one of a later heading, each with that one."""
    heights = {name: height for height, (_, names) in enumerate(layers) for name in names}
    return [
        f"{name} stands on {crate}, which is above it"
        for name, crates in below.items()
        for crate in crates
        if heights[crate] > heights[name]
    ]


def reach(below: Below, name: str) -> set[str]:
    """All crates that a crate stands on, through others or not."""
    found, ahead = set(), list(below[name])
    while ahead:
        crate = ahead.pop()
        if crate not in found:
            found.add(crate)
            ahead += below[crate]
    return found


def lines(below: Below) -> Iterator[tuple[str, str]]:
    """The pairs of a crate and one that it stands on, but for those that it reaches through
    another."""
    all_below = {name: reach(below, name) for name in below}
    for name, crates in below.items():
        for crate in crates:
            if not any(crate in all_below[other] for other in crates):
                yield name, crate


def width(name: str) -> float:
    return len(name) * LETTER + 14


def fitted(names: list[str]) -> list[list[str]]:
    """The names in rows that fit, as even as can be."""
    room = WIDTH - LEFT - 20
    rows = -(-sum(width(name) + GAP for name in names) // room)
    each = -(-len(names) // int(rows))
    return [names[at : at + each] for at in range(0, len(names), each)]


def rows_of(names: list[str], below: Below) -> list[list[str]]:
    """The crates of a band in rows, the lowest first: each above those of the band that it stands
    on."""
    left, rows = list(names), []
    while left:
        row = [name for name in left if not reach(below, name) & set(left)]
        rows += [row]
        left = [name for name in left if name not in row]
    return rows


def middle_below(name: str, below: Below, spots: Spots) -> float:
    """The mean place of what a crate stands on, by which a row is put in order."""
    places = [spots[crate][0] for crate in below[name] if crate in spots]
    return sum(places) / len(places) if places else WIDTH / 2


def put_row(names: list[str], y: float, spots: Spots) -> None:
    """Puts a row of boxes at this height."""
    free = WIDTH - LEFT - 20 - sum(width(name) for name in names)
    gap = min(free / (len(names) + 1), 190)
    x = LEFT + 10 + (free - gap * (len(names) - 1)) / 2
    for name in names:
        spots[name] = (x + width(name) / 2, y)
        x += width(name) + gap


def placed(layers: Layers, below: Below) -> tuple[list, Spots, float]:
    """The bands from the bottom up as (heading, lower end, upper end), and the boxes, counted
    upwards."""
    bands, spots, height = [], {}, 8
    direct = {name: [] for name in below}
    for name, crate in lines(below):
        direct[name].append(crate)
    for heading, names in layers:
        low = height
        for level in rows_of(names, below):
            level.sort(key=lambda name: middle_below(name, direct, spots))
            for row in fitted(level):
                put_row(row, height + ROW / 2, spots)
                height += ROW
        bands.append((heading, low, height))
        height += 6
    return bands, spots, height


def heading_lines(heading: str) -> list[str]:
    """A heading in lines of at most 18 letters or so."""
    out = [""]
    for word in heading.split():
        if len(out[-1]) + len(word) > 18:
            out.append("")
        out[-1] = (out[-1] + " " + word).strip()
    return out


def drawn_band(heading: str, top: float, height: float) -> Iterator[str]:
    yield f'<rect x="4" y="{top}" width="{WIDTH - 8}" height="{height}" rx="6" fill="#f2f5f7"/>'
    for number, text in enumerate(heading_lines(heading)):
        y = top + 20 + 15 * number
        yield f'<text x="12" y="{y}" fill="#335566">{html.escape(text)}</text>'


def drawn_line(start: tuple[float, float], end: tuple[float, float]) -> str:
    (x, y), (to_x, to_y) = start, end
    bend = (to_y - y) / 2
    path = f"M{x:.0f} {y:.0f} C{x:.0f} {y + bend:.0f} {to_x:.0f} {to_y - bend:.0f}"
    return f'<path d="{path} {to_x:.0f} {to_y:.0f}" fill="none" stroke="#9fb3bf"/>'


def drawn_box(name: str, x: float, y: float) -> Iterator[str]:
    place = f'x="{x - width(name) / 2:.0f}" y="{y - BOX / 2:.0f}"'
    size = f'width="{width(name):.0f}" height="{BOX}" rx="4"'
    yield f'<rect {place} {size} fill="#ffffff" stroke="#557788"/>'
    place = f'x="{x:.0f}" y="{y + 4:.0f}" text-anchor="middle"'
    yield f'<text {place} fill="#112233">{name}</text>'


def draw() -> str:
    layers, below = read_crates()
    bands, spots, height = placed(layers, below)
    size = f'width="{WIDTH}" height="{height}"'
    font = 'font-family="monospace" font-size="12"'
    out = [f'<svg xmlns="http://www.w3.org/2000/svg" {size} {font}>']
    out.append(f'<rect {size} fill="#ffffff"/>')
    for heading, low, high in bands:
        out += drawn_band(heading, height - high, high - low)
    spots = {name: (x, height - y) for name, (x, y) in spots.items()}
    out += [drawn_line(spots[name], spots[crate]) for name, crate in lines(below)]
    for name, (x, y) in spots.items():
        out += drawn_box(name, x, y)
    return "\n".join(out + ["</svg>", ""])


def first_sentence(name: str) -> str:
    """What the head of a crate says first, without its stop."""
    sources = TOP / "crates" / name / "src"
    root = next(file for file in ("lib.rt", "main.rt") if (sources / file).is_file())
    text = (sources / root).read_text(encoding="utf-8")
    head = " ".join(line[3:].strip() for line in text.split("\n") if line.startswith("//!"))
    return re.split(r"\.(?:\s|$)", head)[0]


def table() -> str:
    rows = ["| Crate | What it holds |", "|---|---|"]
    for heading, names in read_crates()[0]:
        rows.append(f"| | **{heading}** |")
        rows += [f"| `{name}` | {first_sentence(name)} |" for name in names]
    return "\n".join(rows + [""])


def with_table(page: str) -> str:
    return TABLE.sub(lambda _: table(), page, count=1)


def main(words: list[str]) -> None:
    page = PAGE.read_text(encoding="utf-8")
    if words == ["--write"]:
        DRAWING.write_text(draw(), encoding="utf-8")
        page = with_table(page)
        PAGE.write_text(page, encoding="utf-8")
    wrong = upward(*read_crates())
    if not DRAWING.is_file() or DRAWING.read_text(encoding="utf-8") != draw():
        wrong.append("docs/layers.svg is not that of crates.txt: layers.py --write draws it anew")
    if with_table(page) != page:
        wrong.append("the table of crates is not that of their heads: layers.py --write makes it")
    if wrong:
        raise SystemExit("\n".join(wrong))


if __name__ == "__main__":
    main(sys.argv[1:])
