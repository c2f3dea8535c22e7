"""Charts as SVG for a page. Their texts stay texts, so that a reader can search and copy them."""
from __future__ import annotations

import io
import re
from collections.abc import Iterator, Sequence
from contextlib import contextmanager
from dataclasses import dataclass

import matplotlib
from matplotlib.axes import Axes
from matplotlib.backends.backend_svg import FigureCanvasSVG
from matplotlib.figure import Figure
from matplotlib.ticker import MaxNLocator

BLUE, ORANGE, GREY = "#0072B2", "#D55E00", "#767676"
"""Colours that are told apart without red and green (those of Okabe and Ito), and in grey."""

WIDTH = 4.0
"""Inches. A telephone shows this much at about its real size, so letters stay readable."""


@dataclass(frozen=True)
class Bar:
    """A row of a chart of ratings: half the bar lies to either side of the value."""

    label: str
    value: float
    half: float


def signed(value: float) -> str:
    """A whole number of Elo with its sign."""
    return f"{round(value):+d}".replace("-", "\u2212")


def ratings_chart(bars: Sequence[Bar]) -> str:
    """A row for each engine: its Elo as a dot, and its bar."""
    with _chart("elo", 0.75 + 0.42 * len(bars), "Elo of each engine with its bar of 95 %") as chart:
        axes = chart.axes
        rows = range(len(bars))
        values, halves = [bar.value for bar in bars], [bar.half for bar in bars]
        axes.axvline(0, color=GREY, linewidth=0.8, linestyle=(0, (3, 3)))
        axes.errorbar(values, rows, xerr=halves, fmt="o", color=BLUE, capsize=4, linewidth=1.6)
        for row, bar in enumerate(bars):
            axes.annotate(
                f"{signed(bar.value)} ± {bar.half:.0f}",
                (bar.value, row),
                xytext=(0, 6),
                textcoords="offset points",
                ha="center",
                fontsize=8,
                bbox={"facecolor": "white", "edgecolor": "none", "pad": 0.4},
            )
        axes.set_yticks(rows, [_short(bar.label) for bar in bars], parse_math=False)
        axes.set_ylim(len(bars) - 0.5, -0.7)
        axes.set_xlim(*_room(bars))
        axes.set_xlabel("Elo, 0 is the mean of all engines")
        axes.grid(axis="x", color="#dddddd", linewidth=0.6)
        axes.set_axisbelow(True)
    return chart.svg


def lengths_chart(decided: Sequence[int], drawn: Sequence[int]) -> str:
    """How many games were how long, those with a winner and those without."""
    with _chart("lengths", 2.5, "How many games had how many plies") as chart:
        axes = chart.axes
        axes.hist(
            [decided, drawn],
            bins=_bins(max([*decided, *drawn])),
            stacked=True,
            color=[BLUE, "#F0C08A"],
            edgecolor="white",
            linewidth=0.5,
            label=["with a winner", "drawn or at the limit"],
        )
        for patch in axes.containers[1]:
            patch.set_hatch("////")
        axes.set_xlabel("Length (plies)")
        axes.set_ylabel("Games")
        axes.yaxis.set_major_locator(MaxNLocator(integer=True, nbins=5, min_n_ticks=1))
        axes.xaxis.set_major_locator(MaxNLocator(integer=True, nbins=8))
        axes.legend(fontsize=8, frameon=False, loc="lower left", bbox_to_anchor=(0, 1), ncols=2)
    return chart.svg


def verdicts_chart(kinds: Sequence[tuple[str, int, bool]]) -> str:
    """How often each kind of verdict came; the third of each says whether it is a forfeit."""
    with _chart("verdicts", 0.7 + 0.28 * len(kinds), "How many games ended in which way") as chart:
        axes = chart.axes
        counts = [count for _, count, _ in kinds]
        colours = [ORANGE if forfeit else BLUE for _, _, forfeit in kinds]
        bars = axes.barh(range(len(kinds)), counts, color=colours, height=0.65)
        axes.bar_label(bars, padding=3, fontsize=8)
        axes.set_yticks(range(len(kinds)), [label for label, _, _ in kinds])
        axes.invert_yaxis()
        axes.set_xlabel("Games")
        axes.set_xlim(0, 1.15 * max(counts))
        axes.xaxis.set_major_locator(MaxNLocator(integer=True, nbins=6, min_n_ticks=1))
    return chart.svg


@dataclass
class _Drawing:
    """A chart while it is drawn, and its SVG once it is."""

    axes: Axes
    svg: str = ""


@contextmanager
def _chart(name: str, height: float, label: str) -> Iterator[_Drawing]:
    """A chart of a name that no other one of the page has, and of a height in inches."""
    settings = {
        "svg.fonttype": "none",
        "svg.hashsalt": name,
        "font.family": "sans-serif",
        "font.size": 9,
        "hatch.color": "#7a4a10",
        "hatch.linewidth": 0.6,
    }
    with matplotlib.rc_context(settings):
        figure = Figure(figsize=(WIDTH, height), layout="constrained")
        FigureCanvasSVG(figure)
        axes = figure.add_subplot()
        axes.spines[["top", "right"]].set_visible(False)
        drawing = _Drawing(axes)
        yield drawing
        text = io.StringIO()
        figure.savefig(text, format="svg", transparent=True, metadata={"Date": None})
    drawing.svg = _inline(text.getvalue(), name, label)


def _inline(svg: str, name: str, label: str) -> str:
    """An SVG file as an element of a page, with identifiers that no other chart has."""
    svg = svg[svg.index("<svg") :]
    svg = re.sub(r"<metadata>.*?</metadata>", "", svg, flags=re.DOTALL)
    svg = re.sub(r'(?<= )id="|(?<=href=")#|(?<=url\()#', rf"\g<0>{name}-", svg)
    svg = re.sub(r' xmlns:xlink="[^"]*"', "", svg).replace("xlink:href", "href")
    svg = re.sub(r'(<svg[^>]*?) (?:width|height)="[^"]*"', r"\1", svg)
    svg = re.sub(r'(<svg[^>]*?) (?:width|height)="[^"]*"', r"\1", svg)
    return svg.replace("<svg", f'<svg role="img" aria-label="{label}"', 1)


def _room(bars: Sequence[Bar]) -> tuple[float, float]:
    """The ends of an axis that leave room for the bars and their numbers."""
    least = min(bar.value - bar.half for bar in bars)
    greatest = max(bar.value + bar.half for bar in bars)
    edge = 0.14 * (greatest - least)
    return least - edge, greatest + edge


def _bins(longest: int) -> list[int]:
    """Ends of about twenty bins of one width, a whole number, from 0 on."""
    width = max(1, -(-(longest + 1) // 20))
    width = next(step for step in _round_steps() if step >= width)
    return list(range(0, longest + width + 1, width))


def _round_steps() -> Iterator[int]:
    step = 1
    while True:
        yield from (step, 2 * step, 5 * step)
        step *= 10


def _short(label: str, room: int = 20) -> str:
    """A label that leaves room for the chart: the end of a long name says most."""
    return label if len(label) <= room else "…" + label[-room + 1 :]
