"""Pieces of HTML: escaped text, tables and the frame of a page."""
from __future__ import annotations

import html
from collections.abc import Iterable, Sequence
from dataclasses import dataclass
from pathlib import Path

FOLDER = Path(__file__).resolve().parent
POLICY = "default-src 'none'; style-src 'unsafe-inline'; script-src 'unsafe-inline'; img-src data:"
"""The page fetches nothing, and a browser holds it to that."""


@dataclass(frozen=True)
class Cell:
    """A cell of a table: its HTML, and how it is shown."""

    content: str
    kind: str = ""
    style: str = ""


@dataclass(frozen=True)
class Column:
    """A column of a table: its heading in HTML, and whether it holds numbers."""

    heading: str
    numbers: bool = True


Row = Sequence["str | Cell"]


def escape(text: str) -> str:
    return html.escape(text, quote=True)


def element(tag: str, content: str, **attributes: str) -> str:
    """An element; a trailing underscore of an attribute is dropped, one within is a hyphen."""
    words = (
        f' {name.rstrip("_").replace("_", "-")}="{escape(value)}"'
        for name, value in attributes.items()
        if value
    )
    return f"<{tag}{''.join(words)}>{content}</{tag}>"


def paragraph(text: str) -> str:
    return element("p", text) + "\n"


def table(
    name: str, caption: str, columns: Sequence[Column], rows: Iterable[Row]
) -> str:
    """A table that scrolls sideways below its caption. First cells head their rows."""
    head = "".join(
        element("th", column.heading, scope="col", class_="number" if column.numbers else "")
        for column in columns
    )
    body = "\n".join(element("tr", "".join(_cells(columns, row))) for row in rows)
    inner = element("thead", element("tr", head)) + "\n" + element("tbody", body)
    style = f"--columns: {len(columns)}"
    inner = element("table", inner, id=name, style=style, aria_describedby=f"{name}-caption")
    told = element("p", caption, id=f"{name}-caption", class_="caption")
    return told + "\n" + element("div", inner, class_="wide", tabindex="0")


def _cells(columns: Sequence[Column], row: Row) -> Iterable[str]:
    for place, (column, item) in enumerate(zip(columns, row)):
        cell = item if isinstance(item, Cell) else Cell(item)
        kinds = f"{'number' if column.numbers else ''} {cell.kind}".strip()
        if place == 0:
            yield element("th", cell.content, scope="row", class_=kinds, style=cell.style)
        else:
            yield element("td", cell.content, class_=kinds, style=cell.style)


def figure(svg: str, caption: str) -> str:
    return element("figure", svg + element("figcaption", caption)) + "\n"


def section(name: str, title: str, *parts: str) -> str:
    return element("section", element("h2", title) + "\n" + "\n".join(parts), id=name) + "\n"


def page(title: str, body: str) -> str:
    """A whole page, which has its style and its script in it."""
    style = (FOLDER / "page.css").read_text(encoding="utf-8")
    script = (FOLDER / "page.js").read_text(encoding="utf-8")
    head = (
        '<meta charset="utf-8">\n'
        f'<meta http-equiv="Content-Security-Policy" content="{POLICY}">\n'
        '<meta name="viewport" content="width=device-width, initial-scale=1">\n'
        '<link rel="icon" href="data:,">\n'
        f"<title>{escape(title)}</title>\n<style>\n{style}</style>\n"
    )
    main = element("main", "\n" + body)
    return (
        f'<!DOCTYPE html>\n<html lang="en">\n<head>\n{head}</head>\n'
        f"<body>\n{main}\n<script>\n{script}</script>\n</body>\n</html>\n"
    )
