#!/usr/bin/env python3
"""Makes the picture of a page of results, docs/report.png: a browser shows the page of a tournament
of four engines, with thirty openings.

Usage: report_picture.py FILE. It needs scipy, matplotlib and chromium, and takes a minute or two.
HIVE_PROGRAM names another program than that of ./hive.
"""
import pathlib
import shutil
import struct
import sys
import tempfile

import report_tournament
from report_browser import Browser
from report_records import report

WIDTH = 760


def make_page(folder: pathlib.Path) -> pathlib.Path:
    """The page of a tournament that is played in a folder."""
    report_tournament.record_of(folder, report_tournament.openings_of(30), "--rounds", "1")
    status, text, fault = report("--openings", folder / "openings.txt", folder / "night.txt")
    if status != 0:
        raise SystemExit(fault)
    page = folder / "night.html"
    page.write_text(text, encoding="utf-8")
    return page


def take_picture(browser: Browser, page: pathlib.Path, picture: pathlib.Path) -> None:
    """The part of a page above its verdicts."""
    browser.size(width=WIDTH, height=800)
    browser.open(page)
    height = browser.tell("document.querySelector('#verdicts').getBoundingClientRect().top")
    browser.picture(picture, clip=dict(x=0, y=0, width=WIDTH, height=height, scale=1.3))


def main(picture: pathlib.Path) -> None:
    chromium = shutil.which("chromium")
    if not chromium:
        raise SystemExit("there is no chromium")
    with tempfile.TemporaryDirectory() as name:
        folder = pathlib.Path(name)
        page = make_page(folder)
        browser = Browser(chromium, folder)
        try:
            take_picture(browser, page, picture)
        finally:
            browser.close()
    width, height = struct.unpack(">II", picture.read_bytes()[16:24])
    print(f"{picture} has {width} by {height} points")


if __name__ == "__main__":
    main(pathlib.Path(sys.argv[1]))
