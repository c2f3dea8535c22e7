"""Records of tournaments of the built program become pages, PGN headers and sequential tests: what
they say is what the record says, other records are refused, ratings are those of published tables,
and a real browser shows the page.

Without scipy and matplotlib only records and PGN are tried, and without chromium no page is looked
at.
"""
import functools
import importlib.util
import pathlib
import random
import re
import shutil
import signal
import tempfile
import time
import unittest

import report_tournament
import support
from outcomes import schedule
from report_browser import Browser
from report_page import PageCase
from report_records import Game, every_verdict, made, one_sided, read, report, wrong_records

import record as records

NEEDED = ("scipy", "matplotlib")
MISSING = [name for name in NEEDED if importlib.util.find_spec(name) is None]
CHROMIUM = shutil.which("chromium")

if not MISSING:
    from report_numbers import Numbers  # its tests are tests of this module


@functools.cache
def whole_night() -> tuple[list[str], str]:
    """The openings of a tournament, and its record."""
    openings = report_tournament.openings_of(5)
    with tempfile.TemporaryDirectory() as name:
        return openings, report_tournament.record_of(pathlib.Path(name), openings)


def night() -> tuple[list[str], str]:
    """The same, but the record has no head."""
    openings, text = whole_night()
    return openings, text.split("\n", 1)[1]


def skip_if_missing(what: str) -> None:
    if MISSING:
        raise unittest.SkipTest(f"{what}, as there is no {' and no '.join(MISSING)}")


def points_of_pgn(blocks: list[dict[str, str]]) -> dict[str, int]:
    """The points of each engine by the headers of its games."""
    points = {}
    for headers in blocks:
        white = {"1-0": 2, "1/2-1/2": 1, "0-1": 0}[headers["Result"]]
        for name, more in ((headers["White"], white), (headers["Black"], 2 - white)):
            points[name] = points.get(name, 0) + more
    return points


def pair_counts(games: list[Game], white: int, black: int) -> list[int]:
    """How often black has each score from 0 to 4 in a pair of games of which this is the first."""
    counts = [0] * 5
    for one, other in zip(games[::2], games[1::2]):
        if (one.white, one.black) == (white, black):
            counts[2 - one.white_points + other.white_points] += 1
    return counts


class Records(support.Case):
    """What needs no library."""

    def check_record(self, text: str) -> None:
        """That the reader's games and standings are those of the lines."""
        games, rows = read(text)
        found = records.read_record([records.Source("x", text)])
        self.assertTrue(found.finished, "the record is whole")
        told = [(g.number, g.white, g.black, g.verdict.text, g.string.text) for g in found.games]
        self.assertEqual(told, [tuple(game) for game in games])
        told = [game.verdict.white_points for game in found.games]
        self.assertEqual(told, [game.white_points for game in games], "points")
        names = [f"{found.name(row.engine)} {row.words}" for row in found.standings]
        self.assertEqual(names, rows, "standings")

    def test_records(self) -> None:
        """A real one, and one with every verdict."""
        self.assertEqual(len(read(night()[1])[0]), 60, "games")
        for text in (night()[1], every_verdict()):
            self.check_record(text)

    def test_made_records(self) -> None:
        """Records of three engines, many of which stand by more than their points."""
        dice, engines = random.Random(3), ["./a", "./b", "./c"]
        verdicts = ["result WhiteWins", "result BlackWins", "result Draw"]
        verdicts += ["forfeit white late 1 9"]
        for _ in range(200):
            games = [(*pair, dice.choice(verdicts), "wS1") for _, *pair in schedule(3, 1)]
            self.check_record(made(engines, games))

    def check_cut(self, text: str, cut: int) -> None:
        part = text[:cut]
        end = text.index(f"\n{read(text)[1][0]}") + 1
        whole = sum(line.startswith("verdict ") for line in part.split("\n")[:-1])
        try:
            found = records.read_record([records.Source("x", part)])
        except records.RecordError:
            rows = len(part[end:].splitlines())
            self.assertTrue(whole == 0 or rows > 0, f"what is refused after a cut at {cut}")
            return
        self.assertEqual(len(found.games), whole, f"games after a cut at {cut}")
        self.assertEqual(found.finished, cut == len(text) - 1, f"the end after a cut at {cut}")

    def test_cuts(self) -> None:
        """A record that was cut anywhere has its whole games, unless the standings were cut."""
        for text in (one_sided(4, ("result WhiteWins", "limit 1")), every_verdict()):
            for cut in range(len(text)):
                self.check_cut(text, cut)

    def test_refusals(self) -> None:
        for name, text, words in wrong_records(night()[1]):
            with self.subTest(name):
                with self.assertRaises(records.RecordError) as refused:
                    records.read_record([records.Source("x", text)])
                self.assertIn(words, str(refused.exception))

    def test_heads(self) -> None:
        """A record with its head is read as one without it; another head is refused."""
        text, headless = whole_night()[1], night()[1]
        games = records.read_record([records.Source("x", headless)]).games
        self.assertEqual(records.read_record([records.Source("x", text)]).games, games)
        lines = text.split("\n")
        rest = "\n".join([lines[0].replace("depth 1", "depth 2"), *lines[3:]])
        parts = [records.Source("x", "\n".join(lines[:3]) + "\n"), records.Source("y", rest)]
        with self.assertRaises(records.RecordError) as refused:
            records.read_record(parts)
        self.assertIn("another tournament", str(refused.exception))

    def test_joined_files(self) -> None:
        """A run that was cut, and what went on, are one record; its files have names in faults."""
        folder, text = self.folder(), night()[1]
        lines, games = text.split("\n"), read(text)[0]
        first, rest, none = folder / "first.txt", folder / "rest.txt", folder / "none.txt"
        first.write_text("\n".join(lines[:7]) + "\nverdict 4 3 1 resu")
        rest.write_text("\n".join(lines[6:]))
        status, pgn, _ = report("--pgn", first, rest)
        self.assertEqual((status, pgn.count("[White ")), (0, len(games)))
        status, _, fault = report("--pgn", rest, first)
        self.assertEqual(status, 6, "another order")
        self.assertIn(str(rest), fault)
        status, _, fault = report(none)
        self.assertEqual(status, 3, "a file that is not there")
        self.assertIn("none.txt: No such file", fault)
        self.assertEqual(report()[0], 2, "no file")
        status, found, _ = report("--pgn", "-", text=text)
        self.assertEqual((status, found), (0, pgn), "standard input")

    def headers_of(self, pgn: str) -> list[dict[str, str]]:
        """The headers of each game, whose result stands behind them once more."""
        found = []
        for block in pgn.split("[Event ")[1:]:
            pairs = re.findall(r'^\[(\w+) "((?:[^"\\]|\\.)*)"\]$', block, re.MULTILINE)
            headers = {name: re.sub(r"\\(.)", r"\1", value) for name, value in pairs}
            self.assertEqual(block.split("\n\n")[1].strip(), headers["Result"])
            found.append(headers)
        return found

    def test_pgn(self) -> None:
        """Headers give the standings once more, and the game strings."""
        for text in (night()[1], every_verdict()):
            games, rows = read(text)
            status, pgn, _ = report("--pgn", "-", text=text)
            self.assertEqual(status, 0)
            blocks = self.headers_of(pgn)
            told = [(int(it["Round"]), it["Verdict"], it["GameString"]) for it in blocks]
            wanted = [(game.number, game.verdict, game.string) for game in games]
            self.assertEqual(told, wanted)
            parts = [re.fullmatch(r"(.*) points (\d+) games .*", row).groups() for row in rows]
            points = {name: int(count) for name, count in parts}
            self.assertEqual(points_of_pgn(blocks), points)


class Commands(support.Case):
    """What needs scipy and matplotlib, but no browser."""

    @classmethod
    def setUpClass(cls) -> None:
        skip_if_missing("ratings and the sequential test")
        super().setUpClass()

    def test_ends_of_a_test(self) -> None:
        won = ("forfeit black ended", "forfeit white ended")
        lost = won[::-1]
        lines = {10: "accept", 11: "reject", 12: "go on", 6: ""}
        for games, words, hypotheses, wanted in [
            (40, won, (0, 200), 10),
            (40, lost, (0, 200), 11),
            (40, lost, (-200, 0), 11),
            (4, won, (0, 200), 12),
            (0, won, (0, 200), 6),
        ]:
            with self.subTest(f"{games} games {words} {hypotheses}"):
                text = one_sided(games, words)
                status, told, _ = report("--sprt", *hypotheses, "-", text=text)
                self.assertEqual(status, wanted)
                self.assertEqual((told.splitlines() or [""])[-1], lines[status])
                if status != 6:
                    self.assertIn("bounds -2.94 and 2.94", told)

    def test_words_of_a_test(self) -> None:
        text = night()[1]
        for words in [("5", "5"), ("nan", "5"), ("0", "x"), ("0", "10", "--pair", "1", "1")]:
            self.assertEqual(report("--sprt", *words, "-", text=text)[0], 2, f"--sprt {words}")
        status, _, _ = report("--sprt", "0", "1", "--pair", "1", "9", "-", text=text)
        self.assertEqual(status, 6, "no such engine")

    def test_pair(self) -> None:
        """The test of another pair of engines says their names, and how often each score was."""
        text = night()[1]
        _, told, _ = report("--sprt", "-9", "9", "--pair", "4", "3", "-", text=text)
        counts = pair_counts(read(text)[0], 3, 4)
        title = f"./careless 2 against ./deep 3: {sum(counts)} pairs of games\n"
        self.assertEqual(told[: len(title)], title)
        self.assertIn(f"points: {' '.join(map(str, counts))}\n", told)

    def test_tournament_that_runs(self) -> None:
        """A tournament is stopped by the test of its record while it runs."""
        folder = self.folder()
        engines = ["./deep 3", "./deep 1"]
        run = report_tournament.start(folder, engines, night()[0], "--rounds", "1000")
        self.addCleanup(run.wait)
        self.addCleanup(run.kill)
        limit, status = time.monotonic() + 60, None
        while status != 10 and time.monotonic() < limit:
            time.sleep(0.3)
            status, _, fault = report("--sprt", "0", "200", folder / "night.txt")
            self.assertIn(status, (6, 10, 12), fault)
        self.assertIsNone(run.poll(), "it is still running")
        run.send_signal(signal.SIGTERM)
        run.wait(timeout=20)
        self.assertEqual(status, 10)

    def test_page_of_half_a_tournament(self) -> None:
        text = night()[1]
        status, found, _ = report("-", text=text[: len(text) // 2])
        self.assertEqual(status, 0)
        self.assertTrue("is not over" in found, "the page says that it is not over")


class Pages(PageCase):
    """What a browser shows."""

    @classmethod
    def setUpClass(cls) -> None:
        skip_if_missing("pages")
        if not CHROMIUM:
            raise unittest.SkipTest("pages in a browser, as there is no chromium")
        super().setUpClass()
        made = tempfile.TemporaryDirectory()
        cls.addClassCleanup(made.cleanup)
        cls.browser = Browser(CHROMIUM, pathlib.Path(made.name))
        cls.addClassCleanup(cls.browser.close)

    def check_report(self, text: str, openings: list[str]) -> None:
        folder = self.folder()
        given, page = folder / "given.txt", folder / "night.html"
        given.write_text(support.text_of(openings))
        status, found, fault = report("--openings", given, "-", text=text)
        self.assertEqual(status, 0, fault)
        page.write_text(found, encoding="utf-8")
        self.check_page(page, *read(text), openings)

    def test_page(self) -> None:
        openings, text = night()
        self.check_report(text, openings)

    def test_page_of_every_verdict(self) -> None:
        self.check_report(every_verdict(), ["Base;InProgress;Black[1];wS1"])
