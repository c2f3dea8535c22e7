"""What a page of python/report shows in a real browser, against the lines of its record."""
import itertools
import math
import pathlib
import re
import statistics
from collections.abc import Sequence

import report_browser
import support
from outcomes import ends
from report_browser import Browser
from report_records import Game

PHONE = dict(width=360, height=740, scale=2.0, mobile=True)
SCREEN = dict(width=1000, height=800)
VERDICTS = {
    "result WhiteWins": "White won", "result BlackWins": "Black won", "result Draw": "Draw",
    "limit": "At the limit of plies", "notamove": "Forfeit: no move", "err": "Forfeit: error",
    "illegal": "Forfeit: illegal move", "late": "Forfeit: late", "flood": "Forfeit: flood",
    "longline": "Forfeit: long line", "ended": "Forfeit: left", "broke": "Forfeit: broke",
    "nostart": "Forfeit: no start",
}

Rows = list[list]  # of a table: a cell is a text, or a text and its small print


def number(text: str) -> float:
    """The number that a cell shows."""
    return float(text.replace("−", "-").rstrip(" %"))


def kind_of(verdict: str) -> str:
    words = verdict.split(" ")
    name = words[2] if words[0] == "forfeit" else "limit" if words[0] == "limit" else verdict
    return VERDICTS[name]


def elo_by_steps(games: Sequence[Game], engines: int) -> list[float]:
    """Elo by the steps of Zermelo, which need no library: each raises the likelihood."""
    points, met = [0.0] * engines, {}
    for game in games:
        white, black = game.white - 1, game.black - 1
        points[white] += game.white_points / 2
        points[black] += 1 - game.white_points / 2
        for pair in ((white, black), (black, white)):
            met[pair] = met.get(pair, 0) + 1
    strength = [1.0] * engines
    for _ in range(3000):
        strength = [
            points[i] / sum(n / (strength[i] + strength[b]) for (a, b), n in met.items() if a == i)
            for i in range(engines)
        ]
    logs = [400 * math.log10(it) for it in strength]
    return [it - sum(logs) / engines for it in logs]


def ranked(games: Sequence[Game], engines: int) -> list[int]:
    """The engines' numbers in the order of the standings."""
    points, beaten = dict.fromkeys(range(1, engines + 1), 0), []
    for game in games:
        points[game.white] += game.white_points
        points[game.black] += 2 - game.white_points
        winner = ends(game.verdict.split(" "))[0]
        if winner is not None:
            pair = (game.white, game.black)
            beaten.append((pair[winner], pair[1 - winner]))
    strength = {it: sum(points[loser] for winner, loser in beaten if winner == it) for it in points}
    return sorted(points, key=lambda it: (-points[it], -strength[it], it))


def heights_of_bars(games: Sequence[Game]) -> list[int]:
    """How many games stand in each bar of the chart of lengths that is not empty."""
    plies = [game.plies for game in games]
    width = next(w for w in (1, 2, 5, 10, 20, 50, 100) if w * 20 >= max(plies) + 1)
    bins = [length // width for length in plies]
    return [bins.count(place) for place in sorted(set(bins))]


class PageCase(support.Case):
    """A test that looks at pages in a browser."""

    browser: Browser

    def check_page(
        self, path: pathlib.Path, games: list[Game], rows: list[str], openings: list[str]
    ) -> None:
        """That the page of a record is right, whose openings were given: by its games and its
        standings."""
        browser = self.browser
        browser.size(**SCREEN)
        browser.open(path)
        self.check_quiet(path)
        browser.open(path)
        tables, charts = browser.tell(report_browser.TABLES), browser.tell(report_browser.CHARTS)
        self.assertEqual(len(charts), 3, "charts")
        order = ranked(games, len(rows))
        self.check_standings(tables["standings-table"], rows)
        self.check_elo(tables["standings-table"], charts[0], games, order)
        self.check_better(tables, order)
        self.check_meetings(tables["meetings-table"], games, order)
        self.check_verdicts(tables["verdicts-table"], charts[1], games)
        self.check_games(tables, games)
        self.check_bars(games)
        pairs = math.comb(len(rows), 2)
        self.check_openings(tables["openings-table"], games, openings, pairs)
        self.check_copies()
        for size, letters in ((PHONE, 9), (SCREEN, 11)):
            self.check_size(path, size, letters)

    def check_quiet(self, path: pathlib.Path) -> None:
        """That it says nothing on the console and asks for nothing; what does so is noticed."""
        browser = self.browser
        self.assertEqual(browser.said(), [], "the console")
        self.assertEqual(set(browser.requests()) - {"data:,"}, {path.as_uri()}, "requests")
        text = path.read_text(encoding="utf-8")
        found = set(re.findall(r"https?://[^\s\"'<)]*", text))
        self.assertEqual(found, {"http://www.w3.org/2000/svg"}, "addresses")
        browser.tell("console.log('a line')")
        image = "Object.assign(new Image(), {src: 'http://127.0.0.1:9/x'})"
        browser.tell(f"document.body.append({image})")
        browser.tell("new Promise(done => setTimeout(done, 300))")
        self.assertGreaterEqual(len(browser.said()), 2, "what is noticed of a line and an image")

    def check_standings(self, shown: Rows, rows: list[str]) -> None:
        """That the table of standings has the words of the record."""
        for place, (cells, row) in enumerate(zip(shown, rows, strict=True), 1):
            words = re.fullmatch(r"(.*) points (\d+) games (\d+)" + r" \w+ (\d+)" * 4, row).groups()
            name, points, games = words[0], int(words[1]), int(words[2])
            self.assertEqual(cells[0], f"{place} {name}", "an engine of the standings")
            self.assertEqual(cells[1], words[1], f"points of {name}")
            self.assertEqual(cells[2], f"{50 * points / games:.1f} %", f"the score of {name}")
            self.assertEqual(cells[4:], list(words[2:]), f"numbers of {name}")

    def check_elo(self, shown: Rows, chart: dict, games: list[Game], order: list[int]) -> None:
        """That ratings are those of another way to the same model: in the table and the chart."""
        wanted = elo_by_steps(games, len(order))
        for engine, cells in zip(order, shown, strict=True):
            elo = number(cells[3].split(" ± ")[0])
            self.assertAlmostEqual(elo, wanted[engine - 1], delta=0.51, msg=f"engine {engine}")
            self.assertIn(cells[3], chart["texts"], "Elo in the chart")

    def check_better(self, tables: dict[str, Rows], order: list[int]) -> None:
        """That of each two engines the one is as much better as the other is worse."""
        elo = [number(cells[3].split(" ± ")[0]) for cells in tables["standings-table"]]
        shown = tables["better-table"]
        for one, other in itertools.permutations(range(len(order)), 2):
            (likely, bar), mirrored = shown[one][other + 1], shown[other][one + 1][0]
            gap, half = (number(text) for text in bar.split(" ± "))
            self.assertAlmostEqual(gap, elo[one] - elo[other], delta=1.5, msg="a difference")
            self.assertGreater(half, 0, "a bar of a difference")
            self.assertEqual(number(likely.lstrip("<> ")) >= 50, gap >= 0, "who is better")
            if likely[0] in "<>":
                wanted = {">": "< 0.1 %", "<": "> 99.9 %"}[likely[0]]
                self.assertEqual(mirrored, wanted, "who is worse")
            else:
                both = number(likely) + number(mirrored)
                self.assertAlmostEqual(both, 100, delta=0.11, msg="who is worse")

    def check_meetings(self, shown: Rows, games: list[Game], order: list[int]) -> None:
        """What each scored against each."""
        for row, cells in zip(order, shown, strict=True):
            for column, cell in zip(order, cells[1:], strict=True):
                pair = (row, column)
                points = [it.white_points for it in games if (it.white, it.black) == pair]
                points += [2 - it.white_points for it in games if (it.black, it.white) == pair]
                wins, draws, losses = (points.count(it) for it in (2, 1, 0))
                told = [f"{sum(points)}/{2 * len(points)}", f"+{wins} ={draws} −{losses}"]
                wanted = "" if row == column else told
                self.assertEqual(cell, wanted, f"engine {row} against engine {column}")

    def check_verdicts(self, shown: Rows, chart: dict, games: list[Game]) -> None:
        """How often each verdict was given, in the table and in the chart."""
        kinds = [kind_of(game.verdict) for game in games]
        for name, count, share in shown:
            wanted = (str(kinds.count(name)), f"{100 * kinds.count(name) / len(games):.1f} %")
            self.assertEqual((count, share), wanted, f"how often: {name}")
            self.assertTrue({name, count} <= set(chart["texts"]), f"{name} in the chart")
        self.assertEqual(sum(int(row[1]) for row in shown), len(games), "all verdicts")

    def check_games(self, tables: dict[str, Rows], games: list[Game]) -> None:
        """Lengths and game strings."""
        plies = [game.plies for game in games]
        shortest, median, mean, longest = tables["lengths-table"][0]
        self.assertEqual(int(shortest[0]), min(plies), "the shortest")
        self.assertEqual(int(longest[0]), max(plies), "the longest")
        self.assertEqual(float(median), statistics.median(plies), "the median")
        self.assertEqual(mean, f"{statistics.mean(plies):.1f}", "the mean")
        shown = [(int(row[0]), row[3], row[5]) for row in tables["games-table"]]
        wanted = [(game.number, game.verdict, game.string) for game in games]
        self.assertEqual(shown, wanted, "games")
        self.assertEqual([int(row[4]) for row in tables["games-table"]], plies, "plies")

    def check_bars(self, games: list[Game]) -> None:
        """That the bars of the chart of lengths are as high as games are many."""
        boxes = self.browser.tell(report_browser.BARS)
        places = sorted({round(x, 2) for x, _ in boxes})
        heights = [sum(height for x, height in boxes if round(x, 2) == it) for it in places]
        counts = heights_of_bars(games)
        found = [round(height * max(counts) / max(heights)) for height in heights if height > 0]
        self.assertEqual(found, counts, "the chart of lengths")

    def check_openings(
        self, shown: Rows, games: list[Game], openings: list[str], pairs: int
    ) -> None:
        """The score of white from each opening, and its game string."""
        for place, (cells, string) in enumerate(zip(shown, openings, strict=True)):
            block = [g for g in games if (g.number - 1) // (2 * pairs) % len(openings) == place]
            points = sum(game.white_points for game in block)
            draws = sum(game.white_points == 1 for game in block)
            wanted = [f"{50 * points / len(block):.1f} %", str(len(block)), str(draws)]
            self.assertEqual(cells[:4], [str(place + 1), *wanted], f"opening {place + 1}")
            self.assertEqual(cells[5], string, f"the string of opening {place + 1}")
            plies = len(string.split(";")) - 3
            self.assertEqual(int(cells[4]), plies, f"plies of opening {place + 1}")

    def check_copies(self) -> None:
        """That a button copies its game string, and a click selects the whole string."""
        browser = self.browser
        allowed = ["clipboardReadWrite", "clipboardSanitizedWrite"]
        browser.ask("Browser.grantPermissions", permissions=allowed)
        browser.ask("Emulation.setFocusEmulationEnabled", enabled=True)
        browser.tell("document.querySelector('#games details').open = true")
        row = "#games-table tbody tr:nth-child(2)"
        string = browser.tell(f"document.querySelector('{row} code').textContent")
        browser.click(f"{row} button")
        told = browser.tell(f"document.querySelector('{row} button').textContent")
        self.assertEqual(told, "Copied", "the button")
        copied = browser.tell("navigator.clipboard.readText()")
        self.assertEqual(copied, string, "what was copied")
        browser.tell("getSelection().empty()")
        browser.click(f"{row} code")
        selected = browser.tell("getSelection().toString()")
        self.assertEqual(selected, string, "what a click selects")
        self.assertEqual(browser.said(), [], "the console after clicks")

    def check_size(self, path: pathlib.Path, size: dict, letters: float) -> None:
        """That nothing but tables is wider than the page, and letters can be read."""
        self.browser.size(**size)
        self.browser.open(path)
        width = self.browser.tell("document.documentElement.scrollWidth")
        self.assertEqual(width, size["width"], "the width of the page")
        for chart in self.browser.tell(report_browser.CHARTS):
            fits = size["width"] / 2 < chart["width"] <= size["width"] and chart["height"] > 100
            self.assertTrue(fits, f"a chart of {chart['width']} by {chart['height']}")
            self.assertGreaterEqual(chart["letters"], letters, "the letters of a chart")
        self.assertEqual(self.browser.printed()[:5], b"%PDF-", "the page in print")
