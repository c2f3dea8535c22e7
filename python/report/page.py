"""The page of a tournament: its sections, in the order in which people ask."""
from __future__ import annotations

from collections.abc import Callable, Sequence
from dataclasses import dataclass

import charts
import tables
from markup import Cell, Column, Row, element, escape, figure, page, paragraph, section, table
from ratings import Ratings
from record import Game, Record
from schedule import Opening, opening_string

KINDS = {
    "result WhiteWins": "White won",
    "result BlackWins": "Black won",
    "result Draw": "Draw",
    "limit": "At the limit of plies",
    "forfeit notamove": "Forfeit: no move",
    "forfeit illegal": "Forfeit: illegal move",
    "forfeit err": "Forfeit: error",
    "forfeit late": "Forfeit: late",
    "forfeit flood": "Forfeit: flood",
    "forfeit longline": "Forfeit: long line",
    "forfeit ended": "Forfeit: left",
    "forfeit broke": "Forfeit: broke",
    "forfeit nostart": "Forfeit: no start",
}


@dataclass(frozen=True)
class Report:
    """What a page shows. `given` says that the openings are those of a file."""

    record: Record
    ratings: Ratings
    openings: Sequence[Opening]
    given: bool

    def name(self, engine: int) -> str:
        """An engine's name in HTML."""
        return escape(self.record.name(engine))

    def cell(self, engine: int, place: str = "") -> Cell:
        """A cell with an engine's name, and with its place if that is given."""
        return Cell(element("div", f"{place} {self.name(engine)}".lstrip()), "name")

    @property
    def ranking(self) -> list[int]:
        """The engines' numbers in the order of the standings."""
        return [row.engine for row in self.record.standings]


def write_page(report: Report) -> str:
    """The whole page."""
    record = report.record
    title = f"Hive tournament: {len(record.names)} engines, {len(record.games)} games"
    sections = (
        ("standings", "Standings", _standings(report)),
        ("elo", "Elo", _elo(report)),
        ("better", "Which engine is better", _better(report)),
        ("meetings", "Everybody against everybody", _meetings(report)),
        ("verdicts", "How games ended", _verdicts(report)),
        ("lengths", "How long games were", _lengths(report)),
        ("openings", "Openings", _openings(report)),
        ("games", "Games", _games(report)),
    )
    links = "".join(element("a", heading, href=f"#{name}") for name, heading, _ in sections)
    body = element("h1", escape(title)) + _summary(report) + element("nav", links) + "\n"
    return page(title, body + "".join(section(*parts) for parts in sections))


def percent(points: int, games: int) -> str:
    """A share of the points: each game has 2."""
    return f"{50 * points / games:.1f} %" if games else "–"


def likelihood(share: float) -> str:
    """A likelihood in percent. It is never shown as none or all."""
    if 0.001 <= share <= 0.999:
        return f"{100 * share:.1f} %"
    return "&gt; 99.9 %" if share > 0.5 else "&lt; 0.1 %"


def _summary(report: Report) -> str:
    record = report.record
    first = record.standings[0]
    text = (
        f"{len(record.games)} games of {record.games[0].string.type}. "
        f"{element('strong', report.name(first.engine))} is first, with {first.points} of "
        f"{2 * first.games} points ({percent(first.points, first.games)})."
    )
    notes = []
    if not record.finished:
        notes.append(
            "The tournament is not over: the record has no standings yet. These are those of the "
            "games so far, and engines have numbers for names."
        )
    repeats = tables.repeats(record.games)
    if repeats:
        notes.append(
            f"{repeats} games repeat an earlier one of the same engines move for move. They tell "
            "nothing new, so the true bars of Elo are longer than those shown."
        )
    return paragraph(text) + "".join(element("p", note, class_="note") for note in notes)


def _standings(report: Report) -> str:
    columns = [Column("Engine", False), Column("Points"), Column("Score"), Column("Elo")]
    columns += [Column(word) for word in ("Games", "Wins", "Draws", "Losses", "Forfeits")]
    rows: list[Row] = []
    for place, row in enumerate(report.record.standings, 1):
        points, *others = (str(number) for number in row.numbers)
        elo = charts.signed(float(report.ratings.elo[row.engine - 1]))
        elo += f" ± {report.ratings.bar(row.engine - 1):.0f}"
        name = report.cell(row.engine, str(place))
        rows.append([name, points, percent(row.points, row.games), elo, *others])
    caption = (
        "A win is 2 points; a draw, or a game at its limit, is 1. Elo is above or below the mean "
        "of all engines, with its bar of 95 %. Forfeits are losses too."
    )
    return table("standings-table", caption, columns, rows)


def _elo(report: Report) -> str:
    ratings = report.ratings
    order = sorted(report.ranking, key=lambda engine: -float(ratings.elo[engine - 1]))
    bars = [
        charts.Bar(report.record.name(it), float(ratings.elo[it - 1]), ratings.bar(it - 1))
        for it in order
    ]
    caption = (
        "Elo by the model of Bradley and Terry, a draw as half a point. Each bar holds the true "
        "value with 95 %, by how widely the results of pairs of games spread."
    )
    parts = [figure(charts.ratings_chart(bars), caption)]
    if ratings.padded:
        text = (
            "Some engines won, or lost, every game against the others, which no finite difference "
            "in Elo explains. So each two engines that met count with one drawn game more, and the "
            "true differences may be greater."
        )
        parts.append(element("p", text, class_="note"))
    return "\n".join(parts)


def _better(report: Report) -> str:
    def cell(row: int, column: int) -> Cell:
        gap, half = report.ratings.difference(row - 1, column - 1)
        share = report.ratings.superiority(row - 1, column - 1)
        return Cell(
            f"{likelihood(share)}<small>{charts.signed(gap)} ± {half:.0f}</small>",
            style=_tint(share),
        )

    caption = (
        "The likelihood that the engine of the row is better than that of the column, and by how "
        "many points of Elo, with the bar of 95 %."
    )
    return _square(report, "better-table", caption, cell)


def _meetings(report: Report) -> str:
    scores = tables.meetings(report.record.games)

    def cell(row: int, column: int) -> Cell:
        score = scores.get((row, column))
        if not score:
            return Cell("–")
        words = f"{score.points}/{2 * score.games}"
        detail = f"<small>+{score.wins} ={score.draws} −{score.losses}</small>"
        return Cell(words + detail, style=_tint(score.points / (2 * score.games)))

    caption = "Points of the row in its games against the column, then wins, draws and losses."
    return _square(report, "meetings-table", caption, cell)


def _square(report: Report, name: str, caption: str, cell: Callable[[int, int], Cell]) -> str:
    """A table with a row and a column for each engine, in the order of the standings."""
    places = range(1, len(report.ranking) + 1)
    columns = [Column("Engine", False), *(Column(str(place)) for place in places)]
    rows = [
        [report.cell(row, str(place))]
        + [Cell("", "own") if row == column else cell(row, column) for column in report.ranking]
        for place, row in zip(places, report.ranking)
    ]
    caption += " Columns have the numbers of the rows."
    return table(name, caption, columns, rows)


def _tint(share: float) -> str:
    """The ground of a cell: blue for more than half, orange for less, and always light."""
    colour = "0, 114, 178" if share > 0.5 else "230, 140, 40"
    return f"background: rgba({colour}, {0.8 * abs(share - 0.5):.2f})"


def _verdicts(report: Report) -> str:
    games = report.record.games
    kinds = tables.verdict_kinds(games)
    rows = [[KINDS[kind], str(count), percent(2 * count, len(games))] for kind, count in kinds]
    white = tables.white_score(games)
    parts = [
        figure(
            charts.verdicts_chart(
                [(KINDS[kind], count, kind.startswith("forfeit")) for kind, count in kinds]
            ),
            "Results by the rules and limits are blue, forfeits orange.",
        ),
        table(
            "verdicts-table",
            "The verdicts by their kind.",
            [Column("Verdict", False), Column("Games"), Column("Share")],
            rows,
        ),
        paragraph(
            f"White scored {percent(white.points, white.games)} of the points, forfeits included."
        ),
    ]
    return "\n".join(parts + _forfeits(report))


def _forfeits(report: Report) -> list[str]:
    """Who forfeited how often, and how late answers came: what the record says of time."""
    games = report.record.games
    parts = []
    rows: list[Row] = [
        [report.cell(engine), KINDS[kind], str(count)]
        for engine, kind, count in tables.forfeits(games)
    ]
    if rows:
        columns = [Column("Engine", False), Column("Forfeit", False), Column("Games")]
        parts.append(table("forfeits-table", "Forfeits by engine.", columns, rows))
    late: list[Row] = [
        [report.cell(row.engine), str(row.answers), str(row.longest)]
        for row in tables.late_answers(games)
    ]
    if late:
        columns = [Column("Engine", False), Column("Late answers"), Column("Longest (ms)")]
        caption = "How long late answers took. Of answers in time the record does not say it."
        parts.append(table("late-table", caption, columns, late))
    return parts


def _lengths(report: Report) -> str:
    games = report.record.games
    decided = [game.plies for game in games if game.verdict.white_points != 1]
    drawn = [game.plies for game in games if game.verdict.white_points == 1]
    found = tables.lengths(games)
    columns = [Column("Shortest"), Column("Median"), Column("Mean"), Column("Longest")]
    row = [
        f"{found.shortest.plies}<small>game {found.shortest.number}</small>",
        f"{found.median:g}",
        f"{found.mean:.1f}",
        f"{found.longest.plies}<small>game {found.longest.number}</small>",
    ]
    return figure(
        charts.lengths_chart(decided, drawn),
        "Plies of a game, those of its opening included. Hatched: games without a winner.",
    ) + table("lengths-table", "Lengths in plies.", columns, [row])


def _openings(report: Report) -> str:
    columns = [Column("Opening"), Column("White’s score"), Column("Games"), Column("Draws")]
    columns += [Column("Plies"), Column("Game string", False)]
    rows = [
        _opening(report.record.games[0].string.type, number, opening)
        for number, opening in enumerate(report.openings, 1)
    ]
    caption = "What white scored from each opening, in the order of the schedule."
    if not report.given:
        caption += (
            " The record does not name the openings: these are the moves that all games of an "
            "opening share, and may be longer."
        )
    return table("openings-table", caption, columns, rows)


def _opening(game_type: str, number: int, opening: Opening) -> list[str]:
    games = len(opening.games)
    share = percent(opening.white_points, games)
    bar = element("span", "", style=f"width: {50 * opening.white_points / games:.1f}%")
    return [
        str(number),
        share + element("span", bar, class_="share", aria_hidden="true"),
        str(games),
        str(opening.draws),
        str(len(opening.moves)),
        _string(opening_string(game_type, opening.moves)),
    ]


def _games(report: Report) -> str:
    columns = [Column("Game"), Column("White", False), Column("Black", False)]
    columns += [Column("Verdict", False), Column("Plies"), Column("Game string", False)]
    rows: list[Row] = [
        [
            str(game.number),
            report.cell(game.white),
            report.cell(game.black),
            Cell(element("div", escape(_shortened(game.verdict.text))), "text"),
            str(game.plies),
            _string(game.string.text),
        ]
        for game in report.record.games
    ]
    found = table("games-table", "All games, in the order of the schedule.", columns, rows)
    lead = paragraph("Copy a game string into a viewer to see the game, or to go on from it.")
    return lead + element("details", element("summary", f"All {len(rows)} games") + found)


def _shortened(text: str, room: int = 200) -> str:
    """A text without its end, if it is long. What an engine said may have 65,536 bytes."""
    return text if len(text) <= room else text[:room] + "…"


def _string(text: str) -> str:
    """A game string that a click selects whole, and the button that copies it."""
    button = element("button", "Copy", type="button", class_="copy")
    return element("span", button + element("code", escape(text)), class_="string")
