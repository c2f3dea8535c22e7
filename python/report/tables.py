"""What the games of a tournament count up to: tables without a model."""
from __future__ import annotations

import statistics
from collections import Counter
from collections.abc import Sequence
from dataclasses import dataclass
from typing import TYPE_CHECKING

if TYPE_CHECKING:
    from record import Game


@dataclass
class Score:
    """What one engine scored against another: wins, draws and losses."""

    wins: int = 0
    draws: int = 0
    losses: int = 0

    def add(self, points: int) -> None:
        self.wins += points == 2
        self.draws += points == 1
        self.losses += points == 0

    @property
    def games(self) -> int:
        return self.wins + self.draws + self.losses

    @property
    def points(self) -> int:
        return 2 * self.wins + self.draws


@dataclass(frozen=True)
class Lengths:
    """The lengths of games in plies."""

    shortest: Game
    longest: Game
    median: float
    mean: float


@dataclass(frozen=True)
class Late:
    """The answers of an engine that were late, and how many milliseconds the longest took."""

    engine: int
    answers: int
    longest: int


def meetings(games: Sequence[Game]) -> dict[tuple[int, int], Score]:
    """The score of each engine against each one that it met."""
    scores: dict[tuple[int, int], Score] = {}
    for game in games:
        points = game.verdict.white_points
        scores.setdefault((game.white, game.black), Score()).add(points)
        scores.setdefault((game.black, game.white), Score()).add(2 - points)
    return scores


def white_score(games: Sequence[Game]) -> Score:
    """What white scored in all games."""
    score = Score()
    for game in games:
        score.add(game.verdict.white_points)
    return score


def lengths(games: Sequence[Game]) -> Lengths:
    plies = [game.plies for game in games]
    return Lengths(
        min(games, key=lambda game: game.plies),
        max(games, key=lambda game: game.plies),
        statistics.median(plies),
        statistics.fmean(plies),
    )


def verdict_kinds(games: Sequence[Game]) -> list[tuple[str, int]]:
    """How often each kind of verdict came: results first, then limits, then forfeits."""
    order = ["result WhiteWins", "result BlackWins", "result Draw", "limit"]
    counts = Counter(game.verdict.kind for game in games)
    others = sorted(set(counts) - set(order), key=lambda kind: (-counts[kind], kind))
    return [(kind, counts[kind]) for kind in order + others]


def loser(game: Game) -> int:
    """The engine that lost a game that has a winner."""
    return game.black if game.verdict.white_points == 2 else game.white


def forfeits(games: Sequence[Game]) -> list[tuple[int, str, int]]:
    """Which engine forfeited, how, and how often."""
    counts = Counter((loser(game), game.verdict.kind) for game in games if game.verdict.forfeit)
    return [(engine, kind, count) for (engine, kind), count in sorted(counts.items())]


def late_answers(games: Sequence[Game]) -> list[Late]:
    found: dict[int, list[int]] = {}
    for game in games:
        if game.verdict.took is not None:
            found.setdefault(loser(game), []).append(game.verdict.took)
    return [Late(engine, len(late), max(late)) for engine, late in sorted(found.items())]


def repeats(games: Sequence[Game]) -> int:
    """How many games repeat an earlier one of the same engines and colours, move for move."""
    return len(games) - len({(game.white, game.black, game.string.text) for game in games})
