"""The standings of a tournament by its games, in the order of the program."""
from __future__ import annotations

from collections.abc import Iterable
from dataclasses import dataclass
from typing import Protocol


class Judged(Protocol):
    """What the standings ask of a verdict: 2 points are a win of white, 1 a draw."""

    @property
    def white_points(self) -> int: ...

    @property
    def forfeit(self) -> str | None: ...


@dataclass
class Standing:
    """An engine's row. A win is 2 points, a draw or a game at its limit is 1."""

    engine: int
    points: int = 0
    games: int = 0
    wins: int = 0
    draws: int = 0
    losses: int = 0
    forfeits: int = 0

    def add(self, points: int, forfeit: bool) -> None:
        self.points += points
        self.games += 1
        self.wins += points == 2
        self.draws += points == 1
        self.losses += points == 0
        self.forfeits += points == 0 and forfeit

    @property
    def numbers(self) -> tuple[int, int, int, int, int, int]:
        return self.points, self.games, self.wins, self.draws, self.losses, self.forfeits

    @property
    def words(self) -> str:
        names = ("points", "games", "wins", "draws", "losses", "forfeits")
        return " ".join(f"{name} {number}" for name, number in zip(names, self.numbers))


def rank(games: Iterable[tuple[int, int, Judged]], engines: int) -> list[Standing]:
    """The rows by points, then by the points of the engines that were beaten, then by number."""
    rows = {engine: Standing(engine) for engine in range(1, engines + 1)}
    beaten: list[tuple[int, int]] = []
    for white, black, verdict in games:
        points, forfeit = verdict.white_points, verdict.forfeit is not None
        rows[white].add(points, forfeit)
        rows[black].add(2 - points, forfeit)
        if points != 1:
            beaten.append((white, black) if points == 2 else (black, white))
    strength = dict.fromkeys(rows, 0)
    for winner, loser in beaten:
        strength[winner] += rows[loser].points
    return sorted(rows.values(), key=lambda row: (-row.points, -strength[row.engine], row.engine))
