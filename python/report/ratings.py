"""Elo ratings of the engines of a tournament, by the model of Bradley and Terry.

Engine i is expected to score 1 / (1 + 10 ** ((r_j - r_i) / 400)) against engine j, and a draw is
half a point to both. The ratings are those of greatest likelihood, and their mean is 0.

The bars take the two games that a pair plays of one opening as one observation. So what the colour
and the opening are worth does not widen them, and draws narrow them: the variance of the model is
multiplied by the dispersion that the observations show (quasi-likelihood). One more observation,
of dispersion 1, keeps it from 0 in a short tournament.
"""
from __future__ import annotations

from collections.abc import Sequence
from dataclasses import dataclass
from functools import cached_property
from typing import TYPE_CHECKING

import numpy
from numpy.typing import NDArray
from scipy import optimize, sparse, stats

if TYPE_CHECKING:
    from record import Game

Floats = NDArray[numpy.float64]

ELO = 400 / numpy.log(10)
"""Elo points in one unit of the natural logarithm of the odds."""


@dataclass(frozen=True)
class Pairing:
    """Games of two engines, by their places from 0 on, and the first one's points, a win 1."""

    first: int
    second: int
    games: int
    score: float


@dataclass(frozen=True)
class Ratings:
    """Elo ratings with mean 0, and their covariance.

    `padded` says that no finite ratings fit, so that each two engines that met were given one
    drawn game more.
    """

    elo: Floats
    covariance: Floats
    freedom: int
    padded: bool

    @cached_property
    def quantile(self) -> float:
        """How many standard errors a bar reaches to either side."""
        return float(stats.t.ppf(0.975, self.freedom))

    def bar(self, engine: int) -> float:
        """Half the length of an engine's bar of 95 %."""
        return self.quantile * float(numpy.sqrt(self.covariance[engine, engine]))

    def error(self, first: int, second: int) -> float:
        """The standard error of the difference of two ratings."""
        within = self.covariance[first, first] + self.covariance[second, second]
        return float(numpy.sqrt(within - 2 * self.covariance[first, second]))

    def difference(self, first: int, second: int) -> tuple[float, float]:
        """By how much the first is better than the second, and half the bar of 95 %."""
        gap = float(self.elo[first] - self.elo[second])
        return gap, self.quantile * self.error(first, second)

    def superiority(self, first: int, second: int) -> float:
        """The likelihood that the first engine is the better one of the two."""
        gap = self.elo[first] - self.elo[second]
        return float(stats.t.cdf(gap / self.error(first, second), self.freedom))


def pairings(games: Sequence[Game]) -> list[Pairing]:
    """What games tell: two of a pair and an opening together, and the last one if it is alone."""
    found = []
    for start in range(0, len(games), 2):
        first = games[start].white
        pair = games[start : start + 2]
        points = sum(
            game.verdict.white_points if game.white == first else 2 - game.verdict.white_points
            for game in pair
        )
        found.append(Pairing(first - 1, games[start].black - 1, len(pair), points / 2))
    return found


def rate(found: Sequence[Pairing], engines: int) -> Ratings:
    """The ratings of engines that are joined by their games."""
    played, scored = totals(found, engines)
    padded = not is_finite(scored)
    if padded:
        met = (played > 0).astype(float)
        played, scored = played + met, scored + met / 2
    strength = fit(played, scored)
    freedom = len(found) - (engines - 1) + 1
    scale = dispersion(found, strength, freedom)
    if padded:
        scale = max(scale, 1.0)
    inverse = numpy.linalg.inv(information(played, strength)[1:, 1:])
    covariance = numpy.zeros((engines, engines))
    covariance[1:, 1:] = scale * inverse
    centre = numpy.eye(engines) - 1 / engines
    return Ratings(ELO * centre @ strength, ELO**2 * centre @ covariance @ centre, freedom, padded)


def totals(found: Sequence[Pairing], engines: int) -> tuple[Floats, Floats]:
    """How many games each engine played against each, and its points in them."""
    played, scored = numpy.zeros((engines, engines)), numpy.zeros((engines, engines))
    for item in found:
        played[item.first, item.second] += item.games
        scored[item.first, item.second] += item.score
        scored[item.second, item.first] += item.games - item.score
    return played + played.T, scored


def is_finite(scored: Floats) -> bool:
    """Whether some ratings fit best: each engine is above each by a chain of points."""
    parts, _ = sparse.csgraph.connected_components(scored > 0, connection="strong")
    return bool(parts == 1)


def expected(strength: Floats) -> Floats:
    """What each engine, a row, is expected to score in a game against each."""
    gap: Floats = strength[:, None] - strength[None, :]
    return 1 / (1 + numpy.exp(-gap))


def information(played: Floats, strength: Floats) -> Floats:
    """Minus the second derivatives of the log-likelihood."""
    share = expected(strength)
    weight = played * share * (1 - share)
    result: Floats = numpy.diag(weight.sum(axis=1)) - weight
    return result


def fit(played: Floats, scored: Floats) -> Floats:
    """The strengths of greatest likelihood, in natural logarithms, the first one 0."""
    points = scored.sum(axis=1)

    def full(free: Floats) -> Floats:
        return numpy.append([0.0], free)

    def missing(free: Floats) -> float:
        return float(-(scored * numpy.log(expected(full(free)))).sum())

    def slope(free: Floats) -> Floats:
        rest: Floats = (played * expected(full(free))).sum(axis=1) - points
        return rest[1:]

    def curvature(free: Floats) -> Floats:
        return information(played, full(free))[1:, 1:]

    start = numpy.zeros(len(points) - 1)
    found = optimize.minimize(
        missing, start, method="trust-exact", jac=slope, hess=curvature, options={"gtol": 1e-9}
    )
    return full(found.x)


def dispersion(found: Sequence[Pairing], strength: Floats, freedom: int) -> float:
    """How widely the observations spread, where 1 is the spread of games without draws."""
    share = expected(strength)
    total = 1.0
    for item in found:
        p = share[item.first, item.second]
        total += (item.score - item.games * p) ** 2 / (item.games * p * (1 - p))
    return float(total / freedom)
