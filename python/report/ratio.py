"""Wald's sequential probability ratio test of two differences in Elo.

An observation is the pair of games that two engines play of one opening: its score is 0, 1/4, 1/2,
3/4 or 1. Of all distributions of these five scores, the likeliest whose mean is that of each
hypothesis is taken (the generalised test). So no rate of draws has to be known before.
"""
from __future__ import annotations

import math
from collections.abc import Sequence
from dataclasses import dataclass
from enum import Enum
from typing import TYPE_CHECKING

from scipy import optimize

if TYPE_CHECKING:
    from record import Game

SCORES = (0.0, 0.25, 0.5, 0.75, 1.0)
LEAST = 1e-3
"""What stands for a score that did not occur, so that each mean is possible."""


class Decision(Enum):
    """What a test says, with the status of a run that says it."""

    ACCEPT = 10
    REJECT = 11
    GO_ON = 12


@dataclass(frozen=True)
class Bounds:
    """The test ends once the ratio is at the lower bound or at the upper one."""

    lower: float
    upper: float

    def decide(self, ratio: float) -> Decision:
        if ratio >= self.upper:
            return Decision.ACCEPT
        return Decision.REJECT if ratio <= self.lower else Decision.GO_ON


def wald_bounds(alpha: float, beta: float) -> Bounds:
    """The bounds by the risk to accept wrongly (alpha) and to reject wrongly (beta)."""
    return Bounds(math.log(beta / (1 - alpha)), math.log((1 - beta) / alpha))


def expected_score(elo: float) -> float:
    """What an engine scores in a game against one that is so much weaker."""
    return 1 / (1 + 10 ** (-elo / 400))


def count_pairs(games: Sequence[Game], first: int, second: int) -> tuple[int, ...]:
    """How many whole pairs of games of two engines gave the first one each of the five scores."""
    counts = [0] * len(SCORES)
    for one, other in zip(games[::2], games[1::2]):
        if (one.white, one.black) == (first, second):
            counts[one.verdict.white_points + 2 - other.verdict.white_points] += 1
        elif (one.white, one.black) == (second, first):
            counts[2 - one.verdict.white_points + other.verdict.white_points] += 1
    return tuple(counts)


def likelihood_ratio(
    counts: Sequence[float], elo0: float, elo1: float, scores: Sequence[float] = SCORES
) -> float:
    """The logarithm of how much likelier these counts are under elo1 than under elo0."""
    if not any(counts):
        return 0.0
    filled = [max(float(count), LEAST) for count in counts]
    tilts = [_tilt(filled, scores, expected_score(elo)) for elo in (elo0, elo1)]
    means = [expected_score(elo) for elo in (elo0, elo1)]
    under0, under1 = (
        [math.log1p(tilt * (score - mean)) for score in scores] for tilt, mean in zip(tilts, means)
    )
    return sum(count * (a - b) for count, a, b in zip(filled, under0, under1))


def _tilt(counts: Sequence[float], scores: Sequence[float], mean: float) -> float:
    """The number t for which count / (1 + t (score - mean)) are weights with this mean."""

    def excess(tilt: float) -> float:
        return sum(
            count * (score - mean) / (1 + tilt * (score - mean))
            for count, score in zip(counts, scores)
        )

    least, greatest = -1 / (max(scores) - mean), 1 / (mean - min(scores))
    edge = 1e-12 * (greatest - least)
    return float(optimize.brentq(excess, least + edge, greatest - edge, xtol=1e-14))
