"""The numbers of python/report against values from outside: published tables and their ratings,
formulas of the literature, and made tournaments whose truth is known.

It needs scipy, as the modules do that it tries.
"""
import math
import random
from collections.abc import Sequence

import numpy

import report_records  # finds the modules of python/report
import support

import ratings
import ratio
from ratio import Decision

# Games won by the row against the column in the American League East, 1987, and what Agresti,
# Categorical Data Analysis, fits to them: the last team is 0. The standard errors are those of the
# package BradleyTerry2.
BASEBALL = [
    [0, 7, 9, 7, 7, 9, 11],  # Milwaukee
    [6, 0, 7, 5, 11, 9, 9],  # Detroit
    [4, 6, 0, 7, 7, 8, 12],  # Toronto
    [6, 8, 6, 0, 6, 7, 10],  # New York
    [6, 2, 6, 7, 0, 7, 12],  # Boston
    [4, 4, 5, 6, 6, 0, 6],  # Cleveland
    [2, 4, 1, 3, 1, 7, 0],  # Baltimore
]
BASEBALL_STRENGTH = [1.5814, 1.4364, 1.2945, 1.2476, 1.1077, 0.6839, 0.0]
BASEBALL_ERROR = [0.3433, 0.3396, 0.3367, 0.3359, 0.3339, 0.3319]
# Citations of the row's journal by the column's: Biometrika, Communications in Statistics, JASA
# and JRSS-B (Stigler 1994), as BradleyTerry2 fits them: the first journal is 0.
CITATIONS = [[0, 730, 498, 221], [33, 0, 68, 17], [320, 813, 0, 142], [284, 276, 325, 0]]
CITATIONS_STRENGTH = [0.0, -2.94907, -0.47957, 0.26895]
CITATIONS_ERROR = [0.10255, 0.06059, 0.07083]
# Matches of two programs: wins, draws and losses, and the difference in Elo that was published
# with them: AlphaZero against Stockfish (2017 and 2018).
MATCHES = [((28, 72, 0), 100), ((155, 839, 6), 52)]
# Elo's expectation: what a player scores who is better by so much.
EXPECTATION = {0: 0.5, 100: 0.64, 200: 0.76, 400: 10 / 11, 800: 100 / 101}


def pair_up(points: Sequence[float]) -> list[ratings.Pairing]:
    """Observations of two engines from the first one's points in each game."""
    return [
        ratings.Pairing(0, 1, len(points[at : at + 2]), sum(points[at : at + 2]))
        for at in range(0, len(points), 2)
    ]


def shuffled(dice: random.Random, wins: int, draws: int, losses: int) -> list[float]:
    """The points of an engine in so many games."""
    points = [1.0] * wins + [0.5] * draws + [0.0] * losses
    dice.shuffle(points)
    return points


def made_pair(dice: random.Random, elo: float, colour: float, draws: float) -> float:
    """The points of an engine in two games of an opening that is worth so much Elo to white."""
    total = 0.0
    for white in (colour, -colour):
        share = ratio.expected_score(elo + white)
        drawn = min(draws, 2 * share, 2 - 2 * share)
        chance = dice.random()
        total += 1 if chance < share - drawn / 2 else 0.5 if chance < share + drawn / 2 else 0
    return total


def made_field(dice: random.Random, truth: Sequence[float]) -> ratings.Ratings:
    """The ratings of a made tournament, of twenty pairs of games for each two engines."""
    numbers = range(len(truth))
    pairs = [(one, other) for one in numbers for other in numbers if one < other]
    games = [
        ratings.Pairing(one, other, 2, made_pair(dice, truth[one] - truth[other], 30, 0.3))
        for one, other in pairs
        for _ in range(20)
    ]
    return ratings.rate(games, len(truth))


def made_test(dice: random.Random, bounds: ratio.Bounds, truth: float) -> Decision:
    """How a made test ends that looks behind each five pairs of games, of 1,000 at most."""
    counts, decision = [0] * 5, Decision.GO_ON
    for _ in range(200):
        for _ in range(5):
            counts[round(2 * made_pair(dice, truth, 30, 0.3))] += 1
        decision = bounds.decide(ratio.likelihood_ratio(counts, 0, 60))
        if decision is not Decision.GO_ON:
            break
    return decision


def usual_ratio(counts: Sequence[int], low: float, high: float) -> float:
    """The logarithm of the ratio for many pairs of games, by the formula for it."""
    total = sum(counts)
    mean = sum(n * s for n, s in zip(counts, ratio.SCORES)) / total
    spread = sum(n * (s - mean) ** 2 for n, s in zip(counts, ratio.SCORES)) / total
    return total * (high - low) * (2 * mean - low - high) / (2 * spread)


class Numbers(support.Case):
    def near(self, what: str, found: float, wanted: float, error: float) -> None:
        self.assertAlmostEqual(found, wanted, delta=error, msg=what)

    def test_published_tables(self) -> None:
        """Tables of results whose fits are published, with their standard errors."""
        for name, table, strengths, errors, zero in [
            ("baseball", BASEBALL, BASEBALL_STRENGTH, BASEBALL_ERROR, 6),
            ("citations", CITATIONS, CITATIONS_STRENGTH, CITATIONS_ERROR, 0),
        ]:
            scored = numpy.array(table, float)
            played = scored + scored.T
            found = ratings.fit(played, scored)
            others = [place for place in range(len(table)) if place != zero]
            for place, strength in enumerate(strengths):
                self.near(f"{name} {place}", found[place] - found[zero], strength, 6e-5)
            inner = ratings.information(played, found)[numpy.ix_(others, others)]
            spread = numpy.linalg.inv(inner)
            for place, error in enumerate(errors):
                found_error = math.sqrt(spread[place, place])
                self.near(f"error of {name} {place}", found_error, error, 6e-5)

    def test_published_matches(self) -> None:
        for counts, elo in MATCHES:
            found = ratings.rate(pair_up(shuffled(random.Random(1), *counts)), 2)
            self.near(f"a match {counts}", found.difference(0, 1)[0], elo, 0.5)
        for elo, share in EXPECTATION.items():
            self.near(f"the score of {elo} more", ratio.expected_score(elo), share, 0.0011)

    def test_two_engines(self) -> None:
        """The difference in Elo is that of the score, and who is better that of a formula."""
        dice = random.Random(2)
        for counts in [(300, 400, 260), (520, 100, 470), (90, 800, 110), (40, 20, 60)]:
            wins, draws, losses = counts
            points = shuffled(dice, *counts)
            found = ratings.rate(pair_up(points), 2)
            games, share = len(points), sum(points) / len(points)
            elo = 400 * math.log10(share / (1 - share))
            self.near(f"Elo of {counts}", found.difference(0, 1)[0], elo, 1e-4)
            spread = wins * (1 - share) ** 2 + draws * (0.5 - share) ** 2 + losses * share**2
            error = math.sqrt(spread) / games * 400 / math.log(10) / (share * (1 - share))
            self.near(f"the error of {counts}", found.error(0, 1) / error, 1, 0.12)
            usual = 0.5 + 0.5 * math.erf((wins - losses) / math.sqrt(2 * (wins + losses)))
            better, worse = found.superiority(0, 1), found.superiority(1, 0)
            self.near(f"who is better by {counts}", better, usual, 0.03)
            self.near(f"who is worse by {counts}", worse, 1 - better, 1e-12)

    def test_extremes(self) -> None:
        """Results without a finite difference have wide bars, and draws alone no bar of 0."""
        lost = ratings.rate(pair_up([0.0] * 20), 2)
        self.assertTrue(lost.padded, "who lost all is told so")
        # the bar of the score reaches to 1 - 0.025 ** (1 / 20), by Clopper and Pearson; theirs is
        # exact
        gap, half = lost.difference(0, 1)
        exact = 400 * math.log10((1 - 0.025 ** (1 / 20)) / 0.025 ** (1 / 20))
        self.assertTrue(exact <= gap + half < 0, f"the end {gap + half} of the bar of 20 losses")
        drawn = ratings.rate(pair_up([0.5] * 20), 2)
        self.assertFalse(drawn.padded, "draws alone")
        self.assertEqual(round(drawn.difference(0, 1)[0], 9), 0.0, "draws alone")
        self.assertGreater(drawn.bar(0), 10, "draws alone have a bar")
        one = ratings.rate(pair_up([1.0]), 2)
        self.assertGreater(one.bar(0), 1000, "one game tells nothing")

    def test_bars(self) -> None:
        """Of 1,000 made tournaments the bar of 95 % holds the truth in 930 to 970.

        In 400 with openings that favour one colour much, it does so too, and is not too long.
        """
        truth = 20
        for name, times, spread, error in [
            ("made tournaments", 1000, 0, 20),
            ("odd openings", 400, 150, 14),
        ]:
            dice, held = random.Random(7), 0
            for _ in range(times):
                pairs = [made_pair(dice, truth, dice.gauss(30, spread), 0.3) for _ in range(100)]
                found = ratings.rate([ratings.Pairing(0, 1, 2, points) for points in pairs], 2)
                gap, half = found.difference(0, 1)
                held += abs(gap - truth) <= half
            self.near(f"bars of {name} that hold the truth", held, 0.95 * times, error)

    def test_field(self) -> None:
        """Of 250 made tournaments of four engines, each one's bar holds the truth in 95 %."""
        truth, held, dice = [120, 10, -40, -90], [0] * 4, random.Random(11)
        for _ in range(250):
            found = made_field(dice, truth)
            for engine in range(4):
                held[engine] += abs(found.elo[engine] - truth[engine]) <= found.bar(engine)
        for engine in range(4):
            self.near(f"bars of engine {engine} of four", held[engine], 237.5, 11)

    def test_bounds(self) -> None:
        """Wald's bounds, and a plan of sampling that is published with them."""
        bounds = ratio.wald_bounds(0.05, 0.05)
        self.assertEqual((round(bounds.lower, 3), round(bounds.upper, 3)), (-2.944, 2.944))
        upper = ratio.wald_bounds(0.02, 0.03).upper
        self.near("a risk of each kind", upper, math.log(0.97 / 0.02), 1e-12)
        # The NIST handbook, 6.2.6: defects of 1 % and 10 %, risks 0.05 and 0.20. The lines of the
        # plan are 0.0397 n - 0.65 and 0.0397 n + 1.16: of 24 items none may be bad, and 3 are too
        # many.
        bounds = ratio.wald_bounds(0.05, 0.20)
        good, bad = (400 * math.log10(p / (1 - p)) for p in (0.01, 0.10))
        for items in (24, 60, 100):
            for defects in range(8):
                found = ratio.likelihood_ratio([items - defects, defects], good, bad, (0.0, 1.0))
                wanted = Decision.GO_ON
                if defects <= 0.0397 * items - 0.65:
                    wanted = Decision.REJECT
                if defects >= 0.0397 * items + 1.16:
                    wanted = Decision.ACCEPT
                self.assertEqual(bounds.decide(found), wanted, f"{defects} of {items} are bad")

    def test_ratio(self) -> None:
        """The ratio is near the formula for many pairs of games, and grows as it should."""
        for counts in [(10, 60, 140, 70, 20), (100, 700, 1500, 760, 130), (5, 30, 100, 30, 5)]:
            for elo0, elo1 in [(0, 10), (-5, 5), (10, 30)]:
                low, high = ratio.expected_score(elo0), ratio.expected_score(elo1)
                usual = usual_ratio(counts, low, high)
                found = ratio.likelihood_ratio(counts, elo0, elo1)
                self.near(f"the ratio of {counts}", found, usual, 0.01 + 0.06 * abs(usual))
                mirrored = ratio.likelihood_ratio(counts[::-1], -elo1, -elo0)
                self.near(f"the ratio of {counts} from the other side", mirrored, -found, 1e-6)
        self.assertEqual(ratio.likelihood_ratio((0,) * 5, 0, 10), 0.0, "no pair yet")
        won = ratio.likelihood_ratio((0, 0, 0, 0, 10), 0, 200)
        self.near("ten pairs won", won, 10 * math.log(2 * ratio.expected_score(200)), 0.05)

    def test_risks(self) -> None:
        """Of 200 made tests on either side about 5 % end wrongly, and none goes on for ever."""
        bounds, dice = ratio.wald_bounds(0.05, 0.05), random.Random(5)
        for truth, right in [(0, Decision.REJECT), (60, Decision.ACCEPT)]:
            ends = [made_test(dice, bounds, truth) for _ in range(200)]
            self.assertEqual(ends.count(Decision.GO_ON), 0, f"tests of {truth} that go on")
            self.near(f"right ends of a truth of {truth}", ends.count(right), 192, 8)
