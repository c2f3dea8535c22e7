"""Audits by the built program, compared with those of auditor.py byte for byte: of the program
itself, and of the engines of audit_engines.py, each of which is wrong in one rule and is found; of
the parts of an audit, which add up to it; and what is told of engines that stall, leave or do not
read.
"""
import pathlib
import re
import sys
from collections.abc import Sequence
from types import ModuleType

import audit_engines
import reference
import support
from auditor import Ask, Missing, audit
from support import HIVE, text_of

ENGINES = pathlib.Path(audit_engines.__file__).resolve()
PLAYS = "MLP"
# of each wrong engine the first game that finds it where the seed is 1 and no type is asked for,
# the most plies of a game, and what is found
FOUND = {
    "queens": (1, 80, "extra wQ"),
    "fourth": (1, 80, "extra"),
    "ants": (1, 80, "extra"),
    "spiders": (1, 80, "extra"),
    "states": (2, 80, "string"),
    "stacks": (5, 80, "extra"),
    "resting": (5, 80, "extra"),
    "beetles": (6, 80, "extra"),
    "mosquitoes": (6, 80, "extra"),
    "passes": (10, 80, "unreadable"),
    "refusals": (1, 80, "accepted"),
    "loads": (1, 80, "string"),
}
# how many games of the program itself are played, and of the engine whose rules are right
OWN_GAMES = 40
RIGHT_GAMES = 2
ENDED = (
    "game 1 ply 0 Base;NotStarted;White[1] ended\n"
    "audited 1 games 0 positions 0 moves, 1 findings\n"
)


def asked(rules: ModuleType) -> Ask:
    """A session of rules, asked for the whole reply to a line."""
    session = rules.Session()

    def ask(line: str) -> str:
        reply = session.answer(line.encode("ascii"))
        if reply is None:
            raise Missing("ended", line)
        return "\n".join(reply)

    return ask


def stalled(rules: ModuleType, word: str) -> Ask:
    """A session of rules in which a line that begins with this word gets no reply."""
    ask = asked(rules)

    def ask_or_stall(line: str) -> str:
        if line.split(" ")[0] == word:
            raise Missing("late", line)
        return ask(line)

    return ask_or_stall


def engine_named(name: str) -> str:
    return f"{sys.executable} {ENGINES} {name}"


def run(engine: str, games: int, *more: str, seed: int = 1) -> tuple[str, int]:
    """The text of an audit by the program, and its status."""
    words = ["audit", "--engine", engine, "--games", str(games), "--seed", str(seed), *more]
    status, written = support.run(words, timeout=240)
    return written, status


def joined(texts: Sequence[str]) -> str:
    """The text of an audit whose parts have these texts: their findings in order, and their counts
    added up."""
    lines = [text.splitlines() for text in texts]
    findings = [line for part in lines for line in part[:-1]]
    counts = [[int(number) for number in re.findall(r"\d+", part[-1])] for part in lines]
    games, positions, moves, found = (sum(column) for column in zip(*counts))
    told = f"audited {games} games {positions} positions {moves} moves, {found} findings"
    return text_of([*findings, told])


class Audits(support.Case):
    def test_wrong_engines(self) -> None:
        """Each is found in its game, which is the first of an audit from its number."""
        for name, (game, plies, fault) in FOUND.items():
            with self.subTest(name):
                ask = asked(audit_engines.changed(name))
                wanted = audit(ask, PLAYS, 1, 1, plies, first=game)
                found = run(engine_named(name), 1, "--first", str(game), "--plies", str(plies))
                self.assertEqual(found, (text_of(wanted), 1))
                self.assertEqual(len(wanted), 2)
                self.assertIn(f" {fault}", wanted[0])

    def test_right_engines(self) -> None:
        wanted = text_of(audit(asked(reference), PLAYS, RIGHT_GAMES, 1))
        self.assertEqual(run(engine_named("none"), RIGHT_GAMES), (wanted, 0))
        # the rules are the same, so the games are too
        self.assertEqual(run(HIVE, RIGHT_GAMES), (wanted, 0), "the program itself")

    def test_program_itself(self) -> None:
        text, status = run(HIVE, OWN_GAMES)
        self.assertRegex(text, r"\A.* moves, 0 findings\n\Z")
        self.assertEqual(status, 0)

    def test_parts(self) -> None:
        """An audit of eight games is one of three and one of five that goes on from the fourth."""
        for engine in (HIVE, engine_named("queens"), engine_named("ants")):
            with self.subTest(engine):
                whole, status = run(engine, 8)
                parts = [run(engine, 3), run(engine, 5, "--first", "4")]
                self.assertEqual(joined([text for text, _ in parts]), whole)
                self.assertEqual(max(part_status for _, part_status in parts), status)

    def test_last_first_game(self) -> None:
        """The game of the greatest number that --first may name."""
        last = 1_000_000_000
        wanted = audit(asked(reference), PLAYS, 1, 1, plies=8, first=last)
        found = run(HIVE, 1, "--first", str(last), "--plies", "8")
        self.assertEqual(found, (text_of(wanted), 0))

    def test_fewer_games(self) -> None:
        """Few plies of one type, and an audit that ends with its first finding."""
        wanted = text_of(audit(asked(reference), PLAYS, 9, 1, plies=5, game_type="Base+P"))
        self.assertEqual(run(HIVE, 9, "--plies", "5", "--type", "Base+P"), (wanted, 0))
        wanted = text_of(audit(asked(audit_engines.changed("queens")), PLAYS, 1, 1))
        self.assertEqual(run(engine_named("queens"), 3, "--stop", "1"), (wanted, 1))

    def test_most_findings(self) -> None:
        """An audit ends behind as many findings as are asked for, or with its last game."""
        for most, games in ((1, 1), (2, 2), (3, 3), (9, 4)):
            with self.subTest(most):
                ask = asked(audit_engines.changed("queens"))
                wanted = text_of(audit(ask, PLAYS, 4, 1, most=most))
                self.assertIn(f"audited {games} games", wanted)
                found = run(engine_named("queens"), 4, "--most", str(most))
                self.assertEqual(found, (wanted, 1))
        # the first of the two that comes ends it
        both = run(engine_named("queens"), 4, "--most", "3", "--stop", "1")
        self.assertEqual(both, run(engine_named("queens"), 4, "--most", "1"))

    def test_asked_lines(self) -> None:
        """A finding of a wrong game string says which line was asked."""
        for name, game, line in (("states", 2, "play "), ("loads", 1, "newgame Base")):
            with self.subTest(name):
                text, _ = run(engine_named(name), 1, "--first", str(game))
                self.assertRegex(text, f" string asked {re.escape(line)}[^\\n]* answered ")

    def test_engines_that_stall(self) -> None:
        """Engines that say nothing, stall, leave or do not read, and one that is not there."""
        late, broke = (ENDED.replace("ended", it) for it in ("late", "broke asked newgame Base"))
        patience = ["--patience", "00:00:05"]
        stalls, leaves, deaf = (engine_named(it) for it in ("stalls", "leaves", "deaf"))
        self.assertEqual(run("true", 3), (ENDED, 1), "one that says nothing")
        silent = run("sleep 1000", 3, "--patience", "00:00:01")
        self.assertEqual(silent, (late, 1), "one that is silent")
        wanted = text_of(audit(stalled(reference, "play"), PLAYS, 3, 1))
        self.assertEqual(run(stalls, 3, *patience), (wanted, 1), "one that stalls at a move")
        wanted = text_of(audit(asked(audit_engines.changed("leaves")), PLAYS, 3, 1, plies=8))
        self.assertEqual(run(leaves, 3, "--plies", "8"), (wanted, 1), "one that leaves at a load")
        self.assertEqual(run(deaf, 3), (broke, 1), "one that reads nothing")
        self.assertEqual(run(deaf, 3, *patience), (broke, 1), "the same with a patience")
        self.assertEqual(run("/no/such/engine", 3), ("", 5), "one that is not there")
