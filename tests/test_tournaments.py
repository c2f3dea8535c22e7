"""Tournaments of the built program against itself at three depths: each game begins with its
opening and goes on by the rules, the standings are those of the verdicts, what was killed is handed
in and goes on, and an engine that stalls loses the one game in which it does.

Four openings are grown and played, or as many as HIVE_OPENINGS says.
"""
import functools
import hashlib
import os
import signal
import subprocess
from collections.abc import Sequence

import reference
import support
from outcomes import Game, Verdict, schedule, standings
from support import HIVE, PROGRAM, SILENT, text_of

SETUP = ["--type", "Base+MLP", "--depth", "1", "--plies", "60", "--at-once", "2"]
RESUMED = [*SETUP, "--resume", "1"]
STALLING = ["--type", "Base+MLP", "--depth", "1", "--plies", "30", "--patience", "00:00:02"]
STALLING += ["--rounds", "2"]
REPEATS = "hive: engines that answer alike play the same games in each round"


def head(engines: Sequence[str], openings: Sequence[str]) -> str:
    """The head of a tournament by SETUP, by docs/FORMATS.md and apart from the program."""
    digest = hashlib.sha256(text_of(openings).encode("ascii")).hexdigest()
    return (
        "tournament 1 type Base+MLP depth 1 plies 60 repetition 0 rounds 1 gauntlet 0 "
        f"openings {len(openings)} sha256 {digest} engines {';'.join(engines)}"
    )


def started(engines: Sequence[str], words: Sequence[str], **how) -> subprocess.Popen:
    words = [PROGRAM, "tournament", "--engines", ";".join(engines), *words]
    streams = {"stdin": subprocess.PIPE, "stdout": subprocess.PIPE, "stderr": subprocess.DEVNULL}
    return subprocess.Popen(words, **{**streams, **how})


def tournament(
    engines: Sequence[str], words: Sequence[str], lines: Sequence[str]
) -> tuple[int, list[str]]:
    """The status and the lines of a tournament over this input."""
    run = started(engines, words)
    out, _ = run.communicate(text_of(lines).encode("ascii"), timeout=3600)
    return run.returncode, out.decode("ascii").split("\n")[:-1]


class Tournaments(support.Case):
    @functools.cached_property
    def openings(self) -> list[str]:
        seeds = range(1, support.setting("HIVE_OPENINGS", 4) + 1)
        return [self.grown(seed, 6 + seed % 7)["game"] for seed in seeds]

    def verdicts_of(self, lines: Sequence[str], games: Sequence[Game]) -> list[Verdict]:
        """The verdict of each game, where each has its number and goes on from its opening."""
        found = []
        for place, (opening, white, black) in enumerate(games):
            game, verdict = lines[2 * place : 2 * place + 2]
            front = [str(place + 1), str(white), str(black)]
            self.assertEqual(game.split(" ")[:4], ["game"] + front)
            self.assertEqual(verdict.split(" ")[:4], ["verdict"] + front)
            text = game.split(" ", 4)[4]
            moves = self.openings[opening].split(";")[3:]
            self.assertEqual(text.split(";")[3:][: len(moves)], moves, f"game {place + 1}")
            reference.read_game(text)
            found.append(((white, black), verdict.split(" ")[4:]))
        return found

    def test_three_depths(self) -> None:
        engines = support.deep_engines(self.folder())
        games = schedule(len(engines), len(self.openings))
        status, told = tournament(engines, SETUP, self.openings)
        self.assertEqual(status, 0)
        self.assertEqual(told[0], head(engines, self.openings))
        verdicts = self.verdicts_of(told[1:], games)
        rows = told[1 + 2 * len(games) :]
        self.assertEqual(rows, standings(engines, verdicts))
        self.assertEqual(sum(int(row.split(" ")[2]) for row in rows), 2 * len(games))
        self.check_resumed(engines, told)
        self.check_another_tournament(engines, told)

    def check_resumed(self, engines: Sequence[str], told: list[str]) -> None:
        """That a run which is killed in its middle goes on where its output is handed in."""
        run = started(engines, SETUP, bufsize=0)
        run.stdin.write(text_of(self.openings).encode("ascii"))
        run.stdin.close()
        half = b""
        while half.count(b"\n") < len(told) // 2:
            half += os.read(run.stdout.fileno(), 4096)
        run.send_signal(signal.SIGKILL)
        run.wait()
        half += run.stdout.read()
        run.stdout.close()
        # whole games, as docs/TOURNAMENTS.md says
        kept = half.decode("ascii").split("\n")[:-1]
        kept = kept[: (len(kept) - 1) // 2 * 2 + 1]
        self.assertEqual(kept, told[: len(kept)], "what was written before it was killed")
        # the verdict of one more game is cut
        handed_in = [*self.openings, "", *kept, told[len(kept)], told[len(kept) + 1][:12]]
        status, rest = tournament(engines, RESUMED, handed_in)
        self.assertEqual(status, 0)
        self.assertEqual(rest, [told[0], *told[len(kept) :]], "what goes on")
        # the output of both runs, one behind the other
        handed_in = [*self.openings, "", *kept, *rest]
        status, table = tournament(engines, RESUMED, handed_in)
        self.assertEqual((status, table), (0, [told[0], *told[-len(engines) :]]), "all are played")

    def check_another_tournament(self, engines: Sequence[str], told: list[str]) -> None:
        """That the output of another tournament is refused by the first that differs."""
        deeper, longer = RESUMED.copy(), RESUMED.copy()
        deeper[deeper.index("--depth") + 1] = "2"
        longer[longer.index("--plies") + 1] = "20"
        openings = self.openings
        exchanged = [*openings[1::-1], *openings[2:]]
        for word, names, words, given in [
            ("engines", engines[::-1], RESUMED, openings),
            ("depth", engines, deeper, openings),
            ("plies", engines, longer, openings),
            ("rounds", engines, [*RESUMED, "--rounds", "2"], openings),
            ("gauntlet", engines, [*RESUMED, "--gauntlet", "1"], openings),
            ("openings", engines, RESUMED, openings[1:]),
            ("sha256", engines, RESUMED, exchanged),
            ("tournament", engines, RESUMED, openings),
        ]:
            lines = told[1:] if word == "tournament" else told
            found = tournament(names, words, [*given, "", *lines])
            self.assertEqual(found, (6, [f"bad line {len(given) + 2} other {word}"]), word)

    def test_refusals(self) -> None:
        """Lines that are no openings, and games that are not of the plan, by their numbers."""
        engines, openings = support.deep_engines(self.folder()), self.openings
        finished = "Base;BlackWins;White[8];wG1;bG1 wG1-"
        no_game = "Base+MLP;InProgress;White[2];wS1;bS1 wS9-"
        first = [head(engines, openings[:1])]
        no_plan = [*first, "verdict 1 1 2 limit 3", "game 1 1 2 x"]
        another = [*first, "game 2 1 2 x", "verdict 2 1 2 limit 3"]
        for name, words, lines, number in [
            ("a line that is no game", SETUP, [openings[0], no_game], 2),
            ("a game that is not as it says", SETUP, [finished], 1),
            ("another type", SETUP, openings[:2] + ["Base;InProgress;Black[1];wS1"], 3),
            ("an empty line", SETUP, [openings[0], ""], 2),
            ("a verdict of no game", RESUMED, [openings[0], "", *no_plan], 4),
            ("another number", RESUMED, [openings[0], "", *another], 4),
        ]:
            found = tournament(engines, words, lines)
            self.assertEqual(found, (6, [f"bad line {number}"]), name)

    def test_stall(self) -> None:
        """An engine whose start with number 2 is silent loses that game and no other."""
        stalls = support.failing_engine(self.folder(), "stalls", 2, SILENT)
        engines = [stalls, HIVE]
        status, lines = tournament(engines, STALLING, self.openings[:1])
        self.assertEqual(status, 0)
        verdicts = self.verdicts_of(lines[1:], schedule(2, 1, 2))
        lost = [it for it, (_, verdict) in enumerate(verdicts) if verdict[0] == "forfeit"]
        self.assertEqual(lost, [1], "the game in which it stalls")
        self.assertEqual(verdicts[1][1], ["forfeit", "black", "broke"])
        self.assertEqual(lines[1 + len(verdicts) * 2 :], standings(engines, verdicts))

    def test_games_that_meet(self) -> None:
        engines = support.meeting_engines(self.folder())
        words = ["--depth", "1", "--plies", "1", "--at-once", "2"]
        status, lines = tournament(engines, words, [])
        self.assertEqual(status, 0)
        told = [line.split(" ", 1)[1] for line in lines[2:5:2]]
        self.assertEqual(told, ["1 1 2 limit 1", "2 2 1 limit 1"])

    def test_gauntlet(self) -> None:
        """The first engine meets each other one; one that is not there forfeits."""
        words = ["--depth", "1", "--plies", "2", "--gauntlet", "1"]
        status, lines = tournament([HIVE, PROGRAM, "/none/such"], words, [])
        self.assertEqual(status, 0)
        told = [line.split(" ", 1)[1] for line in lines if line.startswith("verdict")]
        nostart = ["3 1 3 forfeit black nostart", "4 3 1 forfeit white nostart"]
        self.assertEqual(told, ["1 1 2 limit 2", "2 2 1 limit 2", *nostart])

    def test_terminal(self) -> None:
        """A terminal shows behind each wave how many games are done, and the leaders' points."""
        shown, end = os.openpty()
        words = ["--depth", "1", "--plies", "2", "--rounds", "2", "--at-once", "2"]
        words = ["tournament", "--engines", f"{HIVE};{PROGRAM}", *words]
        streams = {"stdin": subprocess.DEVNULL, "stdout": subprocess.DEVNULL, "stderr": end}
        status = support.finished(words, **streams).returncode
        os.close(end)
        text = os.read(shown, 65536).decode("ascii")
        os.close(shown)
        self.assertEqual(status, 0)
        points = [f"{done} of 4 games, {HIVE} {done}, {PROGRAM} {done}" for done in (2, 4)]
        repeats = f"{REPEATS}\r\n" + "".join(f"\r\x1b[K{it}" for it in points) + "\r\n"
        self.assertEqual(text, repeats)

    def test_no_terminal(self) -> None:
        """Anything but a terminal gets a line behind each wave."""
        words = ["--depth", "1", "--plies", "2", "--at-once", "2"]
        words = ["tournament", "--engines", f"{HIVE};{PROGRAM}", *words]
        for rounds, said in (("1", ""), ("2", f"{REPEATS}\n")):
            done = support.finished([*words, "--rounds", rounds], stderr=subprocess.PIPE)
            counts = range(2, 2 * int(rounds) + 1, 2)
            games = 2 * int(rounds)
            lines = [f"{it} of {games} games, {HIVE} {it}, {PROGRAM} {it}\n" for it in counts]
            self.assertEqual(done.stderr.decode("ascii"), said + "".join(lines))
