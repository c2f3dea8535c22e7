"""Records of tournaments for the tests of python/report: how a record is read apart from it, and
records that no program has written.
"""
import subprocess
import sys
from collections.abc import Sequence
from typing import NamedTuple

from outcomes import standings
from support import TOP, text_of

REPORT = TOP / "python" / "report" / "report.py"
SCORES = {"result WhiteWins": 2, "result BlackWins": 0, "result Draw": 1}

sys.path.insert(0, str(REPORT.parent))


class Game(NamedTuple):
    """Two lines of a record."""

    number: int
    white: int
    black: int
    verdict: str
    string: str

    @property
    def white_points(self) -> int:
        """What the verdict gives to white, as the docs say."""
        words = self.verdict.split(" ")
        if words[0] == "result":
            return SCORES[self.verdict]
        return 1 if words[0] == "limit" else 2 * (words[1] == "black")

    @property
    def plies(self) -> int:
        return len(self.string.split(";")) - 3


def report(*words: object, text: str | None = None) -> tuple[int, str, str]:
    """The status, the output and the last line on standard error."""
    run = subprocess.run(
        [sys.executable, "-B", str(REPORT), *map(str, words)],
        input=text, capture_output=True, encoding="utf-8", timeout=120,
    )
    return run.returncode, run.stdout, (run.stderr.splitlines() or [""])[-1]


def read(text: str) -> tuple[list[Game], list[str]]:
    """The games of a record, and its other lines."""
    lines = text.split("\n")[:-1]
    count = sum(line.startswith("verdict ") for line in lines)
    games = []
    for game, verdict in zip(lines[: 2 * count : 2], lines[1 : 2 * count : 2]):
        _, number, white, black, string = game.split(" ", 4)
        games.append(Game(int(number), int(white), int(black), verdict.split(" ", 4)[4], string))
    return games, lines[2 * count :]


def made(engines: Sequence[str], played: Sequence[tuple]) -> str:
    """A record that no program has written, of these games: white, black, verdict and moves."""
    lines = []
    for number, (white, black, verdict, *moves) in enumerate(played, 1):
        state = verdict.split(" ")[1] if verdict.startswith("result") else "InProgress"
        turn = f"{'White' if len(moves) % 2 == 0 else 'Black'}[{len(moves) // 2 + 1}]"
        string = ";".join(["Base", state if moves else "NotStarted", turn, *moves])
        lines += [f"game {number} {white} {black} {string}"]
        lines += [f"verdict {number} {white} {black} {verdict}"]
    verdicts = [((white, black), verdict.split(" ")) for white, black, verdict, *_ in played]
    return text_of(lines + standings(engines, verdicts))


def every_verdict() -> str:
    """A record with verdicts of every kind, and with names that a page has to quote."""
    first, second = "./a <b>&amp;\"'$x$ \\y", "./b </script><script>alert(1)</script>"
    kinds = ["result WhiteWins", "result BlackWins", "result Draw", "limit 2"]
    for side in ("white", "black"):
        kinds += [f"forfeit {side} {words}" for words in (
            "notamove", "notamove <i>x", "illegal wQ", "err err no", "late 5000 6100",
            "flood 1001", "longline", "ended", "broke", "nostart",
        )]
    players = [(1, 2), (2, 1)]
    games = [(*players[at % 2], kind, "wS1", "bS1 wS1-") for at, kind in enumerate(kinds)]
    return made([first, second], games)


def one_sided(games: int, words: Sequence[str]) -> str:
    """A record in which each pair of games of two engines ends with these two verdicts."""
    pair = [(1, 2, words[0], "wS1"), (2, 1, words[1], "wS1")]
    return made(["new", "old"], pair * (games // 2))


def edited(text: str, place: int, old: str, new: str) -> str:
    """A text in whose line with this number, from 0 on, a word is another one."""
    lines = text.split("\n")
    if old not in lines[place]:
        raise AssertionError(f"{old} does not stand in line {place}")
    lines[place] = lines[place].replace(old, new, 1)
    return "\n".join(lines)


def wrong_records(text: str) -> list[tuple[str, str, str]]:
    """Records whose lines, schedule or standings are not those of a tournament: the name of each,
    what it is made of a right one, and words of what is said of it."""
    lines = text.split("\n")
    games, _ = read(text)
    row = 2 * len(games)
    won = 2 * [game.verdict for game in games].index("result WhiteWins") + 1
    turn = games[0].string.split(";")[2]
    swapped = [*lines[:row], lines[row + 1], lines[row], *lines[row + 2 :]]
    no_pair = lines[: row - 4] + lines[row:]
    other = made(["a", "b", "c"], [(1, 3, "limit 0"), (3, 1, "limit 0")])
    no_result = edited(text, won, "result WhiteWins", "WhiteWins")
    other_game = edited(text, 1, "verdict 1 ", "verdict 2 ")
    return [
        ("more points", edited(text, row, "points ", "points 1"), "differ"),
        ("more forfeits", edited(text, row, "forfeits ", "forfeits 1"), "differ"),
        ("another order", "\n".join(swapped), "differ"),
        ("a row too few", "\n".join([*lines[:-2], ""]), "rows"),
        ("a row too many", "\n".join([*lines[:-1], lines[-2], ""]), "rows"),
        ("no row", "\n".join([*lines[:-1], "done", ""]), "neither"),
        ("another result", edited(text, won, "WhiteWins", "BlackWins"), "no verdict of this"),
        ("no verdict", no_result, "no verdict of this"),
        ("a verdict of another game", other_game, "of the game in"),
        ("a game twice", "\n".join(lines[:2] + lines), "where game 2 should"),
        ("no first game", "\n".join(lines[2:]), "where game 1 should"),
        ("a type that is none", edited(text, 0, "Base+MLP", "Base+X"), "written form"),
        ("another turn", edited(text, 0, turn, "White[99]"), "written form"),
        ("another type", edited(text, 2, "Base+MLP", "Base"), "another type"),
        ("a lost pair", "\n".join(no_pair), "missing"),
        ("an empty record", "", "no whole game"),
        ("a refused tournament", "bad line 2\n", "no whole game"),
        ("another text", "<html>\n</html>\n", "no whole game"),
        ("another schedule", other, "than the schedule says"),
    ]
