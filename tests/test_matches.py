"""Matches and cups of the built program against itself and against engines that misbehave: each
ends with its verdicts, and no process is left.
"""
import os
import pathlib
import time
from collections.abc import Sequence

import support
from support import FLOODS, GREETS, HIVE, run, write_engine

# what each engine does instead of playing black, and the verdicts that its match may have
HOSTILE = {
    "floods": (FLOODS, ["forfeit black flood 1001"]),
    "leaves": (GREETS + "exit 0", ["forfeit black ended", "forfeit black broke"]),
    "closes": (GREETS + "exec >&-\nsleep 2", ["forfeit black ended"]),
    "talks": (
        GREETS + "read -r line\nprintf '%065537d\\nok\\n' 0",
        ["forfeit black longline"],
    ),
    "errs": (GREETS + "read -r line\nprintf 'err no\\nok\\n'", ["forfeit black err err no"]),
    "lies": (
        GREETS + "while read -r line; do printf 'bQ -wS1\\nok\\n'; done",
        ["forfeit black illegal bQ -wS1"],
    ),
}
SLOW = (
    GREETS + "read -r a; echo ok\nread -r b; echo ok\n"
    "read -r c; sleep 1; printf 'bS1 -wS1\\nok\\n'"
)
RETURNS = (
    "printf 'id x\\r\\nok\\r\\n'\necho noise >&2\nwhile read -r line; do printf 'ok\\r\\n'; done"
)
SAYS = (
    GREETS + "read -r line; echo ok\n"
    "read -r line; printf '%s,' \"$#\" \"$@\"; printf '\\nok\\n'"
)
# the words behind an engine's name, and what it says that it gets
WORDS = [("", "0,"), (" --quiet", "1,--quiet,"), (" y -x * $HOME", "4,y,-x,*,$HOME,")]
TIMED = ["--time", "00:00:00", "--plies", "4", "--margin"]
DEPTH, SHORT = ["--depth", "1"], ["--depth", "1", "--plies", "4"]
CUP = ["--depth", "1", "--plies", "16"]


def play(white: str, black: str, words: Sequence[str]) -> tuple[int, str]:
    return run(["match", "--white", white, "--black", black, *words])


def play_cup(engines: Sequence[str], words: Sequence[str]) -> tuple[int, list[str]]:
    status, text = run(["cup", "--engines", ";".join(engines), *words])
    return status, text.rstrip("\n").split("\n")


def left_behind(folder: pathlib.Path) -> list[bytes]:
    """The command lines of the processes that were started from the folder and still run."""
    found = []
    for entry in pathlib.Path("/proc").iterdir():
        if entry.name.isdigit():
            try:
                words = (entry / "cmdline").read_bytes()
            except OSError:
                continue
            if str(folder).encode() in words and int(entry.name) != os.getpid():
                found.append(words)
    return found


class Matches(support.Case):
    def setUp(self) -> None:
        self.room = self.folder()
        self.hive = write_engine(self.room, "hive_engine", f"exec {HIVE}")

    def tearDown(self) -> None:
        for _ in range(50):
            if not left_behind(self.room):
                break
            time.sleep(0.1)
        self.assertEqual(left_behind(self.room), [])

    def verdict(self, white: str, black: str, words: Sequence[str]) -> str:
        status, text = play(white, black, words)
        self.assertEqual(status, 0, f"{white} against {black}")
        _, verdict = text.rstrip("\n").split("\n")
        return verdict

    def cup(self, name: str, engines: Sequence[str]) -> dict[tuple[int, int], str]:
        return self.cup_verdicts(name, engines, *play_cup(engines, CUP))

    def test_itself(self) -> None:
        words = ["--depth", "1", "--plies", "20"]
        once = play(self.hive, self.hive, words)
        self.assertEqual(once[0], 0)
        self.assertEqual(play(self.hive, self.hive, words), once, "the same match again")
        self.assertEqual(once[1].rstrip("\n").split("\n")[1], "limit 20")
        timed = self.verdict(self.hive, self.hive, [*TIMED, "5000"])
        self.assertEqual(timed, "limit 4", "a match for a time")

    def test_hostile_engines(self) -> None:
        for name, (body, wanted) in HOSTILE.items():
            engine = write_engine(self.room, name, body)
            self.assertIn(self.verdict(self.hive, engine, SHORT), wanted, name)

    def test_other_engines(self) -> None:
        """One that is slow, one that ends its lines by CR LF, and one that is not there."""
        slow = write_engine(self.room, "slow", SLOW)
        self.assertRegex(self.verdict(self.hive, slow, [*TIMED, "200"]), "^forfeit black late ")
        returns = write_engine(self.room, "returns", RETURNS) + " --quiet"
        self.assertEqual(self.verdict(self.hive, returns, SHORT), "forfeit black notamove")
        self.assertEqual(play(self.hive, str(self.room / "none"), DEPTH), (5, ""))

    def test_words(self) -> None:
        """An engine gets the words behind its name, each as it stands."""
        says = write_engine(self.room, "says", SAYS)
        for words, wanted in WORDS:
            found = self.verdict(says + words, says, DEPTH)
            self.assertEqual(found, f"forfeit white notamove {wanted}", f"the words {words!r}")

    def test_cup(self) -> None:
        """A cup of three engines that ask the program to different depths, and one that is not
        there."""
        deep = support.deep_engines(self.room)
        once = play_cup(deep, CUP)
        self.cup_verdicts("a cup of three depths", deep, *once)
        self.assertEqual(play_cup(deep, CUP), once, "the same cup again")
        missing = [deep[0], str(self.room / "none"), deep[1]]
        self.assertEqual(play_cup(missing, CUP), (5, [""]), "one that is not there")

    def test_cup_with_one_that_dies(self) -> None:
        """The third start of an engine leaves after its greeting."""
        deep = support.deep_engines(self.room)
        dies = support.failing_engine(self.room, "dies", 3, GREETS + "exit 0")
        verdicts = self.cup("a cup whose second engine dies", [deep[0], dies, deep[1]])
        lost = [
            game for game, it in verdicts.items() if it.split(" ")[-1] in ("ended", "broke")
        ]
        self.assertEqual(len(lost), 1)
        self.assertIn(2, lost[0], "it dies in one of its games")
        loser = "white" if lost[0][0] == 2 else "black"
        self.assertEqual(verdicts[lost[0]].split(" ")[1], loser, "it is its engine that forfeits")

    def test_cup_with_one_that_floods(self) -> None:
        deep = support.deep_engines(self.room)
        floods = write_engine(self.room, "floods", FLOODS)
        verdicts = self.cup("a cup with one that floods", [floods, deep[0], deep[1]])
        flooded = {verdict for game, verdict in verdicts.items() if 1 in game}
        wanted = {"forfeit white flood 1001", "forfeit black flood 1001"}
        self.assertEqual(flooded, wanted, "it floods in each game")

    def test_cup_of_games_that_meet(self) -> None:
        engines = support.meeting_engines(self.room)
        answer = play_cup(engines, ["--depth", "1", "--plies", "1"])
        verdicts = self.cup_verdicts("games that meet", engines, *answer)
        self.assertEqual(verdicts, {(1, 2): "limit 1", (2, 1): "limit 1"})
