"""What the tests of the built program share: runs of it, a session behind a pipe, games, cups, and
engines that misbehave.

HIVE_PROGRAM names the program to test. Where it names none, it is the one that ./hive builds.
"""
import os
import pathlib
import shutil
import subprocess
import tempfile
import unittest
from collections.abc import Sequence

TOP = pathlib.Path(__file__).resolve().parent.parent
PROGRAM = os.path.realpath(os.environ.get("HIVE_PROGRAM") or TOP / "crates/hive/out/hive")
HIVE = f"{PROGRAM} uhp"  # the program as an engine

# white wins by `wA1 wB1-`
WON = (
    "Base;InProgress;White[7];wS1;bS1 wS1-;wQ /wS1;bQ bS1-;wQ /bS1;bQ wQ-;wG1 -wS1;bG1 bS1-;"
    "wB1 /wQ;bB1 bQ-;wA1 -wB1;bA1 /bB1"
)
# black must pass; then the queens can step out and back with passes between
PASSED = (
    "Base;InProgress;Black[6];wB1;bS1 wB1-;wQ \\wB1;bQ bS1-;wQ wB1/;bQ bS1\\;wB1 wQ\\;bQ wB1-;"
    "wB2 /wB1;bQ wB2-;wB2 bQ"
)
# a pillbug throws
THROWS = "Base+P;InProgress;Black[4];wP;bA1 wP-;wQ -wP;bQ bA1/;wS1 -wQ;bQ wP/;bA1 wP\\"
MADE_FIELDS = ["seed", "type", "plies", "state", "moves", "undone", "best", "game"]

# what engines do: scripts of a shell
GREETS = "printf 'id x\\nok\\n'\n"
SILENT = "exec sleep 1000"
FLOODS = GREETS + "read -r line\nwhile :; do echo y; done"
# asked for a move, it waits up to half a minute until two engines of this kind are asked
MEETS = GREETS + """while read -r word rest; do
    [ "$word" != bestmove ] || {
        mkdir FOLDER/asked.$$
        n=0
        while [ "$(ls -d FOLDER/asked.* | wc -l)" -lt 2 ] && [ $n -lt 300 ]; do
            sleep 0.1
            n=$((n+1))
        done
        [ $n -lt 300 ] && echo wS1 || echo alone
    }
    echo ok
done"""


def setting(name: str, default: int) -> int:
    """A number that the environment may name."""
    return int(os.environ.get(name) or default)


def finished(
    words: Sequence[str], given: str | bytes = b"", wrapped: Sequence[str] = (), **how
) -> subprocess.CompletedProcess[bytes]:
    """A run of the program over an input, behind the words of another program if there are any."""
    if "stdin" not in how:
        how["input"] = given.encode() if isinstance(given, str) else given
    how = {"stdout": subprocess.PIPE, "stderr": subprocess.DEVNULL, "timeout": 120, **how}
    return subprocess.run([*wrapped, PROGRAM, *words], **how)


def run(words: Sequence[str], given: str | bytes = b"", **how) -> tuple[int, str]:
    """The status of a run of the program, and what it writes."""
    done = finished(words, given, **how)
    return done.returncode, done.stdout.decode("ascii")


def text_of(lines: Sequence[str]) -> str:
    return "".join(line + "\n" for line in lines)


def write_engine(folder: pathlib.Path, name: str, body: str) -> str:
    """An engine that does this, as a program of its own."""
    path = folder / name
    path.write_text(f"#!/bin/sh\n{body}\n", encoding="ascii")
    path.chmod(0o755)
    return str(path)


def deep_engines(folder: pathlib.Path) -> list[str]:
    """Three engines that ask the program for depths of their own where they are asked for one."""
    return [
        write_engine(folder, f"deep{depth}", f"sed -u 's/depth 1/depth {depth}/' | {HIVE}")
        for depth in (1, 2, 3)
    ]


def meeting_engines(folder: pathlib.Path) -> list[str]:
    """Two engines that move once both are asked to, so that their games run at once."""
    body = MEETS.replace("FOLDER", str(folder))
    return [write_engine(folder, name, body) for name in ("meets1", "meets2")]


def failing_engine(folder: pathlib.Path, name: str, start: int, failing: str) -> str:
    """An engine that is the program, but for its start of this number."""
    count = f"n=1\nwhile ! mkdir {folder}/start$n 2>/dev/null; do n=$((n+1)); done\n"
    return write_engine(folder, name, f"{count}[ $n -ne {start} ] || {{ {failing}; }}\nexec {HIVE}")


class Engine:
    """A session of the program, a line at a time, as a viewer talks to it."""

    def __init__(self) -> None:
        pipe = subprocess.PIPE
        self.process = subprocess.Popen([PROGRAM, "uhp"], stdin=pipe, stdout=pipe)
        self.greeting = self.reply()

    def reply(self) -> list[str]:
        """The lines up to `ok`."""
        lines = []
        while (line := self.process.stdout.readline()) != b"ok\n":
            if not line:
                raise AssertionError("the program ended before it wrote ok")
            lines.append(line.decode("ascii").rstrip("\n"))
        return lines

    def ask(self, line: str) -> list[str]:
        self.process.stdin.write(line.encode("ascii") + b"\n")
        self.process.stdin.flush()
        return self.reply()

    def end(self) -> int:
        """The status with which the session ends."""
        self.process.stdin.close()
        status = self.process.wait(timeout=60)
        self.process.stdout.close()
        return status

    def kill(self) -> None:
        self.process.kill()
        self.end()


class Case(unittest.TestCase):
    """A test of the program."""

    def __init__(self, *words: str) -> None:
        super().__init__(*words)
        for kind in (str, list, tuple):
            self.addTypeEqualityFunc(kind, self.expect)

    def expect(self, found: object, wanted: object, msg: str | None = None) -> None:
        """What assertEqual calls: unittest's own search for what differs is slow in long lines."""
        if found != wanted:
            self.fail(f"{msg or 'another answer'}:\n  found  {found!r}\n  wanted {wanted!r}")

    @classmethod
    def setUpClass(cls) -> None:
        if not os.access(PROGRAM, os.X_OK):
            raise AssertionError(f"{PROGRAM} is not there: tests/run builds it")

    def folder(self) -> pathlib.Path:
        """A folder that goes when the test ends."""
        made = tempfile.TemporaryDirectory()
        self.addCleanup(made.cleanup)
        return pathlib.Path(made.name)

    def engine(self) -> Engine:
        engine = Engine()
        self.addCleanup(engine.kill)
        return engine

    def answer(self, words: Sequence[str], given: str = "") -> str:
        """What a run writes that ends with status 0."""
        status, written = run(words, given)
        self.assertEqual(status, 0, " ".join(words))
        return written

    def grown(self, seed: int, plies: int) -> dict[str, str]:
        """The fields of a made game."""
        text = self.answer(["grow", "--seed", str(seed), "--plies", str(plies)])
        fields = dict(line.split(" ", 1) for line in text.rstrip("\n").split("\n"))
        self.assertEqual(list(fields), MADE_FIELDS)
        return fields

    def refusing_malloc(self) -> str:
        """The library made from refusing_malloc.c."""
        compiler = shutil.which("cc") or shutil.which("gcc") or shutil.which("clang")
        if not compiler:
            self.fail("NOT TRIED: no C compiler, so no request for memory can be refused")
        library = str(self.folder() / "refusing_malloc.so")
        source = str(TOP / "tests/refusing_malloc.c")
        made = [compiler, "-O1", "-shared", "-fPIC", "-o", library, source, "-ldl"]
        subprocess.run(made, check=True)
        return library

    def cup_verdicts(
        self, name: str, engines: Sequence[str], status: int | None, lines: Sequence[str]
    ) -> dict[tuple[int, int], str]:
        """The verdicts of a cup by game, where its standings are those of its verdicts."""
        self.assertEqual(status, 0, f"{name}: status")
        numbers = range(1, len(engines) + 1)
        games = [(white, black) for white in numbers for black in numbers if white != black]
        points, verdicts = dict.fromkeys(numbers, 0), {}
        for place, players in enumerate(games):
            game, verdict = lines[2 * place : 2 * place + 2]
            numbered = [str(player) for player in players]
            self.assertEqual(game.split(" ")[:3], ["game", *numbered], f"{name}: game")
            self.assertEqual(verdict.split(" ")[:3], ["verdict", *numbered], f"{name}: verdict")
            verdicts[players] = verdict.split(" ", 3)[3]
            for engine, more in points_of(verdicts[players], *players).items():
                points[engine] += more
        order = sorted(numbers, key=lambda it: (-points[it], it))
        count = 2 * len(engines) - 2
        wanted = [f"{engines[it - 1]} points {points[it]} games {count}" for it in order]
        self.assertEqual(lines[2 * len(games) :], wanted, f"{name}: standings")
        self.assertEqual(sum(points.values()), len(engines) * count, f"{name}: all points")
        return verdicts


def points_of(verdict: str, white: int, black: int) -> dict[int, int]:
    """What a verdict gives the engines: 2 to one that wins, or whose opponent forfeits, else 1
    each."""
    words = verdict.split(" ")
    if words[0] == "limit" or words == ["result", "Draw"]:
        return {white: 1, black: 1}
    is_white = words == ["result", "WhiteWins"] or words[:2] == ["forfeit", "black"]
    return {white if is_white else black: 2}
