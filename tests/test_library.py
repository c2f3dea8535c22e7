"""Builds the library as `./build library` leaves it, in a scratch copy of the repository, and
compares what it answers with the built program, byte for byte: in C, in Python, on four threads,
with each request for memory refused in turn, under sanitizers, and in the programs of
docs/LIBRARY.md.
"""
import importlib
import pathlib
import random
import re
import subprocess
import sys
import tempfile
from collections.abc import Iterator, Sequence
from typing import NamedTuple

import support
from library_build import BuiltLibrary, missing_tool
from reference import TYPES
from support import TOP, WON, run, text_of

GAMES = 200
FULL = "Base;InProgress;White[2501];wS1;bS1 wS1-;wQ -wS1;bQ bS1-"
FULL += ";wQ /wS1;bQ bS1\\;wQ -wS1;bQ bS1-" * 1249
BAD = ["", "Base+X", "Base;InProgress;White[2];wS1", "Base;Draw;White[1]"]
BAD += ["Base;InProgress;Black[1];wQ", WON[:-1], "x" * 70000]
# what is played beside a legal move
OTHER_MOVES = ["wQ bQ-", "wA1", "bP wM/", "pass", "x"]
# functions that take a number, from 1 to this
NUMBERED = {"best": 64, "count": 8, "certify": 64, "solve": 16}
# statuses with which a text may be put: with 1 *needed is 0 where there is none
TELLING = {0, 1, 6}
# what a session says before its reason, and the status of the library for it
REFUSALS = [("invalidmove 1", 11), ("invalidmove 2", 12), ("invalidmove 3", 13)]
REFUSALS += [("invalidmove 4", 14), ("err 8", 14), ("err 11", 15), ("err", 1)]
# commands with their option, and the check of what they write
COMMANDS = [("count", "--plies", ""), ("certify", "--depth", "check")]
COMMANDS += [("solve", "--plies", "verify")]
# functions, and the statuses of the requests of which each request for memory is refused
DONE = ["written", "moves", "after", "best", "count", "certify", "check", "solve", "verify"]
NOT_DONE = [("count", 6), ("certify", 6), ("check", 1), ("check", 6), ("solve", 6)]
NOT_DONE += [("verify", 1), ("verify", 6)]
PAGE_BLOCKS = re.compile(
    r"^```(c|python)\n(.*?)^```\n+(?:[^`]*?\n)?```text\n(.*?)^```", re.MULTILINE | re.DOTALL
)
BUILD_ASKS = "cc -Wall -Wextra -Werror -o asks asks.c $(pkg-config --cflags --libs hive_library)"


class Request(NamedTuple):
    """A call of the library."""

    name: str
    text: str = ""
    number: int = 0
    words: str = ""

    def shown(self) -> str:
        return f"{self.name} {self.number} {self.text[:200]!r} {self.words!r}"


class Answer(NamedTuple):
    """What a call leaves: its status, *needed and the text."""

    status: int
    needed: int
    text: str


Pairs = Iterator[tuple[Request, Answer]]


def put(status: int, text: str) -> Answer:
    return Answer(status, len(text), text)


def session(lines: Sequence[str]) -> list[str]:
    """The first line of each reply of the program but the greeting."""
    replies = run(["uhp"], text_of(lines))[1].split("ok\n")[1:-1]
    return [reply.split("\n")[0] for reply in replies]


def drawn_game(engine: support.Engine, seed: int) -> str:
    """The game behind drawn moves, of one of the eight types."""
    draw = random.Random(seed)
    game = engine.ask("newgame " + TYPES[seed % 8])[0]
    for _ in range(seed * 3 % 90 + 1):
        listed = engine.ask("validmoves")[0]
        if listed.startswith("err"):
            break
        game = engine.ask("play " + draw.choice(listed.split(";")))[0]
    return game


def drawn_games() -> list[str]:
    engine = support.Engine()
    games = [drawn_game(engine, seed) for seed in range(GAMES)]
    if engine.end() != 0:
        raise AssertionError("the session did not end well")
    return games


def of_session(reply: str) -> Answer:
    """What the library answers where a session replies so."""
    for start, status in REFUSALS:
        if reply.startswith(start):
            return Answer(status, 0, "")
    return put(0, reply)


def about_game(at: int, line: str) -> Pairs:
    """The requests about one game, and what a session replies to the same."""
    moves = session(["newgame " + line, "validmoves"])[1].split(";")
    asked = [("validmoves", Request("moves", line))]
    for words in [moves[at % 7 % len(moves)], *OTHER_MOVES]:
        asked.append(("play " + words, Request("after", line, words=words)))
    if at % 4 == 0:
        depth = 1 + at // 4 % 2
        asked.append((f"bestmove depth {depth}", Request("best", line, depth)))
    replies = session([typed for it, _ in asked for typed in ("newgame " + line, it)])
    for (_, request), begun, reply in zip(asked, replies[::2], replies[1::2], strict=True):
        yield request, of_session(begun if begun.startswith("err") else reply)


def about_games(lines: Sequence[str]) -> Pairs:
    """The requests about games, and what the program answers to them."""
    replies = run(["replay"], text_of(lines))[1].splitlines()
    for line, reply in zip(lines, replies, strict=True):
        refused = reply.startswith("refused")
        yield Request("written", line), Answer(1, 0, "") if refused else put(0, reply)
    for at, line in enumerate(lines):
        if line and "\n" not in line:
            yield from about_game(at, line)


def altered(text: str, at: int, line: str) -> str:
    """The text with another line in the place of one."""
    lines = text.split("\n")
    return "\n".join(lines[:at] + [line] + lines[at + 1 :])


def claims_of(name: str, text: str) -> list[str]:
    """A certificate or solution, and texts made from it of which most do not hold."""
    head = 5 if name == "check" else 4
    lines = text.split("\n")
    word, number = lines[2].split()
    claim = "answer yes" if name == "verify" else "value 1"
    return [
        text,
        altered(text, 2, f"{word} {3 - int(number)}"),
        text + "0\n",
        altered(text, head - 1, claim),
        "\n".join(lines[:head] + lines[head + 1 :]),
        altered(text, 1, lines[1][:-1]),
        altered(text, head, "x"),
        text[:-1],
    ]


def of_commands(games: Sequence[str]) -> Pairs:
    """The requests of the commands, and what the program's commands write and end with."""
    for at, game in enumerate(games):
        depth = 1 + at % 2
        for name, option, check in COMMANDS:
            status, text = run([name, option, str(depth)], game)
            yield Request(name, game, depth), put(status, text)
            if not check or status:
                continue
            for claim in claims_of(check, text)[: 8 if at % 8 == 0 else 2]:
                yield Request(check, claim), put(*run([check], claim))


def all_pairs(games: list[str]) -> Pairs:
    """All requests, and the answers that are wanted."""
    yield from about_games(games + ["Base", "Base+MLP", WON, FULL] + BAD)
    odd = ["Base\n", "Base+MLP\r\n", WON, FULL, "Base\nBase", "x" * 70000 + "\n"]
    yield from of_commands(games + odd + BAD)
    for name, most in NUMBERED.items():
        for number in (0, most + 1, (1 << 32) - 1):
            yield Request(name, "Base", number), Answer(2, 0, "")
    yield Request("version"), put(0, session(["info"])[0].removeprefix("id "))


def packed(requests: Sequence[Request]) -> bytes:
    """What the program of library.c reads."""
    parts = []
    for name, text, number, words in requests:
        head = f"{name} {number} {len(text.encode())} {len(words.encode())}\n"
        parts.append(head + text + words)
    return "".join(parts).encode()


def called(driver: str, mode: str, requests: Sequence[Request]) -> str:
    """What the program of library.c writes."""
    streams = {"stdout": subprocess.PIPE, "stderr": subprocess.PIPE}
    done = subprocess.run([driver, mode], input=packed(requests), timeout=200, **streams)
    if done.returncode:
        raise AssertionError(f"{driver} {mode}: {done.stderr.decode()[-2000:]}")
    return done.stdout.decode()


def answers(driver: str, requests: Sequence[Request]) -> list[Answer]:
    """What C is answered."""
    text, found, at = called(driver, "answer", requests), [], 0
    for _ in requests:
        end = text.index("\n", at)
        status, needed = map(int, text[at:end].split())
        length = needed if status in TELLING else 0
        found.append(Answer(status, needed, text[end + 1 : end + 1 + length]))
        at = end + 2 + length
    return found


class Library(support.Case):
    library: BuiltLibrary
    games: list[str]
    requests: list[Request]
    wanted: list[Answer]
    driver: str

    @classmethod
    def setUpClass(cls) -> None:
        super().setUpClass()
        if missing_tool():
            raise AssertionError(f"NOT TRIED: this machine has no {missing_tool()} for the library")
        room = tempfile.TemporaryDirectory()
        cls.addClassCleanup(room.cleanup)
        cls.library = BuiltLibrary(pathlib.Path(room.name))
        cls.library.build()
        cls.driver = cls.library.driver("driver", ["-O2"])
        cls.games = drawn_games()
        pairs = list(all_pairs(cls.games))
        cls.requests, cls.wanted = ([pair[at] for pair in pairs] for at in (0, 1))

    def compare(self, found: Sequence[Answer], step: int = 1) -> None:
        """That these are the answers to each request, or to one in so many."""
        asked = zip(self.requests[::step], found, self.wanted[::step], strict=True)
        for request, answer, wanted in asked:
            self.assertEqual(answer, wanted, request.shown())

    def few(self) -> list[Request]:
        """A request for each function and each status that it ends with, of no short text."""
        return [
            next(
                request
                for request, answer in zip(self.requests, self.wanted)
                if (request.name, answer.status) == wanted and len(request.text) > 4
            )
            for wanted in [(name, 0) for name in DONE] + NOT_DONE
        ]

    def test_requests_are_of_all_kinds(self) -> None:
        self.assertEqual({game.split(";")[0] for game in self.games}, set(TYPES))
        statuses = {answer.status for answer in self.wanted}
        self.assertEqual(statuses, {0, 1, 2, 6, 11, 12, 13, 14, 15})
        for name in ("check", "verify"):
            told = {
                (answer.status, answer.text.partition(" ")[0].strip())
                for request, answer in zip(self.requests, self.wanted)
                if request.name == name
            }
            self.assertEqual(told, {(0, "accepted"), (1, "refused"), (6, "bad")}, name)

    def test_c(self) -> None:
        self.compare(answers(self.driver, self.requests))

    def test_threads(self) -> None:
        """Four threads have the same answers."""
        called(self.driver, "threads", self.requests[:: len(self.requests) // 600])

    def check_refusals(self, driver: str) -> None:
        """That a refused request for memory is told or changes nothing, and all is given back."""
        few = self.few()
        lines = called(driver, "refuse", few).splitlines()
        self.assertEqual([line.split()[0] for line in lines], [request.name for request in few])

    def test_memory(self) -> None:
        self.check_refusals(self.driver)

    def test_sanitizers(self) -> None:
        """Answers, and refused requests, under sanitizers of addresses and undefined behaviour."""
        driver = self.library.sanitized_driver()
        if driver is None:
            self.skipTest("the library under sanitizers, as the compiler has none")
        self.compare(answers(driver, self.requests[::5]), 5)
        self.check_refusals(driver)

    def test_python(self) -> None:
        sys.path.insert(0, str(self.library.made))
        self.addCleanup(sys.path.remove, str(self.library.made))
        module = importlib.import_module("hive_library")
        hive = module.Hive()
        for request, wanted in zip(self.requests, self.wanted):
            given = [] if request.name == "version" else [request.text]
            given += [request.number] if request.name in NUMBERED else []
            given += [request.words] if request.name == "after" else []
            try:
                found = (0, getattr(hive, request.name)(*given))
            except module.HiveError as error:
                found = (error.status, error.text)
            self.assertEqual(found, (wanted.status, wanted.text), request.shown())

    def test_pages(self) -> None:
        """The programs of docs/LIBRARY.md write what stands in the blocks behind them."""
        page = (TOP / "docs" / "LIBRARY.md").read_text(encoding="utf-8")
        blocks = PAGE_BLOCKS.findall(page)
        self.assertEqual([language for language, _, _ in blocks], ["c", "python"])
        runs = (f"{BUILD_ASKS} && ./asks", f"{sys.executable} -B asks.python")
        folder = self.folder()
        for (language, source, written), words in zip(blocks, runs):
            (folder / f"asks.{language}").write_text(source, encoding="utf-8")
            how = {"cwd": folder, "env": self.library.environment(), "timeout": 60}
            found = subprocess.check_output(["sh", "-c", words], **how)
            self.assertEqual(found.decode(), written, f"what the {language} program writes")
