"""Reads the record that `hive tournament` writes: its head, two lines a game, and then the standings.

A record that was cut is read up to its last whole game. Whatever else differs from what the
program writes is refused with its line, and so are standings that differ from the games.
"""
from __future__ import annotations

import re
from collections.abc import Iterator, Sequence
from dataclasses import dataclass

import schedule
from standings import Standing, rank

TYPE = r"Base(?:\+(?:M|L|P|ML|MP|LP|MLP))?"
STATE = r"NotStarted|InProgress|Draw|WhiteWins|BlackWins"
STRING = re.compile(rf"({TYPE});({STATE});(White|Black)\[([1-9]\d*)\]((?:;[^;]+)*)")
HEAD = re.compile(r"tournament 1 type .+ engines .+")
GAME = re.compile(r"game ([1-9]\d*) ([1-9]\d*) ([1-9]\d*) (Base.*)")
VERDICT = re.compile(r"verdict ([1-9]\d*) ([1-9]\d*) ([1-9]\d*) (.*)")
ENDING = re.compile(
    r"result (?P<result>WhiteWins|BlackWins|Draw)|limit (?P<limit>\d+)"
    r"|forfeit (?P<side>white|black) ((?P<late>late) (?P<asked>\d+) (?P<answered>\d+)"
    r"|(?P<flood>flood) \d+|(?P<told>notamove|illegal|err)( .*)?"
    r"|(?P<bare>longline|ended|broke|nostart))"
)
STANDING = re.compile(
    r"(.+) points (\d+) games (\d+) wins (\d+) draws (\d+) losses (\d+) forfeits (\d+)"
)


class RecordError(Exception):
    """A text that is no record of a tournament, or one whose standings differ from its games."""


@dataclass(frozen=True)
class Source:
    """The text of one file, and the name by which faults call it."""

    name: str
    text: str


@dataclass(frozen=True)
class Line:
    """A line of a source, with the words that name it in a fault."""

    text: str
    place: str


@dataclass(frozen=True)
class Verdict:
    """How a game ended.

    `forfeit` is the kind of a forfeit, such as `late`, or nothing. A late answer took so many
    milliseconds.
    """

    text: str
    white_points: int
    forfeit: str | None = None
    took: int | None = None

    @property
    def kind(self) -> str:
        """The verdict without its numbers and texts: `result Draw`, `limit`, `forfeit late`."""
        if self.forfeit is not None:
            return f"forfeit {self.forfeit}"
        return "limit" if self.text.startswith("limit") else self.text


@dataclass(frozen=True)
class GameString:
    """The parts of a game string."""

    text: str
    type: str
    state: str
    moves: tuple[str, ...]


@dataclass(frozen=True)
class Game:
    """A game of the schedule, by the numbers of its engines, from 1 on."""

    number: int
    white: int
    black: int
    string: GameString
    verdict: Verdict

    @property
    def plies(self) -> int:
        return len(self.string.moves)


@dataclass(frozen=True)
class Record:
    """The games in the order of the schedule, and the standings, which were compared with them.

    `names` are those of the engines in the order of their numbers. A tournament that is not over
    has written no standings, so its engines have numbers for names.
    """

    games: tuple[Game, ...]
    names: tuple[str, ...]
    standings: tuple[Standing, ...]
    finished: bool

    def name(self, engine: int) -> str:
        return self.names[engine - 1]


def read_game_string(text: str) -> GameString | None:
    """The game string in its written form, or nothing if it has another form or another turn."""
    found = STRING.fullmatch(text)
    if not found:
        return None
    moves = tuple(found[5].split(";")[1:])
    turn = ("White" if len(moves) % 2 == 0 else "Black", str(len(moves) // 2 + 1))
    if found.group(3, 4) != turn:
        return None
    return GameString(text, found[1], found[2], moves)


def read_opening(text: str) -> GameString | None:
    """A game string, or a type alone, which is the game of that type before its first move."""
    if re.fullmatch(TYPE, text):
        return GameString(text, text, "NotStarted", ())
    return read_game_string(text)


def read_verdict(text: str) -> Verdict | None:
    """The verdict that the words after the game's three numbers give, if they are one."""
    found = ENDING.fullmatch(text)
    if not found:
        return None
    if found["result"]:
        return Verdict(text, {"WhiteWins": 2, "Draw": 1, "BlackWins": 0}[found["result"]])
    if found["limit"]:
        return Verdict(text, 1)
    kind = found["late"] or found["flood"] or found["told"] or found["bare"]
    took = int(found["answered"]) - int(found["asked"]) if found["late"] else None
    return Verdict(text, 2 if found["side"] == "black" else 0, kind, took)


def read_record(sources: Sequence[Source]) -> Record:
    """The record of a tournament. Several sources are a run that was cut, and what went on. Each may
    begin with the head, and all heads are the same."""
    head: Line | None = None
    games: list[Game] = []
    rest: list[Line] = []
    for source in sources:
        if rest:
            raise RecordError(f"{rest[0].place}: neither a game nor the end of this file")
        lines = list(_lines(source))
        if lines and HEAD.fullmatch(lines[0].text):
            head = head or lines[0]
            if lines.pop(0).text != head.text:
                raise RecordError(f"{source.name}, line 1: another tournament than {head.place}")
        more, rest = _read_games(lines, len(games) + 1)
        games += more
    if not games:
        told = f"{rest[0].place}: {rest[0].text}" if rest else sources[-1].name
        raise RecordError(f"{told}: there is no whole game of a tournament")
    count = max(game.black for game in games)
    fault = schedule.fault(games, count, bool(rest))
    if fault:
        raise RecordError(f"{sources[-1].name}: {fault}")
    standings = rank([(game.white, game.black, game.verdict) for game in games], count)
    names = _names(rest, standings) if rest else _numbers(count)
    return Record(tuple(games), names, tuple(standings), bool(rest))


def _numbers(count: int) -> tuple[str, ...]:
    return tuple(f"engine {number}" for number in range(1, count + 1))


def _lines(source: Source) -> Iterator[Line]:
    """The lines of a source. A last one that has no end counts only as a row of the standings."""
    texts = source.text.split("\n")
    last = texts.pop()
    if STANDING.fullmatch(last):
        texts.append(last)
    for number, text in enumerate(texts, 1):
        yield Line(text.removesuffix("\r"), f"{source.name}, line {number}")


def _read_games(lines: list[Line], first: int) -> tuple[list[Game], list[Line]]:
    """The games, of which the first has this number, and the lines after the last of them."""
    games: list[Game] = []
    place = 0
    while place < len(lines) and GAME.fullmatch(lines[place].text):
        if place + 1 == len(lines):
            return games, []
        games.append(_read_game(lines[place], lines[place + 1], first + len(games)))
        place += 2
    return games, lines[place:]


def _read_game(line: Line, next_line: Line, number: int) -> Game:
    found, judged = GAME.fullmatch(line.text), VERDICT.fullmatch(next_line.text)
    assert found
    if not judged or found.group(1, 2, 3) != judged.group(1, 2, 3):
        raise RecordError(f"{next_line.place}: no verdict of the game in the line before")
    if int(found[1]) != number:
        raise RecordError(f"{line.place}: game {found[1]} stands where game {number} should")
    string, verdict = read_game_string(found[4]), read_verdict(judged[4])
    if not string:
        raise RecordError(f"{line.place}: no game string in its written form")
    if not verdict or not _agree(string, verdict):
        raise RecordError(f"{next_line.place}: no verdict of this game: {judged[4]}")
    return Game(number, int(found[2]), int(found[3]), string, verdict)


def _agree(string: GameString, verdict: Verdict) -> bool:
    """Whether a verdict can be that of this game. A draw may be one by repetition."""
    word, _, value = verdict.text.partition(" ")
    if word == "result":
        drawn = value == "Draw" and string.state == "InProgress"
        return drawn or string.state == value
    if string.state not in ("NotStarted", "InProgress"):
        return False
    return word == "forfeit" or int(value) == len(string.moves)


def _names(lines: Sequence[Line], standings: Sequence[Standing]) -> tuple[str, ...]:
    """The engines' names by their numbers, from standings that are those of the games."""
    rows = [_read_standing(line) for line in lines]
    if len(rows) != len(standings):
        raise RecordError(
            f"{lines[-1].place}: the standings have {len(rows)} rows, the games "
            f"{len(standings)} engines"
        )
    names = [""] * len(rows)
    for line, (name, numbers), standing in zip(lines, rows, standings):
        if numbers != standing.numbers:
            raise RecordError(
                f"{line.place}: the standings differ from the games, by which engine "
                f"{standing.engine} stands here with {standing.words}"
            )
        names[standing.engine - 1] = name
    return tuple(names)


def _read_standing(line: Line) -> tuple[str, tuple[int, ...]]:
    found = STANDING.fullmatch(line.text)
    if not found:
        raise RecordError(f"{line.place}: neither a game nor a row of the standings")
    return found[1], tuple(int(word) for word in found.groups()[1:])
