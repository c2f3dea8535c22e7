#!/usr/bin/env python3
"""A checker of certificates and solutions, written from docs/FORMATS.md over the rules of
tests/reference.py, and apart from the program.

Usage: checker.py check|migrate|verify, which reads a text and writes what the command of that name
writes, with its status.
"""
import sys

from reference import Refusal, is_number, read_game

MOST_LINE, MOST_LEMMAS = 65536, 65536


class Answer(Exception):
    """The line that ends a check."""


def refused(word, place):
    return Answer(f"refused {word} {place}")


def bad(what):
    return Answer(f"bad {what}")


def lines_of(text):
    """The lines of a text, each without its CR; None stands for one that is too long."""
    parts = text.split(b"\n")
    if parts[-1] == b"":
        parts.pop()
    return [
        None if len(part) > MOST_LINE else part.removesuffix(b"\r").decode("latin-1")
        for part in parts
    ]


def number(text, least, most):
    return int(text) if is_number(text, least, most) else None


def behind(word, line):
    return line[len(word) :] if line.startswith(word) else None


def number_behind(word, least, most):
    return lambda line: number(behind(word, line) or "", least, most)


def value_in(line):
    text = behind("value ", line) or ""
    if text.startswith("-"):
        digits = number(text[1:], 1, 1000064)
        return None if digits is None else -digits
    return number(text, 0, 1000064)


def answer_in(line):
    return {"answer yes": True, "answer no": False}.get(line)


def field(lines, at, read):
    """What a line of the head says, by how it is read, which answers None where it is not of its
    form."""
    found = read(lines[at]) if at < len(lines) and lines[at] is not None else None
    if found is None:
        raise bad(f"line {at + 1}")
    return found


def game_in(lines):
    line = field(lines, 1, lambda text: text)
    try:
        return read_game(line)
    except Refusal as reason:
        raise bad(str(reason).split(" ", 1)[1]) from None


def must_go_on(play):
    if play.is_over():
        raise bad("game over")


def key(position):
    pieces = [
        (piece, place, level)
        for place, stack in position.board.items()
        for level, piece in enumerate(stack)
    ]
    board = tuple(sorted(pieces))
    return board, position.game_type, position.side, min(position.turn, 5), position.rest


class Walk:
    """The lines behind a head, how many were taken, and the lemmas that were kept."""

    def __init__(self, lines, head, cites):
        self.lines, self.head, self.cites = lines, head, cites
        self.taken, self.lemmas, self.written = 0, [], []

    def token(self):
        """The next line: whether it is a cite, of the second version, and its number or index."""
        if self.taken == len(self.lines):
            raise refused("short", self.taken)
        line = self.lines[self.taken]
        is_cite = self.cites and line is not None and line.startswith("@")
        found = None
        if line is not None:
            found = number(line[1:], 0, 65535) if is_cite else number(line, 0, 5487)
        if found is None:
            raise bad(f"line {self.head + self.taken + 1}")
        self.taken += 1
        return is_cite, found

    def move_at(self, position, index):
        if index >= len(position.moves()):
            raise refused("index", self.taken)
        return position.moves()[index]

    def leaf(self, holds):
        if not holds:
            raise refused("leaf", self.taken)

    def end(self):
        if self.taken < len(self.lines):
            raise refused("rest", self.taken)

    def at_most(self, position, plies, x):
        if plies == 0 or position.is_over():
            self.leaf(position.value(plies) <= x)
            return
        for move in position.moves():
            self.at_least(position.after(move), plies - 1, -x)

    def at_least(self, position, plies, x):
        if plies == 0 or position.is_over():
            self.leaf(position.value(plies) >= x)
            return
        is_cite, found = self.token()
        here = (key(position), plies)
        if is_cite:
            what, least = self.lemmas[found] if found < len(self.lemmas) else (None, x)
            if what != here or least < x:
                raise refused("cite", self.taken)
            return
        self.at_most(position.after(self.move_at(position, found)), plies - 1, -x)
        if len(self.lemmas) < MOST_LEMMAS:
            self.lemmas.append((here, x))

    def root(self, position, plies, move, v):
        """The walks of a certificate, one after the other."""
        moves = position.moves()
        place = moves.index(move)
        for number_of, other in enumerate(moves):
            after = position.after(other)
            if number_of < place:
                self.at_least(after, plies - 1, 1 - v)
            else:
                if number_of == place:
                    self.at_most(after, plies - 1, -v)
                self.at_least(after, plies - 1, -v)
        self.end()

    def solution(self, position, plies, side, answer):
        if plies == 0 or position.is_over():
            won = position.state() == {"w": "WhiteWins", "b": "BlackWins"}[side]
            self.leaf(won == answer)
        elif (position.side == side) == answer:
            _, index = self.token()
            self.solution(position.after(self.move_at(position, index)), plies - 1, side, answer)
        else:
            for move in position.moves():
                self.solution(position.after(move), plies - 1, side, answer)


class Shortening(Walk):
    """The walk of a certificate of the first version that writes the tokens of the second."""

    def at_least(self, position, plies, x):
        if plies == 0 or position.is_over():
            self.leaf(position.value(plies) >= x)
            return
        here = (key(position), plies)
        known = enumerate(self.lemmas)
        serving = next((n for n, (what, least) in known if what == here and least >= x), None)
        if serving is not None:
            passing = Walk(self.lines, self.head, False)
            passing.taken = self.taken
            passing.at_least(position, plies, x)
            self.taken = passing.taken
            self.written.append(f"@{serving}")
            return
        _, index = self.token()
        self.written.append(str(index))
        self.at_most(position.after(self.move_at(position, index)), plies - 1, -x)
        if len(self.lemmas) < MOST_LEMMAS:
            self.lemmas.append((here, x))


def certificate(text, newest, walk_of):
    """The head of a certificate that holds, as its version, game, depth, move and value, and the
    walk that showed it."""
    lines = lines_of(text)
    version = field(lines, 0, number_behind("hive-certificate ", 1, newest))
    play = game_in(lines)
    depth = field(lines, 2, number_behind("depth ", 1, 64))
    claimed = field(lines, 3, lambda line: behind("move ", line) or None)
    v = field(lines, 4, value_in)
    must_go_on(play)
    position = play.position()
    try:
        move = position.read(claimed)
    except Refusal:
        raise refused("move", 0) from None
    if move not in position.moves():
        raise refused("move", 0)
    walk = walk_of(lines[5:], 5, version == 2)
    walk.root(position, depth, move, v)
    return play, depth, position.text(move), v, walk


def check(text):
    certificate(text, 2, Walk)
    return "accepted"


def migrate(text):
    play, depth, move, v, walk = certificate(text, 1, Shortening)
    head = ["hive-certificate 2", play.string(), f"depth {depth}", f"move {move}", f"value {v}"]
    return "\n".join(head + walk.written)


def verify(text):
    lines = lines_of(text)
    field(lines, 0, number_behind("hive-solution ", 1, 1))
    play = game_in(lines)
    plies = field(lines, 2, number_behind("plies ", 1, 16))
    answer = field(lines, 3, answer_in)
    must_go_on(play)
    walk = Walk(lines[4:], 4, False)
    walk.solution(play.position(), plies, play.position().side, answer)
    walk.end()
    return "accepted"


def answer(command, text):
    """What the command writes of a text, and its status."""
    try:
        return {"check": check, "migrate": migrate, "verify": verify}[command](text) + "\n", 0
    except Answer as line:
        return f"{line}\n", 1 if str(line).startswith("refused") else 6


if __name__ == "__main__":
    sys.setrecursionlimit(10000)
    written, status = answer(sys.argv[1], sys.stdin.buffer.read())
    sys.stdout.write(written)
    sys.exit(status)
