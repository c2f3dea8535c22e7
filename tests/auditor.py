"""A plain auditor over reference.py: what an audit by the program is to find and to write, by
docs/ENGINES.md and apart from the program.
"""
from collections.abc import Callable

import reference
from reference import Play, Position

MASK = 2**64 - 1
REFUSALS = ("err", "invalidmove")
# the most bytes that a finding tells of the line to which no reply came: 60 of a game string
LONGEST_ASKED = len("newgame ") + 60

Ask = Callable[[str], str]  # the whole reply to a line
Move = tuple[str, tuple[int, int]] | None


class Words:
    """The words of SplitMix64."""

    def __init__(self, seed: int) -> None:
        self.state = seed & MASK

    def next(self) -> int:
        self.state = (self.state + 0x9E3779B97F4A7C15) & MASK
        z = self.state
        z = (z ^ (z >> 30)) * 0xBF58476D1CE4E5B9 & MASK
        z = (z ^ (z >> 27)) * 0x94D049BB133111EB & MASK
        return z ^ (z >> 31)


def shortened(line: str) -> str:
    """A line that was asked, as a finding names it."""
    return line if len(line) <= LONGEST_ASKED else line[:LONGEST_ASKED] + ".."


class Found(Exception):
    """What is wrong with a reply."""

    def __init__(self, fault: str, text: str) -> None:
        super().__init__(fault, text)
        self.line = f"{fault} {shown(text)}".rstrip(" ")


class Missing(Exception):
    """No reply comes to a line, which ends the audit."""

    def __init__(self, fault: str, line: str) -> None:
        super().__init__(fault, line)
        self.line = f"{fault} asked {shortened(line)}"


class Counts:
    """How many positions were asked for, and how many moves they have."""

    def __init__(self) -> None:
        self.positions = self.moves = 0


def shown(text: str) -> str:
    return "".join(c if 32 <= ord(c) <= 126 else "?" for c in text)


def is_rare(position: Position, move: Move) -> bool:
    if move is None:
        return True
    piece, place = move
    return piece[1] == "M" or piece[0] != position.side or place in position.board


def is_siege(seed: int) -> bool:
    return (seed & MASK) // 8 % 2 == 1


def is_sought(position: Position, move: Move) -> bool:
    """In a siege white closes in on black's queen, and black moves what is on the board."""
    if move is None:
        return True
    piece, place = move
    if position.side == "b":
        return reference.where(position.board, piece) is not None
    queen = reference.where(position.board, "bQ")
    if queen is not None and place in reference.neighbours(queen):
        return True
    return place in position.board and reference.top(position.board, place)[0] == "b"


def choices_of(position: Position, siege: bool, word: int) -> list[Move]:
    """The legal moves of which one is drawn."""
    is_wanted = is_sought if siege else is_rare
    wanted = [move for move in position.moves() if is_wanted(position, move)]
    return wanted if wanted and (siege or word % 2 == 0) else position.moves()


def judge_list(position: Position, line: str) -> None:
    """Finds what is wrong with a line as the list of the legal moves."""
    listed = []
    for part in line.split(";"):
        try:
            move = position.read(part)
        except reference.Refusal:
            raise Found("unreadable", part) from None
        if move not in position.moves():
            raise Found("extra", part)
        if move in listed:
            raise Found("twice", part)
        listed.append(move)
    for move in position.moves():
        if move not in listed:
            raise Found("missing", position.text(move))


def judge_string(play: Play, asked: str, line: str) -> None:
    """Finds what is wrong with a line as the game string of a game, in reply to what was asked."""
    game_type = play.position().game_type
    wrong = Found("string", f"asked {shortened(asked)} answered {line}")
    try:
        read = reference.read_game(line)
    except reference.Refusal:
        raise wrong from None
    is_same = (read.position().game_type, read.texts) == (game_type, play.texts)
    if not is_same or line == game_type:
        raise wrong


def line_of(text: str, move: Move) -> str:
    return "pass" if move is None else "play " + text


def text_of_tried(position: Position, move: Move) -> str:
    """The text of a move that may not be legal: the piece alone where its place touches nothing."""
    try:
        return position.text(move)
    except AssertionError:
        return move[0]


class Audit:
    """The audit of one game, with an engine that is asked by a function."""

    def __init__(self, ask: Ask, play: Play, seed: int, counts: Counts) -> None:
        self.ask, self.play, self.words, self.counts = ask, play, Words(seed), counts
        self.siege = is_siege(seed)

    def count_list(self) -> None:
        """Judges the list of legal moves of the position that is reached."""
        position = self.play.position()
        judge_list(position, self.ask("validmoves"))
        self.counts.positions += 1
        self.counts.moves += len(position.moves())

    def run(self, plies: int) -> None:
        """Plays the game, and finds what is wrong with the first wrong reply."""
        play = self.play
        begin = f"newgame {play.position().game_type}"
        judge_string(play, begin, self.ask(begin))
        while not play.is_over() and len(play.texts) < plies:
            position = play.position()
            self.count_list()
            first, second = self.words.next(), self.words.next()
            choices = choices_of(position, self.siege, first)
            move = choices[second % len(choices)]
            asked = line_of(position.text(move), move)
            reply = self.ask(asked)
            play.make(move)
            judge_string(play, asked, reply)
        if play.texts:
            self.end()

    def end(self) -> None:
        """Takes plies back, tries a move that is not legal, and loads the whole game."""
        play = self.play
        whole = (list(play.positions), list(play.texts))
        load = f"newgame {play.string()}"
        back = self.words.next() % len(play.texts) + 1
        undo = f"undo {back}"
        reply = self.ask(undo)
        play.undo(back)
        judge_string(play, undo, reply)
        self.count_list()
        self.try_stale_move()
        # where no reply comes, the game is the one before it is loaded
        reply = self.ask(load)
        play.positions, play.texts = whole
        judge_string(play, load, reply)
        if not play.is_over():
            self.count_list()

    def try_stale_move(self) -> None:
        """Tries a move that was legal two plies before and is not now."""
        position = self.play.position()
        before = self.play.positions[max(0, len(self.play.texts) - 2)]
        stale = [move for move in before.moves() if move not in position.moves()]
        word = self.words.next()
        if not stale:
            return
        move = stale[word % len(stale)]
        text = text_of_tried(position, move)
        if self.ask(line_of(text, move)).split("\n")[0].split(" ")[0] not in REFUSALS:
            raise Found("accepted", text)
        self.count_list()


def type_of(asked: str | None, plays: str, number: int) -> str:
    """The game type of the game of this number, with an engine that plays the pieces."""
    if asked:
        return asked
    added = [letter for bit, letter in enumerate("MLP") if number >> bit & 1 and letter in plays]
    return "Base+" + "".join(added) if added else "Base"


def audit(
    ask: Ask,
    plays: str,
    games: int,
    seed: int,
    plies: int = 80,
    game_type: str | None = None,
    first: int = 1,
    most: int | None = None,
) -> list[str]:
    """The lines of an audit from its first game on of an engine that plays these pieces. It ends
    behind the last of the most findings."""
    counts, lines, audited = Counts(), [], 0
    for number in range(first - 1, first - 1 + games):
        play = Play(type_of(game_type, plays, number))
        audited += 1
        try:
            Audit(ask, play, seed + number, counts).run(plies)
        except (Found, Missing) as found:
            ply = len(play.texts)
            lines.append(f"game {number + 1} ply {ply} {play.string()} {found.line}")
            if isinstance(found, Missing) or len(lines) == most:
                break
    told = f"audited {audited} games {counts.positions} positions {counts.moves} moves"
    return [*lines, f"{told}, {len(lines)} findings"]
