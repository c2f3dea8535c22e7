"""Asks the built program for the books of positions over made games, and compares each answer with
a count over the reference.
"""
import random

import support
from reference import Play, Position

Place = tuple[int, int]


def image(symmetry: int, place: Place) -> Place:
    """The place after one of the twelve symmetries: mirrored from the sixth on, and then turned."""
    q, r = place if symmetry < 6 else reversed(place)
    for _ in range(symmetry % 6):
        q, r = -r, q + r
    return q, r


def shifted(place: Place, shift: Place) -> Place:
    return place[0] + shift[0], place[1] + shift[1]


def shifts(board: dict, other: dict) -> list[Place]:
    """The shifts that may take one board to the other."""
    if not board:
        return [(0, 0)]
    first = min(board)
    return [(place[0] - first[0], place[1] - first[1]) for place in other]


def told(position: Position) -> tuple:
    """What alike positions have in common, but for their boards."""
    turn = min(position.turn, 5)
    return position.game_type, position.side, position.rest, turn, len(position.board)


def images(asked: Position, before: Position, move: tuple | None) -> set:
    """What the move of a ply is taken to, if the position before it is alike to the asked one."""
    found = set()
    if told(asked) != told(before):
        return found
    for symmetry in range(12):
        board = {image(symmetry, place): stack for place, stack in before.board.items()}
        for shift in shifts(board, asked.board):
            if {shifted(place, shift): stack for place, stack in board.items()} == asked.board:
                goal = move and (move[0], shifted(image(symmetry, move[1]), shift))
                found.add(goal)
    return found


def book(asked: Position, games: list[tuple[Play, list]]) -> str:
    """The line of the book of a position over games, each with its moves."""
    moves = asked.moves()
    counts = dict.fromkeys(moves, 0)
    for play, made in games:
        for before, move in zip(play.positions, made):
            for taken in images(asked, before, move):
                counts[taken] += 1
    best = max(moves, key=counts.get)
    return f"book {asked.text(best)} {counts[best]}\n" if counts[best] else "book none\n"


def made_game(chance: random.Random, plies: int) -> tuple[Play, list]:
    """A game of few kinds of pieces, so that many games are alike."""
    play, made = Play("Base"), []
    while len(made) < plies and not play.position().is_over():
        moves = play.position().moves()
        few = [move for move in moves if move is None or move[0][1:] in ("G1", "A1", "Q")]
        made.append(chance.choice(few or moves))
        play.make(made[-1])
    return play, made


class Books(support.Case):
    def test_books_are_as_the_reference_counts_them(self) -> None:
        chance = random.Random(20)
        games = [made_game(chance, chance.randrange(2, 9)) for _ in range(60)]
        archive = support.text_of([play.string() for play, _ in games])
        named = 0
        for number in range(20):
            start, _ = made_game(chance, number % 7)
            _, written = support.run(["book"], start.string() + "\n" + archive)
            self.assertEqual(written, book(start.position(), games), start.string())
            named += written != "book none\n"
        self.assertGreaterEqual(named, 8, "books that name a move")
