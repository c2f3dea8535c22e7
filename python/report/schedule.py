"""The order in which the games of a tournament are played, and its openings.

In each round every pair plays every opening twice in a row, once with each colour. The games of
one opening and one round are a block.
"""
from __future__ import annotations

import itertools
from collections.abc import Sequence
from dataclasses import dataclass, field
from typing import TYPE_CHECKING

if TYPE_CHECKING:
    from record import Game, GameString


class OpeningsError(Exception):
    """A file of openings that is not the one of these games."""


@dataclass
class Opening:
    """An opening: its moves, the places of its blocks from 1 on, and its games."""

    moves: tuple[str, ...]
    blocks: list[int] = field(default_factory=list)
    games: list[Game] = field(default_factory=list)

    @property
    def white_points(self) -> int:
        return sum(game.verdict.white_points for game in self.games)

    @property
    def draws(self) -> int:
        return sum(game.verdict.white_points == 1 for game in self.games)


def block_length(games: Sequence[Game]) -> int:
    """How many games a block has: those before the first pair plays again."""
    first = (games[0].white, games[0].black)
    again = (k for k in range(2, len(games), 2) if (games[k].white, games[k].black) == first)
    return next(again, len(games))


def fault(games: Sequence[Game], engines: int, finished: bool) -> str | None:
    """What shows that games are not those of a tournament of so many engines, if anything does."""
    length = block_length(games)
    pairs = list(itertools.combinations(range(1, engines + 1), 2))
    players = [game for pair in pairs for game in (pair, pair[::-1])][:length]
    for game in games:
        if (game.white, game.black) != players[(game.number - 1) % length]:
            return f"game {game.number} is of other engines than the schedule says"
        if game.string.type != games[0].string.type:
            return f"game {game.number} is of another type than the first one"
    whole = length in (2 * len(pairs), 2 * (engines - 1))
    if (finished and len(games) % length) or (not whole and (finished or len(games) > length)):
        return "games of the schedule are missing"
    return None


def common_moves(games: Sequence[Game]) -> tuple[str, ...]:
    """The moves with which all of these games begin."""
    least, greatest = (side(game.string.moves for game in games) for side in (min, max))
    same = itertools.takewhile(lambda both: both[0] == both[1], zip(least, greatest))
    return tuple(move for move, _ in same)


def blocks(games: Sequence[Game]) -> list[Sequence[Game]]:
    length = block_length(games)
    return [games[start : start + length] for start in range(0, len(games), length)]


def shared_openings(games: Sequence[Game]) -> list[Opening]:
    """The openings as far as games tell them: what all games of a block share."""
    openings: dict[tuple[str, ...], Opening] = {}
    for place, block in enumerate(blocks(games), 1):
        moves = common_moves(block)
        opening = openings.setdefault(moves, Opening(moves))
        opening.blocks.append(place)
        opening.games += block
    return list(openings.values())


def given_openings(games: Sequence[Game], strings: Sequence[GameString]) -> list[Opening]:
    """The games by the openings that the tournament was given, in their order."""
    openings = [Opening(string.moves) for string in strings] or [Opening(())]
    for place, block in enumerate(blocks(games)):
        number = place % len(openings) + 1
        opening = openings[number - 1]
        opening.blocks.append(place + 1)
        opening.games += block
        if common_moves(block)[: len(opening.moves)] != opening.moves:
            raise OpeningsError(
                f"games {block[0].number} to {block[-1].number} do not all begin with opening "
                f"{number} of the file"
            )
    return [opening for opening in openings if opening.games]


def opening_string(game_type: str, moves: tuple[str, ...]) -> str:
    """The game string of a game that is not over, after these moves."""
    state = "InProgress" if moves else "NotStarted"
    side = "White" if len(moves) % 2 == 0 else "Black"
    return ";".join((game_type, state, f"{side}[{len(moves) // 2 + 1}]", *moves))
