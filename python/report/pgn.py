"""Writes a record as a PGN file without moves, for programs that compute ratings.

Such programs read the headers White, Black and Result. The game itself stands in the header
GameString, since the moves of Hive are not those of chess.
"""
from __future__ import annotations

from typing import TYPE_CHECKING

if TYPE_CHECKING:
    from record import Game, Record

RESULTS = {2: "1-0", 1: "1/2-1/2", 0: "0-1"}


def write_pgn(record: Record) -> str:
    """All games of a record."""
    return "\n".join(_game(record, game) for game in record.games)


def _game(record: Record, game: Game) -> str:
    result = RESULTS[game.verdict.white_points]
    headers = {
        "Event": f"Hive tournament, {game.string.type}",
        "Site": "?",
        "Date": "????.??.??",
        "Round": str(game.number),
        "White": record.name(game.white),
        "Black": record.name(game.black),
        "Result": result,
        "Termination": _termination(game),
        "PlyCount": str(game.plies),
        "Verdict": game.verdict.text,
        "GameString": game.string.text,
    }
    lines = [f'[{name} "{_escaped(value)}"]\n' for name, value in headers.items()]
    return "".join(lines) + f"\n{result}\n"


def _escaped(value: str) -> str:
    """A header's value: PGN puts a backslash before a quote and before a backslash."""
    return value.replace("\\", "\\\\").replace('"', '\\"')


def _termination(game: Game) -> str:
    """The words that PGN has for the way in which a game ended."""
    forfeit = game.verdict.forfeit
    if forfeit is None:
        return "adjudication" if game.verdict.kind == "limit" else "normal"
    if forfeit == "late":
        return "time forfeit"
    return "rules infraction" if forfeit in ("illegal", "notamove") else "abandoned"
