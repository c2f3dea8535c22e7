"""What a tournament is to say: the schedule of its games, who wins by a verdict, and the standings,
by docs/TOURNAMENTS.md and apart from the program.
"""
from collections.abc import Sequence

COLUMNS = ["points", "games", "wins", "draws", "losses", "forfeits"]

Game = tuple[int, int, int]  # opening, white and black
Verdict = tuple[tuple[int, int], list[str]]  # the players, and what is said


def schedule(engines: int, openings: int, rounds: int = 1) -> list[Game]:
    """The games in their order."""
    numbers = range(1, engines + 1)
    pairs = [(one, other) for one in numbers for other in numbers if one < other]
    return [
        game
        for _ in range(rounds)
        for place in range(openings)
        for one, other in pairs
        for game in ((place, one, other), (place, other, one))
    ]


def ends(words: list[str]) -> tuple[int | None, bool]:
    """The side that wins by these words, 0 for white, or None; and whether the other forfeits."""
    if words[0] == "limit" or words == ["result", "Draw"]:
        return None, False
    if words[0] == "result":
        return ["WhiteWins", "BlackWins"].index(words[1]), False
    return 1 - ["white", "black"].index(words[1]), True


def add_game(row: dict[str, int], side: int, winner: int | None, forfeit: bool) -> None:
    """Adds a game to the row of the engine that played this side."""
    is_lost = winner == 1 - side
    row["games"] += 1
    row["points"] += 1 if winner is None else 2 * (winner == side)
    row["draws"] += winner is None
    row["wins"] += winner == side
    row["losses"] += is_lost
    row["forfeits"] += forfeit and is_lost


def standings(engines: Sequence[str], verdicts: Sequence[Verdict]) -> list[str]:
    """The lines of the standings: by points, then the points of those who were beaten, then
    numbers."""
    rows = {it: dict.fromkeys(COLUMNS, 0) for it in range(1, len(engines) + 1)}
    beaten = []
    for players, words in verdicts:
        winner, forfeit = ends(words)
        for side, engine in enumerate(players):
            add_game(rows[engine], side, winner, forfeit)
        if winner is not None:
            beaten.append((players[winner], players[1 - winner]))
    strength = {
        it: sum(rows[loser]["points"] for victor, loser in beaten if victor == it) for it in rows
    }
    order = sorted(rows, key=lambda it: (-rows[it]["points"], -strength[it], it))
    return [
        " ".join([engines[it - 1]] + [f"{word} {number}" for word, number in rows[it].items()])
        for it in order
    ]
