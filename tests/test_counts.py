"""Counts the games of so many plies through the built program, by a session and by its command
`count`, and compares the counts with those of docs/PROTOCOL.md.
"""
import re

import support

# a game of forty plies
GROWN = (
    r"Base+MLP;InProgress;White[21];wA1;bS1 \wA1;wQ wA1\;bM -bS1;wA2 /wQ;bQ bM/;wM wA2-;bP bQ-;"
    r"wP -wA2;bG1 \bQ;wL -wP;bG2 /bM;wM -bM;bB1 bG1/;wG1 /wP;bS2 bG1-;wL wA2-;bB1 bS2/;wG2 \wM;"
    r"bB2 bB1-;wL wQ-;bA1 bB2-;wS1 \wG2;bA1 -wQ;wA2 bB1/;bA2 \bG1;wB1 -wP;bA2 \wA2;wA3 /wL;"
    r"bA3 -bA2;wB2 wG1\;bA3 /wA3;wS2 wL-;bB2 wA2;wG3 -wB1;bQ bS2-;wS2 bA3\;bA2 wL-;wB2 wG1-;"
    r"bA2 -bB2"
)
# what an engine that shares no code with the program counts behind it, from 1 ply on
GROWN_COUNTS = [61, 4203, 228536, 15861950]
# a game that white can win with one move
BEFORE_AN_END = (
    r"Base;InProgress;White[7];wS1;bS1 wS1-;wQ /wS1;bQ bS1-;wQ /bS1;bQ wQ-;wG1 -wS1;bG1 bS1-;"
    r"wB1 /wQ;bB1 bQ-;wA1 -wB1;bA1 /bB1"
)
# what the gate compares, of the plies that docs/PROTOCOL.md gives
MOST_PLIES = 5
ROW = re.compile(r"^\| `(Base\S*)` \|([0-9, |]+)\|$", re.MULTILINE)


def documented() -> dict[str, list[int]]:
    """The counts of each game type in docs/PROTOCOL.md that are compared, from 1 ply on."""
    rows = ROW.findall((support.TOP / "docs" / "PROTOCOL.md").read_text(encoding="utf-8"))
    numbers = {name: row.replace(",", "").split("|") for name, row in rows}
    return {name: [int(it) for it in row][:MOST_PLIES] for name, row in numbers.items()}


def count(engine: support.Engine, plies: int) -> int:
    """The number of games of so many further plies."""
    moves = engine.ask("validmoves")[0].split(";")
    if plies == 1:
        return len(moves)
    total = 0
    for move in moves:
        engine.ask("play " + move)
        total += count(engine, plies - 1)
        engine.ask("undo")
    return total


class Counts(support.Case):
    def compare(self, game: str, wanted: list[int]) -> None:
        """That the command writes these counts of a game."""
        lines = support.text_of([f"{plies} {number}" for plies, number in enumerate(wanted, 1)])
        words = ["count", "--plies", str(len(wanted))]
        self.assertEqual(self.answer(words, game + "\n"), lines, f"count of {game}")

    def test_command(self) -> None:
        counts = documented()
        self.assertEqual(len(counts), 8, "game types in PROTOCOL.md")
        for game_type, wanted in counts.items():
            self.compare(game_type, wanted)

    def test_command_in_a_grown_game(self) -> None:
        self.compare(GROWN, GROWN_COUNTS)

    def test_workers(self) -> None:
        """Several workers write what one does."""
        for game in ["Base+MLP", "Base;InProgress;Black[1];wS1", GROWN]:
            alone = self.answer(["count", "--plies", "4"], game + "\n")
            for workers in ["2", "3", "16"]:
                words = ["count", "--plies", "4", "--workers", workers]
                self.assertEqual(self.answer(words, game + "\n"), alone, f"{workers} of {game}")

    def parts(self, game: str) -> list[tuple[int, str]]:
        """The weight and the game of each part of a game's counts."""
        lines = self.answer(["count", "--plies", "3", "--split", "1"], game + "\n").splitlines()
        pairs = [line.split(" ", 1) for line in lines]
        return [(int(weight), part) for weight, part in pairs]

    def counts(self, game: str, plies: int) -> list[int]:
        """The counts behind a game, from 1 ply on; one that is over counts 0."""
        if game.split(";")[1:2] in (["Draw"], ["WhiteWins"], ["BlackWins"]):
            return [0] * plies
        words = ["count", "--plies", str(plies)]
        return [int(line.split()[1]) for line in self.answer(words, game + "\n").splitlines()]

    def test_parts(self) -> None:
        """The counts of the parts, each times its weight, add up to those of the game."""
        lone = "Base;InProgress;Black[1];wS1"
        self.assertEqual([weight for weight, _ in self.parts(lone)], [6, 6, 6, 6])
        for game in ["Base", lone, GROWN, BEFORE_AN_END]:
            parts = [(weight, self.counts(part, 2)) for weight, part in self.parts(game)]
            one, *more = self.counts(game, 3)
            self.assertEqual(sum(weight for weight, _ in parts), one, f"one ply of {game}")
            sums = [sum(weight * behind[n] for weight, behind in parts) for n in range(2)]
            self.assertEqual(sums, more, f"the parts of {game}")
        self.assertIn(0, self.counts(self.ended(BEFORE_AN_END), 1))

    def ended(self, game: str) -> str:
        """A part of a game that is over."""
        over = [part for _, part in self.parts(game) if part.split(";")[1] != "InProgress"]
        self.assertTrue(over, f"parts of {game} that are over")
        return over[0]

    def test_session(self) -> None:
        engine = self.engine()
        for game_type in ["Base", "Base+MLP"]:
            engine.ask("newgame " + game_type)
            for plies, wanted in enumerate(documented()[game_type][:4], 1):
                self.assertEqual(count(engine, plies), wanted, f"{plies} plies of {game_type}")
        self.assertEqual(engine.end(), 0)
