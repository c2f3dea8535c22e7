"""Talks to the built program as a viewer does: a line at a time, waiting for each `ok`. Every
answer is as expected, byte for byte.
"""
import support
from support import WON

SIX = ["-wS1", "/wS1", "\\wS1", "wS1\\", "wS1/", "wS1-"]
SECONDS = ";".join(f"{piece} {place}" for piece in ["bS1", "bB1", "bG1", "bA1"] for place in SIX)
ALL_OPTIONS = ["Table;int;65536;65536;1;1048576", "Workers;int;1;1;1;16", "Repetition;int;0;0;0;1"]
# a short game, undo, options and refusals
SHORT_GAME = [
    ("validmoves", ["err 3 no game"]),
    ("undo", ["err 3 no game"]),
    ("newgame", ["Base;NotStarted;White[1]"]),
    ("validmoves", ["wS1;wB1;wG1;wA1"]),
    ("bestmove depth 1", ["wS1"]),
    ("bestmove depth 2", ["wA1"]),
    ("bestmove time 00:00", ["err 2 wrong arguments"]),
    ("play wS1", ["Base;InProgress;Black[1];wS1"]),
    ("validmoves", [SECONDS]),
    ("play wS1", ["invalidmove 1 unreadable"]),
    ("play bS1 wA1-", ["invalidmove 2 not in play wA1"]),
    ("play bQ wS1-", ["invalidmove 3 not legal"]),
    ("pass", ["invalidmove 3 not legal"]),
    ("play bS1 wS1-", ["Base;InProgress;White[2];wS1;bS1 wS1-"]),
    ("undo 3", ["err 7 undo beyond start"]),
    ("undo 2", ["Base;NotStarted;White[1]"]),
    ("newgame Base+MLP", ["Base+MLP;NotStarted;White[1]"]),
    ("validmoves", ["wS1;wB1;wG1;wA1;wM;wL;wP"]),
    ("newgame Base+PM", ["err 4 malformed part 1"]),
    ("options", ALL_OPTIONS),
    ("options set Workers 2", ["Workers;int;2;1;1;16"]),
    ("options set Workers 17", ["err 9 value out of range"]),
    ("options get Hash", ["err 9 no such option"]),
    ("help", ["err 1 unknown command"]),
    ("bestmove depth 65", ["err 2 wrong arguments"]),
    ("a" * 65537, ["err 10 line too long"]),
    ("validmoves", ["wS1;wB1;wG1;wA1;wM;wL;wP"]),
]
PASSED = (
    "Base;InProgress;Black[6];wB1;bS1 wB1-;wQ \\wB1;bQ bS1-;wQ wB1/;bQ bS1\\;wB1 bS1;bQ wB1-;"
    "wB2 /wB1;bQ wB2-;wB2 bQ"
)
NOT_GAMES = [
    "newgame Base;InProgress;Black[1];wS1;bS1 wS1-",
    "newgame Base;Draw;Black[1];wS1",
    "newgame Base;InProgress;Black[2];wS1;bS1 wS1-;wQ -wS1;bQ -wS1",
    "newgame Base;InProgress;White[2];wS1;bS1 wS1-;",
    "newgame Base+PM",
]
# lines, and further lines that are refused after them
REFUSED = [
    (["newgame", "play wS1"], ["pass", "play wS1", "play bS1 wA1-", "play bQ wS1-", "play"]),
    (["newgame " + PASSED], ["play bS1 -wQ", "play wQ -bS1", "undo 12"]),
    (
        ["newgame " + WON, "play wA1 wB1-"],
        ["validmoves", "play pass", "bestmove depth 1", "pass"],
    ),
    (["newgame", "play wS1", "play bS1 wS1-"], ["undo 3", "undo 0"]),
    (["newgame", "play wG1"], NOT_GAMES),
    ([], ["play wS1", "undo", "validmoves", "bestmove depth 1"]),
    (["newgame Base+MLP"], ["a" * 65537, "", "help", "bestmove depth 65", "undo 0", "info x"]),
    (
        ["newgame", "options set Workers 2"],
        ["options set Workers 17", "options set Table 0", "options get Hash"],
    ),
]
# what is asked after a refused line
ASKED = ["options", "undo 0", "validmoves", "undo", "validmoves"]
# the forms of a move to an empty place, by the step to its first neighbour
FORMS = [
    ((-1, 0), "{}-"),
    ((1, 0), "-{}"),
    ((-1, 1), "{}/"),
    ((1, -1), "/{}"),
    ((0, -1), "{}\\"),
    ((0, 1), "\\{}"),
]


def written(stands: dict, piece: str, place: tuple[int, int]) -> str:
    """The written form of a move: by its first neighbour in the order W, E, SW, NE, NW, SE."""
    q, r = place
    pieces = {where: other for other, where in stands.items() if other != piece}
    for step, form in FORMS:
        other = pieces.get((q + step[0], r + step[1]))
        if other:
            return f"{piece} " + form.format(other)
    return piece


def walk(plies: int) -> list[str]:
    """The moves of a game whose two ants and two queens walk away, two places to the east and one
    to the north in six plies."""
    first = [
        ("wA1", 0, 0), ("bA1", 1, 0), ("wQ", -1, 0), ("bQ", 2, 0), ("wQ", 0, -1), ("bQ", 1, 1),
    ]
    again = [
        ("wQ", 1, -1), ("bQ", 2, 0), ("wA1", 2, -1), ("bA1", 3, -1), ("wQ", 2, -2), ("bQ", 3, 0),
    ]
    places = first + [
        (piece, q + 2 * i, r - i) for i in range(plies // 6) for piece, q, r in again
    ]
    stands, moves = {}, []
    for piece, q, r in places[:plies]:
        moves.append(written(stands, piece, (q, r)))
        stands[piece] = (q, r)
    return moves


def game_of(moves: list[str], plies: int) -> str:
    """The game string of a game of Base that goes on behind so many moves."""
    state = "InProgress" if plies else "NotStarted"
    turn = f"{'White' if plies % 2 == 0 else 'Black'}[{plies // 2 + 1}]"
    return ";".join(["Base", state, turn] + moves[:plies])


class Viewer(support.Case):
    def answers(self, lines: list[str]) -> list[list[str]]:
        """The answers of a whole session."""
        engine = self.engine()
        found = [engine.ask(line) for line in lines]
        self.assertEqual(engine.end(), 0)
        return found

    def test_short_game(self) -> None:
        engine = self.engine()
        self.assertEqual(engine.greeting, ["id HiveReferee 1.0", "Mosquito;Ladybug;Pillbug"])
        for line, wanted in SHORT_GAME:
            self.assertEqual(engine.ask(line), wanted, line[:60])
        self.assertEqual(engine.end(), 0)

    def test_won_game(self) -> None:
        engine = self.engine()
        self.assertEqual(engine.ask("newgame " + WON), [WON])
        for depth in range(1, 4):
            self.assertEqual(engine.ask(f"bestmove depth {depth}"), ["wA1 wB1-"])
        won = WON.replace("InProgress;White", "WhiteWins;Black") + ";wA1 wB1-"
        self.assertEqual(engine.ask("play wA1 wB1-"), [won])
        self.assertEqual(engine.ask("bestmove depth 1"), ["err 8 game over"])
        self.assertEqual(engine.end(), 0)

    def test_refused_lines(self) -> None:
        """What is asked after a refused line is answered as in a session that never got it."""
        for lines, further in REFUSED:
            wanted = self.answers(lines + ASKED)[-len(ASKED) :]
            for line in further:
                found = self.answers(lines + [line] + ASKED)
                self.assertRegex(found[len(lines)][0], "^(err|invalidmove) ", line[:60])
                self.assertEqual(found[-len(ASKED) :], wanted, f"what follows {line[:60]}")
            found = self.answers(lines + further + ASKED)[-len(ASKED) :]
            self.assertEqual(found, wanted, "what follows all of them")

    def test_greatest_game(self) -> None:
        """A game of 5,000 plies, played move by move, and what is refused after it."""
        moves = ["wA1", "bA1 wA1-", "wQ -wA1", "bQ bA1-"]
        moves += ["wQ \\wA1", "bQ bA1/", "wQ -wA1", "bQ bA1-"] * 1249
        engine = self.engine()
        self.assertEqual(engine.ask("newgame"), [game_of(moves, 0)])
        for ply, move in enumerate(moves, 1):
            self.assertEqual(engine.ask("play " + move), [game_of(moves, ply)], f"ply {ply}")
        whole = game_of(moves, 5000)
        self.assertEqual(len(whole), 40024)
        too_many = ["err 11 too many plies"]
        self.assertEqual(engine.ask("play wQ \\wA1"), too_many)
        self.assertEqual(engine.ask("pass"), too_many)
        self.assertEqual(engine.ask("undo"), [game_of(moves, 4999)])
        self.assertEqual(engine.ask("newgame " + whole), [whole], "read again")
        self.assertEqual(engine.ask("newgame " + whole + ";wQ \\wA1"), too_many)
        self.assertEqual(engine.ask("undo 4999"), [game_of(moves, 1)], "still there")
        self.assertEqual(engine.end(), 0)

    def test_walking_game(self) -> None:
        """A game of 5,000 plies that ends far from the origin, taken back move by move."""
        moves = walk(5000)
        engine = self.engine()
        self.assertEqual(engine.ask("newgame"), [game_of(moves, 0)])
        for ply, move in enumerate(moves, 1):
            self.assertEqual(engine.ask("play " + move), [game_of(moves, ply)], f"ply {ply}")
        self.assertEqual(engine.ask("pass"), ["err 11 too many plies"])
        for ply in range(4999, -1, -1):
            self.assertEqual(engine.ask("undo"), [game_of(moves, ply)], f"back to ply {ply}")
        self.assertEqual(engine.end(), 0)
