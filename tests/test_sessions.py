"""Drives the built program with made sessions of random and hostile lines, and compares every
answer with the reference: of 4,000 lines from the seed 1, or as HIVE_LINES and HIVE_SEED say.
"""
import random

import support
from reference import BEFORE, BEHIND, PIECES, TYPES, Position, Session, toward, without

WORDS = ["info", "newgame", "play", "pass", "validmoves", "bestmove", "undo", "options", "exit"]
WORDS += ["help", "depth", "time", "get", "set"]
SCRAPS = [b"", b" ", b"  ", b";", b"-", b"/", b"\\", b"0", b"01", b"99999999999999999999", b"\xff"]
SCRAPS += [b"\x00", b"\t", b"ok", b"err", b"wS1", b"bQ -wS1"]
STATES = ["NotStarted", "InProgress", "Draw", "WhiteWins", "BlackWins", "Over"]
TURNS = ["White[1]", "Black[2]", "White[0]", "White[01]", "Black", "White[1234567890]"]
VALUES = ["1", "2", "16", "17", "0", "x", "65536", "1048577"]


class Maker:
    """Makes the lines of one session. It knows the game under way, so most lines are accepted."""

    def __init__(self, seed: int) -> None:
        self.random = random.Random(seed)
        self.known = Session()

    def spelling(self, position: Position, move: tuple | None) -> str:
        """One of the texts that denote the move."""
        if move is None:
            return "pass"
        piece, place = move
        board = without(position.board, piece)
        if not board:
            return piece if not position.board else position.text(move)
        forms = []
        for marks, form in [(BEHIND, "{1}{0}"), (BEFORE, "{0}{1}")]:
            for mark, way in marks.items():
                near = toward(place, (-way[0], -way[1]))
                forms += [form.format(mark, name) for name in board.get(near, [])]
        forms += board.get(place, [])
        return piece + " " + self.random.choice(forms)

    def move_text(self) -> str:
        play = self.known.play
        moves = play.position().moves() if play else []
        if moves and self.random.random() < 0.85:
            # most moves go on, and queens come early, so that games become long
            return self.spelling(play.position(), self.random.choice(moves))
        piece, other = self.random.choice(PIECES), self.random.choice(PIECES)
        goals = ["", f" {other}", f" -{other}", f" {other}/", f" {other}\\", f" /{other}"]
        return piece + self.random.choice(goals + [f"  {other}", f" +{other}"])

    def game_string(self) -> str:
        play = self.known.play
        if play is None or self.random.random() < 0.5:
            return self.random.choice(TYPES + ["", "Base+PM", "base"])
        parts = play.string().split(";")
        choice = self.random.randrange(7)
        if choice == 0:
            parts[1] = self.random.choice(STATES)
        elif choice == 1:
            parts[2] = self.random.choice(TURNS)
        elif choice == 2:
            changed = self.random.choice(["", "pass", "wQ", "bS1 wS1-", "Base"])
            parts[self.random.randrange(len(parts))] = changed
        elif choice == 3:
            parts = parts[: self.random.randrange(1, len(parts) + 1)]
        return ";".join(parts)

    def option(self) -> str:
        name = self.random.choice(["Table", "Workers", "Repetition", "Hash"])
        value = self.random.choice(VALUES)
        lines = [f"options get {name}", f"options set {name} {value}", "options", "options  set"]
        return self.random.choice(lines + [f"options put {name}"])

    def hostile_line(self) -> bytes:
        words = [self.random.choice(WORDS).encode() for _ in range(self.random.randrange(3))]
        scraps = [self.random.choice(SCRAPS) for _ in range(self.random.randrange(3))]
        return b" ".join(words + scraps).replace(b"\n", b"")

    def line(self) -> bytes:
        chance = self.random.random()
        if self.known.play is None and chance < 0.8:
            return b"newgame " + self.random.choice(TYPES).encode()
        if chance < 0.60:
            return b"play " + self.move_text().encode()
        if chance < 0.70:
            return b"validmoves"
        if chance < 0.74:
            return f"undo {self.random.choice(['', 1, 2, 3, 7, 0, '02', 1000])}".encode()
        if chance < 0.76:
            return b"newgame " + self.game_string().encode()
        if chance < 0.78:
            return self.random.choice([b"pass", b"info", b" pass ", b"play pass", b"info\r"])
        if chance < 0.82:
            return self.option().encode()
        if chance < 0.83 and self.known.play and len(self.known.play.texts) < 12:
            return f"bestmove depth {self.random.choice([1, 1, 2, 0, 65])}".encode()
        if chance < 0.832:
            return b"a" * self.random.choice([65535, 65536, 65537, 70000])
        if chance < 0.98:
            return b"play " + self.move_text().encode() + self.random.choice([b"", b" ", b"\r"])
        return self.hostile_line()


def told(answer: list[str]) -> bytes:
    return b"".join(line.encode("latin-1") + b"\n" for line in answer + ["ok"])


def difference(sent: list[bytes], wanted: list[bytes], written: bytes) -> str:
    """The first answer that is not as it is wanted."""
    at = 0
    for line, answer in zip([b"(the greeting)"] + sent, wanted):
        if written[at : at + len(answer)] != answer:
            found = written[at : at + len(answer) + 200][:2000]
            return f"after {line[:300]!r}:\n  found  {found!r}\n  wanted {answer[:2000]!r}"
        at += len(answer)
    return f"{len(written) - at} bytes more than wanted" if at < len(written) else ""


class Sessions(support.Case):
    def compare_session(self, seed: int, lines: int) -> int:
        """Compares the answers of one session, and gives their number."""
        maker = Maker(seed)
        sent, wanted = [], [told(maker.known.answer(b"info"))]
        for _ in range(lines):
            line = maker.line()
            answer = maker.known.answer(line)
            if answer is not None:
                sent.append(line)
                wanted.append(told(answer))
        done = support.finished(["uhp"], b"\n".join(sent + [b"exit"]), timeout=600)
        self.assertEqual(difference(sent, wanted, done.stdout), "", f"seed {seed}")
        self.assertEqual(done.returncode, 0, f"seed {seed}")
        return len(sent)

    def test_answers_are_those_of_the_reference(self) -> None:
        seed, left = support.setting("HIVE_SEED", 1), support.setting("HIVE_LINES", 4000)
        while left > 0:
            left -= self.compare_session(seed, min(400, left + 50))
            seed += 1
