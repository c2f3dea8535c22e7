"""Searches, solves and checks at sizes at which a program might give up: proofs of forced wins
within up to 16 plies, certificates five plies deep, heads that claim the most, and a certificate
that cites.

What is right comes from the reference and from the forms of the texts: a win in one ply is one
within any number, a value is that of the reference, and a text with one index too few or too many
is refused where it ends.
"""
import support
from reference import Position, read_game
from support import PASSED, WON, run

WORST = -(10**9)
# made games, by their numbers and plies, and the best of five plies at their ends where the
# reference was asked for it, which takes it half a minute
GROWN = [(31, 60, ("wL wG1-", -16)), (46, 60, None), (43, 100, None)]


def value(position: Position, depth: int, least: int, most: int) -> int:
    """The reference's value of a position, or one on the same side of two bounds as it is."""
    if depth == 0 or position.is_over():
        return position.value(depth)
    best = WORST
    for move in position.moves():
        best = max(best, -value(position.after(move), depth - 1, -most, -max(least, best)))
        if best >= most:
            break
    return best


def best(position: Position, depth: int) -> tuple[str, int]:
    """The text of the first best move of a position by the reference, and its value."""
    found = (None, WORST)
    for move in position.moves():
        worth = -value(position.after(move), depth - 1, WORST, -found[1])
        if worth > found[1]:
            found = (move, worth)
    return position.text(found[0]), found[1]


class Sizes(support.Case):
    def certificate(self, game: str, depth: int) -> str:
        return self.answer(["certify", "--depth", str(depth)], game + "\n")

    def solution(self, game: str, plies: int) -> str:
        return self.answer(["solve", "--plies", str(plies)], game + "\n")

    def check_lines(self, word: str, text: str, head: int) -> None:
        """That a text is accepted, and refused at its end with an index less or more."""
        lines = text.rstrip("\n").split("\n")
        count = len(lines) - head
        self.assertEqual(self.answer([word], text), "accepted\n", f"{word} of {count} indices")
        more = run([word], text + "0\n")
        self.assertEqual(more, (1, f"refused rest {count}\n"), f"{word} of one more")
        if count > 0:
            less = run([word], "\n".join(lines[:-1]) + "\n")
            self.assertEqual(less, (1, f"refused short {count - 1}\n"), f"{word} of one less")

    def winning_move(self) -> tuple[int, int]:
        """The place of the move that wins among the legal moves, and how many they are."""
        position = read_game(WON).position()
        texts = [position.text(move) for move in position.moves()]
        winning = texts.index("wA1 wB1-")
        state = position.after(position.moves()[winning]).state()
        self.assertEqual(state, "WhiteWins", "the winning move wins")
        return winning, len(texts)

    def test_win_in_one_within_more(self) -> None:
        winning, _ = self.winning_move()
        for plies in range(1, 7):
            text = self.solution(WON, plies)
            lines = text.rstrip("\n").split("\n")
            head = ["hive-solution 1", WON, f"plies {plies}", "answer yes"]
            self.assertEqual(lines[:4], head, f"within {plies} plies")
            self.assertIn(int(lines[4]), range(winning + 1), f"the first index within {plies}")
            self.assertEqual(self.answer(["verify"], text), "accepted\n", f"within {plies} plies")
        indices = self.solution(WON, 1).split("\n")[4:]
        self.assertEqual(indices, [str(winning), ""], "the proof within one ply")

    def test_proof_in_one_within_more(self) -> None:
        winning, count = self.winning_move()
        for plies in range(1, 17):
            head = f"hive-solution 1\n{WON}\nplies {plies}\nanswer "
            for rest, wanted in [
                (f"yes\n{winning}\n", (0, "accepted\n")),
                (f"yes\n{winning}\n0\n", (1, "refused rest 1\n")),
                (f"yes\n{count}\n", (1, "refused index 1\n")),
                ("yes\n", (1, "refused short 0\n")),
            ]:
                found = run(["verify"], head + rest)
                self.assertEqual(found, wanted, f"{rest!r} within {plies} plies")

    def test_no_win(self) -> None:
        for seed, plies, within in ((31, 60, 5), (31, 60, 6), (46, 60, 5)):
            game = self.grown(seed, plies)["game"]
            text = self.solution(game, within)
            head = ["hive-solution 1", game, f"plies {within}", "answer no"]
            self.assertEqual(text.split("\n")[:4], head, f"seed {seed}")
            self.check_lines("verify", text, 4)
            other = run(["verify"], text.replace("answer no", "answer yes"))
            self.assertEqual(other[0], 1, f"seed {seed}: the other answer")

    def test_certificates(self) -> None:
        for seed, plies, known in GROWN:
            game = self.grown(seed, plies)["game"]
            for depth in (1, 2, 3, 5):
                with self.subTest(seed=seed, depth=depth):
                    text = self.certificate(game, depth)
                    head = ["hive-certificate 1", game, f"depth {depth}"]
                    self.assertEqual(text.split("\n")[:3], head)
                    self.check_best(game, depth, known, text.split("\n"))
                    self.check_lines("check", text, 5)
                    citing = self.answer(["migrate"], text)
                    self.assertEqual(self.answer(["check"], citing), "accepted\n", "cited")

    def check_best(self, game: str, depth: int, known: tuple | None, lines: list[str]) -> None:
        """That move and value are those of the reference where it is asked, and no other value."""
        wanted = known if depth == 5 else None
        if depth < 3:
            wanted = best(read_game(game).position(), depth)
        if wanted:
            self.assertEqual(lines[3:5], [f"move {wanted[0]}", f"value {wanted[1]}"])
        session = self.answer(["uhp"], f"newgame {game}\nbestmove depth {depth}\n")
        self.assertEqual(session.split("\n")[-3], lines[3][5:], "as in a session")
        worth = int(lines[4][6:])
        for other in (worth - 1, worth + 1):
            changed = "\n".join(lines[:4] + [f"value {other}"] + lines[5:])
            self.assertEqual(run(["check"], changed)[0], 1, f"value {other}")

    def test_greatest_certificate_heads(self) -> None:
        """The most plies that a head can name, with no index behind it."""
        short, bad = (1, "refused short 0\n"), (6, "bad line 3\n")
        for version in (1, 2):
            for depth, wanted in ((63, short), (64, short), (65, bad)):
                head = f"hive-certificate {version}\nBase\ndepth {depth}\nmove wS1\nvalue 0\n"
                self.assertEqual(run(["check"], head), wanted, f"version {version}, {depth}")

    def test_greatest_solution_heads(self) -> None:
        short, bad = (1, "refused short 0\n"), (6, "bad line 3\n")
        for answer in ("no", "yes"):
            for plies, wanted in ((15, short), (16, short), (17, bad)):
                head = f"hive-solution 1\nBase\nplies {plies}\nanswer {answer}\n"
                self.assertEqual(run(["verify"], head), wanted, f"{answer} within {plies} plies")

    def test_cites(self) -> None:
        """A queen that steps out in two ways and returns, with a pass between, comes to a position
        twice: a bound that was shown is cited."""
        game = self.answer(["uhp"], f"newgame {PASSED}\nplay pass\n").split("\n")[-3]
        self.assertEqual(game.split(";")[2] + game[-5:], "White[7];pass")
        text = self.certificate(game, 4)
        citing = self.answer(["migrate"], text)
        lines = citing.rstrip("\n").split("\n")
        cites = [place for place, line in enumerate(lines) if line.startswith("@")]
        self.assertEqual(len(cites), 112)
        self.assertLessEqual(citing.count("\n"), text.count("\n"))
        self.assertEqual(self.answer(["check"], text), "accepted\n", "first version")
        self.check_lines("check", citing, 5)
        for place in cites:
            changed = "\n".join(lines[:place] + ["@65535"] + lines[place + 1 :]) + "\n"
            wanted = (1, f"refused cite {place - 4}\n")
            self.assertEqual(run(["check"], changed), wanted, f"line {place + 1} cites nothing")
