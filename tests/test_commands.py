"""Tries the commands of the built program on one another: made games are read again, certificates
and proofs of forced wins are checked as written and with one thing changed.
"""
import support
from support import PASSED, THROWS, WON, run, text_of

# positions, and the greatest depth at which each is certified
CERTIFIED = [("Base", 2), ("Base+MLP", 2), (WON, 3), (PASSED, 3), (THROWS, 3)]
# positions, and the plies within which a win is asked for
SOLVED = [("Base", 2), (WON, 1), (WON, 3), (PASSED, 2)]


def with_line(lines: list[str], at: int, line: str) -> str:
    """The text with another line in the place of one."""
    return text_of(lines[:at] + [line] + lines[at + 1 :])


class Commands(support.Case):
    def last_reply(self, game: str, line: str) -> str:
        """What a session of a game answers to a line."""
        return self.answer(["uhp"], f"newgame {game}\n{line}\n").split("\n")[-3]

    def refused(self, word: str, text: str, what: str) -> None:
        status, written = run([word], text)
        self.assertIn(status, (1, 6), f"{what}: {written!r}")

    def accepted(self, word: str, text: str, what: str) -> None:
        self.assertEqual(self.answer([word], text), "accepted\n", what)

    def test_made_games(self) -> None:
        games = []
        for seed in range(20):
            fields = self.grown(seed, 200)
            parts = fields["game"].split(";")
            self.assertEqual(fields["seed"], str(seed))
            self.assertEqual(parts[0], fields["type"], f"seed {seed}")
            self.assertEqual(len(parts) - 3, int(fields["plies"]), f"seed {seed}")
            self.assertEqual(fields["undone"], fields["plies"], f"seed {seed}")
            self.assertEqual(parts[1], fields["state"], f"seed {seed}")
            best = "none"
            if parts[1] == "InProgress":
                best = self.last_reply(fields["game"], "bestmove depth 1")
            self.assertEqual(fields["best"], best, f"seed {seed}")
            games.append(fields["game"])
        self.assertEqual(self.answer(["replay"], text_of(games)), text_of(games))
        self.assertEqual(self.grown(7, 200), self.grown(7, 200), "a game made twice")

    def test_certificates(self) -> None:
        for game, deepest in CERTIFIED:
            for depth in range(1, deepest + 1):
                text = self.answer(["certify", "--depth", str(depth)], game + "\n")
                self.accepted("check", text, f"depth {depth}")
                self.check_second_version(text, depth)
                self.check_claims(game, text.rstrip("\n").split("\n"))
                self.check_indices(text.rstrip("\n").split("\n"))

    def check_second_version(self, text: str, depth: int) -> None:
        """That a certificate is accepted in the second version, as it is and cited, and then no
        more."""
        citing = self.answer(["migrate"], text)
        self.assertLessEqual(citing.count("\n"), text.count("\n"), f"depth {depth}")
        for second in (citing, text.replace("hive-certificate 1", "hive-certificate 2", 1)):
            self.accepted("check", second, f"depth {depth}, second version")
            self.refused("check", second + "@0\n", "a cite left over")
        self.assertEqual(run(["migrate"], citing), (6, "bad line 1\n"))

    def check_claims(self, game: str, lines: list[str]) -> None:
        """That no other value or move is accepted."""
        move, value = lines[3].split(" ", 1)[1], int(lines[4].split(" ")[1])
        for other in (value - 1, value + 1):
            self.refused("check", with_line(lines, 4, f"value {other}"), "another value")
        moves = self.last_reply(game, "validmoves").split(";")
        for other in [it for it in moves if it != move][:5]:
            self.refused("check", with_line(lines, 3, f"move {other}"), "another move")

    def check_indices(self, lines: list[str]) -> None:
        """That an index less or more is refused, and another one unless it shows the claim too."""
        self.refused("check", text_of(lines + ["0"]), "an index left over")
        if len(lines) > 5:
            self.refused("migrate", text_of(lines[:-1]), "an index too few to cite")
            self.refused("check", text_of(lines[:-1]), "an index too few")
        for at in range(5, min(len(lines), 15)):
            status, written = run(["check"], with_line(lines, at, str(int(lines[at]) + 1)))
            self.assertTrue(status == 1 or written == "accepted\n", f"another index: {written!r}")

    def test_wins(self) -> None:
        made = [(self.grown(seed, 30)["game"], 2) for seed in range(3)]
        for game, plies in SOLVED + made:
            if game.split(";")[1:2] not in ([], ["InProgress"]):
                continue
            text = self.answer(["solve", "--plies", str(plies)], game + "\n")
            self.accepted("verify", text, f"solve {plies}")
            lines = text.rstrip("\n").split("\n")
            other = "answer no" if lines[3] == "answer yes" else "answer yes"
            self.refused("verify", with_line(lines, 3, other), "the other answer")
            self.refused("verify", text_of(lines + ["0"]), "an index left over")
        text = self.answer(["solve", "--plies", "1"], WON + "\n")
        self.assertEqual(text.split("\n")[3], "answer yes", "a win in one")
