"""Runs the built program with each request for memory refused in turn, and looks at how the run
ends: with status 7 and whole replies, the first of those of an undisturbed run, or as if nothing
had been refused.
"""
import os
import tempfile
from collections.abc import Sequence

import support
from support import WON

DRAWN = (
    "Base;Draw;Black[7];wS1;bS1 wS1-;wQ /wS1;bQ bS1-;wQ wS1\\;bQ bS1\\;wG1 -wQ;bG1 bS1-;wB1 wG1\\;"
    "bB1 bQ-;wA1 -wB1;bA1 bQ\\;wA1 wQ\\"
)
CLAIM = ["Base;NotStarted;White[1]", "depth 2", "move wA1", "value 10", "0", "0", "0", "0"]
SOLUTION = ["hive-solution 1", CLAIM[0], "plies 2", "answer no", "0", "0", "0", "0"]
FIRST_VERSION, SECOND_VERSION = (["hive-certificate " + version, *CLAIM] for version in "12")
SHORT = ["newgame", "validmoves", "play wS1", "undo", "options set Table 1", "help"]
SHORT += ["newgame Base+MLP", "validmoves"]
REPEATING = ["options set Repetition 1", "newgame", "play wA1", "play bA1 wA1-", "undo"]
WINNING = ["newgame " + WON, "bestmove depth 1", "bestmove depth 2", "play wA1 wB1-"]
TIMED = ["newgame " + WON, "bestmove time 00:00:00", "options set Workers 2", "bestmove depth 1"]
ONE_REPEATS = [DRAWN, "Base;InProgress;White[2];wA1;bA1 wA1-"]
BOOKED = ["Base", "Base;InProgress;White[2];wS1;bA1 wS1-", "Base;InProgress;Black[1];wA1"]
RUNS = [
    ("a short session", ["uhp"], SHORT),
    ("a game under the rule of third repetition", ["uhp"], REPEATING),
    ("a drawn game", ["uhp"], ["newgame " + DRAWN, "validmoves", "undo", "validmoves"]),
    ("a win", ["uhp"], WINNING),
    ("a replay", ["replay"], [DRAWN, "Base;InProgress;White[1]", "Base"]),
    ("a replay under the rule of third repetition", ["replay", "--repetition", "1"], ONE_REPEATS),
    ("a count", ["count", "--plies", "2"], ["Base+MLP"]),
    ("a search for a time", ["uhp"], TIMED),
    ("a certificate", ["certify", "--depth", "2"], ["Base"]),
    ("a check", ["check"], FIRST_VERSION),
    ("a forced win", ["solve", "--plies", "1"], [WON]),
    ("a check of it", ["verify"], SOLUTION),
    ("a made game", ["grow", "--seed", "0", "--plies", "10"], []),
    ("a text made to cite", ["migrate"], FIRST_VERSION),
    ("a check of a text that may cite", ["check"], SECOND_VERSION),
    ("a book", ["book"], BOOKED),
]
# what two engines write: their greetings, and then after each line that they read
PARTS = {
    "white": ["id A\\nok", "x\\nok", "wS1\\nok", "x\\nok"],
    "black": ["id B\\nok", "x\\nok", "x\\nok", "bQ -wS1\\nok"],
}


def ends_of_replies(words: Sequence[str], output: bytes) -> set[int]:
    """The places at which a reply of the undisturbed output ends."""
    ends = {0}
    at = 0
    for line in output.splitlines(keepends=True):
        at += len(line)
        if words[0] != "uhp" or line == b"ok\n":
            ends.add(at)
    return ends


class Allocations(support.Case):
    def setUp(self) -> None:
        self.library = self.refusing_malloc()

    def refusing(
        self, words: Sequence[str], lines: Sequence[str], refuse_at: int, count_to: str = ""
    ) -> tuple[int, bytes]:
        """The status and output of a run of which this request for memory is refused."""
        refusal = {"LD_PRELOAD": self.library, "REFUSE_IN": os.path.basename(support.PROGRAM)}
        refusal |= {"REFUSE_AT": str(refuse_at), "COUNT_TO": count_to}
        given = support.text_of(lines)
        done = support.finished(words, given, env={**os.environ, **refusal}, timeout=60)
        return done.returncode, done.stdout

    def refuse_each(self, name: str, words: Sequence[str], lines: Sequence[str] = ()) -> None:
        """Refuses each request of a run in turn."""
        with tempfile.NamedTemporaryFile("r") as count:
            status, whole = self.refusing(words, lines, 0, count.name)
            requests = int(count.read())
        ends = ends_of_replies(words, whole)
        refused = 0
        for number in range(1, requests + 1):
            found = self.refusing(words, lines, number)
            what = f"{name}, request {number} of {requests} refused"
            if found[0] == 7:
                refused += 1
                self.assertTrue(whole.startswith(found[1]), f"{what}: {found[1][-200:]!r}")
                self.assertIn(len(found[1]), ends, f"{what}: {found[1][-200:]!r}")
            else:
                self.assertEqual(found, (status, whole), what)
        self.assertGreater(refused, 0, f"{name}: no refused request was seen")

    def test_runs(self) -> None:
        for name, words, lines in RUNS:
            with self.subTest(name):
                self.refuse_each(name, words, lines)

    def test_match_and_cup(self) -> None:
        folder = self.folder()
        white, black = (
            support.write_engine(
                folder, side, "read -r line\n".join(f"printf '{part}\\n'\n" for part in parts)
            )
            for side, parts in PARTS.items()
        )
        match = ["match", "--white", white, "--black", black, "--depth", "1"]
        self.refuse_each("a match", match)
        cup = ["cup", "--engines", f"{white};{black}", "--depth", "1", "--plies", "2"]
        self.refuse_each("a cup", cup)
