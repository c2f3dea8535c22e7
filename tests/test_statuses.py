"""Ends runs of the built program in each way but one: by the words, the input, the output, an
engine, what is read, and want of memory. Each ends with the status that docs/STATUS.md names, with
one line on standard error where the run could not be done, and with nothing there where it could.

An input that is too long has more bytes than a test can give; the crates' own tests try it.
"""
import os
import subprocess
from collections.abc import Sequence

import support

GREETING = b"id HiveReferee 1.0\nMosquito;Ladybug;Pillbug\nok\n"
REFUSED = b"hive-solution 1\nBase;NotStarted;White[1]\nplies 2\nanswer no\n0\n0\n0\n"
# what is said on standard error where a run ends so
COMPLAINTS = {
    0: b"",
    1: b"",
    2: b"hive: wrong command line\n",
    3: b"hive: input failed\n",
    4: b"hive: output failed\n",
    5: b"hive: an engine could not be started\n",
    6: b"",
    7: b"hive: out of memory\n",
}
COUNT, MADE = ["count", "--plies", "1"], ["grow", "--seed", "0", "--plies", "1"]
NOWHERE = "/no/such/engine"
CLOSED = ("sh", "-c", 'exec "$0" "$@" <&-')
UNWRITABLE = ("sh", "-c", 'exec "$0" "$@" >&-')

Ended = tuple[int, bytes | None, bytes]


def run(words: Sequence[str], given: bytes = b"", **how) -> Ended:
    """The status of a run, what it writes, and what it says on standard error."""
    done = support.finished(words, given, stderr=subprocess.PIPE, timeout=60, **how)
    return done.returncode, done.stdout, done.stderr


class Statuses(support.Case):
    def ends(
        self, wanted: int, written: bytes | None, words: Sequence[str], given: bytes = b"", **how
    ) -> None:
        """Expects a run that ends with a status, and with its line."""
        found = run(words, given, **how)
        self.assertEqual(found, (wanted, written, COMPLAINTS[wanted]), f"{words} {how}")
        self.seen.add(wanted)

    def test_statuses(self) -> None:
        self.seen = set()
        self.end_well()
        self.refuse()
        self.lack_input()
        self.lack_output()
        self.read_wrong_texts()
        for words in (["uhp"], MADE):
            self.seen.discard(7)
            self.starve(words)
            self.assertIn(7, self.seen, f"{words[0]} out of memory")
        self.assertEqual(self.seen, set(COMPLAINTS))

    def end_well(self) -> None:
        """The end of the input, and a line that ends a session."""
        self.ends(0, GREETING, ["uhp"])
        self.ends(0, GREETING, [], b"exit\nhelp\n")

    def refuse(self) -> None:
        """What does not hold, wrong words, and engines that are not there."""
        self.ends(1, b"refused malformed part 1\n", ["replay"], b"x\n")
        self.ends(1, b"refused short 3\n", ["verify"], REFUSED)
        for words in (["x"], ["uhp", "uhp"], ["count"], ["count", "--plies", "9"], ["grow", "1"]):
            self.ends(2, b"", words, b"newgame\n")
        self.ends(2, b"", ["--help"], b"newgame\n")
        self.ends(5, b"", ["match", "--white", NOWHERE, "--black", NOWHERE])
        self.ends(5, b"", ["cup", "--engines", f"{NOWHERE};/nor/this"])

    def lack_input(self) -> None:
        """No input, and one that cannot be read."""
        for words in (["uhp"], ["replay"], COUNT, ["check"], ["book"]):
            written = GREETING if words == ["uhp"] else b""
            self.ends(3, written, words, wrapped=CLOSED, stdin=subprocess.DEVNULL)
            folder = os.open("/", os.O_RDONLY)
            self.ends(3, written, words, stdin=folder)
            os.close(folder)

    def lack_output(self) -> None:
        """A full device, and no output."""
        inputs = [(["uhp"], b""), (["replay"], b"Base\n"), (COUNT, b"Base\n"), (MADE, b"")]
        for words, given in inputs:
            with open("/dev/full", "wb") as full:
                self.ends(4, None, words, given, stdout=full)
            self.ends(4, b"", words, given, wrapped=UNWRITABLE)

    def read_wrong_texts(self) -> None:
        """Texts that are not of the form that is asked for."""
        for words in (COUNT, ["certify", "--depth", "1"], ["solve", "--plies", "1"]):
            self.ends(6, b"bad no line\n", words)
            self.ends(6, b"bad more lines\n", words, b"Base\n\n")
        for word in ("check", "migrate", "verify"):
            self.ends(6, b"bad line 1\n", [word])
        self.ends(6, b"bad no line\n", ["book"])

    def starve(self, words: Sequence[str]) -> None:
        """Expects a run to end as out of memory where the first request that counts is refused."""
        library, name = self.refusing_malloc(), os.path.basename(support.PROGRAM)
        undisturbed = run(words)
        for number in range(1, 1000):
            refusal = {"LD_PRELOAD": library, "REFUSE_AT": str(number), "REFUSE_IN": name}
            status, written, said = run(words, env={**os.environ, **refusal})
            if (status, written, said) == undisturbed:
                continue
            what = f"request {number} refused"
            self.assertEqual((status, said), (7, COMPLAINTS[7]), what)
            self.assertTrue(undisturbed[1].startswith(written), f"{what}: {written!r}")
            self.seen.add(7)
            return
