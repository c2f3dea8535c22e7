"""Matches and cups of the built program against engines that stall: each ends soon after its limit,
with its verdict, and no process is left.
"""
import concurrent.futures
import os
import pathlib
import signal
import subprocess
import time
import uuid
from collections.abc import Callable, Sequence
from typing import NamedTuple

import support
from support import GREETS, HIVE, PROGRAM, SILENT, write_engine

# seconds for which an answer is waited for, and what a match may take beyond them
LIMIT = 2
GRACE = 8
# the verdict on a line without an end, which waits for no limit
LONG = "forfeit black longline"
BROKE, ENDED = "forfeit black broke", "forfeit black ended"
ONE_LINE = GREETS + "read -r line\n"
DEAF = f"{GREETS}trap '' TERM\nread -r line\nprintf 'err no\\nok\\n'\n{SILENT}"
APART = "setsid sh -c 'sleep 1000 & sleep 1001' >/dev/null 2>&1 </dev/null &\nexit 0"
# what each engine does instead of playing black, and the verdict of its match
STALLS = {
    "is silent at once": (SILENT, BROKE),
    "is silent after some moves": (f"sed -u 9q | {HIVE}\n{SILENT}", BROKE),
    "ignores the end of its input": (DEAF, "forfeit black err err no"),
    "closes its output and runs on": (f"{GREETS}exec >&-\n{SILENT}", ENDED),
    "leaves a program that holds its output": (f"{GREETS}sleep 1000 &\nexit 0", BROKE),
    "sends a line without an end": (ONE_LINE + "exec cat /dev/zero", LONG),
    "sends lines without an end": (ONE_LINE + "exec yes", "forfeit black flood 1001"),
    "complains without an end": (f"{GREETS}exec 3>&1\nexec yes >&2", BROKE),
    "stops itself": (f"{GREETS}kill -STOP $$\n{SILENT}", BROKE),
    "leaves programs in a session of their own": (ONE_LINE + APART, ENDED),
    "sends a byte in a second": ("while :; do printf x\nsleep 1; done", BROKE),
}
PATIENT = ["--depth", "1", "--patience", f"00:00:0{LIMIT}", "--quiet", "1"]
# how many cups run at once
CUPS_AT_ONCE = 4
ASKED = ONE_LINE + f"echo ok\nread -r line\n{SILENT}"
TELLS = "printf 'err %s %s %s\\nok\\n' \"$KEPT\" \"$WITH\" \"${#HIVE_ENGINE}\""


class Ended(NamedTuple):
    """How a run ended, and the processes that it left."""

    status: int | None
    lines: list[str]
    seconds: float
    said: bytes
    left: list[int]


def processes(holds: Callable[[pathlib.Path], bool]) -> list[int]:
    """The processes of which this is so."""
    found = []
    for entry in pathlib.Path("/proc").iterdir():
        if entry.name.isdigit():
            try:
                if holds(entry):
                    found.append(int(entry.name))
            except OSError:
                continue
    return found


def session(leader: int) -> list[int]:
    """The processes of the session of this leader that still run."""

    def is_of_it(entry: pathlib.Path) -> bool:
        state, _, _, of = (entry / "stat").read_text().rsplit(") ", 1)[1].split(" ")[:4]
        return int(of) == leader and state != "Z"

    return processes(is_of_it)


def marked(mark: bytes) -> list[int]:
    """The processes that still run and have this variable in their environment."""
    return processes(lambda entry: mark in (entry / "environ").read_bytes().split(b"\0"))


def kill_all(left: Sequence[int]) -> None:
    for process in left:
        os.kill(process, signal.SIGKILL)


def run(words: Sequence[str]) -> Ended:
    """A run of the program, in which all processes are marked."""
    began = time.monotonic()
    mark = uuid.uuid4().hex
    child = subprocess.Popen(
        [PROGRAM, *words],
        stdout=subprocess.PIPE,
        stderr=subprocess.PIPE,
        start_new_session=True,
        env={**os.environ, "TRIED": mark},
    )
    try:
        out, err = child.communicate(timeout=30)
    except subprocess.TimeoutExpired:
        os.killpg(child.pid, signal.SIGKILL)
        child.communicate()
        return Ended(None, [], 30.0, b"", [])
    took = time.monotonic() - began
    for _ in range(30):
        left = marked(f"TRIED={mark}".encode())
        if not left:
            break
        time.sleep(0.1)
    kill_all(left)
    return Ended(child.returncode, out.decode("ascii").rstrip("\n").split("\n"), took, err, left)


class Stalls(support.Case):
    def setUp(self) -> None:
        self.room = self.folder()

    def engines(self) -> dict[str, str]:
        """All engines that stall, written before one is started: a program cannot be started while
        another thread's child has its file open."""
        return {
            name: write_engine(self.room, f"stall{number}", body)
            for number, (name, (body, _)) in enumerate(STALLS.items())
        }

    def check_end(self, what: str, ended: Ended, seconds: float) -> None:
        """That a run ended in time, says nothing on standard error and leaves no process."""
        self.assertLessEqual(ended.seconds, seconds, what)
        self.assertEqual(ended.said, b"", f"standard error of {what}")
        self.assertEqual(ended.left, [], f"processes left of {what}")

    def test_matches(self) -> None:
        def match(engine: str) -> Ended:
            return run(["match", "--white", HIVE, "--black", engine, *PATIENT])

        engines = self.engines()
        with concurrent.futures.ThreadPoolExecutor(len(engines)) as pool:
            answers = list(pool.map(match, engines.values()))
        for (name, (_, verdict)), ended in zip(STALLS.items(), answers, strict=True):
            with self.subTest(name):
                self.assertEqual(ended.status, 0)
                self.assertEqual(ended.lines[-1], verdict)
                self.check_end(f"a match with one that {name}", ended, LIMIT + GRACE)
                if verdict == LONG:
                    self.assertLess(ended.seconds, LIMIT, "it ends before the limit")

    def test_time(self) -> None:
        """With a time the limit is the time, its margin and the patience."""
        silent = write_engine(self.room, "asked", ASKED)
        words = ["--time", "00:00:01", "--margin", "500", "--patience", "00:00:01"]
        ended = run(["match", "--white", silent, "--black", HIVE, *words])
        self.assertEqual(ended.status, 0)
        self.assertEqual(ended.lines[-1], "forfeit white broke")
        self.assertGreaterEqual(ended.seconds, 2.5)
        self.assertLessEqual(ended.seconds, 2.5 + GRACE)
        self.assertEqual(ended.left, [])

    def test_missing(self) -> None:
        """A silent engine beside one that is not there."""
        silent = write_engine(self.room, "silent", SILENT)
        ended = run(["match", "--white", silent, "--black", str(self.room / "none")])
        self.assertEqual((ended.status, ended.left), (5, []))
        self.assertLessEqual(ended.seconds, GRACE)

    def test_cups(self) -> None:
        """Cups of three engines, of which one stalls: it loses its games, and the others play
        theirs."""
        other = write_engine(self.room, "other", f"exec {HIVE}")

        def cup(engine: str) -> Ended:
            engines = ";".join([HIVE, engine, other])
            return run(["cup", "--engines", engines, "--plies", "8", *PATIENT])

        engines = self.engines()
        with concurrent.futures.ThreadPoolExecutor(CUPS_AT_ONCE) as pool:
            answers = list(pool.map(cup, engines.values()))
        for (name, engine), ended in zip(engines.items(), answers, strict=True):
            with self.subTest(name):
                what = f"a cup with one that {name}"
                players = [HIVE, engine, other]
                verdicts = self.cup_verdicts(what, players, ended.status, ended.lines)
                self.check_end(what, ended, 6 * LIMIT + GRACE)
                self.check_verdicts(verdicts, STALLS[name][1])

    def check_verdicts(self, verdicts: dict[tuple[int, int], str], lost: str) -> None:
        """That the second engine loses each of its games so, and no other game ends early."""
        for (white, black), verdict in verdicts.items():
            wanted = lost.replace("black", "white") if white == 2 else lost
            if 2 not in (white, black):
                wanted = "limit 8"
            self.assertEqual(verdict, wanted, f"{white} against {black}")

    def test_environment(self) -> None:
        """An engine has all of the environment of the program, and a mark."""
        tells = write_engine(self.room, "tells", TELLS)
        environment = {**os.environ, "KEPT": "it is", "WITH": "a=b"}
        words = ["match", "--white", tells, "--black", HIVE, "--depth", "1"]
        _, text = support.run(words, env=environment)
        self.assertEqual(text.split("\n")[1], "forfeit white err err it is a=b 32")

    def test_signal(self) -> None:
        """A signal to a match in a process group of its own ends its engines, too."""
        spins = write_engine(self.room, "spins", GREETS + "while :; do :; done")
        words = ["timeout", "--signal=KILL", "60", PROGRAM, "match"]
        words += ["--white", spins, "--black", spins]
        group = subprocess.Popen(words, stdout=subprocess.DEVNULL, start_new_session=True)
        for _ in range(100):
            if len(session(group.pid)) == 4:
                break
            time.sleep(0.05)
        self.assertEqual(len(session(group.pid)), 4, "what runs before the signal")
        group.terminate()
        group.wait(timeout=10)
        time.sleep(1)
        left = session(group.pid)
        kill_all(left)
        self.assertEqual(left, [])
