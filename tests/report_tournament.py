"""Real tournaments for the tests of python/report: of the built program at three depths and of an
engine that plays carelessly, forfeits and leaves.
"""
import pathlib
import subprocess
import sys
from collections.abc import Sequence

import support
from support import HIVE, PROGRAM, text_of

ENGINES = ["./deep 1", "./deep 2", "./deep 3", "./careless 2"]
WORDS = ["--type", "Base+MLP", "--depth", "1", "--plies", "60", "--patience", "00:00:10"]


def opening(seed: int) -> str:
    """The game string of a made game of 4 to 8 plies."""
    _, text = support.run(["grow", "--seed", str(seed), "--plies", str(4 + seed % 5)])
    return next(line[len("game ") :] for line in text.split("\n") if line.startswith("game "))


def openings_of(count: int) -> list[str]:
    return [opening(seed) for seed in range(1, count + 1)]


def write_engines(folder: pathlib.Path) -> None:
    """The programs that ENGINES names."""
    support.write_engine(folder, "deep", f'sed -u "s/depth 1\\$/depth $1/" | {HIVE}')
    careless = pathlib.Path(__file__).resolve().with_name("report_engine.py")
    words = f'exec {sys.executable} -B {careless} {PROGRAM} "$1"'
    support.write_engine(folder, "careless", words)


def start(
    folder: pathlib.Path, engines: Sequence[str], openings: Sequence[str], *more: str
) -> subprocess.Popen:
    """A tournament that runs in a folder, and writes its record there, night.txt."""
    write_engines(folder)
    (folder / "openings.txt").write_text(text_of(openings), encoding="ascii")
    words = [PROGRAM, "tournament", "--engines", ";".join(engines), *WORDS, *more]
    with open(folder / "openings.txt") as given, open(folder / "night.txt", "w") as night:
        streams = {"stdin": given, "stdout": night, "stderr": subprocess.DEVNULL}
        return subprocess.Popen(words, cwd=folder, **streams)


def record_of(folder: pathlib.Path, openings: Sequence[str], *more: str) -> str:
    """The record of a tournament of all the engines."""
    run = start(folder, ENGINES, openings, "--at-once", "3", *more)
    status = run.wait(timeout=600)
    if status != 0:
        raise AssertionError(f"a tournament ended with status {status}")
    return (folder / "night.txt").read_text(encoding="ascii")
