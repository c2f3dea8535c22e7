"""Builds the library as `./build library` leaves it, in a scratch copy of the repository, and C
programs over it.
"""
import os
import pathlib
import shutil
import subprocess
import sys

import layers
from support import TOP, text_of

TOOLS = ("cc", "ar", "pkg-config")
# the allocator of the library, by which requests for memory are refused
HEAP = ["-Dmalloc=tried_malloc", "-Drealloc=tried_realloc", "-Dfree=tried_free"]
HEAP += [str(TOP / "c/heap.c")]
WARNINGS = ["-std=c11", "-Wall", "-Wextra", "-Werror"]
SANITIZERS = ["-g", "-fsanitize=address,undefined", "-fno-sanitize-recover=all"]
# Marks what `rt ci` proved just now in the scratch copy as the libraries of their files, as
# `rt lib` does, which else proves them once more. No other folder is marked, and ./build library,
# as it is run elsewhere, takes no such mark.
MARKS = """
import functools, os, shutil, sys
sys.path.insert(0, os.path.dirname(os.path.realpath(shutil.which("rt"))))
import rtlib
rtlib.Crate.stamp = functools.cache(rtlib.Crate.stamp)
for crate in rtlib.crates_below(os.getcwd())[-1].below():
    with open(f"{crate.folder}/out/rlib/stamp", "w", encoding="utf-8") as mark:
        mark.write(crate.stamp())
"""


def missing_tool() -> str | None:
    return next((tool for tool in TOOLS if not shutil.which(tool)), None)


def copy_sources(scratch: pathlib.Path) -> None:
    """Copies what the library is built from: its crate and those below it, without what was built
    of them and without wrong bodies."""
    (scratch / ".git").mkdir(parents=True)
    for name in ("HANDLES", "build"):
        shutil.copy2(TOP / name, scratch)
    for name in ("c", "python"):
        ignored = shutil.ignore_patterns("__pycache__")
        shutil.copytree(TOP / name, scratch / name, ignore=ignored)
    _, below = layers.read_crates()
    names = {"hive_library", *layers.reach(below, "hive_library")}
    lines = (TOP / "crates.txt").read_text(encoding="utf-8").split("\n")
    kept = [line for line in lines if line.partition(":")[0].partition(" ")[0] in names]
    (scratch / "crates.txt").write_text(text_of(kept), encoding="utf-8")
    for name in names:
        for part in (TOP / "crates" / name).iterdir():
            if part.name not in ("out", "must-fail"):
                shutil.copytree(part, scratch / "crates" / name / part.name)


class BuiltLibrary:
    """The library under a folder, and C programs over it."""

    def __init__(self, room: pathlib.Path) -> None:
        self.room, self.made = room, room / "made"
        self.scratch = room / "scratch"

    def build(self) -> None:
        """Proves the crates in a scratch copy, in which it builds: where the gate has passed them,
        it takes what is kept of that."""
        copy_sources(self.scratch)
        self.run(["rt", "ci"], self.scratch)
        self.run([sys.executable, "-B", "-c", MARKS], self.scratch / "crates/hive_library")
        self.run([str(self.scratch / "build"), "library", str(self.made)], self.room)

    def run(self, words: list[str], folder: pathlib.Path) -> None:
        """Runs a command, and shows the end of what it says if it fails."""
        streams = {"stdout": subprocess.PIPE, "stderr": subprocess.STDOUT}
        done = subprocess.run(words, cwd=folder, **streams)
        if done.returncode:
            said = done.stdout.decode(errors="replace").rstrip("\n").split("\n")[-20:]
            raise AssertionError(f"{words[:2]} failed:\n" + "\n".join(said))

    def environment(self) -> dict[str, str]:
        """What lets pkg-config and Python find the library."""
        config = {"PKG_CONFIG_PATH": str(self.made / "lib/pkgconfig")}
        return {**os.environ, **config, "PYTHONPATH": str(self.made)}

    def flags(self, kind: str) -> list[str]:
        words = ["pkg-config", kind, "hive_library"]
        return subprocess.check_output(words, env=self.environment(), text=True).split()

    def driver(self, name: str, options: list[str]) -> str:
        """The program of library.c, made with these options of the compiler."""
        heap, program = str(self.room / f"{name}.o"), str(self.room / name)
        subprocess.run(["cc", *options, *HEAP, "-c", "-o", heap], check=True)
        words = [*options, *WARNINGS, *self.flags("--cflags"), str(TOP / "tests/library.c"), heap]
        words += [*self.flags("--libs"), "-lpthread", "-o", program]
        subprocess.run(["cc", *words], check=True)
        return program

    def sanitized_driver(self) -> str | None:
        """The same under sanitizers, if the compiler has them."""
        try:
            return self.driver("sanitized", SANITIZERS)
        except subprocess.CalledProcessError:
            return None
