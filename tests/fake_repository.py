"""A small repository of its own with the scripts `hive` and `build`, and a command `rt` that is
made up: it notes what it is called with, says what the real one says, and makes a program that
tells its words and its number as a process, and a library whose one function tells its version.
"""
import os
import pathlib
import pty
import re
import shutil
import subprocess

from support import TOP

CRATES = """# a list
hive_model: arrayvec
edge:
# the program
hive: hive_model edge # what is built
# the library
hive_library staticlib: hive_model
# tests alone
hive_tried: hive_model
"""
PROGRAM = """#!/usr/bin/env bash
echo "$$ $*"
cat
[ "${1-}" != wrong ] || { echo "hive: wrong command line" >&2; exit 2; }
"""
LIBRARY = r"""
#include <string.h>
#include "hive_library.h"
void *rattle_alloc(uint64_t, uint64_t);
void *(*const hive_library_takes)(uint64_t, uint64_t) = rattle_alloc;
uint32_t hive_library_version(uint8_t *room, size_t length, size_t *needed) {
    *needed = 4;
    if (length < 4) return HIVE_ROOM_SHORT;
    memcpy(room, "mock", 4);
    return HIVE_DONE;
}
"""
ASKS = r"""
#include <stdio.h>
#include <hive_library.h>
int main(void) {
    uint8_t room[64];
    size_t needed;
    if (hive_library_version(room, sizeof room, &needed)) return 1;
    printf("%.*s\n", (int)needed, room);
    return 0;
}
"""
TOOL = """#!/usr/bin/env bash
echo "$* over" $(find crates.txt HANDLES crates -type f 2>/dev/null | sort) >>"$CALLS"
[ -z "${RT_SLEEPS:-}" ] || sleep "$RT_SLEEPS"
[ -z "${RT_FAILS:-}" ] || { echo "not proved: edge"; exit 1; }
printf '== edge\\nlogic=proved functions=1\\n'
case "$*" in
ci)
    printf 'rt: hive_model is kept: an earlier run proved it\\nrt: edge proved\\nrt: hive proved\\n'
    mkdir -p crates/hive/out && cp "$MADE/program" crates/hive/out/hive
    ;;
lib)
    mkdir -p out
    cc -I"$MADE" -c -o out/made.o "$MADE/made.c" && ar rc out/libhive_library.a out/made.o
    ;;
esac
"""


def write(path: pathlib.Path, text: str) -> None:
    path.parent.mkdir(parents=True, exist_ok=True)
    path.write_text(text, encoding="utf-8")


def make_repository(top: pathlib.Path) -> None:
    """Writes the crates, and copies the scripts and what they install."""
    for name in re.findall(r"^(\w+)", CRATES, re.MULTILINE):
        crate = top / "crates" / name
        for part in ("specs", "proofs"):
            (crate / part).mkdir(parents=True)
        write(crate / "src/lib.rt", "fn f() {}\n")
        write(crate / "must-fail/f.edit", "file: src/lib.rt\n")
    write(top / "crates/edge/src/out/deep.rt", "fn f() {}\n")
    write(top / "crates.txt", CRATES)
    write(top / "HANDLES", "Handles allowed: none.\n")
    for name in ("hive", "build"):
        shutil.copy(TOP / name, top / name)
    for name in ("c", "docs", "python"):
        ignored = shutil.ignore_patterns("__pycache__")
        shutil.copytree(TOP / name, top / name, ignore=ignored)


def make_tools(folder: pathlib.Path) -> None:
    """Writes the command `rt`, and what it makes programs and libraries from."""
    for name, text in (("rt", TOOL), ("program", PROGRAM)):
        write(folder / name, text)
        (folder / name).chmod(0o755)
    write(folder / "made.c", LIBRARY)
    shutil.copy(TOP / "c/hive_library.h", folder)


class FakeRepository:
    """The repository and its toolchain in a folder, and the runs of its scripts."""

    def __init__(self, room: pathlib.Path) -> None:
        self.room, self.top, self.calls = room, room / "top", room / "calls"
        self.program, self.crates = self.top / "hive", self.top / "crates"
        make_repository(self.top)
        make_tools(room / "tool")
        # the machine's own rt is not to be found
        folders = os.environ["PATH"].split(":")
        path = [it for it in folders if not (pathlib.Path(it) / "rt").exists()]
        made = {"CALLS": str(self.calls), "MADE": str(room / "tool")}
        self.without = {**os.environ, **made, "PATH": ":".join(path)}
        self.with_tool = {**self.without, "PATH": ":".join([str(room / "tool"), *path])}

    def start(
        self, words: list[str], tool: bool = True, script: pathlib.Path | None = None, **more: str
    ) -> subprocess.Popen[str]:
        """Starts ./hive or another script, with further variables."""
        return subprocess.Popen(
            [str(script or self.program)] + words,
            stdin=subprocess.PIPE,
            stdout=subprocess.PIPE,
            stderr=subprocess.PIPE,
            text=True,
            cwd=self.room,
            env={**(self.with_tool if tool else self.without), **more},
        )

    def run(self, words: list[str], text: str = "", **how) -> tuple[int, str, str, int]:
        """Its status, what it writes, what it says, and its own number as a process."""
        run = self.start(words, **how)
        written, said = run.communicate(text, timeout=60)
        return run.returncode, written, said, run.pid

    def build(self, *words: str, **more: str) -> int:
        """The status of ./build."""
        return self.run(list(words), script=self.top / "build", **more)[0]

    def on_terminal(self, script: pathlib.Path, *words: str) -> tuple[int, str, int]:
        """Its status and all that it shows where all streams are a terminal, and its number."""
        child, terminal = pty.fork()
        if child == 0:
            os.execve(script, [str(script), *words], self.with_tool)
        os.write(terminal, b"\x04")
        shown = b""
        try:
            while part := os.read(terminal, 4096):
                shown += part
        except OSError:
            pass
        os.close(terminal)
        return os.waitstatus_to_exitcode(os.waitpid(child, 0)[1]), shown.decode(), child

    def called(self) -> list[str]:
        """What the command `rt` was called with since this was asked before."""
        lines = self.calls.read_text().splitlines() if self.calls.exists() else []
        self.calls.unlink(missing_ok=True)
        return lines
