"""Tries the scripts `hive` and `build` in a copy of the repository whose toolchain and program are
made up: what they say, what they call, that they leave a program alone where they have nothing to
add, and that what is installed needs no repository.
"""
import os
import pathlib
import re
import shutil
import subprocess
import sys
import tempfile
import time
import unittest
from collections.abc import Callable

import layers
from fake_repository import ASKS, FakeRepository
from support import TOP

WORDS_OF_OPTIONS = ("Words", "Matches", "Cups", "Tournaments", "Audits")
TOLD_BY_MAN = ["--gauntlet 0|1", "hive: out of memory", "bestmove depth N"]
TOLD_BY_MAN += [r"\wS1 to its upper left"]
# what keeps pip from the network
NOWHERE = {
    "http_proxy": "http://127.0.0.1:9",
    "https_proxy": "http://127.0.0.1:9",
    "PIP_DISABLE_PIP_VERSION_CHECK": "1",
    "PIP_ROOT_USER_ACTION": "ignore",
}
VERSION = [sys.executable, "-B", "-c"]
VERSION += ["import hive_library; print(hive_library.Hive().version())"]
PIP = [sys.executable, "-m", "pip"]


def text_of(path: str) -> str:
    return (TOP / path).read_text(encoding="utf-8")


def output(command: list, **how) -> str:
    done = subprocess.run(
        command, stdout=subprocess.PIPE, check=True, text=True, timeout=120, **how
    )
    return done.stdout


def has_pip() -> bool:
    quiet = {"stdout": subprocess.DEVNULL, "stderr": subprocess.DEVNULL}
    return subprocess.run([*PIP, "--version"], **quiet).returncode == 0


class LauncherCase(unittest.TestCase):
    """A test of the scripts in a repository that the tests of the class share."""

    fake: FakeRepository

    @classmethod
    def setUpClass(cls) -> None:
        room = tempfile.TemporaryDirectory()
        cls.addClassCleanup(room.cleanup)
        cls.fake = FakeRepository(pathlib.Path(room.name))


class Help(LauncherCase):
    def test_help(self) -> None:
        status, text, said, _ = self.fake.run(["help"])
        self.assertEqual((status, said), (0, ""))
        self.assertEqual(self.fake.run(["--help"])[1], text)
        self.assertLessEqual(len(text.splitlines()), 24, "help is a screenful")
        self.assertLessEqual(max(map(len, text.splitlines())), 80, "help is a screenful")
        self.check_commands(text)
        self.assertEqual(self.fake.called(), [])

    def check_commands(self, text: str) -> None:
        """That help tells of each command and each option that the program takes."""
        specs = text_of("crates/command_words/specs/Names.antt")
        names = re.findall(r'^name_text \w+ = codes "(\w+)"$', specs, re.MULTILINE)
        told = set(re.findall(r"^(\w+)  ", text, re.MULTILINE))
        self.assertEqual(sorted(told), sorted(names))
        options = set()
        for file in WORDS_OF_OPTIONS:
            specs = text_of(f"crates/command_words/specs/{file}.antt")
            options |= set(re.findall(r'codes "([\w-]+)" ∷', specs))
            options |= set(re.findall(r'\(codes "\w+"\) \(codes "(\w+)"\)', specs))
        told = set(re.findall(r"--([\w-]+)", text))
        self.assertEqual(sorted(options - told - set(names)), [], "options that are not told of")

    def test_version(self) -> None:
        sessions = text_of("crates/line_services/src/sessions.rt")
        greeting = re.search(r'b"id (.*?)\\n', sessions)[1]
        self.assertEqual(self.fake.run(["--version"])[:3], (0, f"{greeting}\n", ""))
        self.assertEqual(self.fake.called(), [])

    def test_crates(self) -> None:
        """What stands above the heading of the library, which ./build takes, is the program's."""
        _, below = layers.read_crates()
        above = text_of("crates.txt").partition("\n# the library")[0]
        built = sorted(re.findall(r"^(\w+) *:", above, re.MULTILINE))
        self.assertEqual(built, sorted({"hive", *layers.reach(below, "hive")}))


class FirstStart(LauncherCase):
    """Where nothing is built."""

    def setUp(self) -> None:
        shutil.rmtree(self.fake.crates / "hive/out", ignore_errors=True)
        self.fake.called()

    def test_no_toolchain(self) -> None:
        status, written, said, _ = self.fake.run(["uhp"], tool=False)
        self.assertEqual((status, written), (1, ""))
        self.assertIn("needs rt", said)

    def test_failing_build(self) -> None:
        status, written, said, _ = self.fake.run(["uhp"], RT_FAILS="1")
        self.assertEqual((status, written), (1, ""))
        self.assertIn("not proved: edge", said)

    def test_session(self) -> None:
        """As a viewer starts it: what it does is told at once, and the session waits for it."""
        run = self.fake.start(["uhp"], RT_SLEEPS="6")
        began = time.monotonic()
        run.stdin.write("info\n")
        run.stdin.flush()
        first = run.stderr.readline() + run.stderr.readline()
        # (a fifth of a second where the machine has nothing else to do)
        self.assertLess(time.monotonic() - began, 3)
        self.assertIn("not built yet", first)
        self.assertRegex(first, r"proving .* takes about \d+ minutes")
        written, said = run.communicate("exit\n", timeout=60)
        self.assertEqual((run.returncode, written), (0, f"{run.pid} uhp\ninfo\nexit\n"))
        self.assertIn("build: done", said)
        self.check_calls()

    def check_calls(self) -> None:
        """That the gate's command ran over the program's crates alone, with no wrong bodies."""
        paths = ("edge/src/lib", "edge/src/out/deep", "hive/src/lib", "hive_model/src/lib")
        files = " ".join(f"crates/{path}.rt" for path in paths)
        calls = [f"{words} over HANDLES crates.txt {files}" for words in ("ci hive_model", "ci")]
        self.assertEqual(sorted(self.fake.called()), calls)
        log = (self.fake.crates / "hive/out/build.log").read_text()
        self.assertEqual(log.splitlines()[0], "== edge")


class Changes(LauncherCase):
    """It builds where a file changed that the program is made from, and only there."""

    def setUp(self) -> None:
        self.source = self.fake.crates / "edge/src/lib.rt"
        self.assertEqual(self.fake.build(), 0)
        self.fake.called()

    def after(self, change: Callable[[], object], is_told: bool, calls: int) -> None:
        """That the next run tells of a change or not, calls the toolchain so often, and once."""
        change()
        status, _, said, _ = self.fake.run(["uhp"])
        found = (status, "may have changed" in said, len(self.fake.called()))
        self.assertEqual(found, (0, is_told, calls), f"after a change: {said}")
        self.assertEqual((self.fake.run(["uhp"])[2], self.fake.called()), ("", []), "once")

    def test_changes(self) -> None:
        source, crates = self.source, self.fake.crates
        self.after(lambda: None, False, 0)
        self.after(lambda: source.write_text("fn g() {}\n"), True, 2)
        self.after(lambda: (source.write_text("fn h() {}\n"), os.utime(source, (0, 0))), True, 2)
        self.after(lambda: (crates / "edge/specs/New.antt").write_text("\n"), True, 2)
        self.after((crates / "edge/specs/New.antt").unlink, True, 2)
        self.after(source.touch, True, 0)
        self.after(lambda: (crates / "hive_tried/src/lib.rt").write_text("fn t() {}\n"), True, 0)
        self.after(lambda: (crates / "edge/must-fail/f.edit").write_text("\n"), False, 0)

    def test_built_by_the_gate(self) -> None:
        """The gate builds the program too, and leaves nothing else."""
        out = self.fake.crates / "hive/out"
        self.after(lambda: ((out / "built-from").unlink(), (out / "hive").touch()), False, 0)
        self.assertEqual(self.fake.build(), 0, "a build where all is built already")

    def test_changed_without_toolchain(self) -> None:
        self.source.write_text("fn i() {}\n")
        self.assertEqual(self.fake.run(["uhp"], tool=False)[2], "")

    def test_terminal(self) -> None:
        self.source.write_text("fn i() {}\n")
        status, shown, _ = self.fake.on_terminal(self.fake.program, "uhp")
        self.assertEqual(status, 0)
        self.assertIn("3 of 3 crates are proved", shown)

    def test_not_proved(self) -> None:
        """A changed program that is not proved does not run, and runs once it is."""
        self.source.write_text("fn j() {}\n")
        self.assertEqual(self.fake.run(["uhp"], RT_FAILS="1")[:2], (1, ""))
        self.assertEqual(self.fake.run(["uhp"])[0], 0)


class Runs(LauncherCase):
    """A program that is built, and that runs as the script's own process."""

    link: pathlib.Path

    @classmethod
    def setUpClass(cls) -> None:
        super().setUpClass()
        assert cls.fake.build() == 0
        cls.fake.called()
        cls.link = cls.fake.room / "link"
        cls.link.symlink_to(cls.fake.program)

    def tearDown(self) -> None:
        self.assertEqual(self.fake.called(), [], "nothing is built")

    def test_words(self) -> None:
        status, written, said, number = self.fake.run(["count", "--plies", "2"], "a\n")
        self.assertEqual((status, written, said), (0, f"{number} count --plies 2\na\n", ""))
        status, written, said, number = self.fake.run(["wrong", "a b"])
        self.assertEqual((status, written), (2, f"{number} wrong a b\n"))
        self.assertEqual(said, "hive: wrong command line\n")

    def test_link(self) -> None:
        """Through a link, with no toolchain."""
        link = {"tool": False, "script": self.link}
        status, written, _, number = self.fake.run(["uhp"], "info\n", **link)
        self.assertEqual((status, written), (0, f"{number} uhp\ninfo\n"))

    def test_terminal(self) -> None:
        """Wrong words on a terminal are told where help is; other runs are the program itself."""
        status, shown, _ = self.fake.on_terminal(self.link, "wrong")
        self.assertEqual((status, shown.count("./hive help")), (2, 1))
        for words in ([], ["uhp"]):
            status, shown, number = self.fake.on_terminal(self.link, *words)
            self.assertEqual(status, 0, f"{words}")
            self.assertIn(f"{number} {' '.join(words)}", shown)
        self.assertNotIn("./hive help", self.fake.on_terminal(self.link, "check")[1])


class Installed(LauncherCase):
    """What `build library` and `build install` leave, once the repository is gone."""

    prefix: pathlib.Path
    moved: pathlib.Path

    @classmethod
    def setUpClass(cls) -> None:
        super().setUpClass()
        room = cls.fake.room
        assert cls.fake.build("library", "folder") == 0
        assert cls.fake.build("install", "prefix") == 0
        cls.fake.top.rename(room / "gone")
        cls.prefix, cls.moved = room / "prefix", (room / "folder").rename(room / "moved")

    def without_tool(self, **more: str) -> dict[str, str]:
        return {**self.fake.without, **more}

    def test_program(self) -> None:
        script = self.prefix / "bin/hive"
        status, written, said, number = self.fake.run(["uhp"], "info\n", tool=False, script=script)
        self.assertEqual((status, written, said), (0, f"{number} uhp\ninfo\n", ""))

    @unittest.skipUnless(shutil.which("man"), "the manual page, as there is no man")
    def test_manual_page(self) -> None:
        folder = str(self.prefix / "share/man")
        page = output(["man", "hive"], env=self.without_tool(MANPATH=folder, MANWIDTH="100"))
        for text in TOLD_BY_MAN:
            self.assertIn(text, page)

    @unittest.skipUnless(shutil.which("pkg-config"), "C programs, as there is no pkg-config")
    def test_c_programs(self) -> None:
        """A C program is built by pkg-config over what stands under a prefix, and runs."""
        source, program = self.fake.room / "asks.c", self.fake.room / "asks"
        source.write_text(ASKS)
        for prefix in (self.prefix, self.moved):
            env = self.without_tool(PKG_CONFIG_PATH=str(prefix / "lib/pkgconfig"))
            asked = ["pkg-config", "--cflags", "--libs", "hive_library"]
            words = output(asked, env=env).split()
            output(["cc", "-Wall", "-Werror", "-o", program, source, *words])
            self.assertEqual(output([program]), "mock\n", f"{prefix}")

    def test_python(self) -> None:
        found = output(VERSION, env=self.without_tool(PYTHONPATH=str(self.moved)))
        self.assertEqual(found, "mock\n")

    @unittest.skipUnless(has_pip(), "an installation by pip, as there is none")
    def test_pip(self) -> None:
        """Python imports what pip installs of the folder, where it reaches no network."""
        site, given = self.fake.room / "site", self.fake.room / "given"
        shutil.copytree(self.moved, given)
        install = [*PIP, "install", "-q", "--target", site, given]
        output(install, env=self.without_tool(**NOWHERE))
        shutil.rmtree(given)
        found = output(VERSION, env=self.without_tool(PYTHONPATH=str(site)))
        self.assertEqual(found, "mock\n")


class WrongBuilds(LauncherCase):
    def test_wrong_words(self) -> None:
        self.assertEqual(self.fake.build("x"), 2)
        self.assertEqual(self.fake.build("library"), 2)

    def test_failing_library(self) -> None:
        self.assertEqual(self.fake.build("library", "folder", RT_FAILS="1"), 1)
