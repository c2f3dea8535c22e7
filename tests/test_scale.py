"""The recipes of docs/AT_SCALE.md, word for word, on a cluster of Slurm that stands on this
machine: what they write is what one run here writes. Killed steps, nodes that are drained or
lost, and a referee that is killed leave no process, and what goes on gives the right table.
"""
import os
import pathlib
import re
import signal
import subprocess
import tempfile
import time
import unittest

import cluster
import support
from cluster import Cluster, wait_until
from outcomes import standings
from ssh_server import SSHD, SshServer
from support import PROGRAM, TOP, text_of

PAGE = TOP / "docs/AT_SCALE.md"
BLOCK = re.compile(r"^```sh\n(.*?)^```$", re.MULTILINE | re.DOTALL)
# the recipes of the page in their order
NAMES = ["nodes", "nodes_again", "parts", "array", "parallel", "ssh", "table"]
NAMES += ["audit_array", "audit_parallel", "audit_sum"]
NAMES += ["count_array", "count_parallel", "count_sum"]
# an engine whose environment tells nobody of it, as on a machine of its own, and that looks deeper
# than the program; a pace slows it down
ENGINE = """#!/bin/bash
unset HIVE_ENGINE
while read -r line; do
    if [ "$line" = "bestmove depth 1" ]; then
        line="bestmove depth 2"
        [ ! -e pace ] || sleep "$(cat pace)"
    fi
    echo "$line"
done | ./hive uhp
"""
# it leaves out the last move of many lists
WRONG_ENGINE = "#!/bin/sh\n./hive uhp | sed -u 's/;bB1 [^;]*$//'\n"
OPTIONS = ["--type", "Base+MLP", "--depth", "1", "--plies", "60"]


def recipes() -> dict[str, str]:
    """The recipes of the page by name."""
    return dict(zip(NAMES, BLOCK.findall(PAGE.read_text(encoding="utf-8")), strict=True))


def is_alive(process: subprocess.Popen) -> bool:
    return process.poll() is None


def games_of(text: str) -> list[str]:
    """The lines of whole games."""
    return [it for it in text.splitlines() if re.match(r"(game|verdict) ", it)]


class Scale(support.Case):
    @classmethod
    def setUpClass(cls) -> None:
        super().setUpClass()
        what = "the recipes of docs/AT_SCALE.md"
        if cluster.MISSING:
            raise unittest.SkipTest(f"{what}, as there is no {' and no '.join(cluster.MISSING)}")
        if os.getuid() != 0:
            raise unittest.SkipTest(f"{what}, as only root can start a cluster")
        folder = tempfile.TemporaryDirectory()
        cls.addClassCleanup(folder.cleanup)
        cls.cluster = Cluster(pathlib.Path(folder.name))
        cls.addClassCleanup(cls.cluster.end)

    def setUp(self) -> None:
        """A folder in which the recipes run, and what one tournament writes here."""
        self.place = self.folder()
        self.environment = dict(self.cluster.environment)
        (self.place / "hive").symlink_to(PROGRAM)
        self.write_engine(ENGINE)
        openings = [self.grown(seed, 6 + seed % 7)["game"] for seed in range(1, 5)]
        (self.place / "openings.txt").write_text(text_of(openings), encoding="ascii")
        words = ["tournament", "--engines", "./engine;./hive uhp", *OPTIONS]
        self.whole = self.answer_here(words, text_of(openings))

    def tearDown(self) -> None:
        self.await_nobody()
        for node in cluster.NODES:
            self.cluster.set_node(node, "resume")
        self.cluster.await_idle()

    def answer_here(self, words: list[str], given: str = "", status: int = 0) -> str:
        done = subprocess.run(
            ["./hive", *words], cwd=self.place, input=given, stdout=subprocess.PIPE, text=True
        )
        self.assertEqual(done.returncode, status, " ".join(words))
        return done.stdout

    def write_engine(self, body: str) -> None:
        (self.place / "engine").write_text(body, encoding="ascii")
        (self.place / "engine").chmod(0o755)

    def read(self, name: str) -> str:
        path = self.place / name
        return path.read_text(encoding="ascii") if path.exists() else ""

    def await_nobody(self) -> None:
        """Waits until the folder and the cluster have no process but the daemons."""
        left = lambda: self.cluster.left(self.place)
        wait_until(lambda: not left(), f"no process is left: {left()}")

    def start(self, name: str) -> subprocess.Popen:
        """A run of a recipe that has begun."""
        streams = {"stdin": subprocess.DEVNULL, "stdout": subprocess.PIPE}
        streams["stderr"] = subprocess.DEVNULL
        words = ["bash", "-c", recipes()[name]]
        started = subprocess.Popen(
            words, cwd=self.place, env=self.environment, text=True, **streams
        )
        self.addCleanup(started.stdout.close)
        self.addCleanup(started.kill)
        return started

    def run_recipe(self, name: str, status: int = 0) -> str:
        """What a recipe writes, which ends with this status."""
        started = self.start(name)
        said, _ = started.communicate(timeout=300)
        self.assertEqual(started.returncode, status, f"{name}: status")
        return said

    def start_paced(self, name: str, record: str, lines: int = 4) -> subprocess.Popen:
        """A run of a recipe whose games take a while, once so many of their lines are written."""
        (self.place / "pace").write_text("0.05", encoding="ascii")
        started = self.start(name)
        wait_until(lambda: len(games_of(self.read(record))) >= lines, "games are written")
        self.assertTrue(is_alive(started), f"{name} goes on")
        return started

    def end(self, started: subprocess.Popen) -> int:
        (self.place / "pace").unlink(missing_ok=True)
        started.communicate(timeout=300)
        return started.returncode

    def check_record(self, text: str) -> None:
        """That a record is that of one run here, but for how the engines are written."""
        self.assertEqual(games_of(text), games_of(self.whole))
        node = "srun --quiet --exact -N1 -n1 -c1 "
        self.assertEqual(text.replace(node, ""), self.whole)

    def check_goes_on(self) -> None:
        """That the rest is played, and the two are the whole."""
        self.run_recipe("nodes_again")
        kept = games_of(self.read("kept.txt"))
        whole_games = kept[: len(kept) // 2 * 2]
        self.assertTrue(0 < len(whole_games) < len(games_of(self.whole)), "some games are kept")
        head, _, rest = self.read("rest.txt").partition("\n")
        self.check_record(text_of([head, *whole_games]) + rest)

    def check_table(self) -> None:
        """That the sums of the parts are the standings of the whole."""
        rows = [line.split("\t") for line in self.run_recipe("table").splitlines()]
        columns = ["points", "games", "wins", "draws", "losses", "forfeits"]
        told = [
            " ".join([row[6], *(f"{name} {it}" for name, it in zip(columns, row))]) for row in rows
        ]
        self.assertEqual(told, self.whole.splitlines()[-2:])

    def hive_of(self, parent: str) -> int:
        """The number of the process of the program below one of this name."""
        for process in pathlib.Path("/proc").glob("[0-9]*"):
            try:
                if os.readlink(process / "cwd") != str(self.place):
                    continue
                words = (process / "cmdline").read_text().split("\0")
                above = re.search(r"PPid:\t(\d+)", (process / "status").read_text()).group(1)
                name = pathlib.Path(f"/proc/{above}/comm").read_text().strip()
                if words[:2] == ["./hive", "tournament"] and name == parent:
                    return int(process.name)
            except OSError:
                continue
        self.fail(f"{parent} has a referee")

    def test_engines_on_nodes(self) -> None:
        self.run_recipe("nodes")
        self.check_record(self.read("night.txt"))

    def test_killed_referee(self) -> None:
        started = self.start_paced("nodes", "night.txt")
        os.kill(self.hive_of("salloc"), signal.SIGKILL)
        self.end(started)
        self.assertNotIn(" points ", self.read("night.txt"), "it has no standings")
        self.await_nobody()
        self.check_goes_on()

    def test_killed_step(self) -> None:
        """Its engine forfeits that game and no other, until the rest is played again."""
        started = self.start_paced("nodes", "night.txt")
        # the steps of the wave before are gone, and those of this one wait for a move
        (self.place / "pace").write_text("2", encoding="ascii")
        time.sleep(1)
        wait_until(lambda: len(self.cluster.steps()) == 4, "a wave plays")
        self.cluster.ask("scancel", self.cluster.steps()[0])
        self.assertEqual(self.end(started), 0)
        self.await_nobody()
        lines = self.read("night.txt").splitlines()
        verdicts = [line.split(" ")[2:] for line in lines if line.startswith("verdict ")]
        lost = [it for it in verdicts if it[2] == "forfeit"]
        self.assertEqual(len(lost), 1, f"one game is lost: {lost}")
        # its output ended when it was asked, or it could not be sent the move of the other
        self.assertIn(lost[0][4:], (["ended"], ["broke"]))
        node = "srun --quiet --exact -N1 -n1 -c1"
        found = [((int(it[0]), int(it[1])), it[2:]) for it in verdicts]
        self.assertEqual(lines[-2:], standings([f"{node} ./engine", f"{node} ./hive uhp"], found))
        self.check_goes_on()

    def test_drained_node(self) -> None:
        started = self.start_paced("nodes", "night.txt")
        self.cluster.set_node("n2", "drain")
        self.assertEqual(self.end(started), 0)
        self.check_record(self.read("night.txt"))

    def test_lost_node(self) -> None:
        started = self.start_paced("nodes", "night.txt")
        for node in cluster.NODES:
            self.cluster.set_node(node, "down")
        self.end(started)
        self.assertNotIn(" points ", self.read("night.txt"), "it has no standings")
        self.await_nobody()
        for node in cluster.NODES:
            self.cluster.set_node(node, "resume")
        self.check_goes_on()

    def test_array(self) -> None:
        """Jobs that are cancelled go on where the same recipe runs again."""
        self.run_recipe("parts")
        started = self.start_paced("array", "record.1")
        self.cluster.ask("scancel", "--me")
        self.assertNotEqual(self.end(started), 0)
        self.await_nobody()
        self.run_recipe("array")
        self.check_table()

    def test_requeued_parts(self) -> None:
        """Jobs that are queued again, as their node is down or by hand, go on with their records,
        and the array waits for them."""
        self.run_recipe("parts")
        started = self.start_paced("array", "record.1", lines=2)
        self.cluster.set_node("n1", "down")
        running = ["squeue", "--noheader", "--states=R", "--format=%A"]
        self.cluster.ask("scontrol", "requeue", self.cluster.ask(*running).split()[0])
        self.assertEqual(self.end(started), 0)
        self.check_table()

    def check_killed_part(self, name: str, lines: int) -> None:
        """A part that is killed is played to its end by the same recipe."""
        self.run_recipe("parts")
        started = self.start_paced(name, "record.1", lines)
        os.kill(self.hive_of("part.sh"), signal.SIGKILL)
        self.assertEqual(self.end(started), 1)
        self.await_nobody()
        self.run_recipe(name)
        self.check_table()

    def test_parallel(self) -> None:
        self.check_killed_part("parallel", lines=4)

    def test_ssh(self) -> None:
        if SSHD is None:
            self.skipTest("the recipe of docs/AT_SCALE.md for ssh, as there is no sshd")
        server = SshServer(self.folder())
        self.addCleanup(server.end)
        self.environment |= {"PARALLEL_SSH": server.command}
        (self.place / "nodes.txt").write_text(text_of(cluster.NODES), encoding="ascii")
        self.check_killed_part("ssh", lines=2)

    def check_audit(self, name: str, engine: str, status: int, failing: int) -> None:
        """That the sums of the parts of an audit are one audit."""
        self.write_engine(engine)
        for old in self.place.glob("audit.*"):
            old.unlink()
        words = ["audit", "--engine", "./engine", "--games", "40", "--seed", "1"]
        whole = self.answer_here(words, status=status)
        self.run_recipe(name, failing)
        self.assertEqual(self.run_recipe("audit_sum"), whole)

    def test_audits(self) -> None:
        for name, failing in [("audit_array", 1), ("audit_parallel", 0)]:
            with self.subTest(name):
                self.check_audit(name, WRONG_ENGINE, 1, failing)
                self.check_audit(name, "#!/bin/sh\nexec ./hive uhp\n", 0, 0)

    def check_count(self, name: str) -> None:
        """That the sums of the parts of a count are one count."""
        for old in self.place.glob("count.*"):
            old.unlink()
        game = (self.place / "openings.txt").read_text(encoding="ascii").splitlines()[0]
        if name == "count_parallel":
            self.run_recipe("count_array")
            for old in self.place.glob("count.[0-9]*"):
                old.unlink()
        self.run_recipe(name)
        whole = self.answer_here(["count", "--plies", "3"], text_of([game]))
        self.assertEqual(self.run_recipe("count_sum"), whole)

    def test_counts(self) -> None:
        for name in ("count_array", "count_parallel"):
            with self.subTest(name):
                self.check_count(name)
