"""A cluster of Slurm on this machine: two nodes of four processors by configuration, on 127.0.0.1,
with all files in one folder.
"""
import os
import pathlib
import shutil
import signal
import socket
import subprocess
import time

NEEDED = ("munged", "slurmctld", "slurmd", "salloc", "sbatch", "srun", "parallel")
MISSING = [name for name in NEEDED if shutil.which(name) is None]
NODES = ("n1", "n2")
CONFIGURATION = """\
ClusterName=hive
SlurmctldHost={host}(127.0.0.1)
SlurmctldPort={controller}
SlurmUser={user}
SlurmdUser={user}
AuthType=auth/munge
AuthInfo=socket={folder}/munge.socket,cred_expire=5
CredType=cred/munge
CommunicationParameters=NoInAddrAny,NoCtldInAddrAny
ProctrackType=proctrack/linuxproc
TaskPlugin=task/none
SelectType=select/cons_tres
SelectTypeParameters=CR_CPU
SchedulerParameters=sched_min_interval=0,sched_interval=1,bf_interval=1
SwitchType=switch/none
MpiDefault=none
ReturnToService=2
KillWait=2
SlurmdParameters=config_overrides
StateSaveLocation={folder}/state
SlurmctldPidFile={folder}/slurmctld.pid
SlurmctldLogFile={folder}/slurmctld.log
SlurmdPidFile={folder}/%n.pid
SlurmdLogFile={folder}/%n.log
SlurmdSpoolDir={folder}/%n.spool
NodeName=n1 NodeHostname={host} NodeAddr=127.0.0.1 Port={n1} CPUs=4
NodeName=n2 NodeHostname={host} NodeAddr=127.0.0.1 Port={n2} CPUs=4
PartitionName=all Nodes=ALL Default=YES MaxTime=INFINITE State=UP
"""


def free_ports(count: int) -> list[int]:
    """Ports of 127.0.0.1 that nobody uses."""
    sockets = [socket.create_server(("127.0.0.1", 0)) for _ in range(count)]
    ports = [it.getsockname()[1] for it in sockets]
    for it in sockets:
        it.close()
    return ports


def wait_until(is_so, what: str, seconds: float = 120) -> None:
    """Waits until a test holds, or fails."""
    end = time.monotonic() + seconds
    while not is_so():
        if time.monotonic() > end:
            raise AssertionError(f"not within {seconds} s: {what}")
        time.sleep(0.05)


class Cluster:
    """The cluster while it runs. Its folder is one of the caller's."""

    def __init__(self, folder: pathlib.Path) -> None:
        self.folder = folder
        self.environment = {**os.environ, "SLURM_CONF": str(folder / "slurm.conf")}
        self.daemons: list[subprocess.Popen] = []
        try:
            self.start()
        except BaseException:
            self.end()
            raise

    def start(self) -> None:
        ports = dict(zip(("controller", *NODES), free_ports(3)))
        host, user = socket.gethostname().split(".")[0], os.getuid()
        text = CONFIGURATION.format(host=host, user=user, folder=self.folder, **ports)
        (self.folder / "slurm.conf").write_text(text, encoding="ascii")
        (self.folder / "state").mkdir()
        key = self.folder / "munge.key"
        key.touch(mode=0o600)
        key.write_bytes(os.urandom(64))
        files = {"socket": "socket", "pid-file": "pid", "log-file": "log", "seed-file": "seed"}
        words = [f"--{option}={self.folder}/munge.{end}" for option, end in files.items()]
        self.run_daemon("munged", "--foreground", "--force", f"--key-file={key}", *words)
        wait_until((self.folder / "munge.socket").exists, "munged answers")
        self.run_daemon("slurmctld", "-D")
        for node in NODES:
            (self.folder / f"{node}.spool").mkdir()
            self.run_daemon("slurmd", "-D", "-N", node)
        self.await_idle()

    def run_daemon(self, *words: str) -> None:
        streams = {"stdin": subprocess.DEVNULL, "stderr": subprocess.STDOUT}
        with open(self.folder / "said.txt", "ab") as said:
            started = subprocess.Popen(words, stdout=said, env=self.environment, **streams)
        self.daemons.append(started)

    def ask(self, *words: str) -> str:
        """What a command of Slurm writes; nothing where it fails."""
        quiet = {"stdout": subprocess.PIPE, "stderr": subprocess.DEVNULL, "timeout": 60}
        return subprocess.run(words, env=self.environment, text=True, **quiet).stdout

    def set_node(self, node: str, state: str) -> None:
        self.ask("scontrol", "update", f"nodename={node}", f"state={state}", "reason=tried")

    def await_idle(self) -> None:
        """Waits until no job is left and both nodes are idle."""
        idle = "".join(f"{node} idle\n" for node in NODES)
        nodes = ("sinfo", "--noheader", "--Node", "--format=%N %T")
        wait_until(lambda: self.ask(*nodes) == idle, "both nodes are idle")

    def steps(self) -> list[str]:
        """The steps that run, but for scripts of batches and whole allocations."""
        told = self.ask("squeue", "--steps", "--noheader", "--format=%i").split()
        return [step for step in told if step.rpartition(".")[2].isdigit()]

    def left(self, folder: pathlib.Path) -> list[str]:
        """The processes that work in a folder, or of this cluster, but for its daemons and the one
        that slurmctld has for scripts."""
        conf, found = f"SLURM_CONF={self.folder}/slurm.conf\0".encode(), []
        daemons = {it.pid for it in self.daemons}
        for process in pathlib.Path("/proc").glob("[0-9]*"):
            try:
                is_here = os.readlink(process / "cwd") == str(folder)
                is_ours = is_here or conf in (process / "environ").read_bytes() + b"\0"
                if is_ours and int(process.name) not in daemons:
                    found.append((process / "cmdline").read_text().replace("\0", " "))
            except OSError:
                continue  # it ended, or is another user's
        return [words for words in found if words and "slurmscriptd" not in words]

    def end(self) -> None:
        """Ends what runs: the jobs, and then each daemon by its number."""
        if len(self.daemons) > 1:
            self.ask("scancel", "--me")
            try:
                wait_until(lambda: not self.ask("squeue", "--noheader"), "jobs end", 20)
            except AssertionError:
                pass
        for daemon in reversed(self.daemons):
            daemon.send_signal(signal.SIGTERM)
            try:
                daemon.wait(timeout=15)
            except subprocess.TimeoutExpired:
                daemon.kill()
                daemon.wait()
