"""A server of ssh on a port of 127.0.0.1, with keys of its own and all files in one folder. It
stands for several machines.
"""
import pathlib
import shutil
import signal
import subprocess

from cluster import free_ports, wait_until

SSHD = shutil.which("sshd", path="/usr/sbin:/usr/bin")
SERVER = """\
Port {port}
ListenAddress 127.0.0.1
HostKey {folder}/host_key
AuthorizedKeysFile {folder}/user_key.pub
PidFile {folder}/sshd.pid
PermitRootLogin yes
PasswordAuthentication no
StrictModes no
UsePAM no
"""
CLIENT = """\
Host *
    HostName 127.0.0.1
    Port {port}
    IdentityFile {folder}/user_key
    IdentitiesOnly yes
    UserKnownHostsFile {folder}/known_hosts
    StrictHostKeyChecking accept-new
    LogLevel ERROR
"""


class SshServer:
    """The server while it runs. Its folder is one of the caller's."""

    def __init__(self, folder: pathlib.Path) -> None:
        self.command = f"ssh -F {folder}/ssh_config"  # it reaches each name
        names = {"port": free_ports(1)[0], "folder": folder}
        (folder / "sshd_config").write_text(SERVER.format(**names), encoding="ascii")
        (folder / "ssh_config").write_text(CLIENT.format(**names), encoding="ascii")
        for key in ("host_key", "user_key"):
            words = ["ssh-keygen", "-q", "-t", "ed25519", "-N", "", "-f", str(folder / key)]
            subprocess.run(words, check=True)
        # sshd wants to be confined there
        pathlib.Path("/run/sshd").mkdir(mode=0o755, exist_ok=True)
        self.daemon = subprocess.Popen([SSHD, "-D", "-q", "-f", folder / "sshd_config"])
        wait_until((folder / "sshd.pid").exists, "sshd listens")

    def end(self) -> None:
        self.daemon.send_signal(signal.SIGTERM)
        self.daemon.wait(timeout=15)
