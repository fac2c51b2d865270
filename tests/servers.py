"""What tests start and stop: Slurm with one node, a login by ssh and workers of Dask, all on loopback; a small disk."""

import os
import pwd
import shutil
import signal
import socket
import subprocess
import time
import unittest
from collections.abc import Iterator, Sequence
from contextlib import contextmanager
from pathlib import Path

LOOPBACK = "127.0.0.1"
PATIENCE = 120
SLURM = """ClusterName=fizhedul
SlurmctldHost={node}({address})
SlurmctldPort={ports[0]}
SlurmdPort={ports[1]}
SlurmUser=root
AuthType=auth/munge
AuthInfo=socket={folder}/munge.socket
CredType=cred/munge
CommunicationParameters=NoCtldInAddrAny,NoInAddrAny
StateSaveLocation={folder}/state
SlurmdSpoolDir={folder}/spool
SlurmctldPidFile={folder}/slurmctld.pid
SlurmdPidFile={folder}/slurmd.pid
ProctrackType=proctrack/linuxproc
TaskPlugin=task/none
MpiDefault=none
SelectType=select/cons_tres
SelectTypeParameters=CR_Core
JobAcctGatherType=jobacct_gather/none
AccountingStorageType=accounting_storage/none
SchedulerParameters=sched_interval=1
ReturnToService=2
NodeName={node} NodeAddr={address} CPUs=4 State=UNKNOWN
PartitionName=main Nodes={node} Default=YES MaxTime=INFINITE State=UP
"""
SSHD = """Port {port}
ListenAddress {address}
HostKey {folder}/host
AuthorizedKeysFile {folder}/client.pub
PidFile {folder}/sshd.pid
StrictModes no
UsePAM no
PasswordAuthentication no
"""
SSH = """Host {alias}
  HostName {address}
  Port {port}
  IdentityFile {folder}/client
  UserKnownHostsFile {folder}/known
  StrictHostKeyChecking accept-new
  LogLevel ERROR
  BatchMode yes
"""


def free_ports(count: int) -> list[int]:
    """Ports that nobody listens on now."""
    sockets = [socket.create_server((LOOPBACK, 0)) for _ in range(count)]
    ports = [each.getsockname()[1] for each in sockets]
    for each in sockets:
        each.close()
    return ports


def wanted(*tools: str) -> list[str]:
    """The paths of servers; without one of them, or as another user than root, the test is left out."""
    path = f"{os.environ.get('PATH', '')}:/usr/sbin:/sbin"
    found = [shutil.which(tool, path=path) for tool in tools]
    missing = [tool for tool, place in zip(tools, found) if place is None]
    if missing or os.geteuid() != 0:
        raise unittest.SkipTest(f"'{missing[0]}' is not installed" if missing else "servers are started by root alone")
    return [place for place in found if place]


@contextmanager
def started(commands: Sequence[Sequence[str]], folder: Path, **more: str) -> Iterator[None]:
    """Servers in sessions of their own, that end with the test."""
    running = []
    try:
        for words in commands:
            with open(folder / f"{Path(words[0]).name}.log", "wb") as log:
                running.append(subprocess.Popen(words, stdin=subprocess.DEVNULL, stdout=log, stderr=log,
                                                start_new_session=True, env={**os.environ, **more}))
        yield
    finally:
        for process in reversed(running):
            process.send_signal(signal.SIGTERM)
        for process in reversed(running):
            try:
                process.wait(30)
            except subprocess.TimeoutExpired:
                process.kill()
                process.wait()


def wait_for(what: str, is_there, folder: Path) -> None:
    """Waits until something is so."""
    end = time.monotonic() + PATIENCE
    while not is_there():
        if time.monotonic() > end:
            logs = "".join(f"{log.name}: {log.read_text(errors='replace')[-600:]}\n" for log in folder.glob("*.log"))
            raise unittest.SkipTest(f"{what} did not come up:\n{logs}")
        time.sleep(0.1)


def is_said(words: Sequence[str], wanted_word: str, **more: str) -> bool:
    """Whether a command says this word."""
    done = subprocess.run(words, capture_output=True, text=True, check=False, env={**os.environ, **more})
    return wanted_word in done.stdout


@contextmanager
def slurm(folder: Path) -> Iterator[dict[str, str]]:
    """Slurm with this machine as its one node; gives the environment in which its commands know it."""
    munged, slurmctld, slurmd = wanted("munged", "slurmctld", "slurmd")
    wanted("sbatch", "squeue", "sinfo")
    for name in ("state", "spool"):
        (folder / name).mkdir()
    (folder / "munge.key").write_bytes(os.urandom(128))
    (folder / "munge.key").chmod(0o600)
    node = socket.gethostname().partition(".")[0]
    conf = folder / "slurm.conf"
    conf.write_text(SLURM.format(node=node, address=LOOPBACK, ports=free_ports(2), folder=folder))
    munge = [munged, "--foreground", "--force", f"--key-file={folder}/munge.key", f"--socket={folder}/munge.socket",
             f"--pid-file={folder}/munged.pid", f"--log-file={folder}/munge.out", f"--seed-file={folder}/munge.seed"]
    setting = {"SLURM_CONF": str(conf)}
    with started([munge], folder):
        wait_for("munge", (folder / "munge.socket").exists, folder)
        with started([[slurmctld, "-D", "-f", str(conf)], [slurmd, "-D", "-f", str(conf), "-N", node]], folder, **setting):
            wait_for("Slurm", lambda: is_said(["sinfo", "--noheader", "--format=%T"], "idle", **setting), folder)
            yield setting


@contextmanager
def ssh(folder: Path, *aliases: str) -> Iterator[dict[str, str]]:
    """This machine under other names, reached by ssh with keys that are made here."""
    server, keys, client = wanted("sshd", "ssh-keygen", "ssh")
    os.makedirs("/run/sshd", exist_ok=True)
    for name in ("host", "client"):
        subprocess.run([keys, "-q", "-t", "ed25519", "-N", "", "-f", str(folder / name)], check=True, capture_output=True)
    [port] = free_ports(1)
    places = {"address": LOOPBACK, "port": port, "folder": folder}
    (folder / "sshd.conf").write_text(SSHD.format(**places))
    (folder / "ssh.conf").write_text("".join(SSH.format(alias=alias, **places) for alias in aliases))
    setting = {"FIZHEDUL_SSH": f"{client} -F {folder}/ssh.conf"}
    with started([[server, "-D", "-e", "-f", str(folder / "sshd.conf")]], folder):
        wait_for("sshd", lambda: is_said([client, "-F", f"{folder}/ssh.conf", aliases[0], "echo here"], "here"), folder)
        yield setting


@contextmanager
def dask(folder: Path, workers: int) -> Iterator[str]:
    """A scheduler of Dask with some workers; gives its address."""
    scheduler, worker = (shutil.which(tool) for tool in ("dask-scheduler", "dask-worker"))
    if scheduler is None or worker is None:
        raise unittest.SkipTest("'dask-worker' is not installed (apt-get install python3-distributed)")
    [port] = free_ports(1)
    address = f"tcp://{LOOPBACK}:{port}"
    here = ["--host", LOOPBACK, "--no-dashboard"]
    several = ["--nworkers", str(workers), "--nthreads", "1", "--local-directory", str(folder)]
    with started([[scheduler, *here, "--port", str(port)], [worker, address, *here, *several]], folder):
        yield address


@contextmanager
def small_disk(folder: Path, size: int) -> Iterator[Path]:
    """A disk of so many bytes."""
    folder.mkdir()
    done = subprocess.run(["mount", "-t", "tmpfs", "-o", f"size={size}", "tmpfs", folder], capture_output=True, check=False)
    if done.returncode:
        raise unittest.SkipTest("a disk of its own cannot be had here")
    try:
        yield folder
    finally:
        subprocess.run(["umount", "--lazy", folder], check=True)


def home() -> Path:
    """The folder in which a login by ssh begins."""
    return Path(pwd.getpwuid(os.geteuid()).pw_dir)
