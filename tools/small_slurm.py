"""A Slurm of several nodes on this machine, for tests: a controller and a daemon for each node, which
believe each other without munge, in a folder that goes when they do."""
import getpass
import os
import shutil
import socket
import subprocess
import time
from pathlib import Path
from typing import Dict, List

PROGRAMS = ("slurmctld", "slurmd", "sbatch", "squeue", "scancel", "scontrol")
SECONDS = 60  # in which it has to be there
CONFIGURATION = """\
ClusterName=small
SlurmctldHost=localhost
SlurmctldPort={port}
SlurmUser={user}
SlurmdUser={user}
AuthType=auth/none
CredType=cred/none
StateSaveLocation={folder}/state
SlurmdSpoolDir={folder}/%n
SlurmctldPidFile={folder}/controller.pid
SlurmdPidFile={folder}/%n.pid
ProctrackType=proctrack/linuxproc
TaskPlugin=task/none
MpiDefault=none
JobAcctGatherType=jobacct_gather/linux
JobAcctGatherFrequency=1
JobAcctGatherParams=OverMemoryKill
SelectType=select/cons_tres
SelectTypeParameters=CR_CPU_Memory
DefMemPerCPU=400
SchedulerParameters=batch_sched_delay=0
KillWait=20
MinJobAge=5
MaxArraySize={array}
NodeName=n[1-{nodes}] NodeHostname=localhost Port=[{first}-{last}] CPUs=2 RealMemory=1000
PartitionName=all Nodes=ALL Default=YES MaxTime=INFINITE State=UP
"""


def is_installed() -> bool:
    return all(map(shutil.which, PROGRAMS))


def free_ports(count: int) -> int:
    """The first of so many ports in a row that are free."""
    for first in range(20000, 30000, count):
        try:
            for port in range(first, first + count):
                with socket.socket() as trial:
                    trial.bind(("127.0.0.1", port))
        except OSError:
            continue
        return first
    raise OSError("no free ports")


class SmallSlurm:
    """`environment` is what a client of it needs."""

    def __init__(self, folder: Path, nodes: int, array: int) -> None:
        """An array of it has fewer than `array` tasks."""
        self.folder, first = folder, free_ports(nodes + 1)
        for name in ["state"] + ["n%d" % node for node in range(1, nodes + 1)]:
            folder.joinpath(name).mkdir()
        told = dict(folder=folder, user=getpass.getuser(), nodes=nodes, array=array,
                    port=first, first=first + 1, last=first + nodes)
        path = folder.joinpath("slurm.conf")
        path.write_text(CONFIGURATION.format(**told))
        self.environment: Dict[str, str] = {**os.environ, "SLURM_CONF": str(path)}
        self.daemons: List[subprocess.Popen] = []
        self.start("slurmctld", "-D")
        for node in range(1, nodes + 1):
            self.start("slurmd", "-D", "-N", "n%d" % node)
        self.wait(nodes)

    def start(self, *words: str) -> None:
        with self.folder.joinpath("%s.%d" % (words[0], len(self.daemons))).open("wb") as output:
            self.daemons.append(subprocess.Popen(
                words, env=self.environment, stdin=subprocess.DEVNULL, stdout=output, stderr=output))

    def wait(self, nodes: int) -> None:
        """Until all nodes are idle."""
        end = time.monotonic() + SECONDS
        while self.says("sinfo", "-h", "-N", "-o", "%t").split() != ["idle"] * nodes:
            if time.monotonic() > end:
                self.stop()
                raise OSError("slurm does not start: " + str(self.folder))
            time.sleep(0.2)

    def says(self, *words: str) -> str:
        done = subprocess.run(words, env=self.environment, stdin=subprocess.DEVNULL,
                              stdout=subprocess.PIPE, stderr=subprocess.STDOUT, check=False)
        return done.stdout.decode("ascii", "replace") if done.returncode == 0 else ""

    def stop(self) -> None:
        self.says("scancel", "-u", str(os.getuid()))
        for daemon in reversed(self.daemons):
            daemon.terminate()
        for daemon in self.daemons:
            try:
                daemon.wait(20)
            except subprocess.TimeoutExpired:
                daemon.kill()
                daemon.wait()
