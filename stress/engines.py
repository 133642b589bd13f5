#!/usr/bin/env python3
"""Settles the tree of four states in parts by contrib/parallel.sh and by Slurm, kills what works and begins it again, and compares
bb join's report with bb run's. Debian's package slurm-wlm is installed where it isn't there; Slurm is
started here, with this computer as its only node, and stopped at the end. A number as argument is the seed of the kills."""
import glob
import os
import random
import re
import shutil
import signal
import socket
import subprocess
import sys
import tempfile
import time

TOP = os.path.dirname(os.path.dirname(os.path.abspath(__file__)))
sys.path.insert(0, os.path.join(TOP, "bench"))
from program import PROGRAM  # noqa: E402

STATES = "4"
FILLED = "4"
KILLS = 5

CONFIGURATION = """\
ClusterName=bb
SlurmctldHost={host}(127.0.0.1)
SlurmUser=root
SlurmdUser=root
AuthType=auth/none
CredType=cred/none
StateSaveLocation={folder}/state
SlurmdSpoolDir={folder}/spool
SlurmctldPidFile={folder}/slurmctld.pid
SlurmdPidFile={folder}/slurmd.pid
SlurmctldLogFile={folder}/slurmctld.log
SlurmdLogFile={folder}/slurmd.log
ProctrackType=proctrack/linuxproc
TaskPlugin=task/none
SwitchType=switch/none
MpiDefault=none
JobAcctGatherType=jobacct_gather/none
AccountingStorageType=accounting_storage/none
SelectType=select/cons_res
SelectTypeParameters=CR_CPU
ReturnToService=2
NodeName={host} NodeAddr=127.0.0.1 CPUs={processors} State=UNKNOWN
PartitionName=main Nodes=ALL Default=YES MaxTime=INFINITE State=UP
"""


def said(*words, **more):
    return subprocess.run(words, stdout=subprocess.PIPE, check=True, **more).stdout.decode()


def bb(*words):
    """What bb prints, whatever its exit status."""
    return subprocess.run([PROGRAM, *words], stdout=subprocess.PIPE, check=False).stdout.decode()


def install(program, package):
    if shutil.which(program) is None:
        subprocess.run(["apt-get", "install", "-y", package], check=True, stdout=subprocess.DEVNULL)


def split(folder):
    return bb("split", STATES, folder, "--filled", FILLED, "--hard")


class Parallel:
    """Parts that one machine settles."""

    name = "contrib/parallel.sh"

    def begin(self, folder):
        script = os.path.join(TOP, "contrib", "parallel.sh")
        environment = dict(os.environ, BB=PROGRAM)
        self.work = subprocess.Popen([script, folder, "--hard"], env=environment, stdout=subprocess.DEVNULL, start_new_session=True)

    def kill(self):
        os.killpg(self.work.pid, signal.SIGKILL)
        self.work.wait()

    def is_done(self):
        return self.work.poll() is not None


class Slurm:
    """Parts that an array job settles."""

    name = "Slurm"

    def __init__(self, folder):
        path = os.path.join(folder, "slurm.conf")
        for name in ("state", "spool"):
            os.mkdir(os.path.join(folder, name))
        with open(path, "w", encoding="ascii") as file:
            file.write(CONFIGURATION.format(host=socket.gethostname(), folder=folder, processors=os.cpu_count()))
        self.environment = dict(os.environ, SLURM_CONF=path, BB=PROGRAM, CONTRIB=os.path.join(TOP, "contrib"))
        self.pids = [os.path.join(folder, f"{name}.pid") for name in ("slurmd", "slurmctld")]
        for daemon in ("slurmctld", "slurmd"):
            subprocess.run([daemon, "-f", path], env=self.environment, check=True)
            time.sleep(3)

    def begin(self, folder):
        script = os.path.join(TOP, "contrib", "slurm.sh")
        words = ["sbatch", "--parsable", f"--output={folder}/slurm-%a.out", "--array=1-12", script, folder, "--hard"]
        self.job = said(*words, env=self.environment).strip()

    def kill(self):
        # a part that works is killed as a node would fail; Slurm then gives the tasks up, and the job is submitted again
        subprocess.run(["pkill", "-9", "-f", f"{PROGRAM} settle"], check=False)
        subprocess.run(["scancel", self.job], env=self.environment, check=True)
        while not self.is_done():
            time.sleep(0.1)

    def is_done(self):
        return said("squeue", "--noheader", env=self.environment).strip() == ""

    def stop(self):
        for path in self.pids:
            with open(path, encoding="ascii") as file:
                pid = int(file.read())
            os.kill(pid, signal.SIGTERM)
            # it still writes into its folder until it has ended
            while os.path.exists(f"/proc/{pid}"):
                time.sleep(0.1)


def settled(engine, folder, rng):
    """The report of a tree whose parts an engine settled, begun again after each kill."""
    told = split(folder)
    for _ in range(KILLS):
        engine.begin(folder)
        time.sleep(rng.uniform(0.2, 1.5))
        engine.kill()
    begun = time.perf_counter()
    engine.begin(folder)
    while not engine.is_done():
        time.sleep(0.1)
    print(f"{engine.name}: {told.strip()}, {KILLS} times killed, then {time.perf_counter() - begun:.1f} s")
    return bb("join", folder)


def second_settle(folder):
    """How a second bb settle of a part ends while a first one works on it."""
    bb("split", STATES, folder, "--filled", "0")
    (part,) = (path for path in glob.glob(os.path.join(folder, "*.ledger")) if not path.endswith("trunk.ledger"))
    first = subprocess.Popen([PROGRAM, "settle", part, "--hard"], stdout=subprocess.DEVNULL)
    while os.path.getsize(part) < 100_000:
        time.sleep(0.01)
    second = subprocess.run([PROGRAM, "settle", part, "--hard"], capture_output=True, check=False)
    first.kill()
    first.wait()
    shutil.rmtree(folder)
    return second.returncode, second.stdout, second.stderr


def main():
    rng = random.Random(int(sys.argv[1]) if len(sys.argv) > 1 else 1)
    install("slurmctld", "slurm-wlm")
    whole = bb("run", STATES, "--hard")
    with tempfile.TemporaryDirectory() as folder:
        second = second_settle(os.path.join(folder, "parts"))
        print(f"a second bb settle: status {second[0]}, {second[2].decode().strip()}")
        if second[:2] != (4, b"") or not re.fullmatch(rb"refused 606: another process writes the ledger\n[^\n]+: resource busy\n", second[2]):
            return 1
        slurm = Slurm(folder)
        try:
            for engine in (Parallel(), slurm):
                parts = os.path.join(folder, "parts")
                report = settled(engine, parts, rng)
                if report != whole:
                    print(f"{engine.name}: the report differs from that of bb run:\n{report}")
                    return 1
                size = sum(os.path.getsize(path) for path in glob.glob(os.path.join(parts, "*.ledger")))
                print(f"{engine.name}: bb join says what bb run says; ledgers of {size // 1_000_000} megabytes")
                shutil.rmtree(parts)
        finally:
            slurm.stop()
    return 0


if __name__ == "__main__":
    sys.exit(main())
