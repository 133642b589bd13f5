#!/usr/bin/env python3
"""A coordinator that listens, and workers that connect, on the built program: crowds, kills, hostile peers and a cable that
is pulled. Each run has to end with the report of `bb run`, and whatever was acknowledged has to stand in the ledger.

stress/cluster.py [--states N] [--seed S] [--token] [WAY..]: with --token coordinators and workers share one; the ways are

    socket    contrib/all.sh, over a socket file
    crowd     50 processes of workers over TCP
    workers   workers that are killed and begun again
    killed    a coordinator that is killed and begun again, ten times, with its workers behind relays that see each ACK; with
              workers that are killed too it is a way of stress/killed.py
    hostile   random bytes, half frames, lines without end, nothing, frames with others' ids and leases, frames without reading
    strangers each kind of peer of stress/strangers.py alone (--kinds NAME,NAME for some), beside two processes of workers: the run
              has to end in at most twice the time without it and 15 seconds (--slack; the coordinator waits for 5 at the end, and
              a table that is held is free after 7), with at most 1.3 times the memory and 8 megabytes
    cable     two hosts in network namespaces whose link is down for SECONDS (--down, 90 unless said), as root alone

all but `cable` where none is named. Prints a line for each, and ends with 1 at the first that goes wrong."""
import argparse
import itertools
import os
import random
import re
import resource
import select
import signal
import socket
import subprocess
import sys
import tempfile
import threading
import time

TOP = os.path.dirname(os.path.dirname(os.path.abspath(__file__)))
sys.path.insert(0, os.path.join(TOP, "bench"))
from program import PROGRAM  # noqa: E402
import strangers  # noqa: E402


# What coordinators and workers are given beside the rest: a token's file, where there is one.
TOKEN = []

# By what programs are ended: none of these is answered, and nothing that was acknowledged may be lost by one.
ENDS = itertools.cycle((signal.SIGKILL, signal.SIGTERM, signal.SIGINT))


def share_token():
    """From now on coordinators and workers have the same token."""
    with tempfile.NamedTemporaryFile(delete=False) as file:
        file.write(os.urandom(16).hex().encode() + b"\n")
    TOKEN.extend(["--token", file.name])


def free_port():
    with socket.socket() as one:
        one.bind(("127.0.0.1", 0))
        return one.getsockname()[1]


class Coordinator:
    """`bb coord --listen`, which may be killed and begun again with its ledger."""

    def __init__(self, states, folder, address, before=()):
        self.states, self.address, self.before = states, address, list(before)
        # Where other computers can reach it, either a token is asked for, or that anyone may come is said.
        self.open = ["--open"] if ":" in str(address) else []
        self.ledger = os.path.join(folder, "coordinator.ledger")
        self.era = 0
        self.begin()

    def begin(self):
        self.era += 1
        self.process = subprocess.Popen(
            self.before + [PROGRAM, "coord", str(self.states), "--listen", str(self.address), "--ledger", self.ledger,
                           "--era", str(self.era), "--per-address", "1000", *(TOKEN or self.open)], stdout=subprocess.PIPE, stderr=subprocess.PIPE)

    def kill(self):
        end = next(ENDS)
        self.process.send_signal(end)
        self.process.communicate()
        if self.process.returncode not in (-end, 0):
            print(f"killed: by {end!r} the coordinator ended with {self.process.returncode}")
            sys.exit(1)

    def ended(self, seconds):
        said, faults = self.process.communicate(timeout=seconds)
        return self.process.returncode, said, faults

    def recorded(self):
        with open(self.ledger, "rb") as held:
            return {line.split(b" ", 1)[0] for line in held.read().split(b"\n")[1:-1]}


def worker(address, ids, tries=1000, before=(), first=None):
    words = ["--id", str(first)] if first is not None else []
    return subprocess.Popen(
        list(before) + [PROGRAM, "work", "--connect", str(address), "--ids", str(ids), "--tries", str(tries), "--hard", *TOKEN] + words,
        stdout=subprocess.DEVNULL, stderr=subprocess.PIPE)


def ends(workers, seconds):
    """How the workers ended."""
    statuses = []
    for one in workers:
        try:
            one.communicate(timeout=seconds)
        except subprocess.TimeoutExpired:
            one.kill()
            one.communicate()
        statuses.append(one.returncode)
    return statuses


class Relay:
    """Passes what workers and a coordinator say to one another, and keeps which tables the coordinator acknowledged."""

    def __init__(self, port):
        self.to, self.acknowledged, self.lock = port, set(), threading.Lock()
        self.listener = socket.socket()
        self.listener.setsockopt(socket.SOL_SOCKET, socket.SO_REUSEADDR, 1)
        self.listener.bind(("127.0.0.1", 0))
        self.listener.listen(64)
        self.port = self.listener.getsockname()[1]
        threading.Thread(target=self.accept, daemon=True).start()

    def accept(self):
        while True:
            near, _ = self.listener.accept()
            threading.Thread(target=self.relay, args=(near,), daemon=True).start()

    def relay(self, near):
        try:
            far = socket.create_connection(("127.0.0.1", self.to))
        except OSError:
            near.close()
            return
        rest = b""
        try:
            while True:
                for one in select.select([near, far], [], [])[0]:
                    piece = one.recv(65536)
                    if not piece:
                        return
                    if one is near:
                        far.sendall(piece)
                        continue
                    *lines, rest = (rest + piece).split(b"\n")
                    with self.lock:
                        self.acknowledged.update(line[4:] for line in lines if line.startswith(b"ACK "))
                    near.sendall(piece)
        except OSError:
            pass
        finally:
            near.close()
            far.close()


# What is said of who is turned away, and that is all that may be said.
TURNED_AWAY = re.compile(rb"(?:[^ \n]+ (?:is gone|isn't let in): [^\n]+\n|\d+ more came or went\n)*")


def check(name, coordinator, expected, seconds, workers=(), may_be_late=False):
    """Each worker has to end with 0, or, where that may be, one of them, and others look for a coordinator that is gone."""
    status, said, faults = coordinator.ended(seconds)
    statuses = ends(workers, 2 if may_be_late else 60)
    are_well = 0 in statuses and set(statuses) <= {0, -signal.SIGKILL} if may_be_late else not any(statuses)
    if status != 0 or said != expected or not TURNED_AWAY.fullmatch(faults) or not are_well:
        print(f"{name}: status {status}, {faults!r}, workers {statuses}, report:\n{said.decode()}")
        sys.exit(1)


def over_socket(states, expected):
    before = time.time()
    done = subprocess.run([os.path.join(TOP, "contrib", "all.sh"), str(states)], stdout=subprocess.PIPE,
                          env=dict(os.environ, BB=PROGRAM), check=False)
    if done.returncode != 0 or done.stdout != expected:
        print(f"socket: status {done.returncode}, report:\n{done.stdout.decode()}")
        sys.exit(1)
    return f"{time.time() - before:.1f} s"


def crowd(states, expected, folder):
    port = free_port()
    coordinator = Coordinator(states, folder, port)
    workers = [worker(port, 2) for _ in range(50)]
    check("crowd", coordinator, expected, 600, workers)
    return "50 processes, each ended with 0"


def killed_workers(states, expected, folder, chance):
    port = free_port()
    coordinator = Coordinator(states, folder, port)
    workers, killed = [worker(port, 8) for _ in range(4)], 0
    while coordinator.process.poll() is None:
        time.sleep(chance.uniform(0.05, 0.5))
        if killed < 40:
            place = chance.randrange(len(workers))
            workers[place].kill()
            workers[place].communicate()
            workers[place] = worker(port, 8)
            killed += 1
    # One that was begun as the coordinator ended finds nobody.
    check("workers", coordinator, expected, 600)
    ends(workers, 1)
    return f"{killed} killed"


def killed_coordinator(states, expected, folder, chance, kills, of_workers):
    """Kills the coordinator so often, and on the average so many workers a second between; how often each was killed in the
    end, and how many tables were acknowledged."""
    port = free_port()
    relay = Relay(port)
    coordinator = Coordinator(states, folder, port)
    workers, killed, killed_workers_too = [worker(relay.port, 16) for _ in range(3)], 0, 0
    while killed < kills and coordinator.process.poll() is None:
        end = time.time() + chance.uniform(0.3, 1.5)
        while time.time() < end:
            time.sleep(0.1)
            if chance.random() < of_workers / 10:
                place = chance.randrange(len(workers))
                workers[place].send_signal(next(ENDS))
                workers[place].communicate()
                workers[place] = worker(relay.port, 16)
                killed_workers_too += 1
        if coordinator.process.poll() is not None:
            break
        coordinator.kill()
        killed += 1
        time.sleep(0.2)
        with relay.lock:
            lost = relay.acknowledged - coordinator.recorded()
        if lost:
            print(f"killed: {len(lost)} tables were acknowledged and are lost, as {sorted(lost)[0]}")
            sys.exit(1)
        coordinator.begin()
    check("killed", coordinator, expected, 900, workers)
    if relay.acknowledged - coordinator.recorded():
        print("killed: tables were acknowledged and aren't in the ledger of the end")
        sys.exit(1)
    return killed, killed_workers_too, len(relay.acknowledged)


def hostile_peer(kind, port, stop, chance):
    while not stop.is_set():
        try:
            with socket.create_connection(("127.0.0.1", port), timeout=5) as one:
                one.settimeout(5)
                while not stop.is_set():
                    if kind == "noise":
                        one.sendall(chance.randbytes(3000))
                    elif kind == "half":
                        one.sendall(b"ASK 1\nREC 1RB")
                        time.sleep(0.01)
                        break
                    elif kind == "endless":
                        one.sendall(b"REC " + b"1" * 60_000)
                    elif kind == "silent":
                        time.sleep(0.5)
                        continue
                    elif kind == "stolen":
                        # Each ends a lease of a worker or takes a table for a minute; more of that, and nothing gets done.
                        one.sendall(b"ASK %d\nDONE 1 %d\n" % (chance.randrange(1, 70), chance.randrange(1, 3000)))
                        one.recv(65536)
                        time.sleep(1)
                    elif kind == "deaf":
                        one.sendall(b"ASK 4000000000\n" * 500)
                        time.sleep(1)
                    elif kind == "liar":
                        one.sendall(b"REC ---------_------ H 1 1\nREC 1RB---_------ C 3 4\nACK ------\nSTOP\nLATER\nGRANT 1 1 ------\n")
                    time.sleep(0.05)
        except OSError:
            time.sleep(0.05)


def hostile(states, expected, folder, chance):
    port = free_port()
    coordinator = Coordinator(states, folder, port)
    stop = threading.Event()
    kinds = ["noise", "half", "endless", "silent", "stolen", "deaf", "liar"]
    peers = [threading.Thread(target=hostile_peer, args=(kind, port, stop, random.Random(chance.random())), daemon=True)
             for kind in kinds * 2]
    for peer in peers:
        peer.start()
    workers = [worker(port, 16, first=1 + 16 * place) for place in range(4)]
    deadline = time.time() + 600
    while any(one.poll() is None for one in workers) and time.time() < deadline:
        time.sleep(0.2)
    stop.set()
    check("hostile", coordinator, expected, 120, workers)
    return f"{len(peers)} peers of {len(kinds)} kinds"


def peak(process):
    """The most memory that a process has had, in kilobytes; 0 once it is gone."""
    try:
        with open(f"/proc/{process.pid}/status", encoding="ascii") as told:
            return next((int(line.split()[1]) for line in told if line.startswith("VmHWM")), 0)
    except OSError:
        return 0


def beside(states, expected, folder, stranger, chance):
    """A run of two processes of workers beside a stranger, or none: its seconds, and the coordinator's memory in kilobytes."""
    port = free_port()
    coordinator = Coordinator(states, folder, port)
    stop = threading.Event()
    thread = threading.Thread(target=stranger, args=(port, stop, chance), daemon=True) if stranger else None
    if thread:
        thread.start()
    # It is there before the others; and the coordinator listens.
    time.sleep(1)
    before, memory = time.time(), 0
    workers = [worker(port, 16, first=1 + 64 * place) for place in range(2)]
    while coordinator.process.poll() is None and time.time() < before + 300:
        memory = max(memory, peak(coordinator.process))
        time.sleep(0.02)
    seconds = time.time() - before
    stop.set()
    check(stranger.__doc__ if stranger else "alone", coordinator, expected, 5, workers, may_be_late=True)
    if thread:
        thread.join(10)
    os.remove(coordinator.ledger)
    return seconds, memory


def with_strangers(states, expected, folder, chance, names, slack):
    """Each kind of stranger beside honest workers."""
    kinds = strangers.kinds(states)
    alone, least = beside(states, expected, folder, None, chance)
    print(f"    alone: {alone:.1f} s, {least / 1024:.0f} MB", flush=True)
    for name in names or kinds:
        seconds, memory = beside(states, expected, folder, kinds[name], random.Random(chance.random()))
        print(f"    {name}: {seconds:.1f} s, {memory / 1024:.0f} MB", flush=True)
        if seconds > 2 * alone + slack or memory > 1.3 * least + 8_192:
            print(f"strangers: beside {name} it takes too much")
            sys.exit(1)
    return f"{len(names or kinds)} kinds"


def cable(states, expected, folder, down):
    """Two hosts with a link between them."""
    run = lambda words: subprocess.run(words.split(), check=True)  # noqa: E731
    first, second = "bb-first", "bb-second"
    try:
        for words in (f"ip netns add {first}", f"ip netns add {second}",
                      f"ip link add {first} netns {first} type veth peer name {second} netns {second}",
                      f"ip -n {first} addr add 10.77.0.1/24 dev {first}", f"ip -n {second} addr add 10.77.0.2/24 dev {second}",
                      f"ip -n {first} link set {first} up", f"ip -n {second} link set {second} up",
                      f"ip -n {first} link set lo up"):
            run(words)
        coordinator = Coordinator(states, folder, "10.77.0.1:7007", ["ip", "netns", "exec", first])
        time.sleep(1)
        workers = [worker("10.77.0.1:7007", 16, before=["ip", "netns", "exec", second]) for _ in range(3)]
        time.sleep(2)
        run(f"ip -n {second} link set {second} down")
        pulled = len(coordinator.recorded())
        time.sleep(down)
        held = len(coordinator.recorded())
        run(f"ip -n {second} link set {second} up")
        check("cable", coordinator, expected, 900, workers)
        return f"{down} s without a link, {pulled} records before, {held} after it"
    finally:
        for name in (first, second):
            subprocess.run(["ip", "netns", "delete", name], check=False)


def main():
    parser = argparse.ArgumentParser()
    parser.add_argument("--states", type=int, default=3)
    parser.add_argument("--seed", type=int, default=1)
    parser.add_argument("--down", type=int, default=90)
    parser.add_argument("--token", action="store_true", help="coordinators and workers share a token")
    parser.add_argument("--slack", type=float, default=15, help="seconds that a run beside a stranger may take longer than that")
    parser.add_argument("--kinds", type=lambda words: words.split(","), default=[])
    parser.add_argument("ways", nargs="*")
    asked = parser.parse_args()
    # One of the strangers has 1,000 connections, and the coordinator as many.
    files = resource.getrlimit(resource.RLIMIT_NOFILE)[1]
    resource.setrlimit(resource.RLIMIT_NOFILE, (files, files))
    signal.signal(signal.SIGPIPE, signal.SIG_IGN)
    signal.signal(signal.SIGINT, signal.default_int_handler)
    chance = random.Random(asked.seed)
    states = asked.states
    if asked.token:
        share_token()
    expected = subprocess.run([PROGRAM, "run", str(states), "--hard"], stdout=subprocess.PIPE, check=True).stdout
    ways = {
        "socket": lambda folder: over_socket(states, expected),
        "crowd": lambda folder: crowd(states, expected, folder),
        "workers": lambda folder: killed_workers(states, expected, folder, chance),
        "killed": lambda folder: "%d times, %d workers; %d tables acknowledged, none lost" % killed_coordinator(states, expected, folder, chance, 10, 0),
        "hostile": lambda folder: hostile(states, expected, folder, chance),
        "strangers": lambda folder: with_strangers(states, expected, folder, chance, asked.kinds, asked.slack),
        "cable": lambda folder: cable(states, expected, folder, asked.down),
    }
    for way in asked.ways or [name for name in ways if name != "cable"]:
        with tempfile.TemporaryDirectory() as folder:
            print(f"{way}: {ways[way](folder)}; the report of bb run", flush=True)
    return 0


if __name__ == "__main__":
    sys.exit(main())
