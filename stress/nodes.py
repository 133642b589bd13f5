#!/usr/bin/env python3
"""Frames in random order, forged ones among them, and restarts: `bb coord` against a plain model of its rules.

stress/nodes.py [SEED [SESSIONS]]: a coordinator of one to three states is started again and again from its ledger, each
time with a few hundred frames. Prints how many frames of each kind were answered, and the first answer or ledger that
differs, and then ends with 1.
"""
import collections
import os
import random
import subprocess
import sys
import tempfile

from faults import Refused
from oracle import number, printed, read_table
from kinds import PROGRAM, damaged, none_differs
from tree import Board, HEADER, in_version

MOST_LEASES = 4_096


LEASE_TIME = 60


class Coordinator:
    """The rules of docs/FORMATS.md. What is noted stands in `note`."""

    def __init__(self, states, era, records):
        self.board = Board([[None, None] for _ in range(states)])
        self.lines = []
        for line in records:
            assert self.board.take(line) is None
            self.lines.append(line)
        self.era = era
        self.leases = {}
        self.deadlines = {}
        self.under = {}
        self.given = 0
        self.moment = 0
        self.note = b""

    def tick(self, moment):
        self.moment = max(self.moment, moment)
        for lease in [lease for lease in self.leases if self.deadlines[lease] <= self.moment]:
            self.end(lease)

    def end(self, lease):
        del self.leases[lease]
        self.under = {table: held for table, held in self.under.items() if held != lease}

    def answer(self, frame):
        """The frame that answers one, or none; and the kind of what came."""
        words = frame.split(b" ")
        self.note = b""
        try:
            if words[0] == b"ASK" and len(words) == 2 and number(words[1]) < 2 ** 32:
                return self.ask(number(words[1])), "ASK"
            if words[0] == b"DONE" and len(words) == 3:
                era, lease = number(words[1]), number(words[2])
                if era == self.era and lease in self.leases:
                    self.end(lease)
                else:
                    self.note = b"stale"
                return None, "DONE"
        except Refused:
            return self.strange()
        if words[0] == b"REC" and len(words) > 1:
            return self.record(frame[4:])
        return self.strange()

    def strange(self):
        self.note = b"strange"
        return None, "strange"

    def ask(self, worker):
        for lease in [lease for lease, holder in self.leases.items() if holder == worker]:
            self.end(lease)
        if not self.board.open:
            return b"STOP"
        free = sorted(self.board.open - self.under.keys())
        if not free or len(self.leases) >= MOST_LEASES:
            return b"LATER"
        self.given += 1
        self.leases[self.given] = worker
        self.deadlines[self.given] = self.moment + LEASE_TIME
        self.under[free[0]] = self.given
        return f"GRANT {self.era} {self.given} {free[0]}".encode()

    def record(self, line):
        try:
            table = printed(read_table(line.split(b" ")[0]))
        except Refused:
            return self.strange()
        before = set(self.board.open)
        why = self.board.take(line)
        if why == "too long":
            return None, why
        if why is None:
            lease = self.under.pop(table, None)
            if lease is not None:
                self.under.update((child, lease) for child in self.board.open - before)
                self.deadlines[lease] = self.moment + LEASE_TIME
            self.lines.append(next(held for held in self.board.lines if held.split(b" ")[0].decode() == table))
            return f"ACK {table}".encode(), "REC, new or settled"
        if why == "repeated":
            return f"ACK {table}".encode(), "REC, known"
        if why == "refused 402":
            return f"LATER {table}".encode(), "REC, not open"
        if not why.startswith(("refused 20", "refused 403")):
            return self.strange()
        self.note = why.split(" ")[1].encode()
        return None, "REC, refused"


def frame(rng, model, records):
    """A frame that a worker could send, or one that is forged."""
    way = rng.random()
    if way < 0.25:
        made = b"ASK %d" % rng.choice([1, 2, 3, 7, 4294967295, 4294967296])
    elif way < 0.35:
        made = b"DONE %d %d" % (rng.choice([model.era, model.era, 1, 0]), rng.randint(0, model.given + 2))
    elif way < 0.9:
        open_tables = sorted(model.board.open)
        table = rng.choice(open_tables) if open_tables and rng.random() < 0.7 else None
        known = records.get(table) if table else None
        made = b"REC " + (known or rng.choice(list(records.values())))
        table, way = made.split(b" ")[1], rng.random()
        if way < 0.1:
            made = b"REC " + table + b" U"
        elif way < 0.2:
            made = b"REC " + table + b" " + rng.choice(list(records.values())).split(b" ", 1)[1]
        elif way < 0.4:
            made = b"REC " + in_version(1, made[4:])
    else:
        made = rng.choice([b"ACK ------", b"GRANT 1 1 ------", b"LATER", b"STOP", b"LATER ------", b"", b"ask 1", b"REC"])
    return damaged(rng, made, list(records.values())) if rng.random() < 0.1 else made


def session(rng, states, era, path, held, records):
    """Frames that are answered until none are left; the ledger's records then, and the counts."""
    model = Coordinator(states, era, held)
    counts = collections.Counter()
    frames, due = [], []
    for _ in range(rng.randint(1, 400)):
        made = frame(rng, model, records)
        told, kind = model.answer(made)
        if kind == "too long":
            continue
        frames.append(made)
        counts[kind] += 1
        if told is not None:
            due.append(told)
    run = subprocess.run(
        [PROGRAM, "coord", str(states), "--era", str(era), "--ledger", path],
        input=b"".join(made + b"\n" for made in frames), capture_output=True, check=False)
    answers = run.stdout.split(b"\n")[:-1]
    if answers != due:
        place = next((i for i, (a, b) in enumerate(zip(answers, due)) if a != b), min(len(answers), len(due)))
        raise AssertionError(f"{frames!r}: answer {place}: {answers[place:place + 1]!r}, and not {due[place:place + 1]!r}")
    with open(path, "rb") as file:
        ledger = file.read()
    header = HEADER + b"_".join([b"------"] * states) + b"\n"
    if ledger != header + b"".join(line + b"\n" for line in model.lines):
        raise AssertionError(f"{frames!r}: the ledger is {ledger!r}")
    return model.lines, counts


def main():
    seed = int(sys.argv[1]) if len(sys.argv) > 1 else 1
    sessions = int(sys.argv[2]) if len(sys.argv) > 2 else 500
    rng = random.Random(seed)
    counts = collections.Counter()
    trees = {states: records_of(states) for states in (1, 2, 3)}
    with tempfile.TemporaryDirectory() as folder:
        left = sessions
        while left > 0:
            states = rng.choice([1, 2, 2, 3])
            path = os.path.join(folder, "ledger")
            if os.path.exists(path):
                os.remove(path)
            held = []
            for era in range(1, rng.randint(2, 8)):
                try:
                    held, more = session(rng, states, era, path, held, trees[states])
                except AssertionError as differs:
                    print(f"nodes: seed {seed}: {states} states, era {era}: {differs}")
                    return 1
                counts += more
                left -= 1
    return none_differs(counts, f"nodes: {sum(counts.values())} frames of seed {seed}, none is answered otherwise")


def records_of(states):
    """A record of each table of a tree."""
    with tempfile.TemporaryDirectory() as folder:
        path = os.path.join(folder, "ledger")
        subprocess.run([PROGRAM, "run", str(states), "--far", "3", "--ledger", path], capture_output=True, check=False)
        with open(path, "rb") as file:
            lines = file.read().split(b"\n")[1:-1]
    return {line.split(b" ")[0].decode(): line for line in lines}


if __name__ == "__main__":
    sys.exit(main())
