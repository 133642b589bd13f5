#!/usr/bin/env python3
"""Frames, ticks, turns of work and restarts in random order: a worker and a coordinator against plain models of their rules.

stress/roles.py [SEED [SESSIONS]]: events are handed to a node by the program of `crates/try_rows`, which has to be built,
and each answer, with what it appends, sends and notes, is compared. A worker gets grants, acknowledgements and forged frames;
a coordinator of one to three states, for which `nodes.py` has no clock, gets ticks too. Both are begun again from the
ledgers that they wrote. Prints how many events of each kind were answered, and the first that differs, and then ends with 1.
"""
import collections
import os
import random
import subprocess
import sys

from nodes import Coordinator, frame, records_of
from faults import Refused
from oracle import number, printed, read_table
from kinds import damaged, none_differs
from tree import Board, HEADER, is_in_order

TOP = os.path.dirname(os.path.dirname(os.path.abspath(__file__)))
DRIVER = os.path.join(TOP, "crates", "try_rows", "out", "try_rows")
STEPS = 100
MOST_RECORDS = 32
MOST_SENT = 64


def halts_after(rows):
    """In how many steps a table halts and with how many ones, if in no more steps than are looked at."""
    state, head, ones = 0, 0, set()
    for step in range(1, STEPS + 1):
        entry = rows[state][int(head in ones)]
        if entry is None:
            return step, len(ones | {head})
        (ones.add if entry[0] else ones.discard)(head)
        head, state = head + entry[1], entry[2]
    return None


def told(cut=None, appends=b"", sends=b"", note=b""):
    """How an answer is printed."""
    parts = [] if cut is None else [b"cut to %d" % cut]
    parts += [word + b" " + text.replace(b"\n", b"|") for word, text in ((b"appends", appends), (b"sends", sends)) if text]
    return b" ".join(parts + ([note] if note else [])) or b"nothing"


def call(event):
    """The call of an event: a tick, a turn of work or a start by their names, and a frame as it is written out."""
    words = event.split(b" ")
    if event in (b"WORK", b"RESTART") or words[0] == b"TICK":
        return event.lower()
    return b"on " + b"".join(b"%c" % byte if 32 <= byte < 127 and byte not in b"\\|" else b"\\x%02x" % byte for byte in event)


class Worker:
    """The rules of docs/FORMATS.md, with a finder of halting counts."""

    name = b"worker"

    def __init__(self):
        self.board, self.acknowledged, self.lease, self.is_told_to_stop = None, set(), None, False

    def start(self):
        self.acknowledged, self.lease, self.is_told_to_stop = set(), None, False
        return told()

    def answer(self, event):
        words = event.split(b" ")
        if event == b"WORK":
            return self.work(), "work"
        if words[0] == b"TICK":
            return self.tick(), "tick"
        try:
            if words[0] == b"GRANT" and len(words) == 4:
                name = number(words[1]), number(words[2])
                return self.grant(name, read_table(words[3])), "GRANT"
            if words[0] in (b"ACK", b"LATER") and len(words) == 2:
                table = printed(read_table(words[1]))
                return (self.acknowledge(table) if words[0] == b"ACK" else told()), words[0].decode()
        except Refused:
            return told(note=b"strange"), "strange"
        if event == b"LATER":
            return told(), "LATER"
        if event == b"STOP":
            self.is_told_to_stop = True
            return told(), "STOP"
        return told(note=b"strange"), "strange"

    def grant(self, name, rows):
        if not is_in_order(rows):
            return told(note=b"401")
        self.lease, self.acknowledged, self.is_told_to_stop = name, set(), False
        if self.board is not None and self.board.root == rows:
            return told()
        self.board = Board(rows)
        return told(cut=0, appends=HEADER + printed(rows).encode() + b"\n")

    def acknowledge(self, table):
        if self.board is None or table not in self.board.shown:
            return told(note=b"stale")
        self.acknowledged.add(table)
        return told()

    def has_work(self):
        return self.board is not None and self.board.open and len(self.board.lines) < MOST_RECORDS

    def work(self):
        if not self.has_work():
            return told()
        table = min(self.board.open).encode()
        count = halts_after(read_table(table))
        line = table + (b" U" if count is None else b" H %d %d" % count)
        assert self.board.take(line) is None
        return told(appends=line + b"\n", sends=b"REC " + line + b"\n")

    def tick(self):
        if self.is_told_to_stop:
            return told()
        lines = self.board.lines if self.board is not None else []
        due = [line for line in lines if line.split(b" ")[0].decode() not in self.acknowledged][:MOST_SENT]
        if due:
            return told(sends=b"".join(b"REC " + line + b"\n" for line in due))
        if self.has_work():
            return told()
        done = b"" if self.lease is None else b"DONE %d %d\n" % self.lease
        self.lease = None
        return told(sends=done + b"ASK 7\n")

    def event(self, rng, tables):
        way = rng.random()
        if way < 0.35:
            return b"WORK"
        if way < 0.5:
            return b"TICK %d" % rng.randint(0, 9)
        known = self.board.lines if self.board is not None else []
        table = rng.choice(known).split(b" ")[0] if known and rng.random() < 0.8 else rng.choice(tables)
        if way < 0.75:
            return b"ACK " + table
        if way < 0.85:
            root = printed(self.board.root).encode() if self.board is not None and rng.random() < 0.5 else table
            return b"GRANT %d %d %s" % (rng.randint(0, 3), rng.randint(0, 9), root)
        made = rng.choice([b"LATER", b"LATER " + table, b"STOP", b"ASK 1", b"DONE 1 1", b"REC " + table + b" U", b"", b"GRANT 1 1 1RC---_------_------"])
        return damaged(rng, made, [b"GRANT 1 1 " + table]) if rng.random() < 0.3 else made


class Clocked:
    """A coordinator with ticks."""

    def __init__(self, states, records):
        self.states, self.records, self.era = states, records, 0
        self.name = b"coordinator %d 1" % states
        self.model = None

    def start(self):
        held = self.model.lines if self.model else []
        self.era += 1
        self.model = Coordinator(self.states, self.era, held)
        return told() if self.era > 1 else told(appends=HEADER + printed(self.model.board.root).encode() + b"\n")

    def answer(self, event):
        if event == b"WORK":
            return told(), "work"
        words = event.split(b" ")
        if words[0] == b"TICK" and len(words) == 2:
            self.model.tick(number(words[1]))
            return told(), "tick"
        before = len(self.model.lines)
        reply, kind = self.model.answer(event)
        if kind == "too long":
            return None, kind
        appends = b"".join(line + b"\n" for line in self.model.lines[before:])
        return told(appends=appends, sends=b"" if reply is None else reply + b"\n", note=self.model.note), kind

    def event(self, rng, _tables):
        way = rng.random()
        if way < 0.1:
            return b"TICK %d" % max(0, self.model.moment + rng.choice([-5, 0, 1, 20, 59, 60, 61, 200]))
        return b"WORK" if way < 0.12 else frame(rng, self.model, self.records)


def session(rng, node, tables, counts):
    """Events that are answered; what differs, if something does."""
    events, due = [], [node.start()]
    for _ in range(rng.randint(1, 400)):
        if rng.random() < 0.02:
            event, answer, kind = b"RESTART", None, "restart"
            due.append(node.start())
        else:
            event = node.event(rng, tables)
            if b"\n" in event or event == b"RESTART":
                continue
            answer, kind = node.answer(event)
            if kind == "too long":
                continue
            due.append(answer)
        events.append(event)
        counts[f"{node.name.split(b' ')[0].decode()} {kind}"] += 1
    ran = subprocess.run([DRIVER], input=b"".join(line + b"\n" for line in [node.name, *map(call, events)]), capture_output=True, check=False)
    answers = ran.stdout.split(b"\n")[:-1]
    if answers == due:
        return None
    place = next((i for i, (a, b) in enumerate(zip(answers, due)) if a != b), min(len(answers), len(due)))
    return f"{events[:place]!r}: {answers[place:place + 1]!r}, and not {due[place:place + 1]!r}"


def main():
    seed = int(sys.argv[1]) if len(sys.argv) > 1 else 1
    sessions = int(sys.argv[2]) if len(sys.argv) > 2 else 500
    rng = random.Random(seed)
    trees = {states: records_of(states) for states in (1, 2, 3)}
    tables = [table.encode() for table in trees[2]] + [b"------_1LA---", b"1RC---_------_------", b"------"]
    counts = collections.Counter()
    for number_of_session in range(sessions):
        states = rng.choice([1, 2, 2, 3])
        node = Worker() if number_of_session % 2 else Clocked(states, trees[states])
        differs = session(rng, node, tables, counts)
        if differs:
            print(f"roles: seed {seed}: {node.name!r}: {differs}")
            return 1
    return none_differs(counts, f"roles: {sum(counts.values())} events of seed {seed}, none is answered otherwise")


if __name__ == "__main__":
    sys.exit(main())
