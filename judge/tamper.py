#!/usr/bin/env python3
"""Tries to make the judge answer falsely: judge/tamper.py BB [SEED]. BB is the program bb.

Records of the tree of three states are left out, and their numbers, verdicts and bytes changed: the judge must never say complete
with other numbers than S(3) = 21 and Σ(3) = 6, and must refuse each change that makes a record wrong. The certificates of tables
that never halt are given to tables that halt: none may stand. Bytes of records of each kind are changed: what `bb check` accepts
the judge must accept too. (It may accept more, since it keeps fewer limits; how often it did is printed.) Ends with 1 where one of
these isn't so."""
import collections
import lzma
import os
import random
import subprocess
import sys

HERE = os.path.dirname(os.path.abspath(__file__))
EXAMPLES = os.path.join(os.path.dirname(HERE), "examples")
JUDGE = os.path.join(HERE, "judge")
STATES, TRUE = "3", ("complete", "21", "6")
BYTES = "01LRABCDE-_ 23456789HCTBFN,.:"


def run(command, lines):
    return subprocess.run(command, input="".join(line + "\n" for line in lines), text=True, capture_output=True, check=False).stdout.splitlines()


class Ledger:
    """The ledger of three states, and what the judge says of it once it was changed."""

    def __init__(self):
        with open(os.path.join(EXAMPLES, "three-states.ledger"), encoding="ascii") as file:
            self.header, *self.lines = file.read().splitlines()
        kinds = [line.split()[1] for line in self.lines]
        self.halting = [k for k, kind in enumerate(kinds) if kind == "H"]
        self.never = [k for k, kind in enumerate(kinds) if kind != "H"]

    def report(self, k=None, *changed):
        """Status, best and ones, where other lines stand in the place of one."""
        lines = self.lines if k is None else [*self.lines[:k], *changed, *self.lines[k + 1 :]]
        said = dict(line.split(" ", 1) for line in run([JUDGE, STATES, "-"], [self.header, *lines]))
        return said["status"], said["best"], said["ones"]

    def is_refused(self, k, *changed):
        return self.report(k, *changed)[0] != "complete"

    def claim_of(self, k, other):
        """The table of a record with the certificate of another one."""
        return self.lines[k].split()[0] + " " + self.lines[other].split(" ", 1)[1]


def number_changed(ledger, field):
    k = random.choice(ledger.halting)
    parts = ledger.lines[k].split()
    parts[field] = str(max(0, int(parts[field]) + random.choice([-2, -1, 1, 2, 10])))
    return ledger.is_refused(k, " ".join(parts)) or " ".join(parts) == ledger.lines[k]


def left_out(ledger):
    return ledger.is_refused(random.randrange(len(ledger.lines)))


def said_never(ledger):
    k = random.choice(ledger.halting)
    return ledger.is_refused(k, ledger.claim_of(k, random.choice(ledger.never)))


def said_to_halt(ledger):
    k = random.choice(ledger.never)
    return ledger.is_refused(k, ledger.claim_of(k, random.choice(ledger.halting)))


def byte_changed(ledger):
    k = random.randrange(len(ledger.lines))
    line = list(ledger.lines[k])
    line[random.randrange(len(line))] = random.choice(BYTES)
    said = ledger.report(k, "".join(line))
    return said[0] != "complete" or said == TRUE


def trees(ledger, times):
    """How many changes of the ledger weren't refused."""
    tries = (
        ("steps changed", times, lambda: number_changed(ledger, 2)),
        ("ones changed", times, lambda: number_changed(ledger, 3)),
        ("a record left out", times, lambda: left_out(ledger)),
        ("a table that halts said never to", times, lambda: said_never(ledger)),
        ("a table that never halts said to halt", times, lambda: said_to_halt(ledger)),
        ("a byte changed", 2 * times, lambda: byte_changed(ledger)),
    )
    wrong = 0
    for name, count, is_right in tries:
        failed = sum(not is_right() for _ in range(count))
        wrong += failed
        print(f"tamper: {name}: {count} tried, {failed} not refused")
    return wrong


def lies(ledger, each):
    """How many certificates of tables that never halt stand for tables that halt."""
    lines = [ledger.claim_of(k, other) for k in ledger.halting for other in random.sample(ledger.never, each)]
    answers = run([JUDGE, "check"], lines)
    stood = sum(not answer.startswith("refused") for answer in answers) + abs(len(answers) - len(lines))
    print(f"tamper: certificates of others for tables that halt: {len(lines)} tried, {stood} not refused")
    return stood


def with_bytes_changed(record):
    line = list(record)
    for _ in range(random.choice([1, 1, 1, 2])):
        line[random.randrange(len(line))] = random.choice(BYTES + "".join(line[-20:]))
    return "".join(line)


def by_kind():
    """Records of the examples that claim that a table never halts, by their kinds."""
    texts = [lzma.open(os.path.join(EXAMPLES, name), "rt").read() for name in ("five-states.saved.xz", "rules.xz")]
    with open(os.path.join(EXAMPLES, "three-states.ledger"), encoding="ascii") as file:
        texts.append(file.read())
    kinds = collections.defaultdict(list)
    for record in "".join(texts).splitlines():
        kinds[record.split()[1]].append(record)
    return {kind: records for kind, records in kinds.items() if kind in "CTBFANWR"}


def compared(bb, times):
    """How many records with changed bytes the judge refuses that bb accepts."""
    fewer = 0
    for kind, records in sorted(by_kind().items()):
        changed = [with_bytes_changed(random.choice(records)) for _ in range(times)]
        both = [[" never" in answer for answer in run([program, "check"], changed)] for program in (bb, JUDGE)]
        pairs = collections.Counter(zip(*both, strict=True))
        fewer += pairs[True, False]
        print(f"tamper: {kind}: {times} changed, {pairs[True, True]} accepted by both, {pairs[False, True]} by the judge alone, {pairs[True, False]} by bb alone")
    return fewer


def main():
    bb, seed = os.path.abspath(sys.argv[1]), int(sys.argv[2]) if len(sys.argv) > 2 else 1
    random.seed(seed)
    ledger = Ledger()
    if ledger.report() != TRUE:
        sys.exit(f"tamper: FAILED: the ledger of three states as it is: {ledger.report()}")
    wrong = trees(ledger, 40) + lies(ledger, 100) + compared(bb, 3000)
    print("tamper: FAILED" if wrong else "tamper: the judge never answered falsely")
    return 1 if wrong else 0


if __name__ == "__main__":
    sys.exit(main())
