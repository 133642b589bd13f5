#!/usr/bin/env python3
"""How the records of examples/five-states.known were found, and that they are what is said of them: stress/known.py.

They are those of the tree of five states that no search of bb found when they were made. Each falls to rules with induction since;
the records stay, for walks that leave those stages out. The searches that found them were plain programs that aren't kept here; HOW
says what each did, so that they can be made again. Whoever doesn't believe in them needn't: bb judges each record, and so does the
judge of judge/ (which needs ocamlfind), as this script does. It also asks `bb decide --hard` for each table, which finds rules,
accepted by both judges. Ends with 1 where something is not so.
"""
import os
import sys
import tempfile

TOP = os.path.dirname(os.path.dirname(os.path.abspath(__file__)))
sys.path.insert(0, os.path.join(TOP, "bench"))
from measured import judge, run  # noqa: E402
from program import PROGRAM  # noqa: E402

LEARNED = """The half tapes of 2,000 steps of the run, read from far away, are put into a tree for each side. Two nodes are one state
where the same was ever seen to follow them in the next cells up to the head, with the head's state and what is beyond it. Every
transition is counted in a count of its own, and the cosets are closed, an item after another; where a transition is missing that the
closure asks for, the states that are most alike are tried in turn, a new one first."""
FEWER = " Then counts were left out, or made one, as long as the check accepts."
BY_HAND = """The automata were made by hand from those of 1RB1LC_1LC1RA_0LE0LD_0RA1RD_---0LC, which does the same in two steps less: in
these a 1 is pushed on the right and taken off again, so a state of the right automaton stands in three, which know which transition
pushed it; one count on each side is enough. The cosets were closed by the check's own rules."""

HOW = {
    "0RB1RA_1RC1LD_1LC1RB_0LE0LA_---0LD": BY_HAND,
    "0RB1RA_1RC1LD_1LD1RB_0LE0LA_---0LD": LEARNED + FEWER,
    "1RB0LD_1RC0RA_0RD0RB_1LE---_1LB0LC": LEARNED,
    "1RB0RC_1LC0LE_0LD0LB_1RA---_1LB0RD": LEARNED,
    "1RB0RE_0RC0RA_1LD---_1LA0LB_1RA0LC": LEARNED,
    "1RB1LC_1LB1RA_0LE0LD_0RA1RD_---0LC": BY_HAND,
    "1RB1LC_1LC1RA_0LE0LD_0RA1RD_---0LC": LEARNED + FEWER,
}


def what(record):
    """A record of counted automata in a line: its kind, and how large it is."""
    table, kind, first, second = record.split(" ")[:4]
    return f"{table} {kind}, {first} and {second} counts, {len(record):,} bytes"


def stand(records):
    """Whether both judges say of each record that its table never halts."""
    text = "".join(record + "\n" for record in records).encode()
    never = "".join(record.split(" ")[0] + " never\n" for record in records).encode()
    with tempfile.TemporaryDirectory() as folder:
        return run([PROGRAM, "check"], text)[1] == never == run([judge(folder), "check"], text)[1]


def main():
    with open(os.path.join(TOP, "examples", "five-states.known"), encoding="ascii") as file:
        records = file.read().splitlines()
    tables = [record.split(" ")[0] for record in records]
    answers = run([PROGRAM, "decide", "--hard"], "".join(table + "\n" for table in tables).encode())[1].decode().splitlines()
    faults = []
    for record, answer in zip(records, answers, strict=True):
        table, kind = record.split(" ")[0], answer.split(" ")[1]
        print(what(record))
        print("    " + HOW[table].replace("\n", "\n    "))
        if kind != "R":
            faults.append(f"{table}: bb decide --hard answers {kind}, and rules were due")
    if not stand(records):
        faults.append("A RECORD ISN'T ACCEPTED")
    if not stand(answers):
        faults.append("A RECORD THAT WAS FOUND ISN'T ACCEPTED")
    if set(HOW) != set(tables) or len(tables) != len(HOW):
        faults.append("THE FILE HAS OTHER TABLES")
    print("\n".join(faults) or f"{len(records)} records, accepted by both judges; each of their tables has rules too")
    return 1 if faults else 0


if __name__ == "__main__":
    sys.exit(main())
