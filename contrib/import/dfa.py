#!/usr/bin/env python3
"""Finite automata reduction of others: a machine, a side and a deterministic automaton, as records of the kinds F and A.

usage: contrib/import/dfa.py [--kind F|A] [--machines LIST | --seeds DATABASE] [FILE]
       contrib/import/dfa.py [--kind F|A] (--machines LIST | --seeds DATABASE) --dvf FILE

    MACHINE FAR_DFA SIDE [[a,b],[c,d],..]      MACHINE,nonhalt,FAR,SIDE,[[a,b],[c,d],..]
    MACHINE SIDE a,b;c,d;..                    MACHINE SIDE a,b,c,d,..
    INDEX, SIDE, [[a,b],[c,d],..]

For each state of the automaton, from 0 on, the states to which it goes on 0 and on 1. It starts in 0 and stays there on 0.
SIDE is `0`, `L2R`, `left-to-right` or `R` where it reads the half tape on the left of the head, from far away towards the
head, as in a record of side R; `1`, `R2L`, `right-to-left` or `L` where it reads the one on the right. Not all lists mean the
same by such a word, so the other side is tried too, where the one that is given doesn't do; before brackets it may be left out.

INDEX is that of a machine in LIST, whose lines with a machine count from 0, or in DATABASE: 30 bytes for each machine of five
states behind a header of 30, for each pair of state and symbol the symbol written, 0 for right or 1 for left, and the next
state from 1, 0 where it is undefined (the seed database of bbchallenge).

--dvf reads bbchallenge's verification files: big-endian numbers of 32 bits, first how many entries there are; of each the
machine's index, the decider (10: a deterministic automaton alone, 11: a second one too), the length of what follows; then a
byte for the side, 0 for left to right, and the states to which the automaton goes, a byte each. Of a decider 11 two numbers of
16 bits stand behind the side, the states of the first automaton and of the second; the second isn't read. All forms are from
memory: of the database, and of the files with decider 10, it is sure; not of the two numbers of 11, nor of the forms of lines,
which are those that are documented here.

The second automaton's edges are the least that the table asks for. `A` lists those that are needed, `F` has all, for up to 16
states; the shorter one is written, or what --kind says.
"""
import re
import struct

from machines import PassedOver, ended, machine_in, mirrored, options, printed, told_lines, work_off
from machines import STATES

MOST_OF_F = 16
MOST_OF_A = 4_096
RECORD_BYTES = 65_000
# Every edge takes two bytes of a record at least.
MOST_EDGES = RECORD_BYTES // 2
# What may be done for one automaton, some ten seconds, and what may lie there to be done.
MOST_WORK = 5_000_000
# Of an entry: the largest automata have some kilobytes.
MOST_FACTS = 1_000_000

SIDES = {"0": "R", "L2R": "R", "LEFT-TO-RIGHT": "R", "R": "R", "1": "L", "R2L": "L", "RIGHT-TO-LEFT": "L", "L": "L"}
BETWEEN = r"[\s,;:|]+"
CLAIM = re.compile(rf"(?:{BETWEEN})?(?:[A-Z]\w*{BETWEEN})*?(?:({'|'.join(SIDES)}){BETWEEN})?([\[0-9].*)", re.IGNORECASE)
NUMBER = "[0-9]{1,9}"
PAIR = rf"\s*{NUMBER}\s*,\s*{NUMBER}\s*"
AUTOMATON = re.compile(rf"\[\s*\[{PAIR}\](?:\s*,\s*\[{PAIR}\])*\s*\]|{PAIR}(?:;{PAIR})*;?|{PAIR}(?:,{PAIR})*")
INDEX = re.compile(rf"({NUMBER})({BETWEEN}.*)")


# What a line or an entry says.

def claim_of(rest):
    """The side and the targets of the automaton."""
    found = CLAIM.fullmatch(rest)
    if not found or not AUTOMATON.fullmatch(found[2].strip()):
        raise PassedOver("no automaton, which is a list of pairs")
    return SIDES[(found[1] or "R").upper()], [int(number) for number in re.findall(NUMBER, found[2])]


def indexed(line, machine_at):
    """The machine of a line, by its text or its index, and what stands behind it."""
    found = machine_in(line)
    if found is None and machine_at:
        numbered = INDEX.fullmatch(line)
        found = numbered and (machine_at(int(numbered[1])), numbered[2])
    if found is None:
        raise PassedOver("no machine")
    return found


def told_entries(path):
    """The entries of a verification file, each with what names it; where the file doesn't end with its last one, None."""
    with open(path, "rb") as file:
        head = file.read(4)
        count = int.from_bytes(head, "big")
        for number in range(1, count + 1):
            fields = file.read(12)
            length = int.from_bytes(fields[8:], "big")
            facts = file.read(min(length, MOST_FACTS))
            if len(fields) < 12 or len(facts) < length:
                yield f"entry {number} of {count:,}", None
                return
            yield f"entry {number}", (*struct.unpack(">II", fields[:8]), facts)
        if len(head) < 4 or file.read(1):
            yield "the file", None


def claim_of_entry(decider, facts):
    """The side and the targets that an entry has."""
    if decider not in (10, 11):
        raise PassedOver(f"decider {decider}, and no finite automata reduction")
    targets = facts[1:]
    if decider == 11:
        count = int.from_bytes(facts[1:3], "big")
        targets = facts[5:5 + 2 * count]
        if len(targets) < 2 * count:
            raise PassedOver("it ends within the automaton")
    if not targets or len(targets) % 2 or facts[0] > 1:
        raise PassedOver("no side and automaton")
    return SIDES[str(facts[0])], list(targets)


# Machines by their indices.

def listed_machines(path):
    tables = [found[0] for found in (machine_in(line) for _, line in told_lines(path)) if found]

    def machine_at(index):
        if index >= len(tables):
            raise PassedOver(f"index {index}, and the list has {len(tables)} machines")
        return tables[index]
    return machine_at


def seed_machines(path):
    file = open(path, "rb")

    def entry(write, move, following):
        if write > 1 or move > 1 or following > 5:
            raise ValueError
        return (write, -1 if move else 1, following - 1) if following else None

    def machine_at(index):
        file.seek(30 * (index + 1))
        seed = file.read(30)
        try:
            entries = [entry(*seed[place:place + 3]) for place in range(0, 30, 3)]
        except (ValueError, TypeError):
            raise PassedOver(f"index {index}, and no machine stands there") from None
        return [entries[place:place + 2] for place in range(0, 10, 2)]
    return machine_at


# The second automaton. Its states are the numbers q n + f, the edges of such a state v on r are those of the row 2 v + r.

def called_rows(table, goes):
    """The edges of the rows that are needed, and what is kept, as row -1: the least that the table asks for.

    A row's edges are wanted by others, of which each is (None, row), which takes them over, or (w, row), which takes over the
    edges on w of the states to which they go."""
    states, into = len(table), [[] for _ in goes]
    for q, targets in enumerate(goes):
        for b in (0, 1):
            into[targets[b]].append((q, b))
    edges, wanted, found = {-1: set()}, {-1: {(0, -1)}}, 0
    # To do: (row, by whom it is wanted) or (row, a state to which it has an edge).
    work = [(-1, 0)]
    for _ in range(MOST_WORK):
        if not work:
            return edges
        row, given = work.pop()
        if isinstance(given, tuple):
            if row not in edges:
                edges[row], wanted[row] = set(), set()
                work += asked_for(table, goes, into, row)
            if given not in wanted[row]:
                wanted[row].add(given)
                work += [taken(given, v) for v in edges[row]]
        elif given not in edges[row]:
            edges[row].add(given)
            found += 1
            work += [taken(by, given) for by in wanted[row]]
        if found > MOST_EDGES or len(work) > MOST_WORK:
            break
    raise PassedOver("the second automaton takes too many edges for a record")


def asked_for(table, goes, into, row):
    """What a row that is needed asks for at once."""
    (q, state), symbol = divmod(row // 2, len(table)), row % 2
    entry = table[state][symbol]
    if entry is None:
        raise PassedOver(f"the automaton doesn't do: a halting pair is reached, {STATES[state]}{symbol}")
    write, move, following = entry
    if move > 0:
        return [(row, goes[q][write] * len(table) + following)]
    return [(2 * (before * len(table) + following) + b, (write, row)) for before, b in into[q]]


def taken(by, v):
    """What is to be done with an edge to a state, for a row by which it is wanted."""
    write, row = by
    return (row, v) if write is None else (2 * v + write, (None, row))


def all_edges(table, goes):
    """The edges of all rows, each a set of bits, of which the last is for the halt state."""
    states, last = len(table), len(goes) * len(table)
    edges = [0] * (2 * last) + [1 << last] * 2
    back = []
    for row in range(2 * last):
        (q, state), symbol = divmod(row // 2, states), row % 2
        entry = table[state][symbol]
        if entry is None:
            edges[row] = 1 << last
        elif entry[1] > 0:
            edges[row] = 1 << goes[q][entry[0]] * states + entry[2]
        else:
            back += [(2 * (goes[q][b] * states + state) + symbol, 2 * (q * states + entry[2]) + b, entry[0]) for b in (0, 1)]
    changed = True
    while changed:
        changed = False
        for row, first, write in back:
            more = edges[row]
            for v in range(last + 1):
                if edges[first] >> v & 1:
                    more |= edges[2 * v + write]
            changed, edges[row] = changed or more != edges[row], more
    return edges[:2 * last]


# Records.

def f_fields(table, goes, rows):
    targets = "".join(f"{q:x}" for pair in goes for q in pair)
    keep = sum(1 << v for v in rows[-1])
    return f"{len(goes)} {targets} {','.join(f'{edges:x}' for edges in all_edges(table, goes))} {keep:x}"


def a_fields(table, goes, rows):
    def item(row):
        return (".".join(map(str, sorted(rows[row]))) or ".") if row in rows else "-"
    targets = ",".join(str(q) for pair in goes for q in pair)
    listed = ",".join(item(row) for row in range(2 * len(goes) * len(table)))
    return f"{len(goes)} {targets} {listed} {','.join(map(str, sorted(rows[-1])))}"


def written(table, side, goes, kind):
    """The record of an automaton that reads on a side."""
    seen = mirrored(table) if side == "L" else table
    rows = called_rows(seen, goes)
    forms = []
    if kind != "A" and len(goes) <= MOST_OF_F:
        forms.append(f"F {side} {f_fields(seen, goes, rows)}")
    if kind != "F":
        forms.append(f"A {side} {a_fields(seen, goes, rows)}")
    record = f"{printed(table)} {min(forms, key=len)}"
    if len(record) > RECORD_BYTES:
        raise PassedOver(f"the record would have {len(record):,} bytes, and {RECORD_BYTES:,} are the most")
    return record


def record_of(table, side, targets, kind):
    count, most = len(targets) // 2, MOST_OF_F if kind == "F" else MOST_OF_A
    if count > most:
        raise PassedOver(f"an automaton of {count:,} states, and {most:,} are the most")
    if max(targets) >= count:
        raise PassedOver(f"the automaton goes to state {max(targets)}, and has {count}")
    if targets[0] != 0:
        raise PassedOver("the automaton doesn't stay in 0 on 0")
    goes = list(zip(targets[::2], targets[1::2]))
    try:
        return written(table, side, goes, kind)
    except PassedOver as first:
        try:
            return written(table, "L" if side == "R" else "R", goes, kind)
        except PassedOver as second:
            raise PassedOver(f"side {side}: {first}; the other: {second}") from None


def main():
    words = options(__doc__)
    words.add_argument("--kind", choices=("F", "A"), help="write this kind alone")
    words.add_argument("--dvf", metavar="FILE", help="a verification file in place of a list")
    by_index = words.add_mutually_exclusive_group()
    by_index.add_argument("--machines", metavar="LIST", help="a text with the machines of the indices, a line each")
    by_index.add_argument("--seeds", metavar="DATABASE", help="the seed database")
    given = words.parse_args()
    machine_at = listed_machines(given.machines) if given.machines else seed_machines(given.seeds) if given.seeds else None
    if given.dvf is None:
        def of_line(line):
            table, rest = indexed(line, machine_at)
            return record_of(table, *claim_of(rest), given.kind)
        return work_off(told_lines(given.file), of_line)
    if machine_at is None:
        words.error("--dvf needs --machines or --seeds")

    def of_entry(entry):
        if entry is None:
            raise PassedOver("the file doesn't end with its last entry")
        index, decider, facts = entry
        claim = claim_of_entry(decider, facts)
        return record_of(machine_at(index), *claim, given.kind)
    return work_off(told_entries(given.dvf), of_entry)


if __name__ == "__main__":
    ended(main)
