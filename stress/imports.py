#!/usr/bin/env python3
"""Certificates of others, as contrib/import/ reads them: stress/imports.py [PROGRAM [SEED]].

Tables of four states from the ledger in examples/, of five from its holdouts, and drawn ones of four to seven have records of
bb. Width, automaton, side and times alone are given to the importers, in each of the forms that they read, as lists, by index
and as verification files; of each line a record has to come, of the same width, automaton, side or times, and `bb check` has
to accept it. Position sets have to be those of bb to the byte. Then damaged lines and files: each line comes to a record or to
a word why not, and what comes is accepted. Last the examples of contrib/import/README.md. Prints counts; ends with 1 at the
first fault.
"""
import collections
import lzma
import os
import random
import struct
import subprocess
import sys
import tempfile

from oracle import mirrored, read_table, run as configurations
from kinds import damaged, random_table

TOP = os.path.dirname(os.path.dirname(os.path.abspath(__file__)))
sys.path.insert(0, os.path.join(TOP, "bench"))
from program import PROGRAM as KEPT  # noqa: E402

PROGRAM = os.path.abspath(sys.argv[1]) if len(sys.argv) > 1 else KEPT
FROM_LEDGER = {"C": 100, "T": 100, "F": 150, "N": 30}
HOLDOUTS, DRAWN, DAMAGED, SPOILT_FILES = 120, 500, 1_500, 25
# Tables that no times, widths or automata fit, since they halt.
HALTING = ["1RB1LB_1LA---", "1RB1RC_1LC---_1RA0LB", "1RB1LB_1LA0LC_---1LD_1RD0RA"]


class Fault(Exception):
    """What isn't as it should be."""


# Records of bb.

def decided(tables, *words):
    """The records that bb finds for tables."""
    text = "".join(f"{table}\n" for table in tables)
    command = [PROGRAM, "decide", *words]
    return subprocess.run(command, input=text, capture_output=True, text=True, check=True).stdout.splitlines()


def in_examples(name):
    with lzma.open(os.path.join(TOP, "examples", name), "rt", encoding="ascii") as file:
        return file.read().splitlines()


def known_records(rng):
    """Records by kind, each as its parts."""
    by_kind = collections.defaultdict(list)
    for line in in_examples("four-states.ledger.xz")[1:]:
        by_kind[line[28]].append(line)
    lines = [line for kind, most in FROM_LEDGER.items() for line in rng.sample(by_kind[kind], min(most, len(by_kind[kind])))]
    four = [line.split(" ", 1)[0] for line in lines]
    drawn = sorted({table for table in (random_table(rng) for _ in range(10 * DRAWN)) if len(table) >= 27})
    five = rng.sample(in_examples("five-states.holdouts.xz"), HOLDOUTS) + rng.sample(drawn, min(len(drawn), DRAWN))
    lines += decided(five, "--hard")
    lines += decided(four + five, "--steps", "10", "--depth", "0", "--gram", "6", "--far", "0")
    lines += decided(four + five, "--steps", "10", "--depth", "0", "--gram", "0", "--far", "16", "--words", "11")
    known = collections.defaultdict(list)
    for line in sorted(set(lines)):
        parts = line.split(" ")
        known[parts[1]].append(parts)
    return known


# Lines with the parameters of a record alone.

def lettered(table):
    """The same table, with letters where it halts."""
    return table.replace("---", "1RZ", 1).replace("---", "0LH")


def width_lines(parts):
    table, _, g = parts[:3]
    less = max(1, int(g) - 1)
    return [f"{table} {g}", f"{table}, NGRAM_CPS, {g}", f"{lettered(table)} NGRAM_CPS_IMPL_1 {g} {g} 100\r",
            f"{table} {less} {g}", f"{table},nonhalt,NGRAM_CPS_IMPL2_params_{g}_{less}_1600",
            f"{table},nonhalt,NGRAM_CPS_IMPL1_params_9_{less}_{g}_1600",
            f"https://bbchallenge.org/{table}&s=100 {g} # {table} 7"]


def targets_of(parts):
    delta = parts[4]
    return [int(it, 16) for it in delta] if parts[1] == "F" else [int(it) for it in delta.split(",")]


def automaton_lines(parts, name=None):
    """The same with another name of the machine, by which only some forms differ."""
    table, side, targets = name or parts[0], parts[2], targets_of(parts)
    pairs = list(zip(targets[::2], targets[1::2]))
    brackets = ",".join(f"[{a},{b}]" for a, b in pairs)
    spaced = ", ".join(f"[{a}, {b}]" for a, b in pairs)
    number, word = ("0", "left-to-right") if side == "R" else ("1", "right-to-left")
    semicolons, flat = ";".join(f"{a},{b}" for a, b in pairs), ",".join(map(str, targets))
    return [f"{table} FAR_DFA {number} [{brackets}]", f"{table}, {number}, [{spaced}]\r",
            f"{table},nonhalt,FAR,{word},[{brackets}]", f"{lettered(table)} {side} {semicolons}",
            f"\t{table} DFA {side} {flat} # x"]


def shift_of(table, i, j):
    if j > 2_000:
        return 0
    heads = [config[1] for config in configurations(read_table(table.encode()), j)]
    return heads[j] - heads[i]


def time_lines(parts):
    table, i, j = parts[0], int(parts[2]), int(parts[3])
    return [f"{table} {i} {j}", f"{table},LOOP,start={i},period={j - i},offset={shift_of(table, i, j)}\r",
            f"{table} {i} {j - i}", f"12;{lettered(table)};0.25s;{i};{j}"]


# What the importers give.

def imported(script, given, *words):
    """What comes on both outputs, as lines; the status has to fit."""
    command = [sys.executable, os.path.join(TOP, "contrib", "import", script), *words]
    run = subprocess.run(command, input=given, capture_output=True, check=False)
    said = run.stderr.decode().splitlines()
    if run.returncode != (1 if said else 0) or "Traceback" in run.stderr.decode():
        raise Fault(f"{script}: status {run.returncode}: {said[-3:]}")
    return run.stdout.decode().splitlines(), said


def accepted(records):
    """Has bb judge records; each has to stand."""
    text = "".join(f"{record}\n" for record in records)
    answers = subprocess.run([PROGRAM, "check"], input=text, capture_output=True, text=True, check=False).stdout.splitlines()
    if len(answers) != len(records):
        raise Fault(f"{len(answers)} answers to {len(records)} records")
    for record, answer in zip(records, answers):
        if answer != record.split(" ")[0] + " never":
            raise Fault(f"{answer}: {record}")


def same(parts, came, line):
    """Whether a record says of a table what the known one does: the same width, automaton or times."""
    new = came.split(" ")
    if new[0] != parts[0]:
        return False
    if parts[1] == "N":
        return new == parts
    if parts[1] in "FA":
        return new[1] in "FA" and new[2:4] == parts[2:4] and targets_of(new) == targets_of(parts)
    return new == parts or f" {parts[2]} {int(parts[3]) - int(parts[2])}" in line and new[1] == parts[1]


def all_come(script, known, lines, *words):
    """Gives the lines of records; the records that came."""
    given = [(parts, line) for parts in known for line in lines(parts)]
    came, said = imported(script, "".join(f"{line}\n" for _, line in given).encode(), *words)
    if said:
        raise Fault(f"{script}: {said[0]}: {given[int(said[0].split(':')[0].split()[1]) - 1][1]}")
    for (parts, line), record in zip(given, came):
        if not same(parts, record, line):
            raise Fault(f"{script}: {line} came to {record}")
    accepted(came)
    return came


def counted(records):
    kinds = collections.Counter(record.split(" ")[1] for record in records)
    return ", ".join(f"{count} {kind}" for kind, count in sorted(kinds.items()))


# By index and as verification files.

def seed_of(table):
    """The 30 bytes of a table of five states."""
    entries = [entry for row in read_table(table.encode()) for entry in row]
    return b"".join(bytes(3) if it is None else bytes([it[0], it[1] < 0, it[2] + 1]) for it in entries)


def verification_file(known):
    entries = []
    for index, parts in enumerate(known):
        side, targets = bytes([parts[2] == "L"]), bytes(targets_of(parts))
        facts = [side + targets, side + struct.pack(">HH", len(targets) // 2, 3) + targets + bytes(9)][index % 2]
        entries.append(struct.pack(">III", index, 10 + index % 2, len(facts)) + facts)
    return struct.pack(">I", len(entries)) + b"".join(entries)


def by_index(folder, known):
    """Automata of machines that are named by their indices: how many records came, of lists and of files."""
    known = [parts for parts in known if max(targets_of(parts)) < 256 and len(parts[0]) == 34]
    names = {name: os.path.join(folder, name) for name in ("list", "seeds", "dvf")}
    texts = {"list": b"# machines\r\n" + b"".join(parts[0].encode() + b"\r\n" for parts in known),
             "seeds": bytes(range(30)) + b"".join(seed_of(parts[0]) for parts in known),
             "dvf": verification_file(known)}
    for name, text in texts.items():
        with open(names[name], "wb") as file:
            file.write(text)
    places = {tuple(parts): str(index) for index, parts in enumerate(known)}
    count = 0
    for option, name in (("--machines", "list"), ("--seeds", "seeds")):
        count += len(all_come("dfa.py", known, lambda it: automaton_lines(it, places[tuple(it)])[1:2], option, names[name]))
        came, said = imported("dfa.py", b"", option, names[name], "--dvf", names["dvf"])
        if said or len(came) != len(known) or not all(same(parts, record, "") for parts, record in zip(known, came)):
            raise Fault(f"dfa.py: a verification file: {len(came)} of {len(known)}: {said[:1]}")
        accepted(came)
        count += len(came)
    return count, names, texts["dvf"]


# What is damaged, and what doesn't do.

def has_words(line):
    return bool(line.decode("utf-8", "replace").lstrip("\ufeff").split("#")[0].strip())


def damaged_lines(rng, script, lines):
    """How many of so many damaged lines come to a record, each of which stands."""
    lines = [line.encode() for line in lines]
    spoilt = [damaged(rng, rng.choice(lines), lines) for _ in range(DAMAGED)]
    came, said = imported(script, b"\n".join(spoilt))
    if len(came) + len(said) != sum(map(has_words, spoilt)):
        raise Fault(f"{script}: {len(came)} records and {len(said)} words to {sum(map(has_words, spoilt))} lines")
    accepted(came)
    return len(came)


def damaged_files(rng, names, text):
    count = 0
    for _ in range(SPOILT_FILES):
        spoilt = bytearray(text)
        for _ in range(rng.choice([1, 5, 50])):
            spoilt[rng.randrange(len(spoilt))] ^= 1 << rng.randrange(8)
        with open(names["dvf"], "wb") as file:
            file.write(spoilt[:rng.choice([rng.randrange(len(spoilt)), len(spoilt)])])
        came, _ = imported("dfa.py", b"", "--seeds", names["seeds"], "--dvf", names["dvf"])
        accepted(came)
        count += len(came)
    return count


def none_comes(script, lines):
    came, said = imported(script, "".join(f"{line}\n" for line in lines).encode())
    if came or len(said) != len(lines):
        raise Fault(f"{script}: a record of a table that halts: {came[:1]}")


def halting():
    """Tables that halt, with what any other might have."""
    none_comes("ngram.py", [f"{table} {g}" for table in HALTING for g in range(1, 9)])
    none_comes("cycles.py", [f"{table} {i} {j}" for table in HALTING for i in range(10) for j in range(i + 1, 12)])
    automata = ["[[0,0]]", "[[0,1],[0,1]]", "[[0,1],[1,1]]", "[[0,1],[2,1],[0,2]]", "[[0,1],[2,3],[3,1],[3,3]]"]
    none_comes("dfa.py", [f"{table} {side} {goes}" for table in HALTING for side in "LR" for goes in automata])


def mirror_images(known):
    """Position sets, cycles and automata of mirrored tables: sides are read as they are meant."""
    for parts in known["F"] + known["A"]:
        table = "_".join("".join("---" if it is None else f"{it[0]}{'LR'[it[1] > 0]}{'ABCDEFG'[it[2]]}" for it in row)
                         for row in mirrored(read_table(parts[0].encode())))
        yield [table, parts[1], "L" if parts[2] == "R" else "R", *parts[3:]]


def main():
    rng = random.Random(int(sys.argv[2]) if len(sys.argv) > 2 else 1)
    known = known_records(rng)
    print("known: " + ", ".join(f"{len(records)} {kind}" for kind, records in sorted(known.items())))
    automata = known["F"] + known["A"]
    for script, records, lines in (("ngram.py", known["N"], width_lines), ("cycles.py", known["C"] + known["T"], time_lines),
                                   ("dfa.py", automata, automaton_lines)):
        came = all_come(script, records, lines)
        print(f"{script}: {len(came)} lines of {len(records)} records: all come, and stand: {counted(came)}")
        some = [line for parts in records if sum(map(len, parts)) < 4_000 for line in lines(parts)]
        print(f"{script}: {DAMAGED} damaged lines: {damaged_lines(rng, script, some)} come to a record, and these stand")
    for kind in "FA":
        some = [parts for parts in automata if kind == "A" or int(parts[3]) <= 16]
        came = all_come("dfa.py", some, lambda parts: automaton_lines(parts)[:1], "--kind", kind)
        print(f"dfa.py --kind {kind}: {counted(came)}, and these stand")
    came = all_come("dfa.py", list(mirror_images(known)), lambda parts: automaton_lines(parts)[:1])
    print(f"dfa.py, mirrored tables: {counted(came)}, and these stand")
    with tempfile.TemporaryDirectory() as folder:
        count, names, text = by_index(folder, automata)
        print(f"dfa.py by indices, from lists and verification files: {count} records, and these stand")
        print(f"dfa.py: {SPOILT_FILES} damaged verification files: {damaged_files(rng, names, text)} records, and these stand")
    halting()
    print("tables that halt: none comes to a record")
    examples = [sys.executable, os.path.join(TOP, "stress", "examples.py"), os.path.join(TOP, "contrib", "import", "README.md")]
    return subprocess.run(examples, check=False).returncode


if __name__ == "__main__":
    try:
        sys.exit(main())
    except Fault as fault:
        sys.exit(f"imports: {fault}")
