#!/usr/bin/env python3
"""Records of each kind, damaged or changed at random: what `bb check` answers against judges that were written anew from
docs/FORMATS.md (oracle.py, and for `W` and `R` counts.py and forms.py).

stress/kinds.py any [SEED [BATCHES]]   batches of 5,000 damaged lines of all kinds, records that `bb decide` finds among them
stress/kinds.py P [SEED]               the tables that have a proof of their own (Skelet 1 apart, whose check takes half a
                                       minute: stress/skelet1.py check), each with one entry changed, mirrored, and 10,000
                                       others that are drawn by the seed
stress/kinds.py L                      tables of examples/six-slice.late, as a plain simulator in C ran them, with these numbers
                                       and with others; and numbers at the limits of the kind
stress/kinds.py LETTER compare RECORDS [PROGRAM ..]
                                       LETTER is A, W or R: these records and 2,000 changed ones; what the program prints,
                                       `bb check` where none is named, has to be what is judged here
stress/kinds.py LETTER judge < RECORDS         prints for each record what `bb check` has to print
stress/kinds.py LETTER change COUNT < RECORDS  prints so many changed records, always the same ones
stress/kinds.py W follow STEPS < RECORDS       each claim that stands is followed for so many steps of its table's run, and has
                                       to hold each configuration

Prints how many were compared, and the first that differs; ends with 1 then. The records of stress/cases/rules.case are some of
kind `R` to begin with.
"""
import collections
import os
import random
import re
import subprocess
import sys

from counts import LETTERS, automaton_of, cosets_of, counts_of, is_sum
from oracle import EARLY, LATE, NAMED, answer, mirrored, printed, read_table

TOP = os.path.dirname(os.path.dirname(os.path.abspath(__file__)))
sys.path.insert(0, os.path.join(TOP, "bench"))
from program import PROGRAM  # noqa: E402

# How many changed records, and how many other tables of kind `P`.
CHANGES = 2_000
OTHERS = 10_000
SKELET1 = "1RB1RD_1LC0RC_1RA1LD_0RE0LB_---1RC"
LARGEST = 999_999_999
# Tables that halt late: in how many steps, and with how many ones.
LATE_TABLES = [
    ("1RB0LB_1LC0RE_1LA0LD_0LB---_1RF0RF_1LA0RB", 118_860_137, 13_594),
    ("1RB1LF_1RC0LA_1RD0RB_1LE0RC_0LA0LD_1RE---", 130_158_456, 28_032),
    ("1RB1RE_1RC1RB_1LD0RA_1LB1LD_0RD1RF_---0RA", 294_970_355, 20_484),
    ("1RB0RD_1LC1RE_1LA0LD_0RC0LB_0RB1RF_1RD---", 973_282_669, 20_903),
    ("1RB1LC_0LA0LF_1RD0LB_0RE0RC_1LE1LC_1RD---", 2_717_197_574, 38_862),
]
SCRIPT = b"0123456789abcdegilrstupwABEPRSW.,:;&^<>-"
LINES = 5_000
SEEDS = [
    b"------ H 1", b"1RB1LB_1LA--- H 6", b"1RB1LB_1LA--- L 100000001", b"1RB1RC_1LC---_1RA0LB H 21", b"1RB1LB_1LA0LC_---1LD_1RD0RA H 107",
    b"0RA--- T 0 1 R", b"1RA--- T 0 1 R", b"1RB0LC_1LA0LA_0RA--- C 8 16", b"1RB1LA_0LA0RB C 0 8",
    b"1RB1RC_1LB1LA_---0RB T 12 27 R", b"1RB---_1LC1RB_0RA0LC B 3", b"0RB---_1LB--- B 2",
    b"1RB---_0LA--- N 1 0,1 0,1 0A00,0A01,0B00,1A00,1B00", b"1RB1LA_1RC1RB_1LA--- U",
    b"1RH---_------_------_------_------_------_------ H 1 1", b"1RB---_1RC---_1RD---_1RE---_1RF---_1RG---_------ H 7 7",
    b"1RA--- F R 9 000000000000000000 " + b"1,200," * 8 + b"1,200 1",
]
SYMBOLS = b"0123456789ABCDEFGLRHTNU-_, abcdef"
# Tables that closed position sets and automata settle, and nothing before them.
LISTED = ["1RB1LA_1RC1RB_1LA---", "0RB---_0LC1RB_1LA1LC"]
AUTOMATIC = ["1RB1LC_0LA0RB_1LA---", "1RB---_1LC0RB_1LB1LA", "0RB0LA_1LA1RC_1RB---"]


def found(tables, *options):
    """Records that bb itself finds for tables, as more to begin with."""
    text = "".join(f"{t}\n" for t in tables).encode()
    run = subprocess.run([PROGRAM, "decide", *options], input=text, capture_output=True, check=False)
    return [line for line in run.stdout.split(b"\n") if line]


def random_table(rng):
    states = rng.choice([1, 2, 2, 3, 3, 3, 4, 4, 4, 5, 6, 7])
    def entry():
        return "---" if rng.random() < 0.15 else rng.choice("01") + rng.choice("LR") + rng.choice("ABCDEFG"[:states])
    return "_".join(entry() + entry() for _ in range(states))


def damaged(rng, line, others):
    """A line with one to three faults, or whole."""
    for _ in range(rng.choice([0, 1, 1, 1, 2, 3])):
        fields = line.find(b" ") + 1 if rng.random() < 0.7 else 0
        place = rng.randint(fields, len(line))
        way = rng.randrange(7)
        if way == 0:
            line = line[:place] + line[place + 1:]
        elif way == 1:
            line = line[:place] + bytes([rng.choice(SYMBOLS)]) + line[place:]
        elif way == 2:
            line = line[:place] + bytes([rng.choice(SYMBOLS)]) + line[place + 1:]
        elif way == 3 and line:
            place = min(place, len(line) - 1)
            line = line[:place] + bytes([line[place] ^ 1 << rng.randrange(8)]) + line[place + 1:]
        elif way == 4:
            line = line[:place]
        elif way == 5:
            line = line.split(b" ", 1)[0] + b" " + rng.choice(others).split(b" ", 1)[-1]
        else:
            parts = line.split(b" ")
            part = rng.randrange(len(parts))
            if parts[part].isdigit() and len(parts[part]) < 5:
                parts[part] = str(max(0, int(parts[part]) + rng.choice([-8, -1, 1, 8, 15]))).encode()
            line = b" ".join(parts)
    return line.replace(b"\n", b"")


def none_differs(counts, said):
    """Says how many of each kind were compared, and that none differs."""
    for kind, count in sorted(counts.items()):
        print(f"{count:9} {kind}")
    print(said)
    return 0


def compare_any(seed=1, batches=10):
    rng = random.Random(seed)
    counts = collections.Counter()
    large = found(LISTED, "--far", "0", "--gram", "3") + found(AUTOMATIC, "--gram", "0", "--far", "3")
    for _ in range(batches):
        made = found((random_table(rng) for _ in range(500)), "--gram", "3", "--far", "3")
        made += found((random_table(rng) for _ in range(200)), "--hard")
        for line in made:
            if (answer(line) or "").startswith("refused"):
                print(f"kinds: seed {seed}: bb decide answers {line!r}")
                return 1
        counts["found by bb decide, and stands"] += len(made)
        whole = SEEDS + made
        lines = [damaged(rng, rng.choice(large if rng.random() < 0.2 else whole), whole) for _ in range(LINES)]
        run = subprocess.run([PROGRAM, "check"], input=b"".join(line + b"\n" for line in lines), capture_output=True, check=False)
        answers = run.stdout.decode().split("\n")
        if len(answers) != LINES + 1 or run.stderr or run.returncode != 1:
            print(f"kinds: {len(answers) - 1} answers, status {run.returncode}, {run.stderr!r}")
            return 1
        for line, told in zip(lines, answers):
            due = answer(line)
            if due is None:
                counts["too long to judge here"] += 1
            elif due != told:
                print(f"kinds: seed {seed}: {line!r}: {told!r}, and not {due!r}")
                return 1
            else:
                counts[" ".join(due.split(" ")[:2]) if due.startswith("refused") else due.split(" ")[1]] += 1
    return none_differs(counts, f"kinds: {batches * LINES} damaged lines of seed {seed}, none differs")


def entries(states):
    """All entries of a table with so many states, and none."""
    return [None] + [(write, move, state) for write in (0, 1) for move in (-1, 1) for state in range(states)]


def with_one_changed(table):
    """The table with each of its entries changed in each way."""
    rows = read_table(table.encode())
    for q, row in enumerate(rows):
        for s in (0, 1):
            for entry in entries(len(rows)):
                if entry != row[s]:
                    other = [list(row) for row in rows]
                    other[q][s] = entry
                    yield printed(other)


def drawn_table(rng):
    states = rng.randint(1, 7)
    choices = entries(states)
    return printed([[rng.choice(choices), rng.choice(choices)] for _ in range(states)])


def compare_named(seed=1):
    rng = random.Random(seed)
    named = sorted(NAMED - {SKELET1})
    others = {other for table in NAMED for other in with_one_changed(table)}
    others |= {printed(mirrored(read_table(table.encode()))) for table in NAMED}
    others |= {drawn_table(rng) for _ in range(OTHERS)}
    others = sorted(others - NAMED)
    text = "".join(f"{table} P\n" for table in named + others)
    answers = subprocess.run([PROGRAM, "check"], input=text, capture_output=True, text=True, check=False).stdout.splitlines()
    wanted = [f"{table} never" for table in named] + ["refused 201"] * len(others)
    wrong = [f"{table} P: {answer}" for table, answer, right in zip(named + others, answers, wanted) if answer != right]
    if len(answers) != len(wanted):
        wrong.append(f"{len(answers)} answers to {len(wanted)} records")
    for line in wrong[:20]:
        print(f"kinds: P: {line}")
    print(f"kinds: P: {len(named)} tables with a proof of their own, {len(others)} others: {len(wrong)} answered otherwise")
    return 1 if wrong else 0


def late_records():
    """Records of late halts, each with its answer."""
    for table, steps, ones in LATE_TABLES:
        yield f"{table} L {steps} {ones}", f"{table} halts {steps} ones {ones}"
        yield f"{table} L {steps}", f"{table} halts {steps}"
        yield f"{table} H {steps} {ones}", "refused 202"
        for k, s in ((steps - 1, ones), (steps + 1, ones), (steps, ones - 1), (steps, ones + 1)):
            yield f"{table} L {k} {s}", "refused 201"
    for k, code in ((EARLY, 303), (EARLY + 1, 201), (LATE, 201), (LATE + 1, 202), (2 ** 64 - 1, 202), (2 ** 64, 303)):
        yield f"1RB1LB_1LA--- L {k} 4", f"refused {code}"


def compare_late():
    records = list(late_records())
    text = "".join(f"{record}\n" for record, _ in records)
    answers = subprocess.run([PROGRAM, "check"], input=text, capture_output=True, text=True, check=False).stdout.splitlines()
    wrong = [f"{record}: {told}" for (record, due), told in zip(records, answers) if told != due]
    if len(answers) != len(records):
        wrong.append(f"{len(answers)} answers to {len(records)} records")
    for line in wrong:
        print(f"kinds: L: {line}")
    print(f"kinds: L: {len(records)} records of late halts: {len(wrong)} answered otherwise")
    return 1 if wrong else 0


# Of each kind: a record with something else in one place.

def change_number(rng, numbers, limit):
    """One of some numbers is another one, as text."""
    numbers = list(numbers)
    numbers[rng.randrange(len(numbers))] = b"%d" % rng.randrange(limit + 1)
    return numbers


def changed_row(rng, text, last):
    """A row that lists more, less, nothing, or isn't listed."""
    way = rng.randrange(6)
    if way == 0:
        return b"-"
    if way == 1:
        return b"."
    numbers = [] if text in (b"-", b".") else [int(it) for it in text.split(b".")]
    if way in (2, 3):
        numbers = sorted({*numbers, rng.randrange(last + (way == 3))})
    elif way == 4 and numbers:
        numbers.pop(rng.randrange(len(numbers)))
    elif numbers:
        numbers.append(numbers[-1])
    return b".".join(b"%d" % it for it in numbers) or b"."


def change_listed(rng, line):
    """A record with something else in one place."""
    table, kind, to, count, delta, rows, keep = line.split(b" ")
    states = (len(table) + 1) // 7
    last = int(count) * states
    items = rows.split(b",")
    way = rng.randrange(12)
    if way < 6:
        listed_ones = [k for k, it in enumerate(items) if it != b"-"]
        k = rng.choice(listed_ones if way < 4 else range(len(items)))
        items[k] = changed_row(rng, items[k], last)
        rows = b",".join(items)
    elif way < 8:
        delta = b",".join(change_number(rng, delta.split(b","), int(count)))
    elif way == 8:
        members = sorted({*map(int, keep.split(b",")), rng.randrange(last + 1)})
        if rng.randrange(2):
            members.pop(rng.randrange(len(members)))
        keep = b",".join(b"%d" % it for it in members)
    elif way == 9:
        place = 7 * rng.randrange(states) + 3 * rng.randrange(2)
        entry = b"%d%c%c" % (rng.randrange(2), rng.choice(b"LR"), rng.choice(b"ABCDEFG"[:states]))
        table = table[:place] + (b"---" if rng.randrange(4) == 0 else entry) + table[place + 3:]
    elif way == 10:
        to = b"L" if to == b"R" else b"R"
    else:
        text = bytearray(line)
        text[rng.randrange(len(text))] = rng.choice(b"0123456789,.-+ALR ")
        return bytes(text)
    return b" ".join([table, kind, to, count, delta, rows, keep])


def changed_count(rng, text):
    """One of a text's numbers is another one."""
    places = list(re.finditer(rb"[0-9]+", text))
    place = rng.choice(places)
    number = int(place[0])
    other = rng.choice([number + 1, max(0, number - 1), rng.randrange(10), rng.randrange(100), LARGEST])
    return text[:place.start()] + b"%d" % other + text[place.end():]


def change_counted(rng, line):
    """A record with something else in one place."""
    table, kind, left_counts, right_counts, left, right, cosets = line.split(b" ")
    way = rng.randrange(12)
    if way < 6:
        cosets = changed_count(rng, cosets)
    elif way == 6:
        left = changed_count(rng, left)
    elif way == 7:
        right = changed_count(rng, right)
    elif way == 8:
        items = cosets.split(b",")
        items.pop(rng.randrange(len(items)))
        cosets = b",".join(items) or b"0"
    elif way == 9:
        place = 7 * rng.randrange((len(table) + 1) // 7) + 3 * rng.randrange(2)
        table = table[:place] + b"%d%c%c" % (rng.randrange(2), rng.choice(b"LR"), rng.choice(b"AB")) + table[place + 3:]
    elif way == 10:
        letters = LETTERS[:4].encode()
        text = bytearray(cosets)
        places = [k for k, byte in enumerate(text) if byte in letters]
        if places:
            text[rng.choice(places)] = rng.choice(letters)
        cosets = bytes(text)
    else:
        text = bytearray(line)
        text[rng.randrange(len(text))] = rng.choice(b"0123456789,:-abAB ")
        return bytes(text)
    return b" ".join([table, kind, left_counts, right_counts, left, right, cosets])


def changed_byte(rng, text):
    """A text with another byte at a place, one more, or one less."""
    place = rng.randrange(len(text) + 1)
    letter = bytes([rng.choice(SCRIPT)])
    way = rng.randrange(4)
    if way == 0:
        return text[:place] + letter + text[place:]
    return text[:place] + (letter if way < 3 else b"") + text[place + 1:]


def changed_number(rng, text):
    """A text with another one of its numbers."""
    numbers = list(re.finditer(rb"[0-9]+", text))
    if not numbers:
        return changed_byte(rng, text)
    number = rng.choice(numbers)
    other = int(number[0]) + rng.choice((-1, 1, 2))
    return text[:number.start()] + b"%d" % max(other, 0) + text[number.end():]


def changed_order(rng, text):
    """A script with two moves that stand side by side exchanged, or one of them left out."""
    moves = text.split(b",")
    place = rng.randrange(len(moves))
    if rng.randrange(2):
        moves[place:place + 2] = moves[place:place + 2][::-1]
    else:
        del moves[place]
    return b",".join(moves)


def change_rules(rng, line):
    """A record with something else in one place."""
    table, kind, *fields = line.split(b" ")
    place = rng.randrange(len(fields))
    way = rng.choice((changed_byte, changed_number, changed_number, changed_order))
    fields[place] = way(rng, fields[place])
    return b" ".join([table, kind] + fields)


def has_fault(line, steps):
    """The first time at which the claim doesn't hold the configuration of its table's run, and why; or nothing."""
    table, _, *fields = line.split(b" ")
    rows = read_table(table)
    split, _ = numbers = counts_of(*fields[:2])
    size = sum(numbers)
    left, right, text = (field.decode() for field in fields[2:])
    automata = automaton_of(left, 0, split), automaton_of(right, split, size)
    cosets = cosets_of(text, len(rows), [states for states, _ in automata], size)
    counts, tape, head, state = [0] * size, {}, 0, 0
    # Behind each cell that was read, and isn't blank all the way, the state before it.
    behind, at = [[], []], [0, 0]
    for time in range(steps):
        symbol = tape.get(head, 0)
        coset = cosets.get((at[0], state, symbol, at[1]))
        if coset is None or not is_sum([a - b for a, b in zip(counts, coset[0])], coset[1]):
            return f"doesn't hold the configuration at time {time}"
        entry = rows[state][symbol]
        if entry is None:
            return f"halts at time {time}"
        write, move, state = entry
        taking, giving = (0, 1) if move > 0 else (1, 0)
        if (at[taking], write) not in automata[taking][1]:
            return f"can't read on at time {time}"
        if write or at[taking] or behind[taking]:
            behind[taking].append(at[taking])
        at[taking], count = automata[taking][1][at[taking], write]
        if count is not None:
            counts[count] += 1
        tape[head] = write
        head += move
        if behind[giving]:
            at[giving] = behind[giving].pop()
            count = automata[giving][1][at[giving], tape.get(head, 0)][1]
            if count is not None:
                counts[count] -= 1
    return None


def follow(steps):
    followed, wrong = 0, 0
    for line in sys.stdin.buffer.read().splitlines():
        if not answer(line).endswith(" never"):
            continue
        followed += 1
        fault = has_fault(line, steps)
        if fault:
            wrong += 1
            print(f"kinds: W: {fault}: {line.decode()}")
    print(f"kinds: W: {followed} claims that stand were followed for {steps} steps; {wrong} don't hold")
    return 1 if wrong else 0


def changes(change, seed, lines, count):
    rng = random.Random(seed)
    short = [line for line in lines if len(line) < 4_000] or lines
    return [change(rng, rng.choice(short)) for _ in range(count)]


def compare(letter, lines, command):
    """Whether a program's answers are those that are judged here."""
    given = subprocess.run(command, input=b"\n".join(lines) + b"\n", capture_output=True).stdout.decode().splitlines()
    if len(given) != len(lines):
        print(f"kinds: {letter}: {len(given)} answers to {len(lines)} records")
        return 1
    told, wrong = {}, 0
    for line, got in zip(lines, given):
        expected = answer(line)
        kind = expected if expected.startswith("refused") else "never"
        told[kind] = told.get(kind, 0) + 1
        if got != expected:
            wrong += 1
            print(f"kinds: {letter}: {got}, and not {expected}: {line.decode()}")
    shown = ", ".join(f"{count} {kind}" for kind, count in sorted(told.items()))
    print(f"kinds: {letter}: {len(lines)} records: {shown}; {wrong} answers differ")
    return 1 if wrong else 0


# How a record of each kind is changed, and by which seed.
CHANGED = {"A": (change_listed, 61), "W": (change_counted, 62), "R": (change_rules, 17)}


def of_kind(letter, words):
    """Does what the words ask for with records of a kind."""
    change, seed = CHANGED[letter]
    if words[0] == "compare":
        with open(words[1], "rb") as file:
            lines = file.read().splitlines()
        return compare(letter, lines + changes(change, seed, lines, CHANGES), words[2:] or [PROGRAM, "check"])
    lines = sys.stdin.buffer.read().splitlines()
    if words[0] == "judge":
        for line in lines:
            print(answer(line))
    else:
        sys.stdout.buffer.write(b"".join(line + b"\n" for line in changes(change, seed, lines, int(words[1]))))
    return 0


def main():
    kind, *words = sys.argv[1:] or ["--help"]
    if kind == "any":
        return compare_any(*map(int, words))
    if kind == "P":
        return compare_named(*map(int, words))
    if kind == "L" and not words:
        return compare_late()
    if kind == "W" and words[:1] == ["follow"]:
        return follow(int(words[1]))
    if kind in CHANGED and (words[:1] == ["judge"] or words[:1] in (["change"], ["compare"]) and len(words) > 1):
        return of_kind(kind, words)
    print(__doc__.strip())
    return 0 if kind in ("-h", "--help") else 2


if __name__ == "__main__":
    sys.exit(main())
