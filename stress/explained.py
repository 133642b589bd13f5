#!/usr/bin/env python3
"""What `bb explain` says in words, in lists, as graphs, as JSON and of runs, and what `bb check` says with --why and --json: beside
a plain script that reads records by docs/FORMATS.md alone (oracle.py, lists.py, notation.py), to the byte.

stress/explained.py [SEED [COUNT]]   the records of `examples/` (of the 858,909 of four states so many times twenty), those of
                                     tables that are drawn by the seed, COUNT of them (1,000 if not said), and as many damaged ones

A part of `./ci`. Prints how many lines were compared, and ends with 1 at the first that is answered otherwise.
"""
import collections
import json
import lzma
import os
import random
import re
import subprocess
import sys

import lists
import notation
import oracle
import shown
from kinds import PROGRAM, TOP

# Runs of more steps aren't made here.
LONG = 20_000

REFUSED = {
    "201": "it doesn't hold for the table",
    "202": "it asks for more than the limit of its kind",
    "203": "it asks for more paths, or larger numbers, than its check keeps",
    "301": "there is no table before the first space",
    "302": "there is no kind of record with these fields",
    "303": "a field is no number or no side",
    "304": "a field is no list of its kind",
    "305": "the record is longer than 65000 bytes",
}

COUNTER = ("a shift overflow counter, two binary counters on both sides of the head, of which the right one overflows into the "
           "left one")
# The tables of kind `P` but Skelet 1, by their numbers in Skelet's list (docs/MACHINES.md).
SKELET = {
    "1RB0RA_0LC1RA_1RE1LD_1LC0LD_---0RB": 10,
    "1RB---_1RC1LB_1LD1RE_1LB0LD_1RA0RC": 15,
    "1RB---_0LC1RE_0LD1LC_1RA1LB_0RB0RA": 17,
    "1RB1LD_1RC0RB_1LA1RC_1LE0LA_1LC---": 26,
    "1RB1LC_0RC0RB_1LD0LA_1LE---_1LA1RE": 33,
    "1RB1LC_0RC0RB_1LD0LA_1LE---_1LA1RA": 34,
    "1RB1LC_0RC0RB_1LD0LA_1LE---_1LA0LA": 35,
}
FORMS = {
    10: "again and again its tape is 1 1 (11)^k 0^k 10, with the head in state E on the second one, for k = 1, 2, 3 and so on",
    17: "its tape is a list of numbers, each a group of so many words 10, with a one between two groups; their parities are the "
        "digits of a Gray code",
}


def many(number, noun):
    return f"{number} {noun}" + ("" if number == 1 else "s")


def every(number):
    return "step" if number == 1 else many(number, "step")


def run_of(table, last):
    """The heads of a run up to a time, and, if it halts by then, in which step, with how many ones, and on which pair."""
    rows = oracle.read_table(table.encode())
    ones, state, head, heads = set(), 0, 0, [0]
    for time in range(1, last + 2):
        entry = rows[state][head in ones]
        if entry is None:
            return heads, (time, len(ones | {head}), "ABCDEFG"[state], int(head in ones))
        if time > last:
            break
        (ones.add if entry[0] else ones.discard)(head)
        head += entry[1]
        state = entry[2]
        heads.append(head)
    return heads, None


def halts(table, steps, ones=None):
    """The words for a table that halts. A long run isn't made here: its table has one pair without an entry, and so halts on that."""
    if steps > LONG:
        place, = (place for place in range(0, len(table), 7) for place in (place, place + 3) if table[place:place + 3] == "---")
        state, symbol = "ABCDEFG"[place // 7], place % 7 // 3
    else:
        _, ones, state, symbol = run_of(table, steps)[1]
    return (f"It halts after {many(steps, 'step')}, the halting step counted, with {many(ones, 'one')} on its tape.\n"
            f"It halts in state {state} on the symbol {symbol}, for which it has no entry.\n")


def translated(table, first, second, side):
    heads = run_of(table, second)[0]
    shift = abs(heads[second] - heads[first])
    moved = f"but for a shift of {many(shift, 'cell')} to the {ahead(side)} and " if shift else "but "
    return (f"From step {first} on, every {every(second - first)} the configuration is the same {moved}for cells on the "
            f"{behind(side)}, to which the head never comes back.\n")


def ahead(side):
    return {"L": "left", "R": "right"}[side]


def behind(side):
    return {"L": "right", "R": "left"}[side]


def never(table, kind, fields):
    """The words for a table that never halts, but for the last line."""
    if kind == "C":
        first, second = map(int, fields)
        return (f"From step {first} on, every {every(second - first)} the configuration is the same: the state, the tape, and the "
                "place of the head.\n")
    if kind == "T":
        return translated(table, int(fields[0]), int(fields[1]), fields[2])
    if kind == "B":
        steps = many(int(fields[0]), "step")
        return (f"No configuration whatever, be its tape as it may, comes to a pair without an entry after exactly {steps}: back "
                f"from these pairs, every path ends before.\nThe run makes {steps}, so a run that halted would have passed such a "
                "configuration.\n")
    if kind == "N":
        left, right, around = (len(field.split(",")) for field in fields[1:])
        return (f"A closed position set (n-gram CPS): left of the head stand only {many(left, 'word')} of "
                f"{many(int(fields[0]), 'cell')}, right of it only {many(right, 'word')}, and around it there are "
                f"{many(around, 'context')}: a word, the state, the symbol read, and a word.\nThe blank tape is of this kind, each "
                "step from such a configuration leads to one, and none of the contexts lacks an entry.\n")
    if kind in "FA":
        side, size = fields[0], int(fields[1])
        return (f"Finite automata reduction (FAR): a first automaton, of {many(size, 'state')}, reads the half tape on the "
                f"{behind(side)} of the head, from far away to the head.\nFrom the pair of its last state and the machine's a second "
                f"one reads on: the symbol under the head, and then those on the {ahead(side)}.\nKept are the configurations from "
                "which that cannot come to its halt state: the start is one, and none that halts, at once or later.\n")
    if kind == "W":
        return ("Counted automata: two automata read the half tapes, each from far away to the head, and count how often some of "
                "their transitions are taken.\nEach context of the head (a state, the symbol read, and the states of both automata) "
                "comes with a coset in which the counts lie: they differ by sums of its rows alone.\nThe blank tape is in its "
                "coset, and no step leads out of the cosets.\n")
    assert kind == "P", kind
    number = SKELET.get(table)
    if number is None:
        return ("It is Skelet 1, a counter to the base 4 on a tape of words 101 and 10 that throws what it has counted to the "
                "right.\nIts run was followed, by rules that are proved in crates/kind_named, until it was seen to repeat.\n")
    return (f"It is Skelet {number}, which has a proof of its own: {FORMS.get(number, COUNTER)}.\nThe proof stands in "
            f"crates/law_machines/proofs/Skelet{number}.antt.\n")


def words(record):
    """What is said in words of a record that stands."""
    table, kind, *fields = record.split(" ")
    if kind == "U":
        return "Nothing is claimed.\n"
    if kind in ("H", "L"):
        return halts(table, *map(int, fields))
    if kind == "R":
        _, told, values, begin = notation.lines_of(record.encode())
        return (f"{notation.OPENING}{told}From the blank tape the run comes to the first form of H with{values}:{begin}\n"
                "So it comes to forms of H again and again, and never halts.\n")
    return never(table, kind, fields) + "So it never halts.\n"


def explained(record, answer):
    """The lines of `bb explain`, with the empty one."""
    if answer.startswith("refused"):
        return f"{answer}\n\n"
    return f"{answer}\n{words(record)}" + "".join(line + "\n" for line in lists.lists(record)) + "\n"


def automaton(name, targets):
    """The graph of an automaton by where its states go; behind a number may be the letter of a count."""
    lines = [f"{name}start [shape=point];", f"{name}start -> {name}0;"]
    for state in range(len(targets) // 2):
        lines.append(f"{name}{state};")
        for symbol in (0, 1):
            target = targets[2 * state + symbol]
            number = target.rstrip("abcdefghijklmnopqrstuvwxyzABCDEFGHIJKLMNOPQRSTUVWXYZ")
            count = f" {target[len(number):]}" if target != number else ""
            if target != "-":
                lines.append(f'{name}{state} -> {name}{number} [label="{symbol}{count}"];')
    return "".join(f"  {line}\n" for line in lines)


def graph(record, answer):
    """What `bb explain --dot` prints."""
    if answer.startswith("refused"):
        return f"// {answer}\n"
    table, kind, *fields = record.split(" ")
    if kind == "F":
        drawn = automaton("", [str(int(digit, 16)) for digit in fields[2]])
    elif kind == "A":
        drawn = automaton("", fields[2].split(","))
    elif kind == "W":
        drawn = automaton("left_", fields[2].split(",")) + automaton("right_", fields[3].split(","))
    else:
        return f"// {table} {kind}: no automaton\n"
    return f'digraph "{table}" {{\n{drawn}}}\n'


def quoted(text):
    """A text as JSON: what isn't ASCII, and what is below the space, is an escape, and the byte 127 is as it is."""
    return json.dumps(text).replace("\\u007f", "\x7f")


def as_json(number, line, answer, record, meaning, more):
    """The object of a line: `record` is what was read of it, where it is a record."""
    code = int(answer.split(" ")[1]) if answer.startswith("refused") else None
    told = answer.split(" ") if code is None else None
    halts_in = told is not None and told[1] == "halts"
    fields = {
        "code": code,
        "kind": record and record.split(" ")[1],
        "line": number,
        "meaning": meaning,
        "ones": int(told[4]) if halts_in and len(told) > 4 else None,
        "steps": int(told[2]) if halts_in else None,
        "table": record and record.split(" ")[0],
        "text": line.decode("latin-1"),
        "verdict": "refused" if code else told[1],
        **more,
    }
    return "{" + ",".join(f"{quoted(key)}:{quoted(fields[key])}" for key in sorted(fields)) + "}\n"


# Each line with the record that it is, printed in the standard form (none where it is no record), and the answer of `bb check`.
Line = collections.namedtuple("Line", "text record answer")


def answer_of(record):
    """The answer to a record of `examples/`, all of which stand."""
    table, kind, *fields = record.split(" ")
    if kind in ("H", "L"):
        return f"{table} halts {fields[0]}" + (f" ones {fields[1]}" if len(fields) > 1 else "")
    return f"{table} undecided" if kind == "U" else f"{table} never"


def of_text(text):
    """A line that is judged here; none where that takes too long."""
    answer = oracle.answer(text)
    if answer is None:
        return None
    code = answer.split(" ")[1] if answer.startswith("refused") else ""
    if code[:1] == "3":
        return Line(text, None, answer)
    table, rest = text.decode("ascii").split(" ", 1)
    return Line(text, f"{oracle.printed(oracle.read_table(table.encode()))} {rest}", answer)


def why_of(line):
    """Why a line is refused, with what is right of a table that halts otherwise; none where that isn't known here."""
    code = line.answer.split(" ")[1]
    if line.record is not None and line.record.split(" ")[1] in ("H", "L"):
        found = run_of(line.record.split(" ")[0], oracle.STEPS)[1]
        return found and f"it halts after {many(found[0], 'step')} with {many(found[1], 'one')}"
    return REFUSED[code]


def read(name):
    path = os.path.join(TOP, "examples", name)
    with (lzma.open if name.endswith(".xz") else open)(path, "rt", encoding="ascii") as file:
        return file.read().splitlines()


def in_examples(dice, count):
    """The records of all examples that stand, of the large ledger so many."""
    ledgers = [read(name)[1:] for name in ("two-states.ledger", "three-states.ledger")]
    records = [line for ledger in ledgers for line in ledger] + dice.sample(read("four-states.ledger.xz")[1:], count)
    for name in ("rules.xz", "five-states.known", "five-states.saved.xz"):
        records += read(name)
    # Skelet 1 is followed for half a minute, and isn't here.
    records += [f"{table} P" for table in SKELET]
    return [Line(record.encode(), record, answer_of(record)) for record in records]


def in_cases():
    """The records in the cases, and what is like one."""
    folder, texts = os.path.join(TOP, "stress", "cases"), {}
    for name in sorted(os.listdir(folder)):
        if name.endswith(".case"):
            with open(os.path.join(folder, name), "rb") as file:
                texts.update(dict.fromkeys(line[2:] for line in file.read().splitlines() if re.match(rb"< [01-][LR-][A-Z-]\S* [A-Z] ", line)))
    return [line for line in map(of_text, texts) if line is not None]


def table_of(dice, most):
    states = dice.randint(1, most)
    entries = ["---" if dice.random() < 0.12 else dice.choice("01") + dice.choice("LR") + "ABCDEFG"[dice.randrange(states)]
               for _ in range(2 * states)]
    return "_".join(entries[2 * q] + entries[2 * q + 1] for q in range(states))


def told(words_asked, lines):
    done = subprocess.run([PROGRAM, *words_asked], input=b"".join(line + b"\n" for line in lines), capture_output=True, check=False)
    return done.stdout.decode(), done.stderr.decode()


# How `bb decide` is to search, so that it finds records of many kinds.
SEARCHES = [
    ["--gram", "3", "--far", "3"],
    ["--steps", "4", "--depth", "0", "--gram", "4", "--far", "0"],
    ["--steps", "4", "--depth", "0", "--gram", "0", "--far", "4"],
    ["--steps", "4", "--depth", "0", "--gram", "0", "--far", "0", "--rules", "3"],
]


def found(tables):
    """Records that `bb decide` finds of tables: what is said of them is what is looked at here."""
    records = []
    for number, search in enumerate(SEARCHES):
        text, _ = told(["decide", *search], [table.encode() for table in tables[number::len(SEARCHES)]])
        records += [line.encode() for line in text.splitlines()]
    return records


def damaged(dice, text):
    """A record with a number changed, a byte changed, or one left out."""
    place = dice.randrange(len(text))
    if dice.random() < 0.5:
        fields = text.split(b" ")
        numbers = [k for k, field in enumerate(fields) if k > 1 and field.isdigit() and len(field) < 5]
        if numbers:
            k = dice.choice(numbers)
            fields[k] = str(max(0, int(fields[k]) + dice.choice([-2, -1, 1, 2]))).encode()
            return b" ".join(fields)
    if dice.random() < 0.5:
        return text[:place] + bytes([dice.choice(b"019AZ\"\\\t\x7f\xe9 -_")]) + text[place + 1:]
    return text[:place] + text[place + 1:]


def drawn(dice, count, examples):
    """Records of tables that are drawn, at random and of examples, and as many damaged ones."""
    never = [line.record.split(" ")[0] for line in examples if line.answer.endswith(" never") and line.record.count("_") < 4]
    whole = found([table_of(dice, 4) for _ in range(count // 2)]) + found(dice.sample(never, min(count // 2, len(never))))
    lines = whole + [damaged(dice, dice.choice(whole)) for _ in range(count)]
    return [line for line in map(of_text, lines) if line is not None]


def same(asked, lines, got, due):
    """Each line's part of what was printed is the one that is due."""
    at = 0
    for line, part in zip(lines, due):
        if not got.startswith(part, at):
            sys.exit(f"explained: bb {' '.join(asked)}: {line.text[:300]!r}:\n{got[at:at + len(part) + 200]}\nand not\n{part}")
        at += len(part)
    if at != len(got):
        sys.exit(f"explained: bb {' '.join(asked)}: more is printed: {got[at:at + 200]}")


def compare(asked, lines, due, why=None):
    """The answers to lines, and what is said beside them."""
    got, beside = told(asked, [line.text for line in lines])
    same(asked, lines, got, due)
    if why is not None:
        same([*asked, "(standard error)"], [line for line, text in zip(lines, why) if text], beside, [text for text in why if text])


def compare_json(lines):
    """`bb explain --json`, and `bb check --json` with and without --why."""
    def meaning(line):
        return REFUSED[line.answer.split(" ")[1]] if line.answer.startswith("refused") else None

    def right(line):
        return why_of(line) if line.answer.startswith("refused") else None

    def said(line):
        return None if line.answer.startswith("refused") else words(line.record)

    numbered = list(enumerate(lines, 1))
    compare(["explain", "--json"], lines, [as_json(n, it.text, it.answer, it.record, meaning(it), {"words": said(it)}) for n, it in numbered])
    compare(["check", "--json"], lines, [as_json(n, it.text, it.answer, it.record, meaning(it), {}) for n, it in numbered])
    compare(["check", "--json", "--why"], lines, [as_json(n, it.text, it.answer, it.record, right(it), {}) for n, it in numbered])


GROWTH = [(512, "linearly", "64 times"), (32, "like the square root of the time", "8 times"),
          (4, "like the cube root of the time", "4 times"), (0, "like a logarithm of the time, or more slowly", "1 time")]


def seen(table, steps):
    """What `bb explain --run` says of a table: what is seen of it, and its first hundred steps."""
    heads, end = run_of(table, steps)
    if end is not None and end[0] <= steps:
        said = (f"{table} halts {end[0]} ones {end[1]}\nIt halts after {many(end[0], 'step')}, the halting step counted, with "
                f"{many(end[1], 'one')} on its tape.\n")
    else:
        left, right = min(heads), max(heads)
        cells = right - left + 1
        said = (f"{table} undecided\nSeen in {many(steps, 'step')}, not proved:\nThe head visits {many(cells, 'cell')}, from {left} to "
                f"{right}.\nIt comes to a new cell {many(-left, 'time')} at the left and {many(right, 'time')} at the right.\n")
        if steps >= 64:
            early = heads[:steps // 64 + 1]
            before = max(early) - min(early) + 1
            _, how, times = next(it for it in GROWTH if cells * cells >= it[0] * before * before)
            said += (f"From {many(before, 'cell')} after {many(steps // 64, 'step')} to {many(cells, 'cell')} after {many(steps, 'step')} "
                     f"they grow {how}: of 64, 8, 4 and 1 times as many cells, {times} is nearest.\n")
    return said + shown.shown(table, 0, min(steps, 100), 1, ["--fold"]) + "\n"


def compare_runs(dice, count):
    for steps, often in ((1, 40), (2, 40), (63, 40), (64, 60), (127, 60), (4095, count)):
        tables = [table_of(dice, 5) for _ in range(often)]
        lines = [Line(f"{table}{dice.choice(['', ' U'])}".encode(), None, None) for table in tables]
        compare(["explain", "--run", str(steps)], lines, [seen(table, steps) for table in tables])
    return 240 + count


def main():
    dice = random.Random(int(sys.argv[1]) if len(sys.argv) > 1 else 1)
    count = int(sys.argv[2]) if len(sys.argv) > 2 else 1000
    lines = in_examples(dice, 20 * count)
    compare(["explain"], lines, [explained(it.record, it.answer) for it in lines])
    compare(["explain", "--dot"], lines, [graph(it.record, it.answer) for it in lines])
    made = drawn(dice, count, lines) + in_cases()
    refused = [it for it in made if it.answer.startswith("refused")]
    compare(["explain"], made, [explained(it.record, it.answer) for it in made])
    compare(["explain", "--dot"], made, [graph(it.record, it.answer) for it in made])
    # What is right of a table that isn't seen to halt here isn't known here.
    known = [it for it in made if it not in refused or why_of(it) is not None]
    numbers = {id(it): n for n, it in enumerate(known, 1)}
    compare(["check", "--why"], known, [f"{it.answer}\n" for it in known],
            [f"line {numbers[id(it)]}: {why_of(it)}\n" if it in refused else "" for it in known])
    compare_json(known)
    runs = compare_runs(dice, count)
    kinds = collections.Counter(it.record.split(" ")[1] for it in lines + made if it.record and it not in refused)
    told_kinds = ", ".join(f"{kinds[kind]} {kind}" for kind in sorted(kinds))
    print(f"explained: {told_kinds}; {len(refused)} refused; {runs} runs: each as a plain script says it")


if __name__ == "__main__":
    main()
