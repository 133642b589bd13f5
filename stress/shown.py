#!/usr/bin/env python3
"""What `bb show` prints of drawn tables, against a plain run of them.

usage: stress/shown.py BB [COUNT] [SEED]

Each table is run here on a dictionary of cells, and each of its lines made of that: the times that are asked for, the last one of a
run that halts, the tape from its first to its last one or the head, with --fold with its words folded, or, with --align, all cells
that the head visits. A part of `./ci`; ends with 1 at the first table that is shown otherwise.
"""
import random
import subprocess
import sys


def drawn(dice):
    """A table at random, with entries that halt."""
    n = dice.randint(1, 5)
    entries = [
        "---" if dice.random() < 0.15 else dice.choice("01") + dice.choice("LR") + "ABCDE"[dice.randrange(n)]
        for _ in range(2 * n)
    ]
    return "_".join(entries[2 * q] + entries[2 * q + 1] for q in range(n))


def configurations(table, last):
    """The configurations of the run up to a time, (state, head, cells with a one), and the step in which it halts, if it does."""
    rows = table.split("_")
    state, head, ones, came = "A", 0, frozenset(), []
    for time in range(last + 1):
        came.append((state, head, ones))
        symbol = 1 if head in ones else 0
        entry = rows["ABCDE".index(state)][3 * symbol:3 * symbol + 3]
        if entry == "---":
            return came, (time + 1, len(ones | {head}))
        ones = ones | {head} if entry[0] == "1" else ones - {head}
        head += 1 if entry[1] == "R" else -1
        state = entry[2]
    return came, None


def folded(cells):
    """Cells with each word folded that stands three times or more, the shortest first, and has 16 symbols at most."""
    text, before = "", 0
    while cells:
        word, count = cells[0], 1
        for length in range(1, min(16, len(cells)) + 1):
            often = 1
            while cells.startswith(cells[:length], often * length):
                often += 1
            if often >= 3:
                word, count = cells[:length], often
                break
        cells = cells[count * len(word):]
        text += " " if before and (before > 1 or count > 1) else ""
        text += word if count == 1 else f"{word if len(word) == 1 else f'({word})'}^{count}"
        before = count
    return text


def line_of(came, time, frame, fold):
    """The line of a time; `frame` is the first and the last cell that each line has, or none."""
    state, head, ones = came[time]
    first, last = frame or (min([head, *ones]), max([head, *ones]))
    blank = "." if frame else "0"
    left, right = ("".join("1" if cell in ones else blank for cell in part) for part in (range(first, head), range(head, last + 1)))
    if fold:
        return f"{folded(left)} {state}> {folded(right)}".lstrip()
    return f"{left}{state}>{right}"


def shown(table, start, steps, every, form):
    """What is printed of it."""
    asked = start + steps
    came, halts = configurations(table, asked)
    last = len(came) - 1
    times = [time for time in range(start, asked + 1, every) if time <= last]
    if halts and (not times or times[-1] != last):
        times.append(last)
    frame = None
    width = 0
    if form == ["--align"]:
        heads = [head for _, head, _ in came]
        frame = (min(heads), max(heads))
        width = len(str(asked))
    lines = [table] + [f"{time:>{width}}  {line_of(came, time, frame, form == ['--fold'])}" for time in times]
    if halts:
        lines.append(f"halts {halts[0]} ones {halts[1]}")
    return "\n".join(lines) + "\n"


def main():
    program = sys.argv[1]
    count = int(sys.argv[2]) if len(sys.argv) > 2 else 300
    dice = random.Random(int(sys.argv[3]) if len(sys.argv) > 3 else 1)
    for _ in range(count):
        table = drawn(dice)
        start, steps, every = dice.randint(0, 30), dice.randint(0, 60), dice.randint(1, 7)
        form = dice.choice([[], ["--fold"], ["--align"]])
        words = ["show", "--from", str(start), "--steps", str(steps), "--every", str(every), *form]
        ran = subprocess.run([program, *words], input=table.encode(), capture_output=True, check=False)
        due = shown(table, start, steps, every, form)
        if (ran.stdout.decode(), ran.returncode) != (due, 0):
            sys.exit(f"shown: {table} {' '.join(words)}:\n{ran.stdout.decode()}and not\n{due}")
    print(f"shown: {count} tables, each as a plain run of it")


if __name__ == "__main__":
    main()
