#!/usr/bin/env python3
"""Lists of tables as people keep them, through `bb tables`, against a plain reading of the same rule.

usage: stress/tables.py BB [SEED]

A list has comments, links, CSV, doubled and damaged entries, CR LF, tabs, a byte order mark and bytes that are no text.
Each line of it is read here by a regular expression, and what `bb tables` prints has to be the first of each table, in
their order.
"""

import random
import re
import subprocess
import sys

WORD = re.compile(rb"[0-9A-Z_-]+")
MOST_STATES = 7
LINE_BYTES = 49_152


def table_of(word):
    """The table of a word in the standard form, or None."""
    n, left = divmod(len(word) + 1, 7)
    if left or not 1 <= n <= MOST_STATES:
        return None
    letters = bytes(range(65, 65 + n))
    rows = []
    for row in word.split(b"_"):
        if len(row) != 6:
            return None
        entries = []
        for entry in (row[:3], row[3:]):
            if entry == b"---":
                entries.append(entry)
            elif entry[0:1] in b"01" and entry[1:2] in b"LR" and entry[2:3] in letters:
                entries.append(entry)
            elif entry[0:1] in b"01" and entry[1:2] in b"LR" and entry[2:3] in b"ZH":
                entries.append(b"---")
            else:
                return None
        rows.append(b"".join(entries))
    return b"_".join(rows)


def expected(text):
    """What is printed of a text."""
    came = []
    seen = set()
    for line in text.split(b"\n"):
        if len(line) > LINE_BYTES:
            continue
        for word in WORD.findall(line):
            table = table_of(word)
            if table is not None and table not in seen:
                seen.add(table)
                came.append(table)
    return b"".join(table + b"\n" for table in came)


def some_table(dice):
    """A table at random, now and then with an entry that halts by its letter."""
    n = dice.randint(1, MOST_STATES)
    letters = "ABCDEFG"[:n]

    def entry():
        kind = dice.random()
        if kind < 0.1:
            return "---"
        if kind < 0.15:
            return dice.choice("01") + dice.choice("LR") + dice.choice("ZH")
        return dice.choice("01") + dice.choice("LR") + dice.choice(letters)

    return "_".join(entry() + entry() for _ in range(n)).encode()


def damaged(dice, table):
    """A table with a byte too many, too few, or another."""
    at = dice.randrange(len(table))
    return dice.choice(
        [
            table[:at] + table[at + 1 :],
            table[:at] + b"1" + table[at:],
            table[:at] + b"X" + table[at + 1 :],
            table.lower(),
        ]
    )


def line_of(dice, tables):
    """A line as people write it."""
    table = dice.choice(tables)
    other = dice.choice(tables)
    return dice.choice(
        [
            table,
            table + b"  # seen on Discord",
            b"# " + table,
            b"https://bbchallenge.org/" + table + b"&status=undecided",
            b"12," + table + b"," + other + b",halts",
            b"\t" + table + b" \t",
            b'"' + table + b'";"' + other + b'"',
            table + b" H 6 4",
            b"",
            b"no table in this line",
            b"\xff\xfe" + table + b"\xc3\xa9",
            damaged(dice, table),
            damaged(dice, table) + b" " + other,
            table + other,
        ]
    ) + dice.choice([b"\n", b"\n", b"\r\n"])


def main():
    if sys.argv[1:] in ([], ["--help"]):
        sys.exit(__doc__.strip())
    program = sys.argv[1]
    dice = random.Random(int(sys.argv[2]) if len(sys.argv) > 2 else 1)
    tables = [some_table(dice) for _ in range(400)]
    text = b"\xef\xbb\xbf" + b"".join(line_of(dice, tables) for _ in range(1000))
    text += b"x" * (LINE_BYTES + 1) + tables[0] + b"\n" + some_table(dice)
    run = subprocess.run([program, "tables"], input=text, capture_output=True, check=False)
    if run.returncode != 0:
        sys.exit(f"exit status {run.returncode}: {run.stderr!r}")
    ours = expected(text).split(b"\n")
    theirs = run.stdout.split(b"\n")
    for number, (mine, its) in enumerate(zip(ours, theirs), 1):
        if mine != its:
            sys.exit(f"line {number}: {its!r} where {mine!r} is right")
    if len(ours) != len(theirs):
        sys.exit(f"{len(theirs) - 1} tables where {len(ours) - 1} are right")
    print(f"{len(ours) - 1} tables of 1,002 lines, as they should be; {run.stderr.decode().strip()}")


if __name__ == "__main__":
    main()
