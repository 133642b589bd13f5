#!/usr/bin/env python3
"""The lists that `bb explain` prints behind a paragraph, reckoned from the record's own text.

stress/lists.py print < RECORDS       prints the lists of each record, with an empty line behind each record
stress/lists.py compare FILE [COMMAND ..]   each record of FILE is explained by COMMAND, `bb explain` where none is named; the
                                      lists of those that stand have to be these, and no line may be over 100 columns
stress/lists.py shown FILE OUTPUT     the same, of what was printed before
"""
import os
import subprocess
import sys

TOP = os.path.dirname(os.path.dirname(os.path.abspath(__file__)))
CELLS, COLUMNS = 128, 100


def rows(heading, cells):
    """A list under its heading: each cell ends where its column does, two columns wider than the longest one shown."""
    shown = cells[:CELLS]
    width = max(map(len, shown)) + 2
    by_line = max(1, COLUMNS // width)
    yield heading + ":"
    for start in range(0, len(shown), by_line):
        yield "".join(cell.rjust(width) for cell in shown[start:start + by_line])
    if len(cells) > CELLS:
        yield f"  and {len(cells) - CELLS} more"


def transitions(targets):
    return [f"{q}: {targets[2 * q]} {targets[2 * q + 1]}" for q in range(len(targets) // 2)]


def reduction(targets, kept, states):
    yield from rows("The first automaton (state: next on 0, next on 1)", transitions(targets))
    yield from rows("States of the second automaton that are kept (state of the first, state of the machine)",
                    [f"{k // states}{'ABCDEFG'[k % states]}" for k in kept])


def lists(record):
    """The lines of a record's lists."""
    table, kind, *fields = record.split(" ")
    states = table.count("_") + 1
    if kind == "F":
        kept = int(fields[4], 16)
        return list(reduction([str(int(digit, 16)) for digit in fields[2]], [k for k in range(128) if kept >> k & 1], states))
    if kind == "A":
        return list(reduction(fields[2].split(","), map(int, fields[4].split(",")), states))
    if kind == "N":
        return [*rows("Words on the left", fields[1].split(",")), *rows("Words on the right", fields[2].split(",")),
                *rows("Contexts (left word, state, symbol read, right word)", fields[3].split(","))]
    if kind == "W":
        told = "(state: next on 0, next on 1; a letter is the count)"
        return [f"Counts: {fields[0]} of the left automaton, {fields[1]} of the right one",
                *rows(f"The left automaton {told}", transitions(fields[2].split(","))),
                *rows(f"The right automaton {told}", transitions(fields[3].split(","))),
                *rows("Contexts with a coset (left state, state of the machine, symbol read, right state)",
                      [coset.split(":")[0] for coset in fields[4].split(",")])]
    return []


def compare(records, printed):
    parts = [part.split("\n") for part in printed.split("\n\n")[:-1]]
    wrong, listed = abs(len(parts) - len(records)), 0
    for record, part in zip(records, parts):
        wanted = [] if part[0].startswith("refused") else lists(record)
        listed += bool(wanted)
        at = part.index("So it never halts.") + 1 if "So it never halts." in part else len(part)
        wrong += part[at:] != wanted or any(len(line) > COLUMNS for line in part[at:])
    print(f"lists: {len(records)} records, {listed} with lists, {wrong} differ")
    return 1 if wrong or not listed else 0


def main(words):
    if words == ["print"]:
        for record in sys.stdin.read().splitlines():
            print("\n".join([*lists(record), ""]))
        return 0
    if words[:1] in (["compare"], ["shown"]) and len(words) > 1:
        with open(words[1], encoding="ascii") as file:
            text = file.read()
        if words[0] == "shown":
            with open(words[2], encoding="ascii") as file:
                return compare(text.splitlines(), file.read())
        command = words[2:] or [os.path.join(TOP, "bb"), "explain"]
        given = subprocess.run(command, input=text, capture_output=True, text=True, check=False).stdout
        return compare(text.splitlines(), given)
    sys.exit(__doc__)


if __name__ == "__main__":
    sys.exit(main(sys.argv[1:]))
