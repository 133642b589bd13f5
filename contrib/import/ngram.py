#!/usr/bin/env python3
"""N-gram CPS of others: a machine and a width a line, as records of the kind N, closed position sets.

usage: contrib/import/ngram.py [FILE]

    MACHINE WIDTH                         MACHINE LEFT RIGHT
    MACHINE, NGRAM_CPS, WIDTH             MACHINE NGRAM_CPS_IMPL_1 LEFT RIGHT LIMIT
    MACHINE,nonhalt,NGRAM_CPS_IMPL2_params_LEFT_RIGHT_LIMIT
    MACHINE,nonhalt,NGRAM_CPS_IMPL1_params_HISTORY_LEFT_RIGHT_LIMIT

Of one to four numbers the limit is read over, and the greater width counts for both sides. A history isn't used either: `bb`
has no kind for cells that remember, so plain words of the same width are tried, which is often not enough. The forms with
`params` are those of the lists that the Coq proof of S(5) prints, from memory: not sure.

The closed position set is the least one: begun with the blank tape, closed under steps.
"""
import collections
import re

from machines import PassedOver, ended, machine_of, numbers_in, options, printed, told_lines, work_off
from machines import STATES

MOST_WIDTH = 8
LIST_BYTES = 49_152

NAME = re.compile(r"[A-Z][A-Z0-9_]{2,}")


def width_of(rest):
    """The width that a line asks for."""
    names = NAME.findall(rest)
    if names and not any("GRAM" in name for name in names):
        raise PassedOver(f"{names[0]}, and no n-gram CPS")
    numbers = numbers_in(re.sub(r"_params((?:_\d+)+)", lambda it: " " + it[1].replace("_", " "), rest))
    if not 1 <= len(numbers) <= 4:
        raise PassedOver(f"{len(numbers)} numbers, and one to four are a width")
    widths = numbers[1:3] if len(numbers) == 4 else numbers[:2]
    if min(widths) < 1 or max(widths) > MOST_WIDTH:
        raise PassedOver(f"width {max(widths) if min(widths) > 0 else min(widths)}, and 1 to {MOST_WIDTH} are possible")
    return max(widths)


def closed(table, width):
    """The least closed position set: words of the left, words of the right, and members (left, state, symbol, right)."""
    zeros = "0" * width
    lefts, rights, members = {zeros}, {zeros}, set()
    # What came to be behind the head for a symbol to come into view, by the word without that symbol.
    on_left, on_right = collections.defaultdict(set), collections.defaultdict(set)
    work = [(zeros, 0, "0", zeros)]
    while work:
        member = work.pop()
        if member in members:
            continue
        members.add(member)
        if len(members) * (2 * width + 3) > LIST_BYTES:
            raise PassedOver(f"the local configurations of width {width} take more than {LIST_BYTES:,} bytes")
        left, state, symbol, right = member
        entry = table[state][int(symbol)]
        if entry is None:
            raise PassedOver(f"width {width} comes to a halting pair, {STATES[state]}{symbol}")
        write, move, state = entry
        if move > 0:
            new, coming = left[1:] + str(write), right[1:]
            if new not in lefts:
                lefts.add(new)
                work += [(new, *rest) for rest in on_left[new[1:]]]
            on_right[coming].add((new, state, right[0]))
            work += [(new, state, right[0], coming + x) for x in "01" if coming + x in rights]
        else:
            new, coming = str(write) + right[:-1], left[:-1]
            if new not in rights:
                rights.add(new)
                work += [(*rest, new) for rest in on_right[new[:-1]]]
            on_left[coming].add((state, left[-1], new))
            work += [(x + coming, state, left[-1], new) for x in "01" if x + coming in lefts]
    return lefts, rights, members


def record_of(line):
    table, rest = machine_of(line)
    width = width_of(rest)
    lefts, rights, members = closed(table, width)
    members = [left + STATES[state] + symbol + right for left, state, symbol, right in members]
    lists = [",".join(sorted(items)) for items in (lefts, rights, members)]
    if sum(map(len, lists)) > LIST_BYTES:
        raise PassedOver(f"the lists of width {width} take more than {LIST_BYTES:,} bytes")
    return f"{printed(table)} N {width} {' '.join(lists)}"


def main():
    return work_off(told_lines(options(__doc__).parse_args().file), record_of)


if __name__ == "__main__":
    ended(main)
