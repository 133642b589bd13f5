#!/usr/bin/env python3
"""Cyclers and translated cyclers of others: a machine and times a line, as records of the kinds C and T.

usage: contrib/import/cycles.py [FILE]

    MACHINE I J                      the configurations at the times I and J are to be equal, except for a shift
    MACHINE START PERIOD             those at the times START and START + PERIOD are
    MACHINE START PERIOD OFFSET      the same; the offset is read over, since the run tells it

Words and commas may stand between the numbers (`MACHINE,LOOP,start=12,period=15`). Two numbers are read as times first, and
where these aren't right as a start and a period: what the run doesn't do at these times isn't written either way. Which of
the two kinds it is, and which side, is found by running the machine, up to J, in some seconds for the 10,000,000 steps that
`bb` takes at most.
"""
from machines import PassedOver, ended, machine_of, numbers_in, options, printed, told_lines, work_off

MOST_STEPS = 10_000_000


def steps(table, config, count):
    """Does so many steps on the cells of a configuration (cells, head, state): the next one, and the least and the greatest
    head before it; None where it halts."""
    cells, head, state = config
    least = greatest = head
    for _ in range(count):
        entry = table[state][cells[head]]
        if entry is None:
            return None
        if head < least:
            least = head
        elif head > greatest:
            greatest = head
        cells[head], move, state = entry
        head += move
    return (cells, head, state), least, greatest


def repeated(table, i, j):
    """The kind and the fields behind its times where the run is at time j as at time i, except for a shift; else None."""
    first = steps(table, (bytearray(2 * j + 1), j, 0), i)
    if first is None:
        return None
    cells, head, state = first[0]
    before = bytes(cells)
    second = steps(table, first[0], j - i)
    if second is None:
        return None
    (after, head_after, state_after), least, greatest = second
    shift = head_after - head
    if state_after != state:
        return None
    # What a shift takes out of the cells was never visited at time i, so it is blank there.
    if shift > 0:
        return "T", " R" if before[least:len(before) - shift] == after[least + shift:] else None
    if shift < 0:
        return "T", " L" if before[-shift:greatest + 1] == after[:greatest + 1 + shift] else None
    return "C", "" if before == after else None


def readings(numbers):
    """The pairs of times that the numbers may mean."""
    if len(numbers) not in (2, 3):
        raise PassedOver(f"{len(numbers)} numbers, and two or three are times")
    first, second = numbers[:2]
    pairs = [(first, second)] if len(numbers) == 2 and first < second else []
    return pairs + ([(first, first + second)] if second > 0 else [])


def record_of(line):
    table, rest = machine_of(line)
    tried = []
    for i, j in readings(numbers_in(rest)):
        if i < 0:
            continue
        if j > MOST_STEPS:
            tried.append(f"time {j:,} is over {MOST_STEPS:,}")
            continue
        kind, fields = repeated(table, i, j) or ("", None)
        if fields is not None:
            return f"{printed(table)} {kind} {i} {j}{fields}"
        tried.append(f"the run doesn't repeat at the times {i} and {j}")
    raise PassedOver("; ".join(tried) or "no times")


def main():
    return work_off(told_lines(options(__doc__).parse_args().file), record_of)


if __name__ == "__main__":
    ended(main)
