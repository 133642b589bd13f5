"""Counted automata, kind `W`: read and judged from docs/FORMATS.md, with whole numbers of any size."""
import re

from faults import Refused

LETTERS = "abcdefghijklmnopqrstuvwxyzABCDEFGHIJKLMNOPQRSTUVWXYZ"
MOST = len(LETTERS)
STATES = 100
BYTES = 49_152
LARGE = 2 ** 31

NUMBER = r"(0|[1-9][0-9]*)"
ITEM = re.compile(rf"-|{NUMBER}([a-zA-Z]?)")
PLACE = re.compile(rf"{NUMBER}([A-G])([01]){NUMBER}")
TERM = re.compile(r"(-?[1-9][0-9]{0,8})([a-zA-Z])")


def counts_of(left, right):
    """How many counts both automata have."""
    numbers = []
    for text in (left, right):
        if not re.fullmatch(NUMBER.encode(), text) or sum(numbers) + int(text) > MOST:
            raise Refused("303")
        numbers.append(int(text))
    return numbers


def matched(pattern, text):
    found = pattern.fullmatch(text)
    if not found:
        raise Refused("304")
    return found


def automaton_of(text, first, end):
    """Its transitions (q, symbol) -> (state, count or None); its counts are those from first to below end."""
    items = text.split(",")
    if len(items) % 2 or len(items) > 2 * STATES:
        raise Refused("304")
    goes = {}
    for place, item in enumerate(items):
        found = matched(ITEM, item)
        if item == "-":
            continue
        to = int(found[1])
        count = LETTERS.index(found[2]) if found[2] else None
        if to >= len(items) // 2 or (count is not None and not first <= count < end):
            raise Refused("304")
        goes[place // 2, place % 2] = (to, count)
    if items[0] != "0":
        raise Refused("304")
    return len(items) // 2, goes


def vector_of(text, size):
    """A whole number for each count."""
    numbers = [0] * size
    if text == "0":
        return numbers
    matched(re.compile(f"(?:{TERM.pattern})+"), text)
    last = -1
    for number, letter in TERM.findall(text):
        place = LETTERS.index(letter)
        if not last < place < size:
            raise Refused("304")
        numbers[place] = int(number)
        last = place
    return numbers


def pivot(row):
    """The place of the first number that isn't 0."""
    return next((place for place, number in enumerate(row) if number), None)


def cosets_of(text, states, sizes, size):
    """For each local configuration, in their order, a base and rows."""
    cosets, last = {}, None
    for item in text.split(","):
        place, *vectors = item.split(":")
        found = matched(PLACE, place)
        at = int(found[1]), ord(found[2]) - ord("A"), int(found[3]), int(found[4])
        if at[0] >= sizes[0] or at[3] >= sizes[1] or at[1] >= states or (last is not None and at <= last) or not vectors:
            raise Refused("304")
        base, *rows = [vector_of(vector, size) for vector in vectors]
        before = -1
        for row in rows:
            first = pivot(row)
            if first is None or first <= before or row[first] < 0:
                raise Refused("304")
            before = first
        cosets[at] = base, rows
        last = at
    return cosets


def less(numbers, times, row):
    """Numbers less so many times a row."""
    left = [a - times * b for a, b in zip(numbers, row)]
    if any(abs(number) > LARGE for number in left):
        raise Refused("203")
    return left


def towards_zero(number, divisor):
    times = abs(number) // abs(divisor)
    return times if (number < 0) == (divisor < 0) else -times


def cleared(numbers, row, place):
    """The numbers less the row so often that they are 0 in a place; None where it doesn't divide."""
    if numbers[place] % row[place]:
        return None
    return less(numbers, numbers[place] // row[place], row)


def is_sum(numbers, rows):
    for row in rows:
        numbers = cleared(numbers, row, pivot(row))
        if numbers is None:
            return False
    return not any(numbers)


def zero_in(base, rows, place):
    """The points with a 0 in a place, or None where there is none."""
    carrier, rest = None, []
    for row in rows:
        if carrier is None and row[place]:
            carrier = row
            continue
        while carrier is not None and row[place]:
            carrier, row = row, less(carrier, towards_zero(carrier[place], row[place]), row)
        rest.append(row)
    if carrier is None:
        return None if base[place] else (base, rest)
    base = cleared(base, carrier, place)
    return None if base is None else (base, rest)


def used_counts(goes):
    """The counts that the paths from 0 to each state have."""
    used = {0: set()}
    grew = True
    while grew:
        grew = False
        for (q, _), (to, count) in goes.items():
            if q not in used:
                continue
            more = used[q] | ({count} if count is not None else set())
            if to not in used or not more <= used[to]:
                used[to] = used.get(to, set()) | more
                grew = True
    return used


def settles(remaining, next_coset, size):
    """Whether no point remains, one count is the same negative number in all, or all are in the next coset."""
    if remaining is None:
        return True
    base, rows = remaining
    if any(base[x] < 0 and not any(row[x] for row in rows) for x in range(size)):
        return True
    if next_coset is None:
        return False
    other, other_rows = next_coset
    return is_sum(less(base, 1, other), other_rows) and all(is_sum(row, other_rows) for row in rows)


def with_more(numbers, count, more):
    if count is None:
        return numbers
    numbers = list(numbers)
    numbers[count] += more
    if abs(numbers[count]) > LARGE:
        raise Refused("203")
    return numbers


def stands(rows, split, size, automata, cosets):
    """Whether the automata and cosets stand for a table."""
    counts = (range(split), range(split, size))
    used = [used_counts(goes) for goes in automata]
    if (0, 0, 0, 0) not in cosets or not is_sum(*cosets[0, 0, 0, 0]):
        return False
    for (left, state, symbol, right), (base, coset_rows) in cosets.items():
        entry = rows[state][symbol]
        if entry is None:
            return False
        write, move, following = entry
        # The automaton behind the head takes a cell in, the one ahead gives one.
        behind, ahead = (0, 1) if move > 0 else (1, 0)
        at = left, right
        if (at[behind], write) not in automata[behind]:
            return False
        to, more = automata[behind][at[behind], write]
        for (q, b), (reached, fewer) in sorted(automata[ahead].items()):
            if reached != at[ahead]:
                continue
            points = with_more(with_more(base, more, 1), fewer, -1), coset_rows
            for count in counts[ahead]:
                if points is not None and count not in used[ahead].get(q, ()):
                    points = zero_in(*points, count)
            place = (to, following, b, q) if move > 0 else (q, following, b, to)
            if not settles(points, cosets.get(place), size):
                return False
    return True


def counted(rows, numbers, left, right, cosets):
    """`never` where the counted automata stand for a table; refuses otherwise."""
    if len(left) + len(right) + len(cosets) > BYTES:
        raise Refused("305")
    split, size = numbers[0], sum(numbers)
    left, right, cosets = (text.decode("latin-1") for text in (left, right, cosets))
    automata = automaton_of(left, 0, split), automaton_of(right, split, size)
    sizes = [states for states, _ in automata]
    if not stands(rows, split, size, [goes for _, goes in automata], cosets_of(cosets, len(rows), sizes, size)):
        raise Refused("201")
    return "never"
