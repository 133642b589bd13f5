"""What `bb check` has to answer, written anew from docs/FORMATS.md: no code of the program's is used or looked at.

Slow and plain on purpose: tapes are dictionaries, sets of paths are listed. `answer` gives None for a claim that would
take too long to judge here. Counted automata stand in counts.py, rules with induction in forms.py.
"""
from counts import counted, counts_of
from faults import Refused
from forms import induction

STEPS = 2_000
# In how many steps a table may halt by a record of the kind H, and by one of the kind L.
EARLY = 100_000_000
LATE = 10_000_000_000
PATHS = 65_536
FEW_PATHS = 300

STATES = b"ABCDEFG"

# The digits of delta, which are those of hexadecimal numbers.
DIGITS = b"0123456789abcdef"


# Tables: a list of rows, each of two entries; an entry is (write, move, next) or None.

def read_table(text):
    if len(text) not in range(6, 49, 7):
        raise Refused("301 101")
    count = (len(text) + 1) // 7
    letters = STATES[:count]
    rows = []
    place = 0
    for number in range(count):
        if number > 0:
            if text[place] != ord("_"):
                raise Refused(f"301 102 {place}")
            place += 1
        row = []
        for _ in range(2):
            row.append(read_entry(text, place, letters))
            place += 3
        rows.append(row)
    return rows


def read_entry(text, place, letters):
    write, move, state = text[place:place + 3]
    if write not in b"01-":
        raise Refused(f"301 103 {place}")
    if write == ord("-"):
        if move != ord("-"):
            raise Refused(f"301 104 {place + 1}")
        if state != ord("-"):
            raise Refused(f"301 105 {place + 2}")
        return None
    if move not in b"LR":
        raise Refused(f"301 104 {place + 1}")
    if state in b"ZH":
        return None
    if state not in letters:
        raise Refused(f"301 105 {place + 2}")
    return write - ord("0"), 1 if move == ord("R") else -1, state - ord("A")


def printed(rows):
    def entry(e):
        return "---" if e is None else f"{e[0]}{'R' if e[1] > 0 else 'L'}{STATES.decode()[e[2]]}"
    return "_".join(entry(row[0]) + entry(row[1]) for row in rows)


def mirrored(rows):
    return [[None if e is None else (e[0], -e[1], e[2]) for e in row] for row in rows]


# Runs: (state, head, the set of places that hold ones).

def start():
    return 0, 0, frozenset()


def step(rows, config):
    state, head, ones = config
    entry = rows[state][head in ones]
    if entry is None:
        return None
    write, move, following = entry
    ones = ones | {head} if write else ones - {head}
    return following, head + move, ones


def run(rows, count):
    """The configurations of the first `count` steps, or as many as there are."""
    configs = [start()]
    while len(configs) <= count:
        following = step(rows, configs[-1])
        if following is None:
            break
        configs.append(following)
    return configs


# Fields.

def number(text):
    if not text or any(b not in b"0123456789" for b in text) or (len(text) > 1 and text[0] == ord("0")):
        raise Refused("303")
    if len(text) > 20 or int(text) >= 2 ** 64:
        raise Refused("303")
    return int(text)


def size(text, most):
    value = number(text)
    if not 1 <= value <= most:
        raise Refused("303")
    return value


def side(text):
    if text not in (b"L", b"R"):
        raise Refused("303")
    return text


# Judgements: each gives what is shown, or raises; None where it takes too long here.

def score(rows, k):
    """How many ones a run leaves that halts in k steps: the halting step writes one."""
    _, head, ones = run(rows, k - 1)[-1]
    return len(set(ones) | {head})


def halts(rows, k, ones, most):
    """With or without a score, in so many steps at most."""
    if k > most:
        raise Refused("202")
    if k > STEPS:
        # One that halts earlier is known here.
        if len(run(rows, STEPS)) <= STEPS:
            raise Refused("201")
        return None
    configs = run(rows, max(k - 1, 0))
    if k < 1 or len(configs) < k or step(rows, configs[k - 1]) is not None:
        raise Refused("201")
    if ones is None:
        return f"halts {k}"
    if ones != score(rows, k):
        raise Refused("201")
    return f"halts {k} ones {ones}"


def times(rows, i, j):
    """The configurations up to time j; None where they are too many."""
    if j > 10_000_000:
        raise Refused("202")
    if i >= j:
        raise Refused("201")
    if j > STEPS:
        return None
    configs = run(rows, j)
    if len(configs) <= j:
        raise Refused("201")
    return configs


def cycle(rows, i, j):
    configs = times(rows, i, j)
    if configs is None:
        return None
    if configs[i] != configs[j]:
        raise Refused("201")
    return "never"


def translated(rows, i, j, to):
    if to == b"L":
        rows = mirrored(rows)
    configs = times(rows, i, j)
    if configs is None:
        return None
    shift = configs[j][1] - configs[i][1]
    least = min(config[1] for config in configs[i:j])
    before = {x for x in configs[i][2] if x >= least}
    after = {x - shift for x in configs[j][2] if x - shift >= least}
    if configs[i][0] != configs[j][0] or shift < 0 or before != after:
        raise Refused("201")
    return "never"


def backward(rows, depth):
    if depth > 1_000:
        raise Refused("202")
    if len(run(rows, depth)) <= depth:
        raise Refused("201")
    paths = [(q, 0, {0: s}) for q in range(len(rows)) for s in (0, 1) if rows[q][s] is None]
    for _ in range(depth):
        if not paths:
            return "never"
        paths = [before for path in paths for before in befores(rows, path)]
        if len(paths) > FEW_PATHS:
            return None
    if paths:
        raise Refused("201")
    return "never"


def befores(rows, path):
    """The partial configurations one step before: a state, a head and the cells that are known."""
    state, head, cells = path
    for q, row in enumerate(rows):
        for s, entry in enumerate(row):
            if entry is None or entry[2] != state:
                continue
            place = head - entry[1]
            if cells.get(place, entry[0]) == entry[0]:
                yield q, place, {**cells, place: s}


def rising(text):
    items = text.split(b",")
    if any(a >= b for a, b in zip(items, items[1:])):
        raise Refused("304")
    return items


def ngram(rows, width, left, right, local):
    if len(left) + len(right) + len(local) > 49_152:
        raise Refused("305")
    lefts, rights, members = rising(left), rising(right), rising(local)
    for word in lefts + rights:
        if len(word) != width or any(b not in b"01" for b in word):
            raise Refused("304")
    letters = STATES[:len(rows)]
    for member in members:
        if len(member) != 2 * width + 2 or member[width] not in letters:
            raise Refused("304")
        if any(b not in b"01" for b in member[:width] + member[width + 1:]):
            raise Refused("304")
    lefts, rights, members = set(lefts), set(rights), set(members)
    blank = b"0" * width
    if blank not in lefts or blank not in rights or blank + b"A0" + blank not in members:
        raise Refused("201")
    for member in members:
        if not follows(rows, width, lefts, rights, members, member):
            raise Refused("201")
    return "never"


def follows(rows, width, lefts, rights, members, member):
    behind, state, read, ahead = member[:width], member[width] - ord("A"), member[width + 1] - ord("0"), member[width + 2:]
    entry = rows[state][read]
    if entry is None:
        return False
    write, move, following = entry
    written, letter = b"01"[write:write + 1], STATES[following:following + 1]
    if move > 0:
        new = behind[1:] + written
        return new in lefts and all(
            new + letter + ahead[:1] + ahead[1:] + x in members for x in (b"0", b"1") if ahead[1:] + x in rights)
    new = written + ahead[:-1]
    return new in rights and all(
        x + behind[:-1] + letter + behind[-1:] + new in members for x in (b"0", b"1") if x + behind[:-1] in lefts)


def hexadecimal(text, limit):
    if not text or any(b not in DIGITS for b in text) or (len(text) > 1 and text[0] == ord("0")):
        raise Refused("304")
    value = int(text, 16)
    if value >= limit:
        raise Refused("304")
    return value


def far(rows, to, count, delta, row_texts, keep):
    states = len(rows)
    if len(delta) != 2 * count or any(b not in DIGITS[:count] for b in delta):
        raise Refused("304")
    last = count * states
    limit = 2 ** (last + 1)
    edges = row_texts.split(b",")
    if len(edges) != 2 * last:
        raise Refused("304")
    edges = [hexadecimal(text, limit) for text in edges]
    keep = hexadecimal(keep, limit)
    goes = [DIGITS.index(b) for b in delta]
    if to == b"L":
        rows = mirrored(rows)

    def reached(members, symbol):
        found = 1 << last if members >> last & 1 else 0
        for number in range(last):
            if members >> number & 1:
                found |= edges[2 * number + symbol]
        return found

    fits = goes[0] == 0
    for q in range(count):
        for f in range(states):
            for r in (0, 1):
                fits = fits and edge_fits(rows, states, goes, edges, last, reached, q, f, r)
    fits = fits and keep & 1 and not keep >> last & 1 and reached(keep, 0) & ~keep == 0
    if not fits:
        raise Refused("201")
    return "never"


def edge_fits(rows, states, goes, edges, last, reached, q, f, r):
    own = edges[2 * (q * states + f) + r]
    entry = rows[f][r]
    if entry is None:
        return own >> last & 1
    write, move, following = entry
    if move > 0:
        return own >> (goes[2 * q + write] * states + following) & 1
    for b in (0, 1):
        there = reached(reached(1 << (q * states + following), b), write)
        if there & ~edges[2 * (goes[2 * q + b] * states + f) + r]:
            return False
    return True


# Automata whose edges are listed.

def item_number(text, limit):
    """A number in decimal below a limit, as an item of a list."""
    if not text or any(b not in b"0123456789" for b in text) or (len(text) > 1 and text[0] == ord("0")):
        raise Refused("304")
    if len(text) > 20 or int(text) >= limit:
        raise Refused("304")
    return int(text)


def rising_numbers(texts, limit):
    numbers = [item_number(text, limit) for text in texts]
    if any(a >= b for a, b in zip(numbers, numbers[1:])):
        raise Refused("304")
    return numbers


def edges_of(text, last):
    """The numbers to which a pair has edges on a symbol; None where it isn't listed."""
    if text == b"-":
        return None
    if text == b".":
        return []
    return rising_numbers(text.split(b"."), last)


def listed(rows, to, count, delta, row_texts, keep):
    """`never` where the two automata are those of the table; refuses otherwise."""
    states = len(rows)
    last = count * states
    goes = [item_number(text, count) for text in delta.split(b",")]
    if len(goes) != 2 * count:
        raise Refused("304")
    texts = row_texts.split(b",")
    if len(texts) != 2 * last:
        raise Refused("304")
    lists = [edges_of(text, last) for text in texts]
    kept = set(rising_numbers(keep.split(b","), last))
    if to == b"L":
        rows = mirrored(rows)
    if not are_automata(rows, count, goes, lists, kept):
        raise Refused("201")
    return "never"


def are_automata(rows, count, goes, lists, kept):
    """The clauses of finite automata reduction. The second automaton's states are the numbers q n + f, and `halt`."""
    states = len(rows)
    halt = count * states
    everything = set(range(halt + 1))

    def edges(v, symbol):
        if v == halt:
            return {halt}
        found = lists[2 * v + symbol]
        return everything if found is None else set(found)

    if goes[0] != 0:
        return False
    for q in range(count):
        for f in range(states):
            for r in (0, 1):
                entry = rows[f][r]
                if entry is None:
                    if halt not in edges(q * states + f, r):
                        return False
                elif entry[1] > 0:
                    if goes[2 * q + entry[0]] * states + entry[2] not in edges(q * states + f, r):
                        return False
                else:
                    for b in (0, 1):
                        into = edges(goes[2 * q + b] * states + f, r)
                        if into == everything:
                            continue
                        for u in edges(q * states + entry[2], b):
                            if not edges(u, entry[0]) <= into:
                                return False
    if 0 not in kept or halt in kept:
        return False
    return all(edges(v, 0) <= kept for v in kept)


# The tables of Skelet's list that have a proof of their own, each as the tree has it.
NAMED = {
    "1RB1RD_1LC0RC_1RA1LD_0RE0LB_---1RC",
    "1RB0RA_0LC1RA_1RE1LD_1LC0LD_---0RB",
    "1RB---_1RC1LB_1LD1RE_1LB0LD_1RA0RC",
    "1RB---_0LC1RE_0LD1LC_1RA1LB_0RB0RA",
    "1RB1LD_1RC0RB_1LA1RC_1LE0LA_1LC---",
    "1RB1LC_0RC0RB_1LD0LA_1LE---_1LA1RE",
    "1RB1LC_0RC0RB_1LD0LA_1LE---_1LA1RA",
    "1RB1LC_0RC0RB_1LD0LA_1LE---_1LA0LA",
}


def named(rows):
    if printed(rows) not in NAMED:
        raise Refused("201")
    return "never"


def read_claim(rows, parts):
    if not parts:
        raise Refused("302")
    kind, fields = parts[0], parts[1:]
    counts = {b"H": (1, 2), b"L": (1, 2), b"C": (2,), b"T": (3,), b"B": (1,), b"N": (4,), b"F": (5,), b"A": (5,), b"W": (5,), b"R": (6,), b"P": (0,), b"U": (0,)}
    if len(fields) not in counts.get(kind, ()):
        raise Refused("302")
    if kind in (b"H", b"L"):
        k = number(fields[0])
        ones = number(fields[1]) if len(fields) == 2 else None
        if kind == b"L" and k <= EARLY:
            raise Refused("303")
        return lambda: halts(rows, k, ones, EARLY if kind == b"H" else LATE)
    if kind == b"C":
        i, j = number(fields[0]), number(fields[1])
        return lambda: cycle(rows, i, j)
    if kind == b"T":
        i, j, to = number(fields[0]), number(fields[1]), side(fields[2])
        return lambda: translated(rows, i, j, to)
    if kind == b"B":
        depth = number(fields[0])
        return lambda: backward(rows, depth)
    if kind == b"N":
        width = size(fields[0], 8)
        return lambda: ngram(rows, width, *fields[1:])
    if kind == b"F":
        to, count = side(fields[0]), size(fields[1], 16)
        return lambda: far(rows, to, count, *fields[2:])
    if kind == b"A":
        to, count = side(fields[0]), size(fields[1], 4_096)
        return lambda: listed(rows, to, count, *fields[2:])
    if kind == b"W":
        numbers = counts_of(*fields[:2])
        return lambda: counted(rows, numbers, *fields[2:])
    if kind == b"R":
        return lambda: induction(rows, *fields)
    if kind == b"P":
        return lambda: named(rows)
    return lambda: "undecided"


def answer(line):
    """What is printed for a line, or None where it would take too long to say."""
    try:
        if len(line) > 65_000:
            raise Refused("305")
        parts = line.split(b" ")
        rows = read_table(parts[0])
        shown = read_claim(rows, parts[1:])()
    except Refused as refused:
        return f"refused {refused}"
    return None if shown is None else f"{printed(rows)} {shown}"
