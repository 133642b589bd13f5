"""Rules with induction, a record's kind `R`, judged from docs/FORMATS.md: what oracle.py says of them.

A block is a word, as bytes, and an exponent, five numbers; a half tape is a list of blocks, the nearest one to the head
first; a form is a left half, a state, a side and a right half. A rule is its two ends and two forms.
"""
import re

from faults import Refused

LARGEST = 1_000_000
LONGEST = 10_000
LONGEST_TOGETHER = 2_000_000
MOST_BLOCKS = 2_000
MOST_BYTES = 49_152
LONGEST_FORM = 300

ONCE = (1, 0, 0, 0, 0)
NEVER = (0, 0, 0, 0, 0)
A = (0, 1, 0, 0, 0)
OTHERS = ((0, 0, 1, 0, 0), (0, 0, 0, 1, 0), (0, 0, 0, 0, 1))

WORDS = {b"s": "wtt", b"w": "w", b"r": "wwwt", b"p": "wwnt", b"e": "w", b"b": "wt"}


class Fails(Exception):
    """The record doesn't stand."""


# Texts.

def text_if(holds):
    if not holds:
        raise Refused("304")


def number_of(text):
    text_if(re.fullmatch(rb"0|[1-9][0-9]{0,6}", text) and int(text) <= LARGEST)
    return int(text)


def word_of(text):
    text_if(re.fullmatch(rb"[01]{1,63}", text))
    return text


def times_of(text):
    parts = re.fullmatch(rb"([0-9]+)(?:a([0-9]+))?(?:b([0-9]+))?(?:c([0-9]+))?(?:d([0-9]+))?", text)
    text_if(parts)
    text_if(b"0" not in parts.groups()[1:])
    return tuple(0 if part is None else number_of(part) for part in parts.groups())


def blocks_of(text):
    blocks = []
    for part in text.split(b".") if text else []:
        word, hat, times = part.partition(b"^")
        blocks.append((word_of(word), times_of(times) if hat else ONCE))
        text_if(not hat or blocks[-1][1] != ONCE)
    return blocks


def form_of(text, states):
    text_if(len(text) <= LONGEST_FORM)
    parts = re.fullmatch(rb"([^A-Z]*)([A-Z])([<>])(.*)", text, re.S)
    text_if(parts)
    state = parts[2][0] - ord("A")
    text_if(state < states)
    return blocks_of(parts[1]), state, parts[3], blocks_of(parts[4])


def exponents_of(parts, count):
    text_if(len(parts) <= count)
    return [times_of(part) for part in parts] + [NEVER] * (count - len(parts))


def move_of(text):
    """A move, as its kind and what belongs to it."""
    first, rest = text[:1], text[1:]
    if first == b"t":
        text_if(not rest)
        return "turn",
    if first == b"u":
        rule, *parts = rest.split(b".")
        return "use", number_of(rule), exponents_of(parts, 4)
    if first == b"i":
        nothing, *parts = rest.split(b".")
        text_if(not nothing)
        return "use", None, [A] + exponents_of(parts, 3)
    if first == b"g":
        rule, *parts = rest.split(b".")
        return "together", number_of(rule), [A] + exponents_of(parts, 3)
    if first in (b"l", b"r") and first:
        place, *parts = rest.split(b".")
        letter = place[-1:].lower()
        text_if(letter in WORDS and len(parts) == len(WORDS[letter]))
        read = {"w": word_of, "t": times_of, "n": number_of}
        parts = [read[kind](part) for kind, part in zip(WORDS[letter], parts)]
        return "change", first == b"r", number_of(place[:-1]), letter, parts, place[-1:] != letter
    return "steps", number_of(text)


def script_of(text):
    return [move_of(part) for part in text.split(b",")] if text else []


def rule_of(text, states):
    parts = text.split(b":")
    text_if(len(parts) in (4, 5) and re.fullmatch(rb"[ob]{2}", parts[0]))
    return parts[0], form_of(parts[1], states), form_of(parts[2], states), [script_of(part) for part in parts[3:]]


# Numbers, equations and forms.

def fails_unless(holds):
    if not holds:
        raise Fails


def small(times):
    fails_unless(max(times) <= LARGEST)
    return times


def plus(times, others):
    return small(tuple(x + y for x, y in zip(times, others)))


def times_often(count, times):
    return small(tuple(count * x for x in times))


def times_by(times, exponents):
    whole = (times[0], 0, 0, 0, 0)
    for factor, exponent in zip(times[1:], exponents):
        whole = plus(whole, times_often(factor, exponent))
    return whole


def half_by(half, exponents):
    return [(word, times_by(times, exponents)) for word, times in half]


def form_by(form, exponents):
    left, state, side, right = form
    return half_by(left, exponents), state, side, half_by(right, exponents)


def sides_of(letter, parts):
    """The two sides of an equation, and whether it holds at a blank end alone."""
    if letter == b"s":
        word, first, second = parts
        return [(word, plus(first, second))], [(word, first), (word, second)], False
    if letter == b"w":
        return [(parts[0], ONCE)], [(parts[0][k:k + 1], ONCE) for k in range(len(parts[0]))], False
    if letter == b"r":
        over, word, other, times = parts
        fails_unless(over + word == other + over)
        return [(over, ONCE), (word, times)], [(other, times), (over, ONCE)], False
    if letter == b"p":
        long, word, copies, times = parts
        fails_unless(copies <= 63 and long == word * copies)
        return [(long, times)], [(word, times_often(copies, times))], False
    if letter == b"e":
        return [(parts[0], NEVER)], [], False
    fails_unless(set(parts[0]) == {ord("0")})
    return [(parts[0], parts[1])], [], True


def replaced(half, place, old, new):
    fails_unless(place <= len(half) and half[place:place + len(old)] == old)
    return half[:place] + new + half[place + len(old):]


class Walk:
    """A form on its way through a script: of a table, with rules that may be used, for ends that are open or blank; in a
    proof by induction also the rule that is being proved, and its group."""

    def __init__(self, rows, rules, ends, form, proving=None, group=()):
        self.rows = rows
        self.rules = rules
        self.ends = ends
        self.proving = proving
        self.group = group
        left, self.state, self.side, right = form
        self.halves = [list(left), list(right)]

    def form(self):
        return self.halves[0], self.state, self.side, self.halves[1]

    def here(self):
        return self.side == b">"

    def take_symbol(self):
        half = self.halves[self.here()]
        fails_unless(half and half[0] in ((b"0", ONCE), (b"1", ONCE)))
        return half.pop(0)[0]

    def step(self):
        symbol = self.take_symbol()
        entry = self.rows[self.state][symbol == b"1"]
        fails_unless(entry)
        write, move, self.state = entry
        self.halves[move == -1].insert(0, (b"%d" % write, ONCE))
        self.side = b">" if move == 1 else b"<"

    def turn(self):
        symbol = self.take_symbol()
        self.halves[not self.here()].insert(0, (symbol, ONCE))
        self.side = b"<" if self.here() else b">"

    def use(self, number, exponents):
        fails_unless(self.proving if number is None else number < len(self.rules))
        self.apply(self.proving if number is None else self.rules[number], exponents)

    def together(self, number, exponents):
        fails_unless(0 <= number - len(self.rules) < len(self.group))
        self.apply(self.group[number - len(self.rules)], exponents)

    def apply(self, rule, exponents):
        ends, first, second = rule
        first, second = form_by(first, exponents), form_by(second, exponents)
        fails_unless(first[1:3] == (self.state, self.side))
        for k, old, new in ((0, first[0], second[0]), (1, first[3], second[3])):
            if ends[k] == ord("o"):
                self.halves[k] = replaced(self.halves[k], 0, old, new)
            else:
                fails_unless(self.ends[k] == ord("b") and self.halves[k] == old)
                self.halves[k] = list(new)
        self.state, self.side = second[1:3]

    def change(self, on_right, place, letter, parts, back):
        old, new, at_end = sides_of(letter, parts)
        old, new = (new, old) if back else (old, new)
        if at_end:
            fails_unless(self.ends[on_right] == ord("b") and place + len(old) == len(self.halves[on_right]))
        self.halves[on_right] = replaced(self.halves[on_right], place, old, new)

    def move(self, kind, *parts):
        if kind == "steps":
            fails_unless(parts[0] <= LONGEST)
            for _ in range(parts[0]):
                self.step()
        else:
            getattr(self, kind)(*parts)

    def follow(self, script):
        """Carries a script out, and says to which form it leads."""
        self.look()
        for move in script:
            self.move(*move)
            self.look()
        return self.form()

    def look(self):
        fails_unless(max(len(half) for half in self.halves) <= MOST_BLOCKS)


# Records.

def steps_in(script):
    return sum(move[1] for move in script if move[0] == "steps")


def prove(rows, rules, group, rule):
    """Whether a rule of a group is proved, by the rules before it and those of the group."""
    ends, first, second, scripts = rule
    if len(scripts) == 1:
        fails_unless(len(group) == 1)
        fails_unless(Walk(rows, rules, ends, first).follow(scripts[0]) == second)
        return
    for a, script, proving, may in ((NEVER, scripts[0], None, ()), ((1, 1, 0, 0, 0), scripts[1], rule[:3], group)):
        exponents = (a,) + OTHERS
        walk = Walk(rows, rules, ends, form_by(first, exponents), proving, may)
        fails_unless(walk.follow(script) == form_by(second, exponents))


def leads(rows, rules, script, first, second):
    fails_unless(Walk(rows, rules, b"bb", first).follow(script) == second)


def induction(rows, rules, family, first, begin, next_, loop):
    """The verdict on a table for which six texts are made."""
    if sum(map(len, (rules, family, first, begin, next_, loop))) + 5 > MOST_BYTES:
        raise Refused("305")
    groups = [] if rules == b"-" else rules.split(b";")
    groups = [[rule_of(text, len(rows)) for text in group.split(b"&")] for group in groups]
    family = form_of(family, len(rows))
    first, next_ = exponents_of(first.split(b"."), 4), exponents_of(next_.split(b"."), 4)
    begin, loop = script_of(begin), script_of(loop)
    try:
        scripts = [script for group in groups for rule in group for script in rule[3]]
        fails_unless(sum(map(steps_in, [begin, loop] + scripts)) <= LONGEST_TOGETHER)
        rules = []
        for group in groups:
            together = [rule[:3] for rule in group]
            for rule in group:
                prove(rows, rules, together, rule)
            rules = rules + together
        leads(rows, rules, begin, ([], 0, b">", []), form_by(family, first))
        leads(rows, rules, loop, family, form_by(family, next_))
        fails_unless(steps_in(loop))
    except Fails:
        raise Refused("201") from None
    return "never"
