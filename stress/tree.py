"""The tree of machines and the board of a ledger, written anew from docs/FORMATS.md and the field's definitions."""
from faults import Refused
from oracle import answer, printed, read_table, run, score, step

# What a header begins with in each version; a ledger is written anew in the second.
HEADERS = {1: b"bb-ledger 1 ", 2: b"bb-ledger 2 "}
HEADER = HEADERS[2]


def in_version(version, line):
    """A line as it stands in a ledger: without its score in version 1."""
    parts = line.split(b" ")
    return b" ".join(parts[:3]) if version == 1 and parts[1] in (b"H", b"L") else line


def may_stand(version, line):
    """Whether a record's line is one of this version: of a halting table with its score in version 2 alone."""
    parts = line.split(b" ")
    return parts[1] not in (b"H", b"L") or len(parts) == version + 2


def used(rows):
    """A, each state that has an entry, and each that is a target."""
    states = {0}
    for number, row in enumerate(rows):
        for entry in row:
            if entry is not None:
                states |= {number, entry[2]}
    return states


def is_in_order(rows):
    states = used(rows)
    return states == set(range(len(states)))


def halting_pair(rows, count):
    """The pair on which a table stands that is known to halt in so many steps."""
    state, head, ones = run(rows, count - 1)[-1]
    return state, int(head in ones)


def children(rows, count):
    undefined = sum(entry is None for row in rows for entry in row)
    if undefined < 2:
        return []
    state, symbol = halting_pair(rows, count)
    states = used(rows)
    targets = sorted(states) + ([len(states)] if len(states) < len(rows) else [])
    is_empty = undefined == 2 * len(rows)
    found = []
    for write in (0, 1):
        for move in ((1,) if is_empty else (-1, 1)):
            for target in targets:
                child = [list(row) for row in rows]
                child[state][symbol] = (write, move, target)
                found.append(child)
    return found


class Board:
    """What a ledger's records come to; `lines` has them as they are held, with their scores."""

    def __init__(self, root):
        self.root = root
        self.lines = []
        self.shown = {}
        self.scores = {}
        self.open = {printed(root)}

    def take(self, line, version=None):
        """Takes a record's line, of a ledger of some version or not; says why it isn't kept, or None where it is. `too long`
        where that can't be judged here."""
        told = answer(line)
        try:
            rows = read_table(line.split(b" ")[0])
        except Refused as refused:
            return str(refused)
        if version is not None and not (told or "").startswith("refused 3") and not may_stand(version, line):
            return "refused 302"
        if told is None:
            return "too long"
        if told.startswith("refused") and not told.startswith("refused 20"):
            return told
        if len(rows) != len(self.root):
            return "refused 403"
        table = printed(rows)
        is_holdout = self.shown.get(table) == "undecided"
        if table in self.shown and not is_holdout:
            return "repeated"
        if is_holdout and line.endswith(b" U"):
            return "repeated"
        if table not in self.open and not is_holdout:
            return "refused 402"
        if told.startswith("refused"):
            return told
        self.open.discard(table)
        shown = told.split(" ", 1)[1]
        written = table.encode() + line[len(table):]
        if shown.startswith("halts "):
            count = int(shown.split(" ")[1])
            self.scores[table] = score(rows, count)
            written = f"{table} H {count} {self.scores[table]}".encode()
            shown = f"halts {count}"
        if is_holdout:
            # it takes the holdout's place
            place = next(i for i, held in enumerate(self.lines) if held.split(b" ")[0] == table.encode())
            self.lines[place] = written
        else:
            self.lines.append(written)
        self.shown[table] = shown
        if shown.startswith("halts "):
            for child in children(rows, int(shown.split(" ")[1])):
                self.open.add(printed(child))
        return None

    def report(self, left):
        shown = list(self.shown.values())
        counts = [int(s.split(" ")[1]) for s in shown if s.startswith("halts ")]
        holdouts = sorted(t for t, s in self.shown.items() if s == "undecided")
        best = max(counts, default=None)
        status = "working" if self.open else "holdouts" if holdouts else "complete"
        lines = [
            f"root {printed(self.root)}", f"status {status}", f"nodes {len(shown) + len(self.open)}", f"halting {len(counts)}",
            f"never {shown.count('never')}", f"holdouts {len(holdouts)}", f"open {len(self.open)}",
            f"best {'none' if best is None else best}",
        ]
        lines += [f"champion {t}" for t in sorted(t for t, s in self.shown.items() if best is not None and s == f"halts {best}")]
        ones = max(self.scores.values(), default=None)
        lines.append(f"ones {'none' if ones is None else ones}")
        lines += [f"ones_champion {t}" for t in sorted(t for t, s in self.scores.items() if s == ones)]
        lines += [f"holdout {t}" for t in holdouts]
        if left is not None:
            lines.append(f"left {left}")
        return "".join(line + "\n" for line in lines)


class Loaded:
    """What a ledger's text is loaded as: a board and the number of the first line that isn't kept, or a fault."""

    def __init__(self, text):
        self.board, self.left, self.fault, self.is_too_long = None, None, "", False
        self.version = next((v for v, words in HEADERS.items() if text.startswith(words)), None)
        end = text.find(b"\n")
        if end < 0 or self.version is None:
            self.fault = "refused 404\n"
            return
        try:
            root = read_table(text[len(HEADER):end])
        except Refused:
            self.fault = "refused 404\n"
            return
        if not is_in_order(root):
            self.fault = "refused 405\n"
            return
        self.board = Board(root)
        self.kept = text[:end + 1]
        self.take_lines(text[end + 1:].split(b"\n"))

    def take_lines(self, lines):
        for number, line in enumerate(lines[:-1]):
            why = self.board.take(line, self.version)
            if why == "too long":
                self.is_too_long = True
                return
            if why is not None:
                self.left = number + 2
                return
            self.kept += line + b"\n"
        if lines[-1]:
            self.left = len(lines) + 1


def reported(text):
    """What is printed for a ledger's text, and the fault; both None where it takes too long to say."""
    ledger = Loaded(text)
    if ledger.is_too_long:
        return None, None
    return (None, ledger.fault) if ledger.fault else (ledger.board.report(ledger.left), "")
