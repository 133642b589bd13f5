"""The text of cases: what stress/cases.py plays. The head of stress/cases.py says what lines there are."""
import itertools
import os
import re
import sys

ESCAPED = re.compile(rb"\\(?:x([0-9a-f]{2})|\*(\d+):(.*?);|(\\))")


def text_of(line):
    """The bytes of a line's text."""

    def one(found):
        if found[1]:
            return bytes([int(found[1], 16)])
        return found[3] * int(found[2]) if found[2] else b"\\"

    return ESCAPED.sub(one, line.encode())


class Said:
    """What has to stand somewhere: lines, and what kind they are."""

    def __init__(self, kind="bytes", other=None):
        self.kind, self.other, self.bytes, self.pieces = kind, other, b"", []

    def is_met(self, found, answers, other_text):
        if found is None:
            return self.kind == "gone"
        if self.pieces:
            return self.has_pieces(found)
        if self.kind == "beginning":
            return found.startswith(self.bytes) and len(found) > len(self.bytes) and found.endswith(b"\n")
        if self.kind == "some":
            return found != b""
        if self.kind == "answer":
            return answers[self.other - 1 if self.other > 0 else self.other] == found
        if self.kind == "same":
            return found == other_text(self.other)
        return self.kind == "bytes" and found == self.bytes

    def has_pieces(self, found):
        for piece in self.pieces:
            at = found.find(piece)
            if at < 0:
                return False
            found = found[at + len(piece) :]
        return True


class Device:
    """How much a device moves at once, and from which call on it fails, and how; -1 and 0: whatever is asked, never."""

    def __init__(self):
        self.at_once, self.due, self.error, self.halves = -1, 0, "EIO", 0


DEVICES = ("input", "answers", "faults", "files", "reading", "sockets")
VARIANTS = re.compile(r"(files|sockets) fail in each call|unsaid|(bits|cuts|beginnings) (.*)")
LIMITS = re.compile(rf"({'|'.join(DEVICES)}) (by|fails at call|lacks memory at call) (\d+)")


class Step:
    """A command, what it meets, and what has to come of it."""

    def __init__(self, line, words):
        self.line, self.words, self.input, self.input_file = line, words, Said(), None
        self.answers, self.faults, self.status, self.after, self.others, self.asked = Said(), Said(), 0, {}, False, []
        self.calls, self.turns = None, []
        self.devices, self.paths, self.flags, self.clock, self.variant = {}, {}, set(), None, None

    def take_condition(self, text):
        """Whether a line `@ TEXT` says something."""
        if text in ("talk", "terminal", "no text"):
            self.flags.add(text)
        elif VARIANTS.fullmatch(text):
            self.variant = text
        elif limit := LIMITS.fullmatch(text):
            device = self.devices.setdefault(limit[1], Device())
            if limit[2] == "by":
                device.at_once = int(limit[3])
            else:
                device.due, device.error = int(limit[3]), "EIO" if limit[2] == "fails at call" else "ENOMEM"
        elif text.startswith("clock by "):
            self.clock = int(text[9:])
        elif text.partition(" ")[0] in ("locked", "sealed", "fixed"):
            self.paths[text.partition(" ")[0]] = text.partition(" ")[2]
        else:
            return False
        return True


class Case:
    def __init__(self, name):
        self.name, self.files, self.steps, self.last = name, {}, [], None
        self.has_numbers_alone = name.startswith("rows.case:")

    def take(self, mark, text):
        """Takes a line; whether it may stand here."""
        step = self.steps[-1] if self.steps else None
        if mark == "$":
            self.steps.append(Step(self.name, text.split(" ")[1:]))
        elif mark in ("file", "gone", "some", "link", "name", "same", "data"):
            name, _, other = text.partition(" ")
            self.last = Said("bytes" if mark == "file" else mark, other)
            (step.after if step else self.files)[name] = self.last
        elif mark == "\\":
            self.last.bytes = self.last.bytes[:-1]
        elif mark == "|":
            self.last.bytes += text_of(text) + b"\n"
        elif mark in ("|~", "|*"):
            take_part(self.last, mark, text)
        elif not step:
            return False
        elif mark in ("<", ">", "!"):
            self.take_stream(step, mark, text)
        elif mark in (">~", "!~", ">*", "!*"):
            take_part(step.answers if mark[0] == ">" else step.faults, mark, text)
        else:
            return self.take_detail(step, mark, text)
        return True

    def take_stream(self, step, mark, text):
        if mark == "<":
            # Where a line begins, and how much is answered above it.
            step.turns.append((len(step.input.bytes), len(step.answers.bytes)))
        self.last = {"<": step.input, ">": step.answers, "!": step.faults}[mark]
        self.last.bytes += text_of(text) + b"\n"

    def take_detail(self, step, mark, text):
        if mark in (">>", "!!"):
            (step.answers if mark == ">>" else step.faults).kind = "some"
        elif mark == ">=":
            step.answers.kind, step.answers.other = "answer", int(text)
        elif mark == "<<":
            step.input_file = text
        elif mark == "?":
            step.status = int(text)
        elif mark == "@":
            return step.take_condition(text)
        elif mark == "others":
            step.others = True
        elif mark == "=":
            step.asked.append(text)
        elif mark == "%":
            step.calls = (step.calls or []) + [text]
        else:
            return False
        return True


def take_part(said, mark, text):
    """`~`: there it goes on so; `*`: there comes this somewhere."""
    if mark[1] == "~":
        said.kind, said.bytes = "beginning", said.bytes + text_of(text)
    else:
        said.pieces.append(text_of(text))


def with_fixtures(path):
    """The lines of a file with their numbers, and in the place of `with NAME` those of the fixture."""
    fixtures, name = {}, None
    with open(path, encoding="utf-8", newline="") as file:
        for number, line in enumerate(file.read().split("\n"), 1):
            if name is not None:
                if line:
                    fixtures[name].append((number, line))
                else:
                    name = None
            elif line.startswith("fixture "):
                name = line[8:]
                fixtures[name] = []
            elif line.startswith("with "):
                yield from fixtures[line[5:]]
            else:
                yield number, line


def in_orders(lines):
    """The lines of a case, once for each order of its commands."""
    begins = [place for place, (_, line) in enumerate(lines) if line in ("in each order", "in both orders")]
    if not begins:
        return lines
    (begin,), (end,) = begins, [place for place, (_, line) in enumerate(lines) if line == "end"]
    commands = []
    for number, line in lines[begin + 1 : end]:
        if line.startswith("$ "):
            commands.append([])
        commands[-1].append((number, line))
    orders = itertools.permutations(commands) if lines[begin][1] == "in each order" else (commands, commands[::-1])
    return [line for order in orders for line in (*lines[:begin], *itertools.chain(*order), *lines[end + 1 :])]


def lines_of(path):
    """The lines of the cases of a file, with their numbers."""
    case = []
    for number, line in with_fixtures(path):
        if line.startswith("case "):
            yield from in_orders(case)
            case = []
        case.append((number, line))
    yield from in_orders(case)


def cases_of(path):
    """The cases of a file. What is no line of a case ends the program, so that no row is passed over."""
    found = []
    for number, line in lines_of(path):
        if not line or line.startswith("#"):
            continue
        mark, _, text = line.partition(" ")
        if mark == "case":
            found.append(Case(f"{os.path.basename(path)}:{number}: {text}"))
        elif not found or not found[-1].take(mark, text):
            sys.exit(f"{path}:{number}: no line of a case")
    for case in found:
        if not case.steps:
            sys.exit(f"{case.name}: a case without a command")
    return found
