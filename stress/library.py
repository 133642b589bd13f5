#!/usr/bin/env python3
"""The judge as a library, beside the program: stress/library.py [RECORDS [SEED [ARCHIVE]]].

So many records (100,000 where it isn't said) of all kinds, whole and damaged by the seed, are judged by `bb check` and by
the library: by a program in C, by threads of one in Python and of one in Rust, each of which judges all of them, in another
order. Then ledgers, whole, torn, damaged and shuffled, are reported by `bb report` and by the library. The answers have to
be the same, and what each number means is said in the program's words. In C, each text also ends and begins where memory that
can't be read does; each of a call's first requests for memory is refused in turn; and valgrind sees a sample: nothing is lost,
and nothing read beyond a text. The library and the wheel are made twice, and have the same bytes; and what packaging/library
lays out is used with nothing else (stress/library_alone.py). ARCHIVE is what packaging/c/archive builds, else
crates/libbb/out/liblibbb.a, which is what `rt lib` leaves.

Prints what was tried, and which tools weren't there; ends with 1 where anything differs. Needs a C compiler.
"""
import collections
import doctest
import filecmp
import io
import json
import os
import pathlib
import random
import re
import shutil
import subprocess
import sys
import tempfile
import threading

import library_alone
from oracle import NAMED
from kinds import SEEDS, damaged, found, random_table

TOP = os.path.dirname(os.path.dirname(os.path.abspath(__file__)))
sys.path.insert(0, os.path.join(TOP, "bench"))
from program import PROGRAM  # noqa: E402

PACKAGING = os.path.join(TOP, "packaging")
ARCHIVE = os.path.join(TOP, "crates", "libbb", "out", "liblibbb.a")
THREADS = 4
LEDGERS = 300
# How many records valgrind sees.
SEEN = 1_000
# Longer ones meet no refusals, each of which takes a call.
SHORT = 300
# The letters of the kinds, each of which has to be there, and what `bb check` has to answer at least once.
KINDS = "HLCTBNFAWRPU"
ANSWERS = ["halts", "never", "undecided", "refused 201", "refused 202", "refused 203", "refused 301", "refused 302", "refused 303",
           "refused 304", "refused 305"]
COUNTED = [b"1RA--- W 1 0 0,1a,-,1a 0,- 0A00:0,1A00:1a:1a", b"1RA--- R - 1^0a1A> 0 l0E.1 1a1 r0B.0.1,1,l0S.1.1.0a1", b"1RA--- A R 1 0,0 0,- 0",
           b"0RB---_0LA--- A R 2 0,1,1,1 1,-,.,-,3,-,-,- 0,1", b"0RB---_0LA--- F R 2 0111 2,10,0,10,8,10,10,10 3"]
ODD = [b"", b" ", b"\0", b"\xff" * 40, b"1RB1LB_1LA---\0 H 6", b"1RB1LB_1LA--- H 6\r", b"1RB1LB_1LA---  H 6", b"1RB1LB_1LA--- H 6 4 ",
       b"1RB1LB_1LA--- H 99999999999999999999", b"1RB1LB_1LA--- H 18446744073709551615", b"0RB---_0RA1RA B 33",
       b"1RA--- W 2 0 0,1a,-,1a 0,- 0A00:0,1A00:-2a:1a999999999b",
       b"1RB1RH_1LB0RC_1LC1RA U", b"1RB1LA_1LA1RB B 100000", b"1RA--- C 0 18446744073709551615",
       b"1RB1LB_1LA--- N 1 " + b"0," * 32_000, b"1RB1LB_1LA--- H 6" + b" " * 65_000, b"x" * 70_000]


class Differs(Exception):
    """Anything that isn't as it should be."""


def ran(command, **how):
    return subprocess.run(command, check=False, **how)


def lines_of(path):
    with open(path, "rb") as file:
        return file.read().split(b"\n")[:-1]


def sources(rng):
    """Records of all kinds, most of which stand."""
    names = [name.encode() + b" P" for name in NAMED]
    known = lines_of(os.path.join(TOP, "examples", "five-states.known"))
    made = found((random_table(rng) for _ in range(3_000)), "--gram", "3", "--far", "3")
    made += found((random_table(rng) for _ in range(300)), "--hard")
    tree = subprocess.run(["xz", "-dc", os.path.join(TOP, "examples", "four-states.ledger.xz")], capture_output=True, check=False).stdout
    tree = tree.split(b"\n")[1:-1]
    kept = rng.sample(tree, min(len(tree), 40_000))
    return [line for line in SEEDS + COUNTED + names + known + made + kept if b"1RD_1LC0RC_1RA1LD" not in line]


def records(count, rng):
    """So many records, of which two of three are damaged; some of the same text are far apart."""
    whole = sources(rng)
    by_kind = collections.defaultdict(list)
    for line in whole:
        by_kind[line.split(b" ")[1][:1]].append(line)
    kinds = sorted(by_kind)
    made = list(ODD)
    while len(made) < count:
        line = rng.choice(by_kind[rng.choice(kinds)])
        made.append(line if rng.random() < 0.34 else damaged(rng, line, by_kind[rng.choice(kinds)]))
    rng.shuffle(made)
    return made[:count]


def said_by_program(path, count):
    """The answers of `bb check`, without the tables."""
    run = ran([PROGRAM, "check"], stdin=open(path, "rb"), capture_output=True)
    answers = run.stdout.split(b"\n")[:-1]
    if len(answers) != count or run.stderr:
        raise Differs(f"bb check has {len(answers)} answers to {count} lines, {run.stderr[:200]!r}")
    return [answer if answer.startswith(b"refused") else answer.split(b" ", 1)[1] for answer in answers]


def as_said(row):
    """The numbers of a bb_answer, as library.c prints them, as `bb check` tells of them."""
    outcome, code, table_code, has_place, place, steps, _, has_ones, _ = row
    if outcome == 0:
        return f"halts {steps}"
    if outcome in (1, 2):
        return ("never", "undecided")[outcome - 1]
    numbers = [code] + [table_code] * (table_code > 0) + [place] * has_place
    return "refused " + " ".join(map(str, numbers)) if outcome == 3 else "out of memory"


def same_answers(rows, due, lines, who):
    if len(rows) != len(due):
        raise Differs(f"{who}: {len(rows)} answers to {len(due)} records")
    for row, told, line in zip(rows, due, lines):
        said = as_said(row) + (f" ones {row[6]}" if row[0] == 0 and row[7] else "")
        if said.encode() != told:
            raise Differs(f"{who}: {line[:200]!r}: {said}, and not {told.decode()}")
        # The letter is that of the record, where the text is one.
        if row[8] and line.split(b" ")[1:2] != [bytes([row[8]])]:
            raise Differs(f"{who}: {line[:200]!r}: the kind {row[8]}")


class Library:
    """The library, and the programs that call it, in a folder."""

    def __init__(self, room, archive):
        self.room = room
        ran([os.path.join(PACKAGING, "c", "make"), room, archive], stdout=subprocess.DEVNULL).check_returncode()
        self.archive = archive
        self.tool = self.compiled("library", os.path.join(TOP, "stress", "library.c"), "-pthread",
                                  *(f"-Wl,--wrap={name}" for name in ("malloc", "realloc", "free")))
        self.example = self.compiled("example", os.path.join(PACKAGING, "c", "example.c"))

    def compiled(self, name, source, *words):
        program = os.path.join(self.room, name)
        ran(["cc", "-O2", "-Wall", "-Wextra", "-Werror", "-I", self.room, *words, "-o", program, source,
             os.path.join(self.room, "libbb.a")]).check_returncode()
        return program

    def rows(self, way, path, *before):
        """What library.c prints, as numbers, and what it says beside that."""
        run = ran([*before, self.tool, way, path], capture_output=True)
        if run.returncode:
            raise Differs(f"library {way}: status {run.returncode}, {run.stderr[-2000:].decode(errors='replace')}")
        return [[int(n) for n in line.split()] for line in run.stdout.splitlines()], run.stderr.decode()


def exported(library):
    """Both libraries show the functions of bb.h and no other name, and C++ takes the header."""
    with open(os.path.join(PACKAGING, "c", "bb.h"), encoding="utf-8") as file:
        header = file.read()
    due = sorted(re.findall(r"^[\w ]+[ *](bb_\w+)\(", header, re.M))
    with open(os.path.join(TOP, "crates", "libbb", "src", "reader.rt"), encoding="utf-8") as file:
        room = re.search(r"^const READER_BYTES: usize = (\d+);", file.read(), re.M)[1]
    if f"#define BB_READER_BYTES {room}\n" not in header:
        raise Differs(f"bb.h doesn't say that a reader has {room} bytes")
    for name, words in (("libbb.so", ["-D"]), ("libbb.a", ["--extern-only"])):
        run = ran(["nm", *words, "--defined-only", os.path.join(library.room, name)], capture_output=True, text=True)
        names = sorted(line.split()[-1] for line in run.stdout.splitlines() if len(line.split()) == 3)
        if names != due:
            raise Differs(f"{name} shows {names}, and not {due}")
    if shutil.which("c++"):
        source = os.path.join(library.room, "header.cpp")
        with open(source, "w", encoding="utf-8") as file:
            file.write('#include "bb.h"\nstatic_assert(sizeof(bb_answer) == 48 && sizeof(bb_tree) == 96 && sizeof(bb_reader) == BB_READER_BYTES);\n')
        ran(["c++", "-std=c++17", "-Wall", "-Wextra", "-Werror", "-I", library.room, "-fsyntax-only", source]).check_returncode()


def made_again(library, wheel):
    """Made in another folder, with other rights for new files, the library and the wheel have the same bytes."""
    again = os.path.join(library.room, "again")
    before = os.umask(0o077)
    try:
        os.mkdir(again)
        ran([os.path.join(PACKAGING, "c", "make"), again, library.archive], stdout=subprocess.DEVNULL).check_returncode()
        ran([os.path.join(PACKAGING, "python", "make"), again, again], stdout=subprocess.DEVNULL).check_returncode()
    finally:
        os.umask(before)
    for name in ("libbb.a", "libbb.so", "bb.h", os.path.basename(wheel)):
        if not filecmp.cmp(os.path.join(library.room, name), os.path.join(again, name), shallow=False):
            raise Differs(f"{name}, made twice, has other bytes")
    print("library: libbb.a, libbb.so and the wheel made twice, the same bytes")


def declared(path, name):
    """The words of a type of faults in the crates, by their numbers, without a place."""
    with open(os.path.join(TOP, "crates", *path), encoding="utf-8") as file:
        text = file.read()
    arm = rf"{name}::(\w+)(?:\(\w+\))? =>\s*"
    numbers = dict(re.findall(arm + r"(?:Some\()?(\d{3})", text))
    words = re.findall(arm + r"\{?\s*(?:write!\(\s*f,\s*|f\.write_str\(\s*)\"([^\"]*)\"", text)
    return {int(numbers[variant]): said.removesuffix(" at byte {place}") for variant, said in words if variant in numbers}


def meanings(busybeaver, lines, due):
    """What each number means is said in the words of `bb check --json`, and of the crates where the program says numbers alone."""
    wanted = {}
    for path, name in ((("machine_text", "src", "grammar.rt"), "TextFault"), (("ledger", "src", "faults.rt"), "OfferFault"),
                       (("ledger", "src", "faults.rt"), "LoadFault")):
        wanted.update(declared(path, name))
    refused = {said.split(b" ")[1]: line for line, said in zip(lines, due) if said.startswith(b"refused")}
    run = ran([PROGRAM, "check", "--json"], input=b"".join(line + b"\n" for line in refused.values()), capture_output=True)
    for line in run.stdout.splitlines():
        told = json.loads(line)
        wanted[told["code"]] = told["meaning"]
    # No record is known that gets it.
    why = open(os.path.join(TOP, "crates", "cmd_explain", "src", "explain.rt"), encoding="utf-8").read()
    wanted[204] = re.search(r'Refused::NotSeen => "(.*?)"', why)[1]
    numbers = [*range(101, 106), *range(201, 205), *range(301, 306), *range(402, 406)]
    if sorted(wanted) != numbers:
        raise Differs(f"words are known of {sorted(wanted)}, and not of {numbers}")
    other = busybeaver.meaning(0)
    for code in range(1_000):
        if busybeaver.meaning(code) != wanted.get(code, other):
            raise Differs(f"{code} means {busybeaver.meaning(code)!r}, and not {wanted.get(code, other)!r}")
    print(f"library: what {len(wanted)} numbers mean is said in the program's words")


def by_path(busybeaver, path, text, due):
    """A ledger as a file, in other forms and in pieces is reported as its text is."""
    with open(path, "wb") as file:
        file.write(text)
    for way in (pathlib.Path(path), bytearray(text), memoryview(text), io.BytesIO(text), text.decode("utf-8", "surrogateescape")):
        if busybeaver.report(way) != due:
            raise Differs(f"a ledger as {type(way)}: {busybeaver.report(way)}, and not {due}")
    with busybeaver.Reader() as reader:
        for place in range(0, len(text), 61):
            reader.feed(text[place:place + 61])
        told = reader.end()
    if told != due:
        raise Differs(f"a ledger in pieces: {told}, and not {due}")
    busybeaver.Reader().feed(text)


def alone(library):
    """What packaging/library lays out is used from a place with nothing else."""
    laid = os.path.join(library.room, "laid")
    ran([os.path.join(PACKAGING, "library"), laid, library.room]).check_returncode()
    try:
        library_alone.main(laid, PROGRAM)
    except library_alone.Differs as differs:
        raise Differs(f"alone: {differs}") from differs


def installed(library):
    """The wheel, where pip would put it; pip does so where it is there."""
    place = os.path.join(library.room, "site")
    made = ran([os.path.join(PACKAGING, "python", "make"), library.room, library.room], capture_output=True, text=True)
    made.check_returncode()
    wheel = made.stdout.strip()
    pip = [sys.executable, "-m", "pip"]
    if ran([*pip, "--version"], capture_output=True).returncode == 0:
        ran([*pip, "install", "--quiet", "--no-index", "--no-deps", "--disable-pip-version-check", "--root-user-action=ignore",
             "--target", place, wheel]).check_returncode()
    else:
        print("library: no pip, so the wheel is unpacked")
        shutil.unpack_archive(wheel, place, "zip")
    sys.path.insert(0, place)
    import busybeaver
    if not busybeaver.__file__.startswith(place) or doctest.testmod(busybeaver).failed:
        raise Differs(f"busybeaver of {busybeaver.__file__} isn't that of the wheel, or doesn't do what it says")
    return busybeaver, wheel


def numbers(answer):
    """An answer of busybeaver, as library.c prints it."""
    return [int(answer.outcome), answer.code or 0, answer.table_code or 0, int(answer.place is not None), answer.place or 0,
            answer.steps or 0, answer.ones or 0, int(answer.says_ones), ord(answer.kind) if answer.kind else 0]


def by_threads(busybeaver, lines, rows):
    """Threads of this program judge all records, each in another order."""
    differs = []

    def judge(number):
        for step in range(len(lines)):
            place = (step + number * 7_919) % len(lines)
            told = numbers(busybeaver.check(lines[place]))
            if told != rows[place]:
                differs.append(f"thread {number} of Python: {lines[place][:200]!r}: {told}, and not {rows[place]}")
                return

    judges = [threading.Thread(target=judge, args=(number,)) for number in range(THREADS)]
    for one in judges:
        one.start()
    for one in judges:
        one.join()
    if differs:
        raise Differs(differs[0])


def printed(program, path, lines, due, *words, **how):
    """The lines of an example are those of `bb check`, but for the table, which stands as the record has it."""
    run = ran([*program, path, *words], capture_output=True, **how)
    told = run.stdout.split(b"\n")[:-1]
    wanted = [said if said.startswith(b"refused") else line.split(b" ", 1)[0] + b" " + said for line, said in zip(lines, due)]
    if told != wanted or run.returncode != 1:
        place = next((n for n, (a, b) in enumerate(zip(told, wanted)) if a != b), min(len(told), len(wanted)))
        raise Differs(f"{os.path.basename(program[-1])}: line {place + 1}, status {run.returncode}, {told[place:place + 1]} and not "
                      f"{wanted[place:place + 1]}, {run.stderr[-300:]!r}")


def in_rust(library):
    """The example of the crate, where cargo is there."""
    if not shutil.which("cargo"):
        print("library: no cargo, so the crate wasn't tried")
        return None
    crate = os.path.join(library.room, "rust")
    shutil.copytree(os.path.join(PACKAGING, "rust"), crate, ignore=shutil.ignore_patterns("target", "Cargo.lock"))
    environment = {**os.environ, "BB_LIBRARY": library.room, "CARGO_TARGET_DIR": os.path.join(library.room, "target")}
    for words in (["build", "--release", "--example", "judge"], ["test", "--release", "--doc"]):
        ran(["cargo", *words, "--quiet", "--offline"], cwd=crate, env=environment, stdout=subprocess.DEVNULL).check_returncode()
    return os.path.join(library.room, "target", "release", "examples", "judge")


def some_ledgers(rng):
    """Ledgers: those of examples, and torn, damaged, shuffled and doubled ones."""
    whole = []
    for name in ("one-state", "two-states", "three-states", "unfit"):
        with open(os.path.join(TOP, "examples", f"{name}.ledger"), "rb") as file:
            whole.append(file.read())
    made = [*whole, b"", b"bb-ledger 2 ", b"bb-led", b"bb-ledger 2 ------\n", b"bb-ledger 2 1RB---_------\n", b"bb-ledger 3 ------\n",
            b"bb-ledger 2 ------_1RA---\n", b"bb-ledger 2 ---\n", b"\n", b"\0" * 100, b"bb-ledger 2 ------" + b" " * 90]
    while len(made) < LEDGERS:
        text = rng.choice(whole)
        way = rng.randrange(6)
        lines = text.split(b"\n")
        if way == 0:
            text = text[:rng.randint(0, len(text))]
        elif way == 1:
            place = rng.randrange(len(text))
            text = text[:place] + bytes([text[place] ^ 1 << rng.randrange(8)]) + text[place + 1:]
        elif way == 2:
            place = rng.randrange(len(lines))
            text = b"\n".join(lines[:place] + [damaged(rng, lines[place], lines[1:-1])] + lines[place + 1:])
        elif way == 3:
            a, b = rng.randrange(len(lines)), rng.randrange(len(lines))
            lines[a], lines[b] = lines[b], lines[a]
            text = b"\n".join(lines)
        elif way == 4:
            place = rng.randrange(1, len(lines))
            text = b"\n".join(lines[:place] + [rng.choice(lines)] + lines[place:])
        else:
            text = b"\n".join(lines[:1] + rng.choice(whole).split(b"\n")[1:])
        made.append(text)
    return made


WORDS = [(1, "the line has no end"), (4, "the table is recorded already")]


def reported(text):
    """What `bb report` says of a ledger: status, states, whether the root is empty, counts, best, ones, the line that is left, why."""
    run = ran([PROGRAM, "report", "--why", "-"], input=text, capture_output=True)
    said = run.stdout.decode() + run.stderr.decode()
    if not run.stdout:
        return {"code": int(re.search(r"refused (\d+)", said)[1])}
    told = dict(re.findall(r"^(root|status|nodes|halting|never|holdouts|open|best|ones|left) (\S+)$", said, re.M))
    told["whole"] = set(told["root"]) <= set("-_")
    why = re.search(r"^line \d+ isn't kept: (?:(\d+), )?(.*)$", said, re.M)
    told["why"] = None if not why else (int(why[1]) if why[1] else dict((w, n) for n, w in WORDS)[why[2]])
    return told


def is_told(told, report, status):
    """Whether the library's report says what that of the program does."""
    if "code" in told:
        return (report.status, report.code) == (status.REFUSED, told["code"])
    def greatest(name):
        return None if told[name] == "none" else int(told[name])

    left = int(told["left"]) if "left" in told else None
    why = None if left is None else report.left_code if told["why"] > 4 else int(report.left_why)
    return (
        report.code is None and report.status == status[told["status"].upper()] and report.states == (len(told["root"]) + 1) // 7
        and report.is_whole == told["whole"] and all(getattr(report, name) == int(told[name]) for name in
                                                     ("nodes", "halting", "never", "holdouts", "open"))
        and report.best == greatest("best") and report.ones == greatest("ones") and report.left_line == left and why == told["why"]
    )


def ledgers(library, busybeaver, rng):
    """Reports of ledgers, by the program, by Python, and in C where each text stands alone in memory."""
    statuses = collections.Counter()
    refusals = 0
    path = os.path.join(library.room, "some.ledger")
    for number, text in enumerate(some_ledgers(rng)):
        told, report = reported(text), busybeaver.report(text)
        if not is_told(told, report, busybeaver.Status):
            raise Differs(f"ledger {number}: {told}, and {report}")
        statuses[report.status.name.lower() + (", not all kept" if report.left_line else "")] += 1
        by_path(busybeaver, path, text, report)
        rows = {way: library.rows(way, path) for way in ("ledger", "ledger-pages", "pieces", "pieces-pages")}
        due = [int(report.status), report.code or 0, report.states, report.is_whole, report.nodes, report.halting, report.never,
               report.holdouts, report.open, int(report.best is not None), report.best or 0, int(report.ones is not None), report.ones or 0,
               report.left_line or 0, int(report.left_why or 0), report.left_code or 0]
        for way, (row, _) in rows.items():
            if row != [due]:
                raise Differs(f"ledger {number}, {way}: {row}, and not {due}")
        if len(text) < 20_000:
            refusals += sum(int(library.rows(way, path)[1]) for way in ("ledger-refused", "pieces-refused"))
    print(f"library: {LEDGERS} ledgers reported as bb report does, whole and in pieces: " + ", ".join(f"{n} {s}" for s, n in sorted(statuses.items()))
          + f"; {refusals} requests refused")


def four_states(busybeaver):
    """The ledger of four states: S(4) and Σ(4)."""
    text = subprocess.run(["xz", "-dc", os.path.join(TOP, "examples", "four-states.ledger.xz")], capture_output=True, check=False).stdout
    report = busybeaver.report(text)
    if (report.status, report.is_whole, report.states, report.best, report.ones, report.left_line) != (0, True, 4, 107, 13, None):
        raise Differs(f"four states: {report}")
    print(f"library: four states are complete, best {report.best}, ones {report.ones}, by {report.nodes} records")


def valgrind(library, lines, rng, path):
    """Valgrind sees a sample of records, each in a block of its own length, and ledgers."""
    if not shutil.which("valgrind"):
        print("library: no valgrind, so a sample wasn't seen by it")
        return
    words = ["valgrind", "--quiet", "--error-exitcode=9", "--leak-check=full", "--show-leak-kinds=all", "--errors-for-leak-kinds=all"]
    sample = [line for line in rng.sample(lines, min(len(lines), SEEN)) if not re.search(rb" H \d{5,}", line)]
    with open(path, "wb") as file:
        file.write(b"".join(line + b"\n" for line in ODD + sample))
    library.rows("records", path, *words)
    with open(path, "wb") as file:
        file.write(b"".join(line + b"\n" for line in ODD + sample if len(line) < SHORT))
    refusals = int(library.rows("refused", path)[1])
    for name in ("three-states", "unfit"):
        for way in ("ledger", "pieces"):
            library.rows(way, os.path.join(TOP, "examples", f"{name}.ledger"), *words)
    print(f"library: valgrind saw {len(ODD) + len(sample)} records and 2 ledgers: nothing lost, nothing read beyond a text; "
          f"{refusals} requests refused")


def all_of(count, seed, archive):
    rng = random.Random(seed)
    with tempfile.TemporaryDirectory() as room:
        library = Library(room, archive)
        exported(library)
        busybeaver, wheel = installed(library)
        lines = records(count, rng)
        path = os.path.join(room, "records")
        with open(path, "wb") as file:
            file.write(b"".join(line + b"\n" for line in lines))
        due = said_by_program(path, count)
        counts = collections.Counter(re.match(r"refused \d+|\w+", said.decode())[0] for said in due)
        rows = library.rows("records", path)[0]
        same_answers(rows, due, lines, "C")
        kinds = collections.Counter(chr(row[8]) for row in rows if row[8])
        lacking = [kind for kind in KINDS if kind not in kinds] + [said for said in ANSWERS if said not in counts]
        if lacking:
            raise Differs(f"none of {', '.join(lacking)} among the records: too few of them")
        if library.rows("pages", path)[0] != rows:
            raise Differs("a text beside memory that can't be read is judged otherwise")
        by_threads(busybeaver, lines, rows)
        if [record for record, _ in busybeaver.check_file(path)] != lines:
            raise Differs("check_file gives other lines than the file has")
        meanings(busybeaver, lines, due)
        printed([library.example], path, lines, due)
        environment = {**os.environ, "PYTHONPATH": os.path.join(room, "site")}
        printed([sys.executable, os.path.join(PACKAGING, "python", "example.py")], path, lines, due, env=environment)
        rust = in_rust(library)
        if rust:
            printed([rust], path, lines, due, str(THREADS))
        print(f"library: {count} records answered as bb check does, in C, and by {THREADS} threads of Python"
              + (" and of Rust" if rust else "") + f" side by side ({os.path.basename(wheel)}): "
              + ", ".join(f"{n} {said}" for said, n in sorted(counts.items())) + "; kinds "
              + ", ".join(f"{n} {kind}" for kind, n in sorted(kinds.items())))
        valgrind(library, lines, rng, os.path.join(room, "sample"))
        ledgers(library, busybeaver, rng)
        four_states(busybeaver)
        made_again(library, wheel)
        alone(library)


def main(words):
    count = int(words[0]) if words else 100_000
    seed = int(words[1]) if words[1:] else 1
    try:
        all_of(count, seed, words[2] if words[2:] else ARCHIVE)
    except Differs as differs:
        print(f"library: seed {seed}: {differs}")
        return 1
    return 0


if __name__ == "__main__":
    sys.exit(main(sys.argv[1:]))
