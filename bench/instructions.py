#!/usr/bin/env python3
"""Programs on the same input, side by side: bench/instructions.py BEFORE [AFTER] [times] prints a row of each command with the instructions
(valgrind --tool=callgrind) a table or record, and the microseconds of processor time, the least of five turns: of an older program,
of the program, and of a plain Rust program of this folder (rustc -O), and their ratios. AFTER is what BB names, or the kept program;
with `times` nothing is counted. A check and a search are timed on their input ten times over, which takes longer than a begin.
Standard error says of each row whether both print the same and leave the same ledgers, and how far the plain program does.

The tables of five and six states are those of bench/sample_six.rs; records and frames of four states are those of
examples/four-states.ledger.xz. The parts of five states are drawn by chance from the 19,384 after a trunk of the tables with up to
four filled entries, those of a table alone and of more than 10,000 left out, and the largest of them is joined in its children's
parts. It takes some three processor minutes."""
import collections
import dataclasses
import itertools
import lzma
import os
import random
import re
import shutil
import subprocess
import sys
import tempfile

from measured import built, run, used
from program import PROGRAM, TOP

TABLES = 5_000
RECORDS = 10_000
ROUNDS = "1000"
PARTS = 4
MOST_OF_A_PART = 10_000
TURNS = 5
AGAIN = 10
PLAIN = ["plain_short", "plain_walk", "plain_coord", "sample_six", "grow_ledger"]


@dataclasses.dataclass
class Work:
    """What a program does: commands one after another, with an input, in a folder that has some files."""
    commands: list
    text: bytes = b""
    files: dict = dataclasses.field(default_factory=dict)


@dataclasses.dataclass
class Row:
    name: str
    count: int
    work: Work
    # what the plain program does, and what compares the answers; or why there is none
    plain: Work = None
    compared: callable = None
    why: str = ""
    # the rows that add up to what the older program does instead
    instead: tuple = ()
    # how many times the input is given where the time is taken
    times: int = 1


def done(work, folder, before=()):
    """What the commands print, the files that they leave beside those that stay as they were, and what they say."""
    shutil.rmtree(folder, ignore_errors=True)
    for name, what in work.files.items():
        path = os.path.join(folder, name)
        os.makedirs(os.path.dirname(path), exist_ok=True)
        with open(path, "wb") as file:
            file.write(what)
    os.makedirs(folder, exist_ok=True)
    start = used()
    said = [subprocess.run([*before, *words], input=work.text, stdout=subprocess.PIPE, stderr=subprocess.PIPE, cwd=folder, check=False)
            for words in work.commands]
    seconds = used() - start
    left = {}
    for name in sorted(os.listdir(folder)):
        path = os.path.join(folder, name)
        if os.path.isfile(path):
            with open(path, "rb") as file:
                left[name] = file.read()
    return b"".join(one.stdout for one in said), left, b"".join(one.stderr for one in said), seconds


def instructions(work, folder):
    valgrind = ["valgrind", "--tool=callgrind", "--callgrind-out-file=/dev/null"]
    answer, left, said, _ = done(work, folder, valgrind)
    return (answer, left), sum(int(number) for number in re.findall(rb"Collected : (\d+)", said))


def by(program, work):
    return Work([[program, *words] for words in work.commands], work.text, work.files)


def same(ours, theirs):
    return "the same" if ours == theirs else "others"


def same_answer(ours, theirs):
    return same(ours[0], theirs[0])


def kinds(text):
    return collections.Counter(line.split(b" ")[1].decode() for line in text.splitlines() if not line.startswith(b"bb-ledger"))


def same_kinds(ours, theirs):
    """Of records: whether there are as many of each kind, but for those that are left; and `bb check` has to accept each."""
    left, wanted = kinds(theirs), kinds(ours)
    undecided = left.pop("U", 0)
    other = {kind: wanted[kind] - left[kind] for kind in sorted(wanted) if wanted[kind] != left[kind]}
    refused = run([PROGRAM, "check"], b"".join(line + b"\n" for line in theirs.splitlines() if not line.startswith(b"bb-ledger")))[1]
    if b"refused" in refused:
        return "others: refused"
    told = "the same numbers of " + ", ".join(f"`{kind}`" for kind in sorted(left) if kind not in other)
    more = [f"{-many:,} `{kind}` more" if many < 0 else f"{many:,} `{kind}` fewer" for kind, many in other.items() if kind in left]
    return ", ".join([told, *more, *([f"leaves {undecided:,}"] if undecided else [])])


def same_records(ours, theirs):
    return same_kinds(ours[0], theirs[0])


def same_ledgers(ours, theirs):
    """The plain program prints the ledgers that ours leaves."""
    return same_kinds(b"".join(ours[1].values()), theirs[0])


def same_report(ours, theirs):
    """Of reports: whether all is the same but for what is left, which is a holdout there."""
    def sums(text):
        lines = [line for line in text.splitlines() if not line.startswith((b"status", b"holdout ", b"open"))]
        total = collections.Counter()
        for line in lines:
            word, rest = line.split(b" ", 1)
            if word in (b"never", b"holdouts"):
                total[b"not halting"] += int(rest)
        return [line for line in lines if not line.startswith((b"never", b"holdouts"))], total
    if ours[0] == theirs[0]:
        return "the same"
    left = sum(int(line.split()[1]) for line in theirs[0].splitlines() if line.startswith(b"holdouts "))
    return f"the same report but for {left:,} holdouts" if sums(ours[0]) == sums(theirs[0]) else "others"


def tables_of(states, sampler):
    drawn = run([sampler, "7", str(TABLES), states])[1]
    return [line.split()[0] for line in drawn.splitlines()[:TABLES]]


def settled(root, folder):
    """The ledger of a tree that was settled."""
    path = os.path.join(folder, "settled")
    with open(path, "wb") as file:
        file.write(b"bb-ledger 2 %s\n" % root)
    subprocess.run([PROGRAM, "settle", path, "--hard"], stdout=subprocess.DEVNULL, check=True)
    with open(path, "rb") as file:
        return file.read()


def drawn_parts(folder):
    """The ledgers of some parts of five states, by their roots."""
    tree = os.path.join(folder, "tree")
    subprocess.run([PROGRAM, "split", "5", tree, "--filled", "5", "--hard"], stdout=subprocess.DEVNULL, check=True)
    roots = sorted(name[:-len(".ledger")].encode() for name in os.listdir(tree) if name != "trunk.ledger")
    shutil.rmtree(tree)
    drawn = ((root, settled(root, folder)) for root in random.Random(11).sample(roots, len(roots)))
    return dict(itertools.islice(((root, ledger) for root, ledger in drawn if 2 < ledger.count(b"\n") <= MOST_OF_A_PART), PARTS))


def filled(table):
    return sum(table[place:place + 3] != b"---" for row in range(0, len(table), 7) for place in (row, row + 3))


def below(table, child):
    return all(one == other or other == ord("-") for one, other in zip(table, child))


def in_parts(ledger):
    """A tree's ledger as a trunk, the record of its root alone, and its children's parts: a folder for bb join."""
    header, root, *records = ledger.splitlines()
    tables = [record.split(b" ")[0] for record in records]
    files = {"tree/trunk.ledger": header + b"\n" + root + b"\n"}
    for child in tables:
        if filled(child) == filled(root.split(b" ")[0]) + 1:
            part = b"".join(record + b"\n" for record, table in zip(records, tables) if below(table, child))
            files[f"tree/{child.decode()}.ledger"] = b"bb-ledger 2 %s\n%s" % (child, part)
    return files


def lines(many):
    return b"".join(line + b"\n" for line in many)


def checks(plain, records, five):
    short = [line for line in records[:RECORDS] if line.split()[1] in b"HCT"]
    work = Work([["check"]], lines(short))
    yield Row("`check`, short records of four states", len(short), work, Work([[plain["plain_short"]]], work.text), same, times=AGAIN)
    long = Work([["check"]], run([PROGRAM, "decide", "--hard"], lines(five))[1])
    yield Row(f"`check`, {TABLES:,} records of five states", TABLES, long, why="no plain program judges each kind", times=AGAIN)


def decides(plain, five, six):
    command = [plain["plain_walk"], "decide"]
    for name, tables in (("five", five), ("six", six)):
        work = Work([["decide", "--hard"]], lines(tables))
        plainly = Work([command], work.text)
        yield Row(f"`decide --hard`, {len(tables):,} tables of {name} states", len(tables), work, plainly, same_records, times=AGAIN)
        easy = [line.split(b" ")[0] for line in run(command, plainly.text)[1].splitlines() if not line.endswith(b" U")]
        work = Work([["decide", "--hard"]], lines(easy))
        plainly = Work([command], work.text)
        yield Row(f"the {len(easy):,} of them that halt, loop or fall to `B` early", len(easy), work, plainly, same_records, times=AGAIN)


def trees(plain, parts):
    count = sum(ledger.count(b"\n") - 1 for ledger in parts.values())
    names = [root.decode() for root in parts]
    headers = {f"{name}.ledger": b"bb-ledger 2 %s\n" % name.encode() for name in names}
    settle = [["settle", f"{name}.ledger", "--hard"] for name in names]
    report = [["report", f"{name}/trunk.ledger"] for name in names]
    folders = {f"{root.decode()}/trunk.ledger": ledger for root, ledger in parts.items()}
    settle_row = Row(f"`settle --hard`, {PARTS} parts of five states, {count:,} tables", count, Work(settle, files=headers),
                     Work([[plain["plain_walk"], "ledger", name] for name in names]), same_ledgers)
    report_row = Row("`report` of these parts", count, Work(report, files=folders), why="no plain program judges a tree")
    yield settle_row
    yield report_row
    yield Row("`walk --hard` of these parts; before, both", count, Work([["walk", "5", "--hard", "--root", name] for name in names]),
              Work([[plain["plain_walk"], "report", name] for name in names]), same_report, instead=(settle_row.name, report_row.name))
    ledger = max(parts.values(), key=len)
    joined = in_parts(ledger)
    yield Row(f"`join`, the largest of them in {len(joined) - 1} parts", ledger.count(b"\n") - 1, Work([["join", "tree"]], files=joined),
              why="no plain program judges a tree")


def runs(plain):
    three = Row("`run 3 --hard`", 5_417, Work([["run", "3", "--hard"]]), Work([[plain["plain_walk"], "report", "3"]]), same_report)
    yield three
    yield Row("`walk 3 --hard`; before, `run`", 5_417, Work([["walk", "3", "--hard"]]), three.plain, same_report, instead=(three.name,))
    first = Work([["run", "4", "--hard", "--rounds", ROUNDS]])
    report = dict(line.split(b" ", 1) for line in run([PROGRAM, *first.commands[0]])[1].splitlines())
    count = int(report[b"nodes"]) - int(report[b"open"])
    yield Row(f"`run 4 --hard --rounds {ROUNDS}`, {count:,} records", count, first, why="no plain program goes by rounds")


def frames(plain, records):
    command = ["coord", "4", "--ledger", "ledger"]
    work = Work([command], lines(b"REC " + record for record in records[:RECORDS]))
    yield Row(f"`coord 4 --ledger`, {RECORDS:,} frames from a file", RECORDS, work, why="the plain program has `H` and `U` alone")
    grown = run([plain["grow_ledger"], "4", str(RECORDS), "first"])[1].splitlines()[1:]
    work = Work([command], lines(b"REC " + record for record in grown))
    yield Row("the same of `H` and `U` alone", RECORDS, work, Work([[plain["plain_coord"], "4", "ledger"]], work.text), same)


def rows(plain, folder):
    with lzma.open(os.path.join(TOP, "examples", "four-states.ledger.xz")) as file:
        records = file.read().splitlines()[1:]
    five, six = (tables_of(states, plain["sample_six"]) for states in "56")
    yield from checks(plain, records, five)
    yield from decides(plain, five, six)
    yield from frames(plain, records)
    yield from trees(plain, drawn_parts(folder))
    yield from runs(plain)


def cells(numbers, shown):
    old, new, plain = numbers
    ratios = [f"{new / other:.2f}" if other else "" for other in (old, plain)]
    return " | ".join([*(shown.format(number) if number else "" for number in numbers), *ratios])


def again(work, times):
    return Work(work.commands, work.text * times, work.files)


def measured(row, works, folder, counts):
    """Of each program, what it answers, and its instructions and microseconds a table or record."""
    answers = [done(work, folder)[:2] for work in works]
    counted = [instructions(work, folder) for work in works] if counts else [(answer, 0) for answer in answers]
    if any(answer != other for answer, (other, _) in zip(answers, counted)):
        raise SystemExit(f"{row.name}: another answer under valgrind")
    # in turn, so that what else the computer does falls on all alike
    turns = [[done(again(work, row.times), folder)[3] for work in works] for _ in range(TURNS)]
    seconds = [min(turn[k] for turn in turns) for k in range(len(works))]
    return [(answers[k], counted[k][1] / row.count, 1e6 * seconds[k] / row.count / row.times) for k in range(len(works))]


def compared(row, old, new, known, folder, counts):
    """The three programs' numbers, and what is said of their answers; what was measured is kept by the row's name."""
    works = [by(new, row.work)] + ([row.plain] if row.plain else []) + ([] if row.instead else [by(old, row.work)])
    numbers = measured(row, works, folder, counts)
    after, plain = numbers[0], numbers[1] if row.plain else (None, None, None)
    if row.instead:
        others = [known[name] for name in row.instead]
        before = [sum(other[0][k] for other in others) for k in (1, 2)]
        said = "after and what it stands for " + same_answer(others[-1][1], after[0])
    else:
        before = numbers[-1][1:]
        said = "before and after " + same(numbers[-1][0], after[0])
        known[row.name] = numbers[-1], after[0]
    said += f"; plain {row.compared(after[0], plain[0])}" if row.plain else f"; {row.why}"
    return [(before[k], after[k + 1], plain[k + 1]) for k in (0, 1)], said


def main():
    words = [word for word in sys.argv[1:] if word != "times"]
    old, new = os.path.abspath(words[0]), os.path.abspath(words[1] if len(words) > 1 else PROGRAM)
    titles = "before | after | plain | after / before | after / plain"
    known = {}
    with tempfile.TemporaryDirectory() as folder:
        plain = {name: built(folder, name) for name in PLAIN}
        print(f"| command | {titles} | µs before | after | plain | after / before | after / plain |\n|---|{10 * '---|'}", flush=True)
        for row in rows(plain, folder):
            (counts, micros), said = compared(row, old, new, known, os.path.join(folder, "scratch"), "times" not in sys.argv)
            print(f"| {row.name} | {cells(counts, '{:,.0f}')} | {cells(micros, '{:.2f}')} |", flush=True)
            print(f"{row.name}: {said}", file=sys.stderr, flush=True)


if __name__ == "__main__":
    main()
