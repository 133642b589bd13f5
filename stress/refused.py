#!/usr/bin/env python3
"""Every request for memory refused, N counting up until a run meets no refusal.

stress/refused.py: each command of `bb` on a small input, with its Nth request refused; once that request alone, and once
all from it on. Such a run ends as the one with ample memory does, or with 3, a beginning of the ample run's output, and
`refused memory` behind a beginning of its standard error. Where it has a ledger, what it leaves is a beginning of the
ample run's ledger, or what stood there; where it goes on with it, each whole line that stood there is in it, or in the file
beside it that keeps what is cut off. The same command, again and with ample memory, then comes to the ample run's end.

stress/refused.py --calls: calls of finders, records and both roles, by the program of `crates/try_rows`, which makes those
of `calls.rows` again where they are refused: all rows are kept, whichever one request is refused. Of the calls of
`free.rows` that take no memory none is the first that is refused.

Both are a part of `./ci`.

Prints how many requests each met, and ends with 1 at the first that ends otherwise. Needs a C compiler (`cc`), for
shim.c.
"""
import collections
import os
import re
import shutil
import subprocess
import sys
import tempfile

TOP = os.path.dirname(os.path.dirname(os.path.abspath(__file__)))
sys.path.insert(0, os.path.join(TOP, "bench"))
from program import PROGRAM  # noqa: E402

ROWS = os.path.join(TOP, "crates", "try_rows")

# The line of `free.rows` behind which no memory is taken.
FREE = b"\n# From here on no memory is taken.\n"

RECORDS = b"""------ H 1
1RB1LB_1LA--- H 6 4
1RB1LB_1LA--- H 7
0RB---_0LA--- C 0 2
1RA--- T 0 1 R
1RB---_0RB1RB B 1
0RB---_0RA1RA B 20
1RA--- N 1 0,1 0 0A00,1A00
0RB---_0LA--- F R 2 0111 2,10,0,10,8,10,10,10 3
1RB1LB_1LA--- U
1RC---_------ U
"""
TABLES = b"1RB1LB_1LA---\n0RB---_0LA---\n1RA---\n1RB---_0RB1RB\n0RB0LA_0LB---\n1RB---_1LA0RB\n1RB0RB_1LA---\nx\n"
FRAMES = b"ASK 7\nREC ------ H 1\nREC 0RA--- T 0 1 R\nREC 1RA--- U\nDONE 1 1\nASK 8\nREC 1RA--- T 0 1 R\nASK 7\n"
ONE = b"bb-ledger 1 ------\n------ H 1\n0RA--- T 0 1 R\n1RA--- U\n"
FIRST = b"bb-ledger 1 ------_------\n------_------ H 1\n0RB---_------ H 2\n1RB---_------ U\n"
SECOND = b"bb-ledger 1 ------_------\n------_------ H 1\n1RB---_------ H 2\n1RA---_------ T 0 1 R\n"

DAMAGED = b"bb-ledger 2 ------\n------ H 1 1\n0RA--- T 0 1 R\r\n1RA--- U\n1RA--- T 0 1 R\ntorn"
TRUNK = b"bb-ledger 2 ------\n------ H 1 1\n"
PARTS = {
    "trunk.ledger": TRUNK,
    "0RA---.ledger": b"bb-ledger 2 0RA---\n0RA--- T 0 1 R\n",
    "1RA---.ledger": b"bb-ledger 2 1RA---\n1RA--- U\n",
}

# Each command: its words, its input, the files that lie there, and the ledger that it writes, if it writes one.
COMMANDS = [
    (["check"], RECORDS, {}, None),
    (["decide", "--far", "3"], TABLES, {}, None),
    (["decide"], TABLES + b"------ H 1\n", {}, None),
    (["check"], RECORDS + b"------\n", {}, None),
    (["draw"], b"1RB1LB_1LA---\nx\n", {}, None),
    (["draw", "--out", "pictures", "--rows", "3"], b"1RB1LB_1LA--- H 6\nx\n------\n", {}, None),
    (["page", "one"], b"", {"one": ONE}, None),
    (["page", "-"], ONE + b"torn", {}, None),
    (["page", "."], b"", PARTS, None),
    (["explain"], RECORDS, {}, None),
    (["check", "--why"], RECORDS, {}, None),
    (["show", "--fold"], b"1RB1LB_1LA---\nx\n", {}, None),
    (["tables", "--normal"], TABLES + b"seen: 1LB1RB_1RA---, here\n", {}, None),
    (["draw"], b"1RB1LB_1LA---\n", {}, None),
    (["run", "1", "--ledger", "one", "--sync"], b"", {"one": ONE}, "one"),
    (["run", "four.ledger"], b"", {}, None),
    (["report", "one"], b"", {"one": ONE}, None),
    (["report", "--json", "one"], b"", {"one": ONE}, None),
    (["report", "--why", "torn"], b"", {"torn": ONE + b"1RA---"}, None),
    (["run", "1"], b"", {}, None),
    (["run", "2", "--workers", "2"], b"", {}, None),
    (["walk", "2"], b"", {}, None),
    (["walk", "1", "--json"], b"", {}, None),
    (["run", "1", "--ledger", "new"], b"", {}, "new"),
    (["run", "1", "--ledger", "one"], b"", {"one": ONE}, "one"),
    (["coord", "1", "--ledger", "new"], FRAMES, {}, "new"),
    (["coord", "1"], FRAMES, {}, None),
    (["work", "--id", "7", "--ids", "2"], b"STOP\nSTOP\n", {}, None),
    (["work", "--id", "7", "--ids", "1", "--far", "3"], b"GRANT 1 1 ------\n", {}, None),
    (["retry", "one"], b"", {"one": ONE + b"torn"}, "one"),
    (["retry", "--far", "2", "first"], b"", {"first": FIRST}, "first"),
    (["merge", "first", "second", "out", "--replace"], b"", {"first": FIRST, "second": SECOND}, "out"),
    (["merge", "first", "second", "first", "--replace"], b"", {"first": FIRST, "second": SECOND}, "first"),
    (["carry", "first", "out", "--replace"], b"", {"first": FIRST}, "out"),
    (["carry", "first", "first", "--replace"], b"", {"first": FIRST}, "first"),
    (["mend", "damaged", "out", "--replace"], b"", {"damaged": DAMAGED}, "out"),
    (["mend", "-", "out", "--replace"], DAMAGED, {"out": ONE}, "out"),
    (["retry", "damaged"], b"", {"damaged": DAMAGED}, "damaged"),
    (["run", "1", "--ledger", "damaged"], b"", {"damaged": DAMAGED}, "damaged"),
    (["coord", "1", "--ledger", "damaged"], FRAMES, {"damaged": DAMAGED}, "damaged"),
    (["settle", "damaged"], b"", {"damaged": DAMAGED, "damaged.cut": b"what was cut before\n"}, "damaged"),
    (["split", "1", ".", "--filled", "2"], b"", {"trunk.ledger": DAMAGED}, "trunk.ledger"),
    (["split", "2", ".", "--filled", "1"], b"", {}, "trunk.ledger"),
    (["split", "1", ".", "--filled", "2"], b"", {"trunk.ledger": TRUNK + b"0RA"}, "trunk.ledger"),
    (["split", "1", ".", "--filled", "0"], b"", PARTS, "trunk.ledger"),
    (["settle", "part"], b"", {"part": b"bb-ledger 2 0RB---_------\n0RB--"}, "part"),
    (["join", "."], b"", PARTS, None),
    (["join", ".", "--ledger", "out", "--replace"], b"", PARTS, "out"),
    (["join", ".", "--ledger", "trunk.ledger", "--replace"], b"", PARTS, "trunk.ledger"),
    (["join", ".", "--ledger", "1RA---.ledger"], b"", PARTS, "1RA---.ledger"),
    (["merge", "a", "a.new", "a", "--replace"], b"", {"a": FIRST, "a.new": SECOND}, "a.new"),
    (["join", ".", "--json", "--ledger", "out", "--replace"], b"", {**PARTS, "out": ONE}, "out"),
]

PROGRAM_ROW = re.compile(rb"<tr><th scope='row'>SHA-256 of the program</th><td><code>[0-9a-f]{64}</code></td></tr>\n")

# These go on with their ledger, and keep what they cut off it.
CUT = ("coord", "retry", "run", "settle", "split")

# What these print hangs on what was done before.
SAY_WHAT_THEY_DID = ("coord", "settle")


def laid(folder, files):
    """Makes the folder anew, with these files."""
    shutil.rmtree(folder, ignore_errors=True)
    os.mkdir(folder)
    for name, held in files.items():
        with open(os.path.join(folder, name), "wb") as file:
            file.write(held)


def read(folder, name):
    """What a file holds; none where it isn't there."""
    try:
        with open(os.path.join(folder, name), "rb") as file:
            return file.read()
    except FileNotFoundError:
        return None


def run(words, given, folder, refusing=None, program=PROGRAM):
    """Runs a command; answers how it ended and how many requests were refused."""
    if refusing is None:
        return subprocess.run([program, *words], input=given, capture_output=True, cwd=folder, check=False), 0
    reader, writer = os.pipe()
    env = {**os.environ, **refusing, "BB_REFUSED": str(writer)}
    ran = subprocess.run([program, *words], input=given, capture_output=True, cwd=folder, env=env, pass_fds=[writer], check=False)
    os.close(writer)
    with os.fdopen(reader, "rb") as told:
        return ran, len(told.read())


def same(one, other):
    """Whether two runs ended alike. A page may be without the row that says the sum of the program's own bytes, which it has
    where the program can read them."""
    plain = [(ran.returncode, PROGRAM_ROW.sub(b"", ran.stdout), ran.stderr) for ran in (one, other)]
    return plain[0] == plain[1]


def wrong(command, folder, refusing, ample, ample_ledger):
    """What is wrong with a run; how many requests were refused in it; and whether it ended as with ample memory."""
    words, given, files, ledger = command
    laid(folder, files)
    ran, refused = run(words, given, folder, refusing)
    if not same(ran, ample):
        said = ran.stderr.removesuffix(b"refused memory\n")
        if ran.returncode != 3 or said == ran.stderr or not ample.stderr.startswith(said):
            return f"status {ran.returncode}, {ran.stderr[:200]!r}", refused, False
        if not ample.stdout.startswith(ran.stdout):
            return f"printed {ran.stdout[:200]!r}", refused, False
    if ledger is not None:
        left, before = read(folder, ledger), files.get(ledger)
        if left != before and (left is None or not ample_ledger.startswith(left)):
            return f"left the ledger {left!r}", refused, False
        kept = (left or b"") + (read(folder, ledger + ".cut") or b"")
        if words[0] in CUT and before and not set(before.split(b"\n")[:-1]) <= set(kept.split(b"\n")):
            return f"lost lines of {before!r}: {kept!r}", refused, False
        again, _ = run(words, given, folder)
        is_end = again.returncode == ample.returncode and read(folder, ledger) == ample_ledger
        if not is_end or (words[0] not in SAY_WHAT_THEY_DID and again.stdout != ample.stdout):
            return f"the same again: status {again.returncode}, {again.stdout[:300]!r}", refused, False
    return None, refused, same(ran, ample)


def tried(command, folder, shim, is_all):
    """Refuses each request in turn; answers how many there were and without how many it did, or what was wrong."""
    words, given, files, ledger = command
    laid(folder, files)
    ample, _ = run(words, given, folder)
    ample_ledger = read(folder, ledger) if ledger else None
    number = spared = 0
    while True:
        number += 1
        refusing = {"LD_PRELOAD": shim, "BB_REFUSE": str(number)}
        if is_all:
            refusing["BB_REFUSE_ALL"] = "1"
        found, refused, is_same = wrong(command, folder, refusing, ample, ample_ledger)
        if found:
            return None, None, f"request {number} refused{', and all after it' if is_all else ''}: {found}"
        if refused == 0:
            return number - 1, spared, None
        spared += is_same


def kept(rows, refusing=None):
    """Has a file of rows kept; answers how that ended and how many requests were refused."""
    return run([rows], b"", os.path.join(ROWS, "data"), refusing, os.path.join(ROWS, "out", "try_rows"))


def calls_wrong(shim):
    """Refuses each request of the calls; answers what was wrong, or how many there were of each call."""
    ample, _ = kept("calls.rows")
    if ample.returncode != 0:
        return f"with ample memory: {ample.stdout!r}", {}
    counts = collections.Counter()
    number = 0
    while True:
        number += 1
        refusing = {"LD_PRELOAD": shim, "BB_REFUSE": str(number)}
        ran, refused = kept("calls.rows", refusing)
        if not same(ran, ample):
            return f"request {number} refused: {ran.stdout!r}", counts
        if refused == 0:
            return None, counts
        # With all later requests refused too, the call that met it is the first that isn't answered.
        ran, _ = kept("calls.rows", {**refusing, "BB_REFUSE_ALL": "1"})
        counts[first_refused(ran.stdout).split(b" ")[0].decode()] += 1


def first_refused(printed):
    """The first row that was refused memory."""
    rest, _, answer = printed.partition(b"\nbut there came:\n")
    return rest.partition(b": ")[2] if answer == b"refused memory\n" else b"(before the first call)"


def free_wrong(shim):
    """Refuses all requests from one on, until the rows are kept: which was refused then takes no memory?"""
    with open(os.path.join(ROWS, "data", "free.rows"), "rb") as file:
        free = file.read().partition(FREE)[2].split(b"\n")
    number = 0
    while True:
        number += 1
        refusing = {"LD_PRELOAD": shim, "BB_REFUSE": str(number), "BB_REFUSE_ALL": "1"}
        ran, refused = kept("free.rows", refusing)
        if ran.returncode == 0:
            return (f"{refused} requests, and all rows are kept" if refused else None), number - 1
        row = first_refused(ran.stdout)
        if refused == 0 or any(line.startswith(row + b" = ") or line == row for line in free):
            return f"{row!r} takes memory", number


def try_calls(shim):
    found, counts = calls_wrong(shim)
    if not found:
        for call, count in counts.items():
            print(f"refused: {count} requests of {call}")
        found, count = free_wrong(shim)
    if found:
        print(f"refused: {found}")
        return 1
    print(f"refused: {count} requests before those of the calls that take no memory, and none from them")
    print(f"refused: {sum(counts.values())} requests of calls, one by one: each call made again, with the same answer")
    return 0


def main():
    with tempfile.TemporaryDirectory() as top:
        shim = os.path.join(top, "refused.so")
        subprocess.run(["cc", "-O1", "-shared", "-fPIC", "-o", shim, os.path.join(TOP, "stress", "shim.c"), "-ldl"], check=True)
        if sys.argv[1:] == ["--calls"]:
            return try_calls(shim)
        total = 0
        for command in COMMANDS:
            said = []
            for is_all in (False, True):
                count, spared, found = tried(command, os.path.join(top, "folder"), shim, is_all)
                if found:
                    print(f"refused: bb {' '.join(command[0])}: {found}")
                    return 1
                total += count
                said.append(f"{count} requests refused {'with all after them' if is_all else 'alone'}, {spared} of them spared")
            print(f"refused: bb {' '.join(command[0])}: {'; '.join(said)}", flush=True)
        print(f"refused: {total} runs, each refused or as with ample memory")
    return 0


if __name__ == "__main__":
    sys.exit(main())
