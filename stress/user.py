#!/usr/bin/env python3
"""The ways of a new user, on the built program in an empty folder: stress/user.py [PROGRAM].

README's first steps (packaging/first_steps); the help of each command that README's table has, long and short; a list as people
keep it, with CR LF, comments, CSV, links, blank and doubled lines, through `bb tables`, `bb decide --hard` and `bb check`, each
of its lines accounted for; a list by several processes; what is compressed or was cut, which is named; tables and records as arguments and in files, and why a line is refused; a worker whose coordinator
isn't there, and a coordinator and workers of which some are killed, or too many come; how far a command is; answers of which
only the beginning is read; a file given where lines are read, and lines where a file is; trees in parts by
the scripts of contrib/, from another folder, with too little disk, with a part that can't be settled, as they are packaged, and
beside the judge in Coq that README names; what bash completes, and the Debian package, which are made of the kept program where
bash and dpkg-deb are there. What has to come is from README, docs/FORMATS.md, docs/TOUR.md and docs/FIVE.md. Prints what
differs, and how much was tried; ends with 1 where anything differs.
"""
import os
import re
import shutil
import socket
import subprocess
import sys
import tempfile
import time
import tty

TOP = os.path.dirname(os.path.dirname(os.path.abspath(__file__)))
sys.path.insert(0, os.path.join(TOP, "bench"))
from program import PROGRAM  # noqa: E402

WIDEST = 120
# Enough answers that a pipe doesn't hold them.
MANY = 20_000
# Longer than the package takes on a machine that is busy, in seconds.
PATIENCE = 300
# What the package has to have, below /usr.
PACKED = [
    "bin/bb", "share/man/man1/bb.1.gz", "share/bash-completion/completions/bb", "share/zsh/vendor-completions/_bb",
    "share/fish/vendor_completions.d/bb.fish", "share/doc/busy-beaver/README.md", "share/doc/busy-beaver/docs/FORMATS.md",
    "share/doc/busy-beaver/examples/four-states.ledger.xz", "share/doc/busy-beaver/examples/five-states.known",
    "share/busy-beaver/contrib/tree.sh", "share/busy-beaver/contrib/rules", "share/busy-beaver/contrib/png", "share/busy-beaver/contrib/import/dfa.py", "share/busy-beaver/contrib/import/README.md",
]

# Each line of a list, and the tables in it, as they are printed.
LIST = [
    ("# Machines that I was told of", []),
    ("", []),
    ("https://bbchallenge.org/1RB1LB_1LA---", ["1RB1LB_1LA---"]),
    ("id,machine,said", []),
    ("1,1RB1RC_1LB1LA_---0RB,never", ["1RB1RC_1LB1LA_---0RB"]),
    ('2,"1RB---_1LB0RC_1LC1LA","halts, it seems"', ["1RB---_1LB0RC_1LC1LA"]),
    ("1RB1LB_1LA---   # once more", ["1RB1LB_1LA---"]),
    ("   0RB---_0LA---\t", ["0RB---_0LA---"]),
    ("", []),
    ("1RB1LB_1LA1RZ", ["1RB1LB_1LA---"]),
    ("1rb1lb_1la---", []),
    ("0RB---_0LA--- 1RB---_0RB1RB", ["0RB---_0LA---", "1RB---_0RB1RB"]),
    ("1RB1LC_1RC1RB_1RD0LE_1LA1LD_1RH0LA H 47176870 4098", ["1RB1LC_1RC1RB_1RD0LE_1LA1LD_---0LA"]),
    ("1RB1LB_1LA", []),
]
# What `bb check` has to say of the record that is found for each: the champions, and three that never halt.
VERDICTS = {
    "1RB1LB_1LA---": "halts 6 ones 4",
    "1RB1RC_1LB1LA_---0RB": "never",
    "1RB---_1LB0RC_1LC1LA": "halts 21 ones 5",
    "0RB---_0LA---": "never",
    "1RB---_0RB1RB": "never",
    "1RB1LC_1RC1RB_1RD0LE_1LA1LD_---0LA": "halts 47176870 ones 4098",
}

# Commands that read lines, and those that read a ledger.
OF_LINES = ["check", "decide", "explain", "show", "tables", "draw"]
OF_LEDGERS = ["report", "page", "retry", "settle", "look", "mend"]


class Tries:
    """What was tried in a folder with the program as `bb`, and what differed."""

    def __init__(self, program, folder):
        self.folder, self.count, self.found = folder, 0, []
        programs = os.path.join(folder, "bin")
        os.mkdir(programs)
        os.symlink(program, os.path.join(programs, "bb"))
        self.here = os.path.join(folder, "here")
        os.mkdir(self.here)
        self.environment = {**os.environ, "PATH": f"{programs}:{os.environ['PATH']}", "LC_ALL": "C"}

    def run(self, command, given=""):
        """What a line of the shell makes of this standard input."""
        self.count += 1
        given = given if isinstance(given, bytes) else given.encode()
        done = subprocess.run(["sh", "-c", command], cwd=self.here, env=self.environment, input=given, capture_output=True, check=False)
        return done.returncode, done.stdout.decode(), done.stderr.decode()

    def at_terminal(self, command, given=""):
        """What it makes of it where standard error is a terminal, and what that shows."""
        self.count += 1
        screen, terminal = os.openpty()
        tty.setraw(terminal)
        with subprocess.Popen(["sh", "-c", command], cwd=self.here, env=self.environment, stdin=subprocess.PIPE, stdout=subprocess.PIPE, stderr=terminal) as begun:
            os.close(terminal)
            said = begun.communicate(given.encode())[0].decode()
        shown = b""
        # A terminal that nobody holds any more is read as an error, behind all that it showed.
        while piece := self.piece(screen):
            shown += piece
        os.close(screen)
        return begun.returncode, said, shown.decode()

    @staticmethod
    def piece(screen):
        try:
            return os.read(screen, 4096)
        except OSError:
            return b""

    def expect(self, holds, text):
        if not holds:
            self.found.append(text)

    def write(self, name, text):
        with open(os.path.join(self.here, name), "wb") as file:
            file.write(text.encode())


def first_steps(tries):
    tries.count += 1
    steps = os.path.join(TOP, "packaging", "first_steps")
    done = subprocess.run([steps, os.path.join(tries.folder, "bin")], capture_output=True, text=True, check=False)
    tries.expect(done.returncode == 0, done.stderr.strip())


def commands():
    """The commands of README's table."""
    with open(os.path.join(TOP, "README.md"), encoding="utf-8") as file:
        part = file.read().split("\n## Commands\n")[1].split("\n## ")[0]
    rows = [line.split("|")[1] for line in part.split("\n") if line.startswith("| `bb ")]
    return sorted({name for row in rows for name in re.findall(r"`bb ([a-z]+)", row)})


def helps(tries):
    _, top, _ = tries.run("bb --help")
    listed = re.findall(r"^  ([a-z]+)  ", top, re.MULTILINE)
    tries.expect(sorted({*listed} - {"help"}) == commands(), f"bb --help has {listed}, README {commands()}")
    asked = [("--help", ""), ("-h", ""), ("help", "")]
    asked += [(words, name) for name in commands() for words in (f"{name} --help", f"{name} -h", f"help {name}")]
    wide = set()
    for words, name in asked:
        status, said, faults = tries.run(f"bb {words}")
        tries.expect((status, faults) == (0, ""), f"bb {words}: {status}, {faults!r}")
        tries.expect(re.search(rf"^Usage: \S+ {name}\b", said, re.MULTILINE) or not name, f"bb {words}: no usage of {name}")
        for line in {line for line in said.split("\n") if len(line) > WIDEST} - wide:
            wide.add(line)
            tries.expect(False, f"bb {words}: {len(line)} columns: {line!r}")
    status, said, faults = tries.run("bb --version")
    tries.expect(status == 0 and faults == "" and re.fullmatch(r"bb \d+\.\d+\.\d+, .*\nsources [0-9a-f]{12}\n", said), f"bb --version: {status} {said!r} {faults!r}")


def lists(tries):
    text = b"\xef\xbb\xbf" + "".join(line + "\r\n" for line, _ in LIST).encode()
    tables = [table for _, found in LIST for table in found]
    firsts = list(dict.fromkeys(tables))
    status, said, faults = tries.run("bb tables", text)
    without, doubles = sum(not found for _, found in LIST), len(tables) - len(firsts)
    tries.expect(status == 0, f"bb tables: {status}")
    tries.expect(said == "".join(table + "\n" for table in firsts), f"bb tables: {said!r}, not {firsts}")
    tries.expect(faults == f"passed over: lines without a table {without}, doubles {doubles}\n", f"bb tables: {faults!r}")
    status, said, faults = tries.run("bb tables 2> passed | bb decide --hard", text)
    tries.expect((status, faults) == (0, ""), f"bb tables | bb decide --hard: {status}, {faults!r}")
    tries.expect([line.split(" ")[0] for line in said.splitlines()] == firsts, f"bb decide --hard: the records are not of {firsts}: {said!r}")
    status, said, faults = tries.run("bb check", said)
    right = "".join(f"{table} {VERDICTS[table]}\n" for table in firsts)
    tries.expect((status, said, faults) == (0, right, ""), f"bb check of what was found: {status}, {said!r}, {faults!r}")
    # Without `bb tables` no line is a table alone, and each has its answer all the same.
    status, said, faults = tries.run("bb decide --hard", text)
    refused = sum(line.startswith("refused 301 ") for line in said.splitlines())
    told = "standard input: its first line ends in CR LF: tr -d '\\r' < FILE | bb decide\n"
    tries.expect((status, refused, faults) == (1, len(LIST), told), f"bb decide --hard of the whole list: {status}, {refused} refused, {faults!r}")


def by_several(tries):
    """A list by several processes, as TOUR has it: the same bytes as by one."""
    ledger = os.path.join(TOP, "examples", "three-states.ledger")
    tries.run(f"bb tables < {ledger} > tables && bb decide --hard < tables > one")
    ways = ["split -l 50 tables part. && ls part.* | xargs -P 4 -I {} sh -c 'bb decide --hard < {} > {}.records' && cat part.*.records"]
    if shutil.which("parallel"):
        ways.append("parallel -k --pipe -N50 bb decide --hard < tables")
    for way in ways:
        status, _, faults = tries.run(f"{{ {way}; }} | cmp - one")
        tries.expect(status == 0, f"{way}: other bytes than by one process: {faults!r}")
    tries.run("rm tables one part.*")


def beginnings(tries):
    """Answers of which only the beginning is read: it comes, and nobody complains."""
    with open(os.path.join(tries.here, "many"), "w", encoding="ascii") as file:
        file.write("1RB1LB_1LA---\n" * MANY)
    with open(os.path.join(tries.here, "records"), "w", encoding="ascii") as file:
        file.write("1RB1LB_1LA--- H 6 4\n" * MANY)
    ledger = os.path.join(TOP, "examples", "three-states.ledger")
    for command, first in [
        ("bb decide < many", "1RB1LB_1LA--- H 6 4"),
        ("bb check < records", "1RB1LB_1LA--- halts 6 ones 4"),
        ("bb explain < records", "1RB1LB_1LA--- halts 6 ones 4"),
        ("bb show < many", "1RB1LB_1LA---"),
        (f"bb report {ledger}", "root ------_------_------"),
        ("bb run 3 --far 3", "root ------_------_------"),
        (f"bb page {ledger}", "<!DOCTYPE html>"),
        (f"cut -d' ' -f1 {ledger} | bb tables", "------_------_------"),
    ]:
        _, said, faults = tries.run(f"{command} | head -n 1")
        tries.expect(said.rstrip("\n").lower() == first.lower(), f"{command} | head -n 1: {said!r}")
        # A stream that fails is said, as FORMATS has it, and nothing else.
        tries.expect(faults in ("", "refused 603\n") or faults.startswith("passed over: "), f"{command} | head -n 1: {faults!r}")


def mixed_up(tries):
    """A file where lines are read, and lines where a file is."""
    tries.write("tables.txt", "1RB1LB_1LA---\n")
    for name in OF_LINES:
        status, said, faults = tries.run(f"bb {name} tables.txt")
        tries.expect((status, said) == (2, ""), f"bb {name} FILE: {status}, {said!r}")
        tries.expect("standard input" in faults or "< tables.txt" in faults, f"bb {name} FILE: doesn't say that lines are read on standard input: {faults!r}")
    for name in OF_LEDGERS:
        status, said, faults = tries.run(f"bb {name} < tables.txt")
        tries.expect((status, said) == (2, ""), f"bb {name} < FILE: {status}, {said!r}")
        tries.expect(re.search(r"<(FILE|PATH|IN)>", faults), f"bb {name} < FILE: doesn't say that a file is to be named: {faults!r}")


# What the specification leaves no room for comes with --why, and at a terminal.
ASKED = [
    ("bb report packed.xz", "packed.xz: it is compressed by xz: xz -dc packed.xz | bb report -\n"),
    ("bb report returns", "returns: its first line ends in CR LF: tr -d '\\r' < returns | bb report -\n"),
    ("bb look three < tables.txt", "line 2: "),
    ("bb show < tables.txt", "line 2: "),
    ("bb draw < tables.txt", "line 2: "),
    ("bb decide < tables.txt", "line 2: "),
]


def named(tries):
    """What can't be read, what is compressed and what is cut is named, off a terminal."""
    tries.write("tables.txt", "1RB1LB_1LA---\n1rb1lb_1la---\n")
    tries.write("returns", "bb-ledger 2 ------\r\n------ H 1 1\r\n")
    shutil.copy(os.path.join(TOP, "examples", "three-states.ledger"), os.path.join(tries.here, "three"))
    with open(os.path.join(tries.here, "packed.xz"), "wb") as file:
        file.write(b"\xfd7zXZ\0" + b"\0" * 26)
    os.mkdir(os.path.join(tries.here, "folder"))
    for command, told in ASKED:
        _, said, faults = tries.run(command)
        tries.expect(told not in faults, f"{command}: says more than it may: {faults!r}")
        words = command.replace(" <", " --why <") if " <" in command else f"{command} --why"
        _, again, faults = tries.run(words)
        tries.expect(told in faults and again == said, f"{words}: {faults!r}")
    for command, told in ASKED[:2]:
        _, _, shown = tries.at_terminal(command)
        tries.expect(told in shown, f"{command} at a terminal: {shown!r}")
    with open(os.path.join(tries.here, "three"), "r+b") as file:
        text = file.read()
        place = text.index(b"\n", len(text) // 2) + 1
        file.seek(place)
        file.write(b"x")
    status, _, faults = tries.run("bb settle three --far 3")
    told = f"three: {len(text) - place} bytes were cut off, and are kept in three.cut\n"
    tries.expect((status, faults) == (0, told), f"bb settle of a damaged ledger: {status}, {faults!r}")
    tries.run("rm three three.cut")


# Lines as arguments, in a file and on standard input; and what has to come, with words on standard error.
GIVEN = [
    ("bb decide 1RB1LB_1LA--- 0RA---", 0, "1RB1LB_1LA--- H 6 4\n0RA--- T 0 1 R\n", ""),
    ("bb check '1RB1LB_1LA--- H 6 4'", 0, "1RB1LB_1LA--- halts 6 ones 4\n", ""),
    ("bb decide --input kept --lenient", 0, "1RB1LB_1LA--- H 6 4\n0RA--- T 0 1 R\n", ""),
    ("bb decide --lenient < kept", 0, "1RB1LB_1LA--- H 6 4\n0RA--- T 0 1 R\n", ""),
    ("bb decide --keep 1RB1LB_1LA1RZ", 0, "1RB1LB_1LA1RZ H 6 4\n", ""),
    ("bb decide --run 6 1RB1LB_1LA---", 0, "1RB1LB_1LA--- H 6 4\n", ""),
    ("bb decide --run 5 1RB1LB_1LA---", 0, "1RB1LB_1LA--- U\n", ""),
    ("bb show --align --steps 1 1RB1LB_1LA---", 0, "1RB1LB_1LA---\n0  A>..\n1  1B>.\n", ""),
    ("bb decide --steps 1_000 --input tables.txt", 1, "1RB1LB_1LA--- H 6 4\nrefused 301 104 1\n", ""),
    ("bb decide --steps 1e3 --why < tables.txt", 1, "1RB1LB_1LA--- H 6 4\nrefused 301 104 1\n", "line 2: its letters are in lower case\n"),
    ("echo 1RB2LA1RA_2LA1LB--- | bb decide --why", 1, "refused 301 101\n", "line 1: it is like a table of 3 symbols, and bb's have 2\n"),
    ("echo 1RB1LB_1LA--- H 6 3 | bb check --why", 1, "refused 201\n", "line 1: it halts after 6 steps with 4 ones\n"),
    ("bb decide < packed.xz", 4, "", "refused 603\nstandard input: it is compressed by xz: xz -dc FILE | bb decide\n"),
    ("bb decide < returns", 1, "refused 301 101\nrefused 301 102 6\n", "standard input: its first line ends in CR LF: tr -d '\\r' < FILE | bb decide\n"),
]
# A worker whose coordinator isn't there, and addresses that are none.
ALONE = [
    ("bb work --connect 127.0.0.1:1 --tries 1", 4, "127.0.0.1:1: "),
    ("bb work --connect 127.0.0.1:1 --tries 2", 4, "; trying again in 1 s"),
    ("bb work --connect 127.0.0.1:1 --known nosuch", 4, "refused 605\nnosuch: No such file or directory (os error 2)\n"),
    ("bb work --connect noport --tries 1", 4, "noport: "),
    ("bb coord 2 --listen 80000", 4, "80000: "),
    ("bb coord 2 --listen 0.0.0.0:7007", 2, "refused 607: other computers can reach that address"),
]


def given(tries):
    """Tables and records as arguments and in files, and why lines are refused."""
    tries.write("kept", "# mine\r\n\r\n1RB1LB_1LA---\r\n  0RA---\r\n")
    for command, wanted, answers, told in GIVEN:
        status, said, faults = tries.run(command)
        tries.expect((status, said, faults) == (wanted, answers, told), f"{command}: {status}, {said!r}, {faults!r}")
    tables = os.path.join(TOP, "examples", "known.txt")
    _, said, _ = tries.run(f"bb tables < {tables} | bb decide --far 3 | bb explain")
    tries.expect("The first automaton (state: next on 0, next on 1):" in said, "bb explain shows no automaton")
    tries.expect("words" in said.lower(), "bb explain shows no words")
    _, said, _ = tries.run(f"bb tables < {tables} | bb decide --far 3 | bb explain --dot")
    tries.expect(re.search(r"^digraph .*\{$", said, re.MULTILINE), "bb explain --dot draws no automaton")
    _, said, _ = tries.run("bb explain --run 64 1RB0LB_1LA1RB")
    tries.expect("\nSeen in 64 steps, not proved:\n" in said, "bb explain --run doesn't say what is seen")


def cluster(tries):
    """What a worker says whose coordinator isn't there; and a coordinator and workers of which some are killed."""
    for command, wanted, told in ALONE:
        status, _, faults = tries.run(command)
        tries.expect(status == wanted and told in faults, f"{command}: {status}, {faults!r}")
    _, due, _ = tries.run("bb run 3 --hard")
    begin = "bb coord 3 --ledger coordinated --listen ./socket"
    work = "bb work --connect ./socket --hard --tries 3"
    tries.run(f"{begin} > /dev/null & c=$!; sleep 0.3; {work} --id 1 --ids 1 & w=$!; sleep 0.2; kill -9 $w $c; wait")
    status, said, faults = tries.run(f"{begin} --era 2 & c=$!; sleep 0.3; {work} --id 7 --ids 2 > /dev/null; wait $c")
    tries.expect((status, said) == (0, due), f"a coordinator that goes on: {status}, {said!r}, {faults!r}")


def heard(connection, seconds):
    """What a coordinator sends at once: nothing where it closes the connection, and None where it waits."""
    connection.settimeout(seconds)
    try:
        return connection.recv(1)
    except TimeoutError:
        return None


def crowd(tries):
    """From one address no more connections are taken than --per-address says."""
    try:
        with socket.create_server(("127.0.0.1", 0)) as server:
            address = server.getsockname()
            socket.create_connection(address).close()
    except OSError:
        print("user: nothing can connect here, and no crowd was tried")
        return
    tries.count += 1
    asked = ["bb", "coord", "2", "--listen", str(address[1]), "--per-address", "2"]
    with subprocess.Popen(asked, cwd=tries.here, env=tries.environment, stdout=subprocess.DEVNULL, stderr=subprocess.PIPE) as begun:
        connections = []
        for _ in range(PATIENCE * 10):
            try:
                connections.append(socket.create_connection(address))
            except ConnectionRefusedError:
                time.sleep(0.1)
            if len(connections) == 3:
                break
        # The last one is let go; by then the others have been taken.
        found = [heard(connection, seconds) for connection, seconds in zip(reversed(connections), (30, 0.2, 0.2))]
        begun.kill()
        told = begun.communicate()[1]
    tries.expect(found == [b"", None, None], f"coord --per-address 2, of three connections the last one first: {found}, {told!r}")


def progress(tries):
    """How far a command is that reads long, where that is asked for: it is stopped for a second, so that it takes longer."""
    if not shutil.which("xz"):
        print("user: there is no xz, and no long ledger was read")
        return
    ledger = os.path.join(TOP, "examples", "four-states.ledger.xz")
    tries.run(f"mkdir big && xz -dc {ledger} > big/trunk.ledger")
    for command in ("bb report big/trunk.ledger", "bb join big", "bb carry big/trunk.ledger new", "bb mend big/trunk.ledger newer", "bb look big", "bb page big/trunk.ledger"):
        status, _, faults = tries.run(f"{command} --progress > reported & p=$!; sleep 0.2; kill -STOP $p; sleep 1.2; kill -CONT $p; wait $p")
        tries.expect(status == 0 and re.search(r"^0:00:\d\d \d+\.\d% of \d+ bytes read", faults), f"{command} --progress: {status}, {faults!r}")
    tries.run("rm -r big reported new newer")


# What `bb join` has to say of two states.
TWO_STATES = "nodes 61\nhalting 19\nnever 42\nholdouts 0\nopen 0\nbest 6\n"
# A program that takes its time for a part, and a system whose disk is full.
SLOW = '#!/bin/sh\n[ "$1" != settle ] || sleep 0.6\nexec bb "$@"\n'
FULL = "#!/bin/sh\necho Filesystem 1024-blocks Used Available Capacity Mounted\necho none 9 9 0 100% /\n"


def slips(tries):
    """What is easily typed or closed too early, and what comes of it."""
    table = "1RB1LC_1RC1RB_1RD0LE_1LA1LD_---0LA"
    # who reads no more needs no words for it
    for command in (f"echo {table} | bb show --steps 1000000", "yes 1RB1LB_1LA--- | bb decide", "yes '1RB1LB_1LA--- H 6' | bb check"):
        _, said, faults = tries.run(f"{{ {command}; echo $? > ended; }} | head -n 1; cat ended >&2")
        tries.expect(faults == "refused 603\n4\n" and said.count("\n") == 1, f"{command} | head: {said!r}, {faults!r}")
    # a root without entries, and one with a table behind a space
    for words in ("------_------ --far 2", "=------_------ --far 2"):
        status, said, faults = tries.run(f"bb walk 2 --root{' ' if words[0] == '-' else ''}{words}")
        tries.expect(status == 0 and "best 6\n" in said, f"bb walk --root {words}: {status}, {said!r}, {faults!r}")
    for words, told in (("2 --root 1RB1LB_1LA", "it is no table"), ("3 --root ------_------", "it has two states, not three states as asked"), ("2 --root 1RA---_0RC---", "--root 1RA---_0RC---: ")):
        status, said, faults = tries.run(f"bb walk {words}")
        tries.expect(status != 0 and said == "" and faults.startswith("refused 405\n") and told in faults, f"bb walk {words}: {status}, {said!r}, {faults!r}")
    status, said, faults = tries.run("bb check 1RB1LB_1LA--- H 6 4")
    tries.expect(said == "" and status == 2 and "quot" in faults, f"a record without quotes: {status}, {said!r}, {faults!r}")
    for number in ("1,000", "10k", "1.5e3"):
        status, _, faults = tries.run(f"bb decide --steps {number} < /dev/null")
        tries.expect(status == 2 and "a number is written as 1000, 1_000 or 1e3" in faults, f"--steps {number}: {faults!r}")
    for command in ("bb mend - -", "bb walk 2 --save -", "bb run 2 --ledger -"):
        status, said, faults = tries.run(command)
        tries.expect((status, said) == (2, "") and not os.path.exists(os.path.join(tries.here, "-")), f"{command}: {status}, {said!r}, {faults!r}")


def script(path, text):
    os.makedirs(os.path.dirname(path), exist_ok=True)
    with open(path, "w", encoding="ascii") as file:
        file.write(text)
    os.chmod(path, 0o755)


def trees(tries, program):
    """Trees in parts, by the scripts of contrib/ beside a `bb` that says where its program is, as that of a repository does. Of
    the examples nothing is there, since five states alone need it."""
    house = os.path.join(tries.folder, "house")
    shutil.copytree(os.path.join(TOP, "contrib"), os.path.join(house, "contrib"))
    script(os.path.join(house, "bb"), f'#!/bin/sh\n[ "$1" != --where ] || echo "{program}"\n')
    script(os.path.join(house, "slow"), SLOW)
    script(os.path.join(house, "full", "df"), FULL)
    _, due, _ = tries.run("bb run 3 --hard")
    for name in ("tree.sh 3 three", "walk.sh 3", "all.sh 3", "coordinators.sh 3 shared"):
        status, said, faults = tries.run(f"unset BB; ../house/contrib/{name}")
        tries.expect((status, said) == (0, due), f"contrib/{name} from another folder: {status}, {said!r}, {faults!r}")
        if name.startswith("tree"):
            tries.expect(re.search(r"^disk: a tree of 3 states takes 1 MB; three has 0 MB of it, and \d+ MB are free$", faults, re.MULTILINE), f"contrib/{name} doesn't say how much disk: {faults!r}")
            tries.expect(re.search(r"^24 of 24 parts done, 5412 tables, \d+ a second, 0:00:00 left$", faults, re.MULTILINE), f"contrib/{name} doesn't say what is done: {faults!r}")
    # The smallest tree, parts of another size, and their heads; no worker stays behind a coordinator that can't begin.
    for name, tree in (("walk.sh 1", "1"), ("walk.sh 2 0", "2")):
        status, said, faults = tries.run(f"unset BB; ../house/contrib/{name}")
        tries.expect((status, said) == (0, tries.run(f"bb run {tree} --hard")[1]), f"contrib/{name}: {status}, {said!r}, {faults!r}")
    for name in sorted(os.listdir(os.path.join(house, "contrib"))):
        if name.endswith(".sh") or name == "rules":
            status, said, faults = tries.run(f"../house/contrib/{name} --help")
            tries.expect(status == 0 and f"contrib/{name}" in said and faults == "", f"contrib/{name} --help: {status}, {said!r}, {faults!r}")
    status, said, faults = tries.run("unset BB; ../house/contrib/all.sh 9 --hard")
    left = subprocess.run(["pgrep", "-f", f"{tries.folder}.*work --connect"], capture_output=True, text=True, check=False).stdout
    tries.expect(status != 0 and left == "", f"contrib/all.sh 9 leaves workers behind: {status}, {left!r}")
    if shutil.which("ocamlfind"):
        made(tries, ["judge", os.path.join(tries.folder, "judge")])
        status, said, faults = tries.run("make -s -C ../judge program && ../judge/judge 3 three 4")
        tries.expect((status, said) == (0, due), f"the judge of judge/, of a tree: {status}, {said!r}, {faults!r}")
    else:
        print("user: there is no ocamlfind, and the judge of judge/ wasn't asked")
    status, said, faults = tries.run("BB=../house/slow EVERY=1 JOBS=1 ../house/contrib/tree.sh 2 slowly")
    tries.expect(status == 0 and TWO_STATES in said, f"contrib/tree.sh 2 by a slow program: {status}, {said!r}")
    tries.expect(re.search(r"^[1-3] of 4 parts done, \d+ tables, \d+ a second, \d+:\d\d:\d\d left$", faults, re.MULTILINE), f"contrib/tree.sh doesn't say how far it is: {faults!r}")
    # The folder's name has what a shell may take for more than a name.
    bad = "it's \"two\"/1RB---_------.ledger"
    status, said, faults = tries.run(f"bb split 2 \"it's \\\"two\\\"\" --filled 1 --hard && rm '{quoted(bad)}' && mkdir '{quoted(bad)}'")
    tries.expect(status == 0, f"a folder in place of a part: {status}, {faults!r}")
    status, said, faults = tries.run("unset BB; ../house/contrib/tree.sh 2 \"it's \\\"two\\\"\"")
    tries.expect((status, said) == (1, "") and re.search(rf"^{re.escape(bad)}: status [2-9]$", faults, re.MULTILINE), f"contrib/tree.sh with a bad part: {status}, {said!r}, {faults!r}")
    tries.expect("4 of 4 parts done, 19 tables, " in faults and "1 parts failed" in faults, f"contrib/tree.sh with a bad part doesn't settle the others: {faults!r}")
    status, said, faults = tries.run("PATH=../house/full:$PATH; unset BB; ../house/contrib/tree.sh 4 four")
    tries.expect(status == 1 and "disk: a tree of 4 states takes 35 MB; four has 0 MB of it, and 0 MB are free\n" in faults, f"contrib/tree.sh on a full disk: {status}, {faults!r}")
    tries.expect(not os.path.exists(os.path.join(tries.here, "four")), "contrib/tree.sh begins on a full disk")
    status, said, faults = tries.run("PATH=../house/full:$PATH; unset BB; ROOM=any ../house/contrib/tree.sh 2 any")
    tries.expect(status == 0 and TWO_STATES in said, f"contrib/tree.sh on a full disk, asked to begin: {status}, {faults!r}")
    # As Slurm runs it: a copy in a folder of its own. And as it is packaged.
    packed = os.path.join(tries.folder, "packed")
    made(tries, ["contrib", os.path.join(packed, "contrib"), "contrib"])
    os.symlink(program, os.path.join(packed, "bb"))
    shutil.copy(os.path.join(house, "contrib", "slurm.sh"), os.path.join(tries.folder, "copied"))
    status, said, faults = tries.run("unset BB; bb split 2 two --filled 1 --hard && CONTRIB=../house/contrib ../copied two --hard && ../packed/contrib/slurm.sh two && bb join two")
    tries.expect(status == 0 and TWO_STATES in said, f"contrib/slurm.sh from another folder: {status}, {said!r}, {faults!r}")
    status, said, faults = tries.run("unset BB; ../packed/contrib/tree.sh 2 packed")
    tries.expect(status == 0 and TWO_STATES in said, f"the packaged contrib/tree.sh from another folder: {status}, {said!r}, {faults!r}")


def quoted(name):
    """A name as it stands between single quotes of the shell."""
    return name.replace("'", "'\\''")


def made(tries, words):
    """What a script of packaging/ prints, within a time that it never needs, and without a commit that says when it is."""
    tries.count += 1
    try:
        done = subprocess.run([os.path.join(TOP, "packaging", *words[0].split("/")), *words[1:]], capture_output=True, text=True,
                              env={**os.environ, "SOURCE_DATE_EPOCH": "1"}, timeout=PATIENCE, check=False)
    except subprocess.TimeoutExpired:
        tries.expect(False, f"packaging/{words[0]} isn't done in {PATIENCE} seconds")
        return ""
    tries.expect(done.returncode == 0, f"packaging/{words[0]}: {done.returncode}, {done.stderr.strip()!r}")
    return done.stdout


def packages(tries, program):
    """What bash completes, and the package with all that README and FORMATS say it has."""
    completed = made(tries, ["completions", program, "bash"])
    for name in commands():
        tries.expect(re.search(rf"^        {name}\)$", completed, re.MULTILINE), f"packaging/completions has no {name}")
    tries.expect(re.search(r"^ +refused='.*--far:--hard", completed, re.MULTILINE), "packaging/completions: --hard beside --far")
    if shutil.which("bash"):
        tries.count += 1
        read = subprocess.run(["bash", "-n"], input=completed, capture_output=True, text=True, check=False)
        tries.expect((read.returncode, read.stderr) == (0, ""), f"bash doesn't read what it should complete: {read.stderr!r}")
    if not shutil.which("dpkg-deb"):
        print("user: there is no dpkg-deb, and the package wasn't made")
        return
    out = os.path.join(tries.folder, "package")
    made(tries, ["deb/make", out])
    packed = [os.path.join(out, name) for name in os.listdir(out)] if os.path.isdir(out) else []
    tries.expect(len(packed) == 1, f"packaging/deb/make leaves {packed}")
    for package in packed:
        listed = subprocess.run(["dpkg-deb", "--contents", package], capture_output=True, text=True, check=True).stdout
        for path in PACKED:
            tries.expect(f" ./usr/{path}\n" in listed, f"the package has no /usr/{path}")


def main():
    program = os.path.abspath(sys.argv[1]) if len(sys.argv) > 1 else PROGRAM
    with tempfile.TemporaryDirectory(prefix="bb-user-") as folder:
        tries = Tries(program, folder)
        first_steps(tries)
        helps(tries)
        lists(tries)
        by_several(tries)
        beginnings(tries)
        mixed_up(tries)
        named(tries)
        given(tries)
        slips(tries)
        cluster(tries)
        crowd(tries)
        progress(tries)
        trees(tries, program)
        packages(tries, program)
    for text in tries.found:
        print(text)
    print(f"{tries.count} commands of a new user, {len(tries.found)} answers differ")
    sys.exit(1 if tries.found else 0)


if __name__ == "__main__":
    main()
