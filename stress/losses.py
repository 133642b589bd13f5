#!/usr/bin/env python3
"""What might lose a ledger, with what a system has that no case can say: FIFOs, standard input under its path, a folder that can't
be written, what stands where a coordinator is told to listen, `./bb` through links. A part of `./ci`.

stress/losses.py: prints how many commands were tried, and ends with 1 at the first that answers otherwise or leaves a file
otherwise than docs/FORMATS.md says.
"""
import fcntl
import os
import pty
import re
import shutil
import signal
import socket
import subprocess
import sys
import tempfile
import threading
import time

TOP = os.path.dirname(os.path.dirname(os.path.abspath(__file__)))
sys.path.insert(0, os.path.join(TOP, "bench"))
from program import PROGRAM  # noqa: E402

HEADER = b"bb-ledger 2 ------\n"
ROOT, LEFT, RIGHT = b"------ H 1 1\n", b"0RA--- T 0 1 R\n", b"1RA--- T 0 1 R\n"
WHOLE = HEADER + ROOT + LEFT + RIGHT
SPOILT = HEADER + ROOT + LEFT[:-1] + b"\r\n" + RIGHT

# What ends a command whose files or streams fail; a line behind it names what failed.
REFUSED = (b"refused 603\n", b"refused 604\n", b"refused 605\n", b"refused 606: another process writes the ledger\n")
TRUNK = HEADER + ROOT
PARTS = {
    "parts/trunk.ledger": TRUNK,
    "parts/0RA---.ledger": b"bb-ledger 2 0RA---\n" + LEFT,
    "parts/1RA---.ledger": b"bb-ledger 2 1RA---\n" + RIGHT,
}
REPORT = b"""root ------
status complete
nodes 3
halting 1
never 2
holdouts 0
open 0
best 1
champion ------
ones 1
ones_champion ------
"""
NOBODY = 65534
# Longer than a command takes that has nothing to wait for, in seconds.
PATIENCE = 20


class Room:
    """A folder with files, in which commands are tried."""

    tried, folders = 0, []

    def __init__(self, files):
        self.folder = tempfile.mkdtemp()
        Room.folders.append(self.folder)
        os.chmod(self.folder, 0o755)
        for name, held in files.items():
            self.write(name, held)

    def at(self, name):
        return os.path.join(self.folder, name)

    def write(self, name, held):
        os.makedirs(os.path.dirname(self.at(name)), exist_ok=True)
        with open(self.at(name), "wb") as file:
            file.write(held)

    def held(self):
        """The files and what they hold; where a link leads."""
        found = {}
        for top, _, names in os.walk(self.folder):
            for name in names:
                path = os.path.join(top, name)
                kept = os.path.relpath(path, self.folder)
                if os.path.islink(path):
                    found[kept] = "-> " + os.readlink(path)
                elif os.path.isfile(path):
                    with open(path, "rb") as file:
                        found[kept] = file.read()
        return found

    def run(self, words, status, answers=b"", faults=b"", given=b"", after=None, gone=(), **how):
        """Runs a command, which ends so, says this, and leaves these files otherwise than they were, and these not at all."""
        Room.tried += 1
        due = {**self.held(), **(after or {})}
        for name in gone:
            due.pop(name, None)
        how = how if "stdin" in how else {**how, "input": given}
        ran = subprocess.run([PROGRAM, *words], capture_output=True, cwd=self.folder, check=False, **how)
        told = (ran.returncode, ran.stdout, ran.stderr)
        if faults in REFUSED and re.fullmatch(re.escape(faults) + rb"[^\n]+: [^\n]+\n", ran.stderr):
            # which file or stream failed, and why
            told = (ran.returncode, ran.stdout, faults)
        if told != (status, answers, faults):
            sys.exit(f"losses: {words}: {told!r}, and not {(status, answers, faults)!r}")
        if self.held() != due:
            sys.exit(f"losses: {words}: leaves {self.held()!r}, and not {due!r}")

    def fed(self, name, held):
        """A FIFO that gives these bytes once."""
        path = self.at(name)
        if not os.path.exists(path):
            os.mkfifo(path)

        def feed():
            with open(path, "wb") as file:
                file.write(held)

        threading.Thread(target=feed, daemon=True).start()
        return name


def unless_replaced():
    """An OUT that is there already stays as it is, and nothing is made beside it, unless it is to be replaced; what is wrong with
    what is read is said first."""
    other = b"bb-ledger 2 ------_------\n"
    room = Room({"a": TRUNK, "b": WHOLE, "small": HEADER, "other": other, "notes": b"what stood there", "empty": b"", **PARTS})
    os.symlink("small", room.at("link"))
    os.symlink("nowhere", room.at("dangling"))
    os.link(room.at("b"), room.at("second"))
    commands = (
        (["merge", "a", "b"], b"merged 3 open 0 holdouts 0\n"),
        (["carry", "b"], b"carried 3 halting 1\n"),
        (["mend", "b"], b"mended 3 dropped 0\n"),
        (["join", "parts", "--ledger"], REPORT),
    )
    for words, said in commands:
        for out in ("a", "b", "./b", "second", "small", "other", "notes", "link", "dangling"):
            kept = f"refused 604\n{out}: it is there already, and is replaced only with --replace\n".encode()
            room.run([*words, out], 4, faults=kept)
        ran = subprocess.run([PROGRAM, *words, "parts"], capture_output=True, cwd=room.folder, check=False)
        if ran.returncode != 4 or not ran.stderr.startswith(b"refused 604\nparts: "):
            sys.exit(f"losses: {words} over a folder: {ran!r}")
        room.run([*words, "empty"], 0, said, after={"empty": WHOLE})
        room.write("empty", b"")
        room.run([*words, "notes", "--replace"], 0, said, after={"notes": WHOLE})
        room.run([*words, "link", "--replace"], 0, said, after={"small": WHOLE})
        room.write("notes", b"what stood there")
        room.write("small", HEADER)
    room.run(["merge", "a", "absent", "b"], 4, faults=b"refused 605\n")
    roots = b"refused 405\nother: its root is ------_------, and that of a is ------\n"
    room.run(["merge", "a", "other", "b"], 1, faults=roots)
    room.run(["walk", "1", "--save", "b"], 4, faults=b"refused 604\nb: it is a ledger: records are saved to another file\n")
    table = b"1RB1LB_1LA---"
    room.run(["draw", "--out", "pictures", table.decode()], 0, table + b" drawn\n", after={"pictures/1RB1LB_1LA---.svg": picture(room)})
    drawn = b"refused 605\npictures/1RB1LB_1LA---.svg: it is there already, and is replaced only with --replace\n"
    room.run(["draw", "--out", "pictures", table.decode()], 4, faults=drawn)
    room.run(["draw", "--out", "pictures", "--replace", table.decode()], 0, table + b" drawn\n")


def picture(room):
    """The picture of the champion of two states, as it is printed."""
    return subprocess.run([PROGRAM, "draw", "1RB1LB_1LA---"], capture_output=True, cwd=room.folder, check=True).stdout


def half_lines():
    """Records are saved behind a last line that isn't whole, on lines of their own."""
    known, table = b"1RB1RC_1LB1LA_---0RB T 12 27 R", "------_------"
    for held in (known, b"1RB1RC_1LB1LA_---0RB T 12"):
        room = Room({"saved": held})
        Room.tried += 1
        subprocess.run([PROGRAM, "walk", "2", "--save", "saved", "--dear", "0", "--far", "2", f"--root={table}"], capture_output=True, cwd=room.folder, check=False)
        lines = room.held()["saved"].split(b"\n")
        if lines[0] != held or len(lines) < 3 or lines[-1] != b"":
            sys.exit(f"losses: walk --save behind {held!r}: {lines[:2]!r}")


def two_walks():
    """Of two walks that save into one file at once the second ends, and the file is as the first leaves it."""
    room = Room({})
    Room.tried += 2
    words = [PROGRAM, "walk", "4", "--hard", "--dear", "0", "--save", "saved"]
    subprocess.run(words, stdout=subprocess.DEVNULL, stderr=subprocess.DEVNULL, cwd=room.folder, check=True)
    due = room.held().pop("saved")
    os.remove(room.at("saved"))
    first = subprocess.Popen(words, stdout=subprocess.DEVNULL, stderr=subprocess.DEVNULL, cwd=room.folder)
    while not os.path.exists(room.at("saved")) or not os.path.getsize(room.at("saved")):
        time.sleep(0.01)
    first.send_signal(signal.SIGSTOP)
    second = subprocess.run(words, capture_output=True, cwd=room.folder, check=False)
    first.send_signal(signal.SIGCONT)
    if second.returncode != 4 or second.stdout or not second.stderr.startswith(REFUSED[3]):
        sys.exit(f"losses: a second walk that saves there: {second!r}")
    if first.poll() is not None:
        sys.exit("losses: the first walk had ended before the second began")
    if first.wait() != 0 or room.held()["saved"] != due:
        sys.exit("losses: a walk didn't save what it saves alone")


def two_coordinators():
    """Of two coordinators of one ledger the second ends, for as long as the first goes on."""
    room = Room({})
    Room.tried += 3
    words = [PROGRAM, "coord", "1", "--ledger", "kept"]
    first = subprocess.Popen(words, stdin=subprocess.PIPE, stdout=subprocess.PIPE, stderr=subprocess.DEVNULL, cwd=room.folder)
    for line in (b"ASK 1\n", b"REC " + ROOT):
        first.stdin.write(line)
        first.stdin.flush()
        first.stdout.readline()
        second = subprocess.run(words, input=b"", capture_output=True, cwd=room.folder, check=False)
        if second.returncode != 4 or second.stdout or not second.stderr.startswith(REFUSED[3]):
            sys.exit(f"losses: a second coordinator of a ledger: {second!r}")
    first.stdin.close()
    if first.wait(PATIENCE) != 1 or room.held()["kept"] != HEADER + ROOT:
        sys.exit(f"losses: the first coordinator of a ledger leaves {room.held()!r}")


def lines_of_their_own():
    """On a terminal that shows both streams a report isn't glued to the line that tells how far the reading is."""
    packed = os.path.join(TOP, "examples", "four-states.ledger.xz")
    if not shutil.which("xz"):
        print("losses: there is no xz, and no long reading was tried")
        return
    held = subprocess.run(["xz", "-dc", packed], capture_output=True, check=True).stdout
    room = Room({"four": held})
    Room.tried += 1
    reader, writer = pty.openpty()
    ran = subprocess.Popen([PROGRAM, "report", "four"], stdin=subprocess.DEVNULL, stdout=writer, stderr=writer, cwd=room.folder)
    os.close(writer)
    # It is held while it reads, so that it takes more than a second on any computer.
    files, four = f"/proc/{ran.pid}/fd", os.path.realpath(room.at("four"))
    while ran.poll() is None and four not in [os.path.realpath(os.path.join(files, name)) for name in os.listdir(files)]:
        time.sleep(0.001)
    time.sleep(0.05)
    ran.send_signal(signal.SIGSTOP)
    time.sleep(1.2)
    ran.send_signal(signal.SIGCONT)
    shown = b""
    try:
        while piece := os.read(reader, 4096):
            shown += piece
    except OSError:
        pass
    ran.wait()
    report = subprocess.run([PROGRAM, "report", "four"], capture_output=True, cwd=room.folder, check=False).stdout
    lines = re.compile(rb"\r\x1b\[\?7l[^\r\n]*\x1b\[\?7h\x1b\[K|\r\x1b\[K")
    if not lines.search(shown) or lines.sub(b"", shown).replace(b"\r\n", b"\n") != report:
        sys.exit(f"losses: report at a terminal: {shown!r}")


def pipes():
    """What is no plain file is read to its end where it is only read."""
    room = Room({"a": WHOLE, **PARTS})
    for name in (room.fed("fifo", WHOLE), "/dev/stdin"):
        room.run(["report", name], 0, REPORT, given=WHOLE)
    room.run(["report", "-"], 0, REPORT, given=WHOLE)
    room.run(["carry", room.fed("fifo", WHOLE), "out"], 0, b"carried 3 halting 1\n", after={"out": WHOLE})
    room.run(["mend", room.fed("fifo", SPOILT), "out", "--replace"], 1, b"mended 2 dropped 1\n", after={"out": HEADER + ROOT + RIGHT})
    room.run(["mend", "/dev/stdin", "out", "--replace"], 0, b"mended 3 dropped 0\n", given=WHOLE, after={"out": WHOLE})
    room.run(["merge", room.fed("fifo", TRUNK), "/dev/stdin", "out", "--replace"], 0, b"merged 3 open 0 holdouts 0\n", given=WHOLE)
    room.run(["merge", "a", room.fed("fifo", WHOLE), "a", "--replace"], 0, b"merged 3 open 0 holdouts 0\n")
    os.rename(room.at("parts/0RA---.ledger"), room.at("part"))
    room.fed("parts/0RA---.ledger", PARTS["parts/0RA---.ledger"])
    room.run(["join", "parts"], 0, REPORT)
    shell = ["bash", "-c", f"{PROGRAM} report <(cat a) && {PROGRAM} page <(cat a) | grep -c '<html'"]
    if shutil.which("bash"):
        Room.tried += 2
        ran = subprocess.run(shell, capture_output=True, cwd=room.folder, check=False)
        if ran.stdout != REPORT + b"1\n":
            sys.exit(f"losses: {shell}: {ran!r}")


def without_leave():
    """A folder that can't be written: what can't be kept isn't cut, and OUT is as it was."""
    room = Room({"a": SPOILT, "b": WHOLE, "out": b"what stood there"})
    as_nobody = {}
    if os.geteuid() == 0:
        as_nobody = {"user": NOBODY, "executable": room.at("bb")}
        shutil.copy(PROGRAM, room.at("bb"))
        for name in ("a", "b", "out"):
            os.chown(room.at(name), NOBODY, NOBODY)
    os.chmod(room.folder, 0o555)
    try:
        subprocess.run(["true"], check=True, **{**as_nobody, "executable": None})
    except PermissionError:
        print("losses: nobody else can be here, and a folder that can't be written wasn't tried")
        return
    for words in (["run", "1", "--ledger", "a"], ["loop", "1", "--ledger", "a"], ["coord", "1", "--ledger", "a"], ["settle", "a"], ["retry", "a"]):
        room.run(words, 4, faults=b"refused 604\n", given=b"REC " + LEFT, **as_nobody)
    for words in (["merge", "b", "b", "out"], ["carry", "b", "out"], ["mend", "a", "out"], ["mend", "a", "a"]):
        room.run([*words, "--replace"], 4, faults=b"refused 604\n", **as_nobody)
    os.chmod(room.folder, 0o755)


def nodes(room):
    """Which file stands at each path, since when, of what sort and with which rights."""
    found = {}
    for top, folders, names in os.walk(room.folder):
        for name in folders + names:
            node = os.lstat(os.path.join(top, name))
            found[os.path.relpath(os.path.join(top, name), room.folder)] = (node.st_ino, node.st_mtime_ns, node.st_mode)
    return found


def not_listened_at(room, name, *more):
    """A coordinator that is told to listen at this path is refused, and nothing changes there."""
    Room.tried += 1
    words = ["coord", "1", "--listen", name, *more]
    due = (room.held(), nodes(room))
    reader, writer = pty.openpty()
    ran = subprocess.Popen([PROGRAM, *words], stdin=subprocess.DEVNULL, stdout=subprocess.PIPE, stderr=writer, cwd=room.folder)
    os.close(writer)
    try:
        answers = ran.communicate(timeout=PATIENCE)[0]
    except subprocess.TimeoutExpired:
        ran.kill()
        answers = ran.communicate()[0]
    told = os.read(reader, 4096).replace(b"\r\n", b"\n")
    os.close(reader)
    if (room.held(), nodes(room)) != due:
        sys.exit(f"losses: {words}: leaves {room.held()!r}, {nodes(room)!r}, and not {due!r}")
    if ran.returncode != 4 or answers != b"" or not told.startswith(b"refused 603\n" + name.encode() + b": ") or told.count(b"\n") != 2:
        sys.exit(f"losses: {words}: {ran.returncode}, {answers!r}, {told!r}")
    room.run(words, 4, faults=b"refused 603\n", timeout=PATIENCE)
    if nodes(room) != due[1]:
        sys.exit(f"losses: {words}: leaves {nodes(room)!r}, and not {due[1]!r}")


def places_to_listen():
    """Only a socket at which nobody listens gives way to a coordinator; whatever else stands at the path stays as it is."""
    room = Room({"some.ledger": TRUNK, "locked": TRUNK, "read-only": TRUNK, "folder/a": TRUNK})
    os.chmod(room.at("read-only"), 0o444)
    os.symlink("some.ledger", room.at("link"))
    os.symlink("nowhere", room.at("dangling"))
    os.link(room.at("some.ledger"), room.at("second"))
    os.mkfifo(room.at("fifo"))
    for name in ("./some.ledger", room.at("some.ledger"), "folder/a", "./read-only", "./link", "./dangling", "./second", "./folder", "./fifo"):
        not_listened_at(room, name)
    not_listened_at(room, "./some.ledger", "--ledger", "some.ledger")
    not_listened_at(room, "./link", "--ledger", "some.ledger")
    not_listened_at(room, "./second", "--ledger", "some.ledger")
    with open(room.at("locked"), "ab") as held:
        fcntl.flock(held, fcntl.LOCK_EX)
        not_listened_at(room, "./locked")
    room = Room({})
    with socket.socket(socket.AF_UNIX) as one, socket.socket(socket.AF_UNIX, socket.SOCK_DGRAM) as other:
        one.bind(room.at("listened"))
        one.listen()
        other.bind(room.at("datagrams"))
        os.symlink("listened", room.at("link"))
        for name in ("./listened", "./link", "./datagrams"):
            not_listened_at(room, name)
        with socket.socket(socket.AF_UNIX) as near:
            near.connect(room.at("listened"))
            one.accept()[0].close()
    # Nobody listens at it any more.
    os.remove(room.at("link"))
    os.symlink("listened", room.at("link"))
    not_listened_at(room, "./link")
    before = nodes(room)["listened"]
    Room.tried += 2
    coordinator = subprocess.Popen(
        [PROGRAM, "coord", "1", "--listen", "./listened"], stdin=subprocess.DEVNULL, stdout=subprocess.PIPE, stderr=subprocess.PIPE,
        cwd=room.folder)
    worked = subprocess.run([PROGRAM, "work", "--connect", "./listened", "--tries", "5"], stdin=subprocess.DEVNULL, capture_output=True,
                            cwd=room.folder, timeout=PATIENCE, check=False)
    try:
        told = coordinator.communicate(timeout=PATIENCE)
    except subprocess.TimeoutExpired:
        coordinator.kill()
        told = coordinator.communicate()
    ended = (coordinator.returncode, *told, worked.returncode, worked.stdout)
    if ended != (0, REPORT, b"", 0, b"") or nodes(room).get("listened") == before:
        sys.exit(f"losses: at a socket that nobody listens at: {ended!r}, {worked.stderr!r}")


def by_links():
    """`./bb` runs through links, and says which program it is; where dist/ is stale that would build one, and isn't tried."""
    if subprocess.run([os.path.join(TOP, "dist", "refresh"), "--check"], capture_output=True, check=False).returncode != 0:
        return
    room = Room({"a": WHOLE})
    script = os.path.join(TOP, "bb")
    os.symlink(script, room.at("bb"))
    os.symlink("bb", room.at("twice"))
    where = os.path.realpath(os.path.join(TOP, "dist", "bb-linux-x86_64"))
    for name in (script, room.at("bb"), room.at("twice")):
        Room.tried += 2
        shown = [subprocess.run([name, *words], capture_output=True, cwd=room.folder, check=False).stdout for words in (["--where"], ["report", "a"])]
        if os.path.realpath(shown[0].decode().strip()) != where or shown[1] != REPORT:
            sys.exit(f"losses: {name}: {shown!r}")


def main():
    for play in (unless_replaced, half_lines, two_walks, two_coordinators, lines_of_their_own, pipes, without_leave, places_to_listen, by_links):
        play()
    for folder in Room.folders:
        shutil.rmtree(folder, ignore_errors=True)
    print(f"losses: {Room.tried} commands, none loses a ledger, and each is told of what went wrong")
    return 0


if __name__ == "__main__":
    sys.exit(main())
