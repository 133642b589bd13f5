"""What a command of a case finds around it: devices, a clock and locks by stress/shim.c, a terminal, and peers at sockets.

For stress/cases.py, whose head says what the lines of a case mean.
"""
import errno
import fcntl
import hashlib
import hmac
import os
import re
import select
import socket
import subprocess
import sys
import tempfile
import threading
import tty

from case_text import text_of

TOP = os.path.dirname(os.path.dirname(os.path.abspath(__file__)))
sys.path.insert(0, os.path.join(TOP, "bench"))
from program import PROGRAM  # noqa: E402

# The longest that a command may take that is answered at once otherwise, in seconds.
PATIENCE = 120


def shim_at(folder):
    """Makes the shim, and gives its path; none where there is no C compiler."""
    path = os.path.join(folder, "shim.so")
    made = ["cc", "-O1", "-shared", "-fPIC", "-o", path, os.path.join(TOP, "stress", "shim.c"), "-ldl"]
    try:
        subprocess.run(made, check=True)
    except FileNotFoundError:
        return None
    return path


class Ran:
    """What came of a command: its status, what it said, its calls in their order, and whether a device failed."""

    def __init__(self, status, answers, faults, calls, has_failed):
        self.status, self.answers, self.faults, self.calls, self.has_failed = status, answers, faults, calls, has_failed


class Nobody:
    """Where a command has no network."""

    port, sent, script = None, (), None

    def __init__(self, address=None):
        self.address = address

    def begin(self):
        pass

    def end(self):
        pass

    def named(self, said):
        """What was said, with the name of the address in place of the port."""
        return re.sub(rb"\b%d\b" % self.port, self.address.encode(), said) if self.port else said


class Callers(Nobody):
    """Peers that connect with a coordinator, as the lines of a script say what comes of them, each once it waits. Each shows
    the token first, where there is one."""

    def __init__(self, address, text, token):
        super().__init__(address)
        self.lines = None if text is None else text.decode().split("\n")[:-1]
        self.token, self.unshown = token, []
        self.peers, self.sent, self.ports = [], [], {}
        # Whose connection ended while others were still there.
        self.let_go = set()
        self.script, self.ours = socket.socketpair(socket.AF_UNIX, socket.SOCK_SEQPACKET)
        with socket.create_server(("127.0.0.1", 0)) as taken:
            self.port = taken.getsockname()[1]
            # Where nothing may listen, another does.
            self.other = None if text is not None else taken.dup()
        self.thread = threading.Thread(target=self.play)

    def begin(self):
        self.script.close()
        self.thread.start()

    def end(self):
        self.thread.join()
        self.hear()
        for peer in (*self.peers, self.ours, *([self.other] if self.other else [])):
            if peer:
                peer.close()

    def play(self):
        lines = iter(self.lines or ())
        while self.ours.recv(1):
            self.let_go |= self.hear()
            said = self.show_token() or next((said for line in lines if (said := self.carry(line))), "f")
            try:
                self.ours.send(said.encode())
            except OSError:
                break

    def carry(self, line):
        """Lets a line of the script come, and gives what the shim is told; nothing where its peer was let go before."""
        who, _, what = line.partition(" ")
        if who == "+":
            self.peers.append(socket.create_connection(("127.0.0.1", self.port)))
            self.sent.append(b"")
            self.ports[self.peers[-1].getsockname()[1]] = len(self.peers) - 1
            self.unshown = [(len(self.peers) - 1, what.encode() or self.token)] if self.token else []
            return "g"
        if who == "@":
            return f"t{what}"
        peer = self.peers[int(who)]
        if what == "!":
            return "r"
        if peer is None:
            return None
        if what == "-":
            peer.close()
            self.peers[int(who)] = None
        else:
            peer.sendall(text_of(what[2:]) + (b"\n" if what[0] == "<" else b""))
        return "g"

    def show_token(self):
        """Answers the greeting of the coordinator; nothing where there is none to answer. Waiting fails where it asks for no token."""
        if not self.unshown:
            return None
        place, token = self.unshown.pop()
        if not self.sent[place]:
            return "f"
        _, version, theirs = self.sent[place].decode().split()
        ours = "5" * 64
        proof = hmac.new(token, f"worker {theirs} {ours}".encode(), hashlib.sha256).hexdigest()
        self.peers[place].sendall(f"bb {version} {ours} {proof}\n".encode())
        return "g"

    def hear(self):
        """Takes what was sent to the peers, and gives the places of those whose connection has ended."""
        ended = set()
        for place, peer in enumerate(self.peers):
            while peer and select.select([peer], [], [], 0)[0]:
                try:
                    piece = peer.recv(65536)
                except OSError:
                    piece = b""
                self.sent[place] += piece
                if not piece:
                    peer.close()
                    self.peers[place] = peer = None
                    ended.add(place)
        return ended


class Coordinators(Nobody):
    """Who answers a worker's calls: each call finds the next text, and behind the last nobody listens."""

    def __init__(self, address, texts):
        super().__init__(address)
        self.texts, self.sent = texts, [b""]
        self.listener = socket.create_server(("127.0.0.1", 0))
        self.port = self.listener.getsockname()[1]
        self.thread = threading.Thread(target=self.play)
        if not texts:
            self.listener.close()

    def begin(self):
        self.thread.start()

    def end(self):
        # A call that never came is made here, so that nobody waits for it.
        while self.thread.is_alive():
            try:
                socket.create_connection(("127.0.0.1", self.port), timeout=1).close()
            except OSError:
                pass
            self.thread.join(0.05)

    def play(self):
        for count, text in enumerate(self.texts, 1):
            peer, _ = self.listener.accept()
            if count == len(self.texts):
                self.listener.close()
            with peer:
                try:
                    peer.sendall(text)
                    peer.shutdown(socket.SHUT_WR)
                    while piece := peer.recv(65536):
                        self.sent[0] += piece
                except OSError:
                    pass


class Setting:
    """What a step meets, with devices that may be others than its own, for one run of its command."""

    def __init__(self, shim, top, step, network=Nobody()):
        self.shim, self.top, self.step, self.network = shim, top, step, network
        self.devices = dict(step.devices)
        self.record = tempfile.TemporaryFile(dir=top)

    def environment(self):
        """The environment of the command, and the files that it is handed."""
        step, script = self.step, self.network.script
        given = {"LD_PRELOAD": self.shim, "BB_RECORD": str(self.record.fileno()), "BB_CLOCK": str(step.clock or 0)}
        for name, device in self.devices.items():
            given[f"BB_{name.upper()}"] = f"{device.at_once} {device.due} {getattr(errno, device.error)} {device.halves}"
        for name, path in step.paths.items():
            given[f"BB_{name.upper()}"] = path
        if step.asked:
            given["BB_TAKEN"] = "1"
        if script:
            given["BB_SCRIPT"] = str(script.fileno())
        files = [self.record.fileno(), *([script.fileno()] if script else [])]
        return {**os.environ, **given}, files

    def words(self):
        """The command's words; in place of an address that of its network."""
        words = [PROGRAM, *self.step.words]
        for place, word in enumerate(words[:-1]):
            if word in ("--listen", "--connect") and self.network.port:
                words[place + 1] = str(self.network.port)
        return words + ([b"\xff"] if "no text" in self.step.flags else [])

    def run(self, folder, given):
        """Runs the command in a folder, with this on standard input."""
        if not self.shim:
            done = subprocess.run(self.words(), input=given, capture_output=True, cwd=folder, check=False)
            return Ran(done.returncode, done.stdout, done.stderr, [], False)
        environment, files = self.environment()
        ours, theirs = os.openpty() if "terminal" in self.step.flags else os.pipe()
        if "terminal" in self.step.flags:
            tty.setraw(theirs)
        streams = {"stdin": subprocess.PIPE, "stdout": subprocess.PIPE, "stderr": theirs}
        process = subprocess.Popen(self.words(), cwd=folder, env=environment, pass_fds=files, **streams)
        os.close(theirs)
        faults = Heard(ours)
        self.network.begin()
        try:
            if "talk" in self.step.flags:
                answers = self.talk(process, given)
            else:
                answers = process.communicate(given, timeout=PATIENCE)[0]
            status = process.wait(PATIENCE)
        except subprocess.TimeoutExpired:
            process.kill()
            answers, status = process.communicate()[0], f"none within {PATIENCE} seconds"
        finally:
            self.network.end()
        said = faults.all()
        calls, has_failed = self.recorded(said)
        return Ran(status, answers, without_calls(self.network.named(said)), calls, has_failed)

    def talk(self, process, given):
        """Gives each line once what stands above it was answered."""
        answers, ends = b"", [start for start, _ in self.step.turns[1:]] + [len(given)]
        for (start, due), end in zip(self.step.turns, ends):
            while len(answers) < due and select.select([process.stdout], [], [], 10)[0]:
                piece = os.read(process.stdout.fileno(), 65536)
                answers += piece
                if not piece:
                    break
            # What isn't answered in its time ends the talk.
            if len(answers) != due:
                break
            process.stdin.write(given[start:end])
            process.stdin.flush()
        process.stdin.close()
        with process.stdout as rest:
            return answers + rest.read()

    def recorded(self, said):
        """The calls in their order, as a case says them, and whether a device failed."""
        self.record.seek(0)
        return Calls(self.network, said).of(self.record.read().decode().splitlines())


class Heard:
    """Reads a stream until its end, beside what else goes on."""

    def __init__(self, stream):
        self.stream, self.text = stream, b""
        self.thread = threading.Thread(target=self.read)
        self.thread.start()

    def read(self):
        while True:
            try:
                piece = os.read(self.stream, 65536)
            except OSError:
                piece = b""
            if not piece:
                return
            self.text += piece

    def all(self):
        self.thread.join()
        os.close(self.stream)
        return self.text


# What a coordinator says at a terminal of a peer that comes or is gone; what is said of a cut, and of a call that is made again.
HERALD = re.compile(rb"(?:\r\x1b\[K)?127\.0\.0\.1:(\d+) (?:is gone: (.*?)|[^\n]*?)\n")
CUT = re.compile(rb"^([^\n]+): ([0-9]+) bytes were cut off, and are kept in ([^\n]+)\n", re.M)
AGAIN = re.compile(rb"^([^\n]+); trying again in ([0-9]+) s\n", re.M)


def without_calls(said):
    """What was said without that which stands among the calls."""
    return AGAIN.sub(b"", CUT.sub(b"", HERALD.sub(b"", said)))


class Calls:
    """The calls of a record as a case says them: what was said in pieces, and sent in pieces, is one until another call."""

    def __init__(self, network, said):
        self.network, self.said = network, said
        self.calls, self.at, self.has_failed, self.pending = [], {}, False, None

    def of(self, lines):
        for line in lines:
            what, _, rest = line.partition(" ")
            if what == "failed":
                self.has_failed |= int(rest) in (3, 5)
            elif what in ("say", "tell", "sent"):
                name, size = line.rsplit(" ", 1)
                self.add(name, int(size))
            else:
                self.flush()
                if what == "sync" and self.calls and self.calls[-1] == f"open {rest}":
                    # What is synced by its name is opened for that.
                    self.calls.pop()
                if what not in ("take", "room"):
                    self.calls.append(line)
        self.flush()
        return self.calls, self.has_failed

    def add(self, name, size):
        if self.pending and self.pending[0] == name:
            self.pending[1] += size
        else:
            self.flush()
            self.pending = [name, size]

    def flush(self):
        """Writes down what was said, told or sent last."""
        if not self.pending:
            return
        (name, size), self.pending = self.pending, None
        at = self.at.get(name, 0)
        self.at[name] = at + size
        what, _, place = name.partition(" ")
        if what == "say":
            self.calls.append(f"say {size}")
        elif what == "tell":
            self.tell(self.network.named(self.said[at : at + size]))
        elif int(place) < len(self.network.sent):
            sent = self.network.sent[int(place)][at : at + size].decode()
            self.calls += [f"{name} {line}" for line in sent.removesuffix("\n").split("\n")]

    def tell(self, told):
        for port, why in HERALD.findall(told):
            place = self.network.ports[int(port)]
            if why and place in self.network.let_go:
                self.calls.append(f"dismissed {place} {why.decode()}")
        for path, count, kept_at in CUT.findall(told):
            self.calls += [f"told of the cut {path.decode()} {count.decode()}", f"kept at {kept_at.decode()}"]
        self.calls += [f"again in {why.decode()} {seconds.decode()}" for why, seconds in AGAIN.findall(told)]


def locked_by_us(path):
    """Locks a file that is there as another process does."""
    file = open(path, "ab")
    fcntl.flock(file, fcntl.LOCK_EX)
    return file
