"""Peers that no honest worker is: what may come to a coordinator on an open network. Each kind is a function of a port, of an event
that ends it, and of a chance; all of them go on until the event is set, however often they are dropped."""
import contextlib
import select
import socket
import time


@contextlib.contextmanager
def connected(port, count):
    """So many connections, without waiting for any of them. One that isn't taken is left out."""
    ones = []
    try:
        for _ in range(count):
            with contextlib.suppress(OSError):
                ones.append(socket.create_connection(("127.0.0.1", port), timeout=2))
                ones[-1].setblocking(False)
        yield ones
    finally:
        for one in ones:
            one.close()


def sends(one, piece):
    """Sends what is taken at once; whether the connection stands."""
    try:
        one.send(piece)
    except BlockingIOError:
        pass
    except OSError:
        return False
    return True


def takes(one):
    """Reads what has come; whether the connection stands."""
    try:
        while True:
            if not one.recv(1 << 16):
                return False
    except BlockingIOError:
        return True
    except OSError:
        return False


def repeated(port, stop, count, piece_of, pause=0.0, reads=True):
    """So many connections, each of which sends the next of its pieces again and again. Who is dropped comes again."""
    turn = 0
    while not stop.is_set():
        with connected(port, count) as ones:
            if not ones:
                time.sleep(0.05)
            while ones and not stop.is_set():
                for place, one in enumerate(list(ones)):
                    turn += 1
                    if not sends(one, piece_of(place, turn)) or (reads and not takes(one)):
                        one.close()
                        ones.remove(one)
                if pause:
                    stop.wait(pause)
                else:
                    select.select([], ones, [], 0.05)


def slow(port, stop, _chance):
    """500 connections, a byte a second each."""
    word = b"ASK 7\n"
    repeated(port, stop, 500, lambda _, turn: word[turn % len(word) :][:1], pause=1)


def comes_and_goes(port, stop, _chance):
    """Connects and disconnects, 20,000 times."""
    for _ in range(20_000):
        if stop.is_set():
            return
        with contextlib.suppress(OSError):
            socket.create_connection(("127.0.0.1", port), timeout=2).close()


def endless(port, stop, _chance):
    """Four lines without an end."""
    repeated(port, stop, 4, lambda *_: b"1" * 65_536)


def noise(port, stop, chance):
    """Random bytes by eight connections."""
    pieces = [chance.randbytes(65_536) for _ in range(8)]
    repeated(port, stop, 8, lambda place, turn: pieces[(place + turn) % 8])


def yes(port, stop, _chance):
    """One line that is no message, again and again, by four connections."""
    repeated(port, stop, 4, lambda *_: b"y\n" * 8_192)


def asks(port, stop, _chance):
    """`ASK` of one id again and again."""
    repeated(port, stop, 1, lambda *_: b"ASK 7\n" * 4_096)


def deaf(port, stop, _chance):
    """Eight that ask and never read."""
    repeated(port, stop, 8, lambda place, _: b"ASK %d\n" % (4_000_000_000 + place) * 512, reads=False)


def floods(port, stop, _chance):
    """Eight that ask of one id each, and read."""
    repeated(port, stop, 8, lambda place, _: b"ASK %d\n" % (4_010_000_000 + place) * 512)


def many_ids(port, stop, _chance):
    """4,200 ids that ask again and again."""
    piece = b"".join(b"ASK %d\n" % (4_020_000_000 + one) for one in range(4_200))
    repeated(port, stop, 1, lambda *_: piece, pause=0.02)


def holds_ids(port, stop, _chance):
    """4,096 ids that ask each 33 seconds."""
    piece = b"".join(b"ASK %d\n" % (4_030_000_000 + one) for one in range(4_096))
    repeated(port, stop, 1, lambda *_: piece, pause=33)


def done(port, stop, _chance):
    """`DONE` of each lease, by two connections."""
    def piece(_, turn):
        first = turn * 1_000 % 15_000_000
        return b"".join(b"DONE 1 %d\n" % number for number in range(first, first + 1_000))
    repeated(port, stop, 2, piece)


def stolen_ids(port, stop, chance):
    """`ASK` with the ids of the workers, a thousand times a second."""
    repeated(port, stop, 1, lambda *_: b"".join(b"ASK %d\n" % chance.randrange(1, 129) for _ in range(10)), pause=0.01)


def squatter(port, stop, _chance):
    """`ASK` of one id each 30 seconds: it is there before all others, and never works."""
    repeated(port, stop, 1, lambda *_: b"ASK 7\n", pause=30)


def gives_up(states):
    """A record of the empty table that gives the whole tree up."""
    piece = b"REC %s U\n" % b"_".join([b"------"] * states)
    return lambda port, stop, _chance: repeated(port, stop, 1, lambda *_: piece, pause=0.2)


def dear(states):
    """93 records in one piece that are false, each after 100,000,000 steps."""
    table = [b"1RB---", b"1LC1LC", b"0RB1RD", b"0LD0LC"] if states == 4 else [b"1RB1LB", b"1LA0RC", b"1LA---"][:states]
    piece = b"REC %s H 100000000\n" % b"_".join(table) * 93
    return lambda port, stop, _chance: repeated(port, stop, 1, lambda *_: piece, pause=0.2)


def idle(port, stop, _chance):
    """1,000 connections that say nothing."""
    while not stop.is_set():
        with connected(port, 1_000) as ones:
            while not stop.is_set() and sum(takes(one) for one in ones) > 500:
                stop.wait(0.5)


def kinds(states):
    """Each kind by its name."""
    plain = (slow, comes_and_goes, endless, noise, yes, asks, deaf, floods, many_ids, holds_ids, done, stolen_ids, squatter, idle)
    return {one.__name__: one for one in plain} | {"gives_up": gives_up(states), "dear": dear(states)}
