#!/usr/bin/env python3
"""Skelet 1, whose check takes half a minute.

stress/skelet1.py check [PROGRAM ..]   the whole check, by the built program's `bb check` or another one: half a minute and
                                       80 megabytes; its answer has to be `never`
stress/skelet1.py told [PROGRAM ..]    what `bb report`, `bb retry` and `bb join` say of it before they judge it: a line where
                                       standard error is a terminal, and nothing elsewhere

Ends with 1 where something differs.
"""
import os
import pty
import resource
import select
import subprocess
import sys
import tempfile

sys.path.insert(0, os.path.join(os.path.dirname(os.path.abspath(__file__)), "..", "bench"))
from program import PROGRAM  # noqa: E402

TEXT = "1RB1RD_1LC0RC_1RA1LD_0RE0LB_---1RC"


def check(program):
    """The whole check: what is answered to Skelet 1's record, and what it takes."""
    record = f"{TEXT} P\n".encode()
    said = subprocess.run(program, input=record, capture_output=True, check=False).stdout.decode()
    used = resource.getrusage(resource.RUSAGE_CHILDREN)
    print(f"check: {said.strip()}, {used.ru_utime:.1f} s of processor time, {used.ru_maxrss // 1000} MB")
    return said != f"{TEXT} never\n"


def said_at(program, words, end, other):
    """What comes on standard error, whose other end is read, in some seconds; the program is stopped then."""
    with subprocess.Popen(program + words, stdout=subprocess.DEVNULL, stderr=end) as begun:
        os.close(end)
        said = b""
        while select.select([other], [], [], 5)[0]:
            more = os.read(other, 4096)
            if not more:
                break
            said += more
        begun.kill()
    os.close(other)
    return said.decode().replace("\r\n", "\n")


def told(program):
    """What is said before it is judged, by each command that reads ledgers."""
    wrong = 0
    with tempfile.TemporaryDirectory() as folder:
        ledger = os.path.join(folder, "trunk.ledger")
        with open(ledger, "w", encoding="ascii") as file:
            file.write(f"bb-ledger 2 {TEXT}\n{TEXT} P\n")
        for words in (["report", ledger], ["retry", ledger], ["join", folder]):
            other, end = pty.openpty()
            shown = said_at(program, words, end, other)
            other, end = os.pipe()
            beside = said_at(program, words, other=other, end=end)
            if shown != "judging Skelet 1, some half a minute ..\n" or beside != "":
                wrong += 1
                print(f"{words[0]} says {shown!r} at a terminal, {beside!r} elsewhere")
    print(f"told: {wrong} differ")
    return wrong


def main():
    words = sys.argv[1:]
    if words[:1] == ["told"]:
        return told(words[1:] or [PROGRAM])
    if words[:1] == ["check"]:
        return check(words[1:] or [PROGRAM, "check"])
    print(__doc__)
    return 2


if __name__ == "__main__":
    sys.exit(1 if main() else 0)
