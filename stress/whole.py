#!/usr/bin/env python3
"""A second judge of a tree in parts: compares what bb join prints of a folder with what judge/ does, which is proved in Coq and
shares nothing with bb, and prints how many records there are of each kind and what both took. Arguments: the number of states,
the folder, and how many processes the judge has (as many as there are processors). It needs ocamlfind."""
import os
import subprocess
import sys
import tempfile

TOP = os.path.dirname(os.path.dirname(os.path.abspath(__file__)))
sys.path.insert(0, os.path.join(TOP, "bench"))
from measured import judge, used  # noqa: E402
from program import PROGRAM  # noqa: E402


def told(command):
    """What a command printed, what it said beside that, and its processor seconds."""
    before = used()
    done = subprocess.run(command, capture_output=True, check=False)
    return done.stdout, done.stderr, used() - before


def main():
    states, folder = sys.argv[1:3]
    processes = sys.argv[3] if len(sys.argv) > 3 else str(os.cpu_count())
    with tempfile.TemporaryDirectory() as scratch:
        theirs, kinds, its_seconds = told([judge(scratch), states, folder, processes])
    ours, _, seconds = told([PROGRAM, "join", folder])
    print(kinds.decode(), end="")
    print(f"bb join {seconds:.0f} processor seconds, the judge {its_seconds:.0f}")
    is_same = ours == theirs and ours.startswith(b"root ")
    print("the same report" if is_same else "THE REPORTS DIFFER")
    print(ours.decode(), end="")
    return 0 if is_same else 1


if __name__ == "__main__":
    sys.exit(main())
