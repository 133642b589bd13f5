#!/usr/bin/env python3
"""contrib/tree.sh, killed at random moments and gone on with: stress/killed_tree.py N DIR [KILLS [SECONDS [SEED]]] begins it, kills it
with all that it has begun KILLS times (10, if not said), each time after a random time of at most SECONDS (60), and lets it then go on
to its end. Prints when it was killed, the report, and the time that it took from beginning to end, on the clock and of processors."""
import os
import random
import resource
import signal
import subprocess
import sys
import time

TOP = os.path.dirname(os.path.dirname(os.path.abspath(__file__)))
sys.path.insert(0, os.path.join(TOP, "bench"))
from program import PROGRAM  # noqa: E402

SCRIPT = os.path.join(TOP, "contrib", "tree.sh")


def begun(words, out):
    """The script, as the first of a group of its own."""
    return subprocess.Popen([SCRIPT, *words], stdout=out, stderr=subprocess.DEVNULL, start_new_session=True, env={**os.environ, "BB": PROGRAM})


def main():
    words = sys.argv[1:3]
    kills, seconds, seed = ([int(word) for word in sys.argv[3:]] + [10, 60, 1][len(sys.argv) - 3:])
    chance = random.Random(seed)
    start = time.monotonic()
    for _ in range(kills):
        script = begun(words, subprocess.DEVNULL)
        try:
            script.wait(chance.uniform(0, seconds))
        except subprocess.TimeoutExpired:
            os.killpg(script.pid, signal.SIGKILL)
            script.wait()
        print(f"killed after {time.monotonic() - start:.0f} s", flush=True)
    script = begun(words, subprocess.PIPE)
    report = script.communicate()[0].decode()
    print(report, end="")
    used = resource.getrusage(resource.RUSAGE_CHILDREN)
    print(f"ended with {script.returncode} after {time.monotonic() - start:.0f} s, {(used.ru_utime + used.ru_stime) / 60:.1f} processor minutes")
    return script.returncode


if __name__ == "__main__":
    sys.exit(main())
