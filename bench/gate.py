#!/usr/bin/env python3
"""What the gate takes, by kinds and by crates: bench/gate.py [COMMAND ..], by default `./ci --anew` at the top.

Looks twice a second at the checks that run below the command and adds up their processor time: proofs (a crate's own check and
build), tests (the check of a crate with its tests), edits (the checks of wrong code, and those that they begin with). What else
the command took, programs and tests as they run among it, is the rest of what the system counted. A check that ends within half a
second of beginning is missed. Prints the table of docs/house/SPEED.md, and ends as the command does.
"""
import collections
import os
import resource
import subprocess
import sys
import time

TOP = os.path.dirname(os.path.dirname(os.path.abspath(__file__)))
TICKS = os.sysconf("SC_CLK_TCK")


def words_of(pid):
    with open(f"/proc/{pid}/cmdline", "rb") as file:
        return file.read().decode(errors="replace").split("\0")


def kind_of(pid, words):
    """What a check is, and of which crate; nothing for another process."""
    if not words[0].endswith("/rattle") or words[1] not in ("build", "check") or "--crate-name" not in words:
        return None
    name = words[words.index("--crate-name") + 1]
    if any("/rt-edit" in it for it in [*words, os.readlink(f"/proc/{pid}/cwd")]):
        return "edits", name
    return ("tests" if "--test" in words else "proofs"), name


def seconds_of(pid):
    with open(f"/proc/{pid}/stat", encoding="utf-8", errors="replace") as file:
        fields = file.read().rpartition(")")[2].split()
    return (int(fields[11]) + int(fields[12])) / TICKS, int(fields[1])


def is_below(pid, top):
    for _ in range(20):
        if pid == top:
            return True
        if pid <= 1:
            return False
        pid = seconds_of(pid)[1]
    return False


def look(top, found):
    for name in os.listdir("/proc"):
        if not name.isdigit():
            continue
        try:
            pid = int(name)
            kind = kind_of(pid, words_of(pid))
            if kind and is_below(pid, top):
                found[pid, kind] = seconds_of(pid)[0]
        except (OSError, IndexError, ValueError):
            continue


def main():
    if sys.argv[1:] == ["--help"]:
        sys.exit(__doc__.strip())
    command = sys.argv[1:] or ["./ci", "--anew"]
    begun, found = time.monotonic(), {}
    with subprocess.Popen(command, cwd=TOP) as done:
        while done.poll() is None:
            look(done.pid, found)
            time.sleep(0.5)
    spent = resource.getrusage(resource.RUSAGE_CHILDREN)
    whole = (spent.ru_utime + spent.ru_stime) / 60
    kinds, crates = collections.Counter(), collections.defaultdict(collections.Counter)
    for (_, (kind, name)), seconds in found.items():
        kinds[kind] += seconds / 60
        crates[kind][name] += seconds / 60
    print(f"\n`{' '.join(command)}`: {(time.monotonic() - begun) / 60:.0f} minutes on {len(os.sched_getaffinity(0))} processors\n")
    print("| what | processor minutes | the dearest crates |\n|---|---|---|")
    for kind in ("proofs", "tests", "edits"):
        dearest = ", ".join(f"`{name}` {minutes:.1f}" for name, minutes in crates[kind].most_common(6))
        print(f"| {kind} | {kinds[kind]:.0f} | {dearest} |")
    print(f"| the rest: programs and tests as they run, links, reading | {whole - sum(kinds.values()):.0f} | |")
    print(f"| **all** | **{whole:.0f}** | |")
    sys.exit(done.returncode)


if __name__ == "__main__":
    main()
