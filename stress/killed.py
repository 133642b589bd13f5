#!/usr/bin/env python3
"""Commands that write a ledger, each ended at random moments, by SIGKILL, SIGTERM and SIGINT in turn, and given again: nothing
that was acknowledged is lost, and no file is left that is neither the old one nor the new one.

stress/killed.py [--turns T] [--states N] [--seed S] [--token] [WAY..]: the ways, all but `listen` where none is named, are

    coord     bb coord over standard input, on records of three states. In half of the turns a line is spoilt first, and the
              coordinator that cuts it is ended too: but for the spoilt table and those below it `bb mend` of the ledger and
              what was cut off it brings all back that was acknowledged
    run       bb run and bb loop of three states in turn: each goes on from the ledger to the same report, and nothing but a torn
              last line was cut
    merge, carry, mend, join
              each writes OUT, in half of the turns over a ledger that it reads: OUT is as it was or as it should be, byte for
              byte, and no other file has changed; given again, it comes to its end
    retry, settle
              a ledger with holdouts, or open tables: its lines are a beginning of those that an undisturbed command leaves. In
              half of the turns a line is spoilt first: then each other line that stood there stands in FILE or in FILE.cut
    listen    T times bb coord --listen of N states (four, if not said), killed twelve times, and three processes of workers, of
              which one is killed every second or so, behind relays that see each ACK (stress/cluster.py); with --token
              they have the same

with T turns each (50; of `listen` once). Where nothing was spoilt, `bb mend` of the ledger that is there in the end drops
nothing. Prints a line for each way, and ends with 1 at the first fault."""
import argparse
import lzma
import os
import random
import shutil
import signal
import subprocess
import sys
import tempfile
import threading
import time

import cluster

TOP = os.path.dirname(os.path.dirname(os.path.abspath(__file__)))
sys.path.insert(0, os.path.join(TOP, "bench"))
from program import PROGRAM as BB  # noqa: E402

EXAMPLES = os.path.join(TOP, "examples")
# How many lines of the ledger of four states the commands on one or two ledgers have before them.
LINES = 20_000
OLD = b"bb-ledger 2 ------_------_------_------\n------_------_------_------ H 1 1\n"
RUN, LOOP = ([BB, word, "3", "--far", "3"] for word in ("run", "loop"))


def fault(text):
    sys.exit(f"killed: {text}")


def held(path):
    with open(path, "rb") as file:
        return file.read()


def put(path, lines):
    with open(path, "wb") as file:
        file.write(b"".join(lines))


def feed(pipe, frames):
    try:
        for frame in frames:
            pipe.write(frame)
        pipe.close()
    except BrokenPipeError:
        pass


def killed(command, seconds, frames=(), **how):
    """What a command that is ended so soon has answered until then, whole lines only, and whether it was still running."""
    program = subprocess.Popen(command, stdin=subprocess.PIPE, stdout=subprocess.PIPE, stderr=subprocess.DEVNULL, **how)
    answers = []
    feeder = threading.Thread(target=feed, args=(program.stdin, frames), daemon=True)
    reader = threading.Thread(target=lambda: answers.append(program.stdout.read()), daemon=True)
    feeder.start()
    reader.start()
    time.sleep(seconds)
    running = program.poll() is None
    program.send_signal(next(cluster.ENDS))
    program.wait()
    reader.join()
    feeder.join()
    return [line for line in answers[0].splitlines(True) if line.endswith(b"\n")], running


def moment(chance, whole):
    """When a command that takes so many seconds is ended: in half of the cases near its end, where files change places."""
    return chance.uniform(chance.choice((0, 0.8 * whole)), 1.1 * whole)


def undisturbed(command, folder, given=b""):
    """What a command prints and how it ends, and the seconds that it takes."""
    begun = time.perf_counter()
    done = subprocess.run(command, input=given, capture_output=True, cwd=folder, check=False)
    if done.returncode not in (0, 1):
        fault(f"{command}: {done.returncode}, {done.stderr!r}")
    return (done.returncode, done.stdout, done.stderr), time.perf_counter() - begun


def mends_to_itself(path):
    """Whether `bb mend` of a ledger drops nothing, and finds nothing but what stands there."""
    out = path + ".mended"
    done = subprocess.run([BB, "mend", path, out, "--replace"], capture_output=True, check=False)
    tables = {line.split(b" ")[0] for line in held(path).splitlines()[1:]}
    if done.returncode != 0 or done.stdout != b"mended %d dropped 0\n" % len(tables) or {line.split(b" ")[0] for line in held(out).splitlines()[1:]} != tables:
        fault(f"mend of {path}: {done.returncode}, {done.stdout!r}")
    os.remove(out)


def four_states():
    with lzma.open(os.path.join(EXAMPLES, "four-states.ledger.xz"), "rb") as file:
        return [next(file) for _ in range(2 * LINES)]


def spoilt(path, chance):
    """Spoils a line of a ledger; answers its table, or none where there is no line."""
    lines = held(path).split(b"\n")
    if len(lines) < 3:
        return None
    place = chance.randrange(1, len(lines) - 1)
    lines[place] += b"\r"
    put(path, [b"\n".join(lines)])
    return lines[place].split(b" ")[0]


def is_below(table, other):
    """Whether a table has all entries of another: it may hang on it."""
    return all(ours in (its, ord("-")) for ours, its in zip(other, table))


def tables_of(text):
    return {line.split(b" ")[0] for line in text.splitlines()[1:]}


def mended(ledger, folder, chance):
    """The tables that come back of a ledger and what was cut off it, where the first mending is ended too."""
    text = b"".join(held(path) for path in (ledger, ledger + ".cut") if os.path.exists(path))
    out = os.path.join(folder, "mended")
    killed([BB, "mend", "-", out, "--replace"], chance.uniform(0, 0.01), [text])
    subprocess.run([BB, "mend", "-", out, "--replace"], input=text, capture_output=True, check=False)
    return tables_of(held(out))


def coord(turns, chance, folder):
    with open(os.path.join(EXAMPLES, "three-states.ledger"), "rb") as file:
        frames = [b"REC " + record for record in list(file)[1:]]
    ledger = os.path.join(folder, "ledger")
    command = [BB, "coord", "3", "--ledger", ledger]
    acknowledged, cut_short, brought_back = 0, 0, 0
    _, whole = undisturbed(command, folder, b"".join(frames))
    for _ in range(turns):
        if os.path.exists(ledger) and chance.random() < 0.5:
            os.remove(ledger)
        if os.path.exists(ledger + ".cut"):
            os.remove(ledger + ".cut")
        answers, running = killed(command, moment(chance, whole), frames)
        cut_short += running
        table = spoilt(ledger, chance) if os.path.exists(ledger) and chance.random() < 0.5 else None
        if table is not None:
            killed(command, chance.uniform(0, 0.004))
        undisturbed(command, folder)
        recorded = tables_of(held(ledger)) if table is None else mended(ledger, folder, chance)
        told = {answer.split()[1] for answer in answers if answer.startswith(b"ACK ")}
        if table is not None:
            told = {it for it in told if not is_below(it, table)}
            brought_back += len(told)
        acknowledged += len(told)
        if told - recorded:
            fault(f"coord: {len(told - recorded)} tables were acknowledged and are lost, as {min(told - recorded).decode()}")
    return f"{cut_short} before their input ended; {acknowledged} acknowledged tables, none lost, {brought_back} of them once the ledger was spoilt, cut and mended"


def run(turns, chance, folder):
    ledger = os.path.join(folder, "ledger")
    (_, expected, _), whole = undisturbed(RUN, folder)
    cut_short = 0
    for turn in range(turns):
        if os.path.exists(ledger):
            os.remove(ledger)
        words = ["--ledger", ledger]
        cut_short += killed([RUN, LOOP][turn % 2] + words, moment(chance, whole))[1]
        (_, report, _), _ = undisturbed([RUN, LOOP][turn // 2 % 2] + words, folder)
        if report != expected or os.path.exists(ledger + ".cut"):
            fault(f"run: gone on with it reports {report!r}, or cut more than a torn line")
        mends_to_itself(ledger)
    return f"{cut_short} before they had ended; the same report each time"


def unverdicted(lines, every):
    """Lines of which each so many-th record, of a table that never halts, has no verdict."""
    words = [line.split(b" ") for line in lines]
    return [b"%s U\n" % word[0] if place % every == 0 and word[1] not in (b"H", b"L", b"2") else line for place, (word, line) in enumerate(zip(words, lines))]


def written(turns, chance, folder, command, over):
    """Kills a command that writes the file `out`, or one of those that it reads, and compares all files with what stood there."""
    kept = os.path.join(folder, "kept")
    shutil.copytree(folder, kept, ignore=shutil.ignore_patterns("kept"))
    files = [os.path.relpath(os.path.join(at, name), kept) for at, _, names in os.walk(kept) for name in names]
    cut_short, left = 0, {"old": 0, "new": 0}
    for turn in range(turns):
        out = over if over and turn % 2 else "out"
        words = [out if word == "OUT" else word for word in command]
        for name in files:
            shutil.copyfile(os.path.join(kept, name), os.path.join(folder, name))
        put(os.path.join(folder, "out"), [OLD])
        told, whole = undisturbed(words, folder)
        new = held(os.path.join(folder, out))
        if out == over:
            shutil.copyfile(os.path.join(kept, over), os.path.join(folder, over))
        put(os.path.join(folder, "out"), [OLD])
        old = held(os.path.join(folder, out))
        cut_short += killed(words, moment(chance, whole), cwd=folder)[1]
        now = held(os.path.join(folder, out))
        if now not in (old, new):
            fault(f"{words}: OUT is neither what it was nor what it should be, after turn {turn}")
        left["old" if now == old else "new"] += 1
        changed = [name for name in files if name != out and held(os.path.join(folder, name)) != held(os.path.join(kept, name))]
        if changed:
            fault(f"{words}: {changed} changed")
        if now == new and out == over:
            shutil.copyfile(os.path.join(kept, over), os.path.join(folder, over))
        if undisturbed(words, folder)[0] != told or held(os.path.join(folder, out)) != new:
            fault(f"{words}: given again it comes to something else")
        if os.path.exists(os.path.join(folder, out + ".new")):
            fault(f"{words}: the file beside OUT is left")
        mends_to_itself(os.path.join(folder, out))
    return f"{cut_short} before they had ended; OUT as it was {left['old']} times, else as it should be"


def merge(turns, chance, folder):
    lines = four_states()
    put(os.path.join(folder, "a"), unverdicted(lines[:LINES], 50))
    put(os.path.join(folder, "b"), unverdicted(lines, 70))
    return written(turns, chance, folder, [BB, "merge", "a", "b", "OUT", "--replace"], "a")


def carry(turns, chance, folder):
    lines = [b" ".join(line.split(b" ")[:3]) + b"\n" if b" H " in line else line for line in four_states()[:LINES]]
    put(os.path.join(folder, "a"), [lines[0].replace(b"bb-ledger 2", b"bb-ledger 1"), *lines[1:]])
    return written(turns, chance, folder, [BB, "carry", "a", "OUT", "--replace"], "a")


def mend(turns, chance, folder):
    lines = [line[:-1] + b"\r\n" if place and place % 1_000 == 0 else line for place, line in enumerate(four_states()[:LINES])]
    put(os.path.join(folder, "a"), lines)
    return written(turns, chance, folder, [BB, "mend", "a", "OUT", "--replace"], "a")


def join(turns, chance, folder):
    undisturbed([BB, "split", "3", "parts", "--filled", "3", "--far", "3"], folder)
    for name in os.listdir(os.path.join(folder, "parts")):
        undisturbed([BB, "settle", os.path.join("parts", name), "--far", "3"], folder)
    return written(turns, chance, folder, [BB, "join", "parts", "--ledger", "OUT", "--replace"], None)


def appended(turns, chance, folder, command, lines):
    """Kills a command that goes on with the ledger `a`, which has these lines."""
    path = os.path.join(folder, "a")
    put(path, lines)
    told, whole = undisturbed(command, folder)
    due = held(path).splitlines(True)
    mends_to_itself(path)
    cut_short, added = 0, 0
    for turn in range(turns):
        put(path, lines)
        if os.path.exists(path + ".cut"):
            os.remove(path + ".cut")
        table = spoilt(path, chance) if turn % 2 else None
        cut_short += killed(command, moment(chance, whole), cwd=folder)[1]
        now = held(path).splitlines(True)
        added += max(0, len(now) - len(lines))
        if table is None and (now[:-1] != due[: len(now) - 1] or not due[len(now) - 1].startswith(now[-1]) or len(now) < len(lines)):
            fault(f"{command}: the ledger is no beginning of what it should be")
        for _ in range(2):
            stands = {*now, *(held(path + ".cut").splitlines(True) if os.path.exists(path + ".cut") else [])}
            lost = [line for line in lines[1:] if line not in stands and line.split(b" ")[0] != table]
            if lost:
                fault(f"{command}: {len(lost)} lines are lost, as {lost[0]!r}")
            ended, _ = undisturbed(command, folder)
            now = held(path).splitlines(True)
        if table is None and (ended[1].splitlines()[-1], now) != (told[1].replace(b"settled %d" % (len(due) - len(lines)), b"settled 0").splitlines()[-1], due):
            fault(f"{command}: gone on with it comes to something else")
        if table is None:
            mends_to_itself(path)
    return f"{cut_short} before they had ended, when they had added {added} lines; nothing lost"


def retry(turns, chance, folder):
    return appended(turns, chance, folder, [BB, "retry", "a", "--hard"], unverdicted(four_states()[:LINES], 20))


def settle(turns, chance, folder):
    return appended(turns, chance, folder, [BB, "settle", "a", "--hard"], [b"bb-ledger 2 1RB---_1LC0LA_------_------\n"])


def listen(turns, chance, folder, states):
    expected = subprocess.run([BB, "run", str(states), "--hard"], stdout=subprocess.PIPE, check=True).stdout
    kills, workers, tables = 0, 0, 0
    for _ in range(turns):
        for name in os.listdir(folder):
            os.remove(os.path.join(folder, name))
        once, of_workers, acknowledged = cluster.killed_coordinator(states, expected, folder, chance, 12, 1.0)
        kills, workers, tables = kills + once, workers + of_workers, tables + acknowledged
        mends_to_itself(os.path.join(folder, "coordinator.ledger"))
    return f"{kills} kills of the coordinator and {workers} of workers in {turns} trees; {tables} acknowledged tables, none lost"


def main():
    parser = argparse.ArgumentParser()
    parser.add_argument("--turns", type=int)
    parser.add_argument("--states", type=int, default=4)
    parser.add_argument("--seed", type=int, default=1)
    parser.add_argument("--token", action="store_true", help="coordinators and workers share a token")
    parser.add_argument("ways", nargs="*")
    asked = parser.parse_args()
    if asked.token:
        cluster.share_token()
    # What is begun in the background by a shell ignores it, and so would all that is begun here.
    signal.signal(signal.SIGINT, signal.default_int_handler)
    ways = {way.__name__: way for way in (coord, run, merge, carry, mend, join, retry, settle)}
    for way in asked.ways or ways:
        chance = random.Random(asked.seed)
        with tempfile.TemporaryDirectory() as folder:
            if way == "listen":
                print(f"listen: {listen(asked.turns or 1, chance, folder, asked.states)}", flush=True)
            else:
                turns = asked.turns or 50
                print(f"{way}: ended {turns} times, {ways[way](turns, chance, folder)}", flush=True)
    return 0


if __name__ == "__main__":
    sys.exit(main())
