#!/usr/bin/env python3
"""Ledgers and trees in parts, damaged at random: what each command that reads them prints and leaves, against stress/tree.py.

stress/damaged.py report [SEED [TIMES]]   reports
stress/damaged.py merge [SEED [TIMES]]    merges, and retries of holdouts
stress/damaged.py mend [SEED [TIMES]]     mending, from a file and from standard input; and that a command which cuts a damaged
                                          ledger loses none of the tables that `bb mend` would have brought back
stress/damaged.py parts [SEED [TIMES]]    `join`, `settle` and `split`

Prints how many of each end were compared, and the first that differs, and then ends with 1.
"""
import collections
import os
import random
import re
import shutil
import subprocess
import sys
import tempfile

from kinds import PROGRAM, damaged, none_differs
from oracle import answer, printed, read_table
from tree import HEADER, HEADERS, Board, Loaded, in_version, reported


def answered(run):
    """What standard error says, without the lines that say why in words: these begin with a place."""
    return "".join(line for line in run.stderr.decode().splitlines(True) if not re.match(r"(/[^\n]*|standard input): (?!refused |left |missing|[0-9]+ bytes were cut)", line))


def older(lines):
    """The same ledger in version 1."""
    return [HEADERS[1] + lines[0][len(HEADERS[2]):]] + [in_version(1, line) for line in lines[1:]]


def whole(states):
    """The lines of a ledger of so many states, as a run leaves it."""
    with tempfile.TemporaryDirectory() as folder:
        path = os.path.join(folder, "ledger")
        subprocess.run([PROGRAM, "run", str(states), "--ledger", path], capture_output=True, check=False)
        with open(path, "rb") as file:
            return file.read().split(b"\n")[:-1]


def damage(rng, lines):
    lines = list(lines[:rng.choice([3, 20, 100, len(lines)])])
    for _ in range(rng.choice([0, 1, 1, 2, 3])):
        place = rng.randrange(len(lines)) if rng.random() < 0.9 else 0
        way = rng.randrange(8)
        if way == 0:
            lines.pop(place)
        elif way == 1:
            lines.insert(place, lines[rng.randrange(len(lines))])
        elif way == 2:
            other = rng.randrange(len(lines))
            lines[place], lines[other] = lines[other], lines[place]
        elif way == 3:
            lines[place] = lines[place].split(b" ")[0] + b" U"
        elif way == 4:
            lines.append(lines[place])
        else:
            lines[place] = damaged(rng, lines[place], lines)
        if not lines:
            lines = [b""]
    text = b"".join(line + b"\n" for line in lines)
    return text[:rng.randrange(len(text) + 1)] if rng.random() < 0.2 else text


def cut_off(text, kept):
    """What is kept in FILE.cut where a ledger of this text is cut to what is kept of it: a torn last line isn't."""
    rest = text[len(kept):]
    return rest if b"\n" in rest else None


def taken_cut(path):
    """What FILE.cut of a ledger holds, which is taken away; none where it isn't there."""
    try:
        with open(path + ".cut", "rb") as file:
            held = file.read()
        os.remove(path + ".cut")
        return held
    except FileNotFoundError:
        return None


def play(name, words, usual, once):
    """Compares `usual` times, or as often as the words say, `once(rng, number, folder, counts)`, which answers what differs."""
    seed = int(words[0]) if words else 1
    times = int(words[1]) if len(words) > 1 else usual
    rng = random.Random(seed)
    counts = collections.Counter()
    with tempfile.TemporaryDirectory() as folder:
        for number in range(times):
            differs = once(rng, number, folder, counts)
            if differs:
                print(f"{name}: seed {seed}: {differs}")
                return 1
    return none_differs(counts, f"{name}: {times} of seed {seed}, none differs")


def compare_report(rng, ledgers, folder, counts):
    lines = rng.choice(ledgers)
    text = damage(rng, older(lines) if rng.random() < 0.4 else lines)
    report, fault = reported(text)
    if fault is None:
        counts["too long to judge here"] += 1
        return None
    path = os.path.join(folder, "ledger")
    with open(path, "wb") as file:
        file.write(text)
    run = subprocess.run([PROGRAM, "report", path], capture_output=True, check=False)
    counts[fault.strip() or ("left a line" if "\nleft " in report else "kept whole")] += 1
    if (run.stdout.decode(), answered(run)) == (report or "", fault):
        return None
    return f"{text!r}: {run.stdout.decode()!r}, {answered(run)!r}, and not {report!r}, {fault!r}"


def written(board):
    """The ledger of a board."""
    return HEADER + printed(board.root).encode() + b"\n" + b"".join(line + b"\n" for line in board.lines)


def merged(first, second):
    """The third ledger, what is printed, and the fault; None where that takes too long to say."""
    one = Loaded(first)
    if one.is_too_long:
        return None
    if one.fault:
        return None, "", one.fault
    other = Loaded(second)
    if other.is_too_long:
        return None
    if other.fault:
        return None, "", other.fault
    if other.board.root != one.board.root:
        return None, "", "refused 405\n"
    for line in other.board.lines:
        one.board.take(line)
    shown = list(one.board.shown.values())
    left = one.left if one.left is not None else other.left
    said = f"merged {len(shown)} open {len(one.board.open)} holdouts {shown.count('undecided')}\n"
    return written(one.board), said + ("" if left is None else f"left {left}\n"), ""


def undecided(rng, lines):
    """A ledger of either version, of whose records without children some are given up."""
    share = rng.choice([0, 0.05, 0.3])
    lines = older(lines) if rng.random() < 0.4 else lines
    return [line.split(b" ")[0] + b" U" if b" H " not in line and i > 0 and rng.random() < share else line
            for i, line in enumerate(lines)]


def compare_merge(rng, ledgers, folder, counts):
    lines = rng.choice(ledgers)
    first = damage(rng, undecided(rng, lines))
    second = damage(rng, undecided(rng, lines if rng.random() < 0.9 else rng.choice(ledgers)))
    due = merged(first, second)
    if due is None:
        counts["too long to judge here"] += 1
        return None
    paths = [os.path.join(folder, name) for name in "abc"]
    for path, text in zip(paths, (first, second)):
        with open(path, "wb") as file:
            file.write(text)
    if os.path.exists(paths[2]):
        os.remove(paths[2])
    out = rng.choice(paths)
    run = subprocess.run([PROGRAM, "merge", paths[0], paths[1], out, "--replace"], capture_output=True, check=False)
    text = None
    if due[0] is not None:
        with open(out, "rb") as file:
            text = file.read()
    told = (text, run.stdout.decode(), answered(run))
    counts["merge: " + (due[2].strip() or ("left a line" if "left" in due[1] else "all kept"))] += 1
    return None if told == due else f"merge of {first!r} and {second!r}: {told!r}, and not {due!r}"


def compare_retry(rng, ledgers, folder, counts):
    """Each holdout keeps its line; a line that is added is a record of one of them, and stands."""
    text = damage(rng, undecided(rng, rng.choice(ledgers)))
    board = Loaded(text)
    if board.is_too_long or board.fault:
        return None
    path = os.path.join(folder, "r")
    with open(path, "wb") as file:
        file.write(text)
    holdouts = sorted(t for t, shown in board.board.shown.items() if shown == "undecided")
    kept = board.kept
    run = subprocess.run([PROGRAM, "retry", path, "--far", "3"], capture_output=True, check=False)
    with open(path, "rb") as file:
        after = file.read()
    if not after.startswith(kept):
        return f"retry of {text!r}: the ledger is {after!r}"
    cut = taken_cut(path)
    if cut != cut_off(text, kept):
        return f"retry of {text!r}: {path}.cut is {cut!r}"
    tried = [line.split(b" ")[0].decode() for line in after[len(kept):].split(b"\n")[:-1]]
    if tried != [table for table in holdouts if table in tried]:
        return f"retry of {text!r}: {tried!r} of {holdouts!r}"
    for line in after[len(kept):].split(b"\n")[:-1]:
        if answer(line) is None or board.board.take(line, board.version) is not None:
            return f"retry of {text!r}: {line!r}"
    if (run.stdout.decode(), answered(run)) != (board.board.report(None), ""):
        return f"retry of {text!r}: {run.stdout!r}, {run.stderr!r}"
    counts["retry: " + ("lines added" if tried else "nothing found" if holdouts else "no holdout")] += 1
    return None


def mended(text):
    """The board of what is kept of a damaged ledger's lines, how many aren't taken, and the fault; none where that takes too
    long to say."""
    end = text.find(b"\n")
    header = Loaded(text[:end + 1])
    if header.fault:
        return None, 0, header.fault
    lines = text[end + 1:].split(b"\n")
    if lines[-1] == b"":
        lines.pop()
    whys = [header.board.take(line) for line in lines]
    return None if "too long" in whys else (header.board, len(lines) - whys.count(None), "")


def due_of(text):
    """The ledger that is written, what is printed, the fault and the exit status."""
    found = mended(text)
    if found is None:
        return None
    board, dropped, fault = found
    if fault:
        return None, "", fault, 1
    return written(board), f"mended {len(board.lines)} dropped {dropped}\n", "", 1 if dropped else 0


def compare_mend(rng, text, folder, counts):
    due = due_of(text)
    if due is None:
        counts["too long to judge here"] += 1
        return None
    path, out = os.path.join(folder, "damaged"), os.path.join(folder, "out")
    with open(path, "wb") as file:
        file.write(text)
    if os.path.exists(out):
        os.remove(out)
    is_stream = rng.random() < 0.5
    if not is_stream and rng.random() < 0.3:
        out = path
    run = subprocess.run([PROGRAM, "mend", "-" if is_stream else path, out, "--replace"], input=text if is_stream else None, capture_output=True, check=False)
    held = None
    if due[0] is not None:
        with open(out, "rb") as file:
            held = file.read()
    told = (held, run.stdout.decode(), answered(run), run.returncode)
    counts["mend: " + (due[2].strip() or ("lines dropped" if due[3] else "all taken"))] += 1
    return None if told == due else f"mend of {text!r}: {told!r}, and not {due!r}"


def compare_cut(text, folder, counts):
    """A retry cuts the ledger; what it and FILE.cut hold together comes to no fewer tables than the damaged ledger."""
    before = mended(text)
    if before is None or before[2]:
        return None
    path = os.path.join(folder, "cut")
    with open(path, "wb") as file:
        file.write(text)
    subprocess.run([PROGRAM, "retry", path, "--far", "3"], capture_output=True, check=False)
    with open(path, "rb") as file:
        left = file.read()
    cut = taken_cut(path)
    after = mended(left + (cut or b""))
    if after is None:
        return None
    lost = [table for table, shown in before[0].shown.items() if table not in after[0].shown or (shown != "undecided" and after[0].shown[table] != shown)]
    # A torn last line that reads as a record, but for its newline, is cut as what a killed process hadn't finished.
    torn = text.rpartition(b"\n")[2].split(b" ")[0].decode(errors="replace")
    counts["retry: " + ("kept beside it" if cut else "nothing cut")] += 1
    return None if [table for table in lost if table != torn] == [] else f"retry of {text!r} loses {lost!r}"


FAR = ["--far", "3"]


def rows_of(table):
    return read_table(table if isinstance(table, bytes) else table.encode())


def filled(table):
    return sum(entry is not None for row in rows_of(table) for entry in row)


def extends(table, root):
    """Whether a table has all entries of a root."""
    return all(ours is None or ours == its for mine, other in zip(rows_of(root), rows_of(table)) for ours, its in zip(mine, other))


def cut(rng, lines):
    """A ledger's lines as those of a trunk and of parts, by their roots."""
    limit = rng.randrange(5)
    tables = [line.split(b" ")[0] for line in lines[1:]]
    trunk = Loaded(b"".join(line + b"\n" for line in lines[:1] + [line for line, table in zip(lines[1:], tables) if filled(table) < limit]))
    parts = {root.encode(): [HEADER + root.encode()] for root in sorted(trunk.board.open)}
    for line, table in zip(lines[1:], tables):
        if filled(table) >= limit:
            parts[next(root for root in parts if extends(table, root))].append(line)
    return trunk.kept.split(b"\n")[:-1], parts


def maybe(rng, lines):
    """The text of a ledger, often damaged."""
    lines = older(lines) if rng.random() < 0.2 else lines
    lines = undecided(rng, lines)
    return damage(rng, lines) if rng.random() < 0.3 else b"".join(line + b"\n" for line in lines)


def lay(rng, lines, folder):
    """Writes a trunk and parts into a folder; answers their texts by their names."""
    trunk, parts = cut(rng, lines)
    texts = {"trunk": maybe(rng, trunk)} if rng.random() < 0.5 else {"trunk": b"".join(line + b"\n" for line in trunk)}
    texts |= {root.decode(): maybe(rng, part) for root, part in parts.items() if rng.random() < 0.97}
    if len(parts) > 1 and rng.random() < 0.1:
        one, other = rng.sample(sorted(parts), 2)
        texts[one.decode()] = b"".join(line + b"\n" for line in parts[other])
    shutil.rmtree(folder, ignore_errors=True)
    os.mkdir(folder)
    for name, text in texts.items():
        with open(os.path.join(folder, name + ".ledger"), "wb") as file:
            file.write(text)
    return texts


def joined(texts, folder):
    """The board of all, the faults, and whether all is sound; none where the trunk isn't kept, or it takes too long to say."""
    trunk = Loaded(texts["trunk"])
    if trunk.is_too_long or trunk.fault:
        return None, trunk.fault, trunk.is_too_long
    said = "" if trunk.left is None else f"{folder}/trunk.ledger: left {trunk.left}\n"
    board = Board(trunk.board.root)
    add(board, trunk.board)
    for root in sorted(trunk.board.open):
        wrong = None
        if root not in texts:
            wrong = "missing"
        else:
            part = Loaded(texts[root])
            if part.is_too_long:
                return None, "", True
            if part.fault:
                wrong = part.fault.strip()
            elif printed(part.board.root) != root:
                wrong = "refused 406"
            else:
                board.open.discard(root)
                add(board, part.board)
                wrong = None if part.left is None else f"left {part.left}"
        said += "" if wrong is None else f"{folder}/{root}.ledger: {wrong}\n"
    return board, said, False


def add(board, other):
    board.lines += other.lines
    board.shown |= other.shown
    board.scores |= other.scores
    board.open = (board.open | other.open) - set(board.shown)


def compare_join(texts, folder, counts):
    board, said, is_too_long = joined(texts, folder)
    if is_too_long:
        counts["too long to judge here"] += 1
        return None
    out = os.path.join(folder, "out")
    run = subprocess.run([PROGRAM, "join", folder, "--ledger", out, "--replace"], capture_output=True, check=False)
    told = (run.stdout.decode(), answered(run), run.returncode)
    if board is None:
        due = ("", said, 1)
    else:
        report = board.report(None)
        due = (report, said, 0 if said == "" and "\nstatus complete\n" in report else 1)
    counts["join: " + ("no trunk" if board is None else "something wrong" if said else due[0].split("\n")[1])] += 1
    if told != due:
        return f"join of {texts!r}: {told!r}, and not {due!r}"
    if board is not None:
        with open(out, "rb") as file:
            text = file.read()
        if text != written(board):
            return f"join of {texts!r}: the ledger is {text!r}, and not {written(board)!r}"
    return None


def compare_settle(rng, texts, folder, counts):
    """What is kept stays; then each line is a record of the first open table; then none is open."""
    name = rng.choice(sorted(texts))
    path = os.path.join(folder, name + ".ledger")
    ledger = Loaded(texts[name])
    run = subprocess.run([PROGRAM, "settle", path, *FAR], capture_output=True, check=False)
    if ledger.is_too_long:
        return None
    with open(path, "rb") as file:
        after = file.read()
    told = (run.stdout.decode(), answered(run), run.returncode)
    if ledger.fault:
        counts["settle: refused"] += 1
        return None if (told, after) == (("", ledger.fault, 1), texts[name]) else f"settle of {texts[name]!r}: {told!r}"
    if not after.startswith(ledger.kept):
        return f"settle of {texts[name]!r}: the ledger is {after!r}"
    cut = taken_cut(path)
    if cut != cut_off(texts[name], ledger.kept):
        return f"settle of {texts[name]!r}: {path}.cut is {cut!r}"
    lines = after[len(ledger.kept):].split(b"\n")
    for line in lines[:-1]:
        first = min(ledger.board.open, default="").encode()
        if line.split(b" ")[0] != first or answer(line) is None or ledger.board.take(line, ledger.version) is not None:
            return f"settle of {texts[name]!r}: {line!r} where {first!r} is open"
    shown = list(ledger.board.shown.values())
    said = f"{path}: {len(cut)} bytes were cut off, and are kept in {path}.cut\n" if cut else ""
    due = (f"settled {len(lines) - 1} holdouts {shown.count('undecided')}\n", said, 0)
    counts["settle: lines added" if len(lines) > 1 else "settle: nothing open"] += 1
    texts[name] = after
    return None if told == due and not ledger.board.open and lines[-1] == b"" else f"settle of {texts[name]!r}: {told!r}, and not {due!r}"


def compare_split(rng, states, folder, counts):
    """A trunk in which no open table has fewer entries than is asked for, and a part with a header for each; again, nothing."""
    shutil.rmtree(folder, ignore_errors=True)
    limit = rng.randrange(5)
    words = [PROGRAM, "split", str(states), folder, "--filled", str(limit), *FAR]
    told = [subprocess.run(words, capture_output=True, check=False) for _ in range(2)]
    with open(os.path.join(folder, "trunk.ledger"), "rb") as file:
        trunk = Loaded(file.read())
    names = {f"{root}.ledger" for root in trunk.board.open}
    if trunk.left is not None or any(filled(t) < limit for t in trunk.board.open) or any(filled(t) >= limit for t in trunk.board.shown):
        return f"split {states} at {limit}: the trunk is {trunk.kept!r}"
    if set(os.listdir(folder)) != names | {"trunk.ledger"}:
        return f"split {states} at {limit}: {os.listdir(folder)!r}, and not {names!r}"
    for name in names:
        with open(os.path.join(folder, name), "rb") as file:
            if file.read() != HEADER + name[:-len(".ledger")].encode() + b"\n":
                return f"split {states} at {limit}: {name}"
    due = (f"trunk {len(trunk.board.shown)} parts {len(names)}\n".encode(), b"", 0)
    counts["split"] += 1
    for run in told:
        if (run.stdout, run.stderr, run.returncode) != due:
            return f"split {states} at {limit}: {run.stdout!r}, {run.stderr!r}, and not {due!r}"
    # a table that has a part isn't decided in the trunk
    if names and min(map(filled, trunk.board.open)) < limit + 1:
        words[5] = str(limit + 1)
        run = subprocess.run(words, capture_output=True, check=False)
        if (run.stdout, run.stderr, run.returncode) != (b"", b"refused 407: a table that would be decided in the trunk has a part\n", 1):
            return f"split {states} at {limit} and then {limit + 1}: {run.stdout!r}, {run.stderr!r}"
        counts["split: refused 407"] += 1
    return None


def once_report(rng, ledgers, _number, folder, counts):
    return compare_report(rng, ledgers, folder, counts)


def once_merge(rng, ledgers, _number, folder, counts):
    return compare_merge(rng, ledgers, folder, counts) or compare_retry(rng, ledgers, folder, counts)


def once_mend(rng, ledgers, _number, folder, counts):
    lines = rng.choice(ledgers)
    text = damage(rng, undecided(rng, older(lines) if rng.random() < 0.2 else lines))
    return compare_mend(rng, text, folder, counts) or compare_cut(text, folder, counts)


def once_parts(rng, ledgers, number, top, counts):
    folder = os.path.join(top, "tree")
    texts = lay(rng, rng.choice(ledgers), folder)
    differs = compare_join(texts, folder, counts) or compare_settle(rng, texts, folder, counts) or compare_join(texts, folder, counts)
    if not differs and number % 20 == 0:
        differs = compare_split(rng, rng.choice([1, 2]), folder, counts)
    return differs


# Of each command: how often it is compared if not said, once, and how many lines the largest ledger has.
WAYS = {"report": (1_000, once_report, 400), "merge": (500, once_merge, 300), "mend": (500, once_mend, 300), "parts": (300, once_parts, 300)}


def main():
    way, *words = sys.argv[1:] or ["--help"]
    if way not in WAYS:
        print(__doc__.strip())
        return 0 if way in ("-h", "--help") else 2
    usual, once, lines = WAYS[way]
    ledgers = [whole(1), whole(2), whole(2), whole(3)[:lines]]
    return play(f"damaged: {way}", words, usual, lambda rng, number, folder, counts: once(rng, ledgers, number, folder, counts))


if __name__ == "__main__":
    sys.exit(main())
