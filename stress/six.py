#!/usr/bin/env python3
"""The tree of six states, as far as examples/six has it, read by plain Python beside contrib/six.sh.

stress/six.py [FOLDER]      examples/six where none is named

The trunk has to be the tree of the tables with fewer than six filled entries, without a holdout; the roots are the children of
those that halt with five. Each group has to be the one in `sums`. Of each root the numbers have to add up, and what is named has
to lie below it, in order. Each late record is of a holdout. `six.sh --sum` and `--holdouts` have to print what comes out here, and
holdouts.xz, docs/SIX.md and README have to say the same. Ends with 1 where something differs.
"""
import hashlib
import lzma
import os
import subprocess
import sys

TOP = os.path.dirname(os.path.dirname(os.path.abspath(__file__)))
ROOT = "------_------_------_------_------_------"
GROUPS, NAMES = 242, "ABCDEF"


def entries(table):
    return [row[at:at + 3] for row in table.split("_") for at in (0, 3)]


def is_below(table, root):
    return all(theirs in ("---", own) for own, theirs in zip(entries(table), entries(root)))


def children(table):
    """Of a table that halts: its first free entry is filled. A new state is the first without a name; the very first entry goes right."""
    row, tape, at, state = entries(table), {}, 0, 0
    while row[2 * state + tape.get(at, 0)] != "---":
        symbol, way, target = row[2 * state + tape.get(at, 0)]
        tape[at] = int(symbol)
        at += 1 if way == "R" else -1
        state = NAMES.index(target)
    place = 7 * state + 3 * tape.get(at, 0)
    named = max([0] + [NAMES.index(name) for name in table if name in NAMES])
    return [table[:place] + symbol + way + target + table[place + 3:]
            for symbol in "01" for way in ("R" if table == ROOT else "LR") for target in NAMES[:named + 2]]


class Tree:
    """What is known of the tree: how many tables halt, never halt and are left; most steps and ones, and whose they are."""

    def __init__(self):
        self.counts = {"halting": 0, "never": 0, "holdouts": 0}
        self.most = {"best": (-1, []), "ones": (-1, [])}
        self.left = set()

    def reach(self, name, value, tables):
        """Takes tables with so many steps or ones."""
        value = -1 if value == "none" else int(value)
        if value > self.most[name][0]:
            self.most[name] = (value, [])
        if value == self.most[name][0]:
            self.most[name][1].extend(tables)

    def record(self, line):
        """Takes a record of a table that isn't in it yet."""
        table, kind, *rest = line.split()
        self.counts["halting" if kind in "HL" else "holdouts" if kind == "U" else "never"] += 1
        if kind in "HL":
            self.reach("best", rest[0], [table])
            self.reach("ones", rest[1], [table])

    def walk(self, root, line, named):
        """Takes the walk of a root: `nodes halting never holdouts best ones`, and the lines of what is named."""
        nodes, *counts = map(int, line.split()[:4])
        values = dict(zip(self.most, line.split()[4:]))
        tables = {"holdout": [], "champion": [], "ones_champion": []}
        for word, table in map(str.split, named):
            assert is_below(table, root), f"{table} isn't below {root}"
            tables[word].append(table)
        assert nodes == sum(counts), f"{root}: {line}"
        assert tables["holdout"] == sorted(set(tables["holdout"])) and len(tables["holdout"]) == counts[2], f"holdouts of {root}"
        for name, count in zip(self.counts, counts):
            self.counts[name] += count
        self.reach("best", values["best"], tables["champion"])
        self.reach("ones", values["ones"], tables["ones_champion"])
        self.left.update(tables["holdout"])
        return nodes, counts[2]


def lines_of(path):
    return lzma.open(path, "rt").read().splitlines() if os.path.exists(path) else []


def walks(lines):
    """Each walk's first line, and those behind it."""
    starts = [at for at, line in enumerate(lines) if line[0].isdigit() or line.startswith("below ")] + [len(lines)]
    return [(lines[at], lines[at + 1:end]) for at, end in zip(starts, starts[1:])]


def trunk_of(folder, tree):
    """Takes the trunk; gives the roots, by name."""
    records = {line.split()[0]: line for line in lines_of(f"{folder}/trunk.xz")}
    level, seen = [ROOT], 0
    for _ in range(6):
        seen += len(level)
        for table in level:
            tree.record(records[table])
        level = [child for table in level if records[table].split()[1] == "H" for child in children(table)]
    assert seen == len(records) and tree.counts["holdouts"] == 0, "the trunk isn't that of the tree"
    return sorted(level)


def groups_of(folder, roots, tree):
    """Takes all groups; gives how many there are, and of how many roots."""
    groups = walked = 0
    for line in open(f"{folder}/sums"):
        group, digest, tables, left, _ = line.split()
        lines = lines_of(f"{folder}/{int(group):03}.xz")
        assert hashlib.sha256("".join(line + "\n" for line in lines).encode()).hexdigest() == digest, f"sum of {group}"
        own = roots[1000 * int(group):1000 * int(group) + 1000]
        trees = walks(lines)
        assert len(trees) == len(own), f"group {group} has {len(trees)} roots"
        found = [tree.walk(root, *one) for root, one in zip(own, trees)]
        assert [int(tables), int(left)] == [sum(column) for column in zip(*found)], f"numbers of {group}"
        groups, walked = groups + 1, walked + len(own)
    return groups, walked


def late_of(folder, tree):
    """Takes the records of holdouts, and the trees below those that halt and have more entries open."""
    late = {line.split()[0]: line for line in lines_of(f"{folder}/late.xz")}
    hidden = {table for table, line in late.items() if line.split()[1] in "HL" and table.count("---") > 1}
    for line, named in walks(lines_of(f"{folder}/below.xz")):
        root = line.split()[1]
        hidden.remove(root)
        tree.walk(root, line.split(maxsplit=2)[2], named)
        tree.counts["halting"] -= 1
    assert not hidden, f"not walked: the tree below {hidden}"
    for table, line in late.items():
        tree.left.remove(table)
        tree.counts["holdouts"] -= 1
        tree.record(line)


def report(tree, groups, unwalked):
    status = "working" if unwalked else "holdouts" if tree.left else "complete"
    yield from (f"whole: {groups} of {GROUPS} groups", f"root {ROOT}", f"status {status}")
    yield f"nodes {sum(tree.counts.values()) + unwalked}"
    yield from (f"{name} {count}" for name, count in tree.counts.items())
    yield f"open {unwalked}"
    for name, champion in (("best", "champion"), ("ones", "ones_champion")):
        value, tables = tree.most[name]
        yield f"{name} {value}"
        yield from (f"{champion} {table}" for table in sorted(tables))


def main():
    folder = sys.argv[1] if sys.argv[1:] else f"{TOP}/examples/six"
    tree = Tree()
    roots = trunk_of(folder, tree)
    assert "roots " + hashlib.sha256("".join(root + "\n" for root in roots).encode()).hexdigest() in open(f"{folder}/about").read()
    groups, walked = groups_of(folder, roots, tree)
    late_of(folder, tree)
    assert len(tree.left) == tree.counts["holdouts"]

    def printed(option):
        return subprocess.run([f"{TOP}/contrib/six.sh", folder, option], stdout=subprocess.PIPE, text=True).stdout.splitlines()

    assert printed("--sum") == list(report(tree, groups, len(roots) - walked)), "six.sh adds up to something else"
    assert printed("--holdouts") == sorted(tree.left), "six.sh names other holdouts"
    if folder == f"{TOP}/examples/six":
        assert lines_of(f"{folder}/holdouts.xz") == sorted(tree.left), "holdouts.xz has other tables"
        for page in ("README.md", "docs/SIX.md"):
            text = open(f"{TOP}/{page}").read()
            for value in (sum(tree.counts.values()), len(tree.left), tree.most["best"][0], tree.most["ones"][0]):
                assert f"{value:,}" in text, f"{page} doesn't say {value:,}"
    print(f"six states: {groups} of {GROUPS} groups, {sum(tree.counts.values())} tables, {len(tree.left)} left, as six.sh says")


if __name__ == "__main__":
    main()
