#!/usr/bin/env python3
"""The tree of six states, by a sample: bench/six.py [COUNT [SEED ..]] draws tables with weights (bench/sample_six.rs), COUNT or
more for each seed (1,000,000, and the seeds 1 to 5, if not said), gives them to `bb decide --hard`, and prints a row for each
seed: how large the tree is by that, how many tables of a million there are of each kind, what is left, microseconds and bytes a
table (docs/SIX.md sums them up). Each record is judged again, by `bb check` and by the judge of judge/ (which needs ocamlfind).
What is left goes to FILE where LEFT=FILE is in the environment, with weights.
"""
import collections
import os
import sys
import tempfile

from measured import built, judge, run
from program import PROGRAM, TOP

KINDS = "HCTBFAWRU"


def drawn(sampler, seed, count):
    """Tables, each with its weight."""
    lines = run([sampler, str(seed), str(count)])[1].split(b"\n")[:-1]
    return [(table, float(weight)) for table, weight in (line.split(b" ") for line in lines)]


def is_accepted(answers, records):
    """Whether each record is accepted, that of a holdout as undecided."""
    pairs = zip(answers.split(b"\n")[:-1], records, strict=True)
    return all(answer.split(b" ")[1] == (b"undecided" if record.endswith(b" U") else b"halts" if b" H " in record else b"never")
               for answer, record in pairs)


def of_seed(sampler, other, seed, count):
    """Prints the row of a seed; the tables that are left, with their weights."""
    sample = drawn(sampler, seed, count)
    tables = b"".join(table + b"\n" for table, _ in sample)
    seconds, out = run([PROGRAM, "decide", "--hard"], tables)
    records = out.split(b"\n")[:-1]
    if not all(is_accepted(run([program, "check"], out)[1], records) for program in (PROGRAM, other)):
        sys.exit("a record isn't accepted")
    whole = sum(weight for _, weight in sample)
    shares, size, left = collections.Counter(), 0.0, []
    for (table, weight), record in zip(sample, records, strict=True):
        kind = record.split(b" ")[1].decode()
        shares[kind] += weight
        size += weight * (len(record) + 1)
        if kind == "U":
            left.append((table.decode(), weight))
    per_million = " | ".join(f"{1e6 * shares[kind] / whole:,.1f}" if shares[kind] < whole / 1000 else f"{1e6 * shares[kind] / whole:,.0f}" for kind in KINDS)
    print(f"| {seed} | {len(sample):,} | {whole / 1e10:.2f}·10^10 | {per_million} | {1e6 * seconds / len(sample):.1f} | {size / whole:.1f} |", flush=True)
    return left, whole


def main():
    count = int(sys.argv[1]) if len(sys.argv) > 1 else 1_000_000
    seeds = [int(word) for word in sys.argv[2:]] or range(1, 6)
    with tempfile.TemporaryDirectory() as folder:
        sampler, other = built(folder, "sample_six"), judge(folder)
        print("| seed | tables | the tree | " + " | ".join(f"`{kind}`" for kind in KINDS) + " | microseconds | bytes |")
        print("|" + "---|" * (5 + len(KINDS)))
        found = [of_seed(sampler, other, seed, count) for seed in seeds]
    sizes = [whole for _, whole in found]
    mean = sum(sizes) / len(sizes)
    spread = (sum((size - mean) ** 2 for size in sizes) / max(1, len(sizes) - 1)) ** 0.5
    holdouts = [sum(weight for _, weight in left) for left, _ in found]
    print(f"the tree: {mean / 1e10:.2f}·10^10, {spread / 1e10:.2f}·10^10 from seed to seed; holdouts: {sum(holdouts) / len(holdouts):,.0f}")
    if "LEFT" in os.environ:
        with open(os.environ["LEFT"], "w", encoding="utf-8") as file:
            file.writelines(f"{table} {weight:g}\n" for left, _ in found for table, weight in left)


if __name__ == "__main__":
    main()
