#!/usr/bin/env python3
"""Makes a Coq file of a small ledger, in which S(n) and Σ(n) are a theorem of Coq's kernel: no program outside Coq is trusted then.

    kernel.py N BEST ONES < LEDGER > Small.v && coqc Small.v     (in this folder, after make)

The ledger is that of the whole tree of N states, of the kinds H, C, T, B, F and N. Two states take seconds, three some minutes;
four are too many. Ends with 1 where a record is of another kind."""
import sys

SIDES = {"L": "Left", "R": "Right"}
SYMBOLS = {"0": "Blank", "1": "One"}

FILE = """Require Import Answers.
From Coq Require Import String.

Definition records : list (string * Certificate) := [
{records}].

Definition ledger : list (Table * Certificate) := Eval vm_compute in map (fun r => (table_of (fst r), snd r)) records.

Definition look : Ledger := fun t =>
  match find (fun r => if table_eq_dec t (fst r) then true else false) ledger with None => None | Some r => Some (snd r) end.

Theorem answer : is_S {n} {best} /\\ is_Sigma {n} {ones}.
Proof.
  assert (h : let a := judge [] {n} look (fun _ _ => None) (@map Table Tally) in
    open a = [] /\\ refused a = [] /\\ N.to_nat (best a) = {best} /\\ N.to_nat (ones_best a) = {ones})
    by (vm_compute; repeat split).
  destruct h as (ho & hr & <- & <-). apply tree_answer; [lia|easy|easy|easy].
Qed.

Print Assumptions answer.
"""


def node(states, number):
    """A state of the second automaton, as Coq has it."""
    return f"({number // states + 1}%positive, {number % states})"


def nodes(states, halt, bits):
    return "[" + "; ".join(node(states, k) for k in range(halt) if bits >> k & 1) + "]"


def edges(states, halt, bits):
    """The edges of a set; none listed where it has the halt state."""
    return "None" if bits >> halt & 1 else f"Some {nodes(states, halt, bits)}"


def reduced(states, side, m, delta, rows, keep):
    """The certificate of a record of the kind F."""
    halt, sets = int(m) * states, [int(row, 16) for row in rows.split(",")]
    readers = []
    for q in range(int(m)):
        pairs = [sets[2 * k : 2 * k + 2] for k in range(q * states, (q + 1) * states)]
        by_state = "; ".join(f"({edges(states, halt, blank)}, {edges(states, halt, one)})" for blank, one in pairs)
        goes = [int(delta[2 * q + s], 16) + 1 for s in (0, 1)]
        readers.append(f"reader {goes[0]} {goes[1]} [{by_state}]")
    return f"Reduced {SIDES[side]} [{'; '.join(readers)}] {nodes(states, halt, int(keep, 16))}"


def word(text):
    return "[" + "; ".join(SYMBOLS[symbol] for symbol in text) + "]"


def closed(g, left, right, locals_):
    """The certificate of a record of the kind N: words on the left from the head outwards, as all words."""
    g, some = int(g), []
    for text in locals_.split(","):
        some.append(f"local {word(text[g - 1 :: -1])} {ord(text[g]) - 65} {SYMBOLS[text[g + 1]]} {word(text[g + 2 :])}")
    lefts = "; ".join(word(text[::-1]) for text in left.split(","))
    rights = "; ".join(word(text) for text in right.split(","))
    return f"Closed {g} [{lefts}] [{rights}] [{'; '.join(some)}]"


def certificate(states, kind, *fields):
    if kind == "H":
        return f"Halts {fields[0]} (Some {fields[1]}%N)"
    if kind == "C":
        return f"Cycles {fields[0]} {fields[1]}"
    if kind == "T":
        return f"Translated {fields[0]} {fields[1]} {SIDES[fields[2]]}"
    if kind == "B":
        return f"Backwards {fields[0]}"
    if kind == "F":
        return reduced(states, *fields)
    if kind == "N":
        return closed(*fields)
    sys.exit(f"kernel: a record of the kind {kind}")


def main():
    n, best, ones = sys.argv[1:]
    lines = [line.split() for line in sys.stdin if not line.startswith("bb-ledger")]
    records = ";\n".join(f'  ("{table}"%string, {certificate(int(n), *rest)})' for table, *rest in lines)
    print(FILE.format(records=records, n=n, best=best, ones=ones))


if __name__ == "__main__":
    main()
