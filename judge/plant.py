#!/usr/bin/env python3
"""Plants bugs in a copy of the definitions and the checkers, one at a time, and says which proof refuses each: judge/plant.py.
Ends with 1 where one isn't refused. It takes some minutes."""
import os
import re
import shutil
import subprocess
import sys
import tempfile

HERE = os.path.dirname(os.path.abspath(__file__))

# what is wrong then; the file; what stands there, and what is put in its place
BUGS = (
    ("the halting step isn't counted", "BusyBeaver.v", "k = S before.", "k = before."),
    ("left is right", "BusyBeaver.v", "Left => x - 1 | Right => x + 1", "Left => x + 1 | Right => x - 1"),
    ("the halting step writes nothing", "BusyBeaver.v", "(with_symbol (tape last) (head last) One)", "(tape last)"),
    ("a one may be counted twice", "BusyBeaver.v", "holds_ones s (with_symbol t x Blank)", "holds_ones s t"),
    ("the greatest is more than all", "BusyBeaver.v", "has m k -> k <= s)", "has m k -> k < s)"),
    ("no child goes to a new state", "Tree.v", "(min n (S (used t)))", "(min n (used t))"),
    ("every first unfilled move is to the right", "Tree.v", "(if is_blank t then [Right] else [Left; Right]))\n", "[Right])\n"),
    ("a cycle may have no step", "Cycler.v", "(i <? j)%N && ", ""),
    ("cells to the left of the start aren't compared", "Cycler.v", "Some (watched z 0 (S (depth w)))", "Some (watched z 0 (depth w))"),
    ("nothing leads back to a cell that isn't known", "Backward.v", "| [] => Some (zipper (fst p) [] (snd p) (here y :: right y))", "| [] => None"),
    ("a move to the left is tried with a blank alone", "Automata.v", "leads_back (q, next a) b (write a) l\n      end) [Blank; One]", "leads_back (q, next a) b (write a) l\n      end) [Blank]"),
    ("one symbol alone comes into view", "Ngram.v", "cs else true) [Blank; One]\n    | Left", "cs else true) [Blank]\n    | Left"),
    ("what is taken off isn't counted", "Counted.v", "(counted (counted (base c) 1 more) (-1) fewer)", "(counted (base c) 1 more)"),
    ("counts of the right automaton are forgotten", "Counted.v", "negb (has_bit (uses_of lu (on_left p)) x || has_bit (uses_of ru (on_right p)) x)", "negb (has_bit (uses_of lu (on_left p)) x)"),
    ("an elimination drops a row", "Cosets.v", "if (coordinate x w =? 0)%Z then eliminate x l (Some v) (w :: rest) else None", "if (coordinate x w =? 0)%Z then eliminate x l (Some v) rest else None"),
    ("a rule that is being proved is used for a + 1", "Rules.v", "| Some r => applied lo ro r (exponents var_a b c d) f end", "| Some r => applied lo ro r (exponents (exponent 1 1 0 0 0) b c d) f end"),
    ("a rule of its group is used for a + 1", "Rules.v", "| Some r => applied lo ro r (exponents var_a b c d) f\n", "| Some r => applied lo ro r (exponents (exponent 1 1 0 0 0) b c d) f\n"),
    ("a rule of the group is used where a is 0", "Rules.v", "leads_to rules [] None lo ro s (with_a (from r) none)", "leads_to rules group None lo ro s (with_a (from r) none)"),
    ("a loop may have no step", "Rules.v", " && has_step loop)", ")"),
    ("a rule for a blank end is used where more stands", "Rules.v", "match is_open, rest with false, [] => Some new", "match is_open, rest with false, _ => Some new"),
    ("a word may be rolled over any other", "Forms.v", "| Roll u w v e => if list_eq_dec symbol_eq_dec (u ++ w) (v ++ u)", "| Roll u w v e => if list_eq_dec symbol_eq_dec (u ++ w) (u ++ w)"),
    ("a machine that goes on is said to halt", "Judge.v", "      | Some _ => Nothing\n", "      | Some _ => Halting k 0 (at_state z) (here z)\n"),
    ("a record that doesn't stand says never", "Judge.v", "| Nothing => sum a (refused_one t)", "| Nothing => sum a never_one"),
    ("the lesser of two numbers is kept", "Judge.v", "Lt => (k, l') | Eq => (j, rev_append l' l) | Gt => (j, l)", "Lt => (j, l) | Eq => (j, rev_append l' l) | Gt => (k, l')"),
    ("open tables of the parts are forgotten", "Judge.v", "fold_left sum parts (closed trunk)", "fold_left sum (map closed parts) (closed trunk)"),
)


def refusal(folder, name, path):
    """Where Coq refuses a file: the last lemma or theorem that begins before that place; none where it is accepted."""
    done = subprocess.run(["make", "proved"], cwd=folder, capture_output=True, text=True, check=False)
    found = re.search(r'File "\./(\w+\.v)", line (\d+)', done.stderr)
    if done.returncode == 0 or not found:
        return None
    with open(os.path.join(folder, found[1]), encoding="utf-8") as file:
        before = "".join(file.readlines()[: int(found[2])])
    lemmas = re.findall(r"^(?:Lemma|Theorem|Definition|Fixpoint) (\w+)", before, re.MULTILINE)
    return f"{lemmas[-1]} ({found[1]})"


def main():
    missed = 0
    with tempfile.TemporaryDirectory() as scratch:
        proved, tried = os.path.join(scratch, "proved"), os.path.join(scratch, "tried")
        shutil.copytree(HERE, proved)
        subprocess.run(["make", "-s", "proved"], cwd=proved, capture_output=True, check=True)
        for what, name, old, new in BUGS:
            shutil.rmtree(tried, ignore_errors=True)
            shutil.copytree(proved, tried)
            path = os.path.join(tried, name)
            with open(path, encoding="utf-8") as file:
                text = file.read()
            if text.count(old) != 1:
                sys.exit(f"plant: {name} has {text.count(old)} times: {old}")
            with open(path, "w", encoding="utf-8") as file:
                file.write(text.replace(old, new))
            by = refusal(tried, name, path)
            missed += by is None
            print(f"| {what} | `{name}` | {by or 'NOT REFUSED'} |", flush=True)
    print(f"plant: {len(BUGS)} bugs, {missed} not refused")
    return 1 if missed else 0


if __name__ == "__main__":
    sys.exit(main())
