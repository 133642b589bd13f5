#!/usr/bin/env python3
"""Records of kind `R`, rules with induction, in people's notation, written anew from what docs/FORMATS.md says of them.

stress/notation.py print < RECORDS           prints for each record what `bb explain` has to print
stress/notation.py compare RECORDS [PROGRAM ..]
                                             what the program prints, `bb explain` where none is named, has to be the same
stress/notation.py back RECORDS [PROGRAM ..] has contrib/rules make records of what is printed, and the program, `bb check` where
                                             none is named, judge them: says how many stand

The records have to be ones that stand.
"""
import os
import subprocess
import sys

import forms

TOP = os.path.dirname(os.path.dirname(os.path.abspath(__file__)))
VARIABLES = "nmkj"

OPENING = (
    "Rules with induction: from the first form of a line the run comes to the second one, whatever n, m, k and j are.\n")


def exponent(times):
    terms = [("" if factor == 1 else str(factor)) + letter for letter, factor in zip(VARIABLES, times[1:]) if factor]
    return "+".join(terms + ([str(times[0])] if times[0] or not terms else []))


def power(times):
    text = exponent(times)
    return text if text.isdigit() or len(text) == 1 else f"({text})"


def half(blocks):
    text, joins = "", False
    for word, times in blocks:
        once = times == forms.ONCE
        text += ("" if once and joins else " ") + (word if once else f"({word})^{power(times)}")
        joins = once
    return text


def tape(ends, form):
    left, state, side, right = form
    head = "<" + chr(65 + state) if side == b"<" else chr(65 + state) + ">"
    left = half([(word.decode()[::-1], times) for word, times in reversed(left)])
    right = half([(word.decode(), times) for word, times in right])
    edges = ["*" if end == ord("o") else "$" for end in ends]
    return f"{edges[0]}{left} {head}{right} {edges[1]}"


def shortened(exponents):
    """Exponents up to the last one that isn't 0, and the first one always."""
    last = max([k for k, times in enumerate(exponents) if times != forms.NEVER], default=0)
    return exponents[:last + 1]


def proof(script):
    words, steps = [], 0
    for kind, *parts in script + [("end",)]:
        if kind == "steps":
            steps += parts[0]
        elif kind != "change":
            words += [str(steps)] if steps else []
            steps = 0
            if kind == "turn":
                words.append("t")
            if kind in ("use", "together"):
                number, exponents = parts
                itself = number is None and all(times == forms.NEVER for times in exponents[1:])
                given = "" if itself else "(" + ",".join(map(exponent, shortened(exponents))) + ")"
                words.append(("ih" if number is None else f"x{number}") + given)
    return "".join(" " + word for word in words)


def rule_line(number, rule):
    ends, first, second, scripts = rule
    proofs = proof(scripts[0]) if len(scripts) == 1 else f" induct n :{proof(scripts[0])} |{proof(scripts[1])}"
    return f"x{number} : {tape(ends, first)} -> {tape(ends, second)} :{proofs}\n"


def lines_of(line):
    """The lines of rules and of the family, and what stands for the variables at first with how the run comes there."""
    table, _, rules, family, first, begin, next_, loop = line.split(b" ")
    states = table.count(b"_") + 1
    # rules that are proved together with the one above have `&` before them
    groups = [] if rules == b"-" else [group.split(b"&") for group in rules.split(b";")]
    rules = [("& " if k else "", forms.rule_of(text, states)) for group in groups for k, text in enumerate(group)]
    family = forms.form_of(family, states)
    first, next_ = (forms.exponents_of(text.split(b"."), 4) for text in (first, next_))
    begin, loop = forms.script_of(begin), forms.script_of(loop)
    told = "".join(joined + rule_line(number, rule) for number, (joined, rule) in enumerate(rules))
    told += f"H : {tape(b'bb', family)} -> {tape(b'bb', forms.form_by(family, next_))} :{proof(loop)}\n"
    values = "".join(f" {letter}={exponent(times)}" for k, (letter, times) in enumerate(zip(VARIABLES, first))
                     if k == 0 or times != forms.NEVER)
    return table.decode(), told, values, proof(begin)


def explained(line):
    table, told, values, begin = lines_of(line)
    return (f"{table} never\n{OPENING}{told}From the blank tape the run comes to the first form of H with{values}:{begin}\n"
            "So it comes to forms of H again and again, and never halts.\n\n")


def compare(lines, command):
    given = subprocess.run(command, input=b"\n".join(lines) + b"\n", capture_output=True).stdout.decode()
    wanted = [explained(line) for line in lines]
    got = [part + "\n\n" for part in given.split("\n\n")[:-1]]
    wrong = sum(one != other for one, other in zip(got, wanted)) + abs(len(got) - len(wanted))
    print(f"notation: {len(lines)} records, {wrong} differ")
    return 1 if wrong else 0


def back(lines, command):
    stand = 0
    for line in lines:
        table, told, values, _ = lines_of(line)
        text = f"{table}\n{told.rstrip()} :{values}\n"
        made = subprocess.run([os.path.join(TOP, "contrib", "rules"), "-"], input=text.encode(), capture_output=True)
        judged = subprocess.run(command, input=made.stdout, capture_output=True) if made.stdout else made
        stand += judged.stdout == table.encode() + b" never\n"
    print(f"notation: of {len(lines)} records {stand} made again stand")
    return 0


def main(words):
    if words[:1] == ["print"]:
        for line in sys.stdin.buffer.read().splitlines():
            sys.stdout.write(explained(line))
        return 0
    if words[:1] in (["compare"], ["back"]) and len(words) > 1:
        with open(words[1], "rb") as file:
            lines = file.read().splitlines()
        does, name = (compare, "explain") if words[0] == "compare" else (back, "check")
        return does(lines, words[2:] or [os.path.join(TOP, "bb"), name])
    sys.exit(__doc__)


if __name__ == "__main__":
    sys.exit(main(sys.argv[1:]))
