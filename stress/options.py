#!/usr/bin/env python3
"""Each option of each command, as the program's help names it: what is no value of it is refused, and what is one is taken.

stress/options.py PROGRAM: prints how many forms were tried, and ends with 1 at the first that is answered otherwise. A number is
tried at the ends of its range, and beyond them; each option without a value, twice, and by a name that there isn't.
"""
import os
import re
import subprocess
import sys
import tempfile

TOP = os.path.dirname(os.path.dirname(os.path.abspath(__file__)))
sys.path.insert(0, os.path.join(TOP, "packaging"))
from help import GIVEN, commands  # noqa: E402

LEDGER = b"bb-ledger 2 ------\n------ H 1 1\n0RA--- T 0 1 R\n1RA--- T 0 1 R\n"
PARTS = {"trunk": LEDGER[:LEDGER.index(b"0")], "0RA---": b"bb-ledger 2 0RA---\n0RA--- T 0 1 R\n", "1RA---": b"bb-ledger 2 1RA---\n1RA--- T 0 1 R\n"}
# What a command is given beside its options.
WORDS = {"walk": ["1"], "run": ["1"], "loop": ["1"], "coord": ["1"], "split": ["1", "new"], "join": ["parts"], "merge": ["l", "l", "new"]}
WORDS.update({name: ["l"] for name in ("report", "page", "look", "retry", "settle")})
WORDS.update({name: ["l", "new"] for name in ("carry", "mend")})
# What an option's value is, where it is no number: an address is one at which nobody can listen.
TEXTS = {"TABLE": "------", "FILE": "new", "DIR": "new"}
VALUES = {**GIVEN, "--listen": "./absent/socket"}
WRONG = 2


def answered(program, command, words):
    """How a command ends in a folder of its own, and what it says."""
    with tempfile.TemporaryDirectory() as folder:
        os.mkdir(os.path.join(folder, "parts"))
        for name, held in {"l": LEDGER, **{f"parts/{part}.ledger": held for part, held in PARTS.items()}}.items():
            with open(os.path.join(folder, name), "wb") as file:
                file.write(held)
        once = ["--tries", "1"] if "--connect" in words and "--tries" not in words else []
        given = [program, command.name, *WORDS.get(command.name, []), *words, *once]
        run = subprocess.run(given, cwd=folder, stdin=subprocess.DEVNULL, capture_output=True, text=True, check=False, timeout=30)
        return run.returncode, run.stderr


def forms(option):
    """Forms of an option: its words, and whether these are right."""
    name, numbers = option.name, re.search(r"\[(\d+) to (\d+)\]", option.text)
    yield [name + "x"], False
    if not option.value:
        yield from (([name], True), ([name, name], False), ([f"{name}=yes"], False))
        return
    yield [name], False
    least, most = map(int, numbers.groups()) if numbers else (None, None)
    value = VALUES.get(name) or (str(least) if numbers else TEXTS.get(option.value, "2"))
    yield [name, value, name, value], False
    yield [name, value], True
    if numbers:
        yield [name, str(most)], True
        for wrong in (str(most + 1), "x", "", "1.5", "-1", *([str(least - 1)] if least else [])):
            yield [f"{name}={wrong}"], False


def main():
    tried = 0
    for command in commands(sys.argv[1])[1]:
        for option in command.options:
            for words, is_right in forms(option) if option.name != "--help" else ():
                status, said = answered(sys.argv[1], command, words)
                # It needs an option that isn't there, or can't stand beside an argument that is.
                is_apart = re.search("required arguments were not provided|cannot be used with|which --ledger FILE names", said)
                if (status == WRONG) == is_right and not is_apart:
                    sys.exit(f"options: bb {command.name} {' '.join(words)}: {status}, {said!r}")
                tried += 1
    print(f"options: {tried} forms, each is taken or refused")


if __name__ == "__main__":
    sys.exit(main() if len(sys.argv) == 2 and sys.argv[1] != "--help" else __doc__.strip())
