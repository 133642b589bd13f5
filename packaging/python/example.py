#!/usr/bin/env python3
"""Judges a file of records, a line each: example.py FILE. Prints each answer, and ends with 1 where one was refused.

Each is printed as `bb check` does, except for the table, which is as the record has it.
"""
import sys
from typing import BinaryIO

import busybeaver
from busybeaver import Answer, Outcome


def line_of(record: bytes, answer: Answer) -> bytes:
    """The line that tells of an answer."""
    table = record.split(b" ", 1)[0]
    if answer.outcome == Outcome.REFUSED:
        numbers = [answer.code, answer.table_code, answer.place]
        return " ".join(["refused", *(str(number) for number in numbers if number is not None)]).encode()
    if answer.outcome == Outcome.HALTS:
        ones = f" ones {answer.ones}" if answer.says_ones else ""
        return table + f" halts {answer.steps}{ones}".encode()
    return table + (b" never" if answer.outcome == Outcome.NEVER else b" undecided")


def judge(path: str, out: BinaryIO) -> bool:
    """Whether each record of a file was accepted."""
    accepted = True
    for record, answer in busybeaver.check_file(path):
        accepted &= answer.outcome != Outcome.REFUSED
        out.write(line_of(record, answer) + b"\n")
    return accepted


if __name__ == "__main__":
    sys.exit(0 if judge(sys.argv[1], sys.stdout.buffer) else 1)
