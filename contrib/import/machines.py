"""What the importers of this folder share: lists of machines as people keep them, a record a line, what was passed over.

A line has a machine in the bbchallenge standard text format anywhere in it, in a link too, and parameters behind it. What
stands behind a `#` is a comment; CR LF, tabs, quotes, a byte order mark and bytes that are no text do no harm. An entry to
`Z` or `H` is undefined, as `---` is. Nothing here is trusted: `bb check` judges each record.
"""
import argparse
import os
import re
import sys

STATES = "ABCDEFG"

WORD = re.compile(r"[0-9A-Z_-]+")
ENTRY = re.compile(r"([01])([LR])([A-Z])")
# What a link has behind its machine: `&status=undecided`, `?s=10000`.
LINK_END = re.compile(r"[&?][^\s,;|\"']*")
# Whole numbers that stand alone: no part of a word, of a fraction or of a longer number.
NUMBER = re.compile(r"(?<![\w.+-])-?[0-9]{1,18}(?![\w.])")


class PassedOver(Exception):
    """Why a line has no record, in words."""


# Tables: a list of rows, each of two entries; an entry is (write, move, next), with 1 for right, or None.

def entry_of(text, states):
    """An entry of a table with so many states; ValueError where the text is none."""
    if text == "---":
        return None
    found = ENTRY.fullmatch(text)
    if not found or found[3] not in STATES[:states] + "ZH":
        raise ValueError
    return None if found[3] in "ZH" else (int(found[1]), 1 if found[2] == "R" else -1, STATES.index(found[3]))


def table_of(word):
    """The table of a word in the standard form, or None."""
    rows = word.split("_")
    if len(rows) > len(STATES) or any(len(row) != 6 for row in rows):
        return None
    try:
        return [[entry_of(row[:3], len(rows)), entry_of(row[3:], len(rows))] for row in rows]
    except ValueError:
        return None


def printed(table):
    """The text of a table."""
    def entry(it):
        return "---" if it is None else f"{it[0]}{'R' if it[1] > 0 else 'L'}{STATES[it[2]]}"
    return "_".join(entry(row[0]) + entry(row[1]) for row in table)


def mirrored(table):
    return [[it and (it[0], -it[1], it[2]) for it in row] for row in table]


# Lines.

def machine_in(line):
    """The first table of a line and what stands behind it, or None."""
    for word in WORD.finditer(line):
        table = table_of(word[0])
        if table is not None:
            rest = line[word.end():]
            end = LINK_END.match(rest)
            return table, rest[end.end():] if end else rest
    return None


def machine_of(line):
    """The same, where it has to be there."""
    found = machine_in(line)
    if found is None:
        raise PassedOver("no machine")
    return found


def numbers_in(text):
    return [int(number) for number in NUMBER.findall(text)]


def told_lines(path):
    """The lines of a file, or of standard input, without comments, each with what names it; empty ones are left out."""
    with open(sys.stdin.fileno() if path == "-" else path, "rb", closefd=path != "-") as file:
        for number, line in enumerate(file, 1):
            text = line.decode("utf-8", "replace").lstrip("\ufeff").split("#")[0].strip()
            if text:
                yield f"line {number}", text


# The command line, and the work on all lines.

def options(document):
    """What reads the words of a command line; the text on top of a script is its help."""
    form = argparse.RawDescriptionHelpFormatter
    words = argparse.ArgumentParser(description=document, formatter_class=form, add_help=True)
    words.add_argument("file", nargs="?", default="-", metavar="FILE", help="a list; standard input for none, or `-`")
    return words


def work_off(told, record_of):
    """Prints the record of each line, and says what is passed over; 1 where anything was."""
    passed = 0
    for name, line in told:
        try:
            print(record_of(line))
        except PassedOver as reason:
            passed = 1
            sys.stdout.flush()
            print(f"{name}: {reason}", file=sys.stderr)
    sys.stdout.flush()
    return passed


def ended(work):
    """Ends the process with what the work comes to: 2 where a file can't be read, 1 without a word where nobody reads on."""
    try:
        sys.exit(work())
    except BrokenPipeError:
        os.dup2(os.open(os.devnull, os.O_WRONLY), sys.stdout.fileno())
        sys.exit(1)
    except OSError as fault:
        print(f"{os.path.basename(sys.argv[0])}: {fault.filename}: {fault.strerror}", file=sys.stderr)
        sys.exit(2)
