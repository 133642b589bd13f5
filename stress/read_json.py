#!/usr/bin/env python3
"""Reads the reports that bb prints with --json by python3 -m json.tool, and by jq where that is there, and checks that
they say what the reports in lines say."""
import json
import os
import shutil
import subprocess
import sys

TOP = os.path.dirname(os.path.dirname(os.path.abspath(__file__)))
sys.path.insert(0, os.path.join(TOP, "bench"))
from program import PROGRAM  # noqa: E402

BB = PROGRAM
EXAMPLES = os.path.join(TOP, "examples")
REPORTS = [["run", "1"], ["run", "2"], ["run", "3"], ["run", "2", "--rounds", "2"]] + [
    ["report", os.path.join(EXAMPLES, name)] for name in sorted(os.listdir(EXAMPLES)) if name.endswith(".ledger")]
NUMBERS = ["nodes", "halting", "never", "holdouts", "open"]


def printed(words):
    return subprocess.run([BB] + words, stdout=subprocess.PIPE, check=False)


def read(command, text):
    return json.loads(subprocess.run(command, input=text, stdout=subprocess.PIPE, check=True).stdout)


def of_lines(text):
    """The object that a report in lines comes to."""
    lines = [line.split(" ") for line in text.decode().splitlines()]
    said = {name: value for name, value in lines if name not in ("champion", "ones_champion", "holdout", "left")}
    for name in NUMBERS:
        said[name] = int(said[name])
    for name, champion in (("best", "champion"), ("ones", "ones_champion")):
        said[name] = None if said[name] == "none" else int(said[name])
        said[champion + "s"] = [value for word, value in lines if word == champion]
    said["holdout_tables"] = [value for name, value in lines if name == "holdout"]
    return said


def main():
    readers = [[sys.executable, "-m", "json.tool"]] + ([["jq", "."]] if shutil.which("jq") else [])
    for words in REPORTS:
        lines, as_json = printed(words), printed(words + ["--json"])
        expected = of_lines(lines.stdout)
        if list(json.loads(as_json.stdout)) != sorted(expected) or as_json.returncode != lines.returncode:
            print(f"{words}: the keys or the status differ")
            return 1
        for reader in readers:
            if read(reader, as_json.stdout) != expected:
                print(f"{words}: {reader[-1]} reads something else")
                return 1
    print(f"{len(REPORTS)} reports read by {len(readers)} readers, the same as in lines")
    return 0


if __name__ == "__main__":
    sys.exit(main())
