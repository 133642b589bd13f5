#!/usr/bin/env python3
"""The examples of README.md and docs/TOUR.md, as they stand there: stress/examples.py [DOCUMENT ..].

Each line that begins with `$ ` in an indented block is given to the shell, the commands of a document one after the other in one
folder, where `bb` and `./bb` are the program, which the variable BB names too, and `examples` and `contrib` the folders of these
names; what is printed on both outputs has to be the lines below it. A file of `examples` that the cases read too, from stress/cases, has to be the same there. Ends with 1 at the first that differs.
"""
import filecmp
import os
import shutil
import subprocess
import sys
import tempfile

TOP = os.path.dirname(os.path.dirname(os.path.abspath(__file__)))
sys.path.insert(0, os.path.join(TOP, "bench"))
from program import PROGRAM  # noqa: E402


def examples_of(path):
    """The commands of a document, each with what it prints."""
    found, shows = [], False
    with open(path, encoding="utf-8") as file:
        for line in file:
            if line.startswith("    $ "):
                found.append([line[6:].rstrip("\n"), ""])
                shows = True
            elif line.startswith("    ") and shows:
                found[-1][1] += line[4:]
            else:
                shows = False
    return found


def twins():
    """The files of `examples` that stand beside the cases too, each with that one's path."""
    for name in sorted(os.listdir(os.path.join(TOP, "examples"))):
        twin = os.path.join(TOP, "stress", "cases", name)
        if os.path.exists(twin):
            yield os.path.join(TOP, "examples", name), twin


def main():
    for path, twin in twins():
        if not filecmp.cmp(path, twin, shallow=False):
            sys.exit(f"{path} isn't {twin}")
    documents = sys.argv[1:] or [os.path.join(TOP, "README.md"), os.path.join(TOP, "docs", "TOUR.md")]
    count = 0
    for document in documents:
        folder = tempfile.mkdtemp(prefix="bb-examples-")
        try:
            os.mkdir(os.path.join(folder, "bin"))
            for link in ("bb", "bin/bb"):
                os.symlink(PROGRAM, os.path.join(folder, link))
            for part in ("examples", "contrib"):
                os.symlink(os.path.join(TOP, part), os.path.join(folder, part))
            environment = {**os.environ, "BB": PROGRAM, "PATH": f"{folder}/bin:{os.environ['PATH']}", "LC_ALL": "C"}
            for command, printed in examples_of(document):
                done = subprocess.run(["sh", "-c", command], cwd=folder, env=environment, stdout=subprocess.PIPE, stderr=subprocess.STDOUT, text=True, check=False)
                if done.stdout != printed:
                    sys.exit(f"{document}: $ {command}\nprints\n{done.stdout}in place of\n{printed}")
                count += 1
        finally:
            shutil.rmtree(folder)
    print(f"{count} examples print what the documents show")


if __name__ == "__main__":
    main()
