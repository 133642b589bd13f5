#!/usr/bin/env python3
"""The library without kit and sources: stress/library_alone.py LIBRARY PROGRAM.

LIBRARY is a folder that packaging/library laid out, as it lies in the archive, and PROGRAM the program beside it. The folder
is copied to another place, and used from there alone, with neither a kit nor these sources on any path: what docs/LIBRARY.md
shows is done as it stands there, with the program for `bb` in its example of Python, and has to print what it shows. The
examples that lie in the folder have to answer records as the program does, in C with the archive and with the shared library.

Prints what was used, and which tools weren't there; ends with 1 where anything differs. Needs a C compiler.
"""
import glob
import os
import re
import shutil
import subprocess
import sys
import tempfile

TOP = os.path.dirname(os.path.dirname(os.path.abspath(__file__)))
RECORDS = [b"1RB1LB_1LA--- H 6 4", b"1RB1LB_1LA--- H 6", b"1RB1LB_1LA--- H 7", b"0RB---_0LA--- C 0 2", b"1RB1LB_1LA---", b"", b"1RB1LB-1LA--- H 6",
           b"1RB1LB_1LA--- U", b"1RB1LB_1LA--- H 99999999999", b"1RB1LB_1LA--- N 1 x 0 0"]


class Differs(Exception):
    """Anything that isn't as it should be."""


class Folder:
    """A copy of the library, and how commands are run there."""

    def __init__(self, room, library, program):
        self.path = os.path.join(room, "library")
        shutil.copytree(library, self.path, symlinks=True)
        tools = os.path.join(room, "tools")
        os.mkdir(tools)
        os.symlink(os.path.abspath(program), os.path.join(tools, "bb"))
        # What a user has, and no folder that has a kit.
        for name in ("cargo", "rustc", "python3"):
            found = shutil.which(name)
            if found and not os.path.exists(os.path.join("/usr/bin", name)):
                self.wrap(os.path.join(tools, name), found)
        self.environment = {"PATH": f"{tools}:/usr/bin:/bin", "HOME": room, "LC_ALL": "C.UTF-8"}
        self.has = {name: shutil.which(name, path=self.environment["PATH"]) is not None for name in ("pkg-config", "cargo", "rustc", "python3")}
        if shutil.which("rt", path=self.environment["PATH"]):
            raise Differs("a kit is on the path of what is to do without it")

    @staticmethod
    def wrap(path, found):
        """A command that is found elsewhere, and keeps the place where it looks for its own things."""
        homes = "".join(f"export {name}={os.path.expanduser(home)}\n" for name, home in (("CARGO_HOME", "~/.cargo"), ("RUSTUP_HOME", "~/.rustup")))
        with open(path, "w", encoding="utf-8") as file:
            file.write(f'#!/bin/sh\n{homes}exec {found} "$@"\n')
        os.chmod(path, 0o755)

    def run(self, command, folder="", **more):
        """What a shell says to a command in a folder of the library."""
        environment = {**self.environment, **more}
        ran = subprocess.run(["sh", "-c", command], cwd=os.path.join(self.path, folder), env=environment, capture_output=True, check=False)
        return ran.returncode, ran.stdout, ran.stderr

    def well(self, command, folder="", **more):
        """What a command prints that has to end well."""
        status, said, faults = self.run(command, folder, **more)
        if status:
            raise Differs(f"{command}: {status}, {(said + faults)[-2000:].decode(errors='replace')}")
        return said

    def put(self, path, text):
        path = os.path.join(self.path, path)
        os.makedirs(os.path.dirname(path), exist_ok=True)
        with open(path, "w", encoding="utf-8") as file:
            file.write(text)


def shown():
    """What docs/LIBRARY.md shows, by its headings: the blocks of code by their language, and the commands with what each prints."""
    with open(os.path.join(TOP, "docs", "LIBRARY.md"), encoding="utf-8") as file:
        parts = file.read().split("\n## ")
    found = {}
    for part in parts[1:]:
        blocks = dict(re.findall(r"^```(\w+)\n(.*?)^```$", part, re.MULTILINE | re.DOTALL))
        commands = []
        for line in re.findall(r"^    (.*)$", re.sub(r"^```.*?^```$", "", part, flags=re.MULTILINE | re.DOTALL), re.MULTILINE):
            if line.startswith("$ "):
                commands.append((line[2:], []))
            else:
                commands[-1][1].append(line + "\n")
        found[part.split("\n", 1)[0]] = (blocks, commands)
    return found


def done(folder, commands, where=""):
    """Gives commands to one shell, and compares all that they print with what is shown."""
    wanted = "".join("".join(printed) for _, printed in commands)
    said = folder.well("set -e\n" + "\n".join(command for command, _ in commands), where).decode()
    if said != wanted:
        raise Differs(f"docs/LIBRARY.md: {commands[-1][0]}: {said!r}, and not {wanted!r}")


def answers(folder, program):
    """The records' answers by the program, with the table as the record has it."""
    with open(os.path.join(folder.path, "some.txt"), "wb") as file:
        file.write(b"".join(record + b"\n" for record in RECORDS))
    said = subprocess.run([program, "check"], input=b"".join(record + b"\n" for record in RECORDS), capture_output=True, check=False).stdout
    lines = said.split(b"\n")[:-1]
    return b"".join((line if line.startswith(b"refused") else record.split(b" ")[0] + b" " + line.split(b" ", 1)[1]) + b"\n"
                    for record, line in zip(RECORDS, lines))


def same(folder, command, wanted, where="", **more):
    status, said, faults = folder.run(command, where, **more)
    if (status, said) != (1, wanted):
        raise Differs(f"{command}: {status}, {said!r} and not {wanted!r}, {faults[-2000:]!r}")


def in_c(folder, blocks, commands, wanted):
    """The archive and the shared library, each by its example."""
    folder.put("first.c", blocks["c"])
    if folder.has["pkg-config"]:
        done(folder, commands)
        flags = "$(PKG_CONFIG_PATH=$PWD/lib/pkgconfig pkg-config --cflags --libs libbb)"
        version = folder.well("PKG_CONFIG_PATH=$PWD/lib/pkgconfig pkg-config --modversion libbb").decode().strip()
    else:
        print("library alone: no pkg-config, so its file wasn't read")
        flags, version = "-Iinclude -Llib -lbb", None
    strict = "cc -std=c11 -Wall -Wextra -Werror -D_POSIX_C_SOURCE=200809L"
    folder.well(f"{strict} -o linked example.c -Iinclude lib/libbb.a && {strict} -o shared example.c {flags}")
    same(folder, "./linked some.txt", wanted)
    same(folder, "./shared some.txt", wanted, LD_LIBRARY_PATH=os.path.join(folder.path, "lib"))
    return version


def in_python(folder, blocks, commands, wanted):
    """The wheel, as pip puts it into a folder of its own."""
    if folder.run("python3 -m pip --version")[0]:
        print("library alone: no pip, so the wheel wasn't installed")
        return None
    folder.put("first.py", blocks["python"])
    folder.environment["PYTHONPATH"] = os.path.join(folder.path, "site")
    install = "python3 -m pip install --quiet --disable-pip-version-check --root-user-action=ignore --no-deps --target site"
    done(folder, [(command.replace("pip install", install), printed) for command, printed in commands])
    same(folder, "python3 python/example.py some.txt", wanted)
    return folder.well("python3 -c 'import busybeaver; print(busybeaver.__version__)'").decode().strip()


def in_rust(folder, blocks, commands, wanted):
    """A crate beside the one of the folder, and its example."""
    if not (folder.has["cargo"] and folder.has["rustc"]):
        print("library alone: no cargo, so the crate wasn't tried")
        return None
    folder.put("mine/Cargo.toml", '[package]\nname = "mine"\nversion = "0.0.0"\nedition = "2021"\n\n' + blocks["toml"])
    folder.put("mine/src/main.rs", blocks["rust"])
    done(folder, commands, "mine")
    same(folder, "cargo run --quiet --offline --example judge -- ../some.txt", wanted, "rust")
    with open(os.path.join(folder.path, "rust", "Cargo.toml"), encoding="utf-8") as file:
        return re.search(r'^version = "(.*)"$', file.read(), re.MULTILINE)[1]


def main(library, program):
    parts = shown()
    program = os.path.abspath(program)
    with tempfile.TemporaryDirectory() as room:
        folder = Folder(room, library, program)
        wanted = answers(folder, program)
        versions = {"bb": subprocess.run([program, "--version"], capture_output=True, text=True, check=True).stdout.split(",")[0].split()[1]}
        for name, way in (("C", in_c), ("Python", in_python), ("Rust", in_rust)):
            version = way(folder, *parts[name], wanted)
            if version:
                versions[name] = version
        if len(set(versions.values())) > 1:
            raise Differs(f"versions differ: {versions}")
        wheels = [os.path.basename(path) for path in glob.glob(os.path.join(folder.path, "python", "*.whl"))]
        print(f"library alone: used by {', '.join(name for name in versions if name != 'bb')}, {versions['bb']} ({', '.join(wheels)})")


if __name__ == "__main__":
    if len(sys.argv) != 3:
        sys.exit(__doc__.strip())
    try:
        main(*sys.argv[1:3])
    except Differs as differs:
        print(f"library alone: {differs}")
        sys.exit(1)
