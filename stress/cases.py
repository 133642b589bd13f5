#!/usr/bin/env python3
"""Plays cases with the built program: stress/cases.py [FILE ..]; all of stress/cases and crates/cases/data where none is named.

A case is what a user types, what the command finds, and what has to come of it. The program runs in a folder of its own, with
real files, links, locks, pipes, terminals and sockets; stress/shim.c stands before the calls of the C library, so that devices
fail, locks are refused and the clock goes as the case says. Prints how many cases were played; ends with 1 where one differs,
and says which. Without a C compiler (`cc`) those that need the shim aren't played, and it is said how many.

What a line of a case is, its first word says:

  case NAME           begins a case, which has files of its own
  fixture NAME        lines up to an empty one, which stand wherever a line `with NAME` does
  in each order       the commands up to a line `end` come in each order, the whole case each time; `in both orders`: as they
                      stand, and from the last to the first
  file PATH           a file, whose lines follow behind `| `; behind a command, what it holds then
  data PATH NAME      a file that holds what the file NAME beside the case does
  link PATH TO        a symbolic link, before the first command; `name PATH OF`: a second name of a file
  gone PATH           behind a command: no file is there; `some PATH`: one that isn't compared; `same PATH OTHER`: what
                      OTHER holds; `others`: files that aren't named may change
  $ bb WORDS          a command; the lines that follow are of it
  < TEXT              a line of standard input; `<< NAME`: the file NAME beside the case is standard input
  > TEXT   ! TEXT     a line of standard output, of standard error; nothing where there is none
  >~ !~ |~ TEXT       there it goes on so, and somehow to the end of its line
  >* !* |* TEXT       there, behind what stands in the line before, comes this somewhere
  >>   !!             something stands there
  >= N                standard output is that of the Nth command of the case; with -N of the one so many before
  ? N                 the exit status, where it isn't 0
  % CALL              the calls in their order: `open`, `make`, `write` (where it was there), `lock`, `cut`, `append`, `sync`,
                      `put`, `remove` of files, `say` of so many bytes to standard output, `sent` of a line over the connection
                      at a place; and what standard error says among them: `told of the cut` and `kept at` of a ledger, `again
                      in` of a lost connection, `dismissed` of a place whose worker is let go, as a terminal is told
  = TEXT              what the words ask for (crates/cases compares that): here, that they are taken, or refused
  \\                   the line before it has no newline
  @ CONDITION         what the command meets:
      DEVICE by N               `input`, `answers`, `faults`, `files` (written), `reading` (of files) or `sockets`: at
                                most N bytes at once
      DEVICE fails at call N    and at each later one; 1 is the first. `DEVICE lacks memory at call N`: for want of that
      files fail in each call   the case is played once for each call that changes a file, which fails when nothing, half
                                or all of it was done; what was acknowledged stands in a file, and the same command, given
                                again, comes to its end
      sockets fail in each call
      bits PATH, cuts PATH      the case is played once for each changed bit of the file, and for each of its beginnings:
                                what is wrong is named, or nothing is different
      beginnings PATH           the case is played for each beginning of the file, from which the command comes to the same end
      unsaid                    where what there is to say can't be written, the exit status is 4
      talk                      a line of input comes once what stands above it was answered
      terminal                  standard error is a terminal
      clock by N                the clock goes on by N milliseconds when it is read; without it, it stands, but for sleep
      locked PATH               another process writes it; `sealed PATH`: it can't be written; `fixed PATH`: nothing may be
                                put in its place
      no text                   the words of the command line are no UTF-8

An address is a name whose script stands as a file of the case; the program is given a port of this computer. At one that is
listened at each line says what comes: `+` a worker connects, at the next place from 0 on, and shows the token where there is one, or
the one that `+ TOKEN` names; `0 < ASK 7` that at place 0 sends a line, `0 . AS` a piece of one; `0 -` it is gone; `0 !` it takes bytes
again; `@ 61` it is second 61; behind the last line waiting fails. Of one that is called the file is what the coordinator says over the connection, PATH.2 what it says over the
second one, and so on; behind the last the call is refused. An address without a file is one that nobody may listen at.

Of the rows of crates/cases, which plays them without words, words on standard error aren't compared.

In a text `\\x0d` is the byte 13, `\\*70000:x;` 70,000 letters x, and `\\\\` a backslash. A file that a command doesn't name is as
it was, and a symbolic link leads where it led. Expected values are from the field's literature, or worked
out by hand from docs/FORMATS.md.
"""
import concurrent.futures
import errno
import glob
import os
import re
import shutil
import sys
import tempfile

from case_text import Device, cases_of
from case_world import TOP, Callers, Coordinators, Nobody, Setting, locked_by_us, shim_at

FOLDERS = (os.path.join(TOP, "stress", "cases"), os.path.join(TOP, "crates", "cases", "data"))

# So many cases are played at once.
TOGETHER = 2

FAILED, REFUSED = 4, 1


class Differs(Exception):
    """What differs."""


def read(path):
    """The bytes of a file; none where there isn't one, or links lead in a circle."""
    try:
        with open(path, "rb") as file:
            return file.read()
    except OSError as fault:
        if fault.errno in (errno.ENOENT, errno.ELOOP):
            return None
        raise


def data_of(name):
    return next(text for folder in FOLDERS if (text := read(os.path.join(folder, name))) is not None)


def lay_out(folder, files, addresses):
    for name, said in files.items():
        path = os.path.join(folder, name)
        if any(re.fullmatch(rf"{re.escape(address)}(\.\d+)?", name) for address in addresses):
            continue
        os.makedirs(os.path.dirname(path), exist_ok=True)
        if said.kind == "link":
            os.symlink(said.other, path)
        elif said.kind == "name":
            os.link(os.path.join(folder, said.other), path)
        else:
            with open(path, "wb") as file:
                file.write(data_of(said.other) if said.kind == "data" else said.bytes)


def compared(what, is_met, found):
    if not is_met:
        raise Differs(f"{what}: {found!r}")


def address_of(step):
    """What the words of a step listen at or connect with; none where that is an address that is written out."""
    for option, address in zip(step.words, step.words[1:]):
        if option in ("--listen", "--connect") and ":" not in address:
            return option, address
    return None, None


def numbers_among(found, due):
    """What is said without the words beside it: the lines that are due, and every number."""
    lines = due.split(b"\n")
    return b"\n".join(line for line in found.split(b"\n") if line in lines or line.startswith(b"refused "))


class Scene:
    """A case while it is played: its folder, and what its commands answered."""

    def __init__(self, shim, top, case):
        self.shim, self.top, self.case, self.answers = shim, top, case, []
        self.folder = os.path.join(top, "here")
        self.addresses = {address for step in case.steps if (address := address_of(step)[1])}
        os.mkdir(self.folder)
        lay_out(self.folder, case.files, self.addresses)
        self.links_first = self.links()

    def path(self, name):
        return os.path.join(self.folder, name)

    def links(self):
        """Where each symbolic link leads."""
        paths = [os.path.join(at, name) for at, _, names in os.walk(self.folder) for name in names]
        return {os.path.relpath(path, self.folder): os.readlink(path) for path in paths if os.path.islink(path)}

    def held(self):
        paths = [os.path.join(at, name) for at, _, names in os.walk(self.folder) for name in names]
        return {os.path.relpath(path, self.folder): read(path) for path in paths}

    def network(self, step):
        """Who is at the address of a step."""
        option, address = address_of(step)
        script = self.case.files.get(address)
        if option == "--listen":
            token = step.words[step.words.index("--token") + 1] if "--token" in step.words else ""
            shown = (read(self.path(token)) or b"").removesuffix(b"\n") if token else None
            return Callers(address, script and script.bytes, shown)
        if option == "--connect":
            names = (address, *(f"{address}.{count}" for count in range(2, 100)))
            return Coordinators(address, [self.case.files[name].bytes for name in names if name in self.case.files])
        return Nobody()

    def run(self, step, changed=None):
        """Runs the command of a step; of a device that is named something may be changed."""
        setting = Setting(self.shim, self.top, step, self.network(step))
        if changed:
            setting.devices[changed[0]] = changed[1]
        given = data_of(step.input_file) if step.input_file else step.input.bytes
        locked = step.paths.get("locked")
        locks = [locked_by_us(self.path(locked))] if locked and os.path.exists(self.path(locked)) else []
        try:
            return setting.run(self.folder, given)
        finally:
            for lock in locks:
                lock.close()

    def play(self, step, trial):
        """Plays a step; whether what was to go wrong went wrong."""
        kind, number, halves = trial if step.variant else ("plain", 0, 0)
        variant, _, path = (step.variant or "").partition(" ")
        if kind in ("files", "sockets"):
            return self.play_failing(step, kind, number, halves)
        if kind == "unsaid":
            return self.play_unsaid(step)
        if kind == variant and kind in ("bits", "cuts", "beginnings"):
            return self.play_spoilt(step, kind, path, number)
        self.play_plain(step)
        return False

    def play_plain(self, step):
        if step.asked:
            return self.ask(step)
        before = self.held()
        return self.compare(step, self.run(step), before)

    def ask(self, step):
        """The words are taken, or refused with the status of a wrong line: then something is said of them."""
        ran, is_taken = self.run(step), step.asked[0][0].isupper()
        compared("whether the words are taken", ran.status == (0 if is_taken else 2), (ran.status, ran.faults))
        compared("what is said of them", is_taken or ran.answers == b"" != ran.faults, (ran.answers, ran.faults))

    def compare(self, step, ran, before):
        compared("standard output", self.is_met(step.answers, ran.answers), ran.answers)
        faults = numbers_among(ran.faults, step.faults.bytes) if self.case.has_numbers_alone else ran.faults
        compared("standard error", self.is_met(step.faults, faults), ran.faults)
        compared("status", ran.status == step.status, (ran.status, ran.faults))
        compared("calls", step.calls in (None, ran.calls), ran.calls)
        self.answers.append(ran.answers)
        self.compare_files(step, before)

    def is_met(self, said, found):
        return said.is_met(found, self.answers, lambda other: read(self.path(other)))

    def compare_files(self, step, before):
        after = self.held()
        for name, said in step.after.items():
            compared(name, self.is_met(said, after.get(name)), after.get(name))
        gone = {name for name, said in step.after.items() if said.kind == "gone"}
        links = {name: to for name, to in self.links_first.items() if name not in gone}
        compared("links", links == self.links(), self.links())
        self.links_first = links
        for name in sorted({*before, *after} - {*step.after}):
            compared(name, before.get(name) == after.get(name) or step.others, after.get(name))

    def play_failing(self, step, kind, number, halves):
        """Files or sockets fail in a call; of files the command is given again."""
        before = self.held()
        device = Device()
        device.at_once = step.devices[kind].at_once if kind in step.devices else -1
        device.due, device.halves = number, halves
        ran = self.run(step, (kind, device))
        if not ran.has_failed:
            self.compare(step, ran, before)
            return False
        compared("status of what failed", ran.status == FAILED, (ran.status, ran.faults))
        if kind == "sockets":
            wanted = b"refused 603\n127.0.0.1: Input/output error (os error 5)\n"
            compared("standard error", ran.faults == wanted, ran.faults)
            compared("standard output", not ran.answers, ran.answers)
            self.answers.append(ran.answers)
            return True
        if step.answers.kind == "bytes" and not step.answers.pieces:
            compared("a beginning of standard output", step.answers.bytes.startswith(ran.answers), ran.answers)
        self.compare_acknowledged(ran.answers)
        again = self.run(step)
        compared("status of the same once more", again.status == step.status, (again.status, again.faults))
        self.answers.append(again.answers)
        self.compare_files(step, before)
        return True

    def compare_acknowledged(self, answers):
        """Each table that was acknowledged has a record in a file."""
        lines = [line for text in self.held().values() for line in (text or b"").split(b"\n")]
        for line in answers.split(b"\n"):
            if line.startswith(b"ACK "):
                compared("an acknowledged record", any(one.startswith(line[4:] + b" ") for one in lines), line)

    def play_unsaid(self, step):
        """What there is to say can't be written: to standard error where nothing is said on standard output."""
        full = Device()
        full.due, full.error = 1, "ENOSPC"
        says = step.answers.kind != "bytes" or step.answers.bytes or step.answers.pieces
        ran = self.run(step, ("answers" if says else "faults", full))
        compared("status where nothing can be said", ran.status == FAILED, (ran.status, ran.faults))
        return True

    def play_spoilt(self, step, kind, path, number):
        """A bit of a file is changed, or only a beginning of it is left."""
        text = read(self.path(path)) or b""
        if number >= len(text) * (8 if kind == "bits" else 1):
            self.play_plain(step)
            return False
        if kind == "bits":
            at, bit = divmod(number, 8)
            spoilt = text[:at] + bytes([text[at] ^ 1 << bit]) + text[at + 1 :]
        else:
            spoilt = text[:number]
        with open(self.path(path), "wb") as file:
            file.write(spoilt)
        if kind == "beginnings":
            self.play_plain(step)
            return True
        ran = self.run(step)
        is_named = ran.status == REFUSED and ran.faults.startswith(path.encode()) and ran.faults.endswith(b"\n")
        if kind == "bits":
            compared("standard output of a changed file", is_named or ran.answers == step.answers.bytes, ran.answers)
            return True
        compared("what is torn", is_named == (not spoilt.endswith(b"\n")), ran.faults)
        is_report = ran.answers.startswith(b"root ") and b"status complete" not in ran.answers.split(b"\n")
        compared("a report of a torn file", is_report and ran.status == REFUSED, (ran.status, ran.answers))
        return True


def trials_of(case):
    """What is tried of a case: once as it stands, or first once for each place in which something goes wrong."""
    variant = next((step.variant for step in case.steps if step.variant), None)
    if variant == "unsaid":
        yield ("unsaid", 0, 0)
    elif variant:
        kind, number = variant.split(" ")[0], 0
        while True:
            for halves in (0, 1, 2) if kind == "files" else (0,):
                # Of calls 1 is the first.
                yield (kind, number + (kind in ("files", "sockets")), halves)
            number += 1
    yield ("plain", 0, 0)


def play_once(shim, case, trial):
    """Plays the steps of a case; whether something went wrong."""
    with tempfile.TemporaryDirectory(prefix="bb-case-") as top:
        scene, has_failed = Scene(shim, top, case), False
        for step in case.steps:
            try:
                was_met = scene.play(step, trial)
            except Differs as differs:
                raise Differs(f"{case.name} {trial}: bb {' '.join(step.words)}: {differs}") from None
            has_failed |= was_met
            # What comes behind it stands on what wasn't said, or on another file.
            if was_met and trial[0] in ("unsaid", "bits", "cuts"):
                break
        return has_failed


def needs_shim(case):
    return any(
        step.devices or step.flags - {"no text"} or step.clock is not None or step.variant or step.calls or step.asked
        or {"sealed", "fixed"} & {*step.paths} or address_of(step)[1]
        for step in case.steps
    )  # fmt: skip


def play(shim, case):
    """How often a case was played; none where that needs a shim that isn't there. Otherwise what differs is raised."""
    if not shim and needs_shim(case):
        return 0
    count = 0
    for trial in trials_of(case):
        count += 1
        if not play_once(shim, case, trial):
            break
    if count == 1 and trial[0] != "plain":
        raise Differs(f"{case.name}: nothing went wrong")
    return count


def main():
    paths = sys.argv[1:] or sorted(path for folder in FOLDERS for path in glob.glob(os.path.join(folder, "*.case")))
    cases = [case for path in paths for case in cases_of(path)]
    top = tempfile.mkdtemp(prefix="bb-shim-")
    counts, differ = [], 0
    try:
        shim = shim_at(top)
        with concurrent.futures.ThreadPoolExecutor(TOGETHER) as pool:
            for played in [pool.submit(play, shim, case) for case in cases]:
                try:
                    counts.append(played.result())
                except Differs as differs:
                    print(f"cases: {differs}", flush=True)
                    differ += 1
    finally:
        shutil.rmtree(top)
    missing = counts.count(0)
    print(f"{len(cases)} cases, {len(cases) - missing} played in {sum(counts)} ways, {missing} not played for want of a C compiler: "
          f"{differ or 'none'} differ{'' if differ > 1 else 's'}")  # fmt: skip
    return 1 if differ else 0


if __name__ == "__main__":
    sys.exit(main())
