"""What scripts measure by: processor time, which other work on the computer lengthens less than the time on the clock."""
import os
import resource
import subprocess

HERE = os.path.dirname(os.path.abspath(__file__))
TOP = os.path.dirname(HERE)


def used():
    """The processor seconds of all programs that were begun here and have ended, those that they began among them."""
    usage = resource.getrusage(resource.RUSAGE_CHILDREN)
    return usage.ru_utime + usage.ru_stime


def run(command, text=b""):
    """The processor seconds of a command, and what it prints."""
    before = used()
    done = subprocess.run(command, input=text, stdout=subprocess.PIPE, check=False)
    return used() - before, done.stdout


def built(folder, name):
    """A plain Rust program of this folder."""
    path = os.path.join(folder, name)
    subprocess.run(["rustc", "--edition", "2021", "-O", "-o", path, os.path.join(HERE, name + ".rs")], check=True)
    return path


def judge(folder):
    """The judge that is proved in Coq, built by OCaml in a folder."""
    place = os.path.join(folder, "judge")
    subprocess.run([os.path.join(TOP, "packaging", "judge"), place], check=True)
    subprocess.run(["make", "-s", "-C", place, "program"], check=True)
    return os.path.join(place, "judge")
