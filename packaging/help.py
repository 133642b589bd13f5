"""What the program says of itself: its commands and their options, read from its own help, and which options it refuses
together."""
import itertools
import re
import subprocess
import tempfile

OPTION = re.compile(r"^ {2,6}(?:(-\w)(?:, )?)?(--[\w-]+)?(?: <(\w+)>)?  +(.*)$")
LAST_OPTION = re.compile(r"^ +(?:-h, --help|-V, --version)\b")
# The longest that one call may take, in seconds: what is asked here is said at once.
LONGEST = 30
# What an option is given where it isn't 2: one try to connect, where nobody listens, ends at once.
GIVEN = {"--connect": "./nobody", "--tries": "1"}


def kind_of(name):
    """What an argument or an option's value of this name is: a file, a folder, or a word that is neither."""
    if name in ("FILE", "PATH", "A", "B", "IN", "OUT"):
        return "file"
    return "folder" if name == "DIR" else "word"


class Option:
    def __init__(self, short, name, value, text):
        self.short, self.name, self.value, self.text = short, name, value, text
        if name == "--help":
            self.text = "Print help"
        self.kind = kind_of(value) if value else None

    def said(self):
        return (self.name, self.value, self.text)


class Command:
    """A command's name, what it does, how it is called, its arguments and options, as its short help has them, and what
    its long help says behind them."""

    def __init__(self, name, short, long):
        self.name = name
        lines = short.rstrip("\n").split("\n")
        self.does = lines[0]
        self.usage = next(line for line in lines if line.startswith("Usage: "))[len("Usage: "):]
        self.arguments, self.options = [], []
        part = None
        for line in lines[lines.index("Usage: " + self.usage) + 1:]:
            if line in ("Arguments:", "Options:", "Commands:"):
                part = line
            elif line == "":
                part = None
            elif part == "Arguments:":
                argument, does = line.strip().split("  ", 1)
                self.arguments.append((argument.strip("<>[]."), does.strip()))
            elif part == "Options:":
                self.options.append(Option(*OPTION.match(line).groups()))
        lines = long.rstrip("\n").split("\n")
        last = max(place for place, line in enumerate(lines) if LAST_OPTION.match(line))
        end = next((place for place in range(last, len(lines)) if lines[place] == ""), len(lines))
        self.rest = lines[end + 1:]

    def kinds(self):
        """What each of its arguments is."""
        return [kind_of(argument) for argument, _ in self.arguments]


def said(program, *words):
    return subprocess.run([program, *words], capture_output=True, check=True, text=True, timeout=LONGEST).stdout


def names(top):
    """The names of the commands, each with what it does, as the program lists them."""
    return re.findall(r"^  (\w+)  +(.*)$", top[top.index("Commands:"):top.index("Options:")], re.MULTILINE)


def commands(program):
    """The program itself, as a command without a name, and each of its commands."""
    top = said(program, "--help")
    parts = [name for name, _ in names(top) if name != "help"]
    return Command("", said(program, "-h"), top), [Command(name, said(program, name, "-h"), said(program, name, "--help")) for name in parts]


def asking(options):
    """Options as they are given, each with a value where it takes one. A connection is tried once alone."""
    words = [word for it in options for word in ([it.name, GIVEN.get(it.name, "2")] if it.value else [it.name])]
    tried = "--connect" in words and "--tries" not in words
    return words + ["--tries", GIVEN["--tries"]] if tried else words


def excluded(program, command):
    """Of each option of a command those that the program refuses beside it. It is asked with no argument and with
    nothing on standard input, in a folder of its own: so it does nothing else."""
    found = {option.name: set() for option in command.options}
    asked = [option for option in command.options if option.name != "--help"]
    with tempfile.TemporaryDirectory() as folder:
        for pair in itertools.combinations(asked, 2):
            run = subprocess.run(
                [program, command.name, *asking(pair)], cwd=folder, stdin=subprocess.DEVNULL, capture_output=True, text=True, check=False,
                timeout=LONGEST)
            if "cannot be used with" in run.stderr:
                found[pair[0].name].add(pair[1].name)
                found[pair[1].name].add(pair[0].name)
    return found


def version(program):
    """The number of the version, and what else is said of it."""
    words = said(program, "--version").strip().split(" ", 2)
    return words[1].rstrip(","), words[2]
