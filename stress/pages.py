#!/usr/bin/env python3
"""What `bb page` says of ledgers and of folders of parts, damaged at random, against stress/tree.py: the report's lines and its
JSON, to the byte, how many records there are of each kind, entries and steps, the version and the sums, the title, and that
nothing else of a page differs from another's; that the page of a folder is that of the one ledger which `bb join` writes of it;
and what a page of records has of each line, against stress/oracle.py. Where chromium is there, what it shows of some pages is
compared too.

stress/pages.py [SEED [TIMES]]: prints how many pages were compared, and the first that differs, and then ends with 1.
"""
import hashlib
import html
import json
import os
import re
import shutil
import subprocess
import sys

from damaged import damage, filled, joined, lay, play, whole
from kinds import PROGRAM, damaged
from oracle import answer
from read_json import of_lines
from tree import Loaded

LETTERS = "HLCTBNFAWRPU"
STATUS = {"working": "Working.", "holdouts": "Holdouts.", "complete": "Complete."}
VERSION = subprocess.run([PROGRAM, "--version"], capture_output=True, check=True).stdout.decode().splitlines()[0]
POLICY = ("<meta http-equiv='Content-Security-Policy' content=\"default-src 'none';style-src 'unsafe-inline';"
          "script-src 'unsafe-inline';base-uri 'none';form-action 'none'\">")
TITLE = re.compile(r"(?<=<title>)[^<]*(?=</title>)|(?<=<h1>)[^<]*(?=</h1>)")
ORIGIN = re.compile(r"(?<=<footer>\n<table>\n).*?(?=</table>\n</footer>)", re.S)
LINES = re.compile(r"(?<=<noscript><pre>\n)[^<]*(?=</pre></noscript>)")
OBJECT = re.compile(r"(?<=<script type='application/json' id='(?:report|counts)'>\n)[^<]*(?=</script>)")
BROWSER = shutil.which("chromium")
SUMS = re.compile(r"<tr><th scope='row'>SHA-256 of the l.*\n")
shells = {}


def sum_of(path):
    with open(path, "rb") as file:
        return hashlib.sha256(file.read()).hexdigest()


def list_sum(folder, roots):
    """The sum of what `sha256sum` prints of the parts under a trunk, and of the trunk, without other files of the folder."""
    names = [name for name in sorted(os.listdir(folder)) if name.endswith(".ledger") and name != "trunk.ledger"]
    names = [name for name in names if name[:-len(".ledger")] in roots] + ["trunk.ledger"]
    lines = "".join(f"{sum_of(os.path.join(folder, name))}  {name}\n" for name in names)
    return hashlib.sha256(lines.encode()).hexdigest()


def counts_of(board, left):
    """How many records there are, as a page counts them."""
    words = [line.split(b" ") for line in board.lines]
    entries = [filled(fields[0]) for fields in words]
    steps = [int(fields[2]).bit_length() - 1 for fields in words if fields[1] in (b"H", b"L")]
    kinds = [fields[1].decode() for fields in words]
    counts = {"entries": [entries.count(k) for k in range(15)], "left": left, "steps": [steps.count(k) for k in range(64)]}
    return counts | {letter: kinds.count(letter) for letter in LETTERS}


def origin_of(*sums):
    """The rows that say what a page is made from."""
    rows = [f"<tr><th scope='row'>Made by</th><td>{VERSION}</td></tr>\n"]
    sums = [("the program", sum_of(PROGRAM)), *sums]
    return "".join(rows + [f"<tr><th scope='row'>SHA-256 of {name}</th><td><code>{digits}</code></td></tr>\n" for name, digits in sums])


def shell_differs(name, page, title):
    """What a page has wrong, if anything, of what isn't its own: all pages of a name have one shell."""
    if TITLE.findall(page) != 2 * [html.escape(title, quote=True).replace("&#x27;", "&#39;")] or page.count(POLICY) != 1:
        return f"not the title {title!r}, or not what it forbids itself"
    shell = TITLE.sub("", page)
    for part in (ORIGIN, LINES, OBJECT):
        shell = part.sub("", shell)
    return None if shells.setdefault(name, shell) == shell else "another shell"


def differs(page, board, left, title, origin):
    """What a page has wrong, if anything."""
    report = board.report(left)
    told = json.dumps(of_lines(board.report(None).encode()), sort_keys=True, separators=(",", ":")) + "\n"
    objects = OBJECT.findall(page)
    if LINES.findall(page) != [report] or objects[:1] != [told] or len(objects) != 2:
        return f"{LINES.findall(page)!r} and {objects!r}, and not {report!r} and {told!r}"
    if json.loads(objects[1]) != counts_of(board, left):
        return f"{objects[1]!r}, and not {counts_of(board, left)!r}"
    if ORIGIN.findall(page) != [origin_of(origin)]:
        return f"{ORIGIN.findall(page)!r}, and not {origin_of(origin)!r}"
    return shell_differs("report", page, title)


def sentence(root, best, ones):
    """What a complete tree shows."""
    if best == "none":
        return f"Of the tables below {root} none halts."
    best, ones = (f"{int(number):,}" for number in (best, ones))
    if not any(symbol in root for symbol in "01"):
        states = (len(root) + 1) // 7
        return f"So S({states}) = {best} and Σ({states}) = {ones}."
    return f"Of the tables below {root} that halt, the most steps are {best} and the most ones {ones}."


def text_of(shown):
    return html.unescape(re.sub(r"<[^>]*>", "", shown))


def shown_by(page, folder):
    """A page as a browser has it once its script has run."""
    path = os.path.join(folder, "shown.html")
    with open(path, "w", encoding="utf-8") as file:
        file.write(page)
    words = [BROWSER, "--headless", "--no-sandbox", "--disable-gpu", "--virtual-time-budget=5000", "--dump-dom", "file://" + path]
    return subprocess.run(words, capture_output=True, check=True).stdout.decode()


def looks_wrong(page, board, left, folder):
    """What is wrong with what a browser shows of a page, if anything."""
    report = [line.split(" ", 1) for line in board.report(None).split("\n")[:-1]]
    told = {name: f"{int(value):,}" if value.isdigit() else value for name, value in report}
    of = lambda name: [value for key, value in report if key == name]  # noqa: E731
    counts, best, root = counts_of(board, left), dict(report)["best"], told["root"]
    texts = [STATUS[told["status"]]] + ([sentence(root, best, dict(report)["ones"])] if told["status"] == "complete" else [])
    texts += [f"From line {left} on, the ledger isn't kept."] if left is not None else []
    names = ["Tables", "Halting", "Never halting", "Holdouts", "Open", "Most steps", "Most ones"]
    rows = list(zip(names, (told[name] for name in ("nodes", "halting", "never", "holdouts", "open", "best", "ones"))))
    rows += [(letter, f"{counts[letter]:,}") for letter in LETTERS if counts[letter]]
    rows += [(str(k), f"{n:,}") for k, n in enumerate(counts["entries"]) if n]
    rows += [(f"{2**k:,}", f"{n:,}") for k, n in enumerate(counts["steps"]) if best != "none" and 2**k <= int(best)]
    shown = shown_by(page, folder).split("<main>")[1].split("</main>")[0]
    status = shown.split("</section>")[0]
    found_texts = [text_of(words) for words in re.findall(r"<p(?: class=\"left\")?>(.*?)</p>", status)]
    plain = re.sub(r"<table class=\"transitions\">.*?</table>", "", shown)
    found_rows = [(text_of(re.sub(r"(<code>.</code>).*", r"\1", name)), text_of(value))
                  for name, value in re.findall(r"<tr><th scope=\"row\">(.*?)</th><td>(.*?)</td></tr>", plain)]
    tables = [re.findall(part, shown) for part in (r"<figcaption><code>(.*?)</code>", r"<li><code>(.*?)</code></li>", r"<tr id=\"(.*?)\"")]
    due_tables = [of("champion"), of("ones_champion"), of("holdout")[:500]]
    pictures = re.findall(r"<canvas[^>]* aria-label=\"Run of ([^.]*)\.", shown)
    if found_rows != rows or [found_texts[0].split(" ")[0], *found_texts[1:]] != texts + [f"Root {root}"]:
        return f"shows {found_texts!r} {found_rows!r}, and not {texts!r} {rows!r}"
    return None if tables == due_tables and pictures == of("champion")[:8] else f"shows {tables!r} and {pictures!r}, not {due_tables!r}"


def page_of(*words, given=None):
    run = subprocess.run([PROGRAM, "page", *words], input=given, capture_output=True, check=False)
    return run.stdout.decode(), run.stderr.decode(), run.returncode


def compare_ledger(rng, lines, path, counts):
    text = damage(rng, lines)
    with open(path, "wb") as file:
        file.write(text)
    ledger = Loaded(text)
    if ledger.is_too_long:
        return None
    page, said, status = page_of(path)
    if ledger.fault:
        counts["a ledger: refused"] += 1
        return None if page == "" and said.startswith(ledger.fault) and status == 1 else f"page of {text!r}: {said!r}, {status}"
    wrong = differs(page, ledger.board, ledger.left, os.path.basename(path), ("the ledger", sum_of(path)))
    complete = "\nstatus complete\n" in ledger.board.report(None)
    counts["a ledger: " + ("complete" if complete else "not complete")] += 1
    if wrong is None and (said, status) != ("", 0 if complete and ledger.left is None else 1):
        wrong = f"{said!r}, {status}"
    if wrong is None and BROWSER and rng.random() < 0.05:
        counts["a ledger: as a browser shows it"] += 1
        wrong = looks_wrong(page, ledger.board, ledger.left, os.path.dirname(path))
    return None if wrong is None else f"page of {text!r}: {wrong}"


def compare_folder(rng, lines, folder, counts):
    texts = lay(rng, lines, folder)
    board, said, is_too_long = joined(texts, folder)
    if is_too_long:
        return None
    page, told, status = page_of(folder)
    if board is None:
        counts["a folder: no trunk"] += 1
        return None if page == "" and told.startswith(said) and status == 1 else f"page of {texts!r}: {told!r}, {status}"
    complete = "\nstatus complete\n" in board.report(None)
    counts["a folder: " + ("complete" if complete else "not complete")] += 1
    origin = ("the list of its ledgers", list_sum(folder, Loaded(texts['trunk']).board.open))
    wrong = differs(page, board, None, os.path.basename(folder), origin)
    if wrong is None and (told, status) != (said, 0 if said == "" and complete else 1):
        wrong = f"{told!r}, {status}"
    out = folder + ".out"
    subprocess.run([PROGRAM, "join", folder, "--ledger", out, "--replace"], capture_output=True, check=False)
    if wrong is None and SUMS.sub("", page_of(out, "--title", os.path.basename(folder))[0]) != SUMS.sub("", page):
        wrong = "not that of the one ledger"
    return None if wrong is None else f"page of {texts!r}: {wrong}"


def object_differs(number, line, told):
    """What is wrong with the object of a line, if anything."""
    due = answer(line)
    if due is None:
        return None
    verdict, *rest = (due if due.startswith("refused") else due.split(" ", 1)[1]).split(" ")
    found = {"refused": [str(told["code"])], "halts": [str(told["steps"])]}.get(told["verdict"], [])
    if (told["line"], told["text"].encode("latin-1"), told["verdict"], found) != (number, line, verdict, rest[:len(found)]):
        return f"{told!r}, and not {due!r}"
    return None if (told["words"] is None) == (verdict == "refused") else f"words of {told!r}"


def compare_records(rng, lines, counts):
    lines = [line if rng.random() < 0.6 else damaged(rng, line, lines) for line in rng.sample(lines[1:], 3)]
    lines += rng.choice([[], [b"</script><!--<b>&'\""], [b"1RB1LB_1LA--- H 6 4</script>"]])
    lines = [line for line in lines if b"\n" not in line]
    title = rng.choice(["a", "</script><!--", "<b>&'\"", "\u03a3"])
    page, said, _ = page_of("--table", "--title", title, given=b"".join(line + b"\n" for line in lines))
    told = LINES.findall(page)
    if len(told) != 1 or said or told[0].count("\n") != len(lines):
        return f"page of records {lines!r}: {told!r}, {said!r}"
    counts["a page of records"] += 1
    wrong = [object_differs(k + 1, line, json.loads(text)) for k, (line, text) in enumerate(zip(lines, told[0].split("\n")))]
    wrong += [shell_differs("records", page, title), None if ORIGIN.findall(page) == [origin_of()] else "what it is made from"]
    wrong = [words for words in wrong if words]
    return f"page of records {lines!r}: {wrong[0]}" if wrong else None


def main():
    ledgers = [whole(1), whole(2), whole(3)[:300]]

    def once(rng, _number, folder, counts):
        lines = rng.choice(ledgers)
        wrong = compare_ledger(rng, lines, os.path.join(folder, "ledger"), counts) or compare_records(rng, lines, counts)
        if wrong is None:
            parts = os.path.join(folder, "parts")
            wrong = compare_folder(rng, lines, parts, counts)
            shutil.rmtree(parts, ignore_errors=True)
        return wrong

    return play("pages", sys.argv[1:], 300, once)


if __name__ == "__main__":
    sys.exit(main())
