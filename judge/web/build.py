#!/usr/bin/env python3
"""Builds docs/judge.html, the judge as a page: judge/web/build.py [FILE]. FILE is where it is put, if not there.

The judge's OCaml is compiled by js_of_ocaml, and put into page.html with the other files that stand here. It needs ocamlfind and
js_of_ocaml (apt install js-of-ocaml ocaml-findlib); the same versions of both give the same bytes. The page has the sum of the
judge's sources: that of `cd judge && LC_ALL=C sha256sum *.v answering.ml extracted/* ledgers.ml reading.ml web/browser.ml
web/export.js | sha256sum`.

  --kept    compiles nothing: the judge is taken from the kept page, whose sum has to be that of the sources
  --check   changes nothing: the kept page must be what --kept would make
  --tools   prints `same` where ocamlc and js_of_ocaml are those that made the kept page, else `other`, or `none` without them"""
import glob
import hashlib
import os
import re
import shutil
import subprocess
import sys
import tempfile

WEB = os.path.dirname(os.path.abspath(__file__))
JUDGE = os.path.dirname(WEB)
KEPT = os.path.join(os.path.dirname(JUDGE), "docs", "judge.html")
OCAML = ["extracted/judging.mli", "extracted/judging.ml", "reading.ml", "ledgers.ml", "answering.ml", "web/browser.ml"]


def read(name):
    with open(os.path.join(JUDGE, name), encoding="utf-8") as file:
        return file.read()


def source_sum():
    """The sum of the judge's sources."""
    names = {*OCAML, "web/export.js", *(os.path.basename(path) for path in glob.glob(os.path.join(JUDGE, "*.v")))}
    sums = (f"{hashlib.sha256(read(name).encode()).hexdigest()}  {name}\n" for name in sorted(names))
    return hashlib.sha256("".join(sums).encode()).hexdigest()


def tools():
    """The compilers, by name and version; none where one isn't there."""
    if not (shutil.which("ocamlfind") and shutil.which("js_of_ocaml")):
        return None
    said = [subprocess.run(words, capture_output=True, text=True, check=True).stdout.strip()
            for words in (["ocamlfind", "ocamlc", "-version"], ["js_of_ocaml", "--version"])]
    return "OCaml {} and js_of_ocaml {}".format(*said)


def compiled():
    """The judge in JavaScript."""
    with tempfile.TemporaryDirectory() as folder:
        names = [os.path.basename(name) for name in OCAML]
        for name, path in zip(names, OCAML, strict=True):
            shutil.copyfile(os.path.join(JUDGE, path), os.path.join(folder, name))
        subprocess.run(["ocamlfind", "ocamlc", "-no-check-prims", *names, "-o", "judge.byte"], cwd=folder, check=True)
        subprocess.run(["js_of_ocaml", os.path.join(WEB, "export.js"), "judge.byte", "-o", "judge.js"], cwd=folder, check=True)
        with open(os.path.join(folder, "judge.js"), encoding="utf-8") as file:
            return file.read()


def assembled(judge, made_by):
    """The page with a judge, and by what that was compiled."""
    parts = {"STYLE": read("web/style.css"), "WORKER": read("web/worker.js"), "PICTURE": read("web/picture.js")}
    parts |= {"PAGE": read("web/page.js"), "JUDGE": judge, "SUM": source_sum(), "TOOLS": made_by}
    for name in ("STYLE", "WORKER", "PICTURE", "PAGE", "JUDGE"):
        if re.search(r"</s(cript|tyle)|<!--", parts[name], re.I):
            sys.exit(f"build.py: {name} can't stand in a page")
    return re.sub("@([A-Z]+)@", lambda found: parts[found[1]], read("web/page.html"))


def kept():
    """The kept page, its judge, and by what that was compiled."""
    with open(KEPT, encoding="utf-8") as file:
        page = file.read()
    judge = re.search(r"<script type='text/plain' id='judge'>\n(.*?)</script>", page, re.S)
    return page, judge[1], re.search(r"Made by (.*?)\.</p>", page)[1]


def again():
    """The page with the judge of the kept one."""
    page, judge, made_by = kept()
    if f"<code>{source_sum()}</code>" not in page:
        sys.exit("docs/judge.html isn't of these sources of the judge: make -C judge page")
    return assembled(judge, made_by)


def put(path, page):
    with open(path, "w", encoding="utf-8") as file:
        file.write(page)


def main():
    words = sys.argv[1:]
    if words == ["--kept"]:
        put(KEPT, again())
    elif words == ["--check"]:
        if kept()[0] != again():
            sys.exit("docs/judge.html isn't made of judge/web/: judge/web/build.py --kept")
    elif words == ["--tools"]:
        print("none" if not tools() else "same" if tools() == kept()[2] else "other")
    elif len(words) > 1 or words[:1] == ["--help"]:
        sys.exit(__doc__.strip())
    elif not tools():
        sys.exit("build.py: apt install js-of-ocaml ocaml-findlib")
    else:
        put(words[0] if words else KEPT, assembled(compiled(), tools()))


main()
