#!/usr/bin/env python3
"""Names what the documents speak of and the tree does not have: files by their links and paths, crates, and functions by `crate::name`.
Prints a line for each and fails if there is one. Run from the repository's top."""

import glob
import os
import re
import sys

TEXTS = ["README.md", "crates.txt"] + glob.glob("docs/*.md") + glob.glob("include/*.h")
SOURCES = [f for ending in ("rt", "antt") for f in glob.glob("crates/*/*/**/*." + ending, recursive=True)]
KIT = {"std"}


def crates():
    with open("crates.txt") as file:
        return [line.split(":")[0].split()[0] for line in file if ":" in line and not line.startswith("#")]


def code_of(crate):
    return "".join(open(f).read() for f in glob.glob("crates/%s/src/**/*.rt" % crate, recursive=True))


def dead_paths(name, text):
    for path in re.findall(r"crates/[\w/.]*\w", text):
        if not os.path.exists(path):
            yield path
    if name.endswith(".md"):
        for link in re.findall(r"\]\(([^)#:]+)\)", text):
            if not os.path.exists(os.path.join(os.path.dirname(name), link)):
                yield link


def dead_names(text, known, code):
    for path in re.findall(r"`([a-z_]+(?:::\w+)+)`", text):
        crate, last = path.split("::")[0], path.split("::")[-1]
        if crate in KIT:
            continue
        if crate not in known:
            yield path
        elif not re.search(r"\b(fn|struct|enum|const|mod) %s\b|^ +%s\b" % (last, last), code[crate], re.MULTILINE):
            yield path


def main():
    known = crates()
    code = {crate: code_of(crate) for crate in known}
    found = []
    for name in TEXTS + SOURCES:
        with open(name) as file:
            text = file.read()
        found += ["%s: %s" % (name, path) for path in dead_paths(name, text)]
        if name.endswith(".md"):
            found += ["%s: `%s`" % (name, path) for path in dead_names(text, known, code)]
    with open("docs/ARCHITECTURE.md") as file:
        table = file.read()
    found += ["docs/ARCHITECTURE.md: no word of `%s`" % crate for crate in known if "`%s`" % crate not in table]
    print("\n".join(sorted(set(found))), end="\n" if found else "")
    sys.exit(1 if found else 0)


main()
