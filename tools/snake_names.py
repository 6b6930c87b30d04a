#!/usr/bin/env python3
"""Brings the repository's own definitions and lemmas to snake case, as `byte-at` to `byte_at`. Run once, after port.py.

usage: snake_names.py [--check]

A dash goes where both its sides are in lower case; beside a capital it stays, as in `All-below`, and so do words of a grammar, as
`MAX-ACCESS`. What turns: every word of specs/ and proofs/, of clauses and `ghost use` items in src/, and of code spans in comments, that
is declared in specs/ or proofs/. Strings, and bare words of comments, stay. --check writes nothing and prints what would fall together.
"""
import collections
import os
import re
import sys

SIGN = r"[^\s(){}.;,@\"«»\[\]\x60]"
WORD = re.compile(SIGN + "+")
DECLARED = re.compile(r"^ *(?:(?:abbrev|unfoldable|pub) )*(?:(?:record|data|ruleset) )?(" + SIGN + r"+)(?= )")
OF_TYPE = re.compile(r"^ *(?:(?:abbrev|unfoldable|pub) )*((?:" + SIGN + r"+ )+): ")
PART = re.compile(r"[a-z0-9₀-₉'][A-Za-z0-9₀-₉'_]*")


def is_plain(part):
    return PART.fullmatch(part) is not None


def turned(name):
    parts = name.split("-")
    made = parts[0]
    for before, after in zip(parts, parts[1:]):
        made += ("_" if is_plain(before) and is_plain(after) else "-") + after
    return made


def files(end):
    for folder, dirs, names in os.walk("crates"):
        dirs[:] = sorted(d for d in dirs if d != "out")
        for name in sorted(names):
            if name.endswith(end):
                yield os.path.join(folder, name)


def is_declared(line, following):
    """The names that a line declares: at a type, or as a record, data or ruleset."""
    bare = re.sub(r"^ *(?:(?:abbrev|unfoldable|pub) )*", "", line)
    if re.match(r"(use|mod|module|--|→|let|in|unfolding|open|where|\||\(|λ)(?= |$|\()", bare):
        return []
    kind = re.match(r"(?:record|data|ruleset) (" + SIGN + "+)", bare)
    if kind:
        return [kind[1]]
    typed = re.match(r"((?:" + SIGN + r"+ )+):(?= |$)", bare)
    return typed[1].split() if typed else []


def read(path):
    with open(path, encoding="utf-8") as file:
        return file.read()


def table():
    found = {}
    for path in files(".antt"):
        own = path.endswith(("/Proof.antt", "/Answers.antt", "/Invariants.antt"))
        for line in read(path).splitlines():
            if own and re.search(r"\btie\.(?:Need|invariant|decreases)|\bgoal\.|_spec :| :$", line):
                continue
            for name in is_declared(line, None):
                if "-" in name and turned(name) != name and re.search("[a-z]", name):
                    found[name] = turned(name)
    return found


def in_antt(text, rows):
    def piece(m):
        if m["comment"]:
            return re.sub(r"\x60[^\x60\n]*\x60", lambda span: words(span[0], rows), m[0])
        if m["text"]:
            return m[0]
        return words(m[0], rows)
    return re.sub(r"(?P<comment>(?<!\S)--[^\n]*)|(?P<text>\"(?:\\.|[^\"\\\n])*\")|(?P<code>(?:(?!(?<!\S)--)[^\"])+)", piece, text)


def in_rt(text, rows):
    def piece(m):
        if m["comment"]:
            return re.sub(r"\x60[^\x60\n]*\x60", lambda span: words(span[0], rows), m[0])
        if m["text"]:
            return m[0]
        return words(m[0], rows)
    return re.sub(r"(?P<comment>//[^\n]*)|(?P<text>b?\"(?:\\.|[^\"\\])*\"|b?'(?:\\.|[^'\\])')|(?P<code>(?:(?!//)[^\"'])+|')", piece, text)


def in_edit(text, rows):
    """The lines of an edit that stand for lines of a file."""
    turn = in_rt if re.search(r"(?m)^file: .*\.rt$", text) else in_antt
    return re.sub(r"(?m)^((?:old|new): )(.*)$", lambda m: m[1] + turn(m[2], rows), text)


def words(text, rows):
    return WORD.sub(lambda m: rows.get(m[0], m[0]), text)


def clashes(rows):
    """Spellings that are in use already: two names would be one."""
    by_new = collections.defaultdict(set)
    for old, new in rows.items():
        by_new[new].add(old)
    for new, olds in sorted(by_new.items()):
        if len(olds) > 1:
            print("two become one:", new, sorted(olds))
    for path in files(".antt"):
        code = re.sub(r"(?<!\S)--[^\n]*", "", read(path))
        found = set(WORD.findall(code))
        for new in sorted(found & set(by_new)):
            print("in use:", path, new)
    for path in files(".rt"):
        for name in re.findall(r"[(,]\s*(?:mut )?(\w+): ", read(path)):
            if name in by_new:
                print("a parameter:", path, name)


def main(argv):
    rows = table()
    if argv == ["--check"]:
        clashes(rows)
        print(len(rows), "names")
        return
    for path in files(".antt"):
        text = read(path)
        made = in_antt(text, rows)
        if made != text:
            with open(path, "w", encoding="utf-8") as file:
                file.write(made)
    for path in [*files(".rt"), *files(".edit")]:
        text = read(path)
        made = in_edit(text, rows) if path.endswith(".edit") else in_rt(text, rows)
        if made != text:
            with open(path, "w", encoding="utf-8") as file:
                file.write(made)
    print(len(rows), "names")


main(sys.argv[1:])
