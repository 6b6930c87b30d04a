#!/usr/bin/env python3
"""Writes crates/card/data, args and stdout: modules, and the cards that they have.

The whole case of document 01 stands with the lines that the paper prints, and
each example of docs/RULES.md with the number and the place that the page marks;
the independent reading has to agree. The other cards are the reading's. With
--check nothing is written; it says which files are not what they should be.
"""

import pathlib
import shutil
import sys

sys.dont_write_bytecode = True
HERE = pathlib.Path(__file__).resolve().parent
CRATE = HERE.parent / "crates" / "card"
sys.path.insert(0, str(HERE))

import ask
import rule_examples

WHOLE = (HERE / "texts" / "whole").read_bytes()
PRINTED = b"accepted\t2\n1\tt\t1.9\t0\t0\t0\n2\ta\t1.9.1\t0\t0\t0\n"


def plain_module(count):
    """A module of so many definitions, its identity among them."""
    names = b"".join(rule_examples.plain(b"t%d" % n, [n]) for n in range(1, count))
    return rule_examples.whole(names)[0]


def longest_lines():
    """Lines as long as names and OIDs allow: 64 bytes, and 128 numbers, of ten digits where they are free."""
    names = b"".join(rule_examples.plain(b"n%02d" % n + b"x" * 61, [4294967295 - n] + [4294967295] * 125) for n in range(12))
    return rule_examples.whole(names)[0]


def notification(oid):
    """A module with a notification at the end, and where that one starts. `a` has the shortest OID there is, 1.0."""
    given = b'a OBJECT IDENTIFIER ::= { iso 0 }\n', b'n NOTIFICATION-TYPE STATUS current DESCRIPTION "" ::= { %s }\n' % oid
    module, start = rule_examples.whole(b"".join(given))
    return module, start + len(given[0])


def names_of_no_object(names):
    """A module with a notification that lists these names, itself among them, and where the first of them stands."""
    given = b"n NOTIFICATION-TYPE OBJECTS { ", names, b' } STATUS current DESCRIPTION "" ::= { t 0 1 }\n'
    module, start = rule_examples.whole(b"".join(given))
    return module, start + len(given[0])


# The first lines of an accepted one.
ACCEPTED = b"accepted\t3\n1\tt\t1.9\t0\t0\t0\n2\ta\t1.0\t0\t0\t0\n"


# The card of the one example that is accepted: its identity, and a convention of class 1.
LEVEL = b"accepted\t2\n1\tt\t1.9\t0\t0\t0\n5\tLevel\t-\t1\t0\t1\n"


def vectors():
    """A name, a text, and its card where it is known from elsewhere."""
    yield "whole", WHOLE, PRINTED
    example = HERE.parent / "examples" / "QUAY-UPS-MIB"
    yield example.name, example.read_bytes(), None
    for number, module, place in rule_examples.modules():
        if place is None:
            yield "kept-%02d" % number, module, LEVEL
        else:
            yield "rule-%02d" % number, module, b"refused\t%d\t%d\n" % (number, place)
    yield "definitions-512", plain_module(512), None
    yield "longest-lines", longest_lines(), None
    yield "bytes-65536", WHOLE + b" " * (65536 - len(WHOLE)), PRINTED
    yield "bytes-65537", WHOLE + b" " * (65537 - len(WHOLE)), b"refused\t2\t0\n"
    yield "empty", b"", b"refused\t7\t0\n"
    # Of two numbers the next-to-last is the head's, which is 1 in 1.5; behind `a` it is 0.
    module, place = notification(b"iso 5")
    yield "two-numbers", module, b"refused\t22\t%d\n" % place
    # 41 and 42 hold one place in the order: the earlier use comes first, whichever number it has.
    for name, number, names in ("unknown-first", 41, b"x, n"), ("other-kind-first", 42, b"n, x"):
        module, place = names_of_no_object(names)
        yield name, module, b"refused\t%d\t%d\n" % (number, place)
    yield "three-numbers", notification(b"a 5")[0], ACCEPTED + b"7\tn\t1.0.5\t0\t0\t1\n"


def cards(cases):
    """The card of each case, by the reading, which agrees where it is known."""
    read = ask.texts("card", [text for _, text, _ in cases])
    for (name, _, known), card in zip(cases, read):
        assert known is None or card == known, (name, card, known)
    return read


def files():
    """The path below the crate and the bytes of each file."""
    cases = list(vectors())
    for name, text, known in cases:
        yield pathlib.Path("data") / name, text
    yield pathlib.Path("args"), b"".join(name.encode() + b"\n" for name, _, _ in cases)
    yield pathlib.Path("stdout"), b"".join(case[0].encode() + b"\n" + card for case, card in zip(cases, cards(cases)))


def check(made):
    held = {path.relative_to(CRATE): path.read_bytes()
            for part in ("data/*", "args", "stdout") for path in CRATE.glob(part)}
    wrong = sorted(path for path in held.keys() | made.keys() if held.get(path) != made.get(path))
    for path in wrong:
        print(f"card_vectors: crates/card/{path} is not what it should be; run tests/card_vectors.py", file=sys.stderr)
    sys.exit(1 if wrong else 0)


def main():
    made = dict(files())
    if "--check" in sys.argv:
        check(made)
    shutil.rmtree(CRATE / "data", ignore_errors=True)
    (CRATE / "data").mkdir()
    for path, text in made.items():
        (CRATE / path).write_bytes(text)
    print(len(made) - 2, "modules")


main()
