#!/usr/bin/env python3
"""The examples of docs/RULES.md, each answered by the independent reading.

An example is refused by the number of the section it stands in, at the place
that its caret marks; a further one without a caret is accepted. It is put after
the identity of a module; one that begins with IMPORTS takes the place of the
imports. Examples with dots stand for a longer text, which is made here. Says
what differs and exits 1.
"""

import pathlib
import re
import sys

sys.dont_write_bytecode = True
HERE = pathlib.Path(__file__).resolve().parent
sys.path.insert(0, str(HERE))

import ask

IMPORTS = (b"IMPORTS MODULE-IDENTITY, OBJECT-IDENTITY, OBJECT-TYPE, "
           b"NOTIFICATION-TYPE, Integer32, Counter32 FROM SNMPv2-SMI "
           b"TEXTUAL-CONVENTION, DisplayString FROM SNMPv2-TC;\n")
IDENTITY = (b't MODULE-IDENTITY LAST-UPDATED "" ORGANIZATION "" '
            b'CONTACT-INFO "" DESCRIPTION "" ::= { iso 9 }\n')


def plain(name, numbers):
    return b"%s OBJECT IDENTIFIER ::= { t %s }\n" % (
        name, b" ".join(b"%d" % n for n in numbers))


# What stands behind the dots of an example, and the name that it is refused at.
LONGER = {
    8: (b"".join(plain(b"t%d" % n, [n]) for n in range(1, 513)), b"t512 "),
    13: (plain(b"a", [1] * 127), b"a OBJECT"),
    14: (b"".join(plain(b"d%d" % n, [n] + [1] * 124)
                  for n in range(1, 66)), b"d65 "),
}


def examples(page):
    """The sections' numbers, each with its examples, by their lines."""
    for section in re.split(rb"(?m)^### ", page)[1:]:
        number = int(section[:section.index(b":")])
        parts = re.findall(rb"(?m)(?:^(?:    .*)?\n)+", section)
        given = [[l[4:] for l in part.split(b"\n") if l.startswith(b"    ")] for part in parts]
        yield number, [lines for lines in given if lines]


def marked(lines):
    """The text without its caret, and the offset that the caret marks."""
    text, place = b"", None
    for line in lines:
        if line.strip() == b"^":
            # The caret stands below a character; the offset is in bytes.
            above = text[start:].decode()
            place = start + len(above[:line.index(b"^")].encode())
        else:
            start = len(text)
            text += line + b"\n"
    return text, place


def whole(text):
    """The module around an example, and where the example starts in it."""
    head = b"T DEFINITIONS ::= BEGIN\n"
    if text.startswith(b"IMPORTS"):
        return head + text + IDENTITY + b"END\n", len(head)
    head += IMPORTS + IDENTITY
    return head + text + b"END\n", len(head)


def modules():
    """Each example's number, the module around it, and its place there; None
    where it is accepted. A section without an example gives none."""
    page = (HERE.parent / "docs" / "RULES.md").read_bytes()
    for number, given in examples(page):
        for lines in given:
            text, place = marked(lines)
            if b"..." in text:
                text, name = LONGER[number]
                place = text.index(name)
            module, start = whole(text)
            yield number, module, None if place is None else start + place


def is_answer(number, place, card):
    """Is this the card of an example?"""
    if place is None:
        return card.startswith(b"accepted\t")
    return card == b"refused\t%d\t%d\n" % (number, place)


def misses(number, given):
    """Does a section's first example lack its place?"""
    return bool(given) and marked(given[0])[1] is None and number not in LONGER


def main():
    page = (HERE.parent / "docs" / "RULES.md").read_bytes()
    seen = [number for number, _ in examples(page)]
    wrong = 0
    for number in [number for number, given in examples(page) if misses(number, given)]:
        wrong += 1
        print("the example of %d marks no place" % number)
    given = list(modules())
    cards = ask.texts("card", [module for _, module, _ in given])
    for (number, _, place), card in zip(given, cards):
        if not is_answer(number, place, card):
            wrong += 1
            print("example of %d: answered %r, marked at %s" % (number, card, place))
    if seen != [*range(1, 12), 41, 42, *range(12, 23)]:
        wrong += 1
        print("the sections are %s" % seen)
    print("%d sections, %d differences" % (len(seen), wrong))
    return 1 if wrong else 0


if __name__ == "__main__":
    sys.exit(main())
