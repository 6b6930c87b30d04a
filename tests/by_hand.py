#!/usr/bin/env python3
"""Holds the programs card and explain to the answers that were worked out by hand, in tests/reading/tests/by_hand.txt: what a card has, and
which places explain names, that of the refusal and that of the other one.

by_hand.py CARD EXPLAIN

The last line is `N cases, D differences`; the exit is 1 where D is not 0.
"""
import os
import re
import subprocess
import sys
import tempfile

sys.dont_write_bytecode = True
HERE = os.path.dirname(os.path.abspath(__file__))
sys.path.insert(0, HERE)

import ask

CASES = os.path.join(HERE, "reading", "tests", "by_hand.txt")
IN_SENTENCE = {10}   # explain names the other one in its sentence, and does not show it
# What stands around a case, as tests/reading/tests/modules.rs has it.
IDENTITY = b't MODULE-IDENTITY LAST-UPDATED "" ORGANIZATION "" CONTACT-INFO "" DESCRIPTION "" ::= { iso 9 } '
IMPORTS = (b"IMPORTS MODULE-IDENTITY, OBJECT-IDENTITY, OBJECT-TYPE, NOTIFICATION-TYPE, Integer32, IpAddress, Counter32, Gauge32, Unsigned32, "
           b"TimeTicks, Opaque, Counter64, mib-2, zeroDotZero FROM SNMPv2-SMI TEXTUAL-CONVENTION, DisplayString, TruthValue, TestAndIncr, "
           b"TimeStamp, RowPointer FROM SNMPv2-TC; ")
BEGIN = b"T DEFINITIONS ::= BEGIN "
AROUND = {"": (b"", b""), "after t": (BEGIN + IMPORTS + IDENTITY, b""), "before t": (BEGIN, b" " + IDENTITY + b"END")}
HEAD = re.compile(r"(accepted|refused (\d+))(?: (after t|before t))?: (.*)")


def taken_out(text, mark):
    """The text without a mark, and where the mark stood."""
    at = text.find(mark)
    return (text, None) if at < 0 else (text[:at] + text[at + 1:], at)


def case(block):
    """A title, a text, its card, and the places that explain shows, the refusal's first."""
    head, _, rest = block.partition(b"\n")
    _, number, where, title = HEAD.fullmatch(head.decode()).groups()
    given, _, lines = rest.partition(b"\n=\n")
    before, behind = AROUND[where or ""]
    text = re.sub(rb"\\x(..)", lambda byte: bytes.fromhex(byte.group(1).decode()), before + given + behind)
    text, place = taken_out(text, b"@")
    text, other = taken_out(text, b"~")
    if number is None:
        rows = [b"accepted %d" % (lines.count(b"\n") + 2), b"1 t 1.9 0 0 0", lines]
        return title, text, b"\n".join(rows).replace(b" ", b"\t") + b"\n", []
    # The second mark that is taken out moves what stands behind it.
    place = len(text) if place is None else place - (other is not None and other < place)
    shown = [place] if other is None or int(number) in IN_SENTENCE else [place, other]
    return title, text, b"refused\t%d\t%d\n" % (int(number), place), shown


def position(text, place):
    return text.count(b"\n", 0, place) + 1, place - (text.rfind(b"\n", 0, place) + 1) + 1


def main():
    card, explain = sys.argv[1:]
    with open(CASES, "rb") as file:
        blocks = file.read().strip().split(b"\n\n")
    cases = [case(block) for block in blocks if not block.startswith(b"#")]
    differences = 0
    with tempfile.TemporaryDirectory() as folder:
        names = [os.path.join(folder, "%03d" % k) for k in range(len(cases))]
        for name, (_, text, _, _) in zip(names, cases):
            with open(name, "wb") as file:
                file.write(text)
        said = [subprocess.run([program] + names, stdout=subprocess.PIPE).stdout for program in (card, explain)]
        cards = ask.parted(said[0], names)
        for name, (title, text, wanted, shown), found in zip(names, cases, cards):
            heads = re.findall(rb"(?m)^%s:(\d+):(\d+): refused" % re.escape(name.encode()), said[1])
            places = [(int(line), int(column)) for line, column in heads]
            if found != wanted or places != [position(text, place) for place in shown]:
                differences += 1
                print("%s: %r at %s, not %r at %s" % (title, found, places, wanted, [position(text, place) for place in shown]))
    print("%d cases, %d differences" % (len(cases), differences))
    sys.exit(1 if differences else 0)


if __name__ == "__main__":
    main()
