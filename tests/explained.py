#!/usr/bin/env python3
"""Compares what explain prints of generated texts with the reading of document 01: its numbers, places and other places, and from them the
heads, the lines shown and the marks, worked out here. Of a sentence only the word at fault is asked; of 7 what may stand there, which is
what that reading lets pass; and of 41 and 42 all of it, by what the reading says of the name. tests/cases/explain.sh has the wording.

explained.py PROGRAM [--count N] [--seed S]

The last line is `N cases, D differences`; the exit is 1 where D is not 0, or where some refusal from 3 on does not occur, or some number that
is about two things does not occur with its other one.
"""
import argparse
import os
import random
import re
import subprocess
import sys
import tempfile

sys.dont_write_bytecode = True
sys.path.insert(0, os.path.dirname(os.path.abspath(__file__)))

import ask

KINDS = {1: "identity", 2: "plain OID", 3: "object identity", 4: "object", 5: "textual convention", 6: "SEQUENCE type", 7: "notification"}
REFUSALS = [n for n in range(3, 23) if n != 11] + [41, 42]
OTHERS = {9, 10, 15, 16, 18, 20, 21, 22, 42}
# Of 41 and 42: what is needed where a name stands, and what a name is.
NEEDED = {"macro": "a macro is needed here", "convention-type": "the SYNTAX of a convention needs a type of SNMPv2-SMI",
          "object-type": "SYNTAX needs a type", "column-type": "a column needs a type other than a SEQUENCE type",
          "head": "an OID is needed here", "INDEX": "INDEX needs an object", "AUGMENTS": "AUGMENTS needs an object",
          "OBJECTS": "OBJECTS needs an object", "SEQUENCE": "SEQUENCE needs an object", "OF": "OF needs a SEQUENCE type"}
IS = {"unknown": "neither defined nor imported", "iso": "a built-in OID", "identity": "the module's identity", "plain": "a plain OID",
      "object-identity": "an object identity", "convention": "a textual convention", "sequence": "a SEQUENCE type",
      "notification": "a notification", "imported-oid": "an imported OID", "imported-type": "an imported type"}
IN_SENTENCE = {10}   # the other one is named in the sentence, and not shown
LATIN = b"-- Z\xfcrich -- -- \xe2\x82\xac\tand \xf0\x9f\x94\x8b --\t"   # a comment with bytes over 127, in UTF-8 and not, and tabs
WORD = re.compile(rb"[A-Za-z](?:[A-Za-z0-9]|-(?=[A-Za-z0-9]))*|-?[0-9]+")   # a name or a number, where a token starts
CUT = b".."
LONGEST = 210   # bytes of a line that are shown
# The order in which what may stand is named: capital words, words that are lower too, names, marks, and the rest.
CAPITALS = """UNITS TEXTUAL-CONVENTION SYNTAX STRING STATUS SIZE SEQUENCE REVISION REFERENCE ORGANIZATION OF OCTET OBJECTS OBJECT-TYPE
OBJECT-IDENTITY OBJECT NOTIFICATION-TYPE MODULE-IDENTITY MAX-ACCESS LAST-UPDATED INTEGER INDEX IMPORTS IMPLIED IDENTIFIER FROM END DISPLAY-HINT
DESCRIPTION DEFVAL DEFINITIONS CONTACT-INFO BITS BEGIN AUGMENTS""".split()
SMALL = "read-create read-write read-only accessible-for-notify not-accessible obsolete deprecated current".split()
MARKS = "| ; , ) ( } { .. ::=".split()
NAMED = CAPITALS + SMALL + ["Upper", "lower"] + MARKS + ["hex", "text", "number"]


def character_at(text, i):
    """How many bytes the character at i has, by Python's own decoder; a byte that starts none is one."""
    for size in (1, 2, 3, 4):
        try:
            if len(text[i:i + size].decode("utf-8")) == 1:
                return size
        except UnicodeDecodeError:
            pass
    return 1


def line_of(text, place):
    """Where the line of a place starts and ends."""
    start = text.rfind(b"\n", 0, place) + 1
    end = text.find(b"\n", place)
    end = len(text) if end < 0 else end
    if text[start:end].endswith(b"\r") and place < end:
        end -= 1
    return start, end


def marked(shown, mark):
    """The offset in the line shown that the mark is below, or None: tabs stand in its margin as they are, each other character is a blank."""
    margin, i = b"", 0
    while i < len(shown) and len(margin) < len(mark) - 1:
        margin += shown[i:i + 1] if 9 <= shown[i] <= 13 else b" "
        i += character_at(shown, i)
    return i if mark == margin + b"^" else None


def is_part(text, place, shown, at):
    """Is this the line of the place, or a part with dots where it is cut, in which the place is at this offset?"""
    start, end = line_of(text, place)
    for before in (b"", CUT):
        for behind in (b"", CUT):
            part = shown[len(before):len(shown) - len(behind)]
            first = place - (at - len(before))
            last = first + len(part)
            if shown == before + part + behind and start <= first <= place <= last <= end and text[first:last] == part and \
                    (first > start) == bool(before) and (last < end) == bool(behind):
                return True
    return False


def head(name, text, place, number):
    line = text.count(b"\n", 0, place) + 1
    column = place - (text.rfind(b"\n", 0, place) + 1) + 1
    return b"%s:%d:%d: refused %d: " % (name, line, column, number)


def classes_before(text, place, listing):
    """The classes of the tokens before a place, as the reading takes them."""
    found = []
    for line in listing.decode().splitlines()[:-1]:
        start, end, kind = line.split("\t")
        if int(start) < place:
            word = text[int(start):int(end)].decode("latin-1")
            found.append(word if word in SMALL else "negative" if kind == "number" and word[0] == "-" else kind)
    return found


def named(before):
    """What may stand behind some classes, in words."""
    said = ask.lines("derives", [" ".join(before + [kind]).encode() for kind in NAMED])
    kinds = [kind for kind, fault in zip(NAMED, said) if fault == b"derived" or int(fault) > len(before)]
    if "lower" in kinds:
        kinds = [kind for kind in kinds if kind not in SMALL]
    kinds = ["'%s'" % kind if kind in MARKS else kind for kind in kinds]
    if len(kinds) > 5:
        return ", ".join(kinds[:5]) + " and others"
    return " or ".join([", ".join(kinds[:-1])] * (len(kinds) > 1) + kinds[-1:])


def ending_of(text, place, listing):
    """What a sentence on the grammar ends with."""
    may = named(classes_before(text, place, listing))
    if place == len(text):
        return "the text ends here, and the module does not; %s may follow" % may
    return " may not stand here; %s may" % may if may else " stands behind the module's END"


def use_sentence(text, use):
    """The sentence on a name that is not known, or is of another kind than is needed."""
    number, place, needed, what, offer = use.decode().split()
    sentence = "'%s' is %s, and %s" % (WORD.match(text, int(place)).group().decode(), IS[what], NEEDED[needed])
    # A type of SNMPv2-TC would break rule 19 in a convention, so that none is told to import it there.
    told = offer != "-" and (needed, offer) != ("convention-type", "SNMPv2-TC")
    return sentence + "; %s offers it" % offer if told else sentence


def words_at(text, place):
    """What the sentence holds: the word at the place in quotes, where it is a name or a number."""
    word = WORD.match(text, place)
    return [b"'%s'" % word.group()] if word else []


def block_differs(name, text, place, number, words, lines):
    """What is wrong with the three lines on a place, or None. The sentence holds the words."""
    sentence, shown, mark = lines
    wanted = head(name, text, place, number)
    if not sentence.startswith(wanted) or sentence == wanted:
        return "%r, not %r" % (sentence, wanted)
    for word in words:
        if word not in sentence[len(wanted):]:
            return "%r without %r" % (sentence, word)
    if len(shown) > LONGEST:
        return "a line of %d bytes" % len(shown)
    at = marked(shown, mark)
    if at is None or not is_part(text, place, shown, at):
        return "%r below %r for the place %d" % (mark, shown, place)
    return None


def refused_differs(name, text, answer, lines):
    number, place, other = answer
    blocks = [(at, words_at(text, at) if number > 7 else []) for at in (place, other) if at is not None]
    if number in IN_SENTENCE:
        blocks = [(place, blocks[0][1] + [WORD.match(text, other).group()])]
    if len(lines) != 3 * len(blocks):
        return "%d lines, not %d: %r" % (len(lines), 3 * len(blocks), lines[:1])
    found = [block_differs(name, text, at, number, words, lines[3 * k:3 * k + 3]) for k, (at, words) in enumerate(blocks)]
    return next(filter(None, found), None)


def accepted_differs(name, card, lines):
    kinds = [int(line.split(b"\t")[0]) for line in card.splitlines()[1:]]
    words = "".join(", %s %d" % (KINDS[kind], kinds.count(kind)) for kind in KINDS if kind in kinds)
    wanted = [b"%s: accepted: definitions %d%s" % (name, len(kinds), words.encode())]
    return None if lines == wanted else "%r, not %r" % (lines, wanted)


def differs(name, answer, card, listing, use, lines):
    """What is wrong with the lines on a file, or None."""
    if answer[0] == 0:
        return accepted_differs(name.encode(), card, lines)
    with open(name, "rb") as file:
        text = file.read()
    if answer[0] == 7:
        ending = ending_of(text, answer[1], listing)
        if not lines[0].endswith(ending.encode()):
            return "%r, which does not end %r" % (lines[0], ending)
    if answer[0] in (41, 42):
        sentence = head(name.encode(), text, answer[1], answer[0]) + use_sentence(text, use).encode()
        if lines[0] != sentence:
            return "%r, not %r" % (lines[0], sentence)
    return refused_differs(name.encode(), text[:65537] if answer[0] == 2 else text, answer, lines)


def made(count, seed, folder):
    """Files of generated texts; in every third, comments with bytes over 127 and tabs stand before some of its lines."""
    names = ask.made(count, seed, folder)
    for name in names[::3]:
        with open(name, "rb") as file:
            text = file.read()
        if b'"' not in text[:40]:
            lines = random.Random(os.path.basename(name)).randrange(1, 30)
            with open(name, "wb") as file:
                file.write(text.replace(b"\n", b"\n" + LATIN, lines))
    return names


def answers(names):
    """Number, place and other place of each file, by the reading."""
    for said in ask.files("other", names):
        number, place, other = said.split()
        yield int(number), int(place), None if other == b"-" else int(other)


def printed(program, names):
    """The lines of each file: up to the one that names another."""
    lines = []
    for k in range(0, len(names), 500):
        lines += subprocess.run([program] + names[k:k + 500], stdout=subprocess.PIPE).stdout.split(b"\n")[:-1]
    folder = os.path.dirname(names[0]).encode()
    for name in names:
        end = next((k for k, line in enumerate(lines) if k and line.startswith(folder) and not line.startswith(name.encode())), len(lines))
        yield lines[:end]
        lines = lines[end:]


def main():
    parser = argparse.ArgumentParser()
    parser.add_argument("program")
    parser.add_argument("--count", type=int, default=1000)
    parser.add_argument("--seed", type=int, default=1)
    options = parser.parse_args()
    differences, seen, with_other = 0, set(), set()
    with tempfile.TemporaryDirectory() as folder:
        names = made(options.count, options.seed, folder)
        asked = [ask.files(word, names) for word in ("card", "tokens", "use")]
        said = zip(names, answers(names), *asked, printed(options.program, names))
        for name, answer, card, listing, use, lines in said:
            seen.add(answer[0])
            if answer[2] is not None:
                with_other.add(answer[0])
            difference = differs(name, answer, card, listing, use, lines)
            if difference:
                differences += 1
                print("text %s of seed %d: the program says %s" % (os.path.basename(name), options.seed, difference))
    missing = [n for n in REFUSALS if n not in seen] + sorted(OTHERS - with_other)
    if missing:
        print("no case of %s" % missing)
    print("%d cases, %d differences" % (options.count, differences))
    sys.exit(1 if differences or missing else 0)


if __name__ == "__main__":
    main()
