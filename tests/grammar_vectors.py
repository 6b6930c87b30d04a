#!/usr/bin/env python3
"""Texts for refusal 7, and a comparison of the transition table with the reading, which derives by one function for each rule.

    grammar_vectors.py --table    compare the two: at every state and class, and on random walks with a token put in,
                                  left out or changed

The texts, which token_vectors.py stores: none at all, the whole case of document 01 and its cut after each token, for
each kind of definition one with every optional part and one with none, and for each state of the automaton one that
fails there.
"""

import sys
from collections import deque
from pathlib import Path
from random import Random

sys.dont_write_bytecode = True
HERE = Path(__file__).resolve().parent
sys.path[:0] = [str(HERE), str(HERE.parent / "tools")]

import ask  # noqa: E402
import grammar_table  # noqa: E402

WHOLE = (HERE / "texts" / "whole").read_text()

HEAD = 'T DEFINITIONS ::= BEGIN t MODULE-IDENTITY LAST-UPDATED "" ORGANIZATION "" CONTACT-INFO "" DESCRIPTION "" '
FULL_HEAD = (
    "T DEFINITIONS ::= BEGIN IMPORTS a, B, OBJECT-TYPE FROM X current FROM Y; t MODULE-IDENTITY LAST-UPDATED "
    '"" ORGANIZATION "" CONTACT-INFO "" DESCRIPTION "" REVISION "" DESCRIPTION "" REVISION "" DESCRIPTION "" '
)
TAIL = 'STATUS current DESCRIPTION "" '
FULL_TAIL = 'STATUS obsolete DESCRIPTION "" REFERENCE "" '

# For each kind of definition: with no optional part, and then with all of them, once for each
# choice among them.
KINDS = {
    "plain": ["a OBJECT IDENTIFIER ::= { t 1 } ", "read-only OBJECT IDENTIFIER ::= { t b(1) 2 current(3) } "],
    "object-identity": [
        f"a OBJECT-IDENTITY {TAIL}::= {{ t 1 }} ",
        f"a OBJECT-IDENTITY {FULL_TAIL}::= {{ t 1 }} ",
    ],
    "object-type": [
        f"a OBJECT-TYPE SYNTAX INTEGER MAX-ACCESS read-only {TAIL}::= {{ t 1 }} ",
        f'a OBJECT-TYPE SYNTAX INTEGER {{ b(1), c(-2) }} UNITS "" MAX-ACCESS read-create {FULL_TAIL}'
        "INDEX { b, c, IMPLIED d } DEFVAL { { b, c } } ::= { t 1 } ",
        f'a OBJECT-TYPE SYNTAX INTEGER (-1 | 2..3) UNITS "" MAX-ACCESS read-write {FULL_TAIL}'
        "AUGMENTS { b } DEFVAL { { } } ::= { t 1 } ",
        f'a OBJECT-TYPE SYNTAX Gauge32 (0..9) UNITS "" MAX-ACCESS not-accessible {FULL_TAIL}'
        "INDEX { b } DEFVAL { -1 } ::= { t 1 } ",
        f'a OBJECT-TYPE SYNTAX DisplayString (SIZE (0..9 | 11)) UNITS "" MAX-ACCESS accessible-for-notify {FULL_TAIL}'
        "INDEX { IMPLIED b } DEFVAL { 'F0'H } ::= { t 1 } ",
        f'a OBJECT-TYPE SYNTAX OCTET STRING (SIZE (4)) UNITS "" MAX-ACCESS read-only {FULL_TAIL}'
        'AUGMENTS { b } DEFVAL { "" } ::= { t 1 } ',
        f'a OBJECT-TYPE SYNTAX BITS {{ b(0), c(1) }} UNITS "" MAX-ACCESS read-only {FULL_TAIL}'
        "INDEX { b, c } DEFVAL { b } ::= { t 1 } ",
        f'a OBJECT-TYPE SYNTAX OBJECT IDENTIFIER UNITS "" MAX-ACCESS read-only {FULL_TAIL}'
        "INDEX { b } DEFVAL { 7 } ::= { t 1 } ",
        f'a OBJECT-TYPE SYNTAX SEQUENCE OF B UNITS "" MAX-ACCESS not-accessible {FULL_TAIL}'
        "INDEX { b } DEFVAL { { b } } ::= { t 1 } ",
    ],
    "notification-type": [
        f"a NOTIFICATION-TYPE {TAIL}::= {{ t 0 1 }} ",
        f"a NOTIFICATION-TYPE OBJECTS {{ b, c }} {FULL_TAIL}::= {{ t 0 1 }} ",
    ],
    "textual-convention": [
        f"A ::= TEXTUAL-CONVENTION {TAIL}SYNTAX OCTET STRING ",
        f'A ::= TEXTUAL-CONVENTION DISPLAY-HINT "" {FULL_TAIL}SYNTAX OCTET STRING (SIZE (0..255)) ',
    ],
    "sequence-type": [
        "A ::= SEQUENCE { a INTEGER } ",
        "A ::= SEQUENCE { a INTEGER, b OCTET STRING, c OBJECT IDENTIFIER, d BITS, e Counter32 } ",
    ],
}

# What is written for a class that is not its own spelling.
SPELLED = {"lower": "a", "Upper": "A", "number": "1", "negative": "-1", "text": '""', "hex": "''H"}

# The names that the table's generator has for the marks. It has `_` for a word's dashes.
MARKS = {"assign": "::=", "dots": "..", "left_brace": "{", "right_brace": "}", "left_paren": "(", "right_paren": ")"}
MARKS |= {"comma": ",", "semicolon": ";", "bar": "|"}

class Table:
    """The transition table, and for each state the classes of a shortest way to it."""

    def __init__(self):
        rules = grammar_table.Grammar()
        start = grammar_table.simplified(rules.apply("smi_module", [], {}, "smi-module"))
        automaton = grammar_table.Automaton(rules, start)
        names = {n: MARKS.get(name, name.replace("_", "-")) for name, n in rules.numbers.items() if name != "terminals"}
        self.classes = [names[n] for n in sorted(names)]
        self.rows, self.accepting = automaton.rows, automaton.accepting
        self.way = {1: []}
        queue = deque([1])
        while queue:
            state = queue.popleft()
            for name, target in zip(self.classes, self.rows[state]):
                if target and target not in self.way:
                    self.way[target] = self.way[state] + [name]
                    queue.append(target)

    def spoiling(self, state):
        """A class with which no derived sequence goes on from the state."""
        return next(name for name, target in zip(self.classes, self.rows[state]) if not target)

    def fault(self, classes):
        """The index of the token at fault, or None, by the table."""
        state = 1
        for index, name in enumerate(classes):
            state = self.rows[state][self.classes.index(name)]
            if not state:
                return index
        return None if state == self.accepting else len(classes)

    def walk(self, random, most):
        """The classes of a random way through the table, of at most this many tokens."""
        state, classes = 1, []
        while len(classes) < most and any(self.rows[state]):
            name, state = random.choice([pair for pair in zip(self.classes, self.rows[state]) if pair[1]])
            classes.append(name)
        return classes


def damaged(random, classes, names):
    """The classes as they are, or with one put in, left out or changed."""
    at = random.randrange(len(classes))
    return random.choice(
        [
            classes,
            classes[:at] + [random.choice(names)] + classes[at:],
            classes[:at] + classes[at + 1 :],
            classes[:at] + [random.choice(names)] + classes[at + 1 :],
        ]
    )


def written(classes):
    return " ".join(SPELLED.get(name, name) for name in classes)


def vectors():
    """The name and the text of each vector."""
    yield "empty", ""
    yield "whole", WHOLE
    for number, line in enumerate(ask.texts("tokens", [WHOLE.encode()])[0].splitlines()[:-1], 1):
        yield f"whole-to-token-{number}", WHOLE[: int(line.split(b"\t")[1])]
    for kind, texts in KINDS.items():
        for number, text in enumerate(texts):
            head = FULL_HEAD if number else HEAD
            yield f"{kind}-{number}", f"{head}::= {{ iso 1 }} {text}END\n"
    table = Table()
    for state in sorted(table.way):
        yield f"state-{state}", written(table.way[state] + [table.spoiling(state)])


def against_table():
    """The reading and the table agree: at every state that a sequence reaches and every class, and on 5,000 walks."""
    table = Table()
    cases = [way + after for way in table.way.values() for after in [[]] + [[name] for name in table.classes]]
    random = Random(5)
    for _ in range(5000):
        cases.append(damaged(random, table.walk(random, random.randrange(1, 300)), table.classes))
    wrong = 0
    for classes, read in zip(cases, ask.lines("derives", [" ".join(classes).encode() for classes in cases])):
        fault = table.fault(classes)
        if read != (b"derived" if fault is None else b"%d" % fault):
            wrong += 1
            print("differ:", " ".join(classes), "reading", read.decode(), "table", fault)
    print(f"{len(cases)} sequences compared, {wrong} differ")
    return wrong


def main():
    if sys.argv[1:] != ["--table"]:
        sys.exit(__doc__)
    sys.exit(1 if against_table() else 0)


if __name__ == "__main__":
    main()
