#!/usr/bin/env python3
"""Where a bad hint is said to be bad, compared with the plain meaning of the place.

hint_places.py PROGRAM  runs the program on hints, one at a time, and exits 1 where it says another place, or none

The place is that of the first byte after which no good hint can begin so, or the hint's length. Good hints are those of the independent
reading; a hint can begin so where one of a few endings makes it good. One that is good but for its length is bad at byte 255; such long
hints stand by hand alone.
"""
import os
import random
import re
import subprocess
import sys

sys.dont_write_bytecode = True
sys.path.insert(0, os.path.dirname(os.path.abspath(__file__)))
import ask  # noqa: E402

ENDINGS = {'octets': [b'', b'a', b'1a'], 'integer': [b'', b'1', b'd']}
VALUES = {'octets': b'00', 'integer': b'0'}
SHORT = 250

# each with the place by hand; None where the hint is good
BY_HAND = [
    ('octets', b'', 0), ('octets', b'1x', None), ('octets', b'x', 0), ('octets', b'*', 1), ('octets', b'1', 1), ('octets', b'1xq', None),
    ('octets', b'1x.q', 3), ('octets', b'1x.1q', 4), ('octets', b'0x', 0), ('octets', b'*0x', 1), ('octets', b'01x', 0), ('octets', b'9x', 1),
    ('octets', b'9a', None), ('octets', b'12d', 2), ('octets', b'256a', 2), ('octets', b'255t', None), ('octets', b'300a', 2), ('octets', b'1000a', 3),
    ('octets', b'**1x', 1), ('octets', b'1x**', 3), ('octets', b'1b', 1), ('octets', b'1X', 1), ('octets', b'1x..', 3), ('octets', b'*1x..', None),
    ('octets', b'*1x...', 5), ('octets', b'1x\x01', 2), ('octets', b'1\xc3\xa9', 1), ('octets', b'1d.2', 4),
    ('octets', b'1x' * 127 + b'1', 255), ('octets', b'1x' * 127 + b'1x', 255), ('octets', b'1x' * 126 + b'1q1x1x1x', 253),
    ('octets', b'1x' * 127 + b'q.1x', 255), ('octets', b'1x' * 126 + b'1x.q', 255), ('octets', b'1x' * 126 + b'1x.', None),
    ('octets', b'1x' * 127 + b'..', 255), ('octets', b'1x' * 126 + b'1xqqq', 255), ('octets', b'1x' * 126 + b'1..', 253), ('octets', b'1x' * 126 + b'1xq..', 255),
    ('integer', b'', 0), ('integer', b'd', None), ('integer', b'q', 0), ('integer', b'D', 0), ('integer', b'1d', 0), ('integer', b'xx', 1),
    ('integer', b'x-1', 1), ('integer', b'd1', 1), ('integer', b'd-', 2), ('integer', b'd-0', 2), ('integer', b'd--', 2), ('integer', b'd-1', None),
    ('integer', b'd-10', None), ('integer', b'd-11', 3), ('integer', b'd-20', 3), ('integer', b'd-1x', 3), ('integer', b'd-100', 4), ('integer', b'd-01', 2),
]


def good_ones(hints):
    """Those of some hints, each with its kind, that the reading takes."""
    hints = sorted(set(hints))
    said = ask.lines('hint', [kind.encode() + b'\t' + hint + b'\t' + VALUES[kind] for kind, hint in hints])
    return {hint for hint, line in zip(hints, said) if not line.startswith(b'refused\t32\t')}


def places(hints):
    """Where each of some hints is bad, or None."""
    starts = [(kind, hint[:end] + ending) for kind, hint in hints for end in range(len(hint) + 1) for ending in ENDINGS[kind]]
    good = good_ones(starts)
    for kind, hint in hints:
        ends = [any((kind, hint[:end] + ending) in good for ending in ENDINGS[kind]) for end in range(len(hint) + 1)]
        yield None if (kind, hint) in good else ends.index(False) - 1 if False in ends else len(hint)


def said(program, kind, hint):
    run = subprocess.run([program, kind, hint, VALUES[kind]], stdout=subprocess.PIPE, stderr=subprocess.PIPE, check=False)
    if run.stdout.startswith(b'printed\t') and run.stderr == b'':
        return None
    match = re.fullmatch(rb'mib hint: the hint is bad at byte ([0-9]+): [^\n]+\n', run.stderr)
    return int(match.group(1)) if match and run.stdout == b'refused\t32\t0\n' else 'no place'


def generated(count):
    source = random.Random(2579)
    letters = {'octets': b'**00112589xdoatbq.:- \x01\xc3', 'integer': b'xobdddd---0011289q.'}
    for n in range(count):
        kind = ('octets', 'integer')[n % 2]
        yield kind, bytes(source.choice(letters[kind]) for _ in range(source.randrange(1, 8)))


def main():
    wrong = 0
    cases = list(BY_HAND)
    short = [(kind, hint, by_hand) for kind, hint, by_hand in BY_HAND if len(hint) < SHORT]
    for (kind, hint, by_hand), place in zip(short, places([case[:2] for case in short])):
        if place != by_hand:
            print('hint_places: %s %r: by hand %s, by endings %s' % (kind, hint, by_hand, place), file=sys.stderr)
            wrong += 1
    made = list(generated(600))
    cases += [(*hint, place) for hint, place in zip(made, places(made))]
    for kind, hint, wanted in cases:
        got = said(sys.argv[1], kind, hint)
        if got != wanted:
            print('hint_places: %s %r: wanted %s, said %s' % (kind, hint, wanted, got), file=sys.stderr)
            wrong += 1
    print('%d hints, %d differences' % (len(cases), wrong))
    sys.exit(1 if wrong else 0)


main()
