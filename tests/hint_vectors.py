#!/usr/bin/env python3
"""The cases of crates/hint_tool, from the independent reading of document 01, "Printing by hint".

hint_vectors.py          writes crates/hint_tool/stdin and crates/hint_tool/stdout
hint_vectors.py --check  says whether the two files are those of the reading, and exits 1 where they are not

What a case should print is written out by hand beside it, or computed by the reading where it is long. Every expectation
that stands by hand is held against the reading too, which is handed the octets in plain pairs of digits.
"""
import os
import re
import sys

sys.dont_write_bytecode = True
TESTS = os.path.dirname(os.path.abspath(__file__))
sys.path.insert(0, TESTS)
import ask  # noqa: E402

HERE = os.path.dirname(TESTS)


# (kind, hint, value, what it prints by hand; None where the reading says it)
T = 'printed\t'


def refused(n, place=0):
    return 'refused\t%d\t%d' % (n, place)


CASES = [
    # P6, P7 and P8 of the paper
    ('octets', '*1d.:1d', '020A0B05', T + '10.11:5'),
    ('integer', 'd-2', '-5', T + '-0.05'),
    ('octets', '255t', 'C3A9', T + '\u00e9'),
    ('octets', '255a', 'C3A9', refused(33)),
    # RFC 2579's own hints: DisplayString, PhysAddress, MacAddress, DateAndTime with its example, and a shorter one
    ('octets', '255a', '48656c6c6f2c20776f726c64', T + 'Hello, world'),
    ('octets', '1x:', '0008a15e', T + '0:8:a1:5e'),
    ('octets', '1x:', '001b44113ab7', T + '0:1b:44:11:3a:b7'),
    ('octets', '2d-1d-1d,1d:1d:1d.1d,1a1d:1d', '07c8051a0d1e0f002d0400', T + '1992-5-26,13:30:15.0,-4:0'),
    ('octets', '2d-1d-1d,1d:1d:1d.1d,1a1d:1d', '07c8051a0d1e0f00', T + '1992-5-26,13:30:15.0'),
    ('integer', 'd-2', '1234', T + '12.34'),
    # a maker's name with accents
    ('octets', '255t', 'Soci\u00e9t\u00e9 \u00c9lectrique M\u00fcller'.encode().hex(), T + 'Soci\u00e9t\u00e9 \u00c9lectrique M\u00fcller'),
    # lengths of hints: 0, 255 and 256 bytes
    ('octets', '', '01', refused(32)),
    ('octets', '1x:' * 85, '01' * 90, None),
    ('octets', '1x' * 126 + '1x:', '01' * 130, None),
    ('octets', '1x:' * 84 + '1x1x', '01', refused(32)),
    ('octets', '1x' * 128, '01', refused(32)),
    # lengths of pieces
    ('octets', '8x', 'ff' * 8, T + 'f' * 16),
    ('octets', '8d', 'ff' * 8, T + '18446744073709551615'),
    ('octets', '8o', 'ff' * 8, T + '1777777777777777777777'),
    ('octets', '8x-', '00' * 8 + '01', T + '0-1'),
    ('octets', '9x', '01', refused(32)),
    ('octets', '9d', '01', refused(32)),
    ('octets', '9o', '01', refused(32)),
    ('octets', '10x', '01', refused(32)),
    ('octets', '9a', '414243', T + 'ABC'),
    ('octets', '255a.', '41' * 256, T + 'A' * 255 + '.A'),
    ('octets', '256a', '41', refused(32)),
    ('octets', '256t', '41', refused(32)),
    ('octets', '300t', '41', refused(32)),
    ('octets', '1000a', '41', refused(32)),
    ('octets', '0x', '01', refused(32)),
    ('octets', '0a', '01', refused(32)),
    ('octets', '01x', '01', refused(32)),
    ('octets', '08x', '01', refused(32)),
    ('octets', '1x:01x', '01', refused(32)),
    # what is no piece
    ('octets', '*', '01', refused(32)),
    ('octets', '**1x', '01', refused(32)),
    ('octets', '*x', '01', refused(32)),
    ('octets', 'x', '01', refused(32)),
    ('octets', '1', '01', refused(32)),
    ('octets', '1b', '01', refused(32)),
    ('octets', '1X', '01', refused(32)),
    ('octets', '1x:1', '01', refused(32)),
    ('octets', '1x:*', '01', refused(32)),
    ('octets', ' 1x', '01', refused(32)),
    ('octets', '1x\x7f', '01', refused(32)),
    ('octets', '1x\x1f', '01', refused(32)),
    ('octets', '1x\u00e9', '01', refused(32)),
    # separators: a letter, the first and the last byte, a format's letter, and none
    ('octets', '1xx', '0a0b', T + 'axb'),
    ('octets', '1xx1x', '0a0b', T + 'axb'),
    ('octets', '1d 1d~', '010203', T + '1 2~3'),
    ('octets', '1dd', '0102', T + '1d2'),
    ('octets', '1x', '0a0b0c', T + 'abc'),
    ('octets', '2x', '000a0b', T + 'ab'),
    # a terminator only after `*` and a separator
    ('octets', '1d.:', '0102', refused(32)),
    ('octets', '1d.:1d', '0102', refused(32)),
    ('octets', '*1d.:;', '0102', refused(32)),
    ('octets', '*1d1d', '02030405', T + '345'),
    ('octets', '*1d.1d', '02030405', T + '3.4.5'),
    # repeat counts: 0, fewer octets than it says, nothing after it, and the last piece again
    ('octets', '*1d.:1d', '0005', T + '5'),
    ('octets', '*1d.:1d', '00', T),
    ('octets', '*1d.:1d', '05', T),
    ('octets', '*1d.:', '050102', T + '1.2'),
    ('octets', '*1d.:1d', '020102', T + '1.2'),
    ('octets', '1d.*1d', '0502', T + '5.'),
    ('octets', '1d.*1d-', '0500', T + '5.'),
    ('octets', '*1x:-', '020a0b010c', T + 'a:b-c'),
    ('octets', '*1x:-', '00000301020300', T + '1:2:3-'),
    ('octets', '*2d,', '0201020304', T + '258,772'),
    ('octets', '*2d,;1a', '020102030441', T + '258,772;A'),
    ('octets', '1d.2x:', '010203040506', T + '1.203:405:6'),
    ('octets', '*1a', 'ff' + '41' * 255 + '0142', T + 'A' * 255 + 'B'),
    # the empty value, and 1,024 and 1,025 octets
    ('octets', '1x', '', T),
    ('octets', '*1x', '', T),
    ('octets', '255t', '', T),
    ('octets', '', '', refused(32)),
    ('octets', '255a', '41' * 1024, T + 'A' * 1024),
    ('octets', '255a', '41' * 1025, refused(31)),
    ('octets', '?', '41' * 1025, refused(31)),
    ('octets', '1o:', 'ff' * 1024, T + ':'.join(['377'] * 1024)),
    ('octets', '8d-', 'ff' * 1024, None),
    # digits: no leading zeros, lower case
    ('octets', '4x', '00000000', T + '0'),
    ('octets', '4x', 'DEADBEEF', T + 'deadbeef'),
    ('octets', '3d.3o', '00ffff000040', T + '65535.100'),
    # octets that are no ASCII
    ('octets', '1a', '414280', refused(33, 2)),
    ('octets', '*2a.', '0241424380', refused(33, 4)),
    ('octets', '1d.255a', '80ff', refused(33, 1)),
    # octets that are no UTF-8: overlong, surrogates, above 10FFFF, a lone tail, cut off; and characters cut by a use
    ('octets', '255t', 'c080', refused(33)),
    ('octets', '255t', 'c1bf', refused(33)),
    ('octets', '255t', 'c280', T + '\u0080'),
    ('octets', '255t', 'e08080', refused(33)),
    ('octets', '255t', 'e09fbf', refused(33)),
    ('octets', '255t', 'e0a080', T + '\u0800'),
    ('octets', '255t', 'ed9fbf', T + '\ud7ff'),
    ('octets', '255t', 'eda080', refused(33)),
    ('octets', '255t', 'edbfbf', refused(33)),
    ('octets', '255t', 'ee8080', T + '\ue000'),
    ('octets', '255t', 'efbfbf', T + '\uffff'),
    ('octets', '255t', 'f0808080', refused(33)),
    ('octets', '255t', 'f08fbfbf', refused(33)),
    ('octets', '255t', 'f0908080', T + '\U00010000'),
    ('octets', '255t', 'f48fbfbf', T + '\U0010ffff'),
    ('octets', '255t', 'f4908080', refused(33)),
    ('octets', '255t', 'f5808080', refused(33)),
    ('octets', '255t', 'ff', refused(33)),
    ('octets', '255t', '80', refused(33)),
    ('octets', '255t', '4180', refused(33, 1)),
    ('octets', '255t', '41c3', refused(33, 1)),
    ('octets', '255t', '41e282', refused(33, 1)),
    ('octets', '255t', 'e282ace282', refused(33, 3)),
    ('octets', '255t', 'c3a9e228a1', refused(33, 2)),
    ('octets', '255t', 'f09f98', refused(33)),
    ('octets', '255t', 'f09f9880', T + '\U0001f600'),
    ('octets', '1t', 'c3a9', refused(33)),
    ('octets', '2t', '41c3a9', refused(33, 1)),
    ('octets', '2t:', 'c3a9c3a8', T + '\u00e9:\u00e8'),
    ('octets', '*3t/', '02e282ac414243', T + '\u20ac/ABC'),
    # a bad hint comes before a bad octet
    ('octets', '255a?1', 'c3', refused(32)),
    # integers: the range and one past each end
    ('integer', 'd', '-2147483648', T + '-2147483648'),
    ('integer', 'd', '-2147483649', refused(34)),
    ('integer', 'd', '4294967295', T + '4294967295'),
    ('integer', 'd', '4294967296', refused(34)),
    ('integer', 'd', '99999999999999999999999999', refused(34)),
    ('integer', 'd', '-99999999999999999999999999', refused(34)),
    ('integer', 'x', '9223372036854775808', refused(34)),
    ('integer', 'q', '9223372036854775808', refused(32)),
    ('integer', '', '4294967296', refused(32)),
    # each base
    ('integer', 'x', '255', T + 'ff'),
    ('integer', 'x', '-255', T + '-ff'),
    ('integer', 'x', '3735928559', T + 'deadbeef'),
    ('integer', 'o', '8', T + '10'),
    ('integer', 'o', '4294967295', T + '37777777777'),
    ('integer', 'b', '5', T + '101'),
    ('integer', 'b', '-2147483648', T + '-1' + '0' * 31),
    ('integer', 'b', '4294967295', T + '1' * 32),
    ('integer', 'd', '0', T + '0'),
    ('integer', 'b', '0', T + '0'),
    ('integer', 'd', '-0', T + '0'),
    ('integer', 'd', '007', T + '7'),
    # the point
    ('integer', 'd-1', '0', T + '0.0'),
    ('integer', 'd-1', '-1', T + '-0.1'),
    ('integer', 'd-2', '5', T + '0.05'),
    ('integer', 'd-2', '100', T + '1.00'),
    ('integer', 'd-9', '4294967295', T + '4.294967295'),
    ('integer', 'd-10', '4294967295', T + '0.4294967295'),
    ('integer', 'd-10', '-2147483648', T + '-0.2147483648'),
    ('integer', 'd-10', '1', T + '0.0000000001'),
    ('integer', 'd-0', '5', refused(32)),
    ('integer', 'd-11', '5', refused(32)),
    ('integer', 'd-100', '5', refused(32)),
    ('integer', 'd-', '5', refused(32)),
    ('integer', 'd-01', '5', refused(32)),
    ('integer', 'd-1x', '5', refused(32)),
    ('integer', 'd--1', '5', refused(32)),
    ('integer', 'x-1', '5', refused(32)),
    ('integer', 'o-1', '5', refused(32)),
    ('integer', 'b-2', '5', refused(32)),
    ('integer', 'dd', '5', refused(32)),
    ('integer', 'D', '5', refused(32)),
    ('integer', '1d', '5', refused(32)),
    ('integer', 'a', '5', refused(32)),
]

# octets as tools of SNMP print them: with something behind each or nothing, single digits between marks, a heading
CASES += [
    ('octets', '1x:', '07 E6 0B', T + '7:e6:b'),
    ('octets', '1x:', '07 E6 0B ', T + '7:e6:b'),
    ('octets', '1x:', '07:e6:0b', T + '7:e6:b'),
    ('octets', '1x:', '07:e6:0b:', T + '7:e6:b'),
    ('octets', '1x:', '07e6 0b:0c', T + '7:e6:b:c'),
    ('octets', '1d.1d.1d.1d', 'C0 A8 00 01', T + '192.168.0.1'),
    ('octets', '1x:', '07  e6', T + '7:e6'),
    ('octets', '1x:', ' 07', T + '7'),
    ('octets', '1x:', '  07 \x0be6 \x0c', T + '7:e6'),
    ('octets', '1x:', '07\re6', T + '7:e6'),
    ('octets', '1x:', '00-1B-44-11-3A-B7', T + '0:1b:44:11:3a:b7'),
    ('octets', '1x:', '0:1b:2:3', T + '0:1b:2:3'),
    ('octets', '1x:', '0-1b-2-3', T + '0:1b:2:3'),
    ('octets', '1x:', '07:e', T + '7:e'),
    ('octets', '1x:', 'e:', T + 'e'),
    ('octets', '1x:', '07: e6', T + '7:e6'),
    ('octets', '1x:', '1:0203:4', T + '1:2:3:4'),
    ('octets', '1x:', '01 2:3 04', T + '1:2:3:4'),
    ('octets', '1x:', '0x07E6', T + '7:e6'),
    ('octets', '1x:', '0X07 e6', T + '7:e6'),
    ('octets', '1x:', ' 0x 7:e6', T + '7:e6'),
    ('octets', '1x:', 'Hex-STRING: 00 1B 44 11 3A B7 ', T + '0:1b:44:11:3a:b7'),
    ('octets', '1x:', ' Hex-STRING:001b', T + '0:1b'),
    ('octets', '1x', '0x', T),
    ('octets', '1x', 'Hex-STRING: ', T),
    ('octets', '1x', ' ', T),
]

# texts with line ends, other control bytes or backslashes: one line each. Bytes over 127 stay as they are. The reading prints all bytes as
# they are, so that these stand by hand alone
LINES = [
    ('octets', '255a', '0a', T + '\\x0a'),
    ('octets', '255a', '0d0a', T + '\\x0d\\x0a'),
    ('octets', '255a', '4109420943', T + 'A\\x09B\\x09C'),
    ('octets', '255a', '001b5b316d1f207e7f', T + '\\x00\\x1b[1m\\x1f ~\\x7f'),
    ('octets', '255a', '5c6e', T + '\\x5cn'),
    ('octets', '255a', '5c783061', T + '\\x5cx0a'),
    ('octets', '1x\\', '0102', T + '1\\x5c2'),
    ('octets', '255t', 'c3a90ac285', T + '\u00e9\\x0a\u0085'),
    ('octets', '1a', '41427f', T + 'AB\\x7f'),
]

# words that are no octets: odd runs, single digits between blanks, marks behind no octet, other headings
NO_OCTETS = ['0', 'abc', '07abc', 'abc:07', '07:abc', '0 7', '1 2', '07 8', '1: 2', '07::e6', '07:-e6', '07 :e6', ':07', '-07', '07.08', '07,08', '0g',
             '0x0', '0x:07', '0x07 0x08', '0x0x07', 'x07', 'Hex-STRING:5', 'Hex-STRING 07', 'hex-string: 07', 'STRING: 07', 'Hex-STRING: 0x07', '07\0']

# words that are none of these: the line `misfit` beside a message on standard error, and the list goes on
NO_CASE = ['', 'octets', 'octets\t1x', 'octets\t1x\t01\tmore', 'integer\td\t', 'integer\td\t+5', 'integer\td\t1.5', 'bytes\t1x\t01']
NO_CASE += ['octets\t1x\t' + word for word in NO_OCTETS]


BLANKS = '[\\t-\\r ]*'
HEX = '[0-9A-Fa-f]'
# digits in pairs; or one digit by itself, with a colon or a hyphen directly behind it or before it
RUN = f'(?:(?:{HEX}{{2}})+(?!{HEX})|(?<!{HEX}){HEX}(?=[:-])|(?<=[:-]){HEX}(?!{HEX}))'


def plain(word):
    """The octets that a word writes, in pairs of hex digits; or None."""
    body = re.sub(f'\\A{BLANKS}(?:Hex-STRING:|0[xX])?', '', word)
    if not re.fullmatch(f'{BLANKS}(?:{RUN}[:-]?{BLANKS})*', body):
        return None
    return ''.join(run if len(run) % 2 == 0 else '0' + run for run in re.findall(RUN, body))


def encoded(text):
    return text.encode('utf-8', 'surrogatepass')


def line(kind, hint, value):
    return b'\t'.join([kind.encode(), encoded(hint), value.encode()])


def build():
    wrong = 0
    for word in NO_OCTETS:
        if plain(word) is not None:
            print('hint_vectors: %r: by hand no octets, read %s' % (word, plain(word)), file=sys.stderr)
            wrong += 1
    given = [line(kind, hint, value) for kind, hint, value, _ in CASES]
    wanted = ask.lines('hint', [line(kind, hint, plain(value) if kind == 'octets' else value) for kind, hint, value, _ in CASES])
    for case, (_, _, _, by_hand), read in zip(given, CASES, wanted):
        if by_hand is not None and encoded(by_hand) != read:
            print('hint_vectors: %r: by hand %r, read %r' % (case, by_hand, read), file=sys.stderr)
            wrong += 1
    given += [line(kind, hint, value) for kind, hint, value, _ in LINES]
    wanted += [encoded(by_hand) for _, _, _, by_hand in LINES]
    middle = len(given) // 2
    given[middle:middle] = [w.encode() for w in NO_CASE]
    wanted[middle:middle] = [b'misfit'] * len(NO_CASE)
    given[3] += b'\r'   # a line end of two bytes
    return b'\n'.join(given) + b'\n', b'\n'.join(wanted) + b'\n', wrong


def main():
    given, wanted, wrong = build()
    files = [('stdin', given), ('stdout', wanted)]
    if sys.argv[1:] == ['--check']:
        for name, content in files:
            with open(os.path.join(HERE, 'crates/hint_tool', name), 'rb') as f:
                if f.read() != content:
                    print('hint_vectors: crates/hint_tool/%s is not that of the reading' % name, file=sys.stderr)
                    wrong += 1
    else:
        for name, content in files:
            with open(os.path.join(HERE, 'crates/hint_tool', name), 'wb') as f:
                f.write(content)
    sys.exit(1 if wrong else 0)


main()
