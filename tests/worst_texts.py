#!/usr/bin/env python3
"""The texts within the limit of 65,536 bytes that cost the most, as far as is known: each one thing, as often as it fits.

worst_texts.py FOLDER writes a file for each.
"""
import itertools
import os
import random
import sys

LIMIT = 65536
HEAD = ("W DEFINITIONS ::= BEGIN\nIMPORTS MODULE-IDENTITY, OBJECT-TYPE, NOTIFICATION-TYPE, Integer32 FROM SNMPv2-SMI TEXTUAL-CONVENTION FROM SNMPv2-TC;\n"
        'w MODULE-IDENTITY LAST-UPDATED "" ORGANIZATION "" CONTACT-INFO "" DESCRIPTION "" ::= { iso 9 }\n')
TAIL = "END\n"
LETTERS = "abcdefghijklmnopqrstuvwxyz"
SIGNS = LETTERS + LETTERS.upper() + "0123456789"


def names():
    """Names in lower case first, the short ones first."""
    for length in itertools.count(1):
        for first in LETTERS:
            for rest in itertools.product(SIGNS, repeat=length - 1):
                yield first + "".join(rest)


def fitted(start, items, joint, end):
    """start, as many items as fit, and end."""
    room = LIMIT - len(start) - len(end)
    chosen = []
    for item in items:
        room -= len(item) + len(joint)
        if room < 0:
            break
        chosen.append(item)
    return start + joint.join(chosen) + end


def thing(name, syntax, head, number, access="read-only", index=""):
    return f'{name} OBJECT-TYPE SYNTAX {syntax} MAX-ACCESS {access} STATUS current DESCRIPTION ""{index} ::= {{ {head} {number} }}\n'


def plain(name, head, number):
    return f"{name} OBJECT IDENTIFIER ::= {{ {head} {number} }}\n"


def items(labels, step=1):
    numbers = itertools.count(0, step)
    return fitted(HEAD + "x OBJECT-TYPE SYNTAX INTEGER { ", (f"{name}({number})" for name, number in zip(labels, numbers)), ",",
                  ' } MAX-ACCESS read-only STATUS current DESCRIPTION "" ::= { w 1 }\n' + TAIL)


def enumeration():
    return items(names())


def labels_alike():
    """Labels that share their beginning and their end."""
    return items(f"aaaa{name}zzzz" for name in names())


def imported(symbols):
    return fitted("W DEFINITIONS ::= BEGIN\nIMPORTS ", symbols, ",", " FROM SNMPv2-SMI;\n" + HEAD.split(";\n", 1)[1] + TAIL)


def imports():
    return imported(name for name in names() if name not in ("w",))


def key(name):
    """The key that says in which tree a name is (crates/name_tree/specs/Key.antt)."""
    found = 0
    for byte in name.encode():
        found = (found * 31 + byte) % 1024
    return found


def of_one_key(starts):
    """Each of these with the sign behind it that makes the key 0, where there is one."""
    for start in starts:
        last = chr(-31 * key(start) % 1024)
        if last in SIGNS:
            yield start + last


def short_names():
    """All names of four bytes of one key."""
    return of_one_key(name for name in itertools.takewhile(lambda name: len(name) < 4, names()) if len(name) == 3)


def pairs():
    """Names of twelve pairs, of one key, since both pairs weigh the same in a key."""
    return map("".join, itertools.product(("ao", "bP"), repeat=12))


def on_one_path(shared=30):
    """Names of 64 bytes, of one key, that share so many first and so many last bytes: bits that lead past many names, each long to
    compare."""
    middles = of_one_key(map("".join, itertools.product(SIGNS, repeat=63 - 2 * shared)))
    return ("a" * shared + middle + "a" * shared for middle in middles)


def numbers_in_steps():
    return items(names(), 16411)


def rows_of_one_type():
    """Rows that all have one SEQUENCE type, and a list of names as long as fits beside them."""
    rows = "".join(thing(f"r{k}", "S", "w", 2 + k, "not-accessible", " INDEX { c }") for k in range(506))
    return fitted(HEAD + thing("c", "Integer32", "w", 1) + rows + "S ::= SEQUENCE { ", itertools.repeat("c Integer32"), ",", " }\n" + TAIL)


def columns_of_one_type():
    """One table with as many columns as definitions, a list that names each many times."""
    head = HEAD + thing("t", "SEQUENCE OF S", "w", 1, "not-accessible") + thing("r", "S", "t", 1, "not-accessible", " INDEX { c0 }")
    columns = "".join(thing(f"c{k}", "Integer32", "r", k + 1, "read-write") for k in range(400))
    return fitted(head + columns + "S ::= SEQUENCE { ", itertools.cycle(f"c{k} Integer32" for k in range(400)), ",", " }\n" + TAIL)


def long_list(word):
    return fitted(HEAD + thing("c", "Integer32", "w", 1) + "n NOTIFICATION-TYPE OBJECTS { ", itertools.repeat("c"), ",",
                  ' } STATUS current DESCRIPTION "" ::= { w 0 1 }\n' + TAIL)


SYMBOLS = {
    "SNMPv2-SMI": "org dod internet directory mgmt experimental private security snmpV2 mib-2 transmission enterprises snmpDomains snmpProxys "
                  "snmpModules zeroDotZero Integer32 IpAddress Counter32 Gauge32 Unsigned32 TimeTicks Opaque Counter64 MODULE-IDENTITY "
                  "OBJECT-IDENTITY OBJECT-TYPE NOTIFICATION-TYPE",
    "SNMPv2-TC": "TEXTUAL-CONVENTION DisplayString PhysAddress MacAddress DateAndTime TAddress TestAndIncr TimeInterval TruthValue RowStatus "
                 "StorageType AutonomousType InstancePointer VariablePointer RowPointer TDomain TimeStamp",
}


def names_far_apart(listed):
    """Every symbol imported, as many definitions as there may be, and a long list of two of them, far from each other, in turn."""
    groups = "".join(f"{symbol} FROM {module} " for module, symbols in SYMBOLS.items() for symbol in symbols.split())
    start = f'W DEFINITIONS::=BEGIN IMPORTS {groups};w MODULE-IDENTITY LAST-UPDATED""ORGANIZATION""CONTACT-INFO""DESCRIPTION""::={{iso 9}}'
    fillers = [f" {name} OBJECT IDENTIFIER::={{w 1}}" for name in itertools.islice(names(), 700) if len(name) == 2 and name not in listed][:508]
    objects = [f' {name} OBJECT-TYPE SYNTAX INTEGER MAX-ACCESS read-only STATUS current DESCRIPTION""::={{w {k + 2}}}' for k, name in enumerate(listed)]
    text = start + "".join(fillers[:468]) + objects[0] + "".join(fillers[468:]) + objects[1] + " n NOTIFICATION-TYPE OBJECTS{"
    return fitted(text, itertools.cycle(reversed(listed)), ",", '}STATUS current DESCRIPTION""::={w 0 1}END')


def long_index():
    return fitted(HEAD + thing("t", "SEQUENCE OF S", "w", 1, "not-accessible") + "S ::= SEQUENCE { c Integer32 }\n" + thing("c", "Integer32", "r", 1)
                  + 'r OBJECT-TYPE SYNTAX S MAX-ACCESS not-accessible STATUS current DESCRIPTION "" INDEX { ', itertools.repeat("c"), ",",
                  " } ::= { t 1 }\n" + TAIL)


def heads_backwards():
    """A chain of heads, each defined behind the one that names it, and as many definitions more as there may be."""
    chain = "".join(plain(f"d{k}", f"d{k + 1}" if k < 119 else "iso", 1) for k in range(120))
    return HEAD + "".join(plain(f"e{k}", "iso", k) for k in range(390)) + chain + TAIL


def heads_in_a_circle():
    return HEAD + "".join(plain(f"d{k}", f"d{(k + 1) % 511}", 1) for k in range(511)) + TAIL


def numbers():
    """Numbers, the short ones first."""
    for length in itertools.count(1):
        yield from range(10 ** (length - 1) if length > 1 else 0, 10 ** length)
        yield from range(-10 ** (length - 2) if length > 2 else -1, -10 ** (length - 1), -1)


def ranges(ordered):
    """The longest list of ranges that share nothing, so ordered."""
    start, end = HEAD + "x OBJECT-TYPE SYNTAX Integer32 (", ') MAX-ACCESS read-only STATUS current DESCRIPTION "" ::= { w 1 }\n' + TAIL
    fit = fitted(start, map(str, numbers()), "|", end)[len(start):-len(end)]
    return start + "|".join(map(str, ordered(sorted(map(int, fit.split("|")))))) + end


def shuffled(rising):
    return random.Random(1).sample(rising, len(rising))


def inwards(rising):
    """The lowest, the highest, the lowest of the others, and so on: each lies between the two before it."""
    return [rising[k // 2] if k % 2 == 0 else rising[-1 - k // 2] for k in range(len(rising))]


def falling_to_the_first(rising):
    """The lowest, and then from the highest on: each but the first lies between the first and the others."""
    return rising[:1] + rising[:0:-1]


def one_twice(rising):
    """A number there again at the end of a shuffled list, in the place of another."""
    order = shuffled(rising)
    return order[:-1] + [order[len(order) // 2]]


def one_convention():
    convention = 'C ::= TEXTUAL-CONVENTION STATUS current DESCRIPTION "" SYNTAX Integer32\n'
    return fitted(HEAD + convention, (thing(f"x{k}", "C", "w", k + 1) for k in range(509)), "", TAIL)


def names_alike():
    """Definitions whose names have one length, one beginning and one end."""
    return fitted(HEAD, (plain("a" * 20 + f"{k:03d}" + "z" * 20, "w", k) for k in range(1, 511)), "", TAIL)


def deep_parents():
    """Objects each below the one before it, so that each has a parent and none is a column."""
    return HEAD + thing("o0", "Integer32", "w", 1) + "".join(thing(f"o{k}", "Integer32", f"o{k - 1}", 1) for k in range(1, 100)) \
        + "".join(thing(f"p{k}", "Integer32", "o1", k + 2) for k in range(390)) + TAIL


TEXTS = {
    "enumeration": enumeration,
    "labels alike": labels_alike,
    "imports": imports,
    "imports of one key": lambda: imported(short_names()),
    "imports of pairs": lambda: imported(pairs()),
    "imports on one path": lambda: imported(on_one_path()),
    "labels of pairs": lambda: items(pairs()),
    "labels on one path": lambda: items(on_one_path()),
    "numbers in steps": numbers_in_steps,
    "rows of one type": rows_of_one_type,
    "columns of one type": columns_of_one_type,
    "OBJECTS list": lambda: long_list("OBJECTS"),
    "names far apart": lambda: names_far_apart(["b", "a"]),
    "names of one ending": lambda: names_far_apart(["ba", "aa"]),
    "INDEX list": long_index,
    "heads backwards": heads_backwards,
    "heads in a circle": heads_in_a_circle,
    "ranges rising": lambda: ranges(list),
    "ranges falling": lambda: ranges(lambda rising: rising[::-1]),
    "ranges shuffled": lambda: ranges(shuffled),
    "ranges inwards": lambda: ranges(inwards),
    "ranges to the first": lambda: ranges(falling_to_the_first),
    "a range twice": lambda: ranges(one_twice),
    "one convention": one_convention,
    "names alike": names_alike,
    "parents": deep_parents,
    "an end too early": lambda: fitted("T DEFINITIONS ::= BEGIN IMPORTS a", itertools.repeat(",a"), "", ""),
    "blanks": lambda: fitted(HEAD, itertools.repeat(" "), "", TAIL),
    "comments": lambda: fitted(HEAD, itertools.repeat("----"), "", TAIL),
    "a text": lambda: fitted(HEAD.replace('DESCRIPTION ""', 'DESCRIPTION "', 1).split('DESCRIPTION "', 1)[0] + 'DESCRIPTION "', itertools.repeat("x"), "", '" ::= { iso 9 }\n' + TAIL),
}


if __name__ == "__main__":
    for name, text in TEXTS.items():
        with open(os.path.join(sys.argv[1], name.replace(" ", "-")), "w") as file:
            file.write(text())
