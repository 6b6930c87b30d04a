#!/usr/bin/env python3
"""Writes a module of 502 definitions to standard output: what speed is measured on.

Without words: ten tables of twenty columns and 271 scalars below one identity, 63 KB. With the word usual: the shape that modules
mostly have, forty tables of eight columns with scalars between them, 65 KB. With the word small: one scalar alone.
"""
import sys

HEAD = '''LARGE-MIB DEFINITIONS ::= BEGIN
IMPORTS MODULE-IDENTITY, OBJECT-TYPE, Integer32, enterprises FROM SNMPv2-SMI;
large MODULE-IDENTITY LAST-UPDATED "202611010000Z" ORGANIZATION "x" CONTACT-INFO "x" DESCRIPTION "x"
  REVISION "202611010000Z" DESCRIPTION "x" ::= { enterprises 64999 }
'''

USUAL_HEAD = '''LARGE-MIB DEFINITIONS ::= BEGIN
IMPORTS
  MODULE-IDENTITY, OBJECT-TYPE, Integer32, Counter32, Gauge32, TimeTicks, enterprises FROM SNMPv2-SMI
  TEXTUAL-CONVENTION, DisplayString, TruthValue, RowStatus FROM SNMPv2-TC;
large MODULE-IDENTITY LAST-UPDATED "202611010000Z" ORGANIZATION "x" CONTACT-INFO "x" DESCRIPTION "x"
  REVISION "202611010000Z" DESCRIPTION "x" ::= { enterprises 64999 }
'''

# What the columns and scalars of a usual module are, in turn.
SYNTAXES = ["Integer32 (0..65535)", "DisplayString (SIZE (0..64))", "Counter32", "INTEGER { up(1), down(2) }", "Gauge32", "TruthValue", "TimeTicks", "Integer32"]
TYPES = ["Integer32", "DisplayString", "Counter32", "INTEGER", "Gauge32", "TruthValue", "TimeTicks", "Integer32"]


def thing(name, syntax, access, head, number, index="", gap="\n  "):
    return f'{name} OBJECT-TYPE{gap}SYNTAX {syntax}{gap}MAX-ACCESS {access}{gap}STATUS current DESCRIPTION "x"{index} ::= {{ {head} {number} }}\n'


def table(t, columns):
    names = [f"tab{t}Column{k}" for k in range(1, columns + 1)]
    yield thing(f"tab{t}Table", f"SEQUENCE OF Tab{t}Entry", "not-accessible", "large", t)
    yield thing(f"tab{t}Entry", f"Tab{t}Entry", "not-accessible", f"tab{t}Table", 1, f" INDEX {{ {names[0]} }}")
    yield f"Tab{t}Entry ::= SEQUENCE {{ " + ", ".join(f"{name} Integer32" for name in names) + " }\n"
    yield thing(names[0], "Integer32 (1..99)", "not-accessible", f"tab{t}Entry", 1)
    for k in range(2, columns + 1):
        yield thing(names[k - 1], "Integer32", "read-only", f"tab{t}Entry", k)


def module(tables, columns, scalars):
    yield HEAD
    for t in range(1, tables + 1):
        yield from table(t, columns)
    for k in range(1, scalars + 1):
        yield thing(f"scalar{k}", "Integer32", "read-only", "large", 100 + k)
    yield "END\n"


def usual_table(t):
    names = [f"ltab{t}Col{k}" for k in range(1, 9)]
    yield thing(f"ltab{t}Table", f"SEQUENCE OF LTab{t}Entry", "not-accessible", "large", 2 * t, gap=" ")
    yield thing(f"ltab{t}Entry", f"LTab{t}Entry", "not-accessible", f"ltab{t}Table", 1, f" INDEX {{ {names[0]} }}", " ")
    yield f"LTab{t}Entry ::= SEQUENCE {{\n" + ",\n".join(f"  {name} {TYPES[k]}" for k, name in enumerate(names)) + " }\n"
    for k, name in enumerate(names):
        yield thing(name, SYNTAXES[k], "read-only" if k else "not-accessible", f"ltab{t}Entry", k + 1, gap=" ")


def usual(tables, extra=0):
    """So many tables of eight columns, a scalar behind each, and `extra` scalars more at the end."""
    yield USUAL_HEAD
    for t in range(1, tables + 1):
        yield from usual_table(t)
        yield thing(f"lscalar{t}", SYNTAXES[t % 8], "read-only", "large", 2 * t + 1, gap=" ")
    for k in range(1, extra + 1):
        yield thing(f"lmore{k}", SYNTAXES[k % 8], "read-only", "large", 1000 + k, gap=" ")
    yield "END\n"


if __name__ == "__main__":
    chosen = {"small": lambda: module(0, 0, 1), "usual": lambda: usual(40, 21)}.get((sys.argv[1:] or [""])[0], lambda: module(10, 20, 271))
    sys.stdout.writelines(chosen())
