#!/usr/bin/env python3
"""Prints the tables of the built-in symbols.

Reads the symbols as crates/symbol/specs/Symbol.antt has them and writes crates/symbol/src/table.rt: the symbols' names one
after the other, where each starts, the module that offers each, what each is, the OIDs' numbers one after the other and where
those of each start, the modules' names and where each starts, and `iso`. With --check it writes nothing, compares, and exits
with 1 where the file differs. What it prints is trusted in nothing: the proofs test every entry.
"""

import re
import sys
from pathlib import Path

ROOT = Path(__file__).resolve().parent.parent
SYMBOLS = ROOT / "crates/symbol/specs/Symbol.antt"
TABLE = ROOT / "crates/symbol/src/table.rt"
OFFERED = ["of_smi", "of_tc"]

# How wide rt fmt makes a line.
LINE = 100


def defined(text, name):
    """What stands after the equals sign of a definition."""
    return re.search(rf"^{name} =\s*(.*?)(?:\n\n|\Z)", text, re.M | re.S).group(1)


def names_in(text):
    return re.findall(r'"([^"]+)"', text)


def numbers_in(text):
    return [int(n) for n in re.findall(r"\d+", text)]


def symbols(text):
    """Each symbol: its name, its module's index, what it is, its numbers."""
    internet = numbers_in(defined(text, "internet"))
    found = []
    for offered, name, what in re.findall(r'(of_smi|of_tc) "([^"]+)" (.*)', defined(text, "symbols")):
        module = OFFERED.index(offered)
        if what == "macro":
            found.append((name, module, "Sort::Macro", []))
        elif what.startswith("(type "):
            kind = re.fullmatch(r"\(type (\S+)\)", what).group(1)
            found.append((name, module, f"Sort::Type({int(defined(text, kind))})", []))
        elif what.startswith("(below_internet "):
            found.append((name, module, "Sort::Oid", internet + numbers_in(what)))
        elif what.startswith("(oid "):
            found.append((name, module, "Sort::Oid", numbers_in(what)))
        else:
            sys.exit(f"symbol_table: what is {name}? {what}")
    return found


def constant(said, name, kind, size, entries):
    return [f"// {said}", f"pub const {name}: [{kind}; {size}] = [", *entries, "];", ""]


def entries(values, notes):
    return [f"    {value}, // {note}" for value, note in zip(values, notes)]


def spelled(names):
    """The names' bytes, one after the other, as rt fmt lays them out: as many a line as fit, up to one with a comment."""
    lines, line = [], ""
    for name in names:
        for i, byte in enumerate(name):
            line += f" b'{byte}'," if line else f"    b'{byte}',"
            if i == 0:
                line += f" // {name}"
            if i == 0 or len(line) + len(" b'x',") > LINE:
                lines, line = lines + [line], ""
    return lines + [line] * bool(line)


def starts(lists, notes):
    """Where each list starts among them all, and where the last one ends."""
    at = [sum(map(len, lists[:i])) for i in range(len(lists) + 1)]
    return entries(at, notes) + [f"    {at[-1]},"]


def table():
    text = SYMBOLS.read_text()
    names, offered, sorts, oids = zip(*symbols(text))
    modules = names_in(defined(text, "modules"))
    iso = names_in(defined(text, "iso_name"))
    bytes_in_names = sum(map(len, names))
    lines = ["// The tables of the built-in symbols, as tools/symbol_table.py prints them.", "use crate::Sort;", ""]
    lines += ["// How many symbols there are.", f"pub const SYMBOLS: usize = {len(names)};", ""]
    lines += ["// How many bytes their names have.", f"pub const NAME_BYTES: usize = {bytes_in_names};", ""]
    lines += constant("The symbols' names, one after the other.", "NAMES", "u8", "NAME_BYTES", spelled(names))
    said = "Where each symbol's name starts, and where the last one ends."
    lines += constant(said, "NAME_STARTS", "u16", "SYMBOLS + 1", starts(names, names))
    lines += constant("The module that offers each symbol.", "MODULES", "u8", "SYMBOLS", entries(offered, names))
    said = "What each symbol is: a type with its class."
    lines += constant(said, "SORTS", "Sort", "SYMBOLS", entries(sorts, names))
    size = sum(map(len, oids))
    shown = [f"    {number}, // {name} {i}" for name, oid in zip(names, oids) for i, number in enumerate(oid)]
    lines += constant("The numbers of the OIDs, one after the other.", "NUMBERS", "u32", size, shown)
    said = "Where each symbol's numbers start, and where the last ones end."
    lines += constant(said, "NUMBER_STARTS", "u16", "SYMBOLS + 1", starts(oids, names))
    size = sum(map(len, modules))
    lines += constant("The modules' names, one after the other.", "MODULE_NAMES", "u8", size, spelled(modules))
    said = "Where each module's name starts, and where the last one ends."
    lines += constant(said, "MODULE_STARTS", "u16", len(modules) + 1, starts(modules, modules))
    lines += constant("`iso`.", "ISO", "u8", len(iso[0]), spelled(iso))
    return "\n".join(lines)


def main():
    text = table()
    if "--check" in sys.argv:
        if TABLE.read_text() != text:
            sys.exit("symbol_table: crates/symbol/src/table.rt is not what Symbol.antt gives")
    else:
        TABLE.write_text(text)


if __name__ == "__main__":
    main()
