#!/usr/bin/env python3
"""Prints the table by which words are looked up.

Reads the words as crates/lexicon/specs/Word.antt has them and writes crates/lexicon/src/table.rt: the hash table of their
classes, and then a row for each word, of its length, its spelling and zeros. With --check it writes nothing, compares, and
exits with 1 where the file differs. What it prints is trusted in nothing: the proofs test every entry.
"""

import re
import sys
from pathlib import Path

ROOT = Path(__file__).resolve().parent.parent
WORDS = ROOT / "crates/lexicon/specs/Word.antt"
TABLE = ROOT / "crates/lexicon/src/table.rt"


def words():
    """The words' spellings, in the order of the terminals."""
    return re.findall(r'word "([^"]+)" \S+', WORDS.read_text())


def multipliers():
    """The numbers of the hash: those by which first byte, last byte and length count, and the number of slots."""
    text = WORDS.read_text()
    hashing = re.search(r"^slot first last size = .*$", text, re.M).group()
    size = re.search(r"^slot_count = (\d+)$", text, re.M).group(1)
    return [int(n) for n in re.findall(r"(\d+) \*", hashing)] + [int(size)]


def row_width():
    """How many bytes the row of a word has."""
    return int(re.search(r"^row_width = (\d+)$", WORDS.read_text(), re.M).group(1))


def slot(word, first, last, length, size):
    return (first * ord(word[0]) + last * ord(word[-1]) + length * len(word)) % size


def constant(word):
    return "terminal::" + word.upper().replace("-", "_")


def table():
    found = words()
    hashing = multipliers()
    slots = {}
    for word in found:
        place = slot(word, *hashing)
        if place in slots:
            sys.exit(f"word_table: {word} and {slots[place]} share slot {place}; choose other multipliers in {WORDS.name}")
        slots[place] = word
    width = row_width()
    if max(map(len, found)) + 1 != width:
        sys.exit(f"word_table: the longest word has {max(map(len, found))} bytes; row_width in {WORDS.name} is one more")
    lines = [
        "// The table by which words are looked up, as tools/word_table.py prints it.",
        "",
        "// How many slots the hash has.",
        f"pub const SLOT_COUNT: usize = {hashing[-1]};",
        "",
        "// How many bytes the row of a word has: its length, its spelling, and zeros.",
        f"pub const ROW_WIDTH: usize = {width};",
        "",
        "// How many bytes the table has.",
        "pub const LOOKUP_SIZE: usize = SLOT_COUNT + ROW_WIDTH * terminal::WORDS;",
        "",
        "// No word's class, and no byte of one: what a slot without a word holds, and what stands behind a spelling.",
        "const NONE: u8 = 0;",
        "",
        "// The class of the word in each slot; then the row of each word.",
        "pub static LOOKUP: [u8; LOOKUP_SIZE] = [",
    ]
    lines += [f"    {constant(slots[i]) if i in slots else 'NONE'}, // {i}" for i in range(hashing[-1])]
    for word in found:
        lines.append(f"    {len(word)}, // {word}")
        lines += [f"    b'{byte}'," for byte in word]
        lines += ["    NONE,"] * (width - 1 - len(word))
    return "\n".join(lines + ["];", ""])


def main():
    text = table()
    if "--check" in sys.argv:
        if TABLE.read_text() != text:
            sys.exit("word_table: crates/lexicon/src/table.rt is not what Word.antt gives")
    else:
        TABLE.write_text(text)


if __name__ == "__main__":
    main()
