#!/usr/bin/env python3
"""The vectors of the program `tokens`: crates/tokens/data/, args and stdout, from the independent reading.

token_vectors.py          writes the files
token_vectors.py --check  says whether they are those of the reading, and exits 1 where they are not

Each vector stands below with the tokens that the paper gives it, where they are few; grammar_vectors.py has the texts
for the grammar.
"""
import os
import shutil
import sys

sys.dont_write_bytecode = True
HERE = os.path.dirname(os.path.abspath(__file__))
sys.path.insert(0, HERE)
import ask  # noqa: E402
import grammar_vectors  # noqa: E402

CRATE = os.path.join(HERE, "..", "crates", "tokens")

CAPITAL = """AUGMENTS BEGIN BITS CONTACT-INFO DEFINITIONS DEFVAL DESCRIPTION DISPLAY-HINT END FROM IDENTIFIER IMPLIED
IMPORTS INDEX INTEGER LAST-UPDATED MAX-ACCESS MODULE-IDENTITY NOTIFICATION-TYPE OBJECT OBJECT-IDENTITY OBJECT-TYPE OBJECTS
OCTET OF ORGANIZATION REFERENCE REVISION SEQUENCE SIZE STATUS STRING SYNTAX TEXTUAL-CONVENTION UNITS""".split()
LOWER = "current deprecated obsolete not-accessible accessible-for-notify read-only read-write read-create".split()


def apart(words):
    """The words with a blank between them, and the lines of those: a capital word is its own class."""
    starts = [sum(len(before) + 1 for before in words[:k]) for k in range(len(words))]
    lines = [f"{start}\t{start + len(word)}\t{word if word[0].isupper() else 'lower'}" for start, word in zip(starts, words)]
    return " ".join(words).encode("ascii"), lines


# name, text, and what must be printed before the last line that the grammar has, or None where only the reading says it
VECTORS = [
    ("p1", b"----", []),
    ("p2", b"-----", ["refused\t3\t4"]),
    ("p3", b"a--b", ["0\t1\tlower"]),
    ("p4", b"4294967296", ["refused\t6\t0"]),
    # comments
    ("comment-three-hyphens", b"---", []),
    ("comment-six-hyphens", b"------ a", []),
    ("comment-between", b"a -- b -- c", ["0\t1\tlower", "10\t11\tlower"]),
    ("comment-to-line-feed", b"-- a\nb", ["5\t6\tlower"]),
    ("comment-to-carriage-return", b"-- a\rb", ["5\t6\tlower"]),
    ("comment-past-other-blanks", b"-- a\x0bb\x0cc", []),
    ("comment-quote", b'-- " --"x"', ["7\t10\ttext"]),
    ("comment-hyphen-inside", b"--a-b-- c", ["8\t9\tlower"]),
    ("comment-odd-end", b"--a---b", ["refused\t3\t5"]),
    # names
    ("name-hyphens", b"a-b-1 A-1", ["0\t5\tlower", "6\t9\tUpper"]),
    ("name-last-hyphen", b"a- b", ["refused\t3\t1"]),
    ("name-64", b"a" * 64, ["0\t64\tlower"]),
    ("name-65", b" " + b"a" * 65, ["refused\t5\t1"]),
    ("name-65-before-3", b"a" * 65 + b" ?", ["refused\t5\t0"]),
    ("name-nearly-a-word", b"BEGI BEGINS begin Current current", ["0\t4\tUpper", "5\t11\tUpper", "12\t17\tlower", "18\t25\tUpper", "26\t33\tlower"]),
    # numbers
    ("number-0", b"0", ["0\t1\tnumber"]),
    ("number-least", b"-2147483648", ["0\t11\tnumber"]),
    ("number-below", b"-2147483649", ["refused\t6\t0"]),
    ("number-largest", b"4294967295", ["0\t10\tnumber"]),
    ("number-long", b"1" * 65536, ["refused\t6\t0"]),
    ("number-leading-zero", b"00", ["refused\t3\t0"]),
    ("number-leading-zero-more", b"x 0123", ["refused\t3\t2"]),
    ("number-negative-zero", b" -0", ["refused\t3\t1"]),
    ("number-negative-leading-zero", b"-01", ["refused\t3\t0"]),
    ("number-before-letter", b"5a", ["refused\t3\t0"]),
    ("number-negative-before-letter", b"-5a", ["refused\t3\t0"]),
    ("number-not-a-token-before-range", b"99999999999a", ["refused\t3\t0"]),
    ("number-leading-zero-before-range", b"099999999999", ["refused\t3\t0"]),
    ("number-then-hyphen", b"5-6", ["0\t1\tnumber", "1\t3\tnumber"]),
    ("number-hyphen-apart", b"- 5", ["refused\t3\t0"]),
    ("number-then-comment", b"5--6\n7", ["0\t1\tnumber", "5\t6\tnumber"]),
    # texts
    ("text-lone-quote", b'"', ["refused\t3\t0"]),
    ("text-open", b'a "b', ["refused\t3\t2"]),
    ("text-c3", b'"ab\xc3\xa9"', ["refused\t4\t3"]),
    ("text-forbidden-before-open", b'"a\x00b', ["refused\t4\t2"]),
    ("text-comment-inside", b'"a -- b" c', ["0\t8\ttext", "9\t10\tlower"]),
    ("text-two", b'"a""b"', ["0\t3\ttext", "3\t6\ttext"]),
    ("text-lines", b'"a\r\n\tb" c', ["0\t7\ttext", "8\t9\tlower"]),
    # hex strings
    ("hex", b"''H '09afAF'H", ["0\t3\thex", "4\t13\thex"]),
    ("hex-lower-h", b"'09'h", ["refused\t3\t0"]),
    ("hex-binary", b"'01'B", ["refused\t3\t0"]),
    ("hex-open", b"'09", ["refused\t3\t0"]),
    ("hex-no-digit", b"'0g'H", ["refused\t3\t0"]),
    ("hex-then-letter", b"'09'Hx", ["0\t5\thex", "5\t6\tlower"]),
    # marks
    ("marks", b"::=..{}(),;|", ["0\t3\t::=", "3\t5\t..", "5\t6\t{", "6\t7\t}", "7\t8\t(", "8\t9\t)", "9\t10\t,", "10\t11\t;", "11\t12\t|"]),
    ("marks-colon", b":", ["refused\t3\t0"]),
    ("marks-two-colons", b"a ::", ["refused\t3\t2"]),
    ("marks-three-dots", b"...", ["refused\t3\t2"]),
    # the leftmost token decides, whatever its number
    ("leftmost-6-before-3", b"4294967296 ? " + b"a" * 65, ["refused\t6\t0"]),
    ("leftmost-3-before-4", b'? "\x00"', ["refused\t3\t0"]),
    ("leftmost-4-before-3", b'"\x00" ?', ["refused\t4\t1"]),
    # lengths and line ends
    ("line-ends", b"a\r\nb\r\n\r\nc\n", ["0\t1\tlower", "3\t4\tlower", "8\t9\tlower"]),
    ("bytes-65536", b'"' + b"x" * 65534 + b'"', ["0\t65536\ttext"]),
    ("bytes-65537", b'"' + b"x" * 65535 + b'"', ["refused\t2\t0"]),
    ("words", *apart(CAPITAL + LOWER)),
]

for b in range(256):
    VECTORS.append((f"byte-{b:02x}", bytes([b]), None))
    VECTORS.append((f"byte-{b:02x}-in-text", b'"' + bytes([b]) + b'" z', None))
    VECTORS.append((f"byte-{b:02x}-in-comment", b"--" + bytes([b]) + b"-- z", None))

VECTORS += [(f"grammar-{name}", text.encode("ascii"), None) for name, text in grammar_vectors.vectors()]
NAMES = [name for name, text, tokens in VECTORS]
assert len(set(NAMES)) == len(NAMES)


def listing(name, tokens, lines):
    # the tokens, or one refusal, are as the paper has them; a text that cuts has one line more
    assert tokens is None or lines[: len(tokens)] == tokens, (name, lines, tokens)
    assert tokens is None or len(lines) == len(tokens) + (not lines[0].startswith("refused") or lines[0].startswith("refused\t7")), (name, lines)
    return lines


def files():
    """The path below the crate and the bytes of each file."""
    for name, text, tokens in VECTORS:
        yield os.path.join("data", name), text
    yield "args", "".join(f"{name}\n" for name in NAMES).encode("ascii")
    read = [said.decode("ascii").splitlines() for said in ask.texts("tokens", [text for _, text, _ in VECTORS])]
    listings = [[name] + listing(name, tokens, lines) for (name, _, tokens), lines in zip(VECTORS, read)]
    yield "stdout", "".join(f"{line}\n" for lines in listings for line in lines).encode("ascii")


def check():
    wrong = sorted(set(os.listdir(os.path.join(CRATE, "data"))) ^ set(NAMES))
    for path, text in files():
        full = os.path.join(CRATE, path)
        if os.path.exists(full):
            with open(full, "rb") as file:
                if file.read() == text:
                    continue
        wrong.append(path)
    for path in wrong:
        print(f"token_vectors: crates/tokens: {path} is not what the reading gives; run tests/token_vectors.py", file=sys.stderr)
    sys.exit(1 if wrong else 0)


def main():
    if "--check" in sys.argv:
        check()
    shutil.rmtree(os.path.join(CRATE, "data"), ignore_errors=True)
    os.makedirs(os.path.join(CRATE, "data"))
    for path, text in files():
        with open(os.path.join(CRATE, path), "wb") as file:
            file.write(text)
    print(len(VECTORS), "vectors")


main()
