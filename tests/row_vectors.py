#!/usr/bin/env python3
"""The RowStatus cases of crates/row, from a table that was filled in by hand beside document 01, "RowStatus".

row_vectors.py          writes crates/row/stdin and crates/row/stdout
row_vectors.py --check  says whether the two files are those of the table, and exits 1 where they are not

The table is held against the independent reading, case by case.

A cell is what the set value does to a row in that state: a number 0 to 3 is the next state, answered 0; 'wrong' is 10
and 'inconsistent' is 12, both with the state unchanged. 'complete ? a : b' and 'willing ? a : b' go by the flag.
"""
import os
import sys

sys.dont_write_bytecode = True
HERE = os.path.dirname(os.path.abspath(__file__))
sys.path.insert(0, HERE)
import ask  # noqa: E402

NAMES = {1: "active", 2: "notInService", 3: "notReady", 4: "createAndGo", 5: "createAndWait", 6: "destroy"}

#        1 active                       2 notInService                 3        4 createAndGo                  5 createAndWait                               6
TABLE = {
    0: ["inconsistent",                "inconsistent",                "wrong", "complete ? 1 : inconsistent", "willing ? complete ? 2 : 3 : wrong",        "0"],
    1: ["1",                           "willing ? 2 : wrong",         "wrong", "inconsistent",                "inconsistent",                              "0"],
    2: ["1",                           "2",                           "wrong", "inconsistent",                "inconsistent",                              "0"],
    3: ["complete ? 1 : inconsistent", "complete ? 2 : inconsistent", "wrong", "inconsistent",                "inconsistent",                              "0"],
}

# one value each: a value without a name, a value below zero, a state over 3 with each kind of value, numbers of any length
SINGLE = [
    ("1", "yes", "yes", "7", "-", 10, 1),
    ("1", "yes", "yes", "0", "-", 10, 1),
    ("0", "no", "yes", "-1", "-", 10, 0),
    ("3", "no", "yes", "5", "createAndWait", 12, 3),
    ("3", "yes", "no", "2", "notInService", 0, 2),
    ("1", "no", "no", "2", "notInService", 10, 1),
    ("0", "no", "no", "4", "createAndGo", 12, 0),
    ("2", "no", "no", "6", "destroy", 0, 0),
    ("4", "yes", "yes", "6", "destroy", 40, 4),
    ("4", "yes", "yes", "9", "-", 40, 4),
    ("999999999999999999", "no", "no", "-999999999999999999", "-", 40, 999999999999999999),
    ("1000000000000000000", "yes", "yes", "6", "destroy", 40, 1000000000000000000),
    ("2", "yes", "yes", "1" + "0" * 40, "-", 10, 2),
    ("2", "yes", "yes", "-1" + "0" * 40, "-", 10, 2),
    ("1" + "0" * 40, "no", "no", "1" + "0" * 40, "-", 40, 10 ** 40),
]

# states and set values by their names, with their numbers in brackets or not; what is printed is the number
NAMED = [
    ("notReady", "yes", "yes", "active", 1, 0, 1),
    ("notReady(3)", "no", "yes", "notInService(2)", 2, 12, 3),
    ("none", "yes", "no", "createAndGo", 4, 0, 1),
    ("none(0)", "no", "yes", "createAndWait(5)", 5, 0, 3),
    ("active", "no", "no", "notInService", 2, 10, 1),
    ("active(1)", "yes", "yes", "notReady", 3, 10, 1),
    ("active", "yes", "yes", "active(1)", 1, 0, 1),
    ("notInService", "no", "no", "destroy(6)", 6, 0, 0),
    ("notInService(2)", "no", "no", "createAndGo(4)", 4, 12, 2),
    ("1", "yes", "no", "notReady(3)", 3, 10, 1),
    ("0", "yes", "yes", "createAndWait", 5, 0, 2),
    ("none", "yes", "yes", "4", 4, 0, 1),
    ("3", "no", "no", "destroy", 6, 0, 0),
    ("4", "yes", "yes", "active", 1, 40, 4),
]

# words that do not fit: the line `misfit`, and the list goes on
BAD = ["x\tyes\tyes", "-1\tyes\tyes", "1\tYes\tyes", "1\tyes\t", "1\tyes\tyes\tActive", "1\tyes", "1\tyes\tyes\t1\t1", "", "1 yes yes",
       "notReady(2)\tyes\tyes", "active(01)\tyes\tyes", "active(1\tyes\tyes", "active()\tyes\tyes", "active 1\tyes\tyes", "none(\tyes\tyes",
       "createAndGo\tyes\tyes", "destroy\tyes\tyes", "notExist\tyes\tyes", "1\tyes\tyes\tnone", "1\tyes\tyes\tnone(0)", "1\tyes\tyes\tactive(2)",
       "1\tyes\tyes\tdestroy(-6)", "1\tyes\tyes\tcreateAndGo(4) ", "1\tyes\tyes\tcreate", "--words\t1\tyes\tyes", "1\tyes\tyes\t--words"]


def cell(state, value, complete, willing):
    rest = TABLE[state][value - 1]
    while "?" in rest:
        flag, rest = [part.strip() for part in rest.split("?", 1)]
        holds = {"complete": complete, "willing": willing}[flag]
        first, second = [part.strip() for part in rest.rsplit(":", 1)]
        rest = first if holds else second
    if rest == "wrong":
        return 10, state
    if rest == "inconsistent":
        return 12, state
    return 0, int(rest)


def agree(cases):
    """Each case, its state, flags, value, number and next state, is as the reading has it."""
    given = ["\t".join(map(str, case[:4])).encode() for case in cases]
    wanted = ["\t".join(map(str, case[4:])).encode() for case in cases]
    wrong = [case for case, want, read in zip(cases, wanted, ask.lines("row", given)) if want != read]
    for case in wrong:
        print("row_vectors: the reading has not", case, file=sys.stderr)
    return not wrong


def steps():
    """What the table says of each state, with each flag and value."""
    for state in range(5):
        for complete in ("yes", "no"):
            for willing in ("yes", "no"):
                for value in range(1, 7):
                    answer = (40, state) if state > 3 else cell(state, value, complete == "yes", willing == "yes")
                    yield (state, complete, willing, value, *answer)


def vectors():
    cases, lines = [], []
    for state, complete, willing, value, number, following in steps():
        if value == 1:
            cases.append(f"{state}\t{complete}\t{willing}")
        lines.append(f"{value}\t{NAMES[value]}\t{number}\t{following}")
    for state, complete, willing, value, name, number, following in SINGLE:
        cases.append(f"{state}\t{complete}\t{willing}\t{value}")
        lines.append(f"{value}\t{name}\t{number}\t{following}")
    for state, complete, willing, value, printed, number, following in NAMED:
        cases.append(f"{state}\t{complete}\t{willing}\t{value}")
        lines.append(f"{printed}\t{NAMES[printed]}\t{number}\t{following}")
    cases.append("notReady\tno\tyes")   # each value of a state that is named
    lines += ["1\tactive\t12\t3", "2\tnotInService\t12\t3", "3\tnotReady\t10\t3", "4\tcreateAndGo\t12\t3", "5\tcreateAndWait\t12\t3", "6\tdestroy\t0\t0"]
    cases[3:3] = BAD[:5]
    lines[18:18] = ["misfit"] * 5   # behind the six lines of each of the first three cases
    cases += BAD[5:]
    lines += ["misfit"] * len(BAD[5:])
    cases += ["0\tyes\tyes\t4\r", "0\tyes\r\tyes\t4"]   # a line end of two bytes; a carriage return elsewhere
    lines += ["4\tcreateAndGo\t0\t1", "misfit"]
    cases.append("10" + "0" * 40 + "\tno\tyes")   # each value of a long state
    lines += [f"{value}\t{NAMES[value]}\t40\t10{'0' * 40}" for value in range(1, 7)]
    cases.append("0\tyes\tyes\t4")   # a last line, with no line end
    lines.append("4\tcreateAndGo\t0\t1")
    return "\n".join(cases), "".join(line + "\n" for line in lines)


def main():
    folder = os.path.join(HERE, "..", "crates", "row")
    same = agree([*steps(), *((*single[:4], *single[5:]) for single in SINGLE)])
    for name, text in zip(("stdin", "stdout"), vectors()):
        path = os.path.join(folder, name)
        if "--check" not in sys.argv:
            with open(path, "w", encoding="ascii", newline="") as file:
                file.write(text)
            continue
        with open(path, encoding="ascii", newline="") as file:
            if file.read() != text:
                print(f"row_vectors: crates/row/{name} is not what the table gives; run tests/row_vectors.py", file=sys.stderr)
                same = False
    sys.exit(0 if same else 1)


main()
