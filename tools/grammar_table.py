#!/usr/bin/env python3
"""Prints the transition table of the grammar.

Reads the grammar as crates/grammar/specs/Grammar.antt has it and the terminals' numbers as
crates/terminal/specs/Terminal.antt has them, takes derivatives of the rule `smi_module` until no
new rule comes, and numbers the rules: these are the states. Writes crates/grammar/src/table.rt and
crates/grammar/specs/Table.antt; with --check it writes nothing, compares, and exits with 1 where
one of the two files differs. What it prints is trusted in nothing: the proofs test every entry.
"""

import re
import sys
from pathlib import Path

ROOT = Path(__file__).resolve().parent.parent
GRAMMAR = ROOT / "crates/grammar/specs/Grammar.antt"
RULE = ROOT / "crates/grammar/specs/Rule.antt"
TERMINAL = ROOT / "crates/terminal/specs/Terminal.antt"
TABLE_RT = ROOT / "crates/grammar/src/table.rt"
TABLE_ANTT = ROOT / "crates/grammar/specs/Table.antt"

# A rule is a tuple: ("never",), ("empty",), ("token", class), ("then", r, s), ("or", r, s),
# ("repeated", step, last). A token's class is a pair of its number and the definition that it stands
# in; the numbers alone count when two rules are compared.
NEVER = ("never",)
EMPTY = ("empty",)


# ---- reading the two files -------------------------------------------------------------------


def declarations(text):
    """The (name, parameters, body) of each declaration of an antt file that has one clause."""
    lines = [line for line in text.split("\n") if not line.startswith("--")]
    blocks = re.split(r"\n\s*\n", "\n".join(lines))
    for block in blocks:
        got = re.match(r"(?:abbrev |unfoldable )?pub (\S+) : [^\n]*\n\1((?: [^\s=]+)*) =\s*(.*)", block, re.S)
        if got:
            yield got.group(1), got.group(2).split(), got.group(3)


def terminals():
    """The number of each terminal, by its name."""
    found = {}
    for name, parameters, body in declarations(TERMINAL.read_text()):
        if body.strip().isdigit():
            found[name] = int(body)
    return found


def imports(text, numbers):
    """The terminals' numbers under the names that the grammar's file gives them."""
    found = {}
    for group in re.findall(r"use Rattle\.terminal\.specs\.Terminal\.\{([^}]*)\}", text):
        for item in group.split(","):
            words = item.split()
            found[words[-1]] = numbers[words[0]]
    return found


class Reader:
    """Reads the right side of a definition: application, then ⨾, then or, both to the right."""

    def __init__(self, grammar, body, bound, owner):
        self.grammar = grammar
        self.words = re.findall(r"[()]|[^\s()]+", body)
        self.at = 0
        self.bound = bound
        self.owner = owner

    def peek(self):
        return self.words[self.at] if self.at < len(self.words) else None

    def take(self):
        self.at += 1
        return self.words[self.at - 1]

    def whole(self):
        rule = self.choice()
        assert self.peek() is None, (self.owner, self.words[self.at :])
        return rule

    def choice(self):
        left = self.sequence()
        if self.peek() == "or":
            self.take()
            return ("or", left, self.choice())
        return left

    def sequence(self):
        left = self.application()
        if self.peek() == "⨾":
            self.take()
            return ("then", left, self.sequence())
        return left

    def application(self):
        word = self.take()
        if word == "(":
            inner = self.choice()
            assert self.take() == ")", self.owner
            return inner
        arity = self.grammar.arity(word, self.bound)
        return self.grammar.apply(word, [self.argument(word) for _ in range(arity)], self.bound, self.owner)

    def argument(self, head):
        if head == "token" and self.peek() not in self.bound:
            return self.take()
        if self.peek() == "(":
            return self.application()
        word = self.take()
        assert self.grammar.arity(word, self.bound) == 0, word
        return self.grammar.apply(word, [], self.bound, self.owner)


class Grammar:
    """The definitions of Grammar.antt, expanded to rules on demand."""

    PRIMITIVES = {"never": 0, "empty": 0, "token": 1, "repeated": 2}

    def __init__(self):
        text = GRAMMAR.read_text()
        self.numbers = terminals()
        self.names = imports(text, self.numbers)
        self.definitions = {}
        for source in (RULE.read_text(), text):
            for name, parameters, body in declarations(source):
                self.definitions[name] = (parameters, body)

    def arity(self, word, bound):
        if word in bound:
            return 0
        if word in self.PRIMITIVES:
            return self.PRIMITIVES[word]
        return len(self.definitions[word][0])

    def apply(self, word, arguments, bound, owner):
        if word in bound:
            return bound[word]
        if word == "token":
            return ("token", (self.names[arguments[0]], owner))
        if word in self.PRIMITIVES:
            return (word, *arguments)
        parameters, body = self.definitions[word]
        inner = dict(zip(parameters, arguments))
        return Reader(self, body, inner, self.owner_of(word, owner)).whole()

    # The definitions that name a part of the grammar; the others are classes of names and brackets,
    # whose tokens belong to the definition that uses them.
    UNNAMED = {"lower", "Upper", "number", "text", "hex", "braced", "bracketed", "list", "macro_word"}
    UNNAMED |= {"optional", "any", "parted", "access", "status", "def"}

    def owner_of(self, word, owner):
        return owner if word in self.UNNAMED else word.replace("_", "-").removesuffix("-line")


# ---- derivatives, as proofs/Derivative.antt has them -----------------------------------------


def sequence(r, s):
    if r == NEVER:
        return NEVER
    if r == EMPTY:
        return s
    if r[0] == "then":
        return ("then", r[1], sequence(r[2], s))
    return ("then", r, s)


def choice(r, s):
    if r == NEVER:
        return s
    if s == NEVER:
        return r
    return ("or", r, s)


def blank(r):
    kind = r[0]
    if kind == "empty":
        return EMPTY
    if kind == "then":
        return sequence(blank(r[1]), blank(r[2]))
    if kind == "or":
        return choice(blank(r[1]), blank(r[2]))
    if kind == "repeated":
        assert blank(r[1]) == NEVER
        return blank(r[2])
    return NEVER


def derivative(c, r):
    kind = r[0]
    if kind == "token":
        return EMPTY if r[1][0] == c else NEVER
    if kind == "then":
        first = sequence(derivative(c, r[1]), r[2])
        gap = blank(r[1])
        return first if gap == NEVER else choice(first, sequence(gap, derivative(c, r[2])))
    if kind == "or":
        return choice(derivative(c, r[1]), derivative(c, r[2]))
    if kind == "repeated":
        return choice(derivative(c, r[2]), sequence(derivative(c, r[1]), r))
    return NEVER


def simplified(r):
    kind = r[0]
    if kind == "then":
        return sequence(simplified(r[1]), simplified(r[2]))
    if kind == "or":
        return choice(simplified(r[1]), simplified(r[2]))
    if kind == "repeated":
        return ("repeated", simplified(r[1]), simplified(r[2]))
    return r


def plain(r):
    """The rule without the definitions that its tokens stand in."""
    if r[0] == "token":
        return ("token", r[1][0])
    return (r[0], *(plain(part) for part in r[1:]))


def firsts(r):
    """The (class, definition) pairs of the tokens that a derived sequence can begin with."""
    kind = r[0]
    if kind == "token":
        return [r[1]]
    if kind == "then":
        return firsts(r[1]) + (firsts(r[2]) if blank(r[1]) != NEVER else [])
    if kind == "or":
        return firsts(r[1]) + firsts(r[2])
    if kind == "repeated":
        return firsts(r[1]) + firsts(r[2])
    return []


class Automaton:
    """State 0 is dead, with the rule ∅; state 1 has the whole grammar; the others as they are met."""

    def __init__(self, grammar, start):
        self.width = grammar.numbers["terminals"]
        self.rules = [NEVER, start]
        self.entered = [set(), set()]
        index = {plain(NEVER): 0, plain(start): 1}
        self.rows = [[0] * self.width]
        state = 1
        while state < len(self.rules):
            row = []
            for c in range(self.width):
                rest = derivative(c, self.rules[state])
                key = plain(rest)
                if key not in index:
                    index[key] = len(self.rules)
                    self.rules.append(rest)
                    self.entered.append(set())
                row.append(index[key])
                if index[key]:
                    for number, owner in firsts(self.rules[state]):
                        if number == c:
                            self.entered[index[key]].add((owner, number))
            self.rows.append(row)
            state += 1
        accepting = [s for s, rule in enumerate(self.rules) if blank(rule) != NEVER]
        assert [blank(self.rules[s]) for s in accepting] == [EMPTY], "one accepting state, blank in one way"
        self.accepting = accepting[0]


# ---- printing --------------------------------------------------------------------------------


class Printer:
    """The states as the two files have them, a line or a block for each."""

    GROUPS = {
        "lowers": ["lower", "current", "deprecated", "obsolete", "not_accessible", "accessible_for_notify"]
        + ["read_only", "read_write", "read_create"],
        "macro_words": ["MODULE-IDENTITY", "OBJECT-IDENTITY", "OBJECT-TYPE", "NOTIFICATION-TYPE", "TEXTUAL-CONVENTION"],
        "numbers": ["number", "negative"],
    }

    # How the comments spell what is no word of a module; a word of a module has dashes there.
    SPELLED = {"assign": "::=", "dots": "..", "left_brace": "{", "right_brace": "}", "left_paren": "(", "right_paren": ")"}
    SPELLED |= {"comma": ",", "semicolon": ";", "bar": "|", "lowers": "lower", "macro_words": "macro word", "numbers": "number"}

    # The longest line of code in a .rt file.
    WIDTH = 100

    def __init__(self, grammar, automaton):
        self.automaton = automaton
        self.words = {n: name for name, n in grammar.numbers.items() if name != "terminals"}
        self.groups = {name: [grammar.numbers[word] for word in words] for name, words in self.GROUPS.items()}

    def spelled(self, word):
        return self.SPELLED.get(word, word.replace("_", "-"))

    def grouped(self, classes):
        """The names of the classes: a group's where all of it is there, then those of the rest."""
        left = sorted(classes)
        names = []
        for name, group in self.groups.items():
            if set(group) <= set(left):
                names.append(name)
                left = [c for c in left if c not in group]
        return names, [self.words[c] for c in left]

    def where(self, state):
        """Where in the grammar the state is: the tokens that lead to it and their definitions."""
        if state == 0:
            return "dead: no derived sequence goes on so"
        if state == 1:
            return "the start"
        owners = {}
        for owner, number in self.automaton.entered[state]:
            owners.setdefault(owner, []).append(number)
        parts = []
        for owner in sorted(owners):
            groups, words = self.grouped(owners[owner])
            parts.append(" or ".join(self.spelled(word) for word in groups + words) + " of " + owner)
        return "after " + ", ".join(parts)

    def targets(self, state):
        found = {}
        for c, x in enumerate(self.automaton.rows[state]):
            if x:
                found.setdefault(x, []).append(c)
        return found

    def row(self, state):
        """The state's row in antt, in the order of the states that it leads to."""
        text, ends = "", False
        for x, classes in sorted(self.targets(state).items()):
            names, words = self.grouped(classes)
            for name in names:
                text, ends = text + (" ++ " if ends else "") + f"{name} {x}", True
            for word in words:
                text, ends = text + (" ++ " if ends else "") + f"({word}, {x}) ∷ ", False
        return text if ends else text + "[]"

    def antt(self):
        a = self.automaton
        words = [w for n, w in sorted(self.words.items())]
        lines = [
            "-- The automaton of the grammar, printed by tools/grammar_table.py: a line for each state, with the states that the",
            "-- classes lead to. Nothing rests on how it was made: the proofs test each state and each class.",
            "-- Assumes nothing.",
            "use Rattle.std.specs.Prelude.{List, [], ◌∷◌, ◌++◌, ℕ}",
            "use Rattle.grammar.specs.Automaton.{Automaton, dense}",
            "use Rattle.terminal.specs.Terminal.{" + ", ".join(words + ["terminals"]) + "}",
            "",
        ]
        for name, words in self.GROUPS.items():
            pairs = " ∷ ".join([f"({word}, x)" for word in words] + ["[]"])
            lines += [f"abbrev {name} : ℕ → List (ℕ × ℕ)", f"{name} x = {pairs}", ""]
        lines += [
            "-- for each state the classes that lead on, and the state that each of them leads to",
            "unfoldable pub transitions : List (List (ℕ × ℕ))",
            "transitions =",
        ]
        for state in range(len(a.rules)):
            row = self.row(state)
            lines += [f"    -- {state}, {self.where(state)}", f"    {row if row == '[]' else '(' + row + ')'} ∷"]
        lines += [
            "    []",
            "",
            "unfoldable pub module_automaton : Automaton",
            "unfolding transitions",
            "module_automaton =",
            f"    record {{ states = {len(a.rules)}; width = terminals; table = dense terminals transitions; start = 1; accepting = {a.accepting} }}",
            "",
        ]
        return "\n".join(lines)

    def filled(self, row):
        """The row's entries as `rt fmt` lays them out: as many on a line as fit, and a comment ends its line."""
        lines, line = [], "   "
        for c, x in enumerate(row):
            entry = f" {x},"
            if len(line + entry) > self.WIDTH:
                lines, line = lines + [line], "   "
            line += entry
            if x:
                lines, line = lines + [f"{line} // {self.spelled(self.words[c])}"], "   "
        return lines + [line] if line.strip() else lines

    def rattle(self):
        a = self.automaton
        size = len(a.rules) * a.width
        lines = [
            "// The transition table of the grammar, printed by tools/grammar_table.py: the state after a token of class c in state s,",
            "// at s * 58 + c, with the class's name where it leads on. specs/Table.antt has the same, a line for each state, and the",
            "// proof of `step` holds the two together.",
            "",
            "// No derived sequence goes on from here.",
            "pub const DEAD: u8 = 0;",
            "",
            "// Before the first token.",
            "pub const START: u8 = 1;",
            "",
            "// The module is whole.",
            f"pub const ACCEPTING: u8 = {a.accepting};",
            "",
            "// As many rows as there are states, each with an entry for each class.",
            f"const ENTRIES: usize = {size};",
            "",
            "pub static TABLE: [u8; ENTRIES] = [",
        ]
        for state, row in enumerate(a.rows):
            lines.append(f"    // state {state}, {self.where(state)}")
            lines += self.filled(row)
        lines += ["];", ""]
        return "\n".join(lines)


def main():
    grammar = Grammar()
    automaton = Automaton(grammar, simplified(grammar.apply("smi_module", [], {}, "smi-module")))
    printer = Printer(grammar, automaton)
    files = {TABLE_RT: printer.rattle(), TABLE_ANTT: printer.antt()}
    if sys.argv[1:] == ["--check"]:
        stale = [path for path, text in files.items() if not path.exists() or path.read_text() != text]
        for path in stale:
            print(f"{path.relative_to(ROOT)} is not what tools/grammar_table.py prints")
        sys.exit(1 if stale else 0)
    if sys.argv[1:]:
        sys.exit("usage: tools/grammar_table.py [--check]")
    for path, text in files.items():
        path.write_text(text)


if __name__ == "__main__":
    main()
