# Tests that need no program: the vectors that the gate runs, the tables, the documents and the reading of document 01.

test_sources_vectors_of_rows() {
    python3 tests/row_vectors.py --check
    report "crates/row/stdin and stdout are the table's, and the reading's" "$?"
}

test_sources_vectors_of_hints() {
    python3 tests/hint_vectors.py --check
    report "crates/hint_tool/stdin and stdout are the reading's" "$?"
}

test_sources_vectors_of_tokens() {
    python3 tests/token_vectors.py --check
    report "crates/tokens/data, args and stdout are the reading's" "$?"
}

test_sources_vectors_of_cards() {
    python3 tests/card_vectors.py --check
    report "crates/card/data, args and stdout are the paper's, the page's and the reading's" "$?"
}

test_sources_tables() {
    python3 tools/word_table.py --check
    report "the table of words is that of the words" "$?"
    python3 tools/symbol_table.py --check
    report "the tables of the built-in symbols are those of the symbols" "$?"
    python3 tools/grammar_table.py --check
    report "the transition table is the grammar's" "$?"
}

test_sources_grammar() {
    python3 tests/grammar_vectors.py --table >/dev/null
    report "the transition table and the reading agree" "$?"
}

test_sources_imports() {
    python3 tools/unused_imports.py
    report "no file brings in a name that it does not use" "$?"
}

test_sources_links() {
    python3 tools/dead_links.py
    report "the documents name files, crates and functions that there are" "$?"
}

test_sources_reading() {
    CARGO_TARGET_DIR=$PWD/target/cargo cargo test --release --offline --locked --manifest-path tests/reading/Cargo.toml >"$scratch/checked" 2>&1
    problem=$?
    [ "$problem" = 0 ] || cat "$scratch/checked" >&2
    report "the reading of the paper answers what was worked out by hand" "$problem"
}

test_sources_examples_of_rules() {
    python3 tests/rule_examples.py >"$scratch/examples" || cat "$scratch/examples" >&2
    tail -n 1 "$scratch/examples" | grep -q ' 0 differences$'
    report "each example of docs/RULES.md is refused where it says" "$?"
}
