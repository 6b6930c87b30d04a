# Tests at a terminal: what is waited for is said.

test_terminal_row() {
    python3 tests/at_terminal.py ./mib row >"$scratch/output" 2>&1
    grep -q 'waiting for cases' "$scratch/output" && grep -q 'createAndGo' "$scratch/output"
    report "row at a terminal says what it waits for, and answers" "$?"
}

test_terminal_shelf() {
    yes tests/texts/whole | head -n 130 | python3 tests/at_terminal.py --errors ./mib shelf >"$scratch/output" 2>&1
    tr '\r' '\n' <"$scratch/output" >"$scratch/shown"
    grep -qx '64 files' "$scratch/shown" && grep -qx '128 files' "$scratch/shown" && grep -qx '  *' "$scratch/shown" && grep -qx "files${tab}130" "$scratch/shown"
    report "shelf counts files at a terminal, and clears the line" "$?"
}

# Control bytes of a file's name, of a file and of a value do nothing at a terminal; in a pipe bytes are as they are.
test_terminal_control_bytes() {
    escape=$(printf '\033')
    name=$scratch/a${escape}[31mb
    printf 'T DEFINITIONS ::= BEGIN\n\033[2J\n' >"$name"
    for words in card explain shelf tokens; do
        python3 tests/at_terminal.py --output ./mib "$words" "$name" "$scratch/no${escape}c" >"$scratch/output" 2>&1 </dev/null
        ! grep -q "$escape" "$scratch/output" && grep -qF 'a\x1b[31mb' "$scratch/output" && grep -qF 'no\x1bc: No such file' "$scratch/output"
        report "$words: no control byte reaches a terminal" "$?"
        ./mib "$words" "$name" "$name" 2>&1 | grep -qF "a${escape}[31mb"
        report "$words: in a pipe bytes are as they are" "$?"
    done
    python3 tests/at_terminal.py --output ./mib explain "$name" >"$scratch/output" 2>&1 </dev/null
    tr -d '\r' <"$scratch/output" | grep -qxF '\x1b[2J' && tr -d '\r' <"$scratch/output" | grep -qxF '^'
    report "explain: a line of a file with control bytes" "$?"
    python3 tests/at_terminal.py --output ./mib hint octets 255a 411B5B0D >"$scratch/output" 2>&1 </dev/null
    [ "$(tr -d '\r' <"$scratch/output")" = "$(line printed 'A\x1b[\x0d')" ]
    report "hint: a value with control bytes" "$?"
    ./mib hint octets 255a 411B5B0D | cmp -s - "$(printf 'printed\tA\033[\r\n' >"$scratch/wanted" && echo "$scratch/wanted")"
    report "hint: in a pipe bytes are as they are" "$?"
    python3 tests/at_terminal.py --output ./mib hint octets 255t C29B41C3A9 >"$scratch/output" 2>&1 </dev/null
    [ "$(tr -d '\r' <"$scratch/output")" = "$(printf 'printed\t\302\\x9bA\303\251')" ]
    report "hint: a control character of two bytes, and a letter of two bytes" "$?"
    python3 tests/at_terminal.py --errors ./mib "ro${escape}w" >"$scratch/output" 2>&1 </dev/null
    ! grep -q "$escape" "$scratch/output" && grep -qF 'ro\x1bw' "$scratch/output"
    report "a complaint quotes no control byte at a terminal" "$?"
    python3 tests/at_terminal.py --errors ./mib row "3${escape}" no yes >"$scratch/output" 2>&1 </dev/null
    ! grep -q "$escape" "$scratch/output" && grep -qF '3\x1b' "$scratch/output"
    report "nor does a program's" "$?"
}
