# Tests of hint: values printed by their hints, and lists of cases on standard input.

test_hints_proved_examples() {
    expect "hint: P6" 0 "$(line printed 10.11:5)" "" hint octets '*1d.:1d' 020A0B05
    expect "hint: P7" 0 "$(line printed -0.05)" "" hint integer d-2 -5
    expect "hint: P8 under 255t, the bytes as they are" 0 "$(printf 'printed\t\303\251')" "" hint octets 255t C3A9
    expect "hint: P8 under 255a" 1 "$(line refused 33 0)" "" hint octets 255a c3a9
}

test_hints_octets() {
    expect "hint: an address" 0 "$(line printed 192.168.0.1)" "" hint octets 1d.1d.1d.1d C0A80001
    expect "hint: octets as tools of SNMP print them" 0 "$(line printed 192.168.0.1)" "" hint octets 1d.1d.1d.1d 'C0 A8 00 01 '
    expect "hint: octets with colons" 0 "$(line printed 0:1b:2)" "" hint octets 1x: 00:1b:02
    expect "hint: an empty hint" 1 "$(line refused 32 0)" "the hint is bad at byte 0: it is empty" hint octets "" 00
    expect "hint: an empty value" 0 "$(line printed "")" "" hint octets 1x ""
}

# Octets as tools print them, also over several lines.
test_hints_octets_as_printed() {
    expect "hint: a heading, and line ends between octets" 0 "$(line printed 0:1b:44:11)" "" hint octets 1x: "$(printf 'Hex-STRING: 00 1B \n44 11 \n')"
    expect "hint: line ends of two bytes, and tabs" 0 "$(line printed 0:1b:44)" "" hint octets 1x: "$(printf '00\t1B \r\n44 \r')"
    expect "hint: single digits between colons" 0 "$(line printed 0:1b:2:3)" "" hint octets 1x: 0:1b:2:3
    expect "hint: hyphens" 0 "$(line printed 0:1b:2)" "" hint octets 1x: 00-1B-02
    expect "hint: 0x" 0 "$(line printed 192.168.0.1)" "" hint octets 1d.1d.1d.1d 0xC0A80001
    expect "hint: blanks at both ends, and several" 0 "$(line printed 7:e6)" "" hint octets 1x: '  07   E6  '
    expect "hint names an odd run" 2 "" "'abc'" hint octets 1x abc
    expect "hint names single digits between blanks" 2 "" "'1 2'" hint octets 1x '1 2'
    expect "hint names what has nothing between two colons" 2 "" "'fe80::1'" hint octets 1x fe80::1
}

test_hints_many_octets() {
    started=$(date +%s)
    (printf 'octets\t1x\t' && yes '07' | head -n 20000 | tr '\n' ' ') | ./mib hint >"$scratch/output" 2>"$scratch/errors"
    [ "$?" = 1 ] && [ "$(cat "$scratch/output")" = "$(line refused 31 0)" ] && [ $(($(date +%s) - started)) -lt 5 ]
    report "hint: 20,000 octets are too many, and said at once" "$?"
}

test_hints_integers_out_of_range() {
    expect "hint: a number past 64 bits" 1 "$(line refused 34 0)" "" hint integer x 99999999999999999999999
    expect "hint: 32 comes before 34" 1 "$(line refused 32 0)" "bad at byte 1: '-'" hint integer x-1 99999999999999999999999
}

# A text with a line end is as it is for one case, and one line in a list.
test_hints_lines() {
    ./mib hint octets 255a '41 0A 5C 7F' >"$scratch/output" 2>"$scratch/errors"
    [ "$?" = 0 ] && printf 'printed\tA\n\\\177\n' | cmp -s - "$scratch/output" && [ ! -s "$scratch/errors" ]
    report "hint: a text of one case is as it is" "$?"
    printf 'octets\t255a\t41 0A 5C 7F 20 1F\noctets\t1x\t0d\n' | ./mib hint >"$scratch/output" 2>"$scratch/errors"
    [ "$?" = 0 ] && printf 'printed\tA\\x0a\\x5c\\x7f \\x1f\nprinted\td\n' | cmp -s - "$scratch/output" && [ ! -s "$scratch/errors" ]
    report "hint: a text in a list is one line" "$?"
}

# At a terminal no control byte of a text gets through.
test_hints_at_a_terminal() {
    python3 tests/at_terminal.py ./mib hint octets 255a '41 1B 42' >"$scratch/output" 2>&1
    grep -qF "$(line printed 'A\x1bB')" "$scratch/output"
    report "hint: control bytes are visible at a terminal" "$?"
}

# What is wrong with a hint, and where, in one line. A list has no such line, and a value that is too long comes before.
test_hints_bad_hints() {
    bad="mib hint: the hint is bad at byte"
    refused=$(line refused 32 0)
    while IFS='|' read -r kind hint message; do
        expect "hint: bad: $kind $hint" 1 "$refused" "$bad $message" hint "$kind" "$hint" 00
        [ "$(wc -l <"$scratch/errors")" = 1 ]
        report "hint: bad, one line: $kind $hint" "$?"
    done <<'END'
octets|1x.1q|4: 'q' is no format (x d o a t)
octets|x|0: 'x' stands where a length must stand
octets|*1d.:1d.:|8: ':' stands where a length must stand
octets|1d.01x|3: a length is not 0, and has no leading zero
octets|2d-9x|4: 'x' takes a length of at most 8
octets|256a|2: a length is at most 255
octets|1d.12|5: it ends too early
octets|*|1: it ends too early
octets|1é|1: the value 195 is no format (x d o a t)
integer|q|0: 'q' fits no hint for integers (x o b d d-1 to d-10)
integer|d-11|3: '1' fits no hint for integers (x o b d d-1 to d-10)
integer|d-|2: it ends too early
END
    expect "hint: bad: 256 bytes" 1 "$refused" "$bad 255: a hint has at most 255 bytes" hint octets "$(printf '%256s' | sed 's/  /1x/g')" 00
    expect "hint: 31 comes before 32" 1 "$(line refused 31 0)" "" hint octets q "$(printf '%2050s' | tr ' ' 0)"
    printf 'octets\tq\t00\ninteger\tq\t0\n' | ./mib hint >"$scratch/output" 2>"$scratch/errors"
    [ "$?" = 1 ] && [ "$(cat "$scratch/output")" = "$refused
$refused" ] && [ ! -s "$scratch/errors" ]
    report "hint: bad hints of a list are not explained" "$?"
    python3 tests/hint_places.py target/bin/hint_tool >"$scratch/compared" || cat "$scratch/compared" >&2
    grep -q ' 0 differences$' "$scratch/compared"
    report "hint: places of 656 hints by their plain meaning" "$?"
}

test_hints_misfit_words() {
    expect "hint names a word that is no octets" 2 "" "'0G'" hint octets 1x 0G
    expect "hint names a word that is no number" 2 "" "'five'" hint integer d five
    expect "hint names a word that is no kind" 2 "" "'bits'" hint bits 1x 00
}

# A misfit word is named with its line, and the list goes on.
test_hints_list_goes_on() {
    printf 'octets\t1x\t0g\ninteger\tx\t255\n' | ./mib hint >"$scratch/output" 2>"$scratch/errors"
    [ "$?" = 2 ] && [ "$(cat "$scratch/output")" = "misfit
$(line printed ff)" ] && grep -q "line 1: '0g'" "$scratch/errors"
    report "hint goes on after a misfit line" "$?"
}
