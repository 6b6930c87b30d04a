# Tests of card.

whole_card="$(line accepted 2)
$(line 1 t 1.9 0 0 0)
$(line 2 a 1.9.1 0 0 0)"

test_cards_whole_case() {
    ./mib card tests/texts/whole >"$scratch/output" 2>"$scratch/errors"
    printf 'accepted\t2\n1\tt\t1.9\t0\t0\t0\n2\ta\t1.9.1\t0\t0\t0\n' | cmp -s - "$scratch/output" && [ ! -s "$scratch/errors" ]
    report "card: the whole case, byte for byte" "$?"
}

test_cards_readme() {
    shown '.\/mib card examples' >"$scratch/shown"
    ./mib card examples/QUAY-UPS-MIB | cmp -s - "$scratch/shown"
    report "card: the README shows what is printed" "$?"
}

test_cards_refused() {
    expect "card: one that is refused" 1 "$(line refused 3 2)" "" card tests/texts/open
}

test_cards_several_files() {
    expect "card: several files, and one that is missing" 2 "tests/texts/whole
$whole_card
tests/texts/open
$(line refused 3 2)" "$scratch/missing: No such file or directory" card tests/texts/whole "$scratch/missing" tests/texts/open
}

test_cards_names_of_files() {
    expect "card: a name that is too long for a file's" 2 "" "File name too long" card "$(printf '%5000s' x)"
    expect "card names a folder" 2 "" "$scratch: Is a directory" card "$scratch"
    expect "card without a file" 2 "" "card FILE" card
}

# More names than one buffer holds.
test_cards_many_files() {
    yes tests/texts/whole | head -n 4000 | xargs -n 4000 ./mib card >"$scratch/output" 2>"$scratch/errors"
    [ "$(wc -l <"$scratch/output")" = 16000 ] && [ "$(sort -u "$scratch/output" | wc -l)" = 4 ] && [ ! -s "$scratch/errors" ]
    report "card: 4,000 names in one call" "$?"
}

test_cards_writes() {
    [ "$(python3 tests/writes.py ./mib card tests/texts/whole tests/texts/whole)" = 1 ]
    report "card: two cards are one write" "$?"
    [ "$(python3 tests/writes.py ./mib card crates/card/data/definitions-512)" = 2 ]
    report "card: 10,500 bytes are two writes" "$?"
}

# Acceptance and each refusal are among them, and no 11, which is not given; refusal 1 is about buffers, which no file can make short.
test_cards_against_the_reading() {
    agrees card 4000 1 && grep -q '^accepted' "$scratch/read" && ! grep -q "^refused${tab}11$tab" "$scratch/read"
    problem=$?
    for number in 2 3 4 5 6 7 8 9 10 12 13 14 15 16 17 18 19 20 21 22 41 42; do
        grep -q "^refused$tab$number$tab" "$scratch/read" || {
            problem=1
            echo "tests: no text is answered by $number" >&2
        }
    done
    report "card: 4,000 texts as the reading of the paper has them, with every answer among them" "$problem"
}

# The card in words: with tabs in a pipe, in columns at a terminal; the syntax in one line, without comments.
test_cards_in_words() {
    expect "card --words: the README's module" 0 "$(line accepted 15)
$(line identity quayUps 1.3.6.1.4.1.64999.1 - - - -)
$(line 'textual convention' QuayTemperature - integer - current 'Integer32 (-400..1250)')
$(line 'plain OID' quayUpsObjects 1.3.6.1.4.1.64999.1.1 - - - -)
$(line 'plain OID' quayUpsNotifications 1.3.6.1.4.1.64999.1.2 - - - -)
$(line 'plain OID' quayUpsEvents 1.3.6.1.4.1.64999.1.2.0 - - - -)
$(line object quayUpsModel 1.3.6.1.4.1.64999.1.1.1 octets read-only current 'DisplayString (SIZE (0..63))')
$(line object quayUpsSource 1.3.6.1.4.1.64999.1.1.2 enumerated read-only current 'INTEGER { mains(1), battery(2), bypass(3) }')
$(line object quayUpsTimeLeft 1.3.6.1.4.1.64999.1.1.3 TimeTicks read-only current TimeTicks)
$(line object quayUpsBatteryTable 1.3.6.1.4.1.64999.1.1.4 table not-accessible current 'SEQUENCE OF QuayUpsBatteryEntry')
$(line object quayUpsBatteryEntry 1.3.6.1.4.1.64999.1.1.4.1 row not-accessible current QuayUpsBatteryEntry)
$(line 'SEQUENCE type' QuayUpsBatteryEntry - - - - -)
$(line object quayUpsBatteryIndex 1.3.6.1.4.1.64999.1.1.4.1.1 integer not-accessible current 'Integer32 (1..64)')
$(line object quayUpsBatteryCharge 1.3.6.1.4.1.64999.1.1.4.1.2 Gauge32 read-only current 'Gauge32 (0..100)')
$(line object quayUpsBatteryTemperature 1.3.6.1.4.1.64999.1.1.4.1.3 integer read-only current QuayTemperature)
$(line notification quayUpsOnBattery 1.3.6.1.4.1.64999.1.2.0.1 - - current -)" "" card --words examples/QUAY-UPS-MIB
    expect "card --words: one that is refused, and one that is missing" 2 "tests/texts/open
$(line refused 3 2)" "$scratch/missing: No such file or directory" card --words tests/texts/open "$scratch/missing"
    sed 's/mains(1), battery(2)/mains(1), -- the usual -- -- and\n  battery(2)/' examples/QUAY-UPS-MIB >"$scratch/commented"
    ./mib card --words "$scratch/commented" | grep -qxF "$(line object quayUpsSource 1.3.6.1.4.1.64999.1.1.2 enumerated read-only current 'INTEGER { mains(1), battery(2), bypass(3) }')"
    report "card --words: a syntax in one line" "$?"
    python3 tests/at_terminal.py --output ./mib card --words tests/texts/whole </dev/null 2>&1 | tr -d '\r' >"$scratch/output"
    printf '%s\n' "$(line accepted 2)" \
        'identity            t  1.9    -           -                      -           -' \
        'plain OID           a  1.9.1  -           -                      -           -' | cmp -s - "$scratch/output"
    report "card --words: columns at a terminal" "$?"
}
