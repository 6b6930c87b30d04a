# Tests of tokens.

# The file may only be read, so that a program that writes to it is seen.
test_tokens_whole_case() {
    cp tests/texts/whole "$scratch/whole"
    chmod 444 "$scratch/whole"
    ./mib tokens "$scratch/whole" >"$scratch/listing" 2>/dev/null
    report "tokens: the whole case has status 0" "$?"
    [ "$(head -n 2 "$scratch/listing")" = "$(line 0 1 Upper; echo; line 2 13 DEFINITIONS)" ]
    report "tokens: the first lines of the whole case" "$?"
    [ "$(wc -l <"$scratch/listing")" = 34 ] && [ "$(tail -n 1 "$scratch/listing")" = derived ]
    report "tokens: 33 tokens, derived" "$?"
}

test_tokens_refused() {
    expect "tokens: a text without its end quote" 1 "$(line refused 3 2)" "" tokens tests/texts/open
}

test_tokens_missing_file() {
    expect "tokens names a file that is missing" 2 "" "$scratch/missing: No such file or directory" tokens "$scratch/missing"
    expect "tokens without a file" 2 "" "tokens FILE" tokens
}

test_tokens_against_the_reading() {
    agrees tokens 2000 1
    report "tokens: 2,000 texts as the reading of the paper has them" "$?"
}
