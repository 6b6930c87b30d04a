# Tests of row: the answers to words, and to lists of cases on standard input.

test_rows_answers() {
    six="$(line 1 active 12 3)
$(line 2 notInService 12 3)
$(line 3 notReady 10 3)
$(line 4 createAndGo 12 3)
$(line 5 createAndWait 12 3)
$(line 6 destroy 0 0)"
    expect "row 3 no yes" 0 "$six" "" row 3 no yes
    expect "row with one value" 0 "$(line 5 createAndWait 0 3)" "" row 0 no yes 5
    expect "row with a value that is refused" 1 "$(line 4 createAndGo 12 3)" "" row 3 no yes 4
    expect "row with a value without a name" 1 "$(line 99 - 10 1)" "" row 1 yes yes 99
    expect "row with a state over 3" 1 "$(line 1 active 40 4)" "" row 4 yes yes 1
}

test_rows_long_numbers() {
    long=123456789012345678901234567890
    expect "row with a long state" 1 "$(line 6 destroy 40 $long)" "" row $long yes yes 6
    expect "row with a long value" 1 "$(line $long - 10 2)" "" row 2 yes yes $long
}

# Names for numbers, with their numbers in brackets or not.
test_rows_names() {
    expect "row with the names of a state and a value" 0 "$(line 1 active 0 1)" "" row notReady yes yes active
    expect "row with names and their numbers" 0 "$(line 5 createAndWait 0 2)" "" row 'none(0)' yes yes 'createAndWait(5)'
    expect "row with a name, refused" 1 "$(line 4 createAndGo 12 3)" "" row 'notReady(3)' no yes createAndGo
    expect "row names a state with another number" 2 "" "'notReady(2)'" row 'notReady(2)' no yes
    expect "row names a value with another number" 2 "" "'destroy(5)'" row 3 no yes 'destroy(5)'
    expect "row names a value that is no state" 2 "" "'createAndGo'" row createAndGo no yes
    expect "row names a state that is no value" 2 "" "'none'" row 3 no yes none
}

# Answers and states in words.
test_rows_in_words() {
    six="$(line 1 active inconsistentValue notReady)
$(line 2 notInService inconsistentValue notReady)
$(line 3 notReady wrongValue notReady)
$(line 4 createAndGo inconsistentValue notReady)
$(line 5 createAndWait inconsistentValue notReady)
$(line 6 destroy noError none)"
    expect "row in words" 0 "$six" "" row --words 3 no yes
    expect "row in words, by names" 0 "$(line 4 createAndGo noError active)" "" row --words none yes yes createAndGo
    expect "row in words: notInService" 0 "$(line 2 notInService noError notInService)" "" row --words 1 yes yes 2
    expect "row in words: no name" 1 "$(line 99 - wrongValue active)" "" row --words 1 yes yes 99
    expect "row in words: a state over 3" 1 "$(line 1 active 'no such state' 4)" "" row --words 4 yes yes 1
    expect "row names a word that is misplaced" 2 "" "'--words'" row 3 no yes --words
    expect "row in words names the last word where words lack" 2 "" "'3'" row --words 3
}

# A list in words.
test_rows_list_in_words() {
    printf '0\tyes\tno\tcreateAndWait\nnone\tno\tyes\t5\n7\tno\tno\tdestroy\n' | ./mib row --words >"$scratch/output" 2>"$scratch/errors"
    [ "$?" = 1 ] && [ ! -s "$scratch/errors" ] && [ "$(cat "$scratch/output")" = "$(line 5 createAndWait wrongValue none)
$(line 5 createAndWait noError notReady)
$(line 6 destroy 'no such state' 7)" ]
    report "row: a list in words" "$?"
}

test_rows_misfit_words() {
    expect "row names a word that is no flag" 2 "" "'maybe'" row 3 maybe yes
    expect "row names a word that is no state" 2 "" "'three'" row three no yes
    expect "row names a word that is no value" 2 "" "'go'" row 3 no yes go
    expect "row names the last word where words lack" 2 "" "'no'" row 3 no
    expect "row names a word too many" 2 "" "'more'" row 3 no yes 1 more
}

# A misfit word is named with its line, and the list goes on.
test_rows_list_goes_on() {
    printf '0\tyes\n0\tyes\tyes\t4\n' | ./mib row >"$scratch/output" 2>"$scratch/errors"
    [ "$?" = 2 ] && [ "$(cat "$scratch/output")" = "misfit
$(line 4 createAndGo 0 1)" ] && grep -q "line 1: 'yes'" "$scratch/errors"
    report "row goes on after a misfit line" "$?"
}
