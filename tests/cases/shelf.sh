# Tests of shelf: names as words and as lines, files that are refused or missing, and the summary.

test_shelf_names_as_words() {
    expect "shelf: a line a file" 2 "$(line tests/texts/whole accepted 2)
$(line tests/texts/open refused 3 2)" "$scratch/missing: No such file or directory" shelf tests/texts/whole "$scratch/missing" tests/texts/open
}

# A line ends with one byte or with two, and the last with none.
test_shelf_names_as_lines() {
    printf '%s\r\n%s\n%s' tests/texts/whole tests/texts/open tests/texts/twice | ./mib shelf >"$scratch/output" 2>"$scratch/errors"
    [ "$?" = 1 ] && [ "$(cat "$scratch/output")" = "$(line tests/texts/whole accepted 2)
$(line tests/texts/open refused 3 2)
$(line tests/texts/twice refused 9 207)" ] && [ "$(cat "$scratch/errors")" = "$(line files 3)
$(line accepted 1)
$(line refused 3 1)
$(line refused 9 1)
$(line outside 0)
$(line unread 0)" ]
    report "shelf: names on standard input, and the summary" "$?"
}

# The examples of the rules, one for each number: each has its line in the summary.
test_shelf_every_number() {
    ./mib shelf crates/card/data/rule-* >"$scratch/output" 2>"$scratch/errors"
    problem=0
    for file in crates/card/data/rule-*; do
        number=${file##*-}
        grep -qx "refused$tab${number#0}${tab}1" "$scratch/errors" || problem=1
    done
    [ "$(grep -c '^refused' "$scratch/errors")" = "$(wc -l <"$scratch/output")" ] || problem=1
    report "shelf: the summary counts each number" "$problem"
}

test_shelf_folder() {
    ./mib shelf <"$scratch" >"$scratch/output" 2>"$scratch/errors"
    [ "$?" = 2 ] && [ ! -s "$scratch/output" ] && grep -q 'standard input: Is a directory' "$scratch/errors"
    report "shelf: a folder as standard input is said" "$?"
}

# A folder's files, in the order of their names, those of folders in it too; and names that end with a byte 0.
test_shelf_folders() {
    mkdir "$scratch/modules" "$scratch/modules/c" "$scratch/modules/.hidden"
    cp tests/texts/whole "$scratch/modules/.hidden/e"
    cp tests/texts/whole "$scratch/modules/d"
    cp tests/texts/open "$scratch/modules/c/b e"
    cp tests/texts/twice "$scratch/modules/a"
    expect "shelf: a folder" 1 "$(line "$scratch/modules/a" refused 9 207)
$(line "$scratch/modules/c/b e" refused 3 2)
$(line "$scratch/modules/d" accepted 2)" "$(line files 3)" shelf "$scratch/modules/"
    expect "shelf: a folder beside a file" 1 "$(line tests/texts/whole accepted 2)
$(line "$scratch/modules/c/b e" refused 3 2)" "$(line files 2)" shelf tests/texts/whole "$scratch/modules/c"
    printf '%s\0' tests/texts/whole "$scratch/modules/c/b e" "$scratch/no${tab}
such" | ./mib shelf -0 >"$scratch/output" 2>"$scratch/errors"
    [ "$?" = 2 ] && [ "$(cat "$scratch/output")" = "$(line tests/texts/whole accepted 2)
$(line "$scratch/modules/c/b e" refused 3 2)" ] && grep -q '^such: No such file' "$scratch/errors" && grep -qx "unread${tab}1" "$scratch/errors"
    report "shelf -0: names that end with a byte 0" "$?"
    expect "shelf -0 stands alone" 2 "" "-0 stands alone" shelf -0 tests/texts/whole
    expect "shelf: standard input beside a folder" 2 "" "standard input is not read beside a folder" shelf - "$scratch/modules"
}

test_shelf_many_files() {
    started=$(date +%s)
    yes tests/texts/whole | head -n 4000 | ./mib shelf >"$scratch/output" 2>"$scratch/errors"
    [ "$?" = 0 ] && [ "$(wc -l <"$scratch/output")" = 4000 ] && [ "$(sort -u "$scratch/output" | wc -l)" = 1 ] && [ $(($(date +%s) - started)) -lt 20 ]
    report "shelf: 4,000 names in under 20 s" "$?"
}

test_shelf_readme() {
    shown 'ls examples' >"$scratch/shown"
    ls examples/*-MIB | ./mib shelf 2>&1 | cmp -s - "$scratch/shown"
    report "shelf: the README shows what is printed" "$?"
}

# A module of a conformance macro, one that imports from a third module and a text over the limit are outside what is read; one that is at
# fault is not, and neither is one that imports what SNMPv2-TC does not offer.
test_shelf_outside() {
    sed 's/^END/g OBJECT-GROUP/' tests/texts/whole >"$scratch/group"
    sed 's/IMPORTS/IMPORTS ifIndex FROM IF-MIB/' tests/texts/whole >"$scratch/third"
    head -c 65537 /dev/zero | tr '\0' ' ' >"$scratch/large"
    sed 's/^END/g GROUP/' tests/texts/whole >"$scratch/fault"
    sed 's/IMPORTS/IMPORTS ifIndex FROM SNMPv2-TC/' tests/texts/whole >"$scratch/import"
    ./mib shelf "$scratch/group" "$scratch/third" "$scratch/large" "$scratch/fault" "$scratch/import" tests/texts/open >/dev/null 2>"$scratch/errors"
    [ "$(cat "$scratch/errors")" = "$(line files 6)
$(line accepted 0)
$(line refused 2 1)
$(line refused 3 1)
$(line refused 7 2)
$(line refused 10 2)
$(line outside 3)
$(line unread 0)" ]
    report "shelf: how many of the refused are outside what is read" "$?"
}
