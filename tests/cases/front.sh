# Tests of the front command: help, complaints, installing and building. Where a call does not say that it builds, it starts at once
# and says nothing of building.

test_front_commands() {
    expect "no command" 2 "" "mib row 3 no yes"
    expect "an unknown command" 2 "" "'rows' is no command" rows
}

# Help goes to standard output.
test_front_help() {
    ./mib --help >"$scratch/output" 2>"$scratch/errors"
    [ "$?" = 0 ] && grep -q '^usage: mib COMMAND' "$scratch/output" && [ ! -s "$scratch/errors" ]
    report "mib --help" "$?"
    for word in card explain shelf tokens hint row prepare install; do
        ./mib "$word" --help >"$scratch/output" 2>"$scratch/errors"
        [ "$?" = 0 ] && grep -q "^usage: mib $word" "$scratch/output" && [ ! -s "$scratch/errors" ]
        report "mib $word --help" "$?"
        ./mib help "$word" 2>&1 | cmp -s - "$scratch/output"
        report "mib help $word" "$?"
    done
    expect "help on what is no command" 2 "" "'rows' is no command" help rows
    ./mib --help | tr '\n' ' ' >"$scratch/output"
    grep -q 'imports from SNMPv2-SMI and SNMPv2-TC alone' "$scratch/output" && grep -q 'Left out are conformance macros, macro definitions' "$scratch/output" &&
        grep -q "this reader's limit and not the module's fault" "$scratch/output"
    report "the help says what is read and what is left out" "$?"
    expect "the version" 0 "mib 1.0" "" --version
}

# A wrong command is one line.
test_front_one_line() {
    ./mib cards >"$scratch/output" 2>"$scratch/errors"
    [ "$?" = 2 ] && [ ! -s "$scratch/output" ] && [ "$(cat "$scratch/errors")" = "mib: 'cards' is no command; mib --help lists them" ]
    report "a wrong command gives one line" "$?"
}

# Where files are named, - is standard input; behind -- each word is a file's name; any other word with a hyphen is said.
test_front_names() {
    for words in card explain tokens shelf; do
        ./mib "$words" - <tests/texts/whole >"$scratch/output" 2>"$scratch/errors"
        [ "$?" = 0 ] && grep -q 'accepted\|derived' "$scratch/output"
        report "$words reads standard input" "$?"
    done
    cp tests/texts/whole "$scratch/-whole"
    cp tests/texts/open "$scratch/-"
    here=$PWD
    (cd "$scratch" && "$here/mib" shelf -- -whole - --help </dev/null) >"$scratch/output" 2>"$scratch/errors"
    [ "$?" = 2 ] && [ "$(cat "$scratch/output")" = "$(line ./-whole accepted 2)
$(line ./- refused 3 2)" ] && grep -q '^./--help: No such file' "$scratch/errors"
    report "behind -- each word is a file's name" "$?"
    for words in card explain shelf tokens; do
        expect "$words: an option that it does not have" 2 "" "'-x' is no option" "$words" -x tests/texts/whole
    done
    expect "--words is an option of card" 2 "" "--words is no option of explain" explain --words tests/texts/whole
}

# A full disk is said, and has status 2.
test_front_full_disk() {
    for words in "card tests/texts/whole" "explain tests/texts/whole" "shelf tests/texts/whole" "tokens tests/texts/whole" "hint integer d 5" "row 3 no yes"; do
        # shellcheck disable=SC2086
        ./mib $words >/dev/full 2>"$scratch/errors"
        [ "$?" = 2 ] && grep -q 'standard output: No space left on device' "$scratch/errors"
        report "a full disk is said: $words" "$?"
    done
    ./mib --help >/dev/full 2>"$scratch/errors"
    [ "$?" = 2 ] && grep -qx 'mib: the help could not be written to standard output' "$scratch/errors"
    report "a full disk is said: --help" "$?"
}

test_front_closed_output() {
    ./mib row 3 no yes >&- 2>"$scratch/errors"
    [ "$?" = 2 ] && [ "$(wc -l <"$scratch/errors")" = 1 ] && grep -q 'standard output is closed' "$scratch/errors"
    report "a closed standard output is said" "$?"
}

# An installed copy runs without rt and without the repository, also through a link; installing again replaces it.
test_front_install() {
    ./mib install "$scratch/installed" >/dev/null 2>"$scratch/errors" && ./mib install "$scratch/installed" >/dev/null 2>>"$scratch/errors"
    [ "$?" = 0 ] && [ ! -s "$scratch/errors" ]
    report "mib install" "$?"
    cp tests/texts/whole "$scratch/whole"
    ln -s installed/mib "$scratch/linked"
    installed=$(cd / && PATH=/usr/bin:/bin "$scratch/linked" card "$scratch/whole" 2>&1 && PATH=/usr/bin:/bin "$scratch/installed/mib" hint integer d-2 -5 2>&1)
    [ "$installed" = "$whole_card
$(line printed -0.05)" ]
    report "an installed mib runs by itself" "$?"
    cmp -s docs/RULES.md "$(PATH=/usr/bin:/bin "$scratch/installed/mib" --help | sed -n 's/.*with an example: //p')"
    report "the help of an installed mib names a page on the rules that is there" "$?"
}

test_front_install_refused() {
    expect "install into the repository" 2 "" "is where this command is already" install .
    [ ! -e mib-programs ]
    report "a refused install leaves nothing" "$?"
    expect "install without a folder" 2 "" "install takes a folder" install
    expect "install where nothing can be written" 2 "" "cannot be made" install /dev/null/folder
}

test_front_install_in_part() {
    mkdir "$scratch/part" "$scratch/part/mib-programs"
    cp mib "$scratch/part"
    "$scratch/part/mib" row 3 no yes >"$scratch/output" 2>"$scratch/errors"
    [ "$?" = 2 ] && [ ! -s "$scratch/output" ] && grep -q 'is not a whole installation' "$scratch/errors"
    report "a folder without the programs is no installation" "$?"
}

# A build that is older than the sources: mib has the programs proved again, and says so.
test_front_building_again() {
    touch -t 200001010000 target/mib/stamp
    ./mib row 0 yes yes 4 >"$scratch/output" 2>"$scratch/errors" </dev/null
    [ "$(cat "$scratch/output")" = "$(line 4 createAndGo 0 1)" ] && grep -q 'proving and linking the programs' "$scratch/errors"
    report "mib builds again when a source is newer than the build" "$?"
}

# Two at once: one waits for the other, and both answer. A lock whose holder was killed holds nobody up.
test_front_building_once() {
    touch -t 200001010000 target/mib/stamp
    (flock 9 && exec sleep 60) 9>>target/mib/lock &
    holder=$!
    sleep 1
    kill "$holder"
    ./mib row 0 yes yes 4 >"$scratch/first" 2>"$scratch/errors" </dev/null &
    first=$!
    ./mib hint integer d-2 -5 >"$scratch/output" 2>>"$scratch/errors" </dev/null
    wait "$first"
    [ "$(cat "$scratch/first" "$scratch/output")" = "$(line 4 createAndGo 0 1)
$(line printed -0.05)" ] && [ "$(grep -c 'proving and linking the programs' "$scratch/errors")" = 1 ] &&
        ! grep -vE 'proving and linking the programs|waiting for another build|mib: proved [0-9]+ of [0-9]+' "$scratch/errors"
    report "two commands at once build once" "$?"
}

# prepare proves all at once, says how far it is, that it is done once and where the log is; after it nothing waits. A kit that is slow
# stands in for the real one: it proves what a program stands on, and has a line for each crate that is proved.
test_front_prepare() {
    mkdir "$scratch/bin" "$scratch/copy" "$scratch/copy/crates"
    for program in card card_words explain shelf tokens hint_tool row; do
        mkdir "$scratch/copy/crates/$program"
    done
    cp mib "$scratch/copy"
    printf '%s\n' 'base:' 'card: base' 'card_words: base' 'explain: base' 'shelf: base' 'tokens: base' 'hint_tool: base' 'row: base more' 'more: a b c' 'apart: base' 'a: base' 'b: base' 'c:' >"$scratch/copy/crates.txt"
    cat >"$scratch/bin/rt" <<'END OF TEXT'
#!/bin/sh
program=$(basename "$PWD")
proved() { for crate in "$@"; do echo "logic=proved functions=1"; done; }
case $program in
card) proved base ;;
row)
    proved a b c
    sleep 3
    proved more
    ;;
esac
mkdir -p out
printf '#!/bin/sh\necho answered; echo 0 >&3\n' >"out/$program"
chmod +x "out/$program"
proved "$program"
END OF TEXT
    chmod +x "$scratch/bin/rt"
    PATH=$scratch/bin:$PATH "$scratch/copy/mib" prepare >"$scratch/output" 2>"$scratch/errors" </dev/null
    [ "$?" = 0 ] && [ ! -s "$scratch/output" ] && grep -q 'this is done once' "$scratch/errors" && grep -q "the log is .*/target/mib/log" "$scratch/errors" &&
        grep -qx 'mib: proved 10 of 12' "$scratch/errors" && grep -qx 'mib: proved 12 of 12' "$scratch/errors"
    report "prepare says how far it is" "$?"
    for word in card explain tokens; do
        [ "$(PATH=/usr/bin:/bin "$scratch/copy/mib" "$word" tests/texts/whole 2>&1)" = answered ]
        report "$word does not wait after prepare" "$?"
    done
    rm "$scratch/copy/target/bin/row"
    printf '#!/bin/sh\necho "rt: row FAILED"\nexit 1\n' >"$scratch/bin/rt"
    PATH=$scratch/bin:$PATH "$scratch/copy/mib" prepare >"$scratch/output" 2>"$scratch/errors" </dev/null
    [ "$?" = 2 ] && grep -q 'are not proved' "$scratch/errors" && grep -q 'rt: row FAILED' "$scratch/errors" && [ ! -e "$scratch/copy/target/mib/stamp.new" ]
    report "prepare says what is not proved" "$?"
}

# Without rt, and with sources that are newer than the build, mib says what to install. Where nothing can be written, it says so in a
# sentence.
test_front_building_refused() {
    tar --exclude=out -cf - mib crates.txt crates | tar -xf - -C "$scratch"
    PATH=/usr/bin:/bin "$scratch/mib" row 3 no yes >"$scratch/output" 2>"$scratch/errors" </dev/null
    [ $? = 2 ] && [ ! -s "$scratch/output" ] && grep -q 'install the Rattle kit' "$scratch/errors"
    report "mib without rt" "$?"
    : >"$scratch/target"
    "$scratch/mib" row 3 no yes >"$scratch/output" 2>"$scratch/errors" </dev/null
    [ $? = 2 ] && [ ! -s "$scratch/output" ] && [ "$(wc -l <"$scratch/errors")" = 1 ] && grep -q 'a repository that can be written to' "$scratch/errors"
    report "mib in a repository that cannot be written to" "$?"
}

# Each text is answered within so many kilobytes of stack, a quarter more than tests/stack measures.
test_front_stack() {
    tests/stack --under 1800 target/bin/card target/bin/card_words target/bin/shelf >&2
    report "card and shelf run with 1,800 KB of stack" "$?"
    tests/stack --under 2400 target/bin/explain >&2
    report "explain runs with 2,400 KB" "$?"
}

# What a card has, and the places that explain shows.
test_front_by_hand() {
    python3 tests/by_hand.py target/bin/card target/bin/explain >"$scratch/compared" || cat "$scratch/compared" >&2
    tail -n 1 "$scratch/compared" | grep -q '^[0-9][0-9][0-9] cases, 0 differences$'
    report "card and explain: the cases worked out by hand" "$?"
}
