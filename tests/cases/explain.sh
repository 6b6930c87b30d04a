# Tests of explain: its sentences by hand, and lines, columns, marks and places against the reading.

# A tab and bytes over 127 stand before the place of the other name.
test_explain_defined_twice() {
    printf 'tests/texts/twice:5:3: refused 9: %s is defined or imported a second time\n  a OBJECT IDENTIFIER ::= { t 2 }\n  ^\ntests/texts/twice:4:13: refused 9: %s stands here first\n-- \303\251t\303\251 --\ta OBJECT IDENTIFIER ::= { t 1 }\n         \t^\n' "'a'" "'a'" >"$scratch/wanted"
    ./mib explain tests/texts/twice >"$scratch/output" 2>"$scratch/errors"
    [ "$?" = 1 ] && cmp -s "$scratch/wanted" "$scratch/output" && [ ! -s "$scratch/errors" ]
    report "explain: a name that is defined twice" "$?"
}

test_explain_end_of_text() {
    printf T >"$scratch/early"
    expect "explain: a text that ends too early" 1 "$scratch/early:1:2: refused 7: the text ends here, and the module does not; DEFINITIONS may follow
T
 ^" "" explain "$scratch/early"
}

test_explain_accepted() {
    expect "explain: the README's module" 0 "examples/QUAY-UPS-MIB: accepted: definitions 15, identity 1, plain OID 3, object 8, textual convention 1, SEQUENCE type 1, notification 1" "" explain examples/QUAY-UPS-MIB
}

test_explain_readme() {
    shown '.\/mib explain examples' >"$scratch/shown"
    ./mib explain examples/DOCK-UPS-MIB | cmp -s - "$scratch/shown"
    report "explain: the README shows what is printed" "$?"
}

test_explain_missing_file() {
    expect "explain names a file that is missing" 2 "" "$scratch/missing: No such file or directory" explain "$scratch/missing"
    expect "explain without a file" 2 "" "explain FILE" explain
}

test_explain_against_the_reading() {
    python3 tests/explained.py target/bin/explain --count 2000 --seed 1 >"$scratch/compared" || cat "$scratch/compared" >&2
    tail -n 1 "$scratch/compared" | grep -q ' 0 differences$' && ! grep -q '^no case' "$scratch/compared"
    report "explain: 2,000 texts as the reading of the paper has them" "$?"
}

# stands LABEL TEXT PLACE...: at which places, LINE:COLUMN, with which number and word, the module whose lines follow its identity is
# refused, and what it stands against.
stands() {
    label=$1 text=$2
    shift 2
    printf 'T DEFINITIONS ::= BEGIN\n%s\nEND\n' "$text" >"$scratch/stands"
    ./mib explain "$scratch/stands" 2>&1 | sed -n "s|^$scratch/stands:\([0-9:]*\): refused \([0-9]*\): '\([^']*\)'.*|\1 \2 \3|p" >"$scratch/output"
    [ "$(cat "$scratch/output")" = "$(printf '%s\n' "$@")" ]
    report "$label" "$?"
}

# What the one at fault stands against, by hand: the reason's place and then the other one's.
test_explain_others() {
    identity='t MODULE-IDENTITY LAST-UPDATED "" ORGANIZATION "" CONTACT-INFO "" DESCRIPTION "" ::= { iso 9 }'
    stands "explain: a symbol that a built-in module does not offer is one place" "IMPORTS MODULE-IDENTITY FROM SNMPv2-SMI
TEXTUAL-CONVENTION,
sysDescr FROM
SNMPv2-TC;
$identity" '4:1 10 sysDescr'
    stands "explain: so is a symbol of a module that is not built in" "IMPORTS MODULE-IDENTITY FROM SNMPv2-SMI
ifIndex, ifDescr FROM
IF-MIB;
$identity" '3:1 10 ifIndex'

    imports="IMPORTS MODULE-IDENTITY, OBJECT-TYPE, NOTIFICATION-TYPE, Integer32 FROM SNMPv2-SMI TEXTUAL-CONVENTION FROM SNMPv2-TC;
$identity"
    level='L ::= TEXTUAL-CONVENTION STATUS current DESCRIPTION "" SYNTAX Integer32 ('
    state='S ::= TEXTUAL-CONVENTION STATUS current DESCRIPTION "" SYNTAX INTEGER {'
    stands "explain: a range stands against the first that shares a number with it" "$imports
$level
1..3 |
20..29 |
7 |
5..25 )" '8:1 16 5' '6:1 16 20'
    stands "explain: a pair that is wrong stands against nothing" "$imports
$level
1..9 |
5..5 )" '6:1 16 5'
    stands "explain: an item with the label of one and the number of another stands against the label" "$imports
$state
one(1),
two(2),
two(1) }" '7:1 18 two' '6:1 18 two'
    stands "explain: an item with the number of another" "$imports
$state
one(1),
two(2),
three(2) }" '7:1 18 three' '6:1 18 two'
    stands "explain: an item whose number is outside stands against nothing" "$imports
$state
one(1),
two(2147483648) }" '6:1 18 two'

    table='tab OBJECT-TYPE SYNTAX SEQUENCE OF E MAX-ACCESS not-accessible STATUS current DESCRIPTION "" ::= { t 1 }
row OBJECT-TYPE SYNTAX E MAX-ACCESS not-accessible STATUS current DESCRIPTION "" INDEX { a } ::= { tab 1 }
E ::= SEQUENCE {'
    column='OBJECT-TYPE SYNTAX Integer32 MAX-ACCESS read-only STATUS current DESCRIPTION "" ::='
    stands "explain: a row whose list has a name twice stands against the second" "$imports
$table
a Integer32,
b Integer32,
a Integer32,
b Integer32 }
a $column { row 1 }
b $column { row 2 }" '5:1 20 row' '9:1 20 a'
    stands "explain: a row whose list has names that are no columns stands against the first" "$imports
$table
a Integer32,
b Integer32,
c Integer32 }
a $column { row 1 }
b $column { t 2 }
c $column { t 3 }" '5:1 20 row' '8:1 20 b'

    stands "explain: a read-write column stands against the first read-create one of its row" "$imports
$table
a Integer32,
b Integer32,
c Integer32,
d Integer32 }
a OBJECT-TYPE SYNTAX Integer32 MAX-ACCESS not-accessible STATUS current DESCRIPTION \"\" ::= { row 1 }
b OBJECT-TYPE SYNTAX Integer32 MAX-ACCESS read-write STATUS current DESCRIPTION \"\" ::= { row 2 }
c OBJECT-TYPE SYNTAX Integer32 MAX-ACCESS read-create STATUS current DESCRIPTION \"\" ::= { row 3 }
d OBJECT-TYPE SYNTAX Integer32 MAX-ACCESS read-create STATUS current DESCRIPTION \"\" ::= { row 4 }" '12:1 21 b' '13:1 21 c'
    stands "explain: a notification stands against the first not-accessible object that it lists" "$imports
$table
a Integer32,
b Integer32 }
a OBJECT-TYPE SYNTAX Integer32 MAX-ACCESS not-accessible STATUS current DESCRIPTION \"\" ::= { row 1 }
b $column { row 2 }
n NOTIFICATION-TYPE OBJECTS {
b,
a,
row } STATUS current DESCRIPTION \"\" ::= { t 0 1 }" '11:1 22 n' '13:1 22 a'
    stands "explain: a name of another kind stands against its definition, which may come later" "$imports
a OBJECT-TYPE SYNTAX Integer32 MAX-ACCESS read-only STATUS current DESCRIPTION \"\" INDEX {
n } ::= { t 1 }
n NOTIFICATION-TYPE STATUS current DESCRIPTION \"\" ::= { t 0 1 }" '5:1 42 n' '6:1 42 n'
    stands "explain: an imported one stands against its symbol in the imports" "IMPORTS MODULE-IDENTITY, OBJECT-TYPE,
Gauge32 FROM SNMPv2-SMI;
$identity
a OBJECT-TYPE SYNTAX SEQUENCE OF
Gauge32 MAX-ACCESS not-accessible STATUS current DESCRIPTION \"\" ::= { t 1 }" '6:1 42 Gauge32' '3:1 42 Gauge32'
    stands "explain: iso stands against nothing" "$imports
n NOTIFICATION-TYPE OBJECTS {
iso } STATUS current DESCRIPTION \"\" ::= { t 0 1 }" '5:1 42 iso'
    stands "explain: nor does a name that is not known" "$imports
n NOTIFICATION-TYPE OBJECTS {
x } STATUS current DESCRIPTION \"\" ::= { t 0 1 }" '5:1 41 x'
}

# ---- Reasons: what explain says of each fault, in whole sentences ----

# says LABEL WANTED TEXT: where and why explain refuses a module that has this text from its fourth line on.
says() {
    cat >"$scratch/module" <<-END
	T DEFINITIONS ::= BEGIN
	IMPORTS MODULE-IDENTITY, OBJECT-IDENTITY, OBJECT-TYPE, NOTIFICATION-TYPE, Integer32, Gauge32, Counter32 FROM SNMPv2-SMI TEXTUAL-CONVENTION FROM SNMPv2-TC;
	t MODULE-IDENTITY LAST-UPDATED "" ORGANIZATION "" CONTACT-INFO "" DESCRIPTION "" ::= { iso 9 }
	END
    printf '%s\nEND\n' "$3" >>"$scratch/module"
    said_first "explain: $1" "$2"
}

# said_first LABEL WANTED: that is the first line that explain prints of the module, behind its name.
said_first() {
    said=$(./mib explain "$scratch/module" 2>&1 | sed -n 1p)
    [ "$said" = "$scratch/module:$2" ]
    report "$1" "$?"
}

# table EDIT: a table of two columns, as sed edits it.
table() {
    sed "$1" <<-END
	tb OBJECT-TYPE SYNTAX SEQUENCE OF TbEntry MAX-ACCESS not-accessible STATUS current DESCRIPTION "" ::= { t 1 }
	en OBJECT-TYPE SYNTAX TbEntry MAX-ACCESS not-accessible STATUS current DESCRIPTION "" INDEX { ca } ::= { tb 1 }
	TbEntry ::= SEQUENCE { ca Integer32, cb Integer32 }
	ca OBJECT-TYPE SYNTAX Integer32 MAX-ACCESS not-accessible STATUS current DESCRIPTION "" ::= { en 1 }
	cb OBJECT-TYPE SYNTAX Integer32 MAX-ACCESS read-write STATUS current DESCRIPTION "" ::= { en 2 }
	END
}

test_explain_what_may_stand() {
    says "two words may stand" "4:40: refused 7: 'MAX-ACCES' may not stand here; UNITS or MAX-ACCESS may" 'a OBJECT-TYPE SYNTAX OBJECT IDENTIFIER MAX-ACCES read-only'
    says "words that are lower too" "4:26: refused 7: 'mandatory' may not stand here; obsolete, deprecated or current may" 'a OBJECT-IDENTITY STATUS mandatory'
    says "more than five" "4:22: refused 7: '5' may not stand here; SEQUENCE, OCTET, OBJECT, INTEGER, BITS and others may" 'a OBJECT-TYPE SYNTAX 5'
    says "a mark before a number is one byte" "4:29: refused 7: '(' may not stand here; lower or number may" 'a OBJECT IDENTIFIER ::= { t (1) }'
    says "numbers of both signs are numbers" "4:31: refused 7: 'x' may not stand here; number may" 'a OBJECT-TYPE SYNTAX INTEGER (x'
    says "a mark may stand" "4:25: refused 7: a text may not stand here; '{' may" 'a OBJECT IDENTIFIER ::= "x"'
    says "behind the end" "4:5: refused 7: 'x' stands behind the module's END" 'END x'
}

test_explain_left_out() {
    for word in OBJECT-GROUP NOTIFICATION-GROUP MODULE-COMPLIANCE AGENT-CAPABILITIES; do
        says "$word is left out" "4:3: refused 7: '$word' is left out: this reader knows no conformance macros" "g $word"
    done
    says "a longer word is not" "4:3: refused 7: 'OBJECT-GROUPS' may not stand here; OBJECT-TYPE, OBJECT-IDENTITY, OBJECT or NOTIFICATION-TYPE may" 'g OBJECT-GROUPS'
    says "a notification of SMIv1" "4:3: refused 7: 'TRAP-TYPE' is left out: this reader knows SMIv2 alone" 'x TRAP-TYPE'
    says "access of SMIv1" "4:30: refused 7: 'ACCESS' is left out: this reader knows SMIv2 alone" 'a OBJECT-TYPE SYNTAX INTEGER ACCESS read-only'
    says "a type by CHOICE" "4:9: refused 7: 'CHOICE' is left out: this reader knows no types by CHOICE" 'Foo ::= CHOICE { a INTEGER }'
    says "a macro" "4:5: refused 7: 'MACRO' is left out: this reader knows no macro definitions" 'FOO MACRO ::= BEGIN END'
    says "a macro of SMIv2" "4:1: refused 7: 'MACRO' is left out: this reader knows no macro definitions" 'OBJECT-TYPE MACRO ::= BEGIN END'
    printf 'T DEFINITIONS ::= BEGIN EXPORTS a;' >"$scratch/module"
    said_first "explain: EXPORTS is left out" "1:25: refused 7: 'EXPORTS' is left out: this reader knows no exports"
    head -c 65537 /dev/zero | tr '\0' ' ' >"$scratch/module"
    said_first "explain: a text over the limit" "1:1: refused 2: the text has more than 65,536 bytes, which is this reader's limit"
}

test_explain_no_token() {
    says "an underscore" "4:2: refused 3: byte 95 (underscore) starts no token: a name has letters, digits and hyphens" 'a_b'
    says "a byte that is seen" "4:7: refused 3: byte 91 ([) starts no token" 'A ::= [APPLICATION 0]'
    says "a byte over 127" "4:1: refused 3: byte 195 starts no token: bytes over 127 may stand in comments alone" "$(printf '\303\251')"
    says "a hyphen" "4:3: refused 3: a hyphen starts no token here: a name has single ones inside, a number one before its digits, and a comment starts with two" 'a - b'
    says "a hyphen before 0" "4:1: refused 3: a hyphen may not stand before 0" '-0'
    says "a letter behind a negative number" "4:1: refused 3: '-5a' is no number: a letter stands directly behind its digits" '-5a'
    says "a number that starts with 0" "4:1: refused 3: '02' starts with 0, as a number of several digits may not" '02'
    says "a digit before a letter" "4:1: refused 3: '3com' is neither a number nor a name: a name starts with a letter" '3com'
    says "a colon" "4:3: refused 3: byte 58 (:) starts no token: '::=' does" 'a : b'
    says "a dot" "4:3: refused 3: byte 46 (.) starts no token: '..' does" 'a . b'
    says "a small h" "4:1: refused 3: a hex string has hex digits between apostrophes, and then H" "'0'h"
    says "a text without its end" "4:3: refused 3: a text starts here, and has no end quote" 'a "b'
    says "a text above without its end" "5:17: refused 3: byte 95 (underscore) starts no token: a name has letters, digits and hyphens; a text above may lack its end quote" 'a OBJECT-IDENTITY STATUS current DESCRIPTION "One.
  REFERENCE "Two_three" ::= { t 1 }'
    printf '\357\273\277T DEFINITIONS' >"$scratch/module"
    said_first "explain: a byte-order mark" "1:1: refused 3: the text starts with a byte-order mark; save it without one"
}

test_explain_clauses() {
    rest='STATUS current DESCRIPTION "" ::= { t 1 }'
    says "a range over an earlier one" "4:40: refused 16: '4' starts a range that shares a number with an earlier one" "a OBJECT-TYPE SYNTAX Integer32 (1..4 | 4..9) MAX-ACCESS read-only $rest"
    says "a pair of one number" "4:33: refused 16: '4' starts a range whose low number is not below its high one" "a OBJECT-TYPE SYNTAX Integer32 (4..4) MAX-ACCESS read-only $rest"
    says "a range on a counter" "4:33: refused 17: '1' starts a range, and none may stand on this type" "a OBJECT-TYPE SYNTAX Counter32 (1..5) MAX-ACCESS read-only $rest"
    says "a size on an integer" "4:39: refused 17: '1' starts a size, and none may stand on this type" "a OBJECT-TYPE SYNTAX Integer32 (SIZE (1..5)) MAX-ACCESS read-only $rest"
    says "a range outside the limits" "4:33: refused 17: '0' starts a range outside the limits of its type: -2147483648 to 2147483647, or 0 to 4294967295 for Gauge32 and Unsigned32" "a OBJECT-TYPE SYNTAX Integer32 (0..4294967295) MAX-ACCESS read-only $rest"
    says "a size outside the limits" "4:46: refused 17: '70000' starts a size outside 0 to 65535" "a OBJECT-TYPE SYNTAX OCTET STRING (SIZE (1 | 70000)) MAX-ACCESS read-only $rest"
    says "a number out of range" "4:32: refused 18: 'x' has a number out of range: an INTEGER's may be -2147483648 to 2147483647, and none of BITS is negative" "a OBJECT-TYPE SYNTAX INTEGER { x(4294967295) } MAX-ACCESS read-only $rest"
    says "a counter that is written" "4:1: refused 21: 'a' is a counter, and these are read-only or accessible-for-notify, without DEFVAL" "a OBJECT-TYPE SYNTAX Counter32 MAX-ACCESS read-write $rest"
    says "a scalar that is created" "4:1: refused 21: 'a' is read-create, and no column" "a OBJECT-TYPE SYNTAX Integer32 MAX-ACCESS read-create $rest"
    says "a notification under 1" "4:1: refused 22: 'n' is a notification whose next-to-last number is not 0" "n NOTIFICATION-TYPE $rest"
    says "a notification of two numbers" "4:1: refused 22: 'n' is a notification whose next-to-last number is not 0" 'n NOTIFICATION-TYPE STATUS current DESCRIPTION "" ::= { iso 5 }'
}

# What a row stands against is named in the sentence.
test_explain_tables() {
    says "a column that is not listed" "8:1: refused 20: 'cb' is at the OID of the row 'en' plus one number, and the row's SEQUENCE type does not list it" "$(table 's/, cb Integer32//')"
    says "a row that augments a column" "5:1: refused 20: 'en' augments 'ca', which is no row with INDEX" "$(table 's/INDEX/AUGMENTS/')"
    says "a row that is read" "5:1: refused 21: 'en' is a table or a row, and these are not-accessible" "$(table '2s/not-accessible/read-only/')"
}

# 300 characters of two bytes stand before the place, and 300 behind it: on either side up to 100 bytes are shown, and none is cut.
test_explain_long_line() {
    many=$(printf '%300s' '' | sed "s/ /$(printf '\303\251')/g")
    before=$(printf '%48s' '' | sed "s/ /$(printf '\303\251')/g")
    behind=$(printf '%46s' '' | sed "s/ /$(printf '\303\251')/g")
    printf -- '--%s-- a_b --%s--' "$many" "$many" >"$scratch/long"
    expect "explain: a long line in part" 1 "$scratch/long:1:607: refused 3: byte 95 (underscore) starts no token: a name has letters, digits and hyphens
..$before-- a_b --$behind..
$(printf '%54s' '')^" "" explain "$scratch/long"
}

# A bell stands in a comment before the place: at a terminal it is seen as four characters, and the mark stands four further right.
test_explain_control_bytes() {
    printf -- '--\007-- a_b' >"$scratch/bell"
    ./mib explain "$scratch/bell" >"$scratch/output" 2>"$scratch/errors"
    [ "$(sed -n '2,3p' "$scratch/output")" = "$(printf -- '--\007-- a_b\n       ^')" ]
    report "explain: a control byte in a file is left as it is" "$?"
    python3 tests/at_terminal.py ./mib explain "$scratch/bell" | tr -d '\r' >"$scratch/output"
    grep -qxF -- '--\x07-- a_b' "$scratch/output" && grep -qxF '          ^' "$scratch/output"
    report "explain: a control byte at a terminal is seen, and the mark stands below the place" "$?"
}

# What a rule stands against, where the sentence names it; and symbols that are not offered.
test_explain_named_others() {
    rest='STATUS current DESCRIPTION "" ::= { t 1 }'
    says "a label twice" "4:38: refused 18: 'x' is the label of an earlier item" "a OBJECT-TYPE SYNTAX INTEGER { x(1), x(2) } MAX-ACCESS read-only $rest"
    says "a number twice" "4:38: refused 18: 'y' has the number of an earlier item, 'x'" "a OBJECT-TYPE SYNTAX INTEGER { x(1), y(1) } MAX-ACCESS read-only $rest"
    says "a name that is listed twice" "5:1: refused 20: 'en' is a row whose SEQUENCE type lists 'ca' twice" "$(table '3s/cb/ca/')"
    says "a name that is no column" "5:1: refused 20: 'en' is a row whose SEQUENCE type lists 'cb', which is no object at the row's OID plus one number" "$(table '5s/en 2/t 2/')"
    says "a column that is written beside one that is created" "8:1: refused 21: 'cb' is a read-write column in a row that has a read-create one, 'ca'" "$(table '4s/not-accessible/read-create/')"
    says "a not-accessible object that is listed" "9:1: refused 22: 'n' is a notification that lists a not-accessible object, 'ca'" "$(table '')
n NOTIFICATION-TYPE OBJECTS { ca } STATUS current DESCRIPTION \"\" ::= { t 0 1 }"
}

# imported LABEL WANTED IMPORTS: the first line on a module with these imports; the module's name is not shown a second time.
imported() {
    printf 'T DEFINITIONS ::= BEGIN IMPORTS %s MODULE-IDENTITY FROM SNMPv2-SMI;\nt MODULE-IDENTITY LAST-UPDATED "" ORGANIZATION "" CONTACT-INFO "" DESCRIPTION "" ::= { iso 9 }\nEND\n' "$3" >"$scratch/module"
    said_first "explain: $1" "1:33: refused 10: $2"
    [ "$(./mib explain "$scratch/module" | wc -l)" = 3 ]
    report "explain: $1, and that alone" "$?"
}

test_explain_imports() {
    imported "a module that is not built in" "'SnmpAdminString' is imported from 'SNMP-FRAMEWORK-MIB', and this reader knows SNMPv2-SMI and SNMPv2-TC alone" 'SnmpAdminString FROM SNMP-FRAMEWORK-MIB'
    imported "a symbol that no module offers" "'Foo' is not offered by 'SNMPv2-SMI', from which it is imported" 'Foo FROM SNMPv2-SMI'
    imported "a symbol of SNMPv2-TC" "'DisplayString' is not offered by 'SNMPv2-SMI', from which it is imported; SNMPv2-TC offers it" 'DisplayString FROM SNMPv2-SMI'
    imported "a symbol of SNMPv2-SMI" "'Integer32' is not offered by 'SNMPv2-TC', from which it is imported; SNMPv2-SMI offers it" 'Integer32 FROM SNMPv2-TC'
}

# A name that is not known: what is needed, and who offers a symbol of that name that would serve.
test_explain_unknown_names() {
    object='OBJECT-TYPE SYNTAX Integer32 MAX-ACCESS read-only STATUS current DESCRIPTION ""'
    tail='MAX-ACCESS read-only STATUS current DESCRIPTION "" ::= { t 1 }'
    unknown='is neither defined nor imported, and'
    says "an unknown type of SNMPv2-TC" "4:22: refused 41: 'DisplayString' $unknown SYNTAX needs a type; SNMPv2-TC offers it" "a OBJECT-TYPE SYNTAX DisplayString $tail"
    says "an unknown type of SNMPv2-SMI" "4:22: refused 41: 'TimeTicks' $unknown SYNTAX needs a type; SNMPv2-SMI offers it" "a OBJECT-TYPE SYNTAX TimeTicks $tail"
    says "an unknown type that none offers" "4:22: refused 41: 'Foo' $unknown SYNTAX needs a type" "a OBJECT-TYPE SYNTAX Foo $tail"
    says "the module's own name" "4:22: refused 41: 'T' $unknown SYNTAX needs a type" "a OBJECT-TYPE SYNTAX T $tail"
    convention='C ::= TEXTUAL-CONVENTION STATUS current DESCRIPTION "" SYNTAX'
    says "an unknown type of a convention" "4:63: refused 41: 'Opaque' $unknown the SYNTAX of a convention needs a type of SNMPv2-SMI; SNMPv2-SMI offers it" "$convention Opaque"
    says "one that no convention may have" "4:63: refused 41: 'DisplayString' $unknown the SYNTAX of a convention needs a type of SNMPv2-SMI" "$convention DisplayString"
    says "an unknown type of a column" "4:20: refused 41: 'TruthValue' $unknown a column needs a type other than a SEQUENCE type; SNMPv2-TC offers it" "E ::= SEQUENCE { a TruthValue }
a $object ::= { t 1 }"
    says "an unknown head" "4:27: refused 41: 'enterprises' $unknown an OID is needed here; SNMPv2-SMI offers it" 'a OBJECT IDENTIFIER ::= { enterprises 1 }'
    says "an unknown head that none offers" "4:27: refused 41: 'foo' $unknown an OID is needed here" 'a OBJECT IDENTIFIER ::= { foo 1 }'
    says "an OID that is not imported, in INDEX" "4:91: refused 41: 'enterprises' $unknown INDEX needs an object" "a $object INDEX { enterprises } ::= { t 1 }"
    says "an unknown name in AUGMENTS" "4:94: refused 41: 'foo' $unknown AUGMENTS needs an object" "a $object AUGMENTS { foo } ::= { t 1 }"
    says "an unknown name in OBJECTS" "4:31: refused 41: 'foo' $unknown OBJECTS needs an object" 'n NOTIFICATION-TYPE OBJECTS { foo } STATUS current DESCRIPTION "" ::= { t 0 1 }'
    says "an unknown name in a SEQUENCE" "4:18: refused 41: 'foo' $unknown SEQUENCE needs an object" 'E ::= SEQUENCE { foo INTEGER }'
    says "a type that is not imported, after OF" "4:34: refused 41: 'Opaque' $unknown OF needs a SEQUENCE type" "a OBJECT-TYPE SYNTAX SEQUENCE OF Opaque $tail"
    printf 'T DEFINITIONS ::= BEGIN t MODULE-IDENTITY LAST-UPDATED "" ORGANIZATION "" CONTACT-INFO "" DESCRIPTION "" ::= { iso 9 } END' >"$scratch/module"
    said_first "explain: an unknown macro" "1:27: refused 41: 'MODULE-IDENTITY' $unknown a macro is needed here; SNMPv2-SMI offers it"
}

# A name of another kind: what it is, and what is needed.
test_explain_other_kinds() {
    object='OBJECT-TYPE SYNTAX Integer32 MAX-ACCESS read-only STATUS current DESCRIPTION ""'
    says "a notification in INDEX" "4:91: refused 42: 'n' is a notification, and INDEX needs an object" "a $object INDEX { n } ::= { t 1 }
n NOTIFICATION-TYPE STATUS current DESCRIPTION \"\" ::= { t 0 1 }"
    says "the identity in AUGMENTS" "4:94: refused 42: 't' is the module's identity, and AUGMENTS needs an object" "a $object AUGMENTS { t } ::= { t 1 }"
    says "a plain OID in OBJECTS" "5:31: refused 42: 'p' is a plain OID, and OBJECTS needs an object" "p OBJECT IDENTIFIER ::= { t 1 }
n NOTIFICATION-TYPE OBJECTS { p } STATUS current DESCRIPTION \"\" ::= { t 0 1 }"
    says "an object identity in a SEQUENCE" "5:18: refused 42: 'i' is an object identity, and SEQUENCE needs an object" "i OBJECT-IDENTITY STATUS current DESCRIPTION \"\" ::= { t 1 }
E ::= SEQUENCE { i INTEGER }"
    says "iso in INDEX" "4:91: refused 42: 'iso' is a built-in OID, and INDEX needs an object" "a $object INDEX { iso } ::= { t 1 }"
    table='OBJECT-TYPE SYNTAX SEQUENCE OF'
    says "a convention after OF" "5:34: refused 42: 'C' is a textual convention, and OF needs a SEQUENCE type" "C ::= TEXTUAL-CONVENTION STATUS current DESCRIPTION \"\" SYNTAX INTEGER
a $table C MAX-ACCESS not-accessible STATUS current DESCRIPTION \"\" ::= { t 1 }"
    says "an imported type after OF" "4:34: refused 42: 'Gauge32' is an imported type, and OF needs a SEQUENCE type" "a $table Gauge32 MAX-ACCESS not-accessible STATUS current DESCRIPTION \"\" ::= { t 1 }"
    says "a SEQUENCE type in a convention" "4:63: refused 42: 'E' is a SEQUENCE type, and the SYNTAX of a convention needs a type of SNMPv2-SMI" "C ::= TEXTUAL-CONVENTION STATUS current DESCRIPTION \"\" SYNTAX E
E ::= SEQUENCE { a INTEGER }
a $object ::= { t 1 }"
    says "a SEQUENCE type of a column" "4:20: refused 42: 'E' is a SEQUENCE type, and a column needs a type other than a SEQUENCE type" "E ::= SEQUENCE { a E }
a $object ::= { t 1 }"
    printf 'T DEFINITIONS ::= BEGIN IMPORTS MODULE-IDENTITY, NOTIFICATION-TYPE, mib-2 FROM SNMPv2-SMI;\nt MODULE-IDENTITY LAST-UPDATED "" ORGANIZATION "" CONTACT-INFO "" DESCRIPTION "" ::= { iso 9 }\nn NOTIFICATION-TYPE OBJECTS { mib-2 } STATUS current DESCRIPTION "" ::= { t 0 1 } END' >"$scratch/module"
    said_first "explain: an imported OID in OBJECTS" "3:31: refused 42: 'mib-2' is an imported OID, and OBJECTS needs an object"
}

# Of a word that is too long as much is quoted as a name may have.
test_explain_long_word() {
    long=$(printf '%60000s' '' | tr ' ' a)
    printf '%s' "$long" >"$scratch/long"
    quoted=$(printf '%64s' '' | tr ' ' a)
    expect "explain: a name that is too long" 1 "$scratch/long:1:1: refused 5: '$quoted..' is a name of more than 64 bytes
$(printf '%97s' '' | tr ' ' a)..
^" "" explain "$scratch/long"
}
