//! Answers for modules that were worked out by hand from the paper: its own
//! examples, and cases at the edge of each rule. No value here is a program's
//! output. Most cases are in by_hand.txt; here are those that are long, or
//! about more than a card.

use reading::modules::tokens::{tokens, Class};
use reading::modules::{
    card, fault, listing, other, read, wrong_use, wrong_uses, NUMBER_WORDS, RECORD_WORDS,
};

const WHOLE_CASE: &[u8] = include_bytes!("../../texts/whole");
const BY_HAND: &str = include_str!("by_hand.txt");

// Short ways to write modules.

const IDENTITY: &str = "t MODULE-IDENTITY LAST-UPDATED \"\" ORGANIZATION \"\" \
     CONTACT-INFO \"\" DESCRIPTION \"\" ::= { iso 9 } ";

const HEAD: &str = "T DEFINITIONS ::= BEGIN IMPORTS MODULE-IDENTITY, OBJECT-IDENTITY, \
     OBJECT-TYPE, NOTIFICATION-TYPE, Integer32, IpAddress, Counter32, \
     Gauge32, Unsigned32, TimeTicks, Opaque, Counter64, mib-2, \
     zeroDotZero FROM SNMPv2-SMI TEXTUAL-CONVENTION, DisplayString, \
     TruthValue, TestAndIncr, TimeStamp, RowPointer FROM SNMPv2-TC; ";

/// A module of an identity at 1.9 and these definitions.
fn body(definitions: &[String]) -> String {
    format!("{HEAD}{IDENTITY}{} END", definitions.join(" "))
}

fn plain(name: &str, oid: &str) -> String {
    format!("{name} OBJECT IDENTIFIER ::= {{ {oid} }}")
}

fn numbered(count: usize, make: impl Fn(usize) -> String) -> Vec<String> {
    (0..count).map(make).collect()
}

// The cases of by_hand.txt.

struct Case {
    title: String,
    /// 0 where the text is accepted.
    number: u32,
    place: usize,
    other: Option<usize>,
    text: Vec<u8>,
    card: String,
}

fn by_hand() -> Vec<Case> {
    let blocks = BY_HAND.trim_end().split("\n\n");
    blocks.filter(|b| !b.starts_with('#')).map(case).collect()
}

fn case(block: &str) -> Case {
    let (head, rest) = block.split_once('\n').unwrap_or((block, ""));
    let (head, title) = head.split_once(": ").expect("a title");
    let (answer, where_) = match head.split_once(' ') {
        Some(("accepted", where_)) => ("0", where_),
        Some(("refused", rest)) => rest.split_once(' ').unwrap_or((rest, "")),
        _ => ("0", ""),
    };
    let (text, lines) = rest.split_once("\n=\n").unwrap_or((rest, ""));
    let text = match where_ {
        "after t" => format!("{HEAD}{IDENTITY}{text}"),
        "before t" => format!("T DEFINITIONS ::= BEGIN {text} {IDENTITY}END"),
        "" => text.to_string(),
        _ => panic!("{head}"),
    };
    let mut text = bytes(&text);
    let place = taken_out(&mut text, b'@');
    let other = taken_out(&mut text, b'~');
    // The second mark that is taken out moves what stands behind it.
    let place = place.map(|at| at - usize::from(other.is_some_and(|other| other < at)));
    Case {
        title: title.to_string(),
        number: answer.parse().expect("a number"),
        place: place.unwrap_or(text.len()),
        other,
        card: card_of(lines),
        text,
    }
}

/// Where a mark stood.
fn taken_out(text: &mut Vec<u8>, mark: u8) -> Option<usize> {
    let at = text.iter().position(|byte| *byte == mark)?;
    text.remove(at);
    Some(at)
}

/// Without the escapes.
fn bytes(text: &str) -> Vec<u8> {
    let mut parts = text.split("\\x");
    let mut bytes = parts.next().unwrap_or("").as_bytes().to_vec();
    for part in parts {
        let (digits, rest) = part.split_at(2);
        bytes.push(u8::from_str_radix(digits, 16).expect("two hex digits"));
        bytes.extend(rest.as_bytes());
    }
    bytes
}

/// A card of the identity and these lines.
fn card_of(lines: &str) -> String {
    let count = lines.lines().count() + 1;
    format!("accepted {count}\n1 t 1.9 0 0 0\n{lines}\n").replace(' ', "\t")
}

fn check(title: &str, text: &[u8], number: u32, place: usize) {
    let answer = read(text, RECORD_WORDS, NUMBER_WORDS);
    assert_eq!((answer.number, answer.place), (number, place), "{title}");
    assert_eq!((answer.count, answer.records.len()), (0, 0), "{title}");
    assert_eq!(
        card(text),
        format!("refused\t{number}\t{place}\n"),
        "{title}"
    );
}

/// The `@` marks the place of the refusal and is no part of the text.
fn check_marked(title: &str, marked: &str, number: u32) {
    let place = marked.find('@').expect("a mark");
    check(title, marked.replacen('@', "", 1).as_bytes(), number, place);
}

#[test]
fn cases_by_hand() {
    let cases = by_hand();
    for case in &cases {
        if case.number == 0 {
            assert_eq!(card(&case.text), case.card, "{}", case.title);
        } else {
            check(&case.title, &case.text, case.number, case.place);
        }
        let place = if case.number == 0 { 0 } else { case.place };
        let expected = (case.number, place, case.other);
        assert_eq!(other(&case.text), expected, "{}", case.title);
    }
    assert_eq!(cases.len(), 420);
}

/// Those with long texts are below. "11 is no longer given."
#[test]
fn every_refusal_has_a_case_by_hand() {
    let cases = by_hand();
    let given = |number: u32| cases.iter().any(|case| case.number == number);
    let numbers = (3..=22).filter(|number| ![8, 11, 14].contains(number));
    for number in numbers.chain([41, 42]) {
        assert!(given(number), "{number}");
    }
    assert!(!given(11));
}

/// The texts that 41 and 42 refuse have a wrong use, at the place of the
/// refusal, and no others have one.
#[test]
fn wrong_uses_are_those_of_41_and_42() {
    for case in by_hand() {
        let first = wrong_uses(&case.text)
            .first()
            .map(|wrong| (wrong.number(), wrong.place));
        let refused = matches!(case.number, 41 | 42);
        let expected = refused.then_some((case.number, case.place));
        assert_eq!(first, expected, "{}", case.title);
    }
}

/// The last line of a listing is that of the card for 2 to 7, and `derived`
/// for all others.
#[test]
fn listings_end_as_cards_do() {
    for case in by_hand() {
        let lines = listing(&case.text);
        let expected = match case.number {
            2..=7 => format!("refused\t{}\t{}", case.number, case.place),
            _ => "derived".to_string(),
        };
        assert_eq!(lines.lines().last(), Some(&expected[..]), "{}", case.title);
    }
}

#[test]
fn the_papers_examples() {
    assert_eq!(tokens(b"----"), Ok(vec![]), "P1");
    check("P2", b"-----", 3, 4);
    let found = tokens(b"a--b").expect("P3");
    assert_eq!(found.len(), 1, "P3");
    assert_eq!((found[0].word, found[0].class), (&b"a"[..], Class::Lower));
    check("P4", b"4294967296", 6, 0);
    check("P5", b"", 7, 0);
    let whole = "accepted\t2\n1\tt\t1.9\t0\t0\t0\n2\ta\t1.9.1\t0\t0\t0\n";
    assert_eq!(card(WHOLE_CASE), whole);
    check("no last line", &WHOLE_CASE[..192], 7, 192);
}

#[test]
fn cuts() {
    let cuts: [(&str, &str); 14] = [
        ("----", ""),
        ("a--b", "0 1 lower\n"),
        ("a-b", "0 3 lower\n"),
        ("a-1", "0 3 lower\n"),
        ("1-2", "0 1 number\n1 3 number\n"),
        ("-----5", "4 6 number\n"),
        ("1--2--3", "0 1 number\n6 7 number\n"),
        ("---", ""),
        ("---a--b", "6 7 lower\n"),
        (
            "::=..{}(),;|",
            "0 3 ::=\n3 5 ..\n5 6 {\n6 7 }\n7 8 (\n8 9 )\n9 10 ,\n10 11 ;\n11 12 |\n",
        ),
        ("'0aF'HH", "0 6 hex\n6 7 Upper\n"),
        ("\"a\"\"--\"", "0 3 text\n3 7 text\n"),
        ("END End end", "0 3 END\n4 7 Upper\n8 11 lower\n"),
        ("4294967295 -2147483648", "0 10 number\n11 22 number\n"),
    ];
    for (text, lines) in cuts {
        let cut = listing(text.as_bytes()).replace('\t', " ");
        let (_, last) = cut.trim_end().rsplit_once('\n').unwrap_or(("", &cut));
        assert!(last.starts_with("refused 7 "), "{text}");
        assert_eq!(
            cut[..cut.len() - last.trim_end().len() - 1],
            *lines,
            "{text}"
        );
    }
    let signs = tokens(b"1-2 -2147483648").expect("three numbers");
    let classes: Vec<Class> = signs.iter().map(|token| token.class).collect();
    assert_eq!(classes, [Class::Number, Class::Negative, Class::Negative]);
}

#[test]
fn classes_alone() {
    let oid = "::= { lower number }";
    let texts = "LAST-UPDATED text ORGANIZATION text CONTACT-INFO text DESCRIPTION text";
    let module = format!("Upper DEFINITIONS ::= BEGIN lower MODULE-IDENTITY {texts} {oid} END");
    let classes: Vec<&str> = module.split(' ').collect();
    assert_eq!(fault(&classes), None);
    assert_eq!(fault(&classes[..19]), Some(19), "no END");
    assert_eq!(fault(&[]), Some(0));
    let more: Vec<&str> = [&classes[..], &["lower"]].concat();
    assert_eq!(fault(&more), Some(20), "more after the end");
    let negative = module.replace("lower number", "lower negative");
    let negative: Vec<&str> = negative.split(' ').collect();
    assert_eq!(fault(&negative), Some(17), "a negative part");
    let named = module.replace("lower", "read-only");
    let named: Vec<&str> = named.split(' ').collect();
    assert_eq!(fault(&named), None, "a word of access as a name");
}

#[test]
fn all_words_of_some_records() {
    let answer = read(WHOLE_CASE, RECORD_WORDS, NUMBER_WORDS);
    let records = [
        [1, 65, 1, 0, 2, 0, 0, 0, 0, 0],
        [2, 160, 1, 2, 3, 0, 0, 0, 0, 0],
    ];
    assert_eq!(answer.records, records.concat());
    assert_eq!(answer.numbers, [1, 9, 1, 9, 1]);
    let front = format!("{HEAD}{IDENTITY}");
    let at = front.len() as u32;
    let text = front
        + "A ::= TEXTUAL-CONVENTION STATUS obsolete DESCRIPTION \"\" SYNTAX INTEGER {x(1)--y\n\
           }--z\nb OBJECT-TYPE SYNTAX A MAX-ACCESS read-only STATUS deprecated \
           DESCRIPTION \"\" ::= {t 5}END";
    let answer = read(text.as_bytes(), RECORD_WORDS, NUMBER_WORDS);
    let records = [
        [5, at, 1, 0, 0, at + 63, 18, 0, 3, 2],
        [4, at + 85, 1, 2, 3, at + 106, 1, 3, 2, 2],
    ];
    assert_eq!(answer.records[10..], records.concat());
}

#[test]
fn buffers_and_long_texts() {
    for (records, numbers) in [(5119, 8192), (5120, 8191), (0, 0)] {
        let answer = read(&[b'_'; 70000], records, numbers);
        assert_eq!((answer.number, answer.place), (1, 0));
        assert!(answer.changes_nothing());
    }
    check("just long enough", b"_", 3, 0);
    check("65,536 bytes are read", &[b' '; 65536], 7, 65536);
    check("65,537 bytes are not", &[b' '; 65537], 2, 0);
    check("2 before 3", &[b'_'; 65537], 2, 0);
    assert_eq!(listing(&[b'_'; 65537]), "refused\t2\t0\n");
}

#[test]
fn definitions_8() {
    let named = |i: usize| plain(&format!("a{i}"), &format!("t {i}"));
    let text = body(&numbered(511, named));
    let answer = read(text.as_bytes(), RECORD_WORDS, NUMBER_WORDS);
    assert_eq!((answer.number, answer.count), (0, 512));
    let lines: String = (0..511)
        .map(|i| format!("2 a{i} 1.9.{i} 0 0 0\n"))
        .collect();
    assert_eq!(
        card(text.as_bytes()),
        card_of(lines.trim_end()),
        "512 definitions"
    );
    let marked = |i: usize, other: &str| {
        let name = if i == 511 { "@a" } else { other };
        plain(name, &format!("t {i}"))
    };
    let many = numbered(514, |i| marked(i, &format!("a{i}")));
    check_marked("a 513th definition", &body(&many), 8);
    let twice = numbered(512, |i| marked(i, "b"));
    check_marked("and a name twice before it", &body(&twice), 8);
    let headless = |i: usize| match i {
        511 => plain("@a", "t 1"),
        _ => plain(&format!("a{i}"), "x 1"),
    };
    let unknown = numbered(512, headless);
    check_marked("and unknown heads before it", &body(&unknown), 8);
    let many = numbered(513, named);
    check_marked("7 before 8", &(body(&many) + " @x"), 7);
}

// What is needed, what the name is and which module offers it, for 41 and 42.

/// Imports of all macros and of nothing else.
const MACROS: &str = "T DEFINITIONS ::= BEGIN IMPORTS MODULE-IDENTITY, OBJECT-IDENTITY, \
     OBJECT-TYPE, NOTIFICATION-TYPE FROM SNMPv2-SMI TEXTUAL-CONVENTION FROM SNMPv2-TC; ";

const TAIL: &str = "STATUS current DESCRIPTION \"\"";

/// The index may be any clause that stands behind DESCRIPTION.
fn object(name: &str, syntax: &str, index: &str, oid: &str) -> String {
    let access = "MAX-ACCESS read-only";
    format!("{name} OBJECT-TYPE SYNTAX {syntax} {access} {TAIL} {index} ::= {{ {oid} }}")
}

fn notification(name: &str, objects: &str, oid: &str) -> String {
    format!("{name} NOTIFICATION-TYPE {objects} {TAIL} ::= {{ {oid} }}")
}

fn convention(name: &str, syntax: &str) -> String {
    format!("{name} ::= TEXTUAL-CONVENTION {TAIL} SYNTAX {syntax}")
}

fn sequence(name: &str, columns: &str) -> String {
    format!("{name} ::= SEQUENCE {{ {columns} }}")
}

/// The `@` marks the name. The line's words are parted by blanks here.
fn check_use(marked: &str, number: u32, words: &str) {
    let place = marked.find('@').expect("a mark");
    let text = marked.replacen('@', "", 1);
    let line = format!("{number} {place} {words}\n").replace(' ', "\t");
    assert_eq!(wrong_use(text.as_bytes()), line, "{marked}");
}

#[test]
fn macros_not_imported_41() {
    let smi = "macro unknown SNMPv2-SMI";
    let identity = IDENTITY.replacen("MODULE", "@MODULE", 1);
    let text = format!("T DEFINITIONS ::= BEGIN {identity}END");
    check_use(&text, 41, smi);
    let identity = format!("i @OBJECT-IDENTITY {TAIL} ::= {{ t 1 }}");
    let object = object("a", "X", "INDEX { iso }", "t 1").replacen("OBJECT", "@OBJECT", 1);
    let notification = notification("n", "OBJECTS { n }", "t 0 1").replacen("NOT", "@NOT", 1);
    let convention = convention("A", "X").replacen("TEXT", "@TEXT", 1);
    for (definition, words) in [
        (identity, smi),
        (object, smi),
        (notification, smi),
        (convention, "macro unknown SNMPv2-TC"),
    ] {
        let imports = "IMPORTS MODULE-IDENTITY FROM SNMPv2-SMI;";
        let text = format!("T DEFINITIONS ::= BEGIN {imports} {IDENTITY}{definition} END");
        check_use(&text, 41, words);
    }
}

#[test]
fn unknown_types_41() {
    for (name, offer) in [
        ("Gauge32", "SNMPv2-SMI"),
        ("Opaque", "SNMPv2-SMI"),
        ("TruthValue", "SNMPv2-TC"),
        ("TimeStamp", "SNMPv2-TC"),
        ("X", "-"),
        ("Opaque1", "-"),
        ("OPAQUE", "-"),
        // The module's own name, another module's, and one like an OID's.
        ("T", "-"),
        ("SNMPv2-SMI", "-"),
        ("Org", "-"),
    ] {
        let name = format!("@{name}");
        let a = object("a", "INTEGER", "", "t 1");
        let columns = sequence("E", &format!("a INTEGER, a {name}, x INTEGER"));
        for (definition, needed, offer) in [
            (convention("A", &name), "convention-type", offer),
            (
                object("a", &name, "INDEX { x }", "x 1"),
                "object-type",
                offer,
            ),
            (format!("{columns} {a}"), "column-type", offer),
            // No built-in type is a SEQUENCE type.
            (
                object("a", &format!("SEQUENCE OF {name}"), "", "x 1"),
                "OF",
                "-",
            ),
        ] {
            let words = format!("{needed} unknown {offer}");
            check_use(&format!("{MACROS}{IDENTITY}{definition} END"), 41, &words);
        }
    }
}

#[test]
fn unknown_names_with_oid_41() {
    for (name, offer) in [
        ("org", "SNMPv2-SMI"),
        ("mib-2", "SNMPv2-SMI"),
        ("zeroDotZero", "SNMPv2-SMI"),
        ("x", "-"),
        ("mib-3", "-"),
        ("displayString", "-"),
        ("current", "-"),
    ] {
        let name = format!("@{name}");
        let list = format!("{{ {name}, iso }}");
        for (definition, needed, offer) in [
            (plain("a", &format!("{name} 1")), "head", offer),
            // No built-in name is an object.
            (
                object("a", "INTEGER", &format!("INDEX {list}"), "t 1"),
                "INDEX",
                "-",
            ),
            (
                object("a", "INTEGER", &format!("AUGMENTS {{ {name} }}"), "x 1"),
                "AUGMENTS",
                "-",
            ),
            (
                notification("n", &format!("OBJECTS {list}"), "x 0 1"),
                "OBJECTS",
                "-",
            ),
            (
                sequence("E", &format!("{name} Integer32, iso X")),
                "SEQUENCE",
                "-",
            ),
        ] {
            let words = format!("{needed} unknown {offer}");
            check_use(&format!("{MACROS}{IDENTITY}{definition} END"), 41, &words);
        }
    }
}

/// 42 is given where an object or a SEQUENCE type is needed, or a type and the
/// name is a SEQUENCE type. It is not where a macro is needed, nor an object's
/// type or a head: a known Upper is a type, a known lower has an OID.
#[test]
fn names_of_another_kind_42() {
    let no_objects = [
        ("iso", "iso"),
        ("t", "identity"),
        ("p", "plain"),
        ("i", "object-identity"),
        ("n", "notification"),
        ("mib-2", "imported-oid"),
        ("zeroDotZero", "imported-oid"),
    ];
    for (name, is) in no_objects {
        let list = format!("{{ c, @{name}, x }}");
        for (definition, needed) in [
            (
                object("a", "INTEGER", &format!("INDEX {list}"), "t 4"),
                "INDEX",
            ),
            (
                object("a", "INTEGER", &format!("AUGMENTS {{ @{name} }}"), "x 4"),
                "AUGMENTS",
            ),
            (
                notification("m", &format!("OBJECTS {list}"), "t 0 2"),
                "OBJECTS",
            ),
            (sequence("F", &format!("c INTEGER, @{name} X")), "SEQUENCE"),
        ] {
            check_42(&definition, &format!("{needed} {is} -"));
        }
    }
    for (name, is) in [
        ("A", "convention"),
        ("Counter32", "imported-type"),
        ("DisplayString", "imported-type"),
    ] {
        let table = object("a", &format!("SEQUENCE OF @{name}"), "INDEX { x }", "t 4");
        check_42(&table, &format!("OF {is} -"));
    }
    check_42(&convention("B", "@E"), "convention-type sequence -");
    check_42(&sequence("F", "c @E, x X"), "column-type sequence -");
    check_42(&sequence("F", "c @F"), "column-type sequence -");
}

/// With a definition of each kind behind the one given, and before it.
fn check_42(definition: &str, words: &str) {
    let others = [
        plain("p", "t 1"),
        format!("i OBJECT-IDENTITY {TAIL} ::= {{ t 2 }}"),
        notification("n", "", "t 0 1"),
        convention("A", "INTEGER"),
        object("c", "INTEGER", "", "t 3"),
        sequence("E", "c INTEGER"),
    ]
    .join(" ");
    check_use(&body(&[definition.to_string(), others.clone()]), 42, words);
    check_use(&body(&[others, definition.to_string()]), 42, words);
}

#[test]
fn other_texts_have_no_wrong_use() {
    let unknown = |count: usize| numbered(count, |_| plain("a", "x 1"));
    let texts = [
        ("2", " ".repeat(65537)),
        ("3", "x _".to_string()),
        ("7, an unknown head before it", body(&unknown(1)) + " x"),
        ("9, an unknown head before it", body(&unknown(2))),
        (
            "10, an unknown macro behind it",
            format!("T DEFINITIONS ::= BEGIN IMPORTS ifIndex FROM SNMPv2-SMI; {IDENTITY}END"),
        ),
        ("12", body(&[plain("a", "a 1")])),
        ("accepted", body(&[plain("a", "t 1")])),
    ];
    for (title, text) in texts {
        assert_eq!(wrong_use(text.as_bytes()), "-\n", "{title}");
        assert_eq!(wrong_uses(text.as_bytes()), [], "{title}");
    }
}

#[test]
fn all_wrong_uses_in_text_order() {
    let columns = sequence("E", "x E, a INTEGER, iso X");
    let object = object("a", "SEQUENCE OF F", "INDEX { a, t }", "org 1");
    let text = body(&[columns, object]);
    let at = |word: &str| text.find(word).expect("a word");
    let expected = [
        (41, at("x E"), "SEQUENCE", None),
        (42, at("E, a"), "column-type", None),
        (42, at("iso X"), "SEQUENCE", None),
        (41, at("X }"), "column-type", None),
        (41, at("F MAX"), "OF", None),
        (42, at("t } ::="), "INDEX", None),
        (41, at("org 1"), "head", Some("SNMPv2-SMI")),
    ];
    let found: Vec<_> = wrong_uses(text.as_bytes())
        .iter()
        .map(|wrong| (wrong.number(), wrong.place, wrong.need.word(), wrong.offer))
        .collect();
    assert_eq!(found, expected);
}

#[test]
fn numbers_14() {
    let nearly = "t".to_string() + &" 1".repeat(125);
    let mut full = vec![plain("a", &nearly)];
    full.extend(numbered(62, |i| plain(&format!("b{i}"), &format!("a {i}"))));
    full.push(plain("c", &nearly));
    let text = body(&full);
    let answer = read(text.as_bytes(), RECORD_WORDS, NUMBER_WORDS);
    assert_eq!((answer.number, answer.numbers.len()), (0, 8192));
    let ones = ".1".repeat(125);
    let between: String = (0..62)
        .map(|i| format!("2 b{i} 1.9{ones}.{i} 0 0 0\n"))
        .collect();
    let lines = format!("2 a 1.9{ones} 0 0 0\n{between}2 c 1.9{ones} 0 0 0");
    assert_eq!(
        card(text.as_bytes()),
        card_of(&lines),
        "8,192 numbers just fit"
    );
    full.push(plain("@d", "t 1"));
    check_marked("the definition that passes 8,192", &body(&full), 14);
}

/// The `@` stands before the place of the range, behind the `~` of the other.
fn check_ranges(title: &str, ranges: &[String]) {
    let mut text = ranged(ranges).into_bytes();
    let shared = taken_out(&mut text, b'~');
    let place = taken_out(&mut text, b'@').expect("a mark");
    assert_eq!(other(&text), (16, place, shared), "{title}");
}

fn ranged(ranges: &[String]) -> String {
    let syntax = format!("INTEGER ({})", ranges.join("|"));
    body(&[convention("A", &syntax)])
}

/// With another range at this index, and one more at the end.
fn changed(ranges: &[String], i: usize, range: &str, last: &str) -> Vec<String> {
    let mut ranges = ranges.to_vec();
    ranges[i] = range.to_string();
    ranges.push(last.to_string());
    ranges
}

#[test]
fn long_lists_16() {
    // 3000 down to 1; 30000..30009 down to 10..19, which touch.
    let singles = numbered(3000, |i| (3000 - i).to_string());
    let pairs = numbered(3000, |i| format!("{}..{}", 30000 - 10 * i, 30009 - 10 * i));
    for list in [&singles, &pairs] {
        assert_eq!(card(ranged(list).as_bytes()), card_of("5 A - 1 0 1"));
    }
    let again = changed(&singles, 7, "~2993", "@2993");
    check_ranges("a number again, far behind", &again);
    let end = changed(&pairs, 1000, "~20000..20009", "@20009");
    check_ranges("the end of a pair again", &end);
    let around = changed(&pairs, 0, "~30000..30009", "@1..40000");
    check_ranges("a pair around all", &around);
    let wrong = changed(&pairs, 1500, "@15000..15000", "20009");
    check_ranges("a wrong pair, then a number again", &wrong);
}
