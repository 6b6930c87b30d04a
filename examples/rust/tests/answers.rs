//! What the wrapper answers, as document 01 has it. Each test runs on a thread with Rust's own stack.

use mib::{print_integer, print_octets, read, set_row, Printing, Reading, Step};
use mib::{
    Access, Buffers, Class, Definition, Kind, Module, Oid, Printer, Refusal, RowAnswer, RowState, RowStep, RowValue,
    Status,
};
use mib::{NUMBER_WORDS, RECORD_WORDS};

/// What each lent word and byte is before a call.
const LENT: u8 = 7;

const WHOLE: &[u8] = include_bytes!("../../../tests/texts/whole");

fn lent(words: usize) -> Vec<u32> {
    vec![u32::from(LENT); words]
}

/// A working part with these words and then zeros, and then two words as they were lent.
fn filled(words: &[u32], size: usize) -> Vec<u32> {
    let mut buffer = words.to_vec();
    buffer.resize(size, 0);
    buffer.extend(lent(2));
    buffer
}

/// Reads into buffers that are longer than their working parts, and answers what is left in them too.
fn read_into(text: &[u8]) -> (Reading, Vec<u32>, Vec<u32>) {
    let mut records = lent(RECORD_WORDS + 2);
    let mut numbers = lent(NUMBER_WORDS + 2);
    let reading = read(text, &mut records, &mut numbers);
    (reading, records, numbers)
}

#[test]
fn the_whole_case_is_read() {
    let (reading, records, numbers) = read_into(WHOLE);
    assert_eq!(reading, Reading::Accepted { count: 2 });
    let words = [1, 65, 1, 0, 2, 0, 0, 0, 0, 0, 2, 160, 1, 2, 3, 0, 0, 0, 0, 0];
    assert_eq!(records, filled(&words, RECORD_WORDS));
    assert_eq!(numbers, filled(&[1, 9, 1, 9, 1], NUMBER_WORDS));
}

#[test]
fn a_refusal_zeroes_the_working_parts() {
    for (text, number, place) in [(&b""[..], 7, 0), (b"-----", 3, 4), (b"4294967296", 6, 0)] {
        let (reading, records, numbers) = read_into(text);
        assert_eq!(reading, Reading::Refused { number, place });
        assert_eq!(records, filled(&[], RECORD_WORDS));
        assert_eq!(numbers, filled(&[], NUMBER_WORDS));
    }
}

#[test]
fn short_buffers_and_a_long_text_change_nothing() {
    let short = Reading::Refused { number: 1, place: 0 };
    for (record_words, number_words) in [(RECORD_WORDS - 1, NUMBER_WORDS), (RECORD_WORDS, NUMBER_WORDS - 1), (0, 0)] {
        let mut records = lent(record_words);
        let mut numbers = lent(number_words);
        assert_eq!(read(WHOLE, &mut records, &mut numbers), short);
        assert_eq!(records, lent(record_words));
        assert_eq!(numbers, lent(number_words));
    }
    let (reading, records, numbers) = read_into(&[b' '; 65537]);
    assert_eq!(reading, Reading::Refused { number: 2, place: 0 });
    assert_eq!(records, lent(RECORD_WORDS + 2));
    assert_eq!(numbers, lent(NUMBER_WORDS + 2));
}

/// A printed text, or a refusal, with what it leaves in the part of the output, and a byte beyond it.
fn check_out(printing: Printing, expected: Printing, out: &[u8], text: &[u8]) {
    assert_eq!(printing, expected);
    let (part, beyond) = out.split_at(out.len() - 1);
    assert_eq!(&part[..text.len()], text);
    assert!(part[text.len()..].iter().all(|&byte| byte == 0));
    assert_eq!(beyond, [LENT]);
}

#[test]
fn octets_are_printed_by_their_hint() {
    for (hint, octets, text) in [
        (&b"*1d.:1d"[..], &[0x02, 0x0A, 0x0B, 0x05][..], &b"10.11:5"[..]),
        (b"255t", &[0xC3, 0xA9], &[0xC3, 0xA9]),
        (b"1x", &[], b""),
    ] {
        let mut out = [LENT; 4097];
        let printing = print_octets(hint, octets, &mut out);
        check_out(printing, Printing::Printed { length: text.len() }, &out, text);
    }
}

#[test]
fn octets_that_cannot_be_printed_are_refused() {
    for (hint, octets, number, place) in [
        (&b"255a"[..], &[0xC3, 0xA9][..], 33, 0),
        (b"255a", &[0x4D, 0xC3, 0xBC], 33, 1),
        (b"", &[0], 32, 0),
        (b"1x", &[0; 1025], 31, 0),
    ] {
        let mut out = [LENT; 4097];
        let printing = print_octets(hint, octets, &mut out);
        check_out(printing, Printing::Refused { number, place }, &out, b"");
    }
    let mut out = [LENT; 4095];
    assert_eq!(print_octets(b"1x", &[0], &mut out), Printing::Refused { number: 30, place: 0 });
    assert_eq!(out, [LENT; 4095]);
}

#[test]
fn integers_are_printed_by_their_hint() {
    for (hint, value, text) in [
        (&b"d-2"[..], -5, &b"-0.05"[..]),
        (b"x", 4294967295, b"ffffffff"),
        (b"b", -2147483648, b"-10000000000000000000000000000000"),
    ] {
        let mut out = [LENT; 65];
        let printing = print_integer(hint, value, &mut out);
        check_out(printing, Printing::Printed { length: text.len() }, &out, text);
    }
    for (hint, value, number) in [(&b"1d"[..], 5, 32), (b"d", 4294967296, 34), (b"d", i64::MIN, 34)] {
        let mut out = [LENT; 65];
        let printing = print_integer(hint, value, &mut out);
        check_out(printing, Printing::Refused { number, place: 0 }, &out, b"");
    }
    let mut out = [LENT; 63];
    assert_eq!(print_integer(b"d", 5, &mut out), Printing::Refused { number: 30, place: 0 });
    assert_eq!(out, [LENT; 63]);
}

#[test]
fn rows_step_as_the_table_says() {
    assert_eq!(set_row(0, 4, true, false), Step { number: 0, next: 1 });
    assert_eq!(set_row(0, 5, false, true), Step { number: 0, next: 3 });
    assert_eq!(set_row(1, 2, true, false), Step { number: 10, next: 1 });
    assert_eq!(set_row(3, 1, false, true), Step { number: 12, next: 3 });
    assert_eq!(set_row(4, 6, true, true), Step { number: 40, next: 4 });
    assert_eq!(set_row(u64::MAX, i64::MIN, true, true), Step { number: 40, next: u64::MAX });
}

// ---- The types ----

const QUAY: &[u8] = include_bytes!("../../QUAY-UPS-MIB");
const DOCK: &[u8] = include_bytes!("../../DOCK-UPS-MIB");

/// The definitions of `examples/QUAY-UPS-MIB`, from its text: kind, name, OID, syntax, access, status, class.
const QUAY_DEFINITIONS: &str = "\
identity|quayUps|1.3.6.1.4.1.64999.1|-|-|-|-
textual convention|QuayTemperature|-|Integer32 (-400..1250)|-|current|integer
plain OID|quayUpsObjects|1.3.6.1.4.1.64999.1.1|-|-|-|-
plain OID|quayUpsNotifications|1.3.6.1.4.1.64999.1.2|-|-|-|-
plain OID|quayUpsEvents|1.3.6.1.4.1.64999.1.2.0|-|-|-|-
object|quayUpsModel|1.3.6.1.4.1.64999.1.1.1|DisplayString (SIZE (0..63))|read-only|current|octets
object|quayUpsSource|1.3.6.1.4.1.64999.1.1.2|INTEGER { mains(1), battery(2), bypass(3) }|read-only|current|enumerated INTEGER
object|quayUpsTimeLeft|1.3.6.1.4.1.64999.1.1.3|TimeTicks|read-only|current|TimeTicks
object|quayUpsBatteryTable|1.3.6.1.4.1.64999.1.1.4|SEQUENCE OF QuayUpsBatteryEntry|not-accessible|current|table
object|quayUpsBatteryEntry|1.3.6.1.4.1.64999.1.1.4.1|QuayUpsBatteryEntry|not-accessible|current|row
SEQUENCE type|QuayUpsBatteryEntry|-|-|-|-|-
object|quayUpsBatteryIndex|1.3.6.1.4.1.64999.1.1.4.1.1|Integer32 (1..64)|not-accessible|current|integer
object|quayUpsBatteryCharge|1.3.6.1.4.1.64999.1.1.4.1.2|Gauge32 (0..100)|read-only|current|Gauge32
object|quayUpsBatteryTemperature|1.3.6.1.4.1.64999.1.1.4.1.3|QuayTemperature|read-only|current|integer
notification|quayUpsOnBattery|1.3.6.1.4.1.64999.1.2.0.1|-|-|current|-
";

fn word<T: ToString>(field: Option<T>) -> String {
    field.map_or("-".to_owned(), |field| field.to_string())
}

fn line(found: Definition) -> String {
    let Definition { kind, name, oid, .. } = found;
    let syntax = word(found.syntax.map(String::from_utf8_lossy));
    let (access, status, class) = (word(found.access), word(found.status), word(found.class));
    format!("{kind}|{name}|{oid}|{syntax}|{access}|{status}|{class}\n")
}

#[test]
fn the_quay_module_has_the_definitions_of_its_text() {
    assert_eq!(fields(QUAY, line).concat(), QUAY_DEFINITIONS);
}

#[test]
fn a_definition_has_its_fields() {
    let mut buffers = Buffers::new();
    let module = Module::read(QUAY, &mut buffers).unwrap();
    let start = b"quayUpsSource OBJECT-TYPE";
    let source = Definition {
        kind: Kind::Object,
        name: "quayUpsSource",
        place: QUAY.windows(start.len()).position(|part| part == start).unwrap(),
        oid: Oid { numbers: &[1, 3, 6, 1, 4, 1, 64999, 1, 1, 2] },
        syntax: Some(b"INTEGER { mains(1), battery(2), bypass(3) }"),
        access: Some(Access::ReadOnly),
        status: Some(Status::Current),
        class: Some(Class::Enumerated),
    };
    assert_eq!(module.definitions().nth(6), Some(source));
}

/// A module with each kind, class, access and status.
const EVERY: &[u8] = b"E DEFINITIONS ::= BEGIN IMPORTS
MODULE-IDENTITY, OBJECT-IDENTITY, OBJECT-TYPE, NOTIFICATION-TYPE, IpAddress, Counter32, Gauge32, Unsigned32, TimeTicks, Opaque, Counter64
  FROM SNMPv2-SMI TEXTUAL-CONVENTION FROM SNMPv2-TC;
e MODULE-IDENTITY LAST-UPDATED \"\" ORGANIZATION \"\" CONTACT-INFO \"\" DESCRIPTION \"\" ::= { iso 9 }
p OBJECT IDENTIFIER ::= { e 1 }
i OBJECT-IDENTITY STATUS obsolete DESCRIPTION \"\" ::= { e 2 }
T ::= TEXTUAL-CONVENTION STATUS deprecated DESCRIPTION \"\" SYNTAX BITS { on(0) }
o1 OBJECT-TYPE SYNTAX INTEGER MAX-ACCESS read-write STATUS current DESCRIPTION \"\" ::= { p 1 }
o2 OBJECT-TYPE SYNTAX INTEGER { up(1) } MAX-ACCESS accessible-for-notify STATUS deprecated DESCRIPTION \"\" ::= { p 2 }
o3 OBJECT-TYPE SYNTAX OCTET  STRING ( SIZE (4) ) MAX-ACCESS read-only STATUS obsolete DESCRIPTION \"\" ::= { p 3 }
o4 OBJECT-TYPE SYNTAX OBJECT IDENTIFIER MAX-ACCESS read-only STATUS current DESCRIPTION \"\" ::= { p 4 }
o5 OBJECT-TYPE SYNTAX T MAX-ACCESS read-only STATUS current DESCRIPTION \"\" ::= { p 5 }
o6 OBJECT-TYPE SYNTAX IpAddress MAX-ACCESS read-only STATUS current DESCRIPTION \"\" ::= { p 6 }
o7 OBJECT-TYPE SYNTAX Counter32 MAX-ACCESS read-only STATUS current DESCRIPTION \"\" ::= { p 7 }
o8 OBJECT-TYPE SYNTAX Gauge32 -- \xFC -- (1) MAX-ACCESS read-only STATUS current DESCRIPTION \"\" ::= { p 8 }
o9 OBJECT-TYPE SYNTAX Unsigned32 MAX-ACCESS read-only STATUS current DESCRIPTION \"\" ::= { p 9 }
o10 OBJECT-TYPE SYNTAX TimeTicks MAX-ACCESS read-only STATUS current DESCRIPTION \"\" ::= { p 10 }
o11 OBJECT-TYPE SYNTAX Opaque MAX-ACCESS read-only STATUS current DESCRIPTION \"\" ::= { p 11 }
o12 OBJECT-TYPE SYNTAX Counter64 MAX-ACCESS read-only STATUS current DESCRIPTION \"\" ::= { p 12 }
o13 OBJECT-TYPE SYNTAX SEQUENCE OF R MAX-ACCESS not-accessible STATUS current DESCRIPTION \"\" ::= { p 13 }
o14 OBJECT-TYPE SYNTAX R MAX-ACCESS not-accessible STATUS current DESCRIPTION \"\" INDEX { o9 } ::= { o13 1 }
R ::= SEQUENCE { c INTEGER }
c OBJECT-TYPE SYNTAX INTEGER MAX-ACCESS read-create STATUS current DESCRIPTION \"\" ::= { o14 4294967295 }
n NOTIFICATION-TYPE STATUS current DESCRIPTION \"\" ::= { e 0 1 }
END
";

/// What each definition of a module has, by one of its fields.
fn fields<T>(text: &[u8], field: impl Fn(Definition) -> T) -> Vec<T> {
    let mut buffers = Buffers::new();
    let module = Module::read(text, &mut buffers).unwrap();
    module.definitions().map(field).collect()
}

#[test]
fn each_kind_class_access_and_status_is_read() {
    let names = "e p i T o1 o2 o3 o4 o5 o6 o7 o8 o9 o10 o11 o12 o13 o14 R c n";
    assert_eq!(fields(EVERY, |found| found.name.to_owned()).join(" "), names);
    let object = [4; 14];
    assert_eq!(fields(EVERY, |found| found.kind.number()), [&[1, 2, 3, 5][..], &object, &[6, 4, 7]].concat());
    let class = [0, 0, 0, 5, 1, 2, 3, 4, 5, 6, 7, 8, 9, 10, 11, 12, 13, 14, 0, 1, 0];
    assert_eq!(fields(EVERY, |found| found.class.map_or(0, Class::number)), class);
    let access = [0, 0, 0, 0, 4, 2, 3, 3, 3, 3, 3, 3, 3, 3, 3, 3, 1, 1, 0, 5, 0];
    assert_eq!(fields(EVERY, |found| found.access.map_or(0, Access::number)), access);
    let status = [0, 0, 3, 2, 1, 2, 3, 1, 1, 1, 1, 1, 1, 1, 1, 1, 1, 1, 0, 1, 1];
    assert_eq!(fields(EVERY, |found| found.status.map_or(0, Status::number)), status);
}

#[test]
fn a_syntax_is_the_bytes_of_the_text() {
    let syntaxes = fields(EVERY, |found| found.syntax.map(<[u8]>::to_vec));
    assert_eq!(syntaxes[3].as_deref(), Some(&b"BITS { on(0) }"[..]));
    assert_eq!(syntaxes[6].as_deref(), Some(&b"OCTET  STRING ( SIZE (4) )"[..]));
    assert_eq!(syntaxes[11].as_deref(), Some(&b"Gauge32 -- \xFC -- (1)"[..]));
    assert_eq!(syntaxes.iter().filter(|syntax| syntax.is_none()).count(), 5);
}

#[test]
fn a_type_has_an_empty_oid() {
    let oids = fields(EVERY, |found| (found.oid.numbers.to_vec(), found.oid.to_string()));
    assert_eq!(oids[3], (vec![], "-".to_owned()));
    assert_eq!(oids[18], (vec![], "-".to_owned()));
    assert_eq!(oids[19], (vec![1, 9, 1, 13, 1, 4294967295], "1.9.1.13.1.4294967295".to_owned()));
    assert_eq!(oids.iter().filter(|(numbers, _)| numbers.is_empty()).count(), 2);
}

#[test]
fn the_iterator_knows_its_length() {
    let mut buffers = Buffers::new();
    let module = Module::read(QUAY, &mut buffers).unwrap();
    let mut definitions = module.definitions();
    for left in (0..15).rev() {
        assert!(definitions.next().is_some());
        assert_eq!((definitions.len(), definitions.size_hint()), (left, (left, Some(left))));
    }
    assert_eq!(definitions.next(), None);
    assert_eq!(module.definitions().next_back().unwrap().name, "quayUpsOnBattery");
    assert_eq!((&module).into_iter().count(), 15);
    let mut forth: Vec<_> = module.definitions().collect();
    forth.reverse();
    assert_eq!(module.definitions().rev().collect::<Vec<_>>(), forth);
}

#[test]
fn buffers_are_used_again() {
    let mut buffers = Buffers::default();
    assert_eq!(Module::read(QUAY, &mut buffers).unwrap().definitions().len(), 15);
    assert_eq!(Module::read(WHOLE, &mut buffers).unwrap().definitions().len(), 2);
    assert!(Module::read(b"", &mut buffers).is_err());
    let module = Module::read(WHOLE, &mut buffers).unwrap();
    let shown: Vec<String> = module.definitions().map(|found| format!("{} {}", found.name, found.oid)).collect();
    assert_eq!(shown, ["t 1.9", "a 1.9.1"]);
}

/// Each case of an enum by its number, from 1 on, with its word; and no case before them or after them.
macro_rules! check_cases {
    ($name:ident: $($case:ident $word:literal,)*) => {
        let cases = [$(($name::$case, $word),)*];
        let listed: Vec<$name> = cases.iter().map(|&(case, _)| case).collect();
        assert_eq!($name::ALL, listed);
        for (number, (case, word)) in (1..).zip(cases) {
            assert_eq!((case.number(), case.to_string().as_str()), (number, word));
            assert_eq!($name::of(number), Some(case));
        }
        for number in [0, cases.len() as u32 + 1, u32::MAX] {
            assert_eq!($name::of(number), None);
        }
    };
}

#[test]
fn the_numbers_of_records_are_those_of_the_paper() {
    check_cases!(Kind: Identity "identity", Plain "plain OID", ObjectIdentity "object identity", Object "object",
        Convention "textual convention", Sequence "SEQUENCE type", Notification "notification",);
    check_cases!(Class: Integer "integer", Enumerated "enumerated INTEGER", Octets "octets", Oid "OID", Bits "BITS",
        IpAddress "IpAddress", Counter32 "Counter32", Gauge32 "Gauge32", Unsigned32 "Unsigned32", TimeTicks "TimeTicks",
        Opaque "Opaque", Counter64 "Counter64", Table "table", Row "row",);
    check_cases!(Access: NotAccessible "not-accessible", AccessibleForNotify "accessible-for-notify", ReadOnly "read-only",
        ReadWrite "read-write", ReadCreate "read-create",);
    check_cases!(Status: Current "current", Deprecated "deprecated", Obsolete "obsolete",);
}

#[test]
fn a_refusal_has_a_number_a_place_and_words() {
    let mut buffers = Buffers::new();
    let mut refusal = |text: &[u8]| Module::read(text, &mut buffers).unwrap_err();
    let dock = refusal(DOCK);
    assert_eq!(dock, Refusal { number: 15, place: 623 });
    assert!(DOCK[623..].starts_with(b"dockUpsLoad OBJECT-TYPE"));
    assert_eq!(dock.text(), "an earlier definition holds the OID");
    assert_eq!(dock.to_string(), "refused 15 at 623: an earlier definition holds the OID");
    assert_eq!(refusal(b"").to_string(), "refused 7 at 0: this may not stand here, or the text ends too early");
    assert_eq!(refusal(b"-----").to_string(), "refused 3 at 4: no token starts here");
    assert_eq!(refusal(&[b' '; 65537]).to_string(), "refused 2 at 0: the text has more than 65,536 bytes");
}

/// So many numbers from 0 to 50 have words of their own, and every other number has those of 50.
fn check_words(words: impl Fn(u32) -> &'static str, own: &[u32]) {
    for number in (0..=50).chain([255, 256, 65536, u32::MAX]) {
        assert!(!words(number).is_empty());
        assert_eq!(words(number) != words(50), own.contains(&number), "{number}");
    }
    for (k, &number) in own.iter().enumerate() {
        assert!(own[..k].iter().all(|&earlier| words(earlier) != words(number)), "{number}");
    }
}

#[test]
fn each_number_has_words() {
    let own: Vec<u32> = (0..=10).chain(12..=22).chain(30..=34).chain([41, 42]).collect();
    check_words(|number| Refusal { number, place: 0 }.text(), &own);
    check_words(|number| RowAnswer::from(number).text(), &[0, 10, 12, 40]);
}

#[test]
fn the_printer_gives_texts_and_refusals() {
    let mut printer = Printer::new();
    assert_eq!(printer.octets(b"*1d.:1d", &[0x02, 0x0A, 0x0B, 0x05]), Ok("10.11:5"));
    assert_eq!(printer.octets(b"255t", &[0xC3, 0xA9]), Ok("\u{e9}"));
    assert_eq!(printer.octets(b"1x", &[]), Ok(""));
    assert_eq!(printer.octets(b"255a", &[0x4D, 0xC3, 0xBC]), Err(Refusal { number: 33, place: 1 }));
    assert_eq!(printer.octets(b"1t", &[0xC3, 0xA9]), Err(Refusal { number: 33, place: 0 }));
    assert_eq!(printer.octets(b"1d", &[0; 1025]), Err(Refusal { number: 31, place: 0 }));
    assert_eq!(printer.integer(b"d-2", -5), Ok("-0.05"));
    assert_eq!(printer.integer(b"1d", 5), Err(Refusal { number: 32, place: 0 }));
    let long = printer.integer(b"d", 4294967296).unwrap_err();
    assert_eq!(long.to_string(), "refused 34 at 0: the integer is not from -2147483648 to 4294967295");
    assert_eq!(Printer::default().octets(b"1d.", &[192, 168, 0, 1]), Ok("192.168.0.1"));
}

#[test]
fn rows_step_by_their_states() {
    use RowAnswer::{InconsistentValue, NoError, NoSuchState, WrongValue};
    let step = |answer, next| RowStep { answer, next };
    let active = RowState::Active;
    assert_eq!(RowState::None.set(RowValue::CreateAndGo, true, false), step(NoError, active));
    assert_eq!(RowState::None.set(RowValue::CreateAndWait, false, true), step(NoError, RowState::NotReady));
    assert_eq!(active.set(RowValue::NotInService, true, true), step(NoError, RowState::NotInService));
    assert_eq!(active.set(RowValue::NotInService, true, false), step(WrongValue, active));
    assert_eq!(active.set(RowValue::NotReady, true, true), step(WrongValue, active));
    assert_eq!(active.set(RowValue::Other(i64::MIN), true, true), step(WrongValue, active));
    assert_eq!(RowState::NotReady.set(RowValue::Active, false, true), step(InconsistentValue, RowState::NotReady));
    assert_eq!(RowState::NotInService.set(RowValue::Destroy, false, false), step(NoError, RowState::None));
    for number in [4, u64::MAX] {
        let outside = RowState::Other(number);
        assert_eq!(outside.set(RowValue::Destroy, true, true), step(NoSuchState, outside));
    }
}

#[test]
fn what_is_outside_a_row_keeps_its_number() {
    let states = [RowState::None, RowState::Active, RowState::NotInService, RowState::NotReady, RowState::Other(4)];
    for (number, state) in (0..).zip(states) {
        assert_eq!((RowState::from(number), state.number()), (state, number));
    }
    assert_eq!(RowState::from(u64::MAX), RowState::Other(u64::MAX));
    let values = [
        RowValue::Other(0),
        RowValue::Active,
        RowValue::NotInService,
        RowValue::NotReady,
        RowValue::CreateAndGo,
        RowValue::CreateAndWait,
        RowValue::Destroy,
        RowValue::Other(7),
    ];
    for (number, value) in (0..).zip(values) {
        assert_eq!((RowValue::from(number), value.number()), (value, number));
    }
    assert_eq!(RowValue::from(-1), RowValue::Other(-1));
    let answers = [
        (0, RowAnswer::NoError),
        (10, RowAnswer::WrongValue),
        (11, RowAnswer::Other(11)),
        (12, RowAnswer::InconsistentValue),
        (40, RowAnswer::NoSuchState),
    ];
    for (number, answer) in answers {
        assert_eq!((RowAnswer::from(number), answer.number()), (answer, number));
    }
    assert_eq!(RowAnswer::WrongValue.to_string(), "wrongValue: the set value is refused");
}
