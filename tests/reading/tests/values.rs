//! Answers for hints and rows that were worked out by hand from the paper.
//! No value here is a program's output.

use reading::hints::{print_integer, print_octets, Printed};
use reading::rows::set_row;

fn octets(hint: &str, octets: &[u8], expected: &[u8]) {
    let printed = print_octets(hint.as_bytes(), octets, 4096);
    assert_eq!(printed, Printed::Bytes(expected.to_vec()), "{hint}");
}

fn no_octets(hint: &str, octets: &[u8], number: u32, place: usize) {
    let printed = print_octets(hint.as_bytes(), octets, 4096);
    assert_eq!(printed, Printed::Refused { number, place }, "{hint}");
}

fn integer(hint: &str, value: i64, expected: &str) {
    let printed = print_integer(hint.as_bytes(), value, 64);
    assert_eq!(printed, Printed::Bytes(expected.into()), "{hint} {value}");
}

fn no_integer(hint: &str, value: i64, number: u32) {
    let printed = print_integer(hint.as_bytes(), value, 64);
    assert_eq!(printed, Printed::Refused { number, place: 0 }, "{hint}");
}

#[test]
fn the_papers_examples() {
    octets("*1d.:1d", &[2, 10, 11, 5], b"10.11:5");
    integer("d-2", -5, "-0.05");
    octets("255t", b"\xc3\xa9", b"\xc3\xa9");
    no_octets("255a", b"\xc3\xa9", 33, 0);
}

#[test]
fn rfc_2579s_hints() {
    octets("255a", b"Hello, world", b"Hello, world");
    octets("1x:", b"\x00\x08\xa1\x5e", b"0:8:a1:5e");
    let date = b"\x07\xc8\x05\x1a\x0d\x1e\x0f\x00\x2d\x04\x00";
    let hint = "2d-1d-1d,1d:1d:1d.1d,1a1d:1d";
    octets(hint, date, b"1992-5-26,13:30:15.0,-4:0");
    octets(hint, &date[..8], b"1992-5-26,13:30:15.0");
    integer("d-2", 1234, "12.34");
}

#[test]
fn bad_hints_32() {
    let long = "1x".repeat(128);
    let bad = [
        "", "9x", "10x", "256a", "1000a", "0x", "0a", "01x", "1x:01x", "*", "**1x", "*x", "x", "1",
        "1b", "1X", "1x:1", "1x:*", " 1x", "1x\x7f", "1x\x1f", "1d.:", "1d.:1d", "*1d.:;", &long,
    ];
    for hint in bad {
        no_octets(hint, &[1], 32, 0);
    }
    no_octets("255a?1", &[0xc3], 32, 0);
    no_octets("", &[], 32, 0);
}

#[test]
fn pieces_and_repeats() {
    octets("8d", &[255; 8], b"18446744073709551615");
    octets("8o", &[255; 8], b"1777777777777777777777");
    octets("8x-", &[0, 0, 0, 0, 0, 0, 0, 0, 1], b"0-1");
    octets("1xx1x", &[10, 11], b"axb");
    octets("1d 1d~", &[1, 2, 3], b"1 2~3");
    octets("2x", &[0, 10, 11], b"ab");
    octets("*1d1d", &[2, 3, 4, 5], b"345");
    octets("*1d.1d", &[2, 3, 4, 5], b"3.4.5");
    octets("*1d.:1d", &[0, 5], b"5");
    octets("*1d.:1d", &[5], b"");
    octets("*1d.:", &[5, 1, 2], b"1.2");
    octets("1d.*1d", &[5, 2], b"5.");
    octets("*1x:-", &[2, 10, 11, 1, 12], b"a:b-c");
    octets("*1x:-", &[0, 0, 3, 1, 2, 3, 0], b"1:2:3-");
    octets("*2d,;1a", &[2, 1, 2, 3, 4, 65], b"258,772;A");
    octets("1d.2x:", &[1, 2, 3, 4, 5, 6], b"1.203:405:6");
    octets("4x", &[0; 4], b"0");
    octets("1x", &[], b"");
}

#[test]
fn letters_and_characters_33() {
    octets("1a", b"AB\x7f", b"AB\x7f");
    no_octets("1a", b"AB\x80", 33, 2);
    no_octets("*2a.", b"\x02ABC\x80", 33, 4);
    let whole: [&[u8]; 7] = [
        b"\xc2\x80",
        b"\xe0\xa0\x80",
        b"\xed\x9f\xbf",
        b"\xee\x80\x80",
        b"\xf0\x90\x80\x80",
        b"\xf4\x8f\xbf\xbf",
        b"\xf0\x9f\x98\x80",
    ];
    for value in whole {
        octets("255t", value, value);
    }
    let broken: [&[u8]; 12] = [
        b"\xc0\x80",
        b"\xc1\xbf",
        b"\xe0\x80\x80",
        b"\xe0\x9f\xbf",
        b"\xed\xa0\x80",
        b"\xed\xbf\xbf",
        b"\xf0\x8f\xbf\xbf",
        b"\xf4\x90\x80\x80",
        b"\xf5\x80\x80\x80",
        b"\xff",
        b"\x80",
        b"\xf0\x9f\x98",
    ];
    for value in broken {
        no_octets("255t", value, 33, 0);
    }
    no_octets("255t", b"A\x80", 33, 1);
    no_octets("255t", b"A\xe2\x82", 33, 1);
    no_octets("255t", b"\xe2\x82\xac\xe2\x82", 33, 3);
    no_octets("255t", b"\xc3\xa9\xe2\x28\xa1", 33, 2);
    no_octets("1t", b"\xc3\xa9", 33, 0);
    no_octets("2t", b"A\xc3\xa9", 33, 1);
    octets("2t:", b"\xc3\xa9\xc3\xa8", b"\xc3\xa9:\xc3\xa8");
}

#[test]
fn integers() {
    integer("d", -2147483648, "-2147483648");
    integer("d", 4294967295, "4294967295");
    no_integer("d", -2147483649, 34);
    no_integer("d", 4294967296, 34);
    no_integer("", 4294967296, 32);
    integer("x", -255, "-ff");
    integer("o", 8, "10");
    integer("b", 5, "101");
    integer("d-1", 0, "0.0");
    integer("d-2", 100, "1.00");
    integer("d-10", 4294967295, "0.4294967295");
    integer("d-10", 1, "0.0000000001");
    for hint in [
        "d-0", "d-11", "d-", "d-01", "d-1x", "d--1", "x-1", "D", "1d", "a",
    ] {
        no_integer(hint, 5, 32);
    }
}

#[test]
fn order_of_refusals() {
    let refused = |number| Printed::Refused { number, place: 0 };
    assert_eq!(print_octets(b"", &[0; 1025], 4095), refused(30));
    assert_eq!(print_octets(b"?", &[0; 1025], 4096), refused(31));
    assert_eq!(print_integer(b"", i64::MAX, 63), refused(30));
    assert_eq!(print_integer(b"q", i64::MAX, 64), refused(32));
}

/// The answer and the next state for each state, value, complete and
/// willing; 10 and 12 leave the state.
#[test]
fn rows() {
    let yes_no = [(true, true), (true, false), (false, true), (false, false)];
    for (complete, willing) in yes_no {
        let set = |state, value| set_row(state, value, complete, willing);
        let when = |holds: bool, next, number, state| match holds {
            true => (0, next),
            false => (number, state),
        };
        assert_eq!(set(0, 1), (12, 0));
        assert_eq!(set(1, 1), (0, 1));
        assert_eq!(set(2, 1), (0, 1));
        assert_eq!(set(3, 1), when(complete, 1, 12, 3));
        assert_eq!(set(0, 2), (12, 0));
        assert_eq!(set(1, 2), when(willing, 2, 10, 1));
        assert_eq!(set(2, 2), (0, 2));
        assert_eq!(set(3, 2), when(complete, 2, 12, 3));
        assert_eq!(set(0, 4), when(complete, 1, 12, 0));
        let waiting = if complete { 2 } else { 3 };
        assert_eq!(set(0, 5), when(willing, waiting, 10, 0));
        for state in 1..4 {
            assert_eq!(set(state, 4), (12, state));
            assert_eq!(set(state, 5), (12, state));
        }
        for state in 0..4 {
            assert_eq!(set(state, 6), (0, 0));
            for value in [0, 3, 7, -1, i64::MIN, i64::MAX] {
                assert_eq!(set(state, value), (10, state));
            }
        }
        for state in [4, u64::MAX] {
            assert_eq!(set(state, 6), (40, state));
            assert_eq!(set(state, 9), (40, state));
        }
    }
}
