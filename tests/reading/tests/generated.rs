//! What must hold of any answer, over generated inputs.

use std::collections::BTreeSet;

use reading::hints::{print_octets, Printed, OCTETS_BUFFER};
use reading::inputs::{input, made, Input};
use reading::modules::{listing, other, read, wrong_uses, NUMBER_WORDS, RECORD_WORDS};

#[test]
fn answers_are_sound_and_each_occurs() {
    let mut seen = BTreeSet::new();
    for index in 0..3000 {
        let text = made(3, index);
        let answer = read(&text, RECORD_WORDS, NUMBER_WORDS);
        seen.insert(answer.number);
        if answer.number != 0 {
            assert!(answer.place <= text.len(), "{index}");
            assert_eq!((answer.count, answer.records.len()), (0, 0), "{index}");
            continue;
        }
        let total: u32 = answer.records.chunks(10).map(|record| record[4]).sum();
        assert_eq!(answer.place, 0, "{index}");
        assert_eq!(answer.records.len(), 10 * answer.count, "{index}");
        assert_eq!(answer.numbers.len(), total as usize, "{index}");
    }
    // Refusal 1 is about buffers, and 11 is not given.
    let numbers = (0..=22).filter(|number| ![1, 11].contains(number));
    assert_eq!(seen, numbers.chain([41, 42]).collect());
}

/// What 41 and 42 can be: what is needed, what the name is, and the offer.
fn possible_uses() -> BTreeSet<[&'static str; 4]> {
    let (smi, tc) = ("SNMPv2-SMI", "SNMPv2-TC");
    let lists = ["INDEX", "AUGMENTS", "OBJECTS", "SEQUENCE"];
    let mut possible = BTreeSet::new();
    for offer in [smi, tc] {
        possible.insert(["41", "macro", "unknown", offer]);
    }
    for need in ["convention-type", "object-type", "column-type"] {
        possible.extend([smi, tc, "-"].map(|offer| ["41", need, "unknown", offer]));
    }
    possible.extend([smi, "-"].map(|offer| ["41", "head", "unknown", offer]));
    possible.insert(["41", "OF", "unknown", "-"]);
    for need in lists {
        possible.insert(["41", need, "unknown", "-"]);
        // A known lower that is no object.
        for is in [
            "iso",
            "identity",
            "plain",
            "object-identity",
            "notification",
            "imported-oid",
        ] {
            possible.insert(["42", need, is, "-"]);
        }
    }
    // A known Upper that is no SEQUENCE type, or is one.
    possible.insert(["42", "OF", "convention", "-"]);
    possible.insert(["42", "OF", "imported-type", "-"]);
    possible.insert(["42", "convention-type", "sequence", "-"]);
    possible.insert(["42", "column-type", "sequence", "-"]);
    possible
}

#[test]
fn every_wrong_use_occurs_and_no_other() {
    let mut seen = BTreeSet::new();
    let mut orders = BTreeSet::new();
    let mut others = BTreeSet::new();
    for index in 0..20_000 {
        let text = made(6, index);
        let uses = wrong_uses(&text);
        let (number, place, introduced) = other(&text);
        let Some(first) = uses.first() else {
            assert!(number != 41 && number != 42, "{index}");
            continue;
        };
        assert_eq!((number, place), (first.number(), first.place), "{index}");
        assert!(uses.is_sorted_by_key(|used| used.place), "{index}");
        let number = if number == 41 { "41" } else { "42" };
        let (need, is) = (first.need.word(), first.is.word());
        seen.insert([number, need, is, first.offer.unwrap_or("-")]);
        orders.extend(uses.iter().map(|used| (first.number(), used.number())));
        // `iso` and what is unknown are introduced nowhere.
        let nowhere = is == "unknown" || is == "iso";
        assert_eq!(introduced.is_none(), nowhere, "{index}");
        others.insert(introduced.map(|at| at < place));
    }
    assert_eq!(seen, possible_uses());
    assert_eq!(orders.len(), 4, "both orders of 41 and 42: {orders:?}");
    assert_eq!(others.len(), 3, "introduced before and after: {others:?}");
}

/// Refusals 2 to 7 are those of the listing; other texts are derived.
#[test]
fn listings_agree_with_answers() {
    for index in 0..1000 {
        let text = made(4, index);
        let answer = read(&text, RECORD_WORDS, NUMBER_WORDS);
        let expected = match answer.number {
            2..=7 => format!("refused\t{}\t{}", answer.number, answer.place),
            _ => "derived".to_string(),
        };
        let lines = listing(&text);
        assert_eq!(lines.lines().last(), Some(&expected[..]), "{index}");
    }
}

/// "Output never passes four bytes for each octet."
#[test]
fn four_bytes_for_each_octet() {
    let mut printed = 0;
    for index in 0..40_000 {
        let Input::Octets(given) = input(5, index) else {
            continue;
        };
        if let Printed::Bytes(bytes) = print_octets(&given.hint, &given.octets, OCTETS_BUFFER) {
            assert!(bytes.len() <= 4 * given.octets.len(), "{index}");
            printed += 1;
        }
    }
    assert!(printed > 500, "{printed}");
}
