//! Rule 16 by itself: number by number over all short lists of a few numbers,
//! and by sorting over generated texts, where every sort of list must occur.

use std::collections::BTreeMap;

use reading::inputs::made;
use reading::modules::other;
use reading::modules::tokens::{tokens, Class, Token};

/// The lowest number, and the highest unless it is a single number.
type Range = (i64, Option<i64>);

const FRONT: &str = "T DEFINITIONS ::= BEGIN IMPORTS MODULE-IDENTITY FROM SNMPv2-SMI \
     TEXTUAL-CONVENTION FROM SNMPv2-TC; t MODULE-IDENTITY LAST-UPDATED \"\" ORGANIZATION \"\" \
     CONTACT-INFO \"\" DESCRIPTION \"\" ::= { iso 9 } A ::= TEXTUAL-CONVENTION STATUS current \
     DESCRIPTION \"\" SYNTAX INTEGER ";

fn pair_is_wrong((low, high): Range) -> bool {
    high.is_some_and(|high| low >= high)
}

fn has((low, high): Range, number: i64) -> bool {
    low <= number && number <= high.unwrap_or(low)
}

// All lists.

/// All ranges of these numbers, those with wrong pairs too.
fn all_ranges(numbers: &[i64]) -> Vec<Range> {
    let mut ranges = Vec::new();
    for low in numbers {
        ranges.push((*low, None));
        ranges.extend(numbers.iter().map(|high| (*low, Some(*high))));
    }
    ranges
}

/// All lists of one to so many of these ranges.
fn all_lists(ranges: &[Range], longest: usize) -> Vec<Vec<Range>> {
    let mut lists: Vec<Vec<Range>> = vec![Vec::new()];
    let mut next = 0;
    while lists[next].len() < longest {
        for range in ranges {
            let list = [&lists[next][..], &[*range]].concat();
            lists.push(list);
        }
        next += 1;
    }
    lists.split_off(1)
}

/// A module that has the list, and the places of the ranges.
fn written(list: &[Range]) -> (String, Vec<usize>) {
    let mut text = FRONT.to_string();
    let mut places = Vec::new();
    for (low, high) in list {
        text += if places.is_empty() { "(" } else { "|" };
        places.push(text.len());
        text += &low.to_string();
        if let Some(high) = high {
            text += &format!("..{high}");
        }
    }
    (text + ") END", places)
}

/// "no number in two ranges. The place is the first range that shares a number
/// with an earlier one, or whose pair is wrong."
fn expected(list: &[Range], places: &[usize], numbers: &[i64]) -> (u32, usize, Option<usize>) {
    for (i, range) in list.iter().enumerate() {
        if pair_is_wrong(*range) {
            return (16, places[i], None);
        }
        let shares = |j: &usize| numbers.iter().any(|n| has(*range, *n) && has(list[*j], *n));
        if let Some(j) = (0..i).find(shares) {
            return (16, places[i], Some(places[j]));
        }
    }
    (0, 0, None)
}

/// The number of lists that are accepted.
fn accepted(numbers: &[i64], longest: usize) -> usize {
    let mut accepted = 0;
    for list in all_lists(&all_ranges(numbers), longest) {
        let (text, places) = written(&list);
        let answer = other(text.as_bytes());
        assert_eq!(answer, expected(&list, &places, numbers), "{list:?}");
        accepted += usize::from(answer.0 == 0);
    }
    accepted
}

/// Sets of k ranges apart from each other among n numbers are as many as
/// choices of 2k out of n + k, and each can be written in k! orders.
#[test]
fn all_short_lists() {
    assert_eq!(accepted(&[0, 1, 2], 4), 6 + 2 * 5 + 6);
    assert_eq!(accepted(&[-2, -1, 0, 1, 2], 3), 15 + 2 * 35 + 6 * 28);
}

// Generated lists.

/// A range and its place.
type Placed = (usize, Range);

/// What stands between brackets and is made of numbers: the lists of ranges,
/// and the numbers behind labels, which are like lists of one.
fn lists(text: &[u8]) -> Vec<Vec<Placed>> {
    let found = tokens(text).expect("a text that cuts");
    let between = found.split(|token| matches!(token.word, b"(" | b")"));
    let lists = between.filter(|words| !words.is_empty() && words.iter().all(is_of_list));
    lists.map(ranges).collect()
}

fn is_of_list(token: &Token) -> bool {
    let is_number = matches!(token.class, Class::Number | Class::Negative);
    is_number || matches!(token.word, b".." | b"|")
}

fn ranges(words: &[Token]) -> Vec<Placed> {
    let ranges = words.split(|token| token.word == b"|");
    ranges.map(placed).collect()
}

fn placed(words: &[Token]) -> Placed {
    let high = words.get(2).map(Token::value);
    (words[0].start, (words[0].value(), high))
}

/// Sorted, each range ends before the next one starts.
fn keeps_16(list: &[Placed]) -> bool {
    let ranges = list.iter().map(|(_, range)| *range);
    let mut ends: Vec<(i64, i64)> = ranges
        .map(|(low, high)| (low, high.unwrap_or(low)))
        .collect();
    ends.sort_unstable();
    let apart = ends.windows(2).all(|two| two[0].1 < two[1].0);
    apart && !list.iter().any(|(_, range)| pair_is_wrong(*range))
}

fn is_long(list: &[Placed]) -> bool {
    list.len() >= 300
}

/// What an accepted list is like.
fn order(list: &[Placed]) -> &'static str {
    let rises = list.is_sorted_by_key(|(_, range)| range.0);
    let falls = list.iter().rev().is_sorted_by_key(|(_, range)| range.0);
    match (is_long(list), rises, falls) {
        _ if list.len() == 1 => "one",
        (false, true, _) => "rising",
        (false, _, true) => "falling",
        (false, ..) => "neither",
        (_, true, _) => "long, rising",
        (_, _, true) => "long, falling",
        _ => "long, neither",
    }
}

/// How the range of this index is in breach.
fn breach(list: &[Placed], at: usize, shared: Option<usize>) -> &'static str {
    let before = at.checked_sub(1).map(|before| list[before].0);
    match (is_long(list), shared) {
        (false, None) => "wrong pair",
        (false, _) if shared == before => "shares with its neighbour",
        (false, _) => "shares with one far before",
        (_, None) => "long, wrong pair",
        _ => "long, shares",
    }
}

/// What is behind the range in breach.
fn behind(list: &[Placed], at: usize) -> &'static str {
    let others = [&list[..at], &list[at + 1..]].concat();
    match keeps_16(&others) {
        true => "one breach",
        false => "more breaches behind it",
    }
}

/// The sorts of the lists of a generated text.
fn sorts(index: u64) -> Vec<&'static str> {
    let text = made(7, index);
    let (number, place, shared) = other(&text);
    match number {
        0 => {
            let lists = lists(&text);
            assert!(lists.iter().all(|list| keeps_16(list)), "{index}");
            lists.iter().map(|list| order(list)).collect()
        }
        16 => {
            let lists = lists(&text);
            let list = lists.iter().find(|list| !keeps_16(list));
            let list = list.unwrap_or_else(|| panic!("{index}: no list in breach"));
            let at = list.iter().position(|(start, _)| *start == place);
            let at = at.unwrap_or_else(|| panic!("{index}: not in the first in breach"));
            assert!(keeps_16(&list[..at]), "{index}");
            assert!(!keeps_16(&list[..=at]), "{index}");
            vec![breach(list, at, shared), behind(list, at)]
        }
        _ => Vec::new(),
    }
}

#[test]
fn every_sort_of_list_occurs() {
    let mut seen: BTreeMap<&str, usize> = BTreeMap::new();
    // Long lists are rare; most are in each fiftieth text.
    let large = (20_000..100_000).step_by(50);
    for sort in (0..20_000).chain(large).flat_map(sorts) {
        *seen.entry(sort).or_default() += 1;
    }
    for (sort, least) in [
        ("rising", 300),
        ("falling", 300),
        ("neither", 300),
        ("long, rising", 1),
        ("long, falling", 5),
        ("long, neither", 20),
        ("wrong pair", 100),
        ("shares with its neighbour", 100),
        ("shares with one far before", 100),
        ("long, wrong pair", 15),
        ("long, shares", 40),
        ("one breach", 100),
        ("more breaches behind it", 50),
    ] {
        let times = seen.get(sort).copied().unwrap_or(0);
        assert!(times >= least, "{sort}: {times} of {seen:?}");
    }
}
