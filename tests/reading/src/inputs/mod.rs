//! Generated inputs. The same seed and index always give the same input;
//! most are near misses: an accepted module with one edit.

mod damage;
mod edits;
mod lists;
mod maker;
mod model;
mod rng;
pub mod values;
mod words;

use rng::Rng;

use crate::modules::{NUMBER_WORDS, RECORD_WORDS};

/// A text and the lengths of the two lent buffers.
pub struct Module {
    pub text: Vec<u8>,
    pub record_words: usize,
    pub number_words: usize,
}

pub enum Input {
    Module(Module),
    Octets(values::Octets),
    Integer(values::Integer),
    Row(values::Row),
}

pub fn input(seed: u64, index: u64) -> Input {
    let mut rng = Rng::new(seed, index);
    match rng.below(100) {
        0..=84 => Input::Module(module(&mut rng)),
        85..=91 => Input::Octets(values::octets(&mut rng)),
        92..=94 => Input::Integer(values::integer(&mut rng)),
        _ => Input::Row(values::row(&mut rng)),
    }
}

/// A generated text by itself. Some of each hundred are at the limits, so
/// that a few thousand have every answer.
pub fn made(seed: u64, index: u64) -> Vec<u8> {
    let mut rng = Rng::new(seed, index);
    match index % 100 {
        0 | 50 => large(&mut rng),
        25 => filled(&mut rng),
        _ => text(&mut rng),
    }
}

fn module(rng: &mut Rng) -> Module {
    Module {
        text: text(rng),
        record_words: buffer(rng, RECORD_WORDS),
        number_words: buffer(rng, NUMBER_WORDS),
    }
}

/// Somewhat longer than the working part, or exactly as long; rarely short.
fn buffer(rng: &mut Rng, part: usize) -> usize {
    match rng.below(200) {
        0 => part - 1,
        1 => rng.below(part),
        2..=50 => part,
        _ => part + rng.below(24),
    }
}

fn text(rng: &mut Rng) -> Vec<u8> {
    match rng.below(2000) {
        0..=4 => return large(rng),
        5..=6 => return filled(rng),
        _ => {}
    }
    match rng.below(100) {
        0..=8 => written(rng, 0, 0),
        9..=60 => written(rng, 1, 0),
        61..=66 => {
            let times = 2 + rng.below(3);
            written(rng, times, 0)
        }
        67..=81 => written(rng, 0, 1),
        82..=83 => written(rng, 1, 2),
        84..=94 => {
            let edits = usize::from(rng.chance(10));
            let mut text = written(rng, edits, 0);
            damage::bytes(rng, &mut text);
            text
        }
        95..=97 => {
            let first = written(rng, 0, 0);
            let second = written(rng, 0, 0);
            damage::spliced(rng, &first, &second)
        }
        _ => damage::soup(rng),
    }
}

/// A module with so many edits, written out with so much damage to its words.
fn written(rng: &mut Rng, edits: usize, damaged: usize) -> Vec<u8> {
    let size = *rng.one(&[1, 4, 6, 9, 12, 15, 20, 28]);
    let mut model = maker::module(rng, size);
    if edits > 0 {
        edits::edit(rng, &mut model, edits);
    }
    let mut words = words::words(rng, &model);
    for _ in 0..damaged {
        if !words.spans.is_empty() {
            damage::words(rng, &mut words);
        }
    }
    words::joined(rng, &words)
}

/// About as many bytes as are read.
fn filled(rng: &mut Rng) -> Vec<u8> {
    let mut text = written(rng, 0, 0);
    damage::filled(rng, &mut text);
    text
}

/// Around 512 definitions or 8,192 numbers, or a very long list; now and
/// then with an edit.
fn large(rng: &mut Rng) -> Vec<u8> {
    let size = 1 + rng.below(30);
    let mut model = maker::module(rng, size);
    match rng.below(7) {
        0 | 1 => edits::oids::definitions_filled(rng, &mut model),
        2 | 3 => edits::oids::numbers_filled(rng, &mut model),
        4 | 5 => edits::wide::widened(rng, &mut model),
        _ => edits::oids::chain_filled(rng, &mut model),
    }
    if rng.chance(20) {
        edits::edit(rng, &mut model, 1);
    }
    let words = words::words(rng, &model);
    words::joined(rng, &words)
}

#[cfg(test)]
mod tests {
    use super::*;
    use crate::modules::read;

    /// Edits are near misses only if what they edit is accepted.
    #[test]
    fn modules_without_edits_are_nearly_always_accepted() {
        let mut refused = Vec::new();
        for index in 0..2000 {
            let text = written(&mut Rng::new(5, index), 0, 0);
            let answer = read(&text, RECORD_WORDS, NUMBER_WORDS);
            if answer.number != 0 {
                refused.push((index, answer.number, answer.place));
            }
        }
        assert!(refused.len() < 40, "{} of 2000: {refused:?}", refused.len());
    }
}
