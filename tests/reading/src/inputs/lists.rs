//! Lists of ranges that have no number in common, and the orders in which
//! they may be written.

use super::model::Range;
use super::rng::Rng;

/// So many ranges, rising from a number on, so many of a hundred of them
/// pairs. Some touch, others are a little apart; each takes at most ten
/// numbers with the gap before it.
pub fn apart(rng: &mut Rng, count: usize, from: i64, pairs: usize) -> Vec<Range> {
    let mut next = from;
    let mut ranges = Vec::with_capacity(count);
    for _ in 0..count {
        let low = next + *rng.one(&[0, 0, 1, 4]);
        let high = rng.chance(pairs).then(|| low + rng.between(1, 5));
        next = high.unwrap_or(low) + 1;
        ranges.push((low, high));
    }
    ranges
}

/// Some order of the ranges: a rising one is no more likely than others.
pub fn reorder(rng: &mut Rng, ranges: &mut [Range]) {
    ranges.sort_unstable();
    match rng.below(8) {
        0 => {}
        1 | 2 => ranges.reverse(),
        3 => from_both_ends(ranges),
        4 => {
            from_both_ends(ranges);
            ranges.reverse();
        }
        5 => neighbours_exchanged(ranges),
        6 => ranges.rotate_left(rng.below(ranges.len().max(1))),
        _ => rng.shuffle(ranges),
    }
}

/// The first of rising ranges, the last, the second, the last but one, and so
/// on.
fn from_both_ends(ranges: &mut [Range]) {
    let rising = ranges.to_vec();
    let mut left = rising.iter();
    for (i, range) in ranges.iter_mut().enumerate() {
        let taken = match i % 2 {
            0 => left.next(),
            _ => left.next_back(),
        };
        *range = *taken.expect("as many as there are places");
    }
}

fn neighbours_exchanged(ranges: &mut [Range]) {
    for two in ranges.chunks_mut(2) {
        two.reverse();
    }
}
