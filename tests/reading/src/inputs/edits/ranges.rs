//! Edits aimed at refusals 16 and 17: ranges and sizes.

use super::super::lists;
use super::*;
use crate::modules::tokens::{HIGHEST, LOWEST};

// 16: numbers in two ranges, wrong pairs; and lists in any order.

const ORDERS: [&[Range]; 48] = [
    &[(5, Some(5))],
    &[(5, Some(1))],
    &[(1, Some(4)), (4, Some(9))],
    &[(1, Some(4)), (5, Some(9))],
    &[(5, Some(9)), (1, Some(4))],
    &[(4, Some(9)), (1, Some(4))],
    &[(10, Some(20)), (1, Some(5))],
    &[(1, None), (1, None)],
    &[(2, None), (1, None)],
    &[(1, None), (2, None)],
    &[(4, None), (5, None), (3, None)],
    &[(4, None), (5, None), (4, None)],
    &[(1, Some(4)), (4, None)],
    &[(4, None), (4, Some(5))],
    &[(4, None), (1, Some(9))],
    &[(3, None), (1, Some(2))],
    &[(1, Some(9)), (3, None), (5, None)],
    &[(3, Some(4)), (6, None), (8, Some(9)), (1, Some(10))],
    &[(1, Some(10)), (20, None), (3, Some(4))],
    &[(20, Some(30)), (10, Some(15)), (1, Some(5)), (5, Some(10))],
    &[(1, Some(5)), (10, Some(15)), (5, Some(10))],
    &[(20, Some(29)), (0, Some(9)), (30, None), (10, Some(19))],
    &[(20, Some(29)), (0, Some(9)), (30, None), (9, Some(19))],
    &[(1, Some(2)), (9, Some(3)), (4, None)],
    &[(1, Some(9)), (5, Some(5))],
    &[(1, Some(9)), (7, Some(3))],
    &[(9, Some(1)), (5, None)],
    &[(5, Some(5)), (5, None)],
    &[(1, Some(4)), (4, Some(6)), (9, Some(8))],
    &[(1, Some(4)), (9, Some(8)), (4, Some(6))],
    &[(0, None)],
    &[(0, None), (1, None), (0, None)],
    &[(-1, None), (-2, None)],
    &[(-1, None), (1, None)],
    &[(1, None), (-1, None)],
    &[(-5, Some(-1))],
    &[(-1, Some(-5))],
    &[(-5, Some(5)), (5, None)],
    &[(-5, Some(5)), (-1, None)],
    &[(-5, Some(-1)), (-7, Some(-6))],
    &[(-5, Some(-1)), (-7, Some(-5))],
    &[(1, Some(2)), (3, Some(4)), (3, Some(5))],
    &[(7, Some(8)), (1, Some(2))],
    &[(-2147483648, Some(4294967295))],
    &[(2147483647, None), (-1, None)],
    &[(4294967295, None), (-2147483648, None)],
    &[(4294967295, None), (-1, None), (0, Some(4294967295))],
    &[(2147483647, None), (-2147483648, Some(2147483646))],
];

pub fn ranges_put(rng: &mut Rng, model: &mut Model) -> bool {
    done(|| {
        let i = some(rng, model, Definition::is_simple)?;
        let ranges = rng.one(&ORDERS).to_vec();
        put_list(rng, &mut model.definitions[i], ranges);
        Some(())
    })
}

/// Ranges of INTEGER or sizes of OCTET STRING; or they stand behind the name
/// that is there, whatever its class.
fn put_list(rng: &mut Rng, d: &mut Definition, list: Vec<Range>) {
    let (base, restriction) = match rng.chance(50) {
        true => (Base::Integer, Restriction::Ranges(list)),
        false => (Base::OctetString, Restriction::Sizes(list)),
    };
    d.syntax.restriction = restriction;
    if !matches!(d.syntax.base, Base::Name(_)) || rng.chance(70) {
        d.syntax.base = base;
    }
}

/// A list of some length.
pub fn list_put(rng: &mut Rng, model: &mut Model) -> bool {
    let count = *rng.one(&[2, 3, 4, 6, 10, 20, 40, 120]);
    list_of(rng, model, count)
}

/// So many ranges apart from each other, in any order; then perhaps some that
/// are not, among them.
pub fn list_of(rng: &mut Rng, model: &mut Model, count: usize) -> bool {
    done(|| {
        let i = some(rng, model, Definition::is_simple)?;
        let room = 10 * count as i64;
        let from = *rng.one(&[0, 0, 0, 0, 1, 1, 1, -5, -room, LOWEST, HIGHEST - room]);
        let pairs = *rng.one(&[0, 50, 50, 100]);
        let mut list = lists::apart(rng, count, from, pairs);
        lists::reorder(rng, &mut list);
        for _ in 0..*rng.one(&[0, 0, 0, 1, 1, 2, 3]) {
            add_range(rng, &mut list);
        }
        put_list(rng, &mut model.definitions[i], list);
        Some(())
    })
}

/// A range that shares a number with one of the list, or has a wrong pair, or
/// just misses being so; at any place.
fn add_range(rng: &mut Rng, list: &mut Vec<Range>) {
    let beside = *rng.one(list);
    let new = match rng.below(8) {
        0 | 1 => sharing_one(rng, beside),
        2 | 3 => overlapping(rng, beside),
        4 => over_all(list),
        5 | 6 => wrong_pair(rng, beside),
        _ => touching(rng, beside),
    };
    let at = rng.below(list.len() + 1);
    list.insert(at, new);
}

/// The lower end and the higher one, for a wrong pair too.
fn ends((low, high): Range) -> (i64, i64) {
    let high = high.unwrap_or(low);
    (low.min(high), low.max(high))
}

/// A single number of it, or a pair that has one end of it in common.
fn sharing_one(rng: &mut Rng, range: Range) -> Range {
    let (low, high) = ends(range);
    let more = rng.between(1, 3);
    match rng.below(4) {
        0 => (rng.between(low, high), None),
        1 => (*rng.one(&[low, high]), None),
        2 => ((low - more).max(LOWEST), Some(low)),
        _ => (high, Some((high + more).min(HIGHEST))),
    }
}

/// The same again, a pair around it, a pair within it if there is room.
fn overlapping(rng: &mut Rng, range: Range) -> Range {
    let (low, high) = ends(range);
    match rng.below(3) {
        0 => range,
        1 => {
            let (below, above) = (rng.between(0, 3), rng.between(1, 30));
            let low = (low - below).max(LOWEST);
            (low, Some((high + above).min(HIGHEST)))
        }
        _ if high - low > 1 => (low + 1, Some(high)),
        _ => range,
    }
}

/// A pair from the lowest number of all to the highest.
fn over_all(list: &[Range]) -> Range {
    let low = list.iter().map(|range| ends(*range).0).min();
    let high = list.iter().map(|range| ends(*range).1).max();
    (low.unwrap_or(0), high)
}

/// Over it, or over numbers that no range need have.
fn wrong_pair(rng: &mut Rng, range: Range) -> Range {
    let (low, high) = ends(range);
    let far = rng.between(100_000, 100_010);
    match rng.below(5) {
        0 => (low, Some(low)),
        1 => (high, Some(low)),
        2 => (far, Some(low)),
        3 => (far, Some(far)),
        _ => (far, Some(far - 5)),
    }
}

/// A number directly above or below it, or a pair that ends or starts there.
fn touching(rng: &mut Rng, range: Range) -> Range {
    let (low, high) = ends(range);
    let (below, above) = ((low - 1).max(LOWEST), (high + 1).min(HIGHEST));
    match rng.below(4) {
        0 => (below, None),
        1 => (above, None),
        2 => ((below - 2).max(LOWEST), Some(below)),
        _ => (above, Some((above + 2).min(HIGHEST))),
    }
}

fn some_ranges<'m>(rng: &mut Rng, model: &'m mut Model) -> Option<&'m mut Vec<Range>> {
    let i = some(rng, model, |d| {
        let restriction = &d.syntax.restriction;
        d.has_syntax() && matches!(restriction, Restriction::Ranges(_) | Restriction::Sizes(_))
    })?;
    match &mut model.definitions[i].syntax.restriction {
        Restriction::Ranges(ranges) | Restriction::Sizes(ranges) if !ranges.is_empty() => {
            Some(ranges)
        }
        _ => None,
    }
}

pub fn range_added(rng: &mut Rng, model: &mut Model) -> bool {
    done(|| {
        let ranges = some_ranges(rng, model)?;
        add_range(rng, ranges);
        Some(())
    })
}

pub fn bounds_exchanged(rng: &mut Rng, model: &mut Model) -> bool {
    done(|| {
        let ranges = some_ranges(rng, model)?;
        let i = rng.below(ranges.len());
        let (low, high) = ranges[i];
        let high = high?;
        ranges[i] = match rng.below(3) {
            0 => (low, Some(low)),
            1 => (high, Some(high)),
            _ => (high, Some(low)),
        };
        Some(())
    })
}

pub fn range_again(rng: &mut Rng, model: &mut Model) -> bool {
    done(|| {
        let ranges = some_ranges(rng, model)?;
        let range = *rng.one(ranges);
        let at = rng.below(ranges.len() + 1);
        ranges.insert(at, range);
        Some(())
    })
}

pub fn ranges_reordered(rng: &mut Rng, model: &mut Model) -> bool {
    done(|| {
        let ranges = some_ranges(rng, model)?;
        lists::reorder(rng, ranges);
        (ranges.len() > 1).then_some(())
    })
}

// 17: ranges out of place.

const BOUNDS: [Range; 14] = [
    (2147483647, None),
    (2147483648, None),
    (0, Some(4294967295)),
    (-2147483648, Some(2147483647)),
    (2147483647, Some(2147483648)),
    (-1, Some(5)),
    (-2147483648, None),
    (0, Some(65535)),
    (0, Some(65536)),
    (65535, None),
    (65536, None),
    (1, Some(2)),
    (4294967295, None),
    (-1, None),
];

pub fn bounds_put(rng: &mut Rng, model: &mut Model) -> bool {
    done(|| {
        let i = some(rng, model, Definition::is_simple)?;
        let bounds = vec![*rng.one(&BOUNDS)];
        let d = &mut model.definitions[i];
        if rng.chance(50) {
            set_syntax(d, Base::Integer, Restriction::Ranges(bounds));
        } else {
            set_syntax(d, Base::OctetString, Restriction::Sizes(bounds));
        }
        Some(())
    })
}

pub fn some_restriction(rng: &mut Rng) -> Restriction {
    let mut ranges = vec![*rng.one(&BOUNDS)];
    if rng.chance(30) {
        let at = rng.below(2);
        ranges.insert(at, (-2147483647, None));
    }
    match rng.below(5) {
        0 => Restriction::None,
        1 | 2 => Restriction::Ranges(ranges),
        _ => Restriction::Sizes(ranges),
    }
}

/// A restriction on any name, tables' types included.
pub fn restriction_put(rng: &mut Rng, model: &mut Model) -> bool {
    done(|| {
        let i = some(rng, model, |d| {
            d.has_syntax() && matches!(d.syntax.base, Base::Name(_))
        })?;
        model.definitions[i].syntax.restriction = some_restriction(rng);
        Some(())
    })
}

/// Any known type with a restriction in an object or a convention.
pub fn type_with_restriction(rng: &mut Rng, model: &mut Model) -> bool {
    done(|| {
        let name = if rng.chance(50) {
            let symbol = some_symbol(rng, model)?;
            let known = symbols::smi_type(&symbol).or(symbols::tc_type(&symbol));
            known.map(|_| symbol)?
        } else {
            let i = some(rng, model, |d| !d.has_oid())?;
            model.definitions[i].name.clone()
        };
        let i = some(rng, model, Definition::is_simple)?;
        let restriction = some_restriction(rng);
        set_syntax(&mut model.definitions[i], Base::Name(name), restriction);
        Some(())
    })
}

/// The highest bound of the ranges that are there, or the lowest, at a limit
/// or beyond.
pub fn bound_moved(rng: &mut Rng, model: &mut Model) -> bool {
    done(|| {
        let ranges = some_ranges(rng, model)?;
        let limits = [65535, 65536, 2147483647, 2147483648, 4294967295, 4294967296];
        let lows = [-1, -2147483648, -2147483649, 0];
        if rng.chance(70) {
            ranges.iter_mut().max()?.1 = Some(*rng.one(&limits));
        } else {
            ranges.iter_mut().min()?.0 = *rng.one(&lows);
        }
        Some(())
    })
}
