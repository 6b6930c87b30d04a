//! Edits aimed at refusals 8 and 12 to 15: definitions, heads and OIDs.

use super::*;

// 8, 13, 14: many definitions and many numbers. These are large, so they are
// not among the aims but chosen rarely.

/// Up to 511 to 514 definitions.
pub fn definitions_filled(rng: &mut Rng, model: &mut Model) {
    let count = 511 + rng.below(4);
    let missing = count - model.definitions.len();
    let new = (0..missing)
        .map(|i| {
            if rng.chance(10) {
                return Definition::new(Kind::Convention, upper_first(unused("fill", i)));
            }
            Definition::plain(unused("fill", i), b"iso", &[i as u32])
        })
        .collect();
    add_symbol(rng, model, TC_MACRO.as_bytes(), Some(symbols::TC));
    remove_twins(model);
    add(rng, model, new);
}

/// Leaves the first of equal imports.
fn remove_twins(model: &mut Model) {
    let mut seen: Vec<Name> = Vec::new();
    for group in &mut model.groups {
        group.symbols.retain(|symbol| {
            let new = !seen.contains(symbol);
            if new {
                seen.push(symbol.clone());
            }
            new
        });
    }
    model.groups.retain(|group| !group.symbols.is_empty());
}

/// Long OIDs until the numbers are about 8,192.
pub fn numbers_filled(rng: &mut Rng, model: &mut Model) {
    let target = *rng.one(&[8190, 8191, 8192, 8193, 8194, 8300]);
    let held: usize = model.definitions.iter().map(|d| d.oid.len()).sum();
    let missing = target - held - 127;
    let (count, rest) = (missing / 128, missing % 128);
    let long = [2; 127];
    let mut new = vec![Definition::plain(unused("long", 0), b"iso", &long[..126])];
    for i in 1..count {
        let head = unused("long", 0);
        new.push(Definition::plain(unused("long", i), &head, &[i as u32]));
    }
    // The last ones make up for what is no multiple of 128.
    let half = (128 + rest) / 2;
    for (i, length) in [(count, half), (count + 1, 128 + rest - half)] {
        new.push(Definition::plain(
            unused("long", i),
            b"iso",
            &long[..length - 1],
        ));
    }
    if rng.chance(50) {
        rng.shuffle(&mut new);
    }
    add(rng, model, new);
}

/// A chain of heads of any length up to 512 definitions.
pub fn chain_filled(rng: &mut Rng, model: &mut Model) {
    let free = 512 - model.definitions.len();
    let last: &[u8] = if rng.chance(75) { b"iso" } else { b"link0pad" };
    chain(rng, model, free, last);
}

fn chain(rng: &mut Rng, model: &mut Model, count: usize, last: &[u8]) {
    let mut new: Vec<Definition> = (0..count)
        .map(|i| {
            let next = unused("link", i + 1);
            let head = if i + 1 < count { &next } else { last };
            Definition::plain(unused("link", i), head, &[1])
        })
        .collect();
    match rng.below(3) {
        0 => rng.shuffle(&mut new),
        1 => new.reverse(),
        _ => {}
    }
    add(rng, model, new);
}

// 12: circles of heads.

pub fn own_head(rng: &mut Rng, model: &mut Model) -> bool {
    done(|| {
        let i = some(rng, model, Definition::has_oid)?;
        model.definitions[i].head = model.definitions[i].name.clone();
        Some(())
    })
}

pub fn head_moved(rng: &mut Rng, model: &mut Model) -> bool {
    done(|| {
        let i = some(rng, model, Definition::has_oid)?;
        let other = some(rng, model, Definition::has_oid)?;
        model.definitions[i].head = model.definitions[other].name.clone();
        Some(())
    })
}

/// The end of a chain of heads tied to its beginning.
pub fn circle_closed(rng: &mut Rng, model: &mut Model) -> bool {
    done(|| {
        let first = some(rng, model, Definition::has_oid)?;
        let mut last = first;
        for _ in 0..model.definitions.len() {
            let head = &model.definitions[last].head;
            match model.definitions.iter().position(|d| d.name == *head) {
                Some(next) => last = next,
                None => break,
            }
        }
        model.definitions[last].head = model.definitions[first].name.clone();
        Some(())
    })
}

/// Some definitions in a circle and others that lead into it.
pub fn circle_added(rng: &mut Rng, model: &mut Model) -> bool {
    let count = 2 + rng.below(7);
    let into = unused("link", rng.below(count));
    chain(rng, model, count, &into);
    true
}

// 13: long OIDs.

pub fn oid_lengthened(rng: &mut Rng, model: &mut Model) -> bool {
    done(|| {
        let i = some(rng, model, Definition::has_oid)?;
        let d = &mut model.definitions[i];
        let length = 127 + rng.below(3);
        let missing = length.saturating_sub(d.oid.len());
        d.parts.extend((0..missing).map(|_| Part::bare(3)));
        Some(())
    })
}

pub fn oid_long(rng: &mut Rng, model: &mut Model) -> bool {
    done(|| {
        let i = some(rng, model, Definition::has_oid)?;
        let length = *rng.one(&[126, 127, 128, 129, 300]);
        model.definitions[i].set_value(b"iso", &vec![3; length - 1]);
        Some(())
    })
}

/// A few definitions that together reach the longest OID.
pub fn chain_added(rng: &mut Rng, model: &mut Model) -> bool {
    let count = 2 + rng.below(4);
    let target = 126 + rng.below(4);
    chain(rng, model, count, b"iso");
    let first = unused("link", rng.below(count));
    for d in &mut model.definitions {
        if d.name == first {
            d.parts = (0..target - count).map(|_| Part::bare(5)).collect();
        }
    }
    true
}

// 15: OIDs held twice.

pub fn twin(rng: &mut Rng, model: &mut Model) -> bool {
    done(|| {
        let first = some(rng, model, Definition::has_oid)?;
        let second = some(rng, model, Definition::has_oid)?;
        let head = model.definitions[first].head.clone();
        let parts = model.definitions[first].parts.iter();
        let numbers: Vec<u32> = parts.map(|part| part.number as u32).collect();
        model.definitions[second].set_value(&head, &numbers);
        Some(())
    })
}

fn some_oid_from_iso(rng: &mut Rng, model: &Model) -> Option<Vec<u32>> {
    let i = some(rng, model, |d| d.oid.first() == Some(&1))?;
    Some(model.definitions[i].oid[1..].to_vec())
}

/// The same OID, written from iso on.
pub fn twin_from_iso(rng: &mut Rng, model: &mut Model) -> bool {
    done(|| {
        let numbers = some_oid_from_iso(rng, model)?;
        let i = some(rng, model, Definition::has_oid)?;
        model.definitions[i].set_value(b"iso", &numbers);
        Some(())
    })
}

pub fn twin_added(rng: &mut Rng, model: &mut Model) -> bool {
    done(|| {
        let numbers = some_oid_from_iso(rng, model)?;
        let kind = *rng.one(&[
            Kind::Plain,
            Kind::ObjectIdentity,
            Kind::Object,
            Kind::Notification,
        ]);
        let mut d = Definition::new(kind, unused("twin", 0));
        d.set_value(b"iso", &numbers);
        add(rng, model, vec![d]);
        Some(())
    })
}

/// An OID that a built-in name has, too.
pub fn at_built_in_place(rng: &mut Rng, model: &mut Model) -> bool {
    done(|| {
        let oid = symbols::built_in_oid(rng.word(&OID_SYMBOLS))?;
        let i = some(rng, model, Definition::has_oid)?;
        model.definitions[i].set_value(b"iso", &oid[1..]);
        Some(())
    })
}
