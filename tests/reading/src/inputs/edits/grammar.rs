//! Edits aimed at refusal 7 that a model can hold: clauses that stand where
//! the grammar doesn't have them, or lack what it asks for.

use super::*;

/// "IMPLIED lower" comes last in INDEX.
pub fn implied_moved(rng: &mut Rng, model: &mut Model) -> bool {
    done(|| {
        let i = some(rng, model, |d| !d.index.is_empty())?;
        let again = model.definitions[i].index[0].clone();
        model.definitions[i].index.push(again);
        let count = model.definitions[i].index.len();
        model.definitions[i].implied = Some(rng.below(count));
        Some(())
    })
}

pub fn index_and_augments(rng: &mut Rng, model: &mut Model) -> bool {
    done(|| {
        let i = some(rng, model, |d| !d.index.is_empty())?;
        model.definitions[i].augments = Some(model.definitions[i].index[0].clone());
        Some(())
    })
}

/// "the numbers not negative"
pub fn part_negative(rng: &mut Rng, model: &mut Model) -> bool {
    done(|| {
        let i = some(rng, model, |d| !d.parts.is_empty())?;
        let parts = &mut model.definitions[i].parts;
        let part = rng.below(parts.len());
        parts[part].number = *rng.one(&[-1, -2147483648]);
        if rng.chance(50) {
            parts[part].label = Some(b"x".to_vec());
        }
        Some(())
    })
}

pub fn parts_dropped(rng: &mut Rng, model: &mut Model) -> bool {
    done(|| {
        let i = some(rng, model, Definition::has_oid)?;
        model.definitions[i].parts.clear();
        Some(())
    })
}

/// A restriction that the syntax can't have, or an empty one.
pub fn restriction_odd(rng: &mut Rng, model: &mut Model) -> bool {
    done(|| {
        let i = some(rng, model, Definition::has_syntax)?;
        let range = vec![(1, Some(2))];
        let label = vec![(b"x".to_vec(), 1)];
        let restriction = match rng.below(7) {
            0 => Restriction::None,
            1 => Restriction::Ranges(range),
            2 => Restriction::Sizes(range),
            3 => Restriction::Labels(label),
            4 => Restriction::Ranges(Vec::new()),
            5 => Restriction::Sizes(Vec::new()),
            _ => Restriction::Labels(Vec::new()),
        };
        model.definitions[i].syntax.restriction = restriction;
        Some(())
    })
}

pub fn table_in_convention(rng: &mut Rng, model: &mut Model) -> bool {
    done(|| {
        let sequence = some(rng, model, is_kind(Kind::Sequence))?;
        let base = Base::SequenceOf(model.definitions[sequence].name.clone());
        let i = some(rng, model, |d| !d.has_oid())?;
        let d = &mut model.definitions[i];
        match d.kind {
            Kind::Convention => d.syntax.base = base,
            _ => d.columns[0].type_name = base,
        }
        Some(())
    })
}

/// The identity comes first, and there is one.
pub fn identity_moved(rng: &mut Rng, model: &mut Model) -> bool {
    let other = rng.below(model.definitions.len());
    match rng.below(3) {
        0 => model.definitions.swap(0, other),
        1 => model.definitions[other].kind = Kind::Identity,
        _ => model.definitions[0].kind = Kind::Plain,
    }
    true
}

pub fn words_exchanged(rng: &mut Rng, model: &mut Model) -> bool {
    done(|| {
        let i = some(rng, model, |d| d.kind != Kind::Plain)?;
        let d = &mut model.definitions[i];
        if rng.chance(50) {
            d.access = rng.word(&["current", "write-only", "read", "readOnly", "obsolete"]);
        } else {
            d.status = rng.word(&["mandatory", "read-only", "optional", "currents", "x"]);
        }
        Some(())
    })
}

pub fn default_odd(rng: &mut Rng, model: &mut Model) -> bool {
    done(|| {
        let i = some(rng, model, is_object)?;
        let values: [&[&str]; 12] = [
            &["{", "x", ",", "}"],
            &["{", ",", "x", "}"],
            &["{", "x", "x", "}"],
            &["{", "1", "}"],
            &["{", "X", "}"],
            &["{", "{", "}", "}"],
            &["X"],
            &["x", ",", "y"],
            &["1", "2"],
            &["INTEGER"],
            &["{"],
            &["-", "5"],
        ];
        let words = rng.one(&values).iter();
        model.definitions[i].default = words.map(|word| word.as_bytes().to_vec()).collect();
        Some(())
    })
}

/// A name of the wrong case.
pub fn case_exchanged(rng: &mut Rng, model: &mut Model) -> bool {
    let i = rng.below(model.definitions.len());
    let name = &mut model.definitions[i].name;
    if name[0].is_ascii_uppercase() {
        name[0] = name[0].to_ascii_lowercase();
    } else {
        name[0] = name[0].to_ascii_uppercase();
    }
    true
}
