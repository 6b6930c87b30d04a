//! Very long lists: no list of the grammar has a limit of its own but the
//! length of the text. These are large, so they are chosen rarely.

use super::*;

pub fn widened(rng: &mut Rng, model: &mut Model) {
    let count = *rng.one(&[300, 1000, 3000]);
    let done = match rng.below(12) {
        0 => many_labels(rng, model, count),
        1 => many_defaults(rng, model, count),
        2 => many_indexes(rng, model, count),
        3 => many_columns(rng, model, count),
        4 => many_objects(rng, model, count),
        5 => many_parts(rng, model, count),
        _ => ranges::list_of(rng, model, count),
    };
    if !done {
        many_symbols(rng, model, count);
    }
}

fn numbered(count: usize) -> impl Iterator<Item = Name> {
    (0..count).map(|i| format!("l{i}").into_bytes())
}

fn many_labels(rng: &mut Rng, model: &mut Model, count: usize) -> bool {
    done(|| {
        let i = some(rng, model, Definition::is_simple)?;
        let mut labels: Vec<(Name, i64)> = numbered(count).zip(0..).collect();
        if rng.chance(50) {
            labels[count - 1].1 = rng.below(count) as i64;
        }
        let base = rng.one(&[Base::Integer, Base::Bits]).clone();
        set_syntax(&mut model.definitions[i], base, Restriction::Labels(labels));
        Some(())
    })
}

fn many_defaults(rng: &mut Rng, model: &mut Model, count: usize) -> bool {
    done(|| {
        let i = some(rng, model, |d| {
            is_object(d) && d.class != 7 && d.class != 12
        })?;
        let mut words = vec![b"{".to_vec(), b"x".to_vec()];
        for name in numbered(count) {
            words.extend([b",".to_vec(), name]);
        }
        words.push(b"}".to_vec());
        model.definitions[i].default = words;
        Some(())
    })
}

fn many_indexes(rng: &mut Rng, model: &mut Model, count: usize) -> bool {
    done(|| {
        let i = some(rng, model, |d| !d.index.is_empty())?;
        let d = &mut model.definitions[i];
        d.index = vec![d.index[0].clone(); count];
        Some(())
    })
}

/// Only a SEQUENCE type that nobody uses may repeat its names.
fn many_columns(rng: &mut Rng, model: &mut Model, count: usize) -> bool {
    done(|| {
        let i = some(rng, model, is_object)?;
        let name = model.definitions[i].name.clone();
        let mut d = Definition::new(Kind::Sequence, b"WidePad".to_vec());
        for _ in 0..count {
            let (name, type_name) = (name.clone(), Base::Integer);
            d.columns.push(Column { name, type_name });
        }
        add(rng, model, vec![d]);
        Some(())
    })
}

fn many_objects(rng: &mut Rng, model: &mut Model, count: usize) -> bool {
    done(|| {
        let i = some(rng, model, |d| !d.objects.is_empty())?;
        let d = &mut model.definitions[i];
        d.objects = vec![d.objects[0].clone(); count];
        Some(())
    })
}

fn many_parts(rng: &mut Rng, model: &mut Model, count: usize) -> bool {
    done(|| {
        let i = some(rng, model, Definition::has_oid)?;
        model.definitions[i].set_value(b"iso", &vec![1; count]);
        Some(())
    })
}

fn many_symbols(rng: &mut Rng, model: &mut Model, count: usize) {
    let module = *rng.one(&[symbols::SMI, symbols::TC]);
    model.groups.push(Group {
        symbols: numbered(count).collect(),
        module: module.to_vec(),
    });
}
