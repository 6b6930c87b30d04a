//! Edits aimed at refusals 18 and 19: labels and conventions.

use super::ranges::some_restriction;
use super::*;

// 18: enumerations.

const ENUMS: [(bool, &[(&str, i64)]); 13] = [
    (false, &[("a", 1), ("b", 1)]),
    (false, &[("a", 1), ("a", 2)]),
    (false, &[("a", 2147483648)]),
    (false, &[("a", -2147483648)]),
    (false, &[("a", 1), ("b", 2), ("a", 1)]),
    (true, &[("a", -1)]),
    (true, &[("a", 0), ("b", 4294967295)]),
    (true, &[("a", 0), ("b", 0)]),
    (true, &[("a", 0), ("b", 1), ("a", 2)]),
    (false, &[("b", 4294967295), ("b", 1)]),
    (false, &[("a", 1), ("b", 3), ("c", 2)]),
    (true, &[("b", 7), ("a", 3)]),
    (false, &[("a", 2147483647), ("b", -1)]),
];

pub fn labels_put(rng: &mut Rng, model: &mut Model) -> bool {
    done(|| {
        let i = some(rng, model, Definition::is_simple)?;
        let (bits, labels) = *rng.one(&ENUMS);
        let labels = labels.iter().map(|(l, n)| (l.as_bytes().to_vec(), *n));
        let base = if bits { Base::Bits } else { Base::Integer };
        let restriction = Restriction::Labels(labels.collect());
        set_syntax(&mut model.definitions[i], base, restriction);
        Some(())
    })
}

fn some_labels<'m>(rng: &mut Rng, model: &'m mut Model) -> Option<&'m mut Vec<(Name, i64)>> {
    let i = some(rng, model, |d| {
        d.has_syntax() && matches!(d.syntax.restriction, Restriction::Labels(_))
    })?;
    match &mut model.definitions[i].syntax.restriction {
        Restriction::Labels(labels) if !labels.is_empty() => Some(labels),
        _ => None,
    }
}

pub fn label_again(rng: &mut Rng, model: &mut Model) -> bool {
    done(|| {
        let labels = some_labels(rng, model)?;
        let (first, second) = (rng.below(labels.len()), rng.below(labels.len()));
        labels[first].0 = labels[second].0.clone();
        (first != second).then_some(())
    })
}

pub fn number_again(rng: &mut Rng, model: &mut Model) -> bool {
    done(|| {
        let labels = some_labels(rng, model)?;
        let (first, second) = (rng.below(labels.len()), rng.below(labels.len()));
        labels[first].1 = labels[second].1;
        (first != second).then_some(())
    })
}

pub fn number_moved(rng: &mut Rng, model: &mut Model) -> bool {
    done(|| {
        let labels = some_labels(rng, model)?;
        let i = rng.below(labels.len());
        labels[i].1 = *rng.one(&[2147483647, 2147483648, -1, 4294967295, -2147483648, 0]);
        Some(())
    })
}

// 19: conventions of conventions.

pub fn convention_of_convention(rng: &mut Rng, model: &mut Model) -> bool {
    done(|| {
        let i = some(rng, model, is_kind(Kind::Convention))?;
        let other = some(rng, model, is_kind(Kind::Convention))?;
        let base = Base::Name(model.definitions[other].name.clone());
        let restriction = some_restriction(rng);
        set_syntax(&mut model.definitions[i], base, restriction);
        Some(())
    })
}

pub fn convention_of_tc(rng: &mut Rng, model: &mut Model) -> bool {
    done(|| {
        let i = some(rng, model, is_kind(Kind::Convention))?;
        let name = rng.word(&TC_TYPES);
        if !model
            .groups
            .iter()
            .any(|g| g.symbols.iter().any(|s| s == name))
        {
            add_symbol(rng, model, name, Some(symbols::TC));
        }
        let base = Base::Name(name.to_vec());
        let restriction = some_restriction(rng);
        set_syntax(&mut model.definitions[i], base, restriction);
        Some(())
    })
}

/// A type of the module under a name of SMI's, and a convention of it.
pub fn own_smi_type(rng: &mut Rng, model: &mut Model) -> bool {
    done(|| {
        let name = rng.word(&SMI_TYPES);
        if model
            .groups
            .iter()
            .any(|g| g.symbols.iter().any(|s| s == name))
        {
            return None;
        }
        let own = Definition::new(Kind::Convention, name.to_vec());
        let mut other = Definition::new(Kind::Convention, b"OwnPad".to_vec());
        other.syntax = Syntax::bare(Base::Name(name.to_vec()));
        add(rng, model, vec![own, other]);
        Some(())
    })
}
