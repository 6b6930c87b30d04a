//! Edits aimed at refusals 41 and 42: names not known, names of another kind.

use super::*;

// Uses as they are: without their import, or exchanged for another name.

pub fn import_dropped(rng: &mut Rng, model: &mut Model) -> bool {
    if model.groups.is_empty() {
        return false;
    }
    let i = rng.below(model.groups.len());
    let symbols = &mut model.groups[i].symbols;
    symbols.remove(rng.below(symbols.len()));
    model.groups.retain(|group| !group.symbols.is_empty());
    true
}

/// The words of a definition that are looked up, and those that are not.
fn uses(d: &mut Definition) -> Vec<&mut Name> {
    let mut uses = Vec::new();
    if d.has_syntax() {
        if let Base::Name(name) | Base::SequenceOf(name) = &mut d.syntax.base {
            uses.push(name);
        }
    }
    for column in &mut d.columns {
        uses.push(&mut column.name);
        if let Base::Name(name) = &mut column.type_name {
            uses.push(name);
        }
    }
    uses.extend(&mut d.index);
    uses.extend(&mut d.augments);
    uses.extend(&mut d.objects);
    let names = d.default.iter_mut();
    uses.extend(names.filter(|word| word[0].is_ascii_lowercase()));
    if !matches!(d.kind, Kind::Convention | Kind::Sequence) {
        uses.push(&mut d.head);
    }
    uses
}

fn replace_use(
    rng: &mut Rng,
    model: &mut Model,
    new: impl FnOnce(&mut Rng, &[u8]) -> Name,
) -> bool {
    let i = rng.below(model.definitions.len());
    let mut uses = uses(&mut model.definitions[i]);
    if uses.is_empty() {
        return false;
    }
    let chosen = rng.below(uses.len());
    *uses[chosen] = new(rng, uses[chosen]);
    true
}

pub fn use_renamed(rng: &mut Rng, model: &mut Model) -> bool {
    replace_use(rng, model, |rng, old| match rng.below(4) {
        0 => [old, b"z"].concat(),
        1 if old.len() > 1 => [&old[..old.len() - 1], b"q"].concat(),
        2 => match is_upper(old) {
            true => rng.word(&TC_TYPES).to_vec(),
            false => rng.word(&OID_SYMBOLS).to_vec(),
        },
        _ => match is_upper(old) {
            true => b"Unknown".to_vec(),
            false => b"unknown".to_vec(),
        },
    })
}

pub fn use_of_wrong_kind(rng: &mut Rng, model: &mut Model) -> bool {
    let known: Vec<Name> = model.definitions.iter().map(|d| d.name.clone()).collect();
    replace_use(rng, model, |rng, old| {
        for _ in 0..10 {
            let name = rng.one(&known);
            if is_upper(name) == is_upper(old) {
                return name.clone();
            }
        }
        old.to_vec()
    })
}

pub fn sequence_for_type(rng: &mut Rng, model: &mut Model) -> bool {
    done(|| {
        let sequence = some(rng, model, is_kind(Kind::Sequence))?;
        let name = model.definitions[sequence].name.clone();
        let at = some(rng, model, |d| !d.has_oid())?;
        let d = &mut model.definitions[at];
        if d.kind == Kind::Convention {
            d.syntax = Syntax::bare(Base::Name(name));
        } else {
            let column = rng.below(d.columns.len());
            d.columns[column].type_name = Base::Name(name);
        }
        Some(())
    })
}

// Uses that are put where a name is looked up, so that every kind of name is
// met wherever another is needed.

/// A sort of use: the definitions that may have one, and how it is put there.
struct Slot {
    fits: fn(&Definition) -> bool,
    put: fn(&mut Rng, &mut Definition, Name),
}

const INDEX: Slot = Slot {
    fits: |d| is_object(d) && d.augments.is_none(),
    put: |rng, d, name| {
        put_name(rng, &mut d.index, name);
        // "IMPLIED lower" comes last.
        d.implied = d.implied.map(|_| d.index.len() - 1);
    },
};

const AUGMENTS: Slot = Slot {
    fits: is_object,
    put: |_, d, name| {
        d.index.clear();
        d.augments = Some(name);
    },
};

const OBJECTS: Slot = Slot {
    fits: |d| d.kind == Kind::Notification,
    put: |rng, d, name| put_name(rng, &mut d.objects, name),
};

const COLUMN: Slot = Slot {
    fits: |d| !d.columns.is_empty(),
    put: |rng, d, name| {
        let at = rng.below(d.columns.len());
        if rng.chance(50) {
            d.columns[at].name = name;
        } else {
            let type_name = Base::Integer;
            d.columns.insert(at, Column { name, type_name });
        }
    },
};

const COLUMN_TYPE: Slot = Slot {
    fits: |d| !d.columns.is_empty(),
    put: |rng, d, name| {
        let at = rng.below(d.columns.len());
        d.columns[at].type_name = Base::Name(name);
    },
};

const OBJECT_TYPE: Slot = Slot {
    fits: is_object,
    put: |_, d, name| d.syntax = Syntax::bare(Base::Name(name)),
};

const CONVENTION_TYPE: Slot = Slot {
    fits: |d| d.kind == Kind::Convention,
    put: |_, d, name| d.syntax = Syntax::bare(Base::Name(name)),
};

const OF: Slot = Slot {
    fits: is_object,
    put: |_, d, name| d.syntax = Syntax::bare(Base::SequenceOf(name)),
};

const HEAD: Slot = Slot {
    fits: Definition::has_oid,
    put: |_, d, name| d.head = name,
};

/// A name among others, or for one of them.
fn put_name(rng: &mut Rng, names: &mut Vec<Name>, name: Name) {
    let at = rng.below(names.len() + 1);
    if at < names.len() && rng.chance(50) {
        names[at] = name;
    } else {
        names.insert(at, name);
    }
}

fn put(rng: &mut Rng, model: &mut Model, slot: &Slot, name: Name) -> bool {
    done(|| {
        let i = some(rng, model, slot.fits)?;
        (slot.put)(rng, &mut model.definitions[i], name);
        Some(())
    })
}

fn is_imported(model: &Model, symbol: &[u8]) -> bool {
    let mut symbols = model.groups.iter().flat_map(|group| &group.symbols);
    symbols.any(|other| other == symbol)
}

/// The import of a macro, which some definition mostly needs.
pub fn macro_dropped(rng: &mut Rng, model: &mut Model) -> bool {
    let macros: Vec<&str> = SMI_MACROS.into_iter().chain([TC_MACRO]).collect();
    let dropped = rng.word(&macros);
    let is_there = is_imported(model, dropped);
    for group in &mut model.groups {
        group.symbols.retain(|symbol| symbol != dropped);
    }
    model.groups.retain(|group| !group.symbols.is_empty());
    is_there
}

/// A type's name that hardly any module knows: its own, that of a module it
/// may import from, one that it has to import.
fn unknown_upper(rng: &mut Rng, model: &Model) -> Name {
    match rng.below(5) {
        0 => model.name.clone(),
        1 => rng.word(&SMI_TYPES).to_vec(),
        2 => rng.word(&TC_TYPES).to_vec(),
        3 => rng
            .word(&["SNMPv2-TC", "SNMPv2-SMI", "Iso", "Org"])
            .to_vec(),
        _ => unused("Unknown", 0),
    }
}

/// The same for other names; labels and names in DEFVAL make none known.
fn unknown_lower(rng: &mut Rng, model: &Model) -> Name {
    match rng.below(4) {
        0 => some_label(rng, model).unwrap_or(unused("label", 0)),
        1 => rng.word(&OID_SYMBOLS).to_vec(),
        2 => rng
            .word(&["current", "read-only", "is", "iso1", "isO"])
            .to_vec(),
        _ => unused("unknown", 0),
    }
}

fn some_label(rng: &mut Rng, model: &Model) -> Option<Name> {
    let mut labels: Vec<&Name> = Vec::new();
    for d in &model.definitions {
        labels.extend(d.parts.iter().filter_map(|part| part.label.as_ref()));
        labels.extend(d.default.iter().filter(|word| word[0].is_ascii_lowercase()));
        if let Restriction::Labels(list) = &d.syntax.restriction {
            labels.extend(list.iter().map(|(label, _)| label));
        }
    }
    if labels.is_empty() {
        return None;
    }
    Some(rng.one(&labels).to_vec())
}

pub fn unknown_type_put(rng: &mut Rng, model: &mut Model) -> bool {
    let name = unknown_upper(rng, model);
    let slot = rng.one(&[COLUMN_TYPE, OBJECT_TYPE, CONVENTION_TYPE, OF]);
    put(rng, model, slot, name)
}

pub fn unknown_name_put(rng: &mut Rng, model: &mut Model) -> bool {
    let name = unknown_lower(rng, model);
    let slot = rng.one(&[HEAD, INDEX, AUGMENTS, OBJECTS, COLUMN]);
    put(rng, model, slot, name)
}

/// A name that has an OID and is no object.
fn no_object(rng: &mut Rng, model: &mut Model) -> Name {
    match rng.below(6) {
        0 => b"iso".to_vec(),
        1 => model.definitions[0].name.clone(),
        2 => of_kind(rng, model, Kind::Plain),
        3 => of_kind(rng, model, Kind::ObjectIdentity),
        4 => of_kind(rng, model, Kind::Notification),
        _ => imported(rng, model, &OID_SYMBOLS, symbols::SMI),
    }
}

/// A type that is no SEQUENCE type.
fn no_sequence(rng: &mut Rng, model: &mut Model) -> Name {
    match rng.below(4) {
        0 => imported(rng, model, &SMI_TYPES, symbols::SMI),
        1 => imported(rng, model, &TC_TYPES, symbols::TC),
        _ => of_kind(rng, model, Kind::Convention),
    }
}

/// The name of such a definition, which is added if there is none.
fn of_kind(rng: &mut Rng, model: &mut Model, kind: Kind) -> Name {
    if let Some(i) = some(rng, model, is_kind(kind)) {
        return model.definitions[i].name.clone();
    }
    let name = unused("kind", model.definitions.len());
    let (name, symbol) = match kind {
        Kind::Convention => (upper_first(name), Some((TC_MACRO, symbols::TC))),
        Kind::ObjectIdentity => (name, Some(("OBJECT-IDENTITY", symbols::SMI))),
        Kind::Notification => (name, Some(("NOTIFICATION-TYPE", symbols::SMI))),
        _ => (name, None),
    };
    if let Some((symbol, module)) = symbol {
        import(rng, model, symbol.as_bytes(), module);
    }
    let mut d = Definition::new(kind, name.clone());
    d.set_value(b"iso", &[4000, 0, model.definitions.len() as u32]);
    add(rng, model, vec![d]);
    name
}

fn import(rng: &mut Rng, model: &mut Model, symbol: &[u8], module: &[u8]) {
    if !is_imported(model, symbol) {
        add_symbol(rng, model, symbol, Some(module));
    }
}

/// One of these symbols; it is imported now, if it isn't and if no definition
/// has its name.
fn imported(rng: &mut Rng, model: &mut Model, symbols: &[&'static str], module: &[u8]) -> Name {
    let symbol = rng.word(symbols);
    if model.definitions.iter().all(|d| d.name != symbol) {
        import(rng, model, symbol, module);
    }
    symbol.to_vec()
}

pub fn no_object_put(rng: &mut Rng, model: &mut Model) -> bool {
    let name = no_object(rng, model);
    let slot = rng.one(&[INDEX, AUGMENTS, OBJECTS, COLUMN]);
    put(rng, model, slot, name)
}

pub fn no_sequence_put(rng: &mut Rng, model: &mut Model) -> bool {
    let name = no_sequence(rng, model);
    put(rng, model, &OF, name)
}

/// One unknown and one of another kind in a definition, either of them first.
pub fn both_in_one(rng: &mut Rng, model: &mut Model) -> bool {
    done(|| {
        let (unknown, known) = (unknown_lower(rng, model), no_object(rng, model));
        let slot = rng.one(&[INDEX, OBJECTS, COLUMN]);
        let i = some(rng, model, slot.fits)?;
        let d = &mut model.definitions[i];
        (slot.put)(rng, d, unknown);
        (slot.put)(rng, d, known);
        if d.has_oid() && rng.chance(20) {
            d.head = unused("unknown", 0);
        }
        Some(())
    })
}

/// One unknown and one of another kind anywhere, either of them first.
pub fn both(rng: &mut Rng, model: &mut Model) -> bool {
    let unknown = match rng.chance(50) {
        true => unknown_name_put(rng, model),
        false => unknown_type_put(rng, model),
    };
    let known = match rng.below(4) {
        0 => no_sequence_put(rng, model),
        1 => sequence_for_type(rng, model),
        _ => no_object_put(rng, model),
    };
    unknown && known
}
