//! Edits aimed at refusals 20 to 22: tables, access and notifications.

use super::*;

// 20: tables.

pub fn index_dropped(rng: &mut Rng, model: &mut Model) -> bool {
    done(|| {
        let i = some(rng, model, Definition::is_row)?;
        model.definitions[i].index.clear();
        model.definitions[i].augments = None;
        Some(())
    })
}

pub fn index_put(rng: &mut Rng, model: &mut Model) -> bool {
    done(|| {
        let i = some(rng, model, |d| is_object(d) && !d.is_row())?;
        let other = some(rng, model, is_object)?;
        let name = model.definitions[other].name.clone();
        if rng.chance(50) {
            model.definitions[i].index = vec![name];
        } else {
            model.definitions[i].augments = Some(name);
        }
        Some(())
    })
}

pub fn augments_put(rng: &mut Rng, model: &mut Model) -> bool {
    done(|| {
        let i = some(rng, model, Definition::is_row)?;
        let any = rng.chance(30);
        let other = some(rng, model, |d| d.is_row() || any && is_object(d))?;
        let name = model.definitions[other].name.clone();
        model.definitions[i].index.clear();
        model.definitions[i].augments = Some(name);
        Some(())
    })
}

/// A table or row of another SEQUENCE type.
pub fn sequence_exchanged(rng: &mut Rng, model: &mut Model) -> bool {
    done(|| {
        let i = some(rng, model, |d| d.is_table() || d.is_row())?;
        let other = some(rng, model, is_kind(Kind::Sequence))?;
        let name = model.definitions[other].name.clone();
        let d = &mut model.definitions[i];
        d.syntax.base = match d.is_table() {
            true => Base::SequenceOf(name),
            false => Base::Name(name),
        };
        Some(())
    })
}

fn some_column(rng: &mut Rng, model: &Model) -> Option<(usize, usize)> {
    let row = some(rng, model, Definition::is_row)?;
    let column = some(rng, model, |d| d.is_column_of(&model.definitions[row]))?;
    Some((row, column))
}

pub fn column_made_table(rng: &mut Rng, model: &mut Model) -> bool {
    done(|| {
        let (_, column) = some_column(rng, model)?;
        let sequence = some(rng, model, is_kind(Kind::Sequence))?;
        let name = model.definitions[sequence].name.clone();
        let base = match rng.chance(50) {
            true => Base::Name(name),
            false => Base::SequenceOf(name),
        };
        model.definitions[column].syntax = Syntax::bare(base);
        Some(())
    })
}

pub fn row_made_scalar(rng: &mut Rng, model: &mut Model) -> bool {
    done(|| {
        let i = some(rng, model, |d| d.is_row() || d.is_table())?;
        model.definitions[i].syntax = Syntax::bare(Base::Integer);
        Some(())
    })
}

fn object_at(name: Name, base: Base, head: &[u8], numbers: &[u32]) -> Definition {
    let mut d = Definition::new(Kind::Object, name);
    d.syntax = Syntax::bare(base);
    d.set_value(head, numbers);
    d
}

pub fn second_row(rng: &mut Rng, model: &mut Model) -> bool {
    done(|| {
        let row = some(rng, model, Definition::is_row)?;
        let table = some(rng, model, Definition::is_table)?;
        let base = model.definitions[row].syntax.base.clone();
        let (head, number): (&[u8], u32) = match rng.below(3) {
            0 => (&model.definitions[table].name, 2),
            1 => (&model.definitions[table].name, 1),
            _ => (b"iso", 4000),
        };
        let mut d = object_at(unused("second", 0), base, head, &[number]);
        d.access = b"not-accessible";
        d.index = vec![model.definitions[row].name.clone()];
        add(rng, model, vec![d]);
        Some(())
    })
}

pub fn second_table(rng: &mut Rng, model: &mut Model) -> bool {
    done(|| {
        let table = some(rng, model, Definition::is_table)?;
        let base = model.definitions[table].syntax.base.clone();
        let mut d = object_at(unused("second", 0), base, b"iso", &[4000, 1]);
        d.access = b"not-accessible";
        add(rng, model, vec![d]);
        Some(())
    })
}

/// One table as a column of another's row, listed there or not.
pub fn table_nested(rng: &mut Rng, model: &mut Model) -> bool {
    done(|| {
        let row = some(rng, model, Definition::is_row)?;
        let table = some(rng, model, Definition::is_table)?;
        let Base::Name(type_name) = model.definitions[row].syntax.base.clone() else {
            return None;
        };
        let head = model.definitions[row].name.clone();
        model.definitions[table].set_value(&head, &[4000]);
        if rng.chance(85) {
            let name = model.definitions[table].name.clone();
            let sequence = model.definitions.iter_mut().find(|d| d.name == type_name)?;
            let type_name = Base::Integer;
            sequence.columns.push(Column { name, type_name });
        }
        Some(())
    })
}

pub fn column_dropped(rng: &mut Rng, model: &mut Model) -> bool {
    done(|| {
        if rng.chance(30) {
            // The object itself goes; its SEQUENCE still lists it.
            let (_, column) = some_column(rng, model)?;
            model.definitions.remove(column);
            return Some(());
        }
        let i = some(rng, model, |d| d.columns.len() > 1)?;
        let columns = &mut model.definitions[i].columns;
        columns.remove(rng.below(columns.len()));
        Some(())
    })
}

pub fn column_again(rng: &mut Rng, model: &mut Model) -> bool {
    done(|| {
        let i = some(rng, model, is_kind(Kind::Sequence))?;
        let columns = &mut model.definitions[i].columns;
        let name = rng.one(columns).name.clone();
        let at = rng.below(columns.len() + 1);
        let type_name = Base::Integer;
        columns.insert(at, Column { name, type_name });
        Some(())
    })
}

pub fn stranger_listed(rng: &mut Rng, model: &mut Model) -> bool {
    done(|| {
        let i = some(rng, model, is_kind(Kind::Sequence))?;
        let other = some(rng, model, is_object)?;
        let name = model.definitions[other].name.clone();
        let columns = &mut model.definitions[i].columns;
        let at = rng.below(columns.len());
        let type_name = Base::Integer;
        if rng.chance(50) {
            columns.push(Column { name, type_name });
        } else {
            columns[at].name = name;
        }
        Some(())
    })
}

pub fn row_moved(rng: &mut Rng, model: &mut Model) -> bool {
    done(|| {
        let i = some(rng, model, |d| d.is_row() || d.is_table())?;
        let d = &mut model.definitions[i];
        match rng.below(4) {
            0 => d.parts.last_mut()?.number = 2,
            1 => d.parts.last_mut()?.number = 0,
            2 => d.parts.push(Part::bare(1)),
            _ => d.parts.insert(0, Part::bare(1)),
        }
        Some(())
    })
}

pub fn column_moved(rng: &mut Rng, model: &mut Model) -> bool {
    done(|| {
        let (row, column) = some_column(rng, model)?;
        let other = some(rng, model, Definition::has_oid)?;
        let row = model.definitions[row].name.clone();
        let other = model.definitions[other].name.clone();
        let head = rng.one(&[row, other]).clone();
        let numbers = rng.one(&[vec![4000], vec![4000, 1]]).clone();
        model.definitions[column].set_value(&head, &numbers);
        Some(())
    })
}

pub fn object_below_row(rng: &mut Rng, model: &mut Model) -> bool {
    done(|| {
        let row = some(rng, model, Definition::is_row)?;
        let head = model.definitions[row].name.clone();
        let numbers = rng
            .one(&[vec![4000], vec![4000, 1], vec![4294967295]])
            .clone();
        let mut d = object_at(unused("below", 0), Base::Integer, &head, &numbers);
        d.kind = *rng.one(&[Kind::Object, Kind::Object, Kind::Object, Kind::Plain]);
        add(rng, model, vec![d]);
        Some(())
    })
}

// 21: access.

pub fn any_access(rng: &mut Rng, model: &mut Model) -> bool {
    done(|| {
        let i = some(rng, model, is_object)?;
        model.definitions[i].access = rng.word(&ACCESS_WORDS);
        Some(())
    })
}

pub fn accesses_exchanged(rng: &mut Rng, model: &mut Model) -> bool {
    done(|| {
        let first = some(rng, model, is_object)?;
        let second = some(rng, model, is_object)?;
        let access = model.definitions[first].access;
        model.definitions[first].access = model.definitions[second].access;
        model.definitions[second].access = access;
        Some(())
    })
}

pub fn table_accessible(rng: &mut Rng, model: &mut Model) -> bool {
    done(|| {
        let i = some(rng, model, |d| d.is_table() || d.is_row())?;
        model.definitions[i].access = rng.word(&ACCESS_WORDS[1..]);
        Some(())
    })
}

pub fn scalar_created(rng: &mut Rng, model: &mut Model) -> bool {
    done(|| {
        let i = some(rng, model, |d| is_object(d) && d.is_simple())?;
        model.definitions[i].access = b"read-create";
        Some(())
    })
}

pub fn written_beside_created(rng: &mut Rng, model: &mut Model) -> bool {
    done(|| {
        let (row, first) = some_column(rng, model)?;
        let second = some(rng, model, |d| d.is_column_of(&model.definitions[row]))?;
        model.definitions[first].access = b"read-create";
        model.definitions[second].access = b"read-write";
        Some(())
    })
}

fn is_counter(d: &Definition) -> bool {
    is_object(d) && (d.class == 7 || d.class == 12)
}

pub fn counter_default(rng: &mut Rng, model: &mut Model) -> bool {
    done(|| {
        let i = some(rng, model, is_counter)?;
        if rng.chance(50) {
            model.definitions[i].default = vec![b"0".to_vec()];
        } else {
            model.definitions[i].access = rng.word(&ACCESS_WORDS);
        }
        Some(())
    })
}

/// An object of another syntax turned into a counter.
pub fn counter_made(rng: &mut Rng, model: &mut Model) -> bool {
    done(|| {
        let name = rng.word(&["Counter32", "Counter64"]);
        if !model
            .groups
            .iter()
            .any(|g| g.symbols.iter().any(|s| s == name))
        {
            add_symbol(rng, model, name, Some(symbols::SMI));
        }
        let i = some(rng, model, |d| is_object(d) && d.is_simple())?;
        model.definitions[i].syntax = Syntax::bare(Base::Name(name.to_vec()));
        Some(())
    })
}

// 22: notifications.

pub fn notification_moved(rng: &mut Rng, model: &mut Model) -> bool {
    done(|| {
        let i = some(rng, model, is_kind(Kind::Notification))?;
        let other = some(rng, model, Definition::has_oid)?;
        let head = model.definitions[other].name.clone();
        let places: [(&[u8], &[u32]); 8] = [
            (b"iso", &[5]),
            (b"iso", &[0]),
            (b"iso", &[0, 0]),
            (b"iso", &[0, 5, 6]),
            (b"iso", &[1, 0]),
            (&head, &[4007, 4007]),
            (&head, &[0, 4007]),
            (&head, &[4007]),
        ];
        let (head, numbers) = *rng.one(&places);
        model.definitions[i].set_value(head, numbers);
        Some(())
    })
}

pub fn hidden_listed(rng: &mut Rng, model: &mut Model) -> bool {
    done(|| {
        let i = some(rng, model, is_kind(Kind::Notification))?;
        let hidden = some(rng, model, |d| {
            is_object(d) && d.access == b"not-accessible"
        })?;
        let name = model.definitions[hidden].name.clone();
        let objects = &mut model.definitions[i].objects;
        let at = rng.below(objects.len() + 1);
        objects.insert(at, name);
        Some(())
    })
}

pub fn listed_hidden(rng: &mut Rng, model: &mut Model) -> bool {
    done(|| {
        let i = some(rng, model, |d| !d.objects.is_empty())?;
        let name = rng.one(&model.definitions[i].objects).clone();
        let hidden = model.definitions.iter_mut().find(|d| d.name == name)?;
        hidden.access = b"not-accessible";
        Some(())
    })
}

/// The 0 before a notification's last number, one place away or another
/// number.
pub fn zero_moved(rng: &mut Rng, model: &mut Model) -> bool {
    done(|| {
        let i = some(rng, model, is_kind(Kind::Notification))?;
        let parts = &mut model.definitions[i].parts;
        let last = parts.len().checked_sub(1)?;
        match rng.below(4) {
            0 => parts.push(Part::bare(1)),
            1 => parts.swap(last, last.saturating_sub(1)),
            2 => parts[last.saturating_sub(1)].number = 1,
            _ => parts[last].number = 0,
        }
        Some(())
    })
}
