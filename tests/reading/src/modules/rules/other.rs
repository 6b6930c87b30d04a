//! Where the other one stands, for a refusal that is about two things: the
//! name or label that was there first, the module that does not offer the
//! symbol, the definition or the import of a name of another kind, the
//! definition that holds the OID, the earlier range that shares a number, the
//! part of a table, the column or the name in a list that does not fit.

use super::{
    classes, first_sharing, introduced, next_to_last, oid_values, pair_is_wrong, ranges_of, uses,
    Chains, Definition, Kind, Module, Names, Refusal, Restriction, Settled, Tables, NOT_ACCESSIBLE,
    READ_CREATE, READ_WRITE,
};

/// The module derives, and the refusal is the one that it gets.
pub fn other(m: &Module, refusal: Refusal) -> Option<usize> {
    let place = refusal.place;
    let other = match refusal.number {
        9 => earlier_name(m, place),
        10 => module_named(m, place),
        15 => earlier_holder(m, place),
        16 => earlier_range(m, place),
        18 => earlier_label(m, place),
        20 => of_table(m, place),
        21 => created_column(m, place),
        22 => hidden_object(m, place),
        42 => introduction(m, place),
        _ => None,
    };
    // A row may augment itself.
    other.filter(|other| *other != place)
}

/// `iso` has no earlier name.
fn earlier_name(m: &Module, place: usize) -> Option<usize> {
    let again = introduced(m).find(|name| name.start == place)?;
    let first = introduced(m).find(|name| name.word == again.word)?;
    Some(first.start)
}

/// The module's name behind FROM of the symbol's group.
fn module_named(m: &Module, place: usize) -> Option<usize> {
    let mut groups = m.groups.iter();
    let group = groups.find(|group| group.symbols.iter().any(|symbol| symbol.start == place))?;
    Some(group.module.start)
}

/// Of the name used at this place. `iso` is introduced nowhere.
fn introduction(m: &Module, place: usize) -> Option<usize> {
    let mut uses = m.definitions.iter().flat_map(uses::of);
    let used = uses.find(|used| used.name.start == place)?;
    let by = introduced(m).find(|name| name.word == used.name.word)?;
    Some(by.start)
}

fn definition_at(m: &Module, place: usize) -> Option<usize> {
    m.definitions.iter().position(|d| d.name.start == place)
}

fn settled(m: &Module, names: &Names) -> Settled {
    Settled {
        oids: oid_values(m, &Chains::new(m, names)),
        classes: classes(m, names),
    }
}

fn earlier_holder(m: &Module, place: usize) -> Option<usize> {
    let oids = settled(m, &Names::new(m)).oids;
    let again = definition_at(m, place)?;
    let holds = |d: &Definition| {
        matches!(
            d.kind,
            Kind::Identity | Kind::ObjectIdentity | Kind::Object | Kind::Notification
        )
    };
    let first = (0..again).find(|i| holds(&m.definitions[*i]) && oids[*i] == oids[again])?;
    Some(m.definitions[first].name.start)
}

/// The first in the same list that shares a number with the range at this
/// place. A pair that is wrong is so by itself, whatever it shares.
fn earlier_range(m: &Module, place: usize) -> Option<usize> {
    let mut lists = m.definitions.iter().map(ranges_of);
    lists.find_map(|ranges| {
        let at = ranges.iter().position(|range| range.place == place)?;
        if pair_is_wrong(&ranges[at]) {
            return None;
        }
        Some(first_sharing(&ranges[at], &ranges[..at])?.place)
    })
}

/// A label that was there counts before a number that was there; a number out
/// of range is wrong by itself.
fn earlier_label(m: &Module, place: usize) -> Option<usize> {
    m.definitions.iter().find_map(|d| {
        let Restriction::Labels(labels) = &d.syntax.as_ref()?.restriction else {
            return None;
        };
        let at = labels.iter().position(|label| label.name.start == place)?;
        let again = &labels[at];
        let earlier = &labels[..at];
        let by_name = earlier
            .iter()
            .find(|label| label.name.word == again.name.word);
        let by_number = || earlier.iter().find(|label| label.number == again.number);
        Some(by_name.or_else(by_number)?.name.start)
    })
}

/// By the first clause of rule 20, in the paper's order, that the object at
/// this place is in breach of.
fn of_table(m: &Module, place: usize) -> Option<usize> {
    let names = Names::new(m);
    let settled = settled(m, &names);
    let tables = Tables::new(m, &names, &settled);
    let i = definition_at(m, place)?;
    let d = &m.definitions[i];
    let name_of = |i: usize| m.definitions[i].name.start;
    if tables.is_table(i) && !tables.has_its_row(i) {
        // Of several rows the second is one too many.
        let sequence = tables.sequence(i);
        let rows = &tables.rows_of[sequence];
        let row = rows.get(1).or(rows.first());
        return Some(name_of(*row.unwrap_or(&sequence)));
    }
    if tables.is_row(i) && !tables.has_its_table(i) {
        let sequence = tables.sequence(i);
        let of_type = |t: &usize| tables.is_table(*t) && tables.sequence(*t) == sequence;
        let table = (0..m.definitions.len()).find(of_type);
        return Some(name_of(table.unwrap_or(sequence)));
    }
    let indexed = !d.index.is_empty() || d.augments.is_some();
    if indexed != tables.is_row(i) {
        return None;
    }
    if tables.is_row(i) && !tables.has_its_columns(i) {
        return wrong_column(&tables, i);
    }
    let row = tables.row_above(i);
    if row.is_some_and(|row| !tables.lists(row, i)) {
        return row.map(name_of);
    }
    d.augments.map(|name| name_of(tables.object(&name)))
}

/// Of the names that a row's SEQUENCE lists, the first that one before it
/// equals; if they differ, the first that is no object at the row's OID plus
/// one number.
fn wrong_column(tables: &Tables, row: usize) -> Option<usize> {
    let columns = &tables.m.definitions[tables.sequence(row)].columns;
    let word = |k: usize| columns[k].name.word;
    let again = (0..columns.len()).find(|k| (0..*k).any(|before| word(before) == word(*k)));
    let elsewhere = || {
        columns.iter().position(|column| {
            let object = tables.object(&column.name);
            tables.split(object).0 != tables.settled.oids[row]
        })
    };
    again.or_else(elsewhere).map(|k| columns[k].name.start)
}

/// For a read-write column, the first read-create one in the list of its row's
/// SEQUENCE type. This clause counts before the others of rule 21, which are
/// about one object.
fn created_column(m: &Module, place: usize) -> Option<usize> {
    let names = Names::new(m);
    let settled = settled(m, &names);
    let tables = Tables::new(m, &names, &settled);
    let i = definition_at(m, place)?;
    if m.definitions[i].access != READ_WRITE {
        return None;
    }
    let columns = &m.definitions[tables.sequence(tables.row_above(i)?)].columns;
    let mut objects = columns
        .iter()
        .map(|column| &m.definitions[tables.object(&column.name)]);
    let created = objects.find(|d| d.access == READ_CREATE)?;
    Some(created.name.start)
}

/// The first not-accessible object in OBJECTS, unless the next-to-last number
/// isn't 0: that clause comes first, and there the OID is wrong by itself.
fn hidden_object(m: &Module, place: usize) -> Option<usize> {
    let names = Names::new(m);
    let i = definition_at(m, place)?;
    if next_to_last(&settled(m, &names).oids[i]) != 0 {
        return None;
    }
    let mut objects = m.definitions[i].objects.iter();
    let hidden = objects.find(|name| {
        let object = names.definition(name);
        object.is_some_and(|object| m.definitions[object].access == NOT_ACCESSIBLE)
    })?;
    Some(hidden.start)
}
