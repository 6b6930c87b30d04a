//! Edits of a model, each aimed at one of the refusals 7 to 22, or 41 and 42
//! in the place of 11. Some leave the module accepted or meet another refusal:
//! both are near misses.

mod grammar;
mod names;
pub mod oids;
mod ranges;
mod syntaxes;
mod tables;
mod uses;
pub mod wide;

use super::maker::upper_first;
use super::model::*;
use super::rng::Rng;
use crate::modules::symbols;

/// An edit; it answers false where it finds nothing to change.
type Edit = fn(&mut Rng, &mut Model) -> bool;

const AIMS: [&[Edit]; 15] = [
    &[
        names::name_again,
        names::iso_defined,
        names::symbol_again,
        names::imported_and_defined,
        names::defined_and_imported,
        names::module_name_defined,
    ],
    &[
        names::stranger_imported,
        names::module_unknown,
        names::modules_exchanged,
        names::symbol_misplaced,
    ],
    &[
        uses::import_dropped,
        uses::macro_dropped,
        uses::use_renamed,
        uses::unknown_type_put,
        uses::unknown_name_put,
        uses::use_of_wrong_kind,
        uses::sequence_for_type,
        // Twice, as it has four lists to meet with six kinds.
        uses::no_object_put,
        uses::no_object_put,
        uses::no_sequence_put,
        uses::both_in_one,
        uses::both,
    ],
    &[
        oids::own_head,
        oids::head_moved,
        oids::circle_closed,
        oids::circle_added,
    ],
    &[oids::oid_lengthened, oids::oid_long, oids::chain_added],
    &[
        oids::twin,
        oids::twin_from_iso,
        oids::twin_added,
        oids::at_built_in_place,
    ],
    &[
        ranges::ranges_put,
        // Twice, as they have most of the rule's cases.
        ranges::list_put,
        ranges::list_put,
        ranges::range_added,
        ranges::range_added,
        ranges::bounds_exchanged,
        ranges::range_again,
        ranges::ranges_reordered,
    ],
    &[
        ranges::bounds_put,
        ranges::restriction_put,
        ranges::type_with_restriction,
        ranges::bound_moved,
    ],
    &[
        syntaxes::labels_put,
        syntaxes::label_again,
        syntaxes::number_again,
        syntaxes::number_moved,
    ],
    &[
        syntaxes::convention_of_convention,
        syntaxes::convention_of_tc,
        syntaxes::own_smi_type,
    ],
    &[
        tables::index_dropped,
        tables::index_put,
        tables::augments_put,
        tables::sequence_exchanged,
        tables::column_made_table,
        tables::row_made_scalar,
        tables::second_row,
        tables::second_table,
        tables::table_nested,
    ],
    &[
        tables::column_dropped,
        tables::column_again,
        tables::stranger_listed,
        tables::row_moved,
        tables::column_moved,
        tables::object_below_row,
    ],
    &[
        tables::any_access,
        tables::accesses_exchanged,
        tables::table_accessible,
        tables::scalar_created,
        tables::written_beside_created,
        tables::counter_default,
        tables::counter_made,
    ],
    &[
        tables::notification_moved,
        tables::hidden_listed,
        tables::listed_hidden,
        tables::zero_moved,
    ],
    &[
        grammar::implied_moved,
        grammar::index_and_augments,
        grammar::part_negative,
        grammar::parts_dropped,
        grammar::restriction_odd,
        grammar::table_in_convention,
        grammar::identity_moved,
        grammar::words_exchanged,
        grammar::default_odd,
        grammar::case_exchanged,
    ],
];

/// Tables, access, uses and ranges have the most cases, so they are aimed at
/// most.
const WEIGHTED: [usize; 26] = [
    0, 1, 2, 2, 2, 2, 3, 4, 5, 6, 6, 6, 7, 7, 8, 9, 10, 10, 11, 11, 11, 12, 12, 13, 14, 14,
];

/// One edit; when it is to be repeated, all have the same aim.
pub fn edit(rng: &mut Rng, model: &mut Model, times: usize) {
    let aim = *rng.one(&WEIGHTED);
    let mut left = times;
    for _ in 0..12 {
        let edits = AIMS[aim];
        if rng.one(edits)(rng, model) {
            left -= 1;
            if left == 0 {
                return;
            }
        }
    }
    // Nothing fits this aim: take any edit that does.
    for _ in 0..12 {
        let edits = AIMS[*rng.one(&WEIGHTED)];
        if rng.one(edits)(rng, model) {
            return;
        }
    }
}

// What the edits share.

fn all(model: &Model, fits: impl Fn(&Definition) -> bool) -> Vec<usize> {
    let definitions = model.definitions.iter().enumerate();
    definitions
        .filter(|(_, d)| fits(d))
        .map(|(i, _)| i)
        .collect()
}

/// Some definition that fits.
fn some(rng: &mut Rng, model: &Model, fits: impl Fn(&Definition) -> bool) -> Option<usize> {
    let found = all(model, fits);
    if found.is_empty() {
        return None;
    }
    Some(*rng.one(&found))
}

fn is_object(d: &Definition) -> bool {
    d.kind == Kind::Object
}

fn is_kind(kind: Kind) -> impl Fn(&Definition) -> bool {
    move |d| d.kind == kind
}

/// Runs an edit's steps; a step that finds nothing ends it.
fn done(edit: impl FnOnce() -> Option<()>) -> bool {
    edit().is_some()
}

/// A name that no definition has: the maker's names end in a number.
fn unused(stem: &str, i: usize) -> Name {
    format!("{stem}{i}pad").into_bytes()
}

/// Adds definitions at the end or scattered among the others.
fn add(rng: &mut Rng, model: &mut Model, new: Vec<Definition>) {
    let scattered = rng.chance(50);
    for d in new {
        let count = model.definitions.len();
        let at = if scattered {
            1 + rng.below(count)
        } else {
            count
        };
        model.definitions.insert(at, d);
    }
}

fn add_symbol(rng: &mut Rng, model: &mut Model, symbol: &[u8], module: Option<&[u8]>) {
    let mut fitting: Vec<&mut Group> = model
        .groups
        .iter_mut()
        .filter(|group| module.is_none_or(|m| m == group.module))
        .collect();
    if !fitting.is_empty() && rng.chance(70) {
        let group = rng.below(fitting.len());
        let symbols = &mut fitting[group].symbols;
        let at = rng.below(symbols.len() + 1);
        symbols.insert(at, symbol.to_vec());
    } else {
        let at = rng.below(model.groups.len() + 1);
        let group = Group {
            symbols: vec![symbol.to_vec()],
            module: module.unwrap_or(symbols::SMI).to_vec(),
        };
        model.groups.insert(at, group);
    }
}

fn some_symbol(rng: &mut Rng, model: &Model) -> Option<Name> {
    let symbols: Vec<&Name> = model.groups.iter().flat_map(|g| &g.symbols).collect();
    if symbols.is_empty() {
        return None;
    }
    Some(rng.one(&symbols).to_vec())
}

fn is_upper(name: &[u8]) -> bool {
    name[0].is_ascii_uppercase()
}

fn set_syntax(d: &mut Definition, base: Base, restriction: Restriction) {
    d.syntax = Syntax { base, restriction };
}
