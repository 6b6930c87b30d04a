//! Refusals 8 to 22 in their order, 41 and 42 together in the place of 11,
//! which is not given. Each rule gives the earliest place in breach, if any;
//! what a rule has made sure of is settled for those after it.

mod other;
mod uses;

use std::collections::{HashMap, HashSet};

use super::grammar::{Definition, Form, Kind, Label, Module, Range, Restriction};
use super::symbols;
use super::tokens::{Token, HIGHEST, LOWEST};
use super::Refusal;

pub use other::other;
pub use uses::WrongUse;

const MOST_DEFINITIONS: usize = 512;
const LONGEST_OID: usize = 128;
const MOST_NUMBERS: usize = 8192;

const TABLE: u32 = 13;
const ROW: u32 = 14;

const NOT_ACCESSIBLE: u32 = 1;
const ACCESSIBLE_FOR_NOTIFY: u32 = 2;
const READ_ONLY: u32 = 3;
const READ_WRITE: u32 = 4;
const READ_CREATE: u32 = 5;

/// What the rules settle for each definition. A class is absent also in a
/// convention that breaches 19 and in an object naming one.
pub struct Settled {
    pub oids: Vec<Vec<u32>>,
    pub classes: Vec<Option<u32>>,
}

pub fn judge(m: &Module) -> Result<Settled, Refusal> {
    refuse(8, definition_too_many(m))?;
    refuse(9, name_again(m))?;
    refuse(10, symbol_not_offered(m))?;
    let names = Names::new(m);
    refuse_use(uses::wrong(m, &names).first())?;
    let chains = Chains::new(m, &names);
    refuse(12, headless(m, &chains))?;
    let lengths = oid_lengths(m, &chains);
    refuse(13, oid_too_long(m, &lengths))?;
    refuse(14, numbers_too_many(m, &lengths))?;
    let oids = oid_values(m, &chains);
    refuse(15, oid_again(m, &oids))?;
    refuse(16, range_wrong(m))?;
    let classes = classes(m, &names);
    refuse(17, range_out_of_place(m, &classes))?;
    refuse(18, label_wrong(m))?;
    refuse(19, convention_of_no_smi_type(m, &names))?;
    let settled = Settled { oids, classes };
    let tables = Tables::new(m, &names, &settled);
    refuse(20, tables.first_object(|i| tables.breaches_20(i)))?;
    refuse(21, tables.first_object(|i| tables.breaches_21(i)))?;
    refuse(22, notification_wrong(m, &names, &settled))?;
    Ok(settled)
}

fn refuse(number: u32, place: Option<usize>) -> Result<(), Refusal> {
    match place {
        Some(place) => Err(Refusal::new(number, place)),
        None => Ok(()),
    }
}

/// "Both hold 11's place in the order together, the earlier use first."
fn refuse_use(first: Option<&WrongUse>) -> Result<(), Refusal> {
    match first {
        Some(wrong) => Err(Refusal::new(wrong.number(), wrong.place)),
        None => Ok(()),
    }
}

// 8 to 10: definitions and imports by themselves.

/// The words that introduce a name: the symbols of the imports and the names
/// of the definitions, which is the text's order.
fn introduced<'m, 'a>(m: &'m Module<'a>) -> impl Iterator<Item = &'m Token<'a>> {
    let imported = m.groups.iter().flat_map(|group| &group.symbols);
    imported.chain(m.definitions.iter().map(|d| &d.name))
}

/// "a 513th definition"
fn definition_too_many(m: &Module) -> Option<usize> {
    m.definitions.get(MOST_DEFINITIONS).map(|d| d.name.start)
}

/// "a name (in imports a macro word too) defined or imported a second time,
/// or `iso` (the later)". Names are introduced in text order, so the first
/// found again is the earliest.
fn name_again(m: &Module) -> Option<usize> {
    let mut seen: HashSet<&[u8]> = HashSet::with_capacity(2 * m.definitions.len() + 32);
    seen.insert(b"iso");
    introduced(m)
        .find(|name| !seen.insert(name.word))
        .map(|name| name.start)
}

/// "symbol that the module named doesn't offer"
fn symbol_not_offered(m: &Module) -> Option<usize> {
    let mut symbols = m
        .groups
        .iter()
        .flat_map(|group| group.symbols.iter().map(|s| (group.module.word, s)));
    symbols
        .find(|(module, symbol)| !symbols::is_offered(module, symbol.word))
        .map(|(_, symbol)| symbol.start)
}

// 41 and 42: names that are not known, or not in the kind needed.

/// Each name's one meaning: imported, or the definition of this number.
struct Names<'a> {
    imported: HashSet<&'a [u8]>,
    defined: HashMap<&'a [u8], usize>,
}

impl<'a> Names<'a> {
    fn new(m: &Module<'a>) -> Self {
        let imported = m.groups.iter().flat_map(|group| &group.symbols);
        let defined = m.definitions.iter().enumerate();
        Names {
            imported: imported.map(|symbol| symbol.word).collect(),
            defined: defined.map(|(i, d)| (d.name.word, i)).collect(),
        }
    }

    fn is_imported(&self, name: &Token) -> bool {
        self.imported.contains(name.word)
    }

    fn definition(&self, name: &Token) -> Option<usize> {
        self.defined.get(name.word).copied()
    }
}

/// The module derives, and is refused by 41 or 42.
pub fn wrong_uses(m: &Module) -> Vec<WrongUse> {
    uses::wrong(m, &Names::new(m))
}

// 12 to 15: OIDs.

enum Head {
    BuiltIn(&'static [u32]),
    Definition(usize),
}

/// The definitions with an OID whose heads reach a built-in name, each with
/// its head, in an order where a head comes before those that need it.
struct Chains {
    order: Vec<(usize, Head)>,
    reached: Vec<bool>,
}

impl Chains {
    fn new(m: &Module, names: &Names) -> Self {
        let mut chains = Chains {
            order: Vec::with_capacity(m.definitions.len()),
            reached: vec![false; m.definitions.len()],
        };
        let mut visited = vec![false; m.definitions.len()];
        for i in 0..m.definitions.len() {
            chains.follow(m, names, i, &mut visited);
        }
        chains
    }

    /// "the name leads to a definition, its value to the next name": from a
    /// definition along the heads, up to a built-in name or to a definition
    /// visited before. One visited in this same walk closes a circle and has
    /// not been reached, nor has any that leads into it.
    fn follow(&mut self, m: &Module, names: &Names, first: usize, visited: &mut [bool]) {
        let mut path = Vec::new();
        let mut at = first;
        while !visited[at] {
            visited[at] = true;
            let Some(value) = &m.definitions[at].value else {
                return;
            };
            match names.definition(&value.head) {
                Some(next) => {
                    path.push((at, Head::Definition(next)));
                    at = next;
                }
                None => {
                    let oid = symbols::built_in_oid(value.head.word);
                    let oid = oid.expect("by rules 10 and 41 a head is built in or defined");
                    path.push((at, Head::BuiltIn(oid)));
                    self.reached[at] = true;
                }
            }
        }
        if self.reached[at] {
            for (i, head) in path.into_iter().rev() {
                self.reached[i] = true;
                self.order.push((i, head));
            }
        }
    }
}

fn parts<'m>(m: &'m Module, i: usize) -> &'m [u32] {
    let value = m.definitions[i].value.as_ref();
    &value.expect("a chain is of definitions with an OID").parts
}

/// "definition whose heads never reach a built-in name"
fn headless(m: &Module, chains: &Chains) -> Option<usize> {
    let mut definitions = m.definitions.iter().zip(&chains.reached);
    definitions
        .find(|(d, reached)| d.value.is_some() && !**reached)
        .map(|(d, _)| d.name.start)
}

/// Lengths come before values: a chain of heads may be far too long to write.
fn oid_lengths(m: &Module, chains: &Chains) -> Vec<usize> {
    let mut lengths = vec![0; m.definitions.len()];
    for (i, head) in &chains.order {
        let before = match head {
            Head::BuiltIn(oid) => oid.len(),
            Head::Definition(next) => lengths[*next],
        };
        lengths[*i] = before + parts(m, *i).len();
    }
    lengths
}

/// "OID over 128 numbers"
fn oid_too_long(m: &Module, lengths: &[usize]) -> Option<usize> {
    let i = lengths.iter().position(|length| *length > LONGEST_OID)?;
    Some(m.definitions[i].name.start)
}

/// "definition with which the OID numbers pass 8,192"
fn numbers_too_many(m: &Module, lengths: &[usize]) -> Option<usize> {
    let mut total = 0;
    let i = lengths.iter().position(|length| {
        total += length;
        total > MOST_NUMBERS
    })?;
    Some(m.definitions[i].name.start)
}

/// "An OID is the head's OID followed by the parts' numbers"
fn oid_values(m: &Module, chains: &Chains) -> Vec<Vec<u32>> {
    let mut oids: Vec<Vec<u32>> = vec![Vec::new(); m.definitions.len()];
    for (i, head) in &chains.order {
        let before: &[u32] = match head {
            Head::BuiltIn(oid) => oid,
            Head::Definition(next) => &oids[*next],
        };
        oids[*i] = [before, parts(m, *i)].concat();
    }
    oids
}

/// "OID already held by an earlier definition, both of kinds 1, 3, 4, 7"
fn oid_again(m: &Module, oids: &[Vec<u32>]) -> Option<usize> {
    let mut held = HashSet::with_capacity(2 * oids.len());
    let mut definitions = m.definitions.iter().zip(oids);
    definitions
        .find(|(d, oid)| {
            let holds = matches!(
                d.kind,
                Kind::Identity | Kind::ObjectIdentity | Kind::Object | Kind::Notification
            );
            holds && !held.insert(oid.as_slice())
        })
        .map(|(d, _)| d.name.start)
}

// 16 to 19: syntaxes.

fn ranges_of<'m>(d: &'m Definition) -> &'m [Range] {
    match d.syntax.as_ref().map(|syntax| &syntax.restriction) {
        Some(Restriction::Ranges(ranges) | Restriction::Sizes(ranges)) => ranges,
        _ => &[],
    }
}

/// "any order, no number in two ranges. The place is the first range that
/// shares a number with an earlier one, or whose pair is wrong."
fn range_wrong(m: &Module) -> Option<usize> {
    let mut lists = m.definitions.iter().map(ranges_of);
    lists.find_map(first_wrong_range)
}

fn first_wrong_range(ranges: &[Range]) -> Option<usize> {
    for (i, range) in ranges.iter().enumerate() {
        if pair_is_wrong(range) || first_sharing(range, &ranges[..i]).is_some() {
            return Some(range.place);
        }
    }
    None
}

/// "a pair's first value must be below its second"; a single number is no
/// pair.
fn pair_is_wrong(range: &Range) -> bool {
    range.high.is_some_and(|high| range.low >= high)
}

/// The first of the earlier ranges that has a number in common with this one.
fn first_sharing<'r>(range: &Range, earlier: &'r [Range]) -> Option<&'r Range> {
    let (low, high) = (range.low, range.highest());
    // In both are the numbers from the higher low up to the lower high.
    earlier
        .iter()
        .find(|other| other.low.max(low) <= other.highest().min(high))
}

/// "ranges on a class other than 1, 8, 9, sizes on one other than 3, or
/// outside". "Rule 17 isn't tested in a convention that breaches 19, nor in
/// an object naming one": these have no class here.
fn range_out_of_place(m: &Module, classes: &[Option<u32>]) -> Option<usize> {
    m.definitions.iter().zip(classes).find_map(|(d, class)| {
        let class = (*class)?;
        let bounds = match d.syntax.as_ref()?.restriction {
            Restriction::Ranges(_) => range_bounds(class),
            _ => (class == 3).then_some((0, 65535)),
        };
        let outside = |range: &&Range| {
            bounds.is_none_or(|(low, high)| range.low < low || range.highest() > high)
        };
        ranges_of(d).iter().find(outside).map(|range| range.place)
    })
}

fn range_bounds(class: u32) -> Option<(i64, i64)> {
    match class {
        1 => Some((LOWEST, 2147483647)),
        8 | 9 => Some((0, HIGHEST)),
        _ => None,
    }
}

/// "label or number twice in an enum; an INTEGER's number outside class 1;
/// negative in BITS"
fn label_wrong(m: &Module) -> Option<usize> {
    m.definitions.iter().find_map(|d| {
        let syntax = d.syntax.as_ref()?;
        let Restriction::Labels(labels) = &syntax.restriction else {
            return None;
        };
        let bounds = match syntax.form {
            Form::Integer => (LOWEST, 2147483647),
            _ => (0, HIGHEST),
        };
        first_wrong_label(labels, bounds)
    })
}

fn first_wrong_label(labels: &[Label], (low, high): (i64, i64)) -> Option<usize> {
    let mut words = HashSet::with_capacity(2 * labels.len());
    let mut numbers = HashSet::with_capacity(2 * labels.len());
    for label in labels {
        let word_again = !words.insert(label.name.word);
        let number_again = !numbers.insert(label.number);
        if word_again || number_again || label.number < low || label.number > high {
            return Some(label.name.start);
        }
    }
    None
}

/// "convention whose SYNTAX name isn't one of SMI's eight types, imported"
fn convention_of_no_smi_type(m: &Module, names: &Names) -> Option<usize> {
    m.definitions.iter().find_map(|d| breach_of_19(d, names))
}

fn breach_of_19(d: &Definition, names: &Names) -> Option<usize> {
    match d.syntax.as_ref()?.form {
        Form::Name(name) if d.kind == Kind::Convention => {
            let good = symbols::smi_type(name.word).is_some() && names.is_imported(&name);
            (!good).then_some(name.start)
        }
        _ => None,
    }
}

fn classes(m: &Module, names: &Names) -> Vec<Option<u32>> {
    m.definitions
        .iter()
        .map(|d| class_of(d, m, names))
        .collect()
}

/// "a convention's name gives its class"; a convention that keeps rule 19
/// names no other convention, so this looks at one more definition at most.
fn class_of(d: &Definition, m: &Module, names: &Names) -> Option<u32> {
    let syntax = d.syntax.as_ref()?;
    match syntax.form {
        Form::Integer => match syntax.restriction {
            Restriction::Labels(_) => Some(2),
            _ => Some(1),
        },
        Form::OctetString => Some(3),
        Form::ObjectIdentifier => Some(4),
        Form::Bits => Some(5),
        Form::SequenceOf(_) => Some(TABLE),
        Form::Name(_) if breach_of_19(d, names).is_some() => None,
        Form::Name(name) => match names.definition(&name) {
            None => symbols::smi_type(name.word).or(symbols::tc_type(name.word)),
            Some(i) if m.definitions[i].kind == Kind::Sequence => Some(ROW),
            Some(i) => class_of(&m.definitions[i], m, names),
        },
    }
}

// 20 to 22: tables, access, notifications. The place is always the name of a
// definition, so the first definition in breach is the earliest place.

struct Tables<'m, 'a> {
    m: &'m Module<'a>,
    names: &'m Names<'a>,
    settled: &'m Settled,
    /// Rule 15 holds: an OID has one object at most.
    object_at: HashMap<&'m [u32], usize>,
    /// The rows of each SEQUENCE type.
    rows_of: Vec<Vec<usize>>,
    /// Pairs of a SEQUENCE type and an object that it lists.
    listed: HashSet<(usize, usize)>,
    /// Rows that have a read-create column.
    created: HashSet<usize>,
}

impl<'m, 'a> Tables<'m, 'a> {
    fn new(m: &'m Module<'a>, names: &'m Names<'a>, settled: &'m Settled) -> Self {
        let mut tables = Tables {
            m,
            names,
            settled,
            object_at: HashMap::with_capacity(2 * m.definitions.len()),
            rows_of: vec![Vec::new(); m.definitions.len()],
            listed: HashSet::new(),
            created: HashSet::new(),
        };
        for (i, d) in m.definitions.iter().enumerate() {
            if d.kind == Kind::Object {
                tables.object_at.insert(&settled.oids[i], i);
            }
            if tables.is_row(i) {
                let sequence = tables.sequence(i);
                tables.rows_of[sequence].push(i);
            }
            for column in &d.columns {
                tables.listed.insert((i, tables.object(&column.name)));
            }
        }
        for (i, d) in m.definitions.iter().enumerate() {
            if d.access == READ_CREATE {
                tables.created.extend(tables.row_above(i));
            }
        }
        tables
    }

    fn first_object(&self, breaches: impl Fn(usize) -> bool) -> Option<usize> {
        let definitions = &self.m.definitions;
        let i = (0..definitions.len())
            .find(|i| definitions[*i].kind == Kind::Object && breaches(*i))?;
        Some(definitions[i].name.start)
    }

    fn is_class(&self, i: usize, class: u32) -> bool {
        self.m.definitions[i].kind == Kind::Object && self.settled.classes[i] == Some(class)
    }

    fn is_table(&self, i: usize) -> bool {
        self.is_class(i, TABLE)
    }

    fn is_row(&self, i: usize) -> bool {
        self.is_class(i, ROW)
    }

    /// Rules 41 and 42 hold: the name is that of a definition.
    fn object(&self, name: &Token) -> usize {
        self.names.definition(name).expect("rules 41 and 42")
    }

    /// The SEQUENCE type that a table or row names.
    fn sequence(&self, i: usize) -> usize {
        match self.m.definitions[i].syntax.as_ref().map(|s| s.form) {
            Some(Form::Name(name) | Form::SequenceOf(name)) => self.object(&name),
            _ => unreachable!("only tables and rows are asked for their type"),
        }
    }

    /// The OID without its last number, and that number.
    fn split(&self, i: usize) -> (&'m [u32], u32) {
        let oid = &self.settled.oids[i];
        (&oid[..oid.len() - 1], oid[oid.len() - 1])
    }

    /// The row at whose OID plus one number this object is.
    fn row_above(&self, i: usize) -> Option<usize> {
        let above = *self.object_at.get(self.split(i).0)?;
        self.is_row(above).then_some(above)
    }

    /// Is the row at the table's OID followed by 1?
    fn stands_under(&self, row: usize, table: usize) -> bool {
        self.split(row) == (&self.settled.oids[table], 1)
    }

    fn breaches_20(&self, i: usize) -> bool {
        let d = &self.m.definitions[i];
        let indexed = !d.index.is_empty() || d.augments.is_some();
        indexed != self.is_row(i)
            || self.is_table(i) && !self.has_its_row(i)
            || self.is_row(i) && !(self.has_its_table(i) && self.has_its_columns(i))
            || self.row_above(i).is_some_and(|row| !self.lists(row, i))
            || d.augments
                .is_some_and(|name| !self.is_row_with_index(self.object(&name)))
    }

    /// "a table's SEQUENCE type has exactly one row, at the table's OID
    /// followed by 1"
    fn has_its_row(&self, table: usize) -> bool {
        match self.rows_of[self.sequence(table)][..] {
            [row] => self.stands_under(row, table),
            _ => false,
        }
    }

    /// "each row is at the OID, followed by 1, of a table of its type"
    fn has_its_table(&self, row: usize) -> bool {
        match self.object_at.get(self.split(row).0) {
            Some(&above) => {
                self.is_table(above)
                    && self.sequence(above) == self.sequence(row)
                    && self.stands_under(row, above)
            }
            None => false,
        }
    }

    /// "a row's SEQUENCE names differ and are objects at its OID plus one
    /// number"
    fn has_its_columns(&self, row: usize) -> bool {
        let mut seen = HashSet::new();
        let columns = &self.m.definitions[self.sequence(row)].columns;
        columns.iter().all(|column| {
            let object = self.object(&column.name);
            seen.insert(object) && self.split(object).0 == self.settled.oids[row]
        })
    }

    /// "each object there is listed"
    fn lists(&self, row: usize, object: usize) -> bool {
        self.listed.contains(&(self.sequence(row), object))
    }

    /// "AUGMENTS names a row with INDEX"
    fn is_row_with_index(&self, i: usize) -> bool {
        self.is_row(i) && !self.m.definitions[i].index.is_empty()
    }

    /// Rule 20 holds: the columns of a row are the objects one number below.
    fn breaches_21(&self, i: usize) -> bool {
        let d = &self.m.definitions[i];
        let row = self.row_above(i);
        let counter = self.is_class(i, 7) || self.is_class(i, 12);
        let readable = d.access == READ_ONLY || d.access == ACCESSIBLE_FOR_NOTIFY;
        (self.is_table(i) || self.is_row(i)) && d.access != NOT_ACCESSIBLE
            || d.access == READ_CREATE && row.is_none()
            || d.access == READ_WRITE && row.is_some_and(|row| self.created.contains(&row))
            || counter && (!readable || d.has_default)
    }
}

/// It is always there: a head has at least one number, since `iso` has one,
/// the other built-in names have more and a defined head has those of its own
/// head; "{ lower part part* }" asks for a part after it, which has one.
fn next_to_last(oid: &[u32]) -> u32 {
    let number = oid.iter().nth_back(1);
    *number.expect("an OID has a number of its head and one of a part")
}

/// "a notification's next-to-last number isn't 0", "or it lists a
/// not-accessible object"
fn notification_wrong(m: &Module, names: &Names, settled: &Settled) -> Option<usize> {
    let hidden = |name: &Token| {
        let object = names.definition(name);
        object.is_some_and(|i| m.definitions[i].access == NOT_ACCESSIBLE)
    };
    let wrong =
        |d: &Definition, oid: &[u32]| next_to_last(oid) != 0 || d.objects.iter().any(hidden);
    let mut definitions = m.definitions.iter().zip(&settled.oids);
    definitions
        .find(|(d, oid)| d.kind == Kind::Notification && wrong(d, oid))
        .map(|(d, _)| d.name.start)
}
