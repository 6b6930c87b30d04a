//! Makes random modules that, but for rare accidents, the paper accepts:
//! every construct of the grammar occurs. Names and OIDs differ because each
//! takes the next number of a counter.

use super::lists;
use super::model::*;
use super::rng::Rng;
use crate::modules::symbols;

const WORDS: [&str; 24] = [
    "a", "i", "if", "in", "eth", "row", "col", "link", "name", "last", "up", "down", "speed",
    "port", "node", "user", "count", "time", "flag", "mode", "peer", "group", "oct-et", "b-2c",
];

/// Names that look like words with a meaning, and names of one byte.
const LOWER_TRAPS: [&str; 24] = [
    "current",
    "deprecated",
    "obsolete",
    "not-accessible",
    "accessible-for-notify",
    "read-only",
    "read-write",
    "read-create",
    "org",
    "mib-2",
    "internet",
    "enterprises",
    "zeroDotZero",
    "snmpModules",
    "end",
    "iso1",
    "iso-0",
    "is",
    "isO",
    "x",
    "y",
    "z",
    "integer",
    "implied",
];

const UPPER_TRAPS: [&str; 22] = [
    "H",
    "F",
    "MACRO",
    "TRUE",
    "Integer32",
    "Gauge32",
    "Counter64",
    "TimeTicks",
    "DisplayString",
    "RowStatus",
    "SNMPv2-SMI",
    "SIZE1",
    "END1",
    "Size",
    "OF-A",
    "OBJECT-TYPES",
    "INTEGER32",
    "Bits",
    "EN",
    "SEQUENC",
    "BITS-1",
    "Iso",
];

const BIG_NUMBERS: [u32; 10] = [
    0, 127, 128, 255, 256, 65535, 65536, 2147483647, 2147483648, 4294967295,
];

pub struct Maker<'r> {
    rng: &'r mut Rng,
    counter: u32,
    imported: Vec<&'static [u8]>,
    /// Names of symbols that this module gives another meaning.
    blocked: Vec<&'static [u8]>,
    definitions: Vec<Definition>,
    /// The columns' types in SEQUENCE need not be those of the objects.
    loose_columns: bool,
}

/// A module of about so many definitions.
pub fn module(rng: &mut Rng, size: usize) -> Model {
    let loose_columns = rng.chance(5);
    let maker = Maker {
        rng,
        counter: 0,
        imported: Vec::with_capacity(24),
        blocked: Vec::new(),
        definitions: Vec::with_capacity(size + 16),
        loose_columns,
    };
    maker.make(size)
}

pub fn upper_first(mut name: Name) -> Name {
    name[0] = name[0].to_ascii_uppercase();
    name
}

impl Maker<'_> {
    fn make(mut self, size: usize) -> Model {
        let identity = self.identity();
        self.definitions.push(identity);
        while self.definitions.len() < size {
            match self.rng.below(20) {
                0..=3 => self.convention(),
                4..=7 => self.plain(),
                8 => self.object_identity(),
                9..=13 => self.scalar(),
                14..=15 => self.notification(),
                16 => self.unused_sequence(),
                _ => self.tables(),
            }
        }
        if self.rng.chance(70) {
            self.rng.shuffle(&mut self.definitions[1..]);
        }
        let name = self.upper_name();
        Model {
            name,
            groups: self.groups(),
            definitions: self.definitions,
        }
    }

    // Names and imports.

    fn count(&mut self) -> u32 {
        self.counter += 1;
        self.counter
    }

    fn trap(&mut self, traps: &[&'static str]) -> Option<Name> {
        let trap = self.rng.word(traps);
        if self.imported.contains(&trap) || self.blocked.contains(&trap) {
            return None;
        }
        self.blocked.push(trap);
        Some(trap.to_vec())
    }

    fn counted_name(&mut self) -> Name {
        let mut name = self.rng.word(&WORDS).to_vec();
        for _ in 0..self.rng.below(3) {
            if self.rng.chance(15) {
                name.push(b'-');
            }
            name.extend(self.rng.word(&WORDS));
        }
        if self.rng.chance(3) {
            while name.len() < 57 + self.rng.below(5) {
                name.extend(self.rng.word(&["o", "Z", "7", "-k"]));
            }
        }
        if self.rng.chance(20) {
            name.push(b'-');
        }
        name.extend(self.count().to_string().as_bytes());
        name
    }

    fn lower_name(&mut self) -> Name {
        if self.rng.chance(4) {
            if let Some(name) = self.trap(&LOWER_TRAPS) {
                return name;
            }
        }
        self.counted_name()
    }

    fn upper_name(&mut self) -> Name {
        if self.rng.chance(5) {
            if let Some(name) = self.trap(&UPPER_TRAPS) {
                return name;
            }
        }
        upper_first(self.counted_name())
    }

    /// A label: the same name may be another's, or one with a meaning.
    fn label(&mut self) -> Name {
        match self.rng.below(8) {
            0 => self.rng.word(&LOWER_TRAPS).to_vec(),
            1 => self.rng.one(&self.definitions).name.to_ascii_lowercase(),
            _ => self.counted_name(),
        }
    }

    /// Imports a symbol, unless its name has another meaning here.
    fn import(&mut self, symbol: &'static str) -> bool {
        let symbol = symbol.as_bytes();
        if self.blocked.contains(&symbol) {
            return false;
        }
        if !self.imported.contains(&symbol) {
            self.imported.push(symbol);
        }
        true
    }

    /// IMPORTS in groups, with some symbols nobody needs.
    fn groups(&mut self) -> Vec<Group> {
        for _ in 0..self.rng.below(4) {
            let lists: [&[&'static str]; 4] = [&OID_SYMBOLS, &SMI_TYPES, &TC_TYPES, &SMI_MACROS];
            let list = *self.rng.one(&lists);
            let symbol = *self.rng.one(list);
            self.import(symbol);
        }
        let mut groups = Vec::new();
        let mut symbols = std::mem::take(&mut self.imported);
        self.rng.shuffle(&mut symbols);
        for module in [symbols::SMI, symbols::TC] {
            let mut group = Vec::new();
            for symbol in &symbols {
                if symbols::is_offered(module, symbol) {
                    group.push(symbol.to_vec());
                    if self.rng.chance(15) {
                        groups.push(self.group(&mut group, module));
                    }
                }
            }
            if !group.is_empty() {
                groups.push(self.group(&mut group, module));
            }
        }
        self.rng.shuffle(&mut groups);
        groups
    }

    fn group(&mut self, symbols: &mut Vec<Name>, module: &[u8]) -> Group {
        Group {
            symbols: std::mem::take(symbols),
            module: module.to_vec(),
        }
    }

    // OIDs.

    fn number(&mut self) -> u32 {
        match self.rng.below(10) {
            0 => *self.rng.one(&BIG_NUMBERS),
            1 => self.rng.below(100000) as u32,
            _ => 2 + self.rng.below(40) as u32,
        }
    }

    /// A number that no other OID ends in.
    fn last_number(&mut self) -> u32 {
        let count = 50 + self.count();
        match self.rng.below(12) {
            0 => 4294967295 - count,
            1 => 70000 + count,
            _ => count,
        }
    }

    /// A name to stand first in an OID, with that name's OID.
    fn head(&mut self) -> (Name, Vec<u32>) {
        if self.rng.chance(75) {
            for _ in 0..4 {
                let Some(d) = self.definitions.get(self.rng.below(20)) else {
                    continue;
                };
                if d.has_oid() && d.oid.len() < 100 {
                    return (d.name.clone(), d.oid.clone());
                }
            }
        }
        let symbol = *self.rng.one(&OID_SYMBOLS);
        if self.rng.chance(60) && self.import(symbol) {
            let oid = symbols::built_in_oid(symbol.as_bytes());
            return (symbol.as_bytes().to_vec(), oid.unwrap_or(&[]).to_vec());
        }
        (b"iso".to_vec(), vec![1])
    }

    /// Gives a definition a place of its own, with these last numbers.
    fn place(&mut self, d: &mut Definition, last: &[u32]) {
        let (head, oid) = self.head();
        let mut numbers = Vec::with_capacity(10);
        // An object directly below some row would have to be listed there.
        let more = usize::from(d.kind == Kind::Object);
        let count = *self.rng.one(&[0, 0, 0, 0, 1, 1, 2, 8]);
        for _ in 0..count.max(more) {
            numbers.push(self.number().max(2));
        }
        numbers.extend(last);
        self.set_value(d, head, oid, &numbers);
    }

    fn set_value(&mut self, d: &mut Definition, head: Name, mut oid: Vec<u32>, numbers: &[u32]) {
        oid.extend(numbers);
        d.oid = oid;
        d.head = head;
        for number in numbers {
            let label = self.rng.chance(12).then(|| self.label());
            d.parts.push(Part {
                label,
                number: i64::from(*number),
            });
        }
    }

    // Syntaxes, each with its class.

    fn ranges(&mut self, low: i64, high: i64) -> Vec<Range> {
        let near_low = low.max(-50);
        let mut points: Vec<i64> = (0..self.rng.below(6) + 1)
            .map(|_| self.rng.between(near_low, high.min(300)))
            .collect();
        if self.rng.chance(25) {
            points.push(low);
        }
        if self.rng.chance(25) {
            points.push(high);
        }
        if self.rng.chance(10) {
            points.push(self.rng.between(low, high));
        }
        points.sort_unstable();
        points.dedup();
        let mut ranges = Vec::new();
        let mut points = points.into_iter();
        while let Some(first) = points.next() {
            let pair = self.rng.chance(60);
            ranges.push((first, if pair { points.next() } else { None }));
        }
        lists::reorder(self.rng, &mut ranges);
        ranges
    }

    fn labels(&mut self, low: i64, high: i64) -> Vec<(Name, i64)> {
        let mut number = self.rng.between(low.max(-3), 3);
        let mut labels: Vec<(Name, i64)> = Vec::new();
        for _ in 0..self.rng.below(5) + 1 {
            let label = self.label();
            if labels.iter().all(|(other, _)| *other != label) {
                labels.push((label, number));
                number += self.rng.between(1, 4);
            }
        }
        if self.rng.chance(10) {
            labels[0].1 = *self.rng.one(&[low, high]);
        }
        self.rng.shuffle(&mut labels);
        labels
    }

    fn restriction(&mut self, class: u32) -> Restriction {
        if self.rng.chance(50) {
            return Restriction::None;
        }
        match class {
            1 => Restriction::Ranges(self.ranges(-2147483648, 2147483647)),
            8 | 9 => Restriction::Ranges(self.ranges(0, 4294967295)),
            3 => Restriction::Sizes(self.ranges(0, 65535)),
            _ => Restriction::None,
        }
    }

    /// What an object and a convention may both have.
    fn base_syntax(&mut self) -> (Syntax, u32) {
        let (base, restriction, class) = match self.rng.below(8) {
            0 => (Base::Integer, self.restriction(1), 1),
            1 => {
                let labels = self.labels(-2147483648, 2147483647);
                (Base::Integer, Restriction::Labels(labels), 2)
            }
            2 => (Base::OctetString, self.restriction(3), 3),
            3 => (Base::ObjectIdentifier, Restriction::None, 4),
            4 => {
                let labels = self.labels(0, 4294967295);
                (Base::Bits, Restriction::Labels(labels), 5)
            }
            _ => return self.imported_syntax(&SMI_TYPES),
        };
        (Syntax { base, restriction }, class)
    }

    fn imported_syntax(&mut self, types: &[&'static str]) -> (Syntax, u32) {
        let name = *self.rng.one(types);
        if !self.import(name) {
            return (Syntax::bare(Base::Integer), 1);
        }
        let name = name.as_bytes();
        let class = symbols::smi_type(name).or(symbols::tc_type(name));
        self.named_syntax(name.to_vec(), class.unwrap_or(1))
    }

    fn named_syntax(&mut self, name: Name, class: u32) -> (Syntax, u32) {
        let restriction = self.restriction(class);
        let base = Base::Name(name);
        (Syntax { base, restriction }, class)
    }

    fn object_syntax(&mut self) -> (Syntax, u32) {
        if self.rng.chance(20) {
            return self.imported_syntax(&TC_TYPES);
        }
        if self.rng.chance(40) {
            let d = self.rng.one(&self.definitions);
            if d.kind == Kind::Convention {
                let (name, class) = (d.name.clone(), d.class);
                return self.named_syntax(name, class);
            }
        }
        self.base_syntax()
    }

    // Definitions.

    fn identity(&mut self) -> Definition {
        self.import("MODULE-IDENTITY");
        // Labels are taken from the definitions, so one must be there.
        let first = Definition::new(Kind::Plain, b"first".to_vec());
        self.definitions.push(first);
        let mut d = Definition::new(Kind::Identity, self.lower_name());
        let last = self.last_number();
        self.definitions.clear();
        let (head, oid) = self.head();
        d.oid = [oid.as_slice(), &[last]].concat();
        d.set_value(&head, &[last]);
        d
    }

    fn status(&mut self) -> &'static [u8] {
        self.rng.word(&STATUS_WORDS)
    }

    /// Plain names may share the place of another definition.
    fn plain(&mut self) {
        let mut d = Definition::new(Kind::Plain, self.lower_name());
        if self.rng.chance(15) {
            let other = self.rng.one(&self.definitions);
            if other.has_oid() && other.oid[0] == 1 {
                d.set_value(b"iso", &other.oid[1..]);
                d.oid = other.oid.clone();
                self.definitions.push(d);
                return;
            }
        }
        let last = self.last_number();
        self.place(&mut d, &[last]);
        self.definitions.push(d);
    }

    fn object_identity(&mut self) {
        self.import("OBJECT-IDENTITY");
        let mut d = Definition::new(Kind::ObjectIdentity, self.lower_name());
        d.status = self.status();
        let last = self.last_number();
        self.place(&mut d, &[last]);
        self.definitions.push(d);
    }

    fn convention(&mut self) {
        self.import(TC_MACRO);
        let mut d = Definition::new(Kind::Convention, self.upper_name());
        d.status = self.status();
        (d.syntax, d.class) = self.base_syntax();
        self.definitions.push(d);
    }

    fn default_value(&mut self) -> Vec<Name> {
        match self.rng.below(9) {
            0 => vec![self.rng.between(-9, 99).to_string().into_bytes()],
            1 => vec![self
                .rng
                .word(&["-2147483648", "4294967295", "0", "-1"])
                .to_vec()],
            2 => vec![self
                .rng
                .word(&["\"\"", "\"a b\"", "\"--\"", "\"{'\""])
                .to_vec()],
            3 => vec![self
                .rng
                .word(&["''H", "'0'H", "'0aF'H", "'C0A80101'H", "'deadBEEF00'H"])
                .to_vec()],
            4 | 5 => vec![self.label()],
            6 => vec![b"{".to_vec(), b"}".to_vec()],
            7 => vec![b"{".to_vec(), self.label(), b"}".to_vec()],
            _ => vec![
                b"{".to_vec(),
                self.label(),
                b",".to_vec(),
                self.label(),
                b"}".to_vec(),
            ],
        }
    }

    /// All of an object but its access, its place and its index.
    fn object(&mut self, name: Name, (syntax, class): (Syntax, u32)) -> Definition {
        self.import("OBJECT-TYPE");
        let mut d = Definition::new(Kind::Object, name);
        d.syntax = syntax;
        d.class = class;
        d.status = self.status();
        if class != 7 && class != 12 && self.rng.chance(20) {
            d.default = self.default_value();
        }
        d
    }

    fn access(&mut self, class: u32, allowed: &[&'static str]) -> &'static [u8] {
        if class == 7 || class == 12 {
            return self.rng.word(&["read-only", "accessible-for-notify"]);
        }
        self.rng.word(allowed)
    }

    fn scalar(&mut self) {
        let name = self.lower_name();
        let syntax = self.object_syntax();
        let mut d = self.object(name, syntax);
        d.access = self.access(d.class, &ACCESS_WORDS[..4]);
        let last = self.last_number();
        self.place(&mut d, &[last]);
        self.definitions.push(d);
    }

    fn notification(&mut self) {
        self.import("NOTIFICATION-TYPE");
        let mut d = Definition::new(Kind::Notification, self.lower_name());
        d.status = self.status();
        for _ in 0..self.rng.below(4) {
            let other = self.rng.one(&self.definitions);
            if other.kind == Kind::Object && other.access != b"not-accessible" {
                d.objects.push(other.name.clone());
            }
        }
        let last = [0, self.last_number()];
        self.place(&mut d, &last);
        self.definitions.push(d);
    }

    /// A table, and others that augment its row.
    fn tables(&mut self) {
        let row = self.table(None);
        for _ in 0..*self.rng.one(&[0, 0, 0, 1, 2]) {
            self.table(Some(row.clone()));
        }
    }

    /// A table, its row, its SEQUENCE type and its columns, written in
    /// several ways; the answer is the row's name.
    fn table(&mut self, augmented: Option<Name>) -> Name {
        let table_name = self.lower_name();
        let row_name = self.lower_name();
        let type_name = match self.rng.chance(50) {
            true => upper_first(row_name.clone()),
            false => self.upper_name(),
        };
        let of = Syntax::bare(Base::SequenceOf(type_name.clone()));
        let mut table = self.object(table_name.clone(), (of, 13));
        table.access = b"not-accessible";
        let last = self.last_number();
        self.place(&mut table, &[last]);

        let named = Syntax::bare(Base::Name(type_name.clone()));
        let mut row = self.object(row_name.clone(), (named, 14));
        row.access = b"not-accessible";
        self.set_value(&mut row, table_name.clone(), table.oid.clone(), &[1]);
        if self.rng.chance(20) {
            row.head = table.head.clone();
            let parts = table.parts.iter().map(|p| Part::bare(p.number as u32));
            row.parts = parts.chain([Part::bare(1)]).collect();
        }

        let mut sequence = Definition::new(Kind::Sequence, type_name);
        let columns = self.columns(&table, &row);
        for column in &columns {
            sequence.columns.push(self.listed(column));
        }
        self.rng.shuffle(&mut sequence.columns);
        if augmented.is_some() {
            row.augments = augmented;
        } else {
            self.index(&mut row, &columns);
        }
        self.definitions.extend([table, row, sequence]);
        self.definitions.extend(columns);
        row_name
    }

    fn columns(&mut self, table: &Definition, row: &Definition) -> Vec<Definition> {
        let written = ["not-accessible", "read-only", "read-write"];
        let created = ["accessible-for-notify", "read-only", "read-create"];
        let allowed = if self.rng.chance(50) {
            written
        } else {
            created
        };
        let mut number = self.rng.below(3) as u32;
        let mut columns = Vec::new();
        for _ in 0..self.rng.below(6) + 1 {
            let name = self.lower_name();
            let syntax = self.object_syntax();
            let mut column = self.object(name, syntax);
            column.access = self.access(column.class, &allowed);
            if self.rng.chance(80) {
                self.set_value(&mut column, row.name.clone(), row.oid.clone(), &[number]);
            } else {
                let oid = table.oid.clone();
                self.set_value(&mut column, table.name.clone(), oid, &[1, number]);
            }
            columns.push(column);
            number += 1 + self.rng.below(3) as u32;
        }
        columns
    }

    /// A column in its SEQUENCE: its syntax without restriction.
    fn listed(&mut self, column: &Definition) -> Column {
        let loose = [
            Base::Integer,
            Base::OctetString,
            Base::ObjectIdentifier,
            Base::Bits,
        ];
        let type_name = if self.loose_columns {
            self.rng.one(&loose).clone()
        } else {
            column.syntax.base.clone()
        };
        Column {
            name: column.name.clone(),
            type_name,
        }
    }

    fn index(&mut self, row: &mut Definition, columns: &[Definition]) {
        for _ in 0..self.rng.below(3) + 1 {
            row.index.push(self.rng.one(columns).name.clone());
        }
        if self.rng.chance(10) {
            let other = self.rng.one(&self.definitions);
            if other.kind == Kind::Object {
                row.index.push(other.name.clone());
            }
        }
        if self.rng.chance(20) {
            row.implied = Some(row.index.len() - 1);
        }
    }

    /// A SEQUENCE type without table; its names may be any objects.
    fn unused_sequence(&mut self) {
        let mut d = Definition::new(Kind::Sequence, self.upper_name());
        for _ in 0..self.rng.below(6) {
            let other = self.rng.one(&self.definitions);
            if other.kind == Kind::Object && other.is_simple() {
                let name = other.name.clone();
                let type_name = Base::Integer;
                d.columns.push(Column { name, type_name });
            }
        }
        if !d.columns.is_empty() {
            self.definitions.push(d);
        }
    }
}
