//! What a module defines.

use std::fmt::{self, Display, Formatter};
use std::slice::ChunksExact;

use crate::numbered::numbered;
use crate::{read, Reading, Refusal, NUMBER_WORDS, RECORD_WORDS};

numbered! {
    /// What a definition is.
    Kind {
        1 Identity "identity",
        /// An OBJECT IDENTIFIER and nothing else.
        2 Plain "plain OID",
        3 ObjectIdentity "object identity",
        4 Object "object",
        5 Convention "textual convention",
        6 Sequence "SEQUENCE type",
        7 Notification "notification",
    }
}

numbered! {
    /// What the values of an object or a convention are.
    Class {
        1 Integer "integer",
        2 Enumerated "enumerated INTEGER",
        3 Octets "octets",
        4 Oid "OID",
        5 Bits "BITS",
        6 IpAddress "IpAddress",
        7 Counter32 "Counter32",
        8 Gauge32 "Gauge32",
        9 Unsigned32 "Unsigned32",
        10 TimeTicks "TimeTicks",
        11 Opaque "Opaque",
        12 Counter64 "Counter64",
        13 Table "table",
        14 Row "row",
    }
}

numbered! {
    /// The MAX-ACCESS of an object.
    Access {
        1 NotAccessible "not-accessible",
        2 AccessibleForNotify "accessible-for-notify",
        3 ReadOnly "read-only",
        4 ReadWrite "read-write",
        5 ReadCreate "read-create",
    }
}

numbered! {
    /// The STATUS of a definition.
    Status {
        1 Current "current",
        2 Deprecated "deprecated",
        3 Obsolete "obsolete",
    }
}

/// What a module is read into: the words of its records and of its OIDs, 52 KiB. Each module is read over the one before.
#[derive(Debug, Clone)]
pub struct Buffers {
    records: [u32; RECORD_WORDS],
    numbers: [u32; NUMBER_WORDS],
}

impl Buffers {
    pub const fn new() -> Self {
        Self { records: [0; RECORD_WORDS], numbers: [0; NUMBER_WORDS] }
    }
}

impl Default for Buffers {
    fn default() -> Self {
        Self::new()
    }
}

/// A module that was accepted. It borrows its text and the buffers.
#[derive(Debug, Clone, Copy)]
pub struct Module<'a> {
    text: &'a [u8],
    /// The words of the definitions alone, without the zeros behind them.
    records: &'a [u32],
    numbers: &'a [u32],
}

impl<'a> Module<'a> {
    /// Reads a module's text, any bytes. A refusal has a number from 2 to 22, but not 11,
    /// or is 41 or 42: the buffers are never too short for 1.
    pub fn read(text: &'a [u8], buffers: &'a mut Buffers) -> Result<Self, Refusal> {
        match read(text, &mut buffers.records, &mut buffers.numbers) {
            Reading::Accepted { count } => {
                Ok(Self { text, records: &buffers.records[..count * word::WIDTH], numbers: &buffers.numbers })
            }
            Reading::Refused { number, place } => Err(Refusal { number, place }),
        }
    }

    /// The definitions, in text order.
    pub fn definitions(&self) -> Definitions<'a> {
        Definitions { module: *self, records: self.records.chunks_exact(word::WIDTH) }
    }

    fn definition(&self, record: &[u32]) -> Definition<'a> {
        let syntax = self.bytes(record, word::SYNTAX_OFFSET);
        Definition {
            kind: Kind::of(record[word::KIND]).expect("a record has one of seven kinds"),
            name: std::str::from_utf8(self.bytes(record, word::NAME_OFFSET)).expect("a name is ASCII"),
            place: record[word::NAME_OFFSET] as usize,
            oid: Oid { numbers: part(self.numbers, record, word::OID_FIRST) },
            syntax: (!syntax.is_empty()).then_some(syntax),
            access: Access::of(record[word::ACCESS]),
            status: Status::of(record[word::STATUS]),
            class: Class::of(record[word::CLASS]),
        }
    }

    fn bytes(&self, record: &[u32], first: usize) -> &'a [u8] {
        part(self.text, record, first)
    }
}

impl<'a> IntoIterator for &Module<'a> {
    type Item = Definition<'a>;
    type IntoIter = Definitions<'a>;

    fn into_iter(self) -> Definitions<'a> {
        self.definitions()
    }
}

/// The part of a text or buffer that two words of a record give: where it starts, and then how long it is.
fn part<'a, T>(whole: &'a [T], record: &[u32], first: usize) -> &'a [T] {
    &whole[record[first] as usize..][..record[first + 1] as usize]
}

/// The definitions of a module, in text order.
#[derive(Debug, Clone)]
pub struct Definitions<'a> {
    module: Module<'a>,
    records: ChunksExact<'a, u32>,
}

impl<'a> Iterator for Definitions<'a> {
    type Item = Definition<'a>;

    fn next(&mut self) -> Option<Definition<'a>> {
        self.records.next().map(|record| self.module.definition(record))
    }

    fn size_hint(&self) -> (usize, Option<usize>) {
        self.records.size_hint()
    }
}

impl DoubleEndedIterator for Definitions<'_> {
    fn next_back(&mut self) -> Option<Self::Item> {
        self.records.next_back().map(|record| self.module.definition(record))
    }
}

impl ExactSizeIterator for Definitions<'_> {}

/// A definition, with `None` for what it does not have.
#[derive(Debug, Clone, Copy, PartialEq, Eq)]
pub struct Definition<'a> {
    pub kind: Kind,
    pub name: &'a str,
    /// The byte of the text at which the name starts.
    pub place: usize,
    /// Without a number for a type.
    pub oid: Oid<'a>,
    /// Of objects and conventions: the syntax without the word SYNTAX. A comment in it may hold any bytes.
    pub syntax: Option<&'a [u8]>,
    /// Of objects.
    pub access: Option<Access>,
    /// Of all but identities, plain OIDs and SEQUENCE types.
    pub status: Option<Status>,
    /// Of objects and conventions.
    pub class: Option<Class>,
}

/// The numbers of an OID; a type has none.
#[derive(Debug, Clone, Copy, PartialEq, Eq, Hash)]
pub struct Oid<'a> {
    pub numbers: &'a [u32],
}

/// With dots between the numbers, or - where there are none, as on a card.
impl Display for Oid<'_> {
    fn fmt(&self, f: &mut Formatter<'_>) -> fmt::Result {
        let Some((first, rest)) = self.numbers.split_first() else {
            return f.write_str("-");
        };
        write!(f, "{first}")?;
        rest.iter().try_for_each(|number| write!(f, ".{number}"))
    }
}

/// The words of a record.
mod word {
    /// So many words a record.
    pub const WIDTH: usize = 10;
    pub const KIND: usize = 0;
    /// And the name's length behind it; so for the OID and the syntax.
    pub const NAME_OFFSET: usize = 1;
    pub const OID_FIRST: usize = 3;
    pub const SYNTAX_OFFSET: usize = 5;
    pub const ACCESS: usize = 7;
    pub const STATUS: usize = 8;
    pub const CLASS: usize = 9;
}
