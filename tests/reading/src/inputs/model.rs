//! A module as the generator holds it while it makes and edits one: what
//! stands in each clause, before it is written out as words.

pub type Name = Vec<u8>;

pub struct Model {
    pub name: Name,
    pub groups: Vec<Group>,
    /// The identity comes first.
    pub definitions: Vec<Definition>,
}

pub struct Group {
    pub symbols: Vec<Name>,
    pub module: Name,
}

#[derive(Clone, Copy, PartialEq, Eq)]
pub enum Kind {
    Identity,
    Plain,
    ObjectIdentity,
    Object,
    Convention,
    Sequence,
    Notification,
}

pub struct Definition {
    pub kind: Kind,
    pub name: Name,
    pub head: Name,
    pub parts: Vec<Part>,
    /// Where the maker has put it; edits need not keep it up.
    pub oid: Vec<u32>,
    pub syntax: Syntax,
    /// The class that the syntax had when it was made.
    pub class: u32,
    pub access: &'static [u8],
    pub status: &'static [u8],
    pub index: Vec<Name>,
    /// Before which name of INDEX the word IMPLIED stands.
    pub implied: Option<usize>,
    pub augments: Option<Name>,
    /// The words between the braces of DEFVAL; none without the clause.
    pub default: Vec<Name>,
    pub objects: Vec<Name>,
    pub columns: Vec<Column>,
}

pub struct Part {
    pub label: Option<Name>,
    pub number: i64,
}

pub struct Column {
    pub name: Name,
    pub type_name: Base,
}

#[derive(Clone)]
pub struct Syntax {
    pub base: Base,
    pub restriction: Restriction,
}

#[derive(Clone)]
pub enum Base {
    Integer,
    OctetString,
    ObjectIdentifier,
    Bits,
    Name(Name),
    SequenceOf(Name),
}

pub type Range = (i64, Option<i64>);

#[derive(Clone)]
pub enum Restriction {
    None,
    Ranges(Vec<Range>),
    Sizes(Vec<Range>),
    Labels(Vec<(Name, i64)>),
}

impl Syntax {
    pub fn bare(base: Base) -> Self {
        Syntax {
            base,
            restriction: Restriction::None,
        }
    }
}

pub const ACCESS_WORDS: [&str; 5] = [
    "not-accessible",
    "accessible-for-notify",
    "read-only",
    "read-write",
    "read-create",
];

pub const STATUS_WORDS: [&str; 3] = ["current", "deprecated", "obsolete"];

impl Definition {
    pub fn new(kind: Kind, name: Name) -> Self {
        Definition {
            kind,
            name,
            head: b"iso".to_vec(),
            parts: Vec::new(),
            oid: Vec::new(),
            syntax: Syntax::bare(Base::Integer),
            class: 0,
            access: b"read-only",
            status: b"current",
            index: Vec::new(),
            implied: None,
            augments: None,
            default: Vec::new(),
            objects: Vec::new(),
            columns: Vec::new(),
        }
    }

    /// A plain definition below a head.
    pub fn plain(name: Name, head: &[u8], numbers: &[u32]) -> Self {
        let mut d = Definition::new(Kind::Plain, name);
        d.set_value(head, numbers);
        d
    }

    pub fn set_value(&mut self, head: &[u8], numbers: &[u32]) {
        self.head = head.to_vec();
        self.parts = numbers.iter().map(|n| Part::bare(*n)).collect();
    }

    pub fn has_oid(&self) -> bool {
        !matches!(self.kind, Kind::Convention | Kind::Sequence)
    }

    pub fn has_syntax(&self) -> bool {
        matches!(self.kind, Kind::Object | Kind::Convention)
    }

    pub fn is_table(&self) -> bool {
        self.kind == Kind::Object && self.class == 13
    }

    pub fn is_row(&self) -> bool {
        self.kind == Kind::Object && self.class == 14
    }

    /// An object or convention whose syntax may be exchanged for another.
    pub fn is_simple(&self) -> bool {
        self.has_syntax() && !self.is_table() && !self.is_row()
    }

    pub fn is_column_of(&self, row: &Definition) -> bool {
        self.kind == Kind::Object && self.oid.split_last().is_some_and(|(_, oid)| oid == row.oid)
    }
}

impl Part {
    pub fn bare(number: u32) -> Self {
        Part {
            label: None,
            number: i64::from(number),
        }
    }
}

/// The symbols of the two modules, by what they are.
pub const OID_SYMBOLS: [&str; 16] = [
    "org",
    "dod",
    "internet",
    "directory",
    "mgmt",
    "experimental",
    "private",
    "security",
    "snmpV2",
    "mib-2",
    "transmission",
    "enterprises",
    "snmpDomains",
    "snmpProxys",
    "snmpModules",
    "zeroDotZero",
];

pub const SMI_TYPES: [&str; 8] = [
    "Integer32",
    "IpAddress",
    "Counter32",
    "Gauge32",
    "Unsigned32",
    "TimeTicks",
    "Opaque",
    "Counter64",
];

pub const TC_TYPES: [&str; 16] = [
    "DisplayString",
    "PhysAddress",
    "MacAddress",
    "DateAndTime",
    "TAddress",
    "TestAndIncr",
    "TimeInterval",
    "TruthValue",
    "RowStatus",
    "StorageType",
    "AutonomousType",
    "InstancePointer",
    "VariablePointer",
    "RowPointer",
    "TDomain",
    "TimeStamp",
];

pub const SMI_MACROS: [&str; 4] = [
    "MODULE-IDENTITY",
    "OBJECT-IDENTITY",
    "OBJECT-TYPE",
    "NOTIFICATION-TYPE",
];

pub const TC_MACRO: &str = "TEXTUAL-CONVENTION";
