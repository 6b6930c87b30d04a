//! Uses of names: what is needed where a name stands, what the name is, and
//! the uses where the two do not agree, which are refused by 41 or 42.

use super::{symbols, Definition, Form, Kind, Module, Names, Token};
use crate::modules::grammar::MACROS;

/// What a name must be, by where it stands: "macro, type (SEQUENCE types in
/// objects only), OID head; an object in INDEX, AUGMENTS, OBJECTS, SEQUENCE; a
/// SEQUENCE type after OF. DEFVAL names aren't looked up".
#[derive(Clone, Copy, PartialEq, Eq, Debug)]
pub enum Need {
    Macro,
    ConventionType,
    ObjectType,
    ColumnType,
    Head,
    Index,
    Augments,
    Objects,
    Sequence,
    Of,
}

impl Need {
    pub fn word(self) -> &'static str {
        match self {
            Need::Macro => "macro",
            Need::ConventionType => "convention-type",
            Need::ObjectType => "object-type",
            Need::ColumnType => "column-type",
            Need::Head => "head",
            Need::Index => "INDEX",
            Need::Augments => "AUGMENTS",
            Need::Objects => "OBJECTS",
            Need::Sequence => "SEQUENCE",
            Need::Of => "OF",
        }
    }
}

/// What a name is. The module's own name is none of these by itself: it is no
/// definition.
#[derive(Clone, Copy, PartialEq, Eq, Debug)]
pub enum Meaning {
    Unknown,
    Iso,
    Defined(Kind),
    ImportedOid,
    ImportedType,
    ImportedMacro,
}

impl Meaning {
    fn of(name: &Token, m: &Module, names: &Names) -> Self {
        if name.word == b"iso" {
            return Meaning::Iso;
        }
        match names.definition(name) {
            Some(i) => Meaning::Defined(m.definitions[i].kind),
            None if names.is_imported(name) => Meaning::of_symbol(name.word),
            None => Meaning::Unknown,
        }
    }

    /// Of a symbol that one of the two modules offers; by rule 10 that is so
    /// of all that are imported.
    fn of_symbol(symbol: &[u8]) -> Self {
        if MACROS.contains(&symbol) {
            Meaning::ImportedMacro
        } else if symbols::built_in_oid(symbol).is_some() {
            Meaning::ImportedOid
        } else {
            Meaning::ImportedType
        }
    }

    fn serves(self, need: Need) -> bool {
        match need {
            Need::Macro => self == Meaning::ImportedMacro,
            Need::ConventionType | Need::ColumnType => self.is_type(),
            Need::ObjectType => self.is_type() || self == Meaning::Defined(Kind::Sequence),
            Need::Head => self.has_oid(),
            Need::Index | Need::Augments | Need::Objects | Need::Sequence => {
                self == Meaning::Defined(Kind::Object)
            }
            Need::Of => self == Meaning::Defined(Kind::Sequence),
        }
    }

    fn is_type(self) -> bool {
        matches!(
            self,
            Meaning::ImportedType | Meaning::Defined(Kind::Convention)
        )
    }

    fn has_oid(self) -> bool {
        match self {
            Meaning::Iso | Meaning::ImportedOid => true,
            Meaning::Defined(kind) => !matches!(kind, Kind::Convention | Kind::Sequence),
            _ => false,
        }
    }

    pub fn word(self) -> &'static str {
        match self {
            Meaning::Unknown => "unknown",
            Meaning::Iso => "iso",
            Meaning::Defined(Kind::Identity) => "identity",
            Meaning::Defined(Kind::Plain) => "plain",
            Meaning::Defined(Kind::ObjectIdentity) => "object-identity",
            Meaning::Defined(Kind::Object) => "object",
            Meaning::Defined(Kind::Convention) => "convention",
            Meaning::Defined(Kind::Sequence) => "sequence",
            Meaning::Defined(Kind::Notification) => "notification",
            Meaning::ImportedOid => "imported-oid",
            Meaning::ImportedType => "imported-type",
            Meaning::ImportedMacro => "imported-macro",
        }
    }
}

pub struct Use<'a> {
    pub name: Token<'a>,
    need: Need,
}

impl Use<'_> {
    /// The module that offers a symbol of this name, if that would do here.
    fn offer(&self) -> Option<&'static str> {
        let word = self.name.word;
        let module = [symbols::SMI, symbols::TC]
            .into_iter()
            .find(|module| symbols::is_offered(module, word))?;
        let serves = Meaning::of_symbol(word).serves(self.need);
        let module = std::str::from_utf8(module).expect("the modules' names are ASCII");
        serves.then_some(module)
    }
}

/// A use of a name that is not known, or of another kind than is needed.
#[derive(Clone, Copy, PartialEq, Eq, Debug)]
pub struct WrongUse {
    pub place: usize,
    pub need: Need,
    pub is: Meaning,
    /// Only for a name that is not known.
    pub offer: Option<&'static str>,
}

impl WrongUse {
    /// "41 where the name is neither defined nor imported, nor `iso`, 42 where
    /// it is known but of another kind"
    pub fn number(&self) -> u32 {
        match self.is {
            Meaning::Unknown => 41,
            _ => 42,
        }
    }

    pub fn line(&self) -> String {
        let (need, is) = (self.need.word(), self.is.word());
        let offer = self.offer.unwrap_or("-");
        format!("{}\t{}\t{need}\t{is}\t{offer}", self.number(), self.place)
    }
}

/// All wrong uses in text order.
pub fn wrong(m: &Module, names: &Names) -> Vec<WrongUse> {
    let uses = m.definitions.iter().flat_map(of);
    uses.filter_map(|used| judged(&used, m, names)).collect()
}

fn judged(used: &Use, m: &Module, names: &Names) -> Option<WrongUse> {
    let is = Meaning::of(&used.name, m, names);
    if is.serves(used.need) {
        return None;
    }
    let offer = match is {
        Meaning::Unknown => used.offer(),
        _ => None,
    };
    Some(WrongUse {
        place: used.name.start,
        need: used.need,
        is,
        offer,
    })
}

/// The uses in a definition, in the order in which the grammar has them.
pub fn of<'a>(d: &Definition<'a>) -> Vec<Use<'a>> {
    let mut uses = Vec::new();
    let mut add = |need: Need, name: &Token<'a>| uses.push(Use { name: *name, need });
    if let Some(word) = &d.macro_word {
        add(Need::Macro, word);
    }
    match d.syntax.as_ref().map(|syntax| syntax.form) {
        Some(Form::SequenceOf(name)) => add(Need::Of, &name),
        Some(Form::Name(name)) if d.kind == Kind::Convention => add(Need::ConventionType, &name),
        Some(Form::Name(name)) => add(Need::ObjectType, &name),
        _ => {}
    }
    for name in &d.index {
        add(Need::Index, name);
    }
    if let Some(name) = &d.augments {
        add(Need::Augments, name);
    }
    for name in &d.objects {
        add(Need::Objects, name);
    }
    for column in &d.columns {
        add(Need::Sequence, &column.name);
        if let Some(name) = &column.type_name {
            add(Need::ColumnType, name);
        }
    }
    if let Some(value) = &d.value {
        add(Need::Head, &value.head);
    }
    uses
}
