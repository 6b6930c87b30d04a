//! The grammar: one function for each printed rule. Every step looks at one
//! token and refuses it where nothing derived can have it; as every rule can
//! be completed, that token is the first after which no module begins so.

use super::tokens::{Class, Token};
use super::Refusal;

pub const MACROS: [&[u8]; 5] = [
    b"MODULE-IDENTITY",
    b"OBJECT-IDENTITY",
    b"OBJECT-TYPE",
    b"NOTIFICATION-TYPE",
    b"TEXTUAL-CONVENTION",
];

pub const STATUS_WORDS: [&[u8]; 3] = [b"current", b"deprecated", b"obsolete"];

pub const ACCESS_WORDS: [&[u8]; 5] = [
    b"not-accessible",
    b"accessible-for-notify",
    b"read-only",
    b"read-write",
    b"read-create",
];

pub struct Module<'a> {
    pub groups: Vec<Group<'a>>,
    pub definitions: Vec<Definition<'a>>,
}

pub struct Group<'a> {
    pub symbols: Vec<Token<'a>>,
    pub module: Token<'a>,
}

/// The kinds have the numbers that records give them.
#[derive(Clone, Copy, PartialEq, Eq, Debug)]
pub enum Kind {
    Identity = 1,
    Plain = 2,
    ObjectIdentity = 3,
    Object = 4,
    Convention = 5,
    Sequence = 6,
    Notification = 7,
}

pub struct Definition<'a> {
    pub kind: Kind,
    pub name: Token<'a>,
    pub macro_word: Option<Token<'a>>,
    pub value: Option<Value<'a>>,
    pub syntax: Option<Syntax<'a>>,
    pub access: u32,
    pub status: u32,
    pub index: Vec<Token<'a>>,
    pub augments: Option<Token<'a>>,
    pub has_default: bool,
    pub objects: Vec<Token<'a>>,
    pub columns: Vec<Column<'a>>,
}

impl<'a> Definition<'a> {
    fn new(kind: Kind, name: Token<'a>) -> Self {
        Definition {
            kind,
            name,
            macro_word: None,
            value: None,
            syntax: None,
            access: 0,
            status: 0,
            index: Vec::new(),
            augments: None,
            has_default: false,
            objects: Vec::new(),
            columns: Vec::new(),
        }
    }
}

/// An OID as written: the head and the numbers of the parts.
pub struct Value<'a> {
    pub head: Token<'a>,
    pub parts: Vec<u32>,
}

pub struct Column<'a> {
    pub name: Token<'a>,
    /// Only an Upper: the other types need no look-up.
    pub type_name: Option<Token<'a>>,
}

pub struct Syntax<'a> {
    pub start: usize,
    pub end: usize,
    pub form: Form<'a>,
    pub restriction: Restriction<'a>,
}

#[derive(Clone, Copy)]
pub enum Form<'a> {
    Integer,
    OctetString,
    ObjectIdentifier,
    Bits,
    Name(Token<'a>),
    SequenceOf(Token<'a>),
}

pub enum Restriction<'a> {
    None,
    Ranges(Vec<Range>),
    Sizes(Vec<Range>),
    Labels(Vec<Label<'a>>),
}

pub struct Range {
    pub place: usize,
    pub low: i64,
    /// None for a single number.
    pub high: Option<i64>,
}

impl Range {
    pub fn highest(&self) -> i64 {
        self.high.unwrap_or(self.low)
    }
}

pub struct Label<'a> {
    pub name: Token<'a>,
    pub number: i64,
}

pub fn parse<'a>(tokens: &[Token<'a>], length: usize) -> Result<Module<'a>, Refusal> {
    let mut parser = Parser {
        tokens,
        next: 0,
        length,
    };
    parser.module()
}

struct Parser<'t, 'a> {
    tokens: &'t [Token<'a>],
    next: usize,
    length: usize,
}

type Step<T> = Result<T, Refusal>;

impl<'a> Parser<'_, 'a> {
    fn peek(&self) -> Option<Token<'a>> {
        self.tokens.get(self.next).copied()
    }

    /// Refusal 7 at the token that comes next, or at the text's length where
    /// only more was missing.
    fn refused<T>(&self) -> Step<T> {
        let place = self.peek().map_or(self.length, |token| token.start);
        Err(Refusal::new(7, place))
    }

    /// Does this capital word or mark come next?
    fn sees(&self, word: &str) -> bool {
        self.peek()
            .is_some_and(|token| token.class == Class::Fixed && token.word == word.as_bytes())
    }

    fn sees_class(&self, class: Class) -> bool {
        self.peek().is_some_and(|token| token.class == class)
    }

    /// Takes a token, whatever it is.
    fn any(&mut self) -> Step<Token<'a>> {
        match self.peek() {
            Some(token) => {
                self.next += 1;
                Ok(token)
            }
            None => self.refused(),
        }
    }

    fn take(&mut self, word: &str) -> Step<Token<'a>> {
        if self.sees(word) {
            self.any()
        } else {
            self.refused()
        }
    }

    /// Takes a word or mark that may be absent; says whether it was there.
    fn takes(&mut self, word: &str) -> bool {
        let there = self.sees(word);
        self.next += usize::from(there);
        there
    }

    fn class(&mut self, class: Class) -> Step<Token<'a>> {
        if self.sees_class(class) {
            self.any()
        } else {
            self.refused()
        }
    }

    fn lower(&mut self) -> Step<Token<'a>> {
        self.class(Class::Lower)
    }

    fn upper(&mut self) -> Step<Token<'a>> {
        self.class(Class::Upper)
    }

    fn text(&mut self) -> Step<()> {
        self.class(Class::Text).map(|_| ())
    }

    /// A number of either sign.
    fn number(&mut self) -> Step<Token<'a>> {
        if self.sees_class(Class::Negative) {
            self.any()
        } else {
            self.class(Class::Number)
        }
    }

    /// One of some lower-case words; the answer counts from 1.
    fn one_of(&mut self, words: &[&[u8]]) -> Step<u32> {
        let found = self
            .peek()
            .and_then(|token| words.iter().position(|word| *word == token.word));
        match found {
            Some(position) => {
                self.next += 1;
                Ok(position as u32 + 1)
            }
            None => self.refused(),
        }
    }

    /// "x parted by commas, at least one"; ranges are parted by another mark.
    fn list<T>(&mut self, comma: &str, item: fn(&mut Self) -> Step<T>) -> Step<Vec<T>> {
        let mut items = vec![item(self)?];
        while self.takes(comma) {
            items.push(item(self)?);
        }
        Ok(items)
    }

    /// "{ list x }"
    fn braced<T>(&mut self, item: fn(&mut Self) -> Step<T>) -> Step<Vec<T>> {
        self.take("{")?;
        let items = self.list(",", item)?;
        self.take("}")?;
        Ok(items)
    }

    /// "Upper DEFINITIONS ::= BEGIN [IMPORTS group group* ;] identity def*
    /// END, then the end of the text"
    fn module(&mut self) -> Step<Module<'a>> {
        self.upper()?;
        self.take("DEFINITIONS")?;
        self.take("::=")?;
        self.take("BEGIN")?;
        let mut groups = Vec::new();
        if self.takes("IMPORTS") {
            groups.push(self.group()?);
            while !self.takes(";") {
                groups.push(self.group()?);
            }
        }
        let mut definitions = vec![self.identity()?];
        while !self.takes("END") {
            definitions.push(self.definition()?);
        }
        if self.peek().is_some() {
            return self.refused();
        }
        Ok(Module {
            groups,
            definitions,
        })
    }

    /// "list (lower, Upper or macro word) FROM Upper"
    fn group(&mut self) -> Step<Group<'a>> {
        let symbols = self.list(",", Self::symbol)?;
        self.take("FROM")?;
        let module = self.upper()?;
        Ok(Group { symbols, module })
    }

    fn symbol(&mut self) -> Step<Token<'a>> {
        let fits = self.peek().is_some_and(|token| match token.class {
            Class::Lower | Class::Upper => true,
            Class::Fixed => MACROS.contains(&token.word),
            _ => false,
        });
        if fits {
            self.any()
        } else {
            self.refused()
        }
    }

    /// "lower MODULE-IDENTITY LAST-UPDATED text ORGANIZATION text
    /// CONTACT-INFO text DESCRIPTION text (REVISION text DESCRIPTION text)*
    /// ::= oid"
    fn identity(&mut self) -> Step<Definition<'a>> {
        let mut d = Definition::new(Kind::Identity, self.lower()?);
        d.macro_word = Some(self.take("MODULE-IDENTITY")?);
        for word in [
            "LAST-UPDATED",
            "ORGANIZATION",
            "CONTACT-INFO",
            "DESCRIPTION",
        ] {
            self.take(word)?;
            self.text()?;
        }
        while self.takes("REVISION") {
            self.text()?;
            self.take("DESCRIPTION")?;
            self.text()?;
        }
        d.value = Some(self.value()?);
        Ok(d)
    }

    /// "def, six kinds"
    fn definition(&mut self) -> Step<Definition<'a>> {
        if self.sees_class(Class::Upper) {
            return self.type_definition();
        }
        let name = self.lower()?;
        if self.sees("OBJECT") {
            self.plain(name)
        } else if self.sees("OBJECT-IDENTITY") {
            self.object_identity(name)
        } else if self.sees("OBJECT-TYPE") {
            self.object(name)
        } else if self.sees("NOTIFICATION-TYPE") {
            self.notification(name)
        } else {
            self.refused()
        }
    }

    fn type_definition(&mut self) -> Step<Definition<'a>> {
        let name = self.upper()?;
        self.take("::=")?;
        if self.sees("TEXTUAL-CONVENTION") {
            self.convention(name)
        } else if self.sees("SEQUENCE") {
            self.sequence(name)
        } else {
            self.refused()
        }
    }

    /// "lower OBJECT IDENTIFIER ::= oid"
    fn plain(&mut self, name: Token<'a>) -> Step<Definition<'a>> {
        let mut d = Definition::new(Kind::Plain, name);
        self.take("OBJECT")?;
        self.take("IDENTIFIER")?;
        d.value = Some(self.value()?);
        Ok(d)
    }

    /// "lower OBJECT-IDENTITY tail ::= oid"
    fn object_identity(&mut self, name: Token<'a>) -> Step<Definition<'a>> {
        let mut d = Definition::new(Kind::ObjectIdentity, name);
        d.macro_word = Some(self.take("OBJECT-IDENTITY")?);
        d.status = self.tail()?;
        d.value = Some(self.value()?);
        Ok(d)
    }

    /// "lower OBJECT-TYPE SYNTAX syntax [UNITS text] MAX-ACCESS access tail
    /// [INDEX { ix } or AUGMENTS { lower }] [DEFVAL { value }] ::= oid"
    fn object(&mut self, name: Token<'a>) -> Step<Definition<'a>> {
        let mut d = Definition::new(Kind::Object, name);
        d.macro_word = Some(self.take("OBJECT-TYPE")?);
        self.take("SYNTAX")?;
        d.syntax = Some(self.syntax()?);
        self.optional_text("UNITS")?;
        self.take("MAX-ACCESS")?;
        d.access = self.one_of(&ACCESS_WORDS)?;
        d.status = self.tail()?;
        if self.takes("INDEX") {
            self.take("{")?;
            d.index = self.index()?;
            self.take("}")?;
        } else if self.takes("AUGMENTS") {
            self.take("{")?;
            d.augments = Some(self.lower()?);
            self.take("}")?;
        }
        if self.takes("DEFVAL") {
            d.has_default = true;
            self.take("{")?;
            self.default_value()?;
            self.take("}")?;
        }
        d.value = Some(self.value()?);
        Ok(d)
    }

    /// "lower NOTIFICATION-TYPE [OBJECTS { list lower }] tail ::= oid"
    fn notification(&mut self, name: Token<'a>) -> Step<Definition<'a>> {
        let mut d = Definition::new(Kind::Notification, name);
        d.macro_word = Some(self.take("NOTIFICATION-TYPE")?);
        if self.takes("OBJECTS") {
            d.objects = self.braced(Self::lower)?;
        }
        d.status = self.tail()?;
        d.value = Some(self.value()?);
        Ok(d)
    }

    /// "Upper ::= TEXTUAL-CONVENTION [DISPLAY-HINT text] tail SYNTAX simple"
    fn convention(&mut self, name: Token<'a>) -> Step<Definition<'a>> {
        let mut d = Definition::new(Kind::Convention, name);
        d.macro_word = Some(self.take("TEXTUAL-CONVENTION")?);
        self.optional_text("DISPLAY-HINT")?;
        d.status = self.tail()?;
        self.take("SYNTAX")?;
        d.syntax = Some(self.simple()?);
        Ok(d)
    }

    /// "Upper ::= SEQUENCE { list (lower coltype) }"
    fn sequence(&mut self, name: Token<'a>) -> Step<Definition<'a>> {
        let mut d = Definition::new(Kind::Sequence, name);
        self.take("SEQUENCE")?;
        d.columns = self.braced(Self::column)?;
        Ok(d)
    }

    /// "coltype: INTEGER, OCTET STRING, OBJECT IDENTIFIER, BITS, Upper"
    fn column(&mut self) -> Step<Column<'a>> {
        let name = self.lower()?;
        let mut type_name = None;
        if self.sees_class(Class::Upper) {
            type_name = Some(self.upper()?);
        } else if self.takes("OCTET") {
            self.take("STRING")?;
        } else if self.takes("OBJECT") {
            self.take("IDENTIFIER")?;
        } else if !self.takes("INTEGER") && !self.takes("BITS") {
            return self.refused();
        }
        Ok(Column { name, type_name })
    }

    /// "STATUS status DESCRIPTION text [REFERENCE text]"
    fn tail(&mut self) -> Step<u32> {
        self.take("STATUS")?;
        let status = self.one_of(&STATUS_WORDS)?;
        self.take("DESCRIPTION")?;
        self.text()?;
        self.optional_text("REFERENCE")?;
        Ok(status)
    }

    fn optional_text(&mut self, word: &str) -> Step<()> {
        if self.takes(word) {
            self.text()?;
        }
        Ok(())
    }

    /// "SEQUENCE OF Upper, or simple"
    fn syntax(&mut self) -> Step<Syntax<'a>> {
        if !self.sees("SEQUENCE") {
            return self.simple();
        }
        let start = self.any()?.start;
        self.take("OF")?;
        let name = self.upper()?;
        Ok(Syntax {
            start,
            end: name.end(),
            form: Form::SequenceOf(name),
            restriction: Restriction::None,
        })
    }

    /// "INTEGER [enum or ranges]; Upper [ranges or sizes]; OCTET STRING
    /// [sizes]; OBJECT IDENTIFIER; BITS enum"
    fn simple(&mut self) -> Step<Syntax<'a>> {
        let start = self.peek().map_or(self.length, |token| token.start);
        let (form, restriction) = self.form()?;
        let end = self.tokens[self.next - 1].end();
        Ok(Syntax {
            start,
            end,
            form,
            restriction,
        })
    }

    fn form(&mut self) -> Step<(Form<'a>, Restriction<'a>)> {
        if self.takes("INTEGER") {
            let restriction = if self.sees("{") {
                Restriction::Labels(self.braced(Self::label)?)
            } else if self.sees("(") {
                Restriction::Ranges(self.ranges()?)
            } else {
                Restriction::None
            };
            Ok((Form::Integer, restriction))
        } else if self.sees_class(Class::Upper) {
            let name = self.upper()?;
            Ok((Form::Name(name), self.ranges_or_sizes()?))
        } else if self.takes("OCTET") {
            self.take("STRING")?;
            Ok((Form::OctetString, self.sizes()?))
        } else if self.takes("OBJECT") {
            self.take("IDENTIFIER")?;
            Ok((Form::ObjectIdentifier, Restriction::None))
        } else if self.takes("BITS") {
            let labels = self.braced(Self::label)?;
            Ok((Form::Bits, Restriction::Labels(labels)))
        } else {
            self.refused()
        }
    }

    /// "[ranges or sizes]": both start with a bracket, the token after it
    /// decides.
    fn ranges_or_sizes(&mut self) -> Step<Restriction<'a>> {
        let after = self.tokens.get(self.next + 1);
        let numeric =
            after.is_some_and(|token| matches!(token.class, Class::Number | Class::Negative));
        if self.sees("(") && numeric {
            Ok(Restriction::Ranges(self.ranges()?))
        } else {
            self.sizes()
        }
    }

    /// "[sizes]"; "sizes: ( SIZE ranges )"
    fn sizes(&mut self) -> Step<Restriction<'a>> {
        if !self.takes("(") {
            return Ok(Restriction::None);
        }
        self.take("SIZE")?;
        let ranges = self.ranges()?;
        self.take(")")?;
        Ok(Restriction::Sizes(ranges))
    }

    /// "( r parted by | ), at least one r"
    fn ranges(&mut self) -> Step<Vec<Range>> {
        self.take("(")?;
        let ranges = self.list("|", Self::range)?;
        self.take(")")?;
        Ok(ranges)
    }

    /// "r being number or number .. number"
    fn range(&mut self) -> Step<Range> {
        let low = self.number()?;
        let high = if self.takes("..") {
            Some(self.number()?.value())
        } else {
            None
        };
        Ok(Range {
            place: low.start,
            low: low.value(),
            high,
        })
    }

    /// "lower ( number )"
    fn label(&mut self) -> Step<Label<'a>> {
        let name = self.lower()?;
        self.take("(")?;
        let number = self.number()?.value();
        self.take(")")?;
        Ok(Label { name, number })
    }

    /// "ix: lower; IMPLIED lower; or lower , ix"
    fn index(&mut self) -> Step<Vec<Token<'a>>> {
        let mut names = Vec::new();
        loop {
            if self.takes("IMPLIED") {
                names.push(self.lower()?);
                return Ok(names);
            }
            names.push(self.lower()?);
            if !self.takes(",") {
                return Ok(names);
            }
        }
    }

    /// "value: number, text, hex, lower, or { } or { list lower }"
    fn default_value(&mut self) -> Step<()> {
        if self.takes("{") {
            if !self.sees("}") {
                self.list(",", Self::lower)?;
            }
            self.take("}")?;
            return Ok(());
        }
        match self.peek().map(|token| token.class) {
            Some(Class::Number | Class::Negative | Class::Text | Class::Hex | Class::Lower) => {
                self.any().map(|_| ())
            }
            _ => self.refused(),
        }
    }

    /// "::= oid"; "oid: { lower part part* }"
    fn value(&mut self) -> Step<Value<'a>> {
        self.take("::=")?;
        self.take("{")?;
        let head = self.lower()?;
        let mut parts = vec![self.part()?];
        while !self.takes("}") {
            parts.push(self.part()?);
        }
        Ok(Value { head, parts })
    }

    /// "part being a number or lower ( number ); the numbers not negative"
    fn part(&mut self) -> Step<u32> {
        if !self.sees_class(Class::Lower) {
            return Ok(self.class(Class::Number)?.value() as u32);
        }
        self.lower()?;
        self.take("(")?;
        let number = self.class(Class::Number)?.value() as u32;
        self.take(")")?;
        Ok(number)
    }
}
