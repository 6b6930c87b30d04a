//! A module written out: the model as words, damage to words, and the words
//! as a text with blanks and comments of every kind.

use super::model::*;
use super::rng::Rng;

/// Words as spans of one run of bytes, so that they are cheap to move.
pub struct Words {
    bytes: Vec<u8>,
    pub spans: Vec<(usize, usize)>,
}

impl Words {
    pub fn new() -> Self {
        Words {
            bytes: Vec::with_capacity(4096),
            spans: Vec::with_capacity(1024),
        }
    }

    /// Keeps a word's bytes without adding it to the words.
    pub fn keep(&mut self, word: &[u8]) -> (usize, usize) {
        let start = self.bytes.len();
        self.bytes.extend_from_slice(word);
        (start, self.bytes.len())
    }

    pub fn push(&mut self, word: &[u8]) {
        let span = self.keep(word);
        self.spans.push(span);
    }

    pub fn word(&self, i: usize) -> &[u8] {
        let (start, end) = self.spans[i];
        &self.bytes[start..end]
    }

    fn all(&mut self, words: &[&str]) {
        for word in words {
            self.push(word.as_bytes());
        }
    }

    fn number(&mut self, number: i64) {
        self.push(number.to_string().as_bytes());
    }

    fn list(&mut self, names: &[Name]) {
        for (i, name) in names.iter().enumerate() {
            if i > 0 {
                self.push(b",");
            }
            self.push(name);
        }
    }
}

impl Default for Words {
    fn default() -> Self {
        Words::new()
    }
}

pub fn words(rng: &mut Rng, model: &Model) -> Words {
    let mut w = Words::new();
    w.push(&model.name);
    w.all(&["DEFINITIONS", "::=", "BEGIN"]);
    if !model.groups.is_empty() {
        w.push(b"IMPORTS");
        for group in &model.groups {
            w.list(&group.symbols);
            w.push(b"FROM");
            w.push(&group.module);
        }
        w.push(b";");
    }
    for d in &model.definitions {
        definition(&mut w, rng, d);
    }
    w.push(b"END");
    w
}

fn definition(w: &mut Words, rng: &mut Rng, d: &Definition) {
    w.push(&d.name);
    match d.kind {
        Kind::Identity => {
            w.push(b"MODULE-IDENTITY");
            for word in [
                "LAST-UPDATED",
                "ORGANIZATION",
                "CONTACT-INFO",
                "DESCRIPTION",
            ] {
                described(w, rng, word);
            }
            for _ in 0..*rng.one(&[0, 0, 1, 3]) {
                described(w, rng, "REVISION");
                described(w, rng, "DESCRIPTION");
            }
        }
        Kind::Plain => w.all(&["OBJECT", "IDENTIFIER"]),
        Kind::ObjectIdentity => {
            w.push(b"OBJECT-IDENTITY");
            tail(w, rng, d);
        }
        Kind::Object => object(w, rng, d),
        Kind::Convention => {
            w.all(&["::=", "TEXTUAL-CONVENTION"]);
            if rng.chance(30) {
                w.push(b"DISPLAY-HINT");
                w.push(rng.word(&["\"255a\"", "\"1x:\"", "\"d-2\"", "\"*1d.:1d\"", "\"?\""]));
            }
            tail(w, rng, d);
            w.push(b"SYNTAX");
            syntax(w, &d.syntax);
        }
        Kind::Sequence => {
            w.all(&["::=", "SEQUENCE", "{"]);
            for (i, column) in d.columns.iter().enumerate() {
                if i > 0 {
                    w.push(b",");
                }
                w.push(&column.name);
                base(w, &column.type_name);
            }
            w.push(b"}");
        }
        Kind::Notification => {
            w.push(b"NOTIFICATION-TYPE");
            if !d.objects.is_empty() {
                w.all(&["OBJECTS", "{"]);
                w.list(&d.objects);
                w.push(b"}");
            }
            tail(w, rng, d);
        }
    }
    if d.has_oid() {
        value(w, d);
    }
}

fn object(w: &mut Words, rng: &mut Rng, d: &Definition) {
    w.all(&["OBJECT-TYPE", "SYNTAX"]);
    syntax(w, &d.syntax);
    if rng.chance(10) {
        described(w, rng, "UNITS");
    }
    w.push(b"MAX-ACCESS");
    w.push(d.access);
    tail(w, rng, d);
    if !d.index.is_empty() {
        w.all(&["INDEX", "{"]);
        for (i, name) in d.index.iter().enumerate() {
            if i > 0 {
                w.push(b",");
            }
            if d.implied == Some(i) {
                w.push(b"IMPLIED");
            }
            w.push(name);
        }
        w.push(b"}");
    }
    if let Some(name) = &d.augments {
        w.all(&["AUGMENTS", "{"]);
        w.push(name);
        w.push(b"}");
    }
    if !d.default.is_empty() {
        w.all(&["DEFVAL", "{"]);
        for word in &d.default {
            w.push(word);
        }
        w.push(b"}");
    }
}

fn tail(w: &mut Words, rng: &mut Rng, d: &Definition) {
    w.push(b"STATUS");
    w.push(d.status);
    described(w, rng, "DESCRIPTION");
    if rng.chance(10) {
        described(w, rng, "REFERENCE");
    }
}

/// A capital word and any text.
fn described(w: &mut Words, rng: &mut Rng, word: &str) {
    w.push(word.as_bytes());
    match rng.below(10) {
        0..=5 => w.push(rng.word(&["\"\"", "\"a b\"", "\"200001010000Z\"", "\"--\"", "\"'{\""])),
        6..=8 => {
            let span = w.keep(b"\"");
            for _ in 0..rng.below(4) + 1 {
                w.keep(rng.word(&["some", "text ", "\n", " of", "\r\n", "\t", " it", "END"]));
            }
            let (_, end) = w.keep(b"\"");
            w.spans.push((span.0, end));
        }
        _ => {
            let (start, _) = w.keep(b"\"");
            for _ in 0..rng.below(30) {
                let byte = 32 + rng.below(95) as u8;
                w.keep(&[if byte == b'"' { b'\t' } else { byte }]);
            }
            let (_, end) = w.keep(b"\"");
            w.spans.push((start, end));
        }
    }
}

fn base(w: &mut Words, base: &Base) {
    match base {
        Base::Integer => w.push(b"INTEGER"),
        Base::OctetString => w.all(&["OCTET", "STRING"]),
        Base::ObjectIdentifier => w.all(&["OBJECT", "IDENTIFIER"]),
        Base::Bits => w.push(b"BITS"),
        Base::Name(name) => w.push(name),
        Base::SequenceOf(name) => {
            w.all(&["SEQUENCE", "OF"]);
            w.push(name);
        }
    }
}

fn syntax(w: &mut Words, syntax: &Syntax) {
    base(w, &syntax.base);
    match &syntax.restriction {
        Restriction::None => {}
        Restriction::Ranges(list) => ranges(w, list),
        Restriction::Sizes(list) => {
            w.all(&["(", "SIZE"]);
            ranges(w, list);
            w.push(b")");
        }
        Restriction::Labels(labels) => {
            w.push(b"{");
            for (i, (label, number)) in labels.iter().enumerate() {
                if i > 0 {
                    w.push(b",");
                }
                w.push(label);
                w.push(b"(");
                w.number(*number);
                w.push(b")");
            }
            w.push(b"}");
        }
    }
}

fn ranges(w: &mut Words, ranges: &[Range]) {
    w.push(b"(");
    for (i, (low, high)) in ranges.iter().enumerate() {
        if i > 0 {
            w.push(b"|");
        }
        w.number(*low);
        if let Some(high) = high {
            w.push(b"..");
            w.number(*high);
        }
    }
    w.push(b")");
}

fn value(w: &mut Words, d: &Definition) {
    w.all(&["::=", "{"]);
    w.push(&d.head);
    for part in &d.parts {
        if let Some(label) = &part.label {
            w.push(label);
            w.push(b"(");
            w.number(part.number);
            w.push(b")");
        } else {
            w.number(part.number);
        }
    }
    w.push(b"}");
}

/// How words are set apart.
#[derive(Clone, Copy, PartialEq, Eq)]
enum Style {
    Plain,
    Tight,
    Odd,
}

/// The words as a text.
pub fn joined(rng: &mut Rng, words: &Words) -> Vec<u8> {
    let style = *rng.one(&[Style::Plain, Style::Plain, Style::Tight, Style::Odd]);
    let mut text = Vec::with_capacity(words.bytes.len() + 2 * words.spans.len() + 64);
    for i in 0..words.spans.len() {
        let word = words.word(i);
        let apart = match (text.last(), word.first()) {
            (Some(before), Some(after)) => is_word_byte(*before) && is_word_byte(*after),
            _ => false,
        };
        match style {
            Style::Plain => text.push(if rng.below(8) == 0 { b'\n' } else { b' ' }),
            Style::Tight if apart => text.push(b' '),
            Style::Odd if apart || rng.chance(30) => gap(rng, &mut text),
            _ => {}
        }
        text.extend_from_slice(word);
    }
    text.extend(rng.word(&["\n", "", " ", "-- end", "\n-- end\n", "----", "--"]));
    text
}

fn is_word_byte(byte: u8) -> bool {
    byte.is_ascii_alphanumeric() || byte == b'-'
}

fn gap(rng: &mut Rng, text: &mut Vec<u8>) {
    let before = text.len();
    if rng.chance(25) {
        if rng.chance(50) {
            text.push(b' ');
        }
        comment(rng, text);
    }
    if rng.chance(80) || text.len() == before {
        text.extend(rng.word(&[
            " ", "  ", "\n", "\t", "\r\n", "\x0b", "\x0c", "\r", "\n\n   ",
        ]));
    }
}

fn comment(rng: &mut Rng, text: &mut Vec<u8>) {
    text.extend(b"--");
    let inside = [
        "x", " ", "\t", "\"", "'", "-a", "\0", "\u{e9}", "\x0b", "END", "::=", "{", "\x0c", "\x7f",
    ];
    for _ in 0..rng.below(6) {
        text.extend(rng.word(&inside));
    }
    if rng.chance(10) {
        text.push(128 + rng.byte() % 128);
    }
    text.extend(rng.word(&["--", "--", "\n", "\r", "-\r\n", "-\n", " --"]));
}
