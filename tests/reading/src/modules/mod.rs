//! A reading of the module rules, made from the paper and change requests
//! No. 1, No. 2 and No. 8 alone: the answer for any text and any lengths of
//! the two lent buffers. Comments in quotation marks are the papers' words.

mod grammar;
mod listing;
mod rules;
pub mod symbols;
pub mod tokens;

pub use listing::{fault, listing};
pub use rules::WrongUse;

use grammar::{Definition, Module};
use rules::Settled;

pub const RECORD_WORDS: usize = 5120;
pub const NUMBER_WORDS: usize = 8192;
pub const LONGEST_TEXT: usize = 65536;

#[derive(Clone, Copy, PartialEq, Eq, Debug)]
pub struct Refusal {
    pub number: u32,
    pub place: usize,
}

impl Refusal {
    pub fn new(number: u32, place: usize) -> Self {
        Refusal { number, place }
    }
}

/// Number 0 is accepted. The words are those that are written; the rest of
/// the working part is 0, except after 1 and 2, which change nothing.
#[derive(Clone, PartialEq, Eq, Debug, Default)]
pub struct Answer {
    pub number: u32,
    pub place: usize,
    pub count: usize,
    pub records: Vec<u32>,
    pub numbers: Vec<u32>,
}

impl Answer {
    /// "1 and 2 change nothing"
    pub fn changes_nothing(&self) -> bool {
        self.number == 1 || self.number == 2
    }
}

pub fn read(text: &[u8], record_words: usize, number_words: usize) -> Answer {
    match accepted(text, record_words, number_words) {
        Ok(answer) => answer,
        Err(refusal) => Answer {
            number: refusal.number,
            place: refusal.place,
            ..Answer::default()
        },
    }
}

fn accepted(text: &[u8], record_words: usize, number_words: usize) -> Result<Answer, Refusal> {
    if record_words < RECORD_WORDS || number_words < NUMBER_WORDS {
        return Err(Refusal::new(1, 0));
    }
    if text.len() > LONGEST_TEXT {
        return Err(Refusal::new(2, 0));
    }
    let found = tokens::tokens(text)?;
    let module = grammar::parse(&found, text.len())?;
    let settled = rules::judge(&module)?;
    Ok(answer(&module, &settled))
}

fn answer(module: &Module, settled: &Settled) -> Answer {
    let mut records = Vec::with_capacity(10 * module.definitions.len());
    let mut numbers = Vec::new();
    for (i, d) in module.definitions.iter().enumerate() {
        let oid = &settled.oids[i];
        let class = settled.classes[i].unwrap_or(0);
        records.extend(record(d, oid, numbers.len(), class));
        numbers.extend(oid);
    }
    Answer {
        number: 0,
        place: 0,
        count: module.definitions.len(),
        records,
        numbers,
    }
}

/// "Ten words each"; "Absent fields ... are 0": a definition without OID has
/// no first index either.
fn record(d: &Definition, oid: &[u32], first: usize, class: u32) -> [u32; 10] {
    let syntax = d.syntax.as_ref();
    [
        d.kind as u32,
        d.name.start as u32,
        d.name.word.len() as u32,
        if oid.is_empty() { 0 } else { first as u32 },
        oid.len() as u32,
        syntax.map_or(0, |syntax| syntax.start as u32),
        syntax.map_or(0, |syntax| (syntax.end - syntax.start) as u32),
        d.access,
        d.status,
        class,
    ]
}

/// The number and place of a text, and the place of the other one where the
/// refusal is about two things.
pub fn other(text: &[u8]) -> (u32, usize, Option<usize>) {
    let answer = read(text, RECORD_WORDS, NUMBER_WORDS);
    let refusal = Refusal::new(answer.number, answer.place);
    let found = match answer.number {
        8.. => tokens::tokens(text).and_then(|found| {
            let module = grammar::parse(&found, text.len())?;
            Ok(rules::other(&module, refusal))
        }),
        _ => Ok(None),
    };
    (answer.number, answer.place, found.unwrap_or(None))
}

/// Of a text that is refused by 41 or 42 all uses that are, in text order: the
/// first is the one that refuses it. Of any other text none.
pub fn wrong_uses(text: &[u8]) -> Vec<WrongUse> {
    let answer = read(text, RECORD_WORDS, NUMBER_WORDS);
    let found = match answer.number {
        41 | 42 => tokens::tokens(text).and_then(|found| {
            let module = grammar::parse(&found, text.len())?;
            Ok(rules::wrong_uses(&module))
        }),
        _ => Ok(Vec::new()),
    };
    found.unwrap_or_default()
}

/// A line for the use that refuses a text by 41 or 42, with tabs between:
/// number, place, what is needed, what the name is, and the module that offers
/// it or `-`. The line `-` for any other text.
pub fn wrong_use(text: &[u8]) -> String {
    let line = wrong_uses(text).first().map(WrongUse::line);
    line.unwrap_or("-".to_string()) + "\n"
}

/// The shelf card: "one record a line, tabs between: `accepted` and the
/// count, then kind, name, dotted OID or `-`, class, access, status; or
/// `refused`, number, place".
pub fn card(text: &[u8]) -> String {
    let answer = read(text, RECORD_WORDS, NUMBER_WORDS);
    if answer.number != 0 {
        return format!("refused\t{}\t{}\n", answer.number, answer.place);
    }
    let mut card = format!("accepted\t{}\n", answer.count);
    for record in answer.records.chunks(10) {
        let word = |i: usize| record[i] as usize;
        let name = String::from_utf8_lossy(&text[word(1)..word(1) + word(2)]);
        let oid: Vec<String> = answer.numbers[word(3)..word(3) + word(4)]
            .iter()
            .map(u32::to_string)
            .collect();
        let oid = if oid.is_empty() {
            "-".to_string()
        } else {
            oid.join(".")
        };
        card += &format!(
            "{}\t{}\t{}\t{}\t{}\t{}\n",
            record[0], name, oid, record[9], record[7], record[8]
        );
    }
    card
}
