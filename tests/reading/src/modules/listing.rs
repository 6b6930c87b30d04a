//! Tokens as lines, and the grammar over classes alone.

use super::grammar::{self, ACCESS_WORDS, STATUS_WORDS};
use super::tokens::{tokens, Class, Token};
use super::{Refusal, LONGEST_TEXT};

/// A line for each token, its start, end and class with tabs between, and a
/// last one, `derived` or the refusal. A text that does not cut has that alone.
pub fn listing(text: &[u8]) -> String {
    if text.len() > LONGEST_TEXT {
        return refused(Refusal::new(2, 0));
    }
    let found = match tokens(text) {
        Ok(found) => found,
        Err(refusal) => return refused(refusal),
    };
    let mut lines = String::new();
    for token in &found {
        lines += &format!("{}\t{}\t{}\n", token.start, token.end(), class_of(token));
    }
    match grammar::parse(&found, text.len()) {
        Ok(_) => lines + "derived\n",
        Err(refusal) => lines + &refused(refusal),
    }
}

fn refused(refusal: Refusal) -> String {
    format!("refused\t{}\t{}\n", refusal.number, refusal.place)
}

/// A capital word or a mark is its own class.
fn class_of<'a>(token: &Token<'a>) -> &'a str {
    match token.class {
        Class::Upper => "Upper",
        Class::Lower => "lower",
        Class::Number | Class::Negative => "number",
        Class::Text => "text",
        Class::Hex => "hex",
        Class::Fixed => std::str::from_utf8(token.word).expect("words and marks are ASCII"),
    }
}

/// The index of the first class with which nothing derived goes on, or their
/// number where only more is missing; None where they are derived. A word of
/// status or access is a class too, beside `negative` and those of a listing.
pub fn fault(classes: &[&str]) -> Option<usize> {
    let found: Vec<Token> = classes
        .iter()
        .enumerate()
        .map(|(start, class)| token_of(start, class))
        .collect();
    grammar::parse(&found, found.len())
        .err()
        .map(|refusal| refusal.place)
}

/// A token of the class, which starts at its index.
fn token_of(start: usize, class: &str) -> Token<'_> {
    let word = class.as_bytes();
    let (class, word): (Class, &[u8]) = match class {
        "Upper" => (Class::Upper, b"A"),
        "lower" => (Class::Lower, b"a"),
        "number" => (Class::Number, b"1"),
        "negative" => (Class::Negative, b"-1"),
        "text" => (Class::Text, b"\"\""),
        "hex" => (Class::Hex, b"''H"),
        _ if STATUS_WORDS.contains(&word) || ACCESS_WORDS.contains(&word) => (Class::Lower, word),
        _ => (Class::Fixed, word),
    };
    Token { start, word, class }
}
