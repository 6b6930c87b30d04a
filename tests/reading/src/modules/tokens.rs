//! Tokens: a text cut from the left into blanks, comments and tokens, or the
//! refusal 3 to 6 of the leftmost token that cannot be cut.

use super::Refusal;

/// What a token is. `Fixed` is a capital word of the grammar or a mark; which
/// one is told by its bytes.
#[derive(Clone, Copy, PartialEq, Eq, Debug)]
pub enum Class {
    Upper,
    Lower,
    Number,
    Negative,
    Text,
    Hex,
    Fixed,
}

#[derive(Clone, Copy, PartialEq, Eq, Debug)]
pub struct Token<'a> {
    pub start: usize,
    pub word: &'a [u8],
    pub class: Class,
}

impl Token<'_> {
    pub fn end(&self) -> usize {
        self.start + self.word.len()
    }

    /// The value of a number. The tokenizer has seen to its range.
    pub fn value(&self) -> i64 {
        let digits = self.word.strip_prefix(b"-").unwrap_or(self.word);
        let magnitude = decimal(digits);
        if self.class == Class::Negative {
            -magnitude
        } else {
            magnitude
        }
    }
}

pub const LOWEST: i64 = -2147483648;
pub const HIGHEST: i64 = 4294967295;

const LONGEST_NAME: usize = 64;

pub fn tokens(text: &[u8]) -> Result<Vec<Token<'_>>, Refusal> {
    let mut found = Vec::with_capacity(text.len() / 4);
    let mut at = 0;
    while at < text.len() {
        if is_blank(text[at]) {
            at += 1;
        } else if text[at..].starts_with(b"--") {
            at = comment_end(text, at);
        } else {
            let token = token_at(text, at)?;
            at = token.end();
            found.push(token);
        }
    }
    Ok(found)
}

/// "Blank: 9 to 13 and 32."
fn is_blank(byte: u8) -> bool {
    matches!(byte, 9..=13 | 32)
}

/// "A comment starts at two hyphens and ends with the next two, before byte
/// 10 or 13, or at the text's end; any other bytes may stand in it."
fn comment_end(text: &[u8], start: usize) -> usize {
    let mut at = start + 2;
    while at < text.len() {
        if text[at] == 10 || text[at] == 13 {
            return at;
        }
        if text[at..].starts_with(b"--") {
            return at + 2;
        }
        at += 1;
    }
    at
}

fn token_at(text: &[u8], at: usize) -> Result<Token<'_>, Refusal> {
    match text[at] {
        b'A'..=b'Z' | b'a'..=b'z' => name_at(text, at),
        b'-' | b'0'..=b'9' => number_at(text, at),
        b'"' => text_at(text, at),
        b'\'' => hex_at(text, at),
        _ => mark_at(text, at),
    }
}

fn token(text: &[u8], start: usize, end: usize, class: Class) -> Token<'_> {
    Token {
        start,
        word: &text[start..end],
        class,
    }
}

/// "a letter, then letters, digits, and hyphens that a letter or digit
/// follows; longest reading. At most 64 bytes."
fn name_at(text: &[u8], at: usize) -> Result<Token<'_>, Refusal> {
    let continues = |at: usize| text.get(at).is_some_and(|b| b.is_ascii_alphanumeric());
    let mut end = at + 1;
    while continues(end) || text.get(end) == Some(&b'-') && continues(end + 1) {
        end += 1;
    }
    if end - at > LONGEST_NAME {
        return Err(Refusal::new(5, at));
    }
    let class = if text[at].is_ascii_lowercase() {
        Class::Lower
    } else if is_capital_word(&text[at..end]) {
        Class::Fixed
    } else {
        Class::Upper
    };
    Ok(token(text, at, end, class))
}

/// The capital words that the grammar prints.
pub fn is_capital_word(word: &[u8]) -> bool {
    matches!(
        word,
        b"DEFINITIONS"
            | b"BEGIN"
            | b"IMPORTS"
            | b"END"
            | b"FROM"
            | b"MODULE-IDENTITY"
            | b"LAST-UPDATED"
            | b"ORGANIZATION"
            | b"CONTACT-INFO"
            | b"DESCRIPTION"
            | b"REVISION"
            | b"OBJECT"
            | b"IDENTIFIER"
            | b"OBJECT-IDENTITY"
            | b"OBJECT-TYPE"
            | b"SYNTAX"
            | b"UNITS"
            | b"MAX-ACCESS"
            | b"INDEX"
            | b"AUGMENTS"
            | b"DEFVAL"
            | b"NOTIFICATION-TYPE"
            | b"OBJECTS"
            | b"TEXTUAL-CONVENTION"
            | b"DISPLAY-HINT"
            | b"SEQUENCE"
            | b"STATUS"
            | b"REFERENCE"
            | b"OF"
            | b"INTEGER"
            | b"OCTET"
            | b"STRING"
            | b"BITS"
            | b"SIZE"
            | b"IMPLIED"
    )
}

/// "0, or digits without leading zero, longest reading; a hyphen directly
/// before a nonzero number makes it negative." "A run of several digits that
/// starts with 0, or any directly before a letter, is no token."
fn number_at(text: &[u8], at: usize) -> Result<Token<'_>, Refusal> {
    let negative = text[at] == b'-';
    let first = at + usize::from(negative);
    let mut end = first;
    while text.get(end).is_some_and(u8::is_ascii_digit) {
        end += 1;
    }
    let digits = &text[first..end];
    let well_formed = match digits {
        [] => false,
        [b'0'] => !negative,
        [first, ..] => *first != b'0',
    };
    if !well_formed || text.get(end).is_some_and(u8::is_ascii_alphabetic) {
        return Err(Refusal::new(3, at));
    }
    let highest = if negative { -LOWEST } else { HIGHEST };
    if digits.len() > 10 || decimal(digits) > highest {
        return Err(Refusal::new(6, at));
    }
    let class = if negative {
        Class::Negative
    } else {
        Class::Number
    };
    Ok(token(text, at, end, class))
}

/// The value of at most ten decimal digits.
fn decimal(digits: &[u8]) -> i64 {
    digits
        .iter()
        .fold(0, |value, digit| value * 10 + i64::from(digit - b'0'))
}

/// "a quote, bytes 9, 10, 13, 32 to 126 except the quote (34), a quote. A
/// forbidden byte in it comes before a missing end quote."
fn text_at(text: &[u8], at: usize) -> Result<Token<'_>, Refusal> {
    let mut end = at + 1;
    while end < text.len() {
        match text[end] {
            b'"' => return Ok(token(text, at, end + 1, Class::Text)),
            9 | 10 | 13 | 32..=126 => end += 1,
            _ => return Err(Refusal::new(4, end)),
        }
    }
    Err(Refusal::new(3, at))
}

/// "`'`, digits 0-9 A-F a-f or none, `'`, H"
fn hex_at(text: &[u8], at: usize) -> Result<Token<'_>, Refusal> {
    let mut end = at + 1;
    while text.get(end).is_some_and(u8::is_ascii_hexdigit) {
        end += 1;
    }
    if !text[end..].starts_with(b"'H") {
        return Err(Refusal::new(3, at));
    }
    Ok(token(text, at, end + 2, Class::Hex))
}

fn mark_at(text: &[u8], at: usize) -> Result<Token<'_>, Refusal> {
    let rest = &text[at..];
    let length = match rest[0] {
        b'{' | b'}' | b'(' | b')' | b',' | b';' | b'|' => 1,
        b'.' if rest.starts_with(b"..") => 2,
        b':' if rest.starts_with(b"::=") => 3,
        _ => return Err(Refusal::new(3, at)),
    };
    Ok(token(text, at, at + length, Class::Fixed))
}
