//! Damage below the model: to words, aimed at the refusals 3 to 7, and to
//! the bytes of a text, aimed at nothing.

use super::rng::Rng;
use super::words::Words;

const STRAY_WORDS: [&str; 45] = [
    "::=",
    "..",
    "{",
    "}",
    "(",
    ")",
    ",",
    ";",
    "|",
    "0",
    "5",
    "-5",
    "\"\"",
    "'0F'H",
    "x",
    "X",
    "current",
    "read-only",
    "MODULE-IDENTITY",
    "OBJECT-IDENTITY",
    "OBJECT-TYPE",
    "NOTIFICATION-TYPE",
    "TEXTUAL-CONVENTION",
    "DEFINITIONS",
    "BEGIN",
    "IMPORTS",
    "END",
    "FROM",
    "DESCRIPTION",
    "REVISION",
    "OBJECT",
    "IDENTIFIER",
    "SYNTAX",
    "UNITS",
    "MAX-ACCESS",
    "INDEX",
    "AUGMENTS",
    "DEFVAL",
    "SEQUENCE",
    "STATUS",
    "OF",
    "INTEGER",
    "BITS",
    "SIZE",
    "IMPLIED",
];

const NO_TOKENS: [&str; 34] = [
    "_", "!", ".", ":", "-", "&", "\0", "\u{e9}", "'", "=", "::", "...", ":=", "[", "\x7f", "/",
    "- 1", "`", "\x0e", "-0", "00", "1a", "-01", "0x1", "007", "1.5", "1E", "'0F'h", "'0G'H",
    "'0F'", "'0F' H", "'0F", "'-'H", "\"",
];

const LIMITS: [&str; 15] = [
    "4294967295",
    "4294967296",
    "-2147483648",
    "-2147483649",
    "4294967300",
    "10000000000",
    "9999999999",
    "2147483648",
    "-4294967296",
    "99999999999999999999",
    "-10000000000",
    "18446744073709551617",
    "8589934592",
    "-1",
    "0",
];

/// One edit of the words.
pub fn words(rng: &mut Rng, words: &mut Words) {
    let i = rng.below(words.spans.len());
    match rng.below(14) {
        0 => {
            words.spans.remove(i);
        }
        1 => words.spans.insert(i, words.spans[i]),
        2 => {
            let other = (i + 1).min(words.spans.len() - 1);
            words.spans.swap(i, other);
        }
        3 => {
            let other = rng.below(words.spans.len());
            words.spans[i] = words.spans[other];
        }
        4 | 5 => put(rng, words, i, STRAY_WORDS.as_slice()),
        6 => {
            let length = 1 + rng.below(words.spans.len());
            words.spans.truncate(length);
        }
        7 => {
            let stray = words.keep(rng.word(&STRAY_WORDS));
            words.spans.push(stray);
        }
        8 => put(rng, words, i, NO_TOKENS.as_slice()),
        9 => forbidden_byte(rng, words),
        10 => long_name(rng, words),
        11 => {
            if let Some(i) = some(rng, words, |word| {
                word[0].is_ascii_digit() || word[0] == b'-'
            }) {
                words.spans[i] = limit(rng, words);
            }
        }
        12 => broken_number(rng, words),
        _ => clause_moved(rng, words, i),
    }
}

/// A word of the list in the place of another, or before it.
fn put(rng: &mut Rng, words: &mut Words, i: usize, list: &[&'static str]) {
    let new = words.keep(rng.word(list));
    if rng.chance(50) {
        words.spans[i] = new;
    } else {
        words.spans.insert(i, new);
    }
}

fn some(rng: &mut Rng, words: &Words, fits: impl Fn(&[u8]) -> bool) -> Option<usize> {
    let first = rng.below(words.spans.len());
    let count = words.spans.len();
    (first..count).chain(0..first).find(|i| {
        let word = words.word(*i);
        !word.is_empty() && fits(word)
    })
}

fn limit(rng: &mut Rng, words: &mut Words) -> (usize, usize) {
    if rng.chance(90) {
        return words.keep(rng.word(&LIMITS));
    }
    let length = *rng.one(&[10, 11, 20, 300]);
    let digit = b'1' + rng.byte() % 9;
    words.keep(&vec![digit; length])
}

fn broken_number(rng: &mut Rng, words: &mut Words) {
    let found = some(rng, words, |word| word[0].is_ascii_digit());
    let Some(i) = found else {
        return;
    };
    let (before, after) = *rng.one(&[
        ("0", ""),
        ("-", ""),
        ("--", ""),
        ("-0", ""),
        ("", "a"),
        ("", "-"),
        ("", "--"),
        ("", "-1"),
        ("", "_"),
        ("", "H"),
        ("", ".."),
        ("", "."),
        ("", "000000000000000"),
    ]);
    let word = [before.as_bytes(), words.word(i), after.as_bytes()].concat();
    words.spans[i] = words.keep(&word);
}

/// Bytes 9, 10, 13 and 32 to 126 may stand in a text, others not; now and
/// then the end quote is lost too, or alone.
fn forbidden_byte(rng: &mut Rng, words: &mut Words) {
    let found = some(rng, words, |word| word[0] == b'"');
    let Some(i) = found else {
        return;
    };
    let mut word = words.word(i).to_vec();
    if rng.chance(85) {
        let byte = match rng.below(3) {
            0 => *rng.one(&[0, 8, 9, 10, 11, 12, 13, 14, 31, 32, 126, 127, 128, 255]),
            1 => 127 + rng.below(129) as u8,
            _ => rng.byte(),
        };
        let at = 1 + rng.below(word.len().max(2) - 1);
        word.insert(at.min(word.len()), byte);
    }
    if rng.chance(20) {
        word.pop();
    }
    words.spans[i] = words.keep(&word);
}

/// Names of 63 to 66 bytes and far longer, here or wherever the word stands.
fn long_name(rng: &mut Rng, words: &mut Words) {
    let Some(i) = some(rng, words, |word| word[0].is_ascii_alphabetic()) else {
        return;
    };
    let old = words.word(i).to_vec();
    let length = *rng.one(&[63, 64, 64, 65, 65, 66, 200, 1000]);
    let mut name = old.clone();
    while name.len() < length {
        name.extend(rng.word(&["o", "Z", "7", "-k", "-5"]));
    }
    // A hyphen must not become the name's last byte.
    name.truncate(length);
    if name.ends_with(b"-") {
        name.pop();
        name.push(b'e');
    }
    let new = words.keep(&name);
    if rng.chance(50) {
        words.spans[i] = new;
        return;
    }
    for k in 0..words.spans.len() {
        if words.word(k) == old {
            words.spans[k] = new;
        }
    }
}

/// A few words in a row moved, lost or repeated.
fn clause_moved(rng: &mut Rng, words: &mut Words, first: usize) {
    let end = (first + 1 + rng.below(8)).min(words.spans.len());
    let clause = words.spans[first..end].to_vec();
    if rng.chance(60) {
        words.spans.drain(first..end);
    }
    if rng.chance(60) {
        let at = rng.below(words.spans.len() + 1);
        words.spans.splice(at..at, clause);
    }
}

/// Some edits of the bytes.
pub fn bytes(rng: &mut Rng, text: &mut Vec<u8>) {
    let times = *rng.one(&[1, 1, 1, 1, 2, 3]);
    for _ in 0..times {
        if !text.is_empty() {
            one_edit(rng, text);
        }
    }
}

fn one_edit(rng: &mut Rng, text: &mut Vec<u8>) {
    let at = rng.below(text.len());
    match rng.below(10) {
        0 => text[at] ^= 1 << rng.below(8),
        1 => text[at] = rng.byte(),
        2 => text[at] = *rng.one(b"-\"' 0aA\n1{},().:=;|\r"),
        3 => {
            text.remove(at);
        }
        4 => text.insert(at, rng.byte()),
        5 => {
            let hyphens = rng.word(&["-", "--", "---", "----", "-----", "--\n", "--x--", "--\r"]);
            text.splice(at..at, hyphens.iter().copied());
        }
        6 => {
            let end = (at + 1 + rng.below(40)).min(text.len());
            let again = text[at..end].to_vec();
            let to = rng.below(text.len() + 1);
            text.splice(to..to, again);
        }
        7 => {
            let end = (at + 1 + rng.below(40)).min(text.len());
            text.drain(at..end);
        }
        8 => {
            let other = (at + 1).min(text.len() - 1);
            text.swap(at, other);
        }
        _ => text.truncate(at),
    }
}

/// Fragments that hardly ever follow the grammar.
pub fn soup(rng: &mut Rng) -> Vec<u8> {
    let fragments = [
        "-",
        "--",
        "---",
        "0",
        "1",
        "00",
        "10",
        "4294967295",
        "4294967296",
        "a",
        "B",
        "a-b",
        "-5",
        "\"",
        "'",
        "'0F'H",
        "H",
        "::=",
        ":",
        "=",
        ".",
        "..",
        "{",
        "}",
        "(",
        ",",
        ";",
        "|",
        " ",
        "\n",
        "\r",
        "\x0b",
        "\0",
        "END",
        "T",
        "DEFINITIONS",
        "BEGIN",
        "_",
    ];
    let starts = ["", "", "T DEFINITIONS ::= BEGIN ", "T DEFINITIONS "];
    let mut text = rng.word(&starts).to_vec();
    for _ in 0..rng.below(12) {
        text.extend(rng.word(&fragments));
    }
    if rng.chance(10) {
        text.extend((0..rng.below(30)).map(|_| rng.byte()));
    }
    text
}

/// The beginning of one text and the end of another.
pub fn spliced(rng: &mut Rng, first: &[u8], second: &[u8]) -> Vec<u8> {
    let (mut end, mut start) = (rng.below(first.len()), rng.below(second.len()));
    if rng.chance(60) {
        // Between words the two often fit.
        end = blank_from(first, end);
        start = blank_from(second, start);
    }
    [&first[..end], &second[start..]].concat()
}

fn blank_from(text: &[u8], at: usize) -> usize {
    let blank = text[at..].iter().position(u8::is_ascii_whitespace);
    blank.map_or(text.len(), |i| at + i)
}

/// A text of about 65,536 bytes, filled up by blanks or a comment.
pub fn filled(rng: &mut Rng, text: &mut Vec<u8>) {
    let size = *rng.one(&[65535, 65536, 65536, 65537, 65538, 70000]);
    let (lead, filler) = *rng.one(&[(" ", b' '), ("\n", b'\n'), ("\n--", b'x'), ("\n--", 0xfe)]);
    if rng.chance(50) {
        text.extend(lead.as_bytes());
        text.resize(size, filler);
    } else {
        // In front, so that offsets are large.
        let mut front = lead.as_bytes().to_vec();
        front.resize(size - text.len() - 1, filler);
        front.push(b'\n');
        text.splice(0..0, front);
    }
}
