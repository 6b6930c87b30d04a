//! Answers as this reading has them.
//!
//! - `reading card FILE...`: cards, as the paper's program prints them
//! - `reading tokens FILE...`: tokens, and whether the grammar derives them
//! - `reading other FILE...`: number, place, and the place of the other one or `-`
//! - `reading use FILE...`: of the name for which a text is refused by 41 or 42: number,
//!   place, what is needed, what it is, and the module that offers it or `-`; `-` for
//!   any other text
//! - `reading hint`: what a line `octets HINT HEX` or `integer HINT NUMBER` prints
//! - `reading row`: number and next state for a line `STATE COMPLETE WILLING VALUE`
//! - `reading derives`: for a line of classes `derived`, or the index of the one at fault
//! - `reading make COUNT SEED FOLDER`: writes generated texts, from 000000 on
//!
//! Lines are read from standard input, with tabs between their words, blanks
//! between classes. Several files are headed by their names.

use std::fs;
use std::io::{self, BufRead, Write};
use std::path::Path;
use std::process::ExitCode;

use reading::hints::{print_integer, print_octets, Printed, INTEGER_BUFFER, OCTETS_BUFFER};
use reading::{inputs, modules, rows};

const USAGE: &str = "usage: reading (card | tokens | other | use) FILE...
       reading (hint | row | derives)
       reading make COUNT SEED FOLDER";

fn main() -> ExitCode {
    let words: Vec<String> = std::env::args().skip(1).collect();
    let words: Vec<&str> = words.iter().map(String::as_str).collect();
    let done = match words[..] {
        ["card", ref files @ ..] => each_file(files, modules::card),
        ["tokens", ref files @ ..] => each_file(files, modules::listing),
        ["other", ref files @ ..] => each_file(files, other),
        ["use", ref files @ ..] => each_file(files, modules::wrong_use),
        ["hint"] => each_line(hint),
        ["row"] => each_line(row),
        ["derives"] => each_line(derives),
        ["make", count, seed, folder] => make(count, seed, Path::new(folder)),
        _ => Err(io::Error::other(USAGE)),
    };
    match done {
        Ok(()) => ExitCode::SUCCESS,
        Err(error) => {
            eprintln!("{error}");
            ExitCode::from(2)
        }
    }
}

fn each_file(files: &[&str], answer: fn(&[u8]) -> String) -> io::Result<()> {
    let mut out = io::stdout().lock();
    for file in files {
        if files.len() > 1 {
            writeln!(out, "{file}")?;
        }
        out.write_all(answer(&fs::read(file)?).as_bytes())?;
    }
    Ok(())
}

fn other(text: &[u8]) -> String {
    let (number, place, other) = modules::other(text);
    let other = other.map_or("-".to_string(), |place| place.to_string());
    format!("{number}\t{place}\t{other}\n")
}

/// A line that is none of its kind is an error.
fn each_line(answer: fn(&[u8]) -> Option<Vec<u8>>) -> io::Result<()> {
    let mut out = io::stdout().lock();
    for line in io::stdin().lock().split(b'\n') {
        let line = line?;
        let Some(answer) = answer(&line) else {
            return Err(io::Error::other(format!("{}?", line.escape_ascii())));
        };
        out.write_all(&answer)?;
        out.write_all(b"\n")?;
    }
    Ok(())
}

fn hint(line: &[u8]) -> Option<Vec<u8>> {
    let words: Vec<&[u8]> = line.split(|byte| *byte == b'\t').collect();
    let printed = match words[..] {
        [b"octets", hint, hex] => print_octets(hint, &octets(hex)?, OCTETS_BUFFER),
        [b"integer", hint, number] => print_integer(hint, integer(number)?, INTEGER_BUFFER),
        _ => return None,
    };
    Some(match printed {
        Printed::Bytes(bytes) => [b"printed\t", &bytes[..]].concat(),
        Printed::Refused { number, place } => format!("refused\t{number}\t{place}").into_bytes(),
    })
}

/// Pairs of hex digits; a blank or a colon may stand behind each.
fn octets(hex: &[u8]) -> Option<Vec<u8>> {
    let mut octets = Vec::new();
    let mut rest = hex;
    while !rest.is_empty() {
        let (pair, after) = rest.split_at_checked(2)?;
        let digit = |byte: u8| Some((byte as char).to_digit(16)? as u8);
        octets.push(digit(pair[0])? << 4 | digit(pair[1])?);
        rest = match after {
            [b' ' | b':', after @ ..] => after,
            _ => after,
        };
    }
    Some(octets)
}

/// A number of any length; one past 64 bits is as good as their end.
fn integer(word: &[u8]) -> Option<i64> {
    let digits = word.strip_prefix(b"-").unwrap_or(word);
    if digits.is_empty() || !digits.iter().all(u8::is_ascii_digit) {
        return None;
    }
    let negative = digits.len() < word.len();
    let magnitude = digits.iter().fold(0i64, |value, digit| {
        value
            .saturating_mul(10)
            .saturating_add(i64::from(digit - b'0'))
    });
    Some(if negative { -magnitude } else { magnitude })
}

fn row(line: &[u8]) -> Option<Vec<u8>> {
    let words: Vec<&[u8]> = line.split(|byte| *byte == b'\t').collect();
    let [state, complete, willing, value] = words[..] else {
        return None;
    };
    let (number, next) = rows::set_row(
        u64::try_from(integer(state)?).ok()?,
        integer(value)?,
        flag(complete)?,
        flag(willing)?,
    );
    // "unchanged unless 0": then as it is written.
    let next = match number {
        0 => next.to_string().into_bytes(),
        _ => state.to_vec(),
    };
    Some([number.to_string().as_bytes(), b"\t", &next].concat())
}

fn flag(word: &[u8]) -> Option<bool> {
    match word {
        b"yes" => Some(true),
        b"no" => Some(false),
        _ => None,
    }
}

fn derives(line: &[u8]) -> Option<Vec<u8>> {
    let classes: Vec<&str> = std::str::from_utf8(line).ok()?.split_whitespace().collect();
    Some(match modules::fault(&classes) {
        None => b"derived".to_vec(),
        Some(index) => index.to_string().into_bytes(),
    })
}

fn make(count: &str, seed: &str, folder: &Path) -> io::Result<()> {
    let (Ok(count), Ok(seed)) = (count.parse(), seed.parse()) else {
        return Err(io::Error::other(USAGE));
    };
    fs::create_dir_all(folder)?;
    for index in 0..count {
        fs::write(
            folder.join(format!("{index:06}")),
            inputs::made(seed, index),
        )?;
    }
    Ok(())
}
