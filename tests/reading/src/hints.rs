//! "Printing by hint": octets and integers under a display hint, read from
//! the paper. The bytes printed stand at the front of the output buffer, the
//! rest of its working part is 0, except after 30, which changes nothing.

pub const OCTETS_BUFFER: usize = 4096;
pub const INTEGER_BUFFER: usize = 64;

const LONGEST_VALUE: usize = 1024;
const LONGEST_HINT: usize = 255;

#[derive(Clone, PartialEq, Eq, Debug)]
pub enum Printed {
    Bytes(Vec<u8>),
    Refused { number: u32, place: usize },
}

fn refused(number: u32, place: usize) -> Printed {
    Printed::Refused { number, place }
}

/// Octets under a hint, for an output buffer of this length. The order of
/// the refusals is 30, 31, 32, 33.
pub fn print_octets(hint: &[u8], octets: &[u8], buffer: usize) -> Printed {
    if buffer < OCTETS_BUFFER {
        return refused(30, 0);
    }
    if octets.len() > LONGEST_VALUE {
        return refused(31, 0);
    }
    let Some(pieces) = pieces(hint) else {
        return refused(32, 0);
    };
    match print_pieces(&pieces, octets) {
        Ok(bytes) => Printed::Bytes(bytes),
        Err(place) => refused(33, place),
    }
}

/// An integer under a hint. The order of the refusals is 30, 32, 34.
pub fn print_integer(hint: &[u8], value: i64, buffer: usize) -> Printed {
    if buffer < INTEGER_BUFFER {
        return refused(30, 0);
    }
    let Some((base, point)) = integer_hint(hint) else {
        return refused(32, 0);
    };
    if !(-2147483648..=4294967295).contains(&value) {
        return refused(34, 0);
    }
    let mut bytes = digits(value.unsigned_abs(), base);
    if point > 0 {
        // "the point N digits from the right, at least one digit before it"
        while bytes.len() <= point {
            bytes.insert(0, b'0');
        }
        bytes.insert(bytes.len() - point, b'.');
    }
    if value < 0 {
        bytes.insert(0, b'-');
    }
    Printed::Bytes(bytes)
}

/// "x, o, b, d, or d-N from d-1 to d-10": the base, and N or 0.
fn integer_hint(hint: &[u8]) -> Option<(u64, usize)> {
    match hint {
        b"x" => Some((16, 0)),
        b"o" => Some((8, 0)),
        b"b" => Some((2, 0)),
        b"d" => Some((10, 0)),
        b"d-10" => Some((10, 10)),
        [b'd', b'-', n @ b'1'..=b'9'] => Some((10, usize::from(n - b'0'))),
        _ => None,
    }
}

/// "lower-case, no leading zeros"
fn digits(value: u64, base: u64) -> Vec<u8> {
    let text = match base {
        16 => format!("{value:x}"),
        8 => format!("{value:o}"),
        2 => format!("{value:b}"),
        _ => format!("{value}"),
    };
    text.into_bytes()
}

/// One piece of a hint for octets.
#[derive(Clone, Copy, Debug)]
struct Piece {
    repeats: bool,
    length: usize,
    format: u8,
    separator: Option<u8>,
    terminator: Option<u8>,
}

/// "a hint of 1 to 255 bytes is pieces"; None for a bad hint.
fn pieces(hint: &[u8]) -> Option<Vec<Piece>> {
    if hint.is_empty() || hint.len() > LONGEST_HINT {
        return None;
    }
    let mut pieces = Vec::new();
    let mut rest = hint;
    while !rest.is_empty() {
        let (piece, after) = piece(rest)?;
        pieces.push(piece);
        rest = after;
    }
    Some(pieces)
}

/// "optional `*`, length without leading zero (1 to 8 for x d o, 1 to 255
/// for a t), format x d o a t, optional separator ..., and after `*` and a
/// separator an optional terminator of the same bytes". The next piece starts
/// with a digit or `*`, which are no separators: nothing is left to choice.
fn piece(hint: &[u8]) -> Option<(Piece, &[u8])> {
    let (repeats, rest) = match hint {
        [b'*', rest @ ..] => (true, rest),
        _ => (false, hint),
    };
    let count = rest.iter().take_while(|b| b.is_ascii_digit()).count();
    let (digits, rest) = rest.split_at(count);
    if count == 0 || count > 3 || digits[0] == b'0' {
        return None;
    }
    let length = digits
        .iter()
        .fold(0, |n, digit| n * 10 + usize::from(digit - b'0'));
    let (&format, rest) = rest.split_first()?;
    let longest = match format {
        b'x' | b'd' | b'o' => 8,
        b'a' | b't' => 255,
        _ => return None,
    };
    if length > longest {
        return None;
    }
    let (separator, rest) = mark(rest);
    let (terminator, rest) = if repeats && separator.is_some() {
        mark(rest)
    } else {
        (None, rest)
    };
    let piece = Piece {
        repeats,
        length,
        format,
        separator,
        terminator,
    };
    Some((piece, rest))
}

/// A separator or terminator, if one comes next: "32 to 126, no digit or `*`".
fn mark(hint: &[u8]) -> (Option<u8>, &[u8]) {
    match hint {
        [byte @ 32..=126, rest @ ..] if !byte.is_ascii_digit() && *byte != b'*' => {
            (Some(*byte), rest)
        }
        _ => (None, hint),
    }
}

/// The bytes printed, or the place of the first octet in breach.
fn print_pieces(pieces: &[Piece], octets: &[u8]) -> Result<Vec<u8>, usize> {
    let mut out = Vec::new();
    let mut at = 0;
    let mut turn = 0;
    // "with no octet left, even after a repeat count, printing ends"
    while at < octets.len() {
        // "The last piece repeats"
        let piece = pieces[turn.min(pieces.len() - 1)];
        turn += 1;
        let uses = if piece.repeats {
            at += 1;
            octets[at - 1]
        } else {
            1
        };
        for left in (0..uses).rev() {
            if at == octets.len() {
                break;
            }
            // "A piece uses its octets, or the fewer left"
            let end = octets.len().min(at + piece.length);
            print_use(piece.format, &octets[at..end], at, &mut out)?;
            at = end;
            // "The separator follows each use, a terminator, if any, instead
            // after the last repeat, only if octets remain."
            if at < octets.len() {
                let last = if left == 0 { piece.terminator } else { None };
                out.extend(last.or(piece.separator));
            }
        }
    }
    Ok(out)
}

fn print_use(format: u8, octets: &[u8], at: usize, out: &mut Vec<u8>) -> Result<(), usize> {
    match format {
        b'a' => {
            if let Some(i) = octets.iter().position(|octet| *octet > 127) {
                return Err(at + i);
            }
            out.extend(octets);
        }
        b't' => {
            if let Some(i) = first_ill_formed(octets) {
                return Err(at + i);
            }
            out.extend(octets);
        }
        _ => {
            let value = octets
                .iter()
                .fold(0, |value: u64, octet| value << 8 | u64::from(*octet));
            let base = match format {
                b'x' => 16,
                b'o' => 8,
                _ => 10,
            };
            out.extend(digits(value, base));
        }
    }
    Ok(())
}

/// Where the first character starts that is not whole and well formed.
fn first_ill_formed(octets: &[u8]) -> Option<usize> {
    let mut at = 0;
    while at < octets.len() {
        match character_length(&octets[at..]) {
            Some(length) => at += length,
            None => return Some(at),
        }
    }
    None
}

/// The length of the UTF-8 character at the front, by the table of RFC 3629,
/// section 4.
fn character_length(octets: &[u8]) -> Option<usize> {
    match octets {
        [0..=0x7f, ..] => Some(1),
        [0xc2..=0xdf, 0x80..=0xbf, ..] => Some(2),
        [0xe0, 0xa0..=0xbf, 0x80..=0xbf, ..] => Some(3),
        [0xe1..=0xec, 0x80..=0xbf, 0x80..=0xbf, ..] => Some(3),
        [0xed, 0x80..=0x9f, 0x80..=0xbf, ..] => Some(3),
        [0xee..=0xef, 0x80..=0xbf, 0x80..=0xbf, ..] => Some(3),
        [0xf0, 0x90..=0xbf, 0x80..=0xbf, 0x80..=0xbf, ..] => Some(4),
        [0xf1..=0xf3, 0x80..=0xbf, 0x80..=0xbf, 0x80..=0xbf, ..] => Some(4),
        [0xf4, 0x80..=0x8f, 0x80..=0xbf, 0x80..=0xbf, ..] => Some(4),
        _ => None,
    }
}
