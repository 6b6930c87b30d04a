//! Inputs for hints and rows: hints that are valid, nearly valid and
//! random; octets made to fit the hint, whole and broken; buffers short and
//! exact.

use super::rng::Rng;

pub struct Octets {
    pub hint: Vec<u8>,
    pub octets: Vec<u8>,
    pub buffer: usize,
}

pub struct Integer {
    pub hint: Vec<u8>,
    pub value: i64,
    pub buffer: usize,
}

pub struct Row {
    pub state: u64,
    pub value: i64,
    pub complete: bool,
    pub willing: bool,
}

/// At least the working part, mostly; longer by a little, or too short.
fn buffer(rng: &mut Rng, part: usize) -> usize {
    match rng.below(40) {
        0 => part - 1,
        1 => rng.below(part),
        2..=12 => part,
        _ => part + rng.below(40),
    }
}

pub fn octets(rng: &mut Rng) -> Octets {
    let mut hint = Vec::new();
    let pieces = 1 + *rng.one(&[0, 0, 0, 1, 1, 2, 3, 7]);
    for _ in 0..pieces {
        piece(rng, &mut hint);
    }
    match rng.below(20) {
        0 => {
            hint = (0..rng.below(8))
                .map(|_| *rng.one(b"*0123xdoat.: -b"))
                .collect()
        }
        1 => hint = (0..rng.below(6)).map(|_| rng.byte()).collect(),
        2..=5 => hint_damage(rng, &mut hint),
        6 => hint_of_length(rng, &mut hint),
        7 => hint = rng.word(&["*1d.:1d", "255t", "255a", "1x:"]).to_vec(),
        _ => {}
    }
    let length = *rng.one(&[0, 1, 2, 4, 6, 8, 12, 20, 40, 100, 300]);
    let mut octets = fitting(rng, &hint, length);
    match rng.below(30) {
        0 => octets.resize(1023 + rng.below(4), b'A'),
        1 => octets = (0..1020 + rng.below(5)).map(|_| rng.byte()).collect(),
        2..=5 if !octets.is_empty() => {
            let at = rng.below(octets.len());
            octets[at] = rng.byte();
        }
        _ => {}
    }
    Octets {
        hint,
        octets,
        buffer: buffer(rng, 4096),
    }
}

fn piece(rng: &mut Rng, hint: &mut Vec<u8>) {
    let repeats = rng.chance(30);
    if repeats {
        hint.push(b'*');
    }
    let format = *rng.one(b"xdoatt");
    let length = match format {
        b'a' | b't' => *rng.one(&[1, 2, 3, 4, 5, 9, 10, 20, 99, 100, 254, 255]),
        _ => 1 + rng.below(8),
    };
    hint.extend(length.to_string().as_bytes());
    hint.push(format);
    if rng.chance(60) {
        hint.push(mark(rng));
        if repeats && rng.chance(50) {
            hint.push(mark(rng));
        }
    }
}

/// A separator or terminator.
fn mark(rng: &mut Rng) -> u8 {
    if rng.chance(70) {
        return *rng.one(b".:-, /xdoat~");
    }
    let byte = 32 + rng.below(95) as u8;
    if byte.is_ascii_digit() || byte == b'*' {
        return b';';
    }
    byte
}

fn hint_damage(rng: &mut Rng, hint: &mut Vec<u8>) {
    let at = rng.below(hint.len());
    match rng.below(6) {
        0 => {
            hint.remove(at);
        }
        1 => hint.insert(at, *rng.one(b"0123456789")),
        2 => hint.insert(at, *rng.one(b"*.:xdoatb")),
        3 => hint[at] = rng.byte(),
        4 => hint.truncate(at),
        _ => hint.extend(rng.word(&["256a", "0x", "9x", "8x", "01d", "*", "1", "1b", "255t"])),
    }
}

/// Hints of 253 to 257 bytes.
fn hint_of_length(rng: &mut Rng, hint: &mut Vec<u8>) {
    let length = 253 + rng.below(5);
    hint.clear();
    while hint.len() + 3 < length {
        hint.extend(rng.word(&["1x:", "1d", "2x.", "1o"]));
    }
    while hint.len() + 2 <= length {
        hint.extend(b"1x");
    }
    if hint.len() < length {
        hint.push(b':');
    }
}

/// Octets as the hint would have them: small repeat counts, letters for a,
/// whole characters for t. The walk over the hint is rough on purpose.
fn fitting(rng: &mut Rng, hint: &[u8], length: usize) -> Vec<u8> {
    let mut octets = Vec::with_capacity(length + 260);
    let mut repeats = false;
    let mut count: usize = 0;
    let broken = rng.chance(25);
    while octets.len() < length {
        let before = octets.len();
        for byte in hint {
            match byte {
                b'*' => repeats = true,
                b'0'..=b'9' => count = (10 * count + usize::from(byte - b'0')).min(255),
                b'x' | b'd' | b'o' | b'a' | b't' if count > 0 => {
                    let mut uses = 1;
                    if repeats {
                        uses = *rng.one(&[0, 1, 1, 2, 2, 3, 5]);
                        octets.push(uses as u8);
                    }
                    for _ in 0..uses {
                        one_use(rng, *byte, count, broken, &mut octets);
                    }
                    (repeats, count) = (false, 0);
                }
                _ => {}
            }
        }
        if octets.len() == before {
            octets.push(rng.byte());
        }
    }
    if rng.chance(70) {
        octets.truncate(length);
    }
    octets.truncate(1024);
    octets
}

fn one_use(rng: &mut Rng, format: u8, count: usize, broken: bool, octets: &mut Vec<u8>) {
    let end = octets.len() + count;
    while octets.len() < end {
        let left = end - octets.len();
        match format {
            b'a' => octets.push(rng.byte() & if broken { 255 } else { 127 }),
            b't' => {
                let broken = broken && rng.chance(20);
                character(rng, left, broken, octets);
            }
            _ => octets.push(if rng.chance(30) { 0 } else { rng.byte() }),
        }
    }
}

/// A character of at most so many octets, or something like one.
fn character(rng: &mut Rng, most: usize, broken: bool, octets: &mut Vec<u8>) {
    let characters = [
        "a",
        "Z",
        "\0",
        "\x7f",
        "\u{80}",
        "\u{e9}",
        "\u{7ff}",
        "\u{800}",
        "\u{20ac}",
        "\u{d7ff}",
        "\u{e000}",
        "\u{ffff}",
        "\u{10000}",
        "\u{1f600}",
        "\u{10ffff}",
    ];
    if broken {
        let ill_formed: [&[u8]; 16] = [
            b"\xc0\x80",
            b"\xc1\xbf",
            b"\xe0\x80\x80",
            b"\xe0\x9f\xbf",
            b"\xed\xa0\x80",
            b"\xed\xbf\xbf",
            b"\xf0\x80\x80\x80",
            b"\xf0\x8f\xbf\xbf",
            b"\xf4\x90\x80\x80",
            b"\xf5\x80\x80\x80",
            b"\xff",
            b"\x80",
            b"\xc3",
            b"\xe2\x82",
            b"\xf0\x9f\x98",
            b"\xe2\x28\xa1",
        ];
        octets.extend(*rng.one(&ill_formed));
        return;
    }
    let character = rng.word(&characters);
    if character.len() <= most {
        octets.extend(character);
    } else {
        octets.push(b'.');
    }
}

pub fn integer(rng: &mut Rng) -> Integer {
    let mut hint = rng
        .word(&[
            "x", "o", "b", "d", "d-1", "d-2", "d-3", "d-4", "d-5", "d-6", "d-7", "d-8", "d-9",
            "d-10",
        ])
        .to_vec();
    match rng.below(8) {
        0 => {
            hint = rng
                .word(&[
                    "", "d-0", "d-11", "d-01", "d-", "D", "x-1", "o-1", "b-2", "dd", "d-1x",
                    "d--1", "1d", "a", "d-100", "X", "d 1",
                ])
                .to_vec();
        }
        1 => {
            let at = rng.below(hint.len() + 1);
            hint.insert(at, rng.byte());
        }
        _ => {}
    }
    let value = match rng.below(8) {
        0..=2 => rng.between(-1200, 1200),
        3 => rng.between(-2147483650, -2147483640),
        4 => rng.between(4294967290, 4294967300),
        5 => rng.between(-2147483648, 4294967295),
        6 => 10_i64.pow(rng.below(10) as u32) * rng.between(-2, 4),
        _ => *rng.one(&[i64::MIN, i64::MAX, 0, -1, 4294967296, -2147483649, 1 << 40]),
    };
    Integer {
        hint,
        value,
        buffer: buffer(rng, 64),
    }
}

pub fn row(rng: &mut Rng) -> Row {
    let state = match rng.below(20) {
        0 => 4,
        1 => *rng.one(&[5, u64::MAX, 1 << 32, 1 << 33 | 1, 256, u64::MAX - 3]),
        _ => rng.below(4) as u64,
    };
    let value = match rng.below(20) {
        0 => *rng.one(&[i64::MIN, i64::MAX, 1 << 32 | 1, (1 << 32) + 6, 257]),
        1 => rng.between(-8, 12),
        _ => rng.between(0, 7),
    };
    Row {
        state,
        value,
        complete: rng.chance(50),
        willing: rng.chance(50),
    }
}
