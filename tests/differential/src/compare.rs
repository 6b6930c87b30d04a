//! One input given to the reading and to the library: the answers and every
//! word and byte of the lent buffers must agree.

use std::fmt::Display;
use std::panic::{catch_unwind, AssertUnwindSafe};

use reading::hints::{self, Printed};
use reading::inputs::values::{Integer, Octets, Row};
use reading::inputs::{Input, Module};
use reading::modules::{self, NUMBER_WORDS, RECORD_WORDS};
use reading::rows;

/// Which call an input goes to: answers are counted for each.
#[derive(Clone, Copy, PartialEq, Eq, Debug)]
pub enum Call {
    Module,
    Octets,
    Integer,
    Row,
}

pub const CALLS: [Call; 4] = [Call::Module, Call::Octets, Call::Integer, Call::Row];

impl Call {
    /// The answers that the paper has for the call.
    pub fn answers(self) -> Vec<u32> {
        match self {
            // 41 and 42 stand in the place of 11, which is not given.
            Call::Module => (0..=10).chain(12..=22).chain([41, 42]).collect(),
            Call::Octets => vec![0, 30, 31, 32, 33],
            Call::Integer => vec![0, 30, 32, 34],
            Call::Row => vec![0, 10, 12, 40],
        }
    }
}

/// What came of one input: the reading's answer, and the first difference.
pub struct Outcome {
    pub call: Call,
    pub number: u32,
    pub difference: Option<String>,
}

/// Buffers to lend, and the pattern that they are filled with before each
/// call: what is left alone, cleared and written can be told apart.
pub struct Lent {
    records: Vec<u32>,
    numbers: Vec<u32>,
    bytes: Vec<u8>,
    word_pattern: Vec<u32>,
    byte_pattern: Vec<u8>,
}

/// Longer than any buffer that is lent.
const LONGEST: usize = NUMBER_WORDS + 64;

impl Lent {
    pub fn new() -> Self {
        Lent {
            records: vec![0; LONGEST],
            numbers: vec![0; LONGEST],
            bytes: vec![0; LONGEST],
            word_pattern: (0..LONGEST as u32).map(|i| 0xa5c3_0000 ^ i).collect(),
            byte_pattern: (0..LONGEST).map(|i| 1 + (i % 251) as u8).collect(),
        }
    }

    pub fn compare(&mut self, input: &Input) -> Outcome {
        let (call, number, difference) = match input {
            Input::Module(module) => self.module(module),
            Input::Octets(octets) => self.octets(octets),
            Input::Integer(integer) => self.integer(integer),
            Input::Row(row) => self.row(row),
        };
        Outcome {
            call,
            number,
            difference,
        }
    }

    fn module(&mut self, module: &Module) -> (Call, u32, Option<String>) {
        let expected = modules::read(&module.text, module.record_words, module.number_words);
        let records = &mut self.records[..module.record_words];
        let numbers = &mut self.numbers[..module.number_words];
        records.copy_from_slice(&self.word_pattern[..module.record_words]);
        numbers.copy_from_slice(&self.word_pattern[..module.number_words]);
        let answer = caught(|| mib::read(&module.text, records, numbers));
        let (number, place, count) = match answer {
            Ok(mib::Reading::Accepted { count }) => (0, 0, count),
            Ok(mib::Reading::Refused { number, place }) => (number, place, 0),
            Err(difference) => return (Call::Module, expected.number, Some(difference)),
        };
        let changed = !expected.changes_nothing();
        let difference = differs("number", number, expected.number)
            .or_else(|| differs("place", place, expected.place))
            .or_else(|| differs("count", count, expected.count))
            .or_else(|| {
                let written = changed.then_some((expected.records.as_slice(), RECORD_WORDS));
                buffer_differs("record word", records, &self.word_pattern, written)
            })
            .or_else(|| {
                let written = changed.then_some((expected.numbers.as_slice(), NUMBER_WORDS));
                buffer_differs("number word", numbers, &self.word_pattern, written)
            });
        (Call::Module, expected.number, difference)
    }

    fn octets(&mut self, input: &Octets) -> (Call, u32, Option<String>) {
        let expected = hints::print_octets(&input.hint, &input.octets, input.buffer);
        let part = hints::OCTETS_BUFFER;
        let difference = self.printing(&expected, input.buffer, part, |out| {
            mib::print_octets(&input.hint, &input.octets, out)
        });
        (Call::Octets, number_of(&expected), difference)
    }

    fn integer(&mut self, input: &Integer) -> (Call, u32, Option<String>) {
        let expected = hints::print_integer(&input.hint, input.value, input.buffer);
        let part = hints::INTEGER_BUFFER;
        let difference = self.printing(&expected, input.buffer, part, |out| {
            mib::print_integer(&input.hint, input.value, out)
        });
        (Call::Integer, number_of(&expected), difference)
    }

    fn printing(
        &mut self,
        expected: &Printed,
        length: usize,
        part: usize,
        print: impl FnOnce(&mut [u8]) -> mib::Printing,
    ) -> Option<String> {
        let out = &mut self.bytes[..length];
        out.copy_from_slice(&self.byte_pattern[..length]);
        let (number, place, printed) = match caught(|| print(out)) {
            Ok(mib::Printing::Printed { length }) => (0, 0, length),
            Ok(mib::Printing::Refused { number, place }) => (number, place, 0),
            Err(difference) => return Some(difference),
        };
        let (expected_place, bytes): (usize, &[u8]) = match expected {
            Printed::Bytes(bytes) => (0, bytes),
            Printed::Refused { place, .. } => (*place, &[]),
        };
        let expected_number = number_of(expected);
        let written = (expected_number != 30).then_some((bytes, part));
        differs("number", number, expected_number)
            .or_else(|| differs("place", place, expected_place))
            .or_else(|| differs("length", printed, bytes.len()))
            .or_else(|| buffer_differs("byte", out, &self.byte_pattern, written))
    }

    fn row(&mut self, row: &Row) -> (Call, u32, Option<String>) {
        let (number, next) = rows::set_row(row.state, row.value, row.complete, row.willing);
        let step = caught(|| mib::set_row(row.state, row.value, row.complete, row.willing));
        let difference = match step {
            Ok(step) => differs("number", step.number, number)
                .or_else(|| differs("next state", step.next, next)),
            Err(difference) => Some(difference),
        };
        (Call::Row, number, difference)
    }
}

impl Default for Lent {
    fn default() -> Self {
        Lent::new()
    }
}

fn number_of(printed: &Printed) -> u32 {
    match printed {
        Printed::Bytes(_) => 0,
        Printed::Refused { number, .. } => *number,
    }
}

/// A panic of the library is a difference like others.
fn caught<T>(call: impl FnOnce() -> T) -> Result<T, String> {
    catch_unwind(AssertUnwindSafe(call)).map_err(|_| "the library panics".to_string())
}

fn differs<T: PartialEq + Display>(what: &str, got: T, expected: T) -> Option<String> {
    if got == expected {
        return None;
    }
    Some(format!(
        "{what} {got} of the library, {expected} of the reading"
    ))
}

/// The buffer must have what was written, zeros up to the end of the working
/// part, and the pattern beyond it; where nothing may change, the pattern
/// throughout.
fn buffer_differs<T: Copy + PartialEq + Display + Default>(
    what: &str,
    lent: &[T],
    pattern: &[T],
    written: Option<(&[T], usize)>,
) -> Option<String> {
    let (written, part) = written.unwrap_or((&[], 0));
    let (front, rest) = lent.split_at(written.len());
    let (cleared, beyond) = rest.split_at(part - written.len());
    let zero = T::default();
    if front == written
        && cleared.iter().all(|word| *word == zero)
        && beyond == &pattern[part..lent.len()]
    {
        return None;
    }
    (0..lent.len()).find_map(|i| {
        let expected = match written.get(i) {
            Some(word) => *word,
            None if i < part => zero,
            None => pattern[i],
        };
        differs(&format!("{what} {i}:"), lent[i], expected)
    })
}

#[cfg(test)]
mod tests {
    use super::*;

    const PATTERN: [u32; 5] = [11, 12, 13, 14, 15];

    /// Two words written, four in the working part, five lent.
    fn written(lent: [u32; 5]) -> bool {
        buffer_differs("word", &lent, &PATTERN, Some((&[1, 2], 4))).is_none()
    }

    #[test]
    fn a_wrong_word_is_seen_wherever_it_stands() {
        assert!(written([1, 2, 0, 0, 15]));
        assert!(!written([1, 3, 0, 0, 15]), "a word written");
        assert!(!written([1, 2, 0, 14, 15]), "a word to be cleared");
        assert!(!written([1, 2, 0, 0, 0]), "a word beyond the part");
    }

    #[test]
    fn a_change_is_seen_where_none_may_be() {
        let changed = [11, 12, 0, 14, 15];
        assert!(buffer_differs("word", &PATTERN, &PATTERN, None).is_none());
        assert!(buffer_differs("word", &changed, &PATTERN, None).is_some());
    }

    #[test]
    fn a_panic_is_a_difference() {
        assert_eq!(caught(|| 5), Ok(5));
        assert!(caught(|| -> u32 { panic!("as a library might") }).is_err());
    }
}
