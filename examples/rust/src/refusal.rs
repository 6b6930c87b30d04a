//! What a refusal says, in words.

use std::error::Error;
use std::fmt::{self, Display, Formatter};

/// Why a text or a value is refused, and where.
#[derive(Debug, Clone, Copy, PartialEq, Eq, Hash)]
pub struct Refusal {
    /// 1 to 22, 41 and 42 of a module, but never 11; 30 to 34 of a value.
    pub number: u32,
    /// The byte in the text; of 33 the octet in the value; else 0.
    pub place: usize,
}

impl Refusal {
    /// What the number means, in a short sentence: the one that `mib_refusal_text` of the header has.
    pub fn text(&self) -> &'static str {
        refusal_text(self.number)
    }
}

impl Display for Refusal {
    fn fmt(&self, f: &mut Formatter<'_>) -> fmt::Result {
        write!(f, "refused {} at {}: {}", self.number, self.place, self.text())
    }
}

impl Error for Refusal {}

fn refusal_text(number: u32) -> &'static str {
    match number {
        0 => "accepted",
        1 => "a lent buffer is too short",
        2 => "the text has more than 65,536 bytes",
        3 => "no token starts here",
        4 => "this byte may not stand in a text",
        5 => "the name has more than 64 bytes",
        6 => "the number is not from -2147483648 to 4294967295",
        7 => "this may not stand here, or the text ends too early",
        8 => "this is the 513th definition, and a module may have 512",
        9 => "the name is defined or imported a second time, or is iso",
        10 => "the module that it is imported from does not offer this symbol",
        12 => "the heads of the OID never reach a built-in name",
        13 => "the OID has more than 128 numbers",
        14 => "with this OID those of the module pass 8,192 numbers",
        15 => "an earlier definition holds the OID",
        16 => "the range shares a number with an earlier one, or has its low number not below its high one",
        17 => "a range or size may not stand on this type, or is outside its limits",
        18 => "the label or its number stands there already, or the number is out of range",
        19 => "the SYNTAX of a convention names none of SMI's eight types, imported",
        20 => "a rule on tables, rows and columns is broken",
        21 => "a rule on access is broken",
        22 => "the notification's next-to-last number is not 0, or it lists a not-accessible object",
        30 => "the output buffer is too short",
        31 => "the value has more than 1,024 octets",
        32 => "the hint is none for such a value",
        33 => "the octet is not of the form that the hint gives it",
        34 => "the integer is not from -2147483648 to 4294967295",
        41 => "the name is neither defined nor imported",
        42 => "the name is known, but of another kind than is needed here",
        _ => "no call answers this number",
    }
}
