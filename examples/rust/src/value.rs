//! What a stored value looks like under its DISPLAY-HINT.

use crate::{print_integer, print_octets, Printing, Refusal, OCTETS_OUT};

/// Prints values, one after the other, into an output of its own.
#[derive(Debug, Clone)]
pub struct Printer {
    out: [u8; OCTETS_OUT],
}

impl Printer {
    pub const fn new() -> Self {
        Self { out: [0; OCTETS_OUT] }
    }

    /// Prints octets by a hint for octets, as `1d.1d.1d.1d`. What is printed stays until the next value.
    pub fn octets(&mut self, hint: &[u8], octets: &[u8]) -> Result<&str, Refusal> {
        let printing = print_octets(hint, octets, &mut self.out);
        self.printed(printing)
    }

    /// Prints an integer by a hint for integers, as `d-2`, likewise.
    pub fn integer(&mut self, hint: &[u8], value: i64) -> Result<&str, Refusal> {
        let printing = print_integer(hint, value, &mut self.out);
        self.printed(printing)
    }

    /// The text is UTF-8: form t passes whole characters alone, and all else that is printed is ASCII.
    fn printed(&self, printing: Printing) -> Result<&str, Refusal> {
        match printing {
            Printing::Printed { length } => {
                Ok(std::str::from_utf8(&self.out[..length]).expect("what is printed is UTF-8"))
            }
            Printing::Refused { number, place } => Err(Refusal { number, place }),
        }
    }
}

impl Default for Printer {
    fn default() -> Self {
        Self::new()
    }
}
