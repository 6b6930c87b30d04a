//! A checked reader for SMI: what an SMIv2 module defines, what a stored value looks like under its DISPLAY-HINT, and
//! what a set of RowStatus does to a row.
//!
//! ```no_run
//! use mib::{Buffers, Module, Printer, RowState, RowValue};
//!
//! let text = std::fs::read("QUAY-UPS-MIB").unwrap();
//! let mut buffers = Buffers::new();
//! match Module::read(&text, &mut buffers) {
//!     Ok(module) => {
//!         for definition in &module {
//!             println!("{} {}", definition.name, definition.oid);
//!         }
//!     }
//!     Err(refusal) => println!("{refusal}"),
//! }
//! println!("{:?}", Printer::new().integer(b"d-2", -5));
//! println!("{}", RowState::NotReady.set(RowValue::Active, false, true).answer);
//! ```
//!
//! The answers come from a library whose functions are proved to meet their contracts; `include/mib.h` of the repository
//! says what each number means and what is left in each buffer. Nothing is asked of an argument: what cannot be answered
//! is refused. [`Module`], [`Printer`] and [`RowState`] give the answers as types; below them [`read`], [`print_octets`],
//! [`print_integer`] and [`set_row`] give them as numbers, in buffers of the caller's.
//!
//! Reading takes up to 1,260 KiB of stack. The main thread has 8 MiB on most systems, and a thread that Rust spawns has
//! 2 MiB; a thread that asks for another size asks for [`STACK_BYTES`] more than it needs itself, its [`Buffers`] included.

#![deny(unsafe_code)]

mod module;
mod numbered;
mod refusal;
mod row;
mod value;

pub use module::{Access, Buffers, Class, Definition, Definitions, Kind, Module, Oid, Status};
pub use refusal::Refusal;
pub use row::{RowAnswer, RowState, RowStep, RowValue};
pub use value::Printer;

/// [`read`] works on so many words of the record buffer; words beyond them never change.
pub const RECORD_WORDS: usize = 5120;

/// And on so many of the number buffer.
pub const NUMBER_WORDS: usize = 8192;

/// [`print_octets`] works on so many bytes of the output.
pub const OCTETS_OUT: usize = 4096;

/// And [`print_integer`] on so many.
pub const INTEGER_OUT: usize = 64;

/// A thread that reads a module has so much stack left: what was measured, and a quarter more.
pub const STACK_BYTES: usize = 1600 * 1024;

/// The answer to a text.
#[derive(Debug, Clone, Copy, PartialEq, Eq)]
pub enum Reading {
    /// So many definitions.
    Accepted { count: usize },
    /// The rule's number, and the place in the text as a byte offset.
    Refused { number: u32, place: usize },
}

/// The answer to a value and its hint.
#[derive(Debug, Clone, Copy, PartialEq, Eq)]
pub enum Printing {
    /// So many bytes at the start of the output.
    Printed { length: usize },
    /// The refusal's number; of 33 the place is an index into the octets.
    Refused { number: u32, place: usize },
}

/// The answer to a set of RowStatus: 0, 10, 12 or 40, and the row's next state.
#[derive(Debug, Clone, Copy, PartialEq, Eq)]
pub struct Step {
    pub number: u32,
    pub next: u64,
}

/// Reads a module's text into records and sub-identifiers. The buffers have at least [`RECORD_WORDS`] and
/// [`NUMBER_WORDS`] words, or the text is refused by 1.
///
/// Accepted, the record buffer holds ten words for each definition, in text order: kind; name's offset and length; first
/// index and count of its sub-identifiers in the number buffer; offset and length of its syntax; access; status; class.
pub fn read(text: &[u8], records: &mut [u32], numbers: &mut [u32]) -> Reading {
    match raw::read(text, records, numbers) {
        [0, _, count] => Reading::Accepted { count },
        [number, place, _] => Reading::Refused { number: number as u32, place },
    }
}

/// Prints octets by a hint for octets. The output has at least [`OCTETS_OUT`] bytes, or the value is refused by 30; bytes
/// beyond those never change.
pub fn print_octets(hint: &[u8], octets: &[u8], out: &mut [u8]) -> Printing {
    printing(raw::print_octets(hint, octets, out))
}

/// Prints an integer by a hint for integers. The output has at least [`INTEGER_OUT`] bytes, or the value is refused by 30;
/// bytes beyond those never change.
pub fn print_integer(hint: &[u8], value: i64, out: &mut [u8]) -> Printing {
    printing(raw::print_integer(hint, value, out))
}

/// Answers a set of RowStatus to `value` on a row in `state`. `complete`: no required column is lacking after this set.
/// `willing`: the agent is willing to take the row out of service, or to create it so.
pub fn set_row(state: u64, value: i64, complete: bool, willing: bool) -> Step {
    let [number, next] = raw::set_row(state, value, complete, willing);
    Step { number: number as u32, next: next as u64 }
}

fn printing(answer: [usize; 3]) -> Printing {
    match answer {
        [0, _, length] => Printing::Printed { length },
        [number, place, _] => Printing::Refused { number: number as u32, place },
    }
}

/// The library's functions, and all that is unsafe.
///
/// Why each call is sound: the declarations are those of `include/mib.h`, in which a slice is a pointer and then a count
/// of elements. Each pair here comes from one Rust slice, so so many elements are there, initialised and aligned, and the
/// pointer isn't null even where the slice is empty. What the library writes to is a `&mut`, which overlaps nothing else,
/// and `answer` is the call's own. The library asks nothing else of its arguments, is proved to write within what it is
/// lent and to return, and keeps no pointer.
#[allow(unsafe_code)]
mod raw {
    #[cfg(not(target_pointer_width = "64"))]
    compile_error!("the library is for machines with 64-bit sizes");

    extern "C" {
        fn mib_read_raw(
            text: *const u8,
            text_length: usize,
            records: *mut u32,
            record_words: usize,
            numbers: *mut u32,
            number_words: usize,
            answer: *mut usize,
            answer_words: usize,
        );
        fn mib_print_octets_raw(
            hint: *const u8,
            hint_length: usize,
            octets: *const u8,
            octet_count: usize,
            out: *mut u8,
            out_length: usize,
            answer: *mut usize,
            answer_words: usize,
        );
        fn mib_print_integer_raw(
            hint: *const u8,
            hint_length: usize,
            value: i64,
            out: *mut u8,
            out_length: usize,
            answer: *mut usize,
            answer_words: usize,
        );
        fn mib_set_row_raw(
            state: u64,
            value: i64,
            complete: u32,
            willing: u32,
            answer: *mut usize,
            answer_words: usize,
        );
    }

    /// Number, place, count.
    pub fn read(text: &[u8], records: &mut [u32], numbers: &mut [u32]) -> [usize; 3] {
        let mut answer = [0; 3];
        unsafe {
            mib_read_raw(
                text.as_ptr(),
                text.len(),
                records.as_mut_ptr(),
                records.len(),
                numbers.as_mut_ptr(),
                numbers.len(),
                answer.as_mut_ptr(),
                answer.len(),
            );
        }
        answer
    }

    /// Number, place, length.
    pub fn print_octets(hint: &[u8], octets: &[u8], out: &mut [u8]) -> [usize; 3] {
        let mut answer = [0; 3];
        unsafe {
            mib_print_octets_raw(
                hint.as_ptr(),
                hint.len(),
                octets.as_ptr(),
                octets.len(),
                out.as_mut_ptr(),
                out.len(),
                answer.as_mut_ptr(),
                answer.len(),
            );
        }
        answer
    }

    /// Number, place, length.
    pub fn print_integer(hint: &[u8], value: i64, out: &mut [u8]) -> [usize; 3] {
        let mut answer = [0; 3];
        unsafe {
            mib_print_integer_raw(
                hint.as_ptr(),
                hint.len(),
                value,
                out.as_mut_ptr(),
                out.len(),
                answer.as_mut_ptr(),
                answer.len(),
            );
        }
        answer
    }

    /// Number, next state.
    pub fn set_row(state: u64, value: i64, complete: bool, willing: bool) -> [usize; 2] {
        let mut answer = [0; 2];
        unsafe {
            mib_set_row_raw(state, value, u32::from(complete), u32::from(willing), answer.as_mut_ptr(), answer.len());
        }
        answer
    }
}
