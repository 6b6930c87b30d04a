//! Lists the sizes of the wrapper, and the words of its refusals and row answers, a line each with the number before them, as
//! `tests/library.c` with the word list does for the header.

use mib::{Refusal, RowAnswer, INTEGER_OUT, NUMBER_WORDS, OCTETS_OUT, RECORD_WORDS, STACK_BYTES};

fn main() {
    println!("sizes\t{RECORD_WORDS}\t{NUMBER_WORDS}\t{OCTETS_OUT}\t{INTEGER_OUT}\t{STACK_BYTES}");
    for number in (0..=50).chain([255, 256, 65536, u32::MAX]) {
        println!("{number}\t{}\t{}", Refusal { number, place: 0 }.text(), RowAnswer::from(number).text());
    }
}
