//! Reading takes the stack that the wrapper says. This is the only test of its program, since a thread may be given the larger
//! stack of a thread that has ended.

use std::thread;

use mib::{Buffers, Module, STACK_BYTES};

/// A module whose heads are each defined behind the one that names it, 126 of them: what takes the most stack.
fn chain_of_heads() -> String {
    let head = "T DEFINITIONS ::= BEGIN IMPORTS MODULE-IDENTITY FROM SNMPv2-SMI;
t MODULE-IDENTITY LAST-UPDATED \"\" ORGANIZATION \"\" CONTACT-INFO \"\" DESCRIPTION \"\" ::= { iso 9 }\n";
    let heads: String = (0..125).map(|k| format!("d{k} OBJECT IDENTIFIER ::= {{ d{} 1 }}\n", k + 1)).collect();
    format!("{head}{heads}d125 OBJECT IDENTIFIER ::= {{ iso 1 }}\nEND\n")
}

#[test]
fn reading_takes_the_stack_that_is_said() {
    let quay = include_bytes!("../../QUAY-UPS-MIB");
    for (text, count) in [(&quay[..], 15), (chain_of_heads().as_bytes(), 127)] {
        let mut buffers = Box::new(Buffers::new());
        thread::scope(|scope| {
            let small = thread::Builder::new().stack_size(STACK_BYTES);
            let reading = small.spawn_scoped(scope, || Module::read(text, &mut buffers).unwrap().definitions().len());
            assert_eq!(reading.unwrap().join().unwrap(), count);
        });
    }
}
