//! Reads an SMIv2 module and prints the name and the dotted OID of each definition, or - for a type, with a tab between
//! them; or the refusal's number and place, and what it means. Then it asks the other two questions.
//!
//! Run, in the repository:
//!
//!   tools/staticlib
//!   cargo run --release --manifest-path examples/rust/Cargo.toml --target-dir target/cargo -- examples/QUAY-UPS-MIB
//!
//! Exit status: 0 accepted, 1 refused, 2 the file can't be read.

use std::env;
use std::fs;
use std::io::{self, Write};
use std::process::ExitCode;

use mib::{Buffers, Module, Printer, RowState, RowValue};

fn main() -> ExitCode {
    let mut arguments = env::args_os().skip(1);
    let (Some(path), None) = (arguments.next(), arguments.next()) else {
        eprintln!("usage: read_module FILE");
        return ExitCode::from(2);
    };
    let text = match fs::read(&path) {
        Ok(text) => text,
        Err(error) => {
            eprintln!("read_module: {}: {error}", path.to_string_lossy());
            return ExitCode::from(2);
        }
    };
    match show(&text, &mut io::stdout().lock()) {
        Ok(true) => ExitCode::SUCCESS,
        Ok(false) => ExitCode::from(1),
        Err(error) => {
            eprintln!("read_module: the output can't be written: {error}");
            ExitCode::from(2)
        }
    }
}

/// Asks the three questions. Answers whether the module was accepted.
fn show(text: &[u8], out: &mut impl Write) -> io::Result<bool> {
    let accepted = show_module(text, out)?;
    show_value(out)?;
    show_row(out)?;
    out.flush()?;
    Ok(accepted)
}

/// What does the module define?
fn show_module(text: &[u8], out: &mut impl Write) -> io::Result<bool> {
    let mut buffers = Buffers::new();
    match Module::read(text, &mut buffers) {
        Err(refusal) => {
            writeln!(out, "refused\t{}\t{}\t{}", refusal.number, refusal.place, refusal.text())?;
            Ok(false)
        }
        Ok(module) => {
            writeln!(out, "accepted\t{}", module.definitions().len())?;
            for definition in &module {
                writeln!(out, "{}\t{}", definition.name, definition.oid)?;
            }
            Ok(true)
        }
    }
}

/// What does a stored value look like?
fn show_value(out: &mut impl Write) -> io::Result<()> {
    match Printer::new().octets(b"*1d.:1d", &[0x02, 0x0A, 0x0B, 0x05]) {
        Ok(printed) => writeln!(out, "value\t{printed}"),
        Err(refusal) => writeln!(out, "value refused\t{}\t{}\t{}", refusal.number, refusal.place, refusal.text()),
    }
}

/// What does a set do to a row? This one is notReady, columns are still missing, and the agent is willing.
fn show_row(out: &mut impl Write) -> io::Result<()> {
    let step = RowState::NotReady.set(RowValue::Active, false, true);
    writeln!(out, "row\t{}\t{}\t{}", step.answer.number(), step.next.number(), step.answer)
}
