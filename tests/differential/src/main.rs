//! Gives many generated inputs to the reading and to the library, over some
//! threads, and says where they differ:
//!
//! `differential --count N --seed S [--first I] [--threads T] [--every] [--kept FOLDER]`
//!
//! Each difference is printed with the seed and the index that make its input
//! again (`--first` with `--count 1`), and the input is kept in a file. With
//! `--every` each answer of the paper must occur. The exit status is 1 where
//! something differs or is missing.

use std::collections::BTreeMap;
use std::path::{Path, PathBuf};
use std::process::ExitCode;
use std::sync::atomic::{AtomicU64, Ordering};
use std::sync::Mutex;
use std::{fs, io, thread};

use differential::compare::{Lent, CALLS};
use reading::inputs::{input, Input};

const USAGE: &str =
    "differential --count N --seed S [--first I] [--threads T] [--every] [--kept FOLDER]";

/// Inputs that a thread takes at a time.
const BATCH: u64 = 64;

/// The library may keep large arrays on the stack.
const STACK: usize = 16 << 20;

struct Options {
    count: u64,
    seed: u64,
    first: u64,
    threads: u64,
    every: bool,
    kept: PathBuf,
}

fn options() -> Option<Options> {
    let folder = format!("differential-{}", std::process::id());
    let mut options = Options {
        count: 10_000,
        seed: 1,
        first: 0,
        threads: 2,
        every: false,
        kept: std::env::temp_dir().join(folder),
    };
    let mut arguments = std::env::args().skip(1);
    while let Some(argument) = arguments.next() {
        if argument == "--every" {
            options.every = true;
            continue;
        }
        let value = arguments.next()?;
        match argument.as_str() {
            "--count" => options.count = value.parse().ok()?,
            "--seed" => options.seed = value.parse().ok()?,
            "--first" => options.first = value.parse().ok()?,
            "--threads" => options.threads = value.parse().ok().filter(|n| *n > 0)?,
            "--kept" => options.kept = PathBuf::from(value),
            _ => return None,
        }
    }
    Some(options)
}

/// How often each answer of each call occurred, and the differences.
#[derive(Default)]
struct Tally {
    answers: BTreeMap<(usize, u32), u64>,
    differences: u64,
}

impl Tally {
    fn add(&mut self, other: Tally) {
        for (answer, times) in other.answers {
            *self.answers.entry(answer).or_default() += times;
        }
        self.differences += other.differences;
    }
}

fn main() -> ExitCode {
    let Some(options) = options() else {
        eprintln!("usage: {USAGE}");
        return ExitCode::from(2);
    };
    let tally = run(&options);
    let missing = if options.every {
        say_answers(&tally)
    } else {
        0
    };
    println!(
        "{} inputs, {} differences",
        options.count, tally.differences
    );
    ExitCode::from(u8::from(tally.differences > 0 || missing > 0))
}

fn run(options: &Options) -> Tally {
    let next = AtomicU64::new(0);
    let whole = Mutex::new(Tally::default());
    thread::scope(|scope| {
        for _ in 0..options.threads {
            let work = || {
                let tally = some_batches(options, &next);
                whole.lock().expect("no thread fails").add(tally);
            };
            thread::Builder::new()
                .stack_size(STACK)
                .spawn_scoped(scope, work)
                .expect("a thread starts");
        }
    });
    whole.into_inner().expect("no thread fails")
}

/// Batches of inputs until none is left.
fn some_batches(options: &Options, next: &AtomicU64) -> Tally {
    let mut tally = Tally::default();
    let mut counts = [[0u64; 64]; CALLS.len()];
    let mut lent = Lent::new();
    loop {
        let start = next.fetch_add(BATCH, Ordering::Relaxed);
        if start >= options.count {
            break;
        }
        for i in start..options.count.min(start + BATCH) {
            let index = options.first + i;
            let input = input(options.seed, index);
            let outcome = lent.compare(&input);
            counts[outcome.call as usize][outcome.number as usize] += 1;
            if let Some(difference) = outcome.difference {
                tally.differences += 1;
                tell(options, index, &input, &difference);
            }
        }
    }
    for (call, counts) in counts.iter().enumerate() {
        for (number, times) in counts.iter().enumerate() {
            if *times > 0 {
                tally.answers.insert((call, number as u32), *times);
            }
        }
    }
    tally
}

fn tell(options: &Options, index: u64, input: &Input, difference: &str) {
    let file = options
        .kept
        .join(format!("seed-{}-input-{index}", options.seed));
    let kept = match keep(&file, input) {
        Ok(()) => format!("kept in {}", file.display()),
        Err(error) => format!("not kept: {error}"),
    };
    println!("seed {} input {index}: {difference}; {kept}", options.seed);
}

/// A module's text as it is; other inputs as a line that names their parts.
fn keep(file: &Path, input: &Input) -> io::Result<()> {
    if let Some(folder) = file.parent() {
        fs::create_dir_all(folder)?;
    }
    match input {
        Input::Module(module) => fs::write(file, &module.text),
        Input::Octets(octets) => fs::write(
            file,
            format!(
                "octets under hint \"{}\": {:02x?}, {} bytes lent\n",
                octets.hint.escape_ascii(),
                octets.octets,
                octets.buffer
            ),
        ),
        Input::Integer(integer) => fs::write(
            file,
            format!(
                "integer under hint \"{}\": {}, {} bytes lent\n",
                integer.hint.escape_ascii(),
                integer.value,
                integer.buffer
            ),
        ),
        Input::Row(row) => fs::write(
            file,
            format!(
                "row in state {}: value {}, complete {}, willing {}\n",
                row.state, row.value, row.complete, row.willing
            ),
        ),
    }
}

/// Prints how often each answer occurred; the answer is how many never did.
fn say_answers(tally: &Tally) -> usize {
    let mut missing = 0;
    for (i, call) in CALLS.iter().enumerate() {
        let times = |number: &u32| tally.answers.get(&(i, *number)).copied().unwrap_or(0);
        for number in call.answers() {
            println!("{call:?} {number}: {}", times(&number));
        }
        for number in call.answers().iter().filter(|number| times(number) == 0) {
            println!("{call:?}: no input is answered by {number}");
            missing += 1;
        }
    }
    missing
}
