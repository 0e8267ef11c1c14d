//! Runs a log on a setup call by call, as a plain loop on one thread, and writes the report: `plain SETUP < LOG`.
//!
//! It takes setups of the versions 1 to 3 and logs without a fault, as `docs/language.md` has them, and writes the same
//! bytes as the executor. Where a document has a fault, it says so in words of its own and ends with status 1.

mod catalogue;
mod executor;
mod footprint;
mod log;
mod procedures;
mod report;
mod run;
mod setup;
mod store;
mod syntax;
mod value;

use std::error::Error;
use std::io::{self, BufReader, BufWriter};
use std::process::ExitCode;

use executor::Executor;

type Fallible<T> = Result<T, Box<dyn Error>>;

const BUFFER: usize = 1 << 16;

fn run() -> Fallible<()> {
    let path = std::env::args_os().nth(1).ok_or("usage: plain SETUP < LOG")?;
    let (setup, store) = setup::read(&std::fs::read(path)?)?;
    let mut log = BufReader::with_capacity(BUFFER, io::stdin().lock());
    let report = BufWriter::with_capacity(BUFFER, io::stdout().lock());
    log::run(&mut log, &setup, Executor::new(&setup, store, report))
}

fn main() -> ExitCode {
    match run() {
        Ok(()) => ExitCode::SUCCESS,
        Err(error) => {
            eprintln!("{error}");
            ExitCode::FAILURE
        }
    }
}
