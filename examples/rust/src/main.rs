//! Runs the log on standard input on the setup at a path, as `calvin run SETUP` does:
//!
//!     replay SETUP [PIECE]      feeds PIECE bytes at a time, or 4096

use calvin::{Fault, Session, Settings};
use std::io::{self, Read, Write};
use std::process::ExitCode;
use std::{env, fs};

/// Prints all that waits.
fn print_report(session: &mut Session) -> io::Result<()> {
    let mut piece = [0; 512];
    loop {
        match session.drain(&mut piece) {
            0 => return Ok(()),
            taken => io::stdout().write_all(&piece[..taken])?,
        }
    }
}

/// Feeds the log to its end, and prints each report as it comes.
fn replay(session: &mut Session, log: &[u8], piece: usize) -> io::Result<Result<(), Fault>> {
    for bytes in log.chunks(piece) {
        let fed = session.feed(bytes);
        print_report(session)?;
        if fed.is_err() {
            return Ok(fed);
        }
    }
    let ended = session.end();
    print_report(session)?;
    Ok(ended)
}

/// Says a fault on standard error, and gives the exit status that the program has for it.
fn told(fault: Fault) -> ExitCode {
    let status = match fault {
        Fault::Setup(_) | Fault::Line(_) => 1,
        Fault::Log { number, .. } if number != 37 => 1,
        Fault::Misused | Fault::NoTable => 2,
        Fault::Log { .. } | Fault::NoMemory => 3,
    };
    eprintln!("{fault}");
    ExitCode::from(status)
}

fn main() -> io::Result<ExitCode> {
    let words: Vec<String> = env::args().collect();
    let piece = words.get(2).and_then(|word| word.parse().ok()).unwrap_or(4096);
    let Some(path) = words.get(1).filter(|_| piece > 0) else {
        eprintln!("usage: replay SETUP [PIECE]");
        return Ok(ExitCode::from(2));
    };
    let mut session = match Session::open(&fs::read(path)?, Settings::default()) {
        Ok(session) => session,
        Err(fault) => return Ok(told(fault)),
    };
    let mut log = Vec::new();
    io::stdin().read_to_end(&mut log)?;
    match replay(&mut session, &log, piece)? {
        Ok(()) => Ok(ExitCode::SUCCESS),
        Err(fault) => Ok(told(fault)),
    }
}
