//! Reads a log, and has its batches executed as they end.

use std::io::{BufRead, Write};

use serde::de::IgnoredAny;
use serde::Deserialize;

use crate::executor::{Call, Executor};
use crate::setup::{Name, Setup};
use crate::value::Value;
use crate::Fallible;

/// A line: a head word, and of a call the procedure's name and the values.
#[derive(Deserialize)]
struct Line<'a>(IgnoredAny, #[serde(borrow, default)] Option<Name<'a>>, #[serde(default)] Vec<Value>);

pub fn run<'a, W: Write>(log: &mut impl BufRead, setup: &'a Setup, mut executor: Executor<'a, W>) -> Fallible<()> {
    let (mut line, mut batch) = (Vec::new(), Vec::new());
    while log.read_until(b'\n', &mut line)? > 0 {
        match serde_json::from_slice(&line)? {
            Line(_, Some(name), values) => {
                let procedure = setup.procedures.get(&*name.0);
                let procedure = procedure.ok_or_else(|| format!("there is no procedure {}", name.0))?;
                batch.push(Call { procedure, values });
            }
            Line(..) => executor.execute(&mut batch)?,
        }
        line.clear();
    }
    if !batch.is_empty() {
        executor.execute(&mut batch)?;
    }
    executor.close()
}
