//! Executes batches of calls one by one, and writes what comes of them.

use std::io::Write;

use crate::footprint::{Declared, Finished, Found};
use crate::report::Report;
use crate::run::{End, Frame, Run};
use crate::setup::Setup;
use crate::store::Store;
use crate::syntax::{Entry, Footprint, Procedure};
use crate::value::Value;
use crate::Fallible;

pub struct Call<'a> {
    pub procedure: &'a Procedure,
    pub values: Vec<Value>,
}

/// A call that is to be tried: as which transaction it was tried first, and how often it may be tried again.
struct Attempt<'a> {
    call: Call<'a>,
    first: u64,
    left: u8,
}

/// What a call is held to: the entries that it declares, or what reconnaissance has found.
enum Footing<'a> {
    Declared(&'a [Entry]),
    Found(Finished),
}

pub struct Executor<'a, W> {
    setup: &'a Setup,
    store: Store,
    frame: Frame,
    declared: Declared,
    report: Report<'a, W>,
    carried: Vec<Attempt<'a>>,
    next: u64,
}

impl<'a, W: Write> Executor<'a, W> {
    pub fn new(setup: &'a Setup, store: Store, out: W) -> Self {
        Self {
            setup,
            store,
            frame: Frame::default(),
            declared: Declared::new(setup.catalogue.tables.len()),
            report: Report::new(setup, out),
            carried: Vec::new(),
            next: 0,
        }
    }

    /// Executes a batch: the calls that are carried, and then those that are given, which it takes.
    pub fn execute(&mut self, calls: &mut Vec<Call<'a>>) -> Fallible<()> {
        let mut attempts = std::mem::take(&mut self.carried);
        let own = self.next + attempts.len() as u64;
        let left = self.setup.retries;
        attempts.extend(calls.drain(..).zip(own..).map(|(call, first)| Attempt { call, first, left }));
        let footings: Vec<_> = attempts.iter().map(|attempt| self.footing(&attempt.call)).collect();
        for (attempt, footing) in attempts.into_iter().zip(footings) {
            self.attempt(attempt, footing);
        }
        self.report.end_batch(&mut self.store)
    }

    /// Runs what is still carried, and ends the report.
    pub fn close(mut self) -> Fallible<()> {
        while !self.carried.is_empty() {
            self.execute(&mut Vec::new())?;
        }
        self.report.end(self.next, &mut self.store)
    }

    fn attempt(&mut self, attempt: Attempt<'a>, footing: Footing) {
        let outcome = self.run(&attempt.call, footing);
        let number = self.next;
        self.next += 1;
        self.report.reply(number, attempt.first, outcome.map(|()| self.frame.reply.as_slice()));
        if matches!(outcome, Err(End::Stale)) && attempt.left > 0 {
            self.carried.push(Attempt { left: attempt.left - 1, ..attempt });
        }
    }

    /// The footing of a call on the rows at the start of its batch. Where none is declared, it is what the call touches
    /// until it ends, however it ends.
    fn footing(&mut self, call: &Call<'a>) -> Footing<'a> {
        let procedure = call.procedure;
        if let Footprint::Declared(entries) = &procedure.footprint {
            return Footing::Declared(entries);
        }
        self.frame.begin(procedure, &call.values);
        let mut cover = Found::default();
        let _ = run(self.setup, &mut self.store, &mut self.frame, &mut cover).block(&procedure.body);
        self.store.roll_back();
        Footing::Found(cover.finished())
    }

    fn run(&mut self, call: &Call, footing: Footing) -> Result<(), End> {
        let body = &call.procedure.body;
        self.frame.begin(call.procedure, &call.values);
        let outcome = match footing {
            Footing::Declared(entries) => {
                let mut run = run(self.setup, &mut self.store, &mut self.frame, &mut self.declared);
                run.declare(entries).and_then(|()| run.block(body))
            }
            Footing::Found(mut found) => run(self.setup, &mut self.store, &mut self.frame, &mut found).block(body),
        };
        match outcome {
            Ok(()) => self.store.commit(),
            Err(_) => self.store.roll_back(),
        }
        outcome
    }
}

fn run<'a, C>(setup: &'a Setup, store: &'a mut Store, frame: &'a mut Frame, cover: &'a mut C) -> Run<'a, C> {
    Run { catalogue: &setup.catalogue, store, frame, cover, steps: 0 }
}
