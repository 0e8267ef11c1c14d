//! The lines of a report, and their digests.

use std::io::Write;

use sha2::{Digest, Sha256};

use crate::catalogue::Table;
use crate::run::End;
use crate::setup::{DigestOf, Setup};
use crate::store::{Partition, Store};
use crate::value::{push_hex, push_number, push_values, Row, Value};
use crate::Fallible;

/// How much text goes to a hasher at once.
const CHUNK: usize = 1 << 14;

pub struct Report<'a, W> {
    setup: &'a Setup,
    out: W,
    batch: u64,
    /// The reply lines of the batch that is run, and the hasher of all reply lines.
    replies: Vec<u8>,
    all_replies: Sha256,
    rows: [u8; 32],
}

impl<'a, W: Write> Report<'a, W> {
    pub fn new(setup: &'a Setup, out: W) -> Self {
        let (replies, all_replies) = (Vec::new(), Sha256::new());
        Self { setup, out, batch: 0, replies, all_replies, rows: [0; 32] }
    }

    /// The reply line of an attempt at the call that was tried first as `first`.
    pub fn reply(&mut self, number: u64, first: u64, outcome: Result<&[Value], End>) {
        let out = &mut self.replies;
        push_number(out, number);
        if number != first {
            out.extend_from_slice(b" of ");
            push_number(out, first);
        }
        match outcome {
            Ok(values) => {
                out.extend_from_slice(b" commit");
                push_values(out, values);
            }
            Err(End::Abort(code)) => {
                out.extend_from_slice(b" abort ");
                push_number(out, code);
            }
            Err(End::Stale) => out.extend_from_slice(b" stale"),
        }
        out.push(b'\n');
    }

    /// Writes the reply lines of a batch and its batch line.
    pub fn end_batch(&mut self, store: &mut Store) -> Fallible<()> {
        self.batch += 1;
        self.out.write_all(&self.replies)?;
        self.all_replies.update(&self.replies);
        let replies = Sha256::digest(&self.replies);
        self.replies.clear();
        self.line("batch", self.batch, store, &replies)
    }

    /// Writes the end line.
    pub fn end(mut self, transactions: u64, store: &mut Store) -> Fallible<()> {
        let replies = self.all_replies.clone().finalize();
        self.line("end", transactions, store, &replies)
    }

    fn line(&mut self, word: &str, number: u64, store: &mut Store, replies: &[u8]) -> Fallible<()> {
        if store.take_changed() {
            self.rows = digest(&self.setup.catalogue.tables, store, self.setup.digest_of);
        }
        let (mut rows_word, mut replies_word) = (Vec::new(), Vec::new());
        push_hex(&mut rows_word, &self.rows);
        push_hex(&mut replies_word, replies);
        write!(self.out, "{word} {number} rows ")?;
        self.out.write_all(&rows_word)?;
        self.out.write_all(b" replies ")?;
        self.out.write_all(&replies_word)?;
        self.out.write_all(b"\n")?;
        Ok(self.out.flush()?)
    }
}

/// A text that is hashed as it is written.
struct Hashed {
    text: Vec<u8>,
    hasher: Sha256,
}

impl Hashed {
    fn new() -> Self {
        Self { text: Vec::with_capacity(2 * CHUNK), hasher: Sha256::new() }
    }

    fn row(&mut self, table: &Table, key: i64, row: &Row) {
        self.text.extend_from_slice(table.name.as_bytes());
        self.text.push(b' ');
        push_number(&mut self.text, key);
        push_values(&mut self.text, row);
        self.text.push(b'\n');
        if self.text.len() >= CHUNK {
            self.hasher.update(&self.text);
            self.text.clear();
        }
    }

    fn finished(mut self) -> [u8; 32] {
        self.hasher.update(&self.text);
        self.hasher.finalize().into()
    }
}

fn digest(tables: &[Table], store: &mut Store, of: DigestOf) -> [u8; 32] {
    match of {
        DigestOf::Rows => digest_of_rows(tables, store),
        DigestOf::Partitions => digest_of_partitions(tables, store),
    }
}

/// The digest of all row lines, those of a table by ascending key.
fn digest_of_rows(tables: &[Table], store: &Store) -> [u8; 32] {
    let mut hashed = Hashed::new();
    for (table, partitions) in tables.iter().zip(&store.tables) {
        let rows = partitions.iter().flat_map(|partition| &partition.rows);
        if table.is_ordered() {
            rows.for_each(|(key, row)| hashed.row(table, *key, row));
        } else {
            let mut rows: Vec<_> = rows.collect();
            rows.sort_unstable_by_key(|it| *it.0);
            for (key, row) in rows {
                hashed.row(table, *key, row);
            }
        }
    }
    hashed.finished()
}

/// The digest of a line for each partition that has a row, with the digest of its own row lines. That of a partition
/// whose rows are as they were is not made anew.
fn digest_of_partitions(tables: &[Table], store: &mut Store) -> [u8; 32] {
    let mut text = Vec::new();
    for (table, partitions) in tables.iter().zip(&mut store.tables) {
        let filled = partitions.iter_mut().enumerate().filter(|(_, partition)| !partition.rows.is_empty());
        for (number, partition) in filled {
            text.extend_from_slice(table.name.as_bytes());
            text.push(b' ');
            push_number(&mut text, number);
            text.push(b' ');
            push_hex(&mut text, &digest_of_partition(table, partition));
            text.push(b'\n');
        }
    }
    Sha256::digest(&text).into()
}

fn digest_of_partition(table: &Table, partition: &mut Partition) -> [u8; 32] {
    let rows = &partition.rows;
    *partition.digest.get_or_insert_with(|| {
        let mut hashed = Hashed::new();
        for (key, row) in rows {
            hashed.row(table, *key, row);
        }
        hashed.finished()
    })
}
