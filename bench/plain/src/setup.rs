//! Reads a setup: tables, procedures, starting rows, how often a stale call is tried again, and which digest there is.

use std::borrow::Cow;
use std::collections::HashMap;

use serde::de::IgnoredAny;
use serde::Deserialize;
use serde_json::Value as Json;

use crate::catalogue::Catalogue;
use crate::procedures;
use crate::store::Store;
use crate::syntax::Procedure;
use crate::value::Row;
use crate::Fallible;

/// What the digest of a batch line is made over: all rows, or the digests of the partitions.
#[derive(Clone, Copy, Default, Deserialize)]
#[serde(rename_all = "lowercase")]
pub enum DigestOf {
    #[default]
    Rows,
    Partitions,
}

/// What stays as it is while a log is run.
pub struct Setup {
    pub catalogue: Catalogue,
    pub procedures: HashMap<String, Procedure>,
    pub retries: u8,
    pub digest_of: DigestOf,
}

/// A name in a document, which is borrowed from it where it has no escapes.
#[derive(Deserialize)]
pub struct Name<'a>(#[serde(borrow)] pub Cow<'a, str>);

#[derive(Deserialize)]
struct RowDocument<'a>(#[serde(borrow)] Name<'a>, i64, Row);

/// The head word, the version and the rows.
#[derive(Deserialize)]
struct RowsDocument<'a>(IgnoredAny, IgnoredAny, #[serde(borrow)] Vec<RowDocument<'a>>);

/// The head word, the version, the catalogue, the procedures, the rows, the retries and what the digest is made over.
#[derive(Deserialize)]
struct SetupDocument<'a>(
    IgnoredAny,
    IgnoredAny,
    Json,
    Json,
    #[serde(borrow)] RowsDocument<'a>,
    #[serde(default)] u8,
    #[serde(default)] DigestOf,
);

/// A setup and its starting rows.
pub fn read(bytes: &[u8]) -> Fallible<(Setup, Store)> {
    let SetupDocument(_, _, catalogue, procedures, rows, retries, digest_of) = serde_json::from_slice(bytes)?;
    let catalogue = Catalogue::read(&catalogue)?;
    let procedures = procedures::read(&procedures, &catalogue)?;
    let mut store = Store::new(&catalogue);
    for RowDocument(table, key, row) in rows.2 {
        store.fill(catalogue.place(catalogue.table(&table.0)?, key), row);
    }
    Ok((Setup { catalogue, procedures, retries, digest_of }, store))
}
