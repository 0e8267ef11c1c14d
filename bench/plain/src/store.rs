//! The rows, by table and partition, and the changes of the call that is run, which can be taken back.

use std::collections::BTreeMap;

use crate::catalogue::Catalogue;
use crate::value::{Row, Value};

/// Where a row is, or would be.
#[derive(Clone, Copy)]
pub struct Place {
    pub table: usize,
    pub part: usize,
    pub key: i64,
}

/// The rows of a partition, and the digest of their lines while they stay as they are.
#[derive(Default)]
pub struct Partition {
    pub rows: BTreeMap<i64, Row>,
    pub digest: Option<[u8; 32]>,
}

/// What a change has to be taken back to.
enum Before {
    NoRow,
    Row(Row),
    Column(usize, Value),
}

pub struct Store {
    pub tables: Vec<Vec<Partition>>,
    changes: Vec<(Place, Before)>,
    has_changed: bool,
}

impl Store {
    pub fn new(catalogue: &Catalogue) -> Self {
        let partitions = |parts| std::iter::repeat_with(Partition::default).take(parts).collect();
        let tables = catalogue.tables.iter().map(|table| partitions(table.parts())).collect();
        Self { tables, changes: Vec::new(), has_changed: true }
    }

    fn rows(&mut self, place: Place) -> &mut BTreeMap<i64, Row> {
        &mut self.tables[place.table][place.part].rows
    }

    pub fn row(&self, place: Place) -> Option<&Row> {
        self.tables[place.table][place.part].rows.get(&place.key)
    }

    /// Puts a row where there is none. It is not a change of a call.
    pub fn fill(&mut self, place: Place, row: Row) {
        self.rows(place).insert(place.key, row);
    }

    /// Changes a column of a row, or tells that there is no such row.
    pub fn put(&mut self, place: Place, column: usize, value: Value) -> Option<()> {
        let row = self.rows(place).get_mut(&place.key)?;
        let before = std::mem::replace(&mut row[column], value);
        self.changes.push((place, Before::Column(column, before)));
        Some(())
    }

    /// Puts a row where there is none, or tells that there is one.
    pub fn insert(&mut self, place: Place, row: Row) -> Option<()> {
        if self.row(place).is_some() {
            return None;
        }
        self.fill(place, row);
        self.changes.push((place, Before::NoRow));
        Some(())
    }

    /// Takes a row away, or tells that there is none.
    pub fn delete(&mut self, place: Place) -> Option<()> {
        let row = self.rows(place).remove(&place.key)?;
        self.changes.push((place, Before::Row(row)));
        Some(())
    }

    /// Ends a call whose changes stay.
    pub fn commit(&mut self) {
        self.has_changed |= !self.changes.is_empty();
        for (place, _) in self.changes.drain(..) {
            self.tables[place.table][place.part].digest = None;
        }
    }

    /// Ends a call whose changes are taken back, the last one first.
    pub fn roll_back(&mut self) {
        while let Some((place, before)) = self.changes.pop() {
            let rows = self.rows(place);
            match before {
                Before::NoRow => {
                    rows.remove(&place.key);
                }
                Before::Row(row) => {
                    rows.insert(place.key, row);
                }
                Before::Column(column, value) => {
                    if let Some(row) = rows.get_mut(&place.key) {
                        row[column] = value;
                    }
                }
            }
        }
    }

    /// Whether a call has changed rows since this was last asked.
    pub fn take_changed(&mut self) -> bool {
        std::mem::take(&mut self.has_changed)
    }
}
