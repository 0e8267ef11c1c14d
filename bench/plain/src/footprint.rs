//! Footprints: what a call may touch. One that is declared grants rights by table; one that is found is a sorted list.

use std::cmp::Reverse;

use crate::run::End;
use crate::store::Place;

#[derive(Clone, Copy, PartialEq, Eq, PartialOrd, Ord)]
pub enum Right {
    Read,
    Write,
}

/// What has to be granted for an access: a row, or a partition to read.
#[derive(Clone, Copy, PartialEq, Eq, PartialOrd, Ord)]
pub enum Resource {
    Part { table: usize, part: usize },
    Row { table: usize, key: i64 },
}

/// What a call is held to: each access is granted, or the end of the call.
pub trait Cover {
    fn row(&mut self, place: Place, right: Right) -> Result<(), End>;
    fn part(&mut self, table: usize, part: usize) -> Result<(), End>;
}

/// The rights in one table: in all of it, in partitions, and in rows by ranges of keys.
#[derive(Default)]
struct TableRights {
    whole: Option<Right>,
    parts: Vec<(usize, Right)>,
    rows: Vec<(i64, i64, Right)>,
}

/// A footprint that was declared. It is filled for one call after another.
#[derive(Default)]
pub struct Declared {
    database: Option<Right>,
    tables: Vec<TableRights>,
}

impl Declared {
    pub fn new(tables: usize) -> Self {
        Self { database: None, tables: std::iter::repeat_with(TableRights::default).take(tables).collect() }
    }

    pub fn clear(&mut self) {
        self.database = None;
        for table in &mut self.tables {
            table.whole = None;
            table.parts.clear();
            table.rows.clear();
        }
    }

    pub fn grant_rows(&mut self, table: usize, low: i64, high: i64, right: Right) {
        self.tables[table].rows.push((low, high, right));
    }

    pub fn grant_part(&mut self, table: usize, part: usize, right: Right) {
        self.tables[table].parts.push((part, right));
    }

    pub fn grant_table(&mut self, table: usize, right: Right) {
        let whole = &mut self.tables[table].whole;
        *whole = (*whole).max(Some(right));
    }

    pub fn grant_database(&mut self, right: Right) {
        self.database = self.database.max(Some(right));
    }

    fn has_part(&self, table: usize, part: usize, right: Right) -> bool {
        let rights = &self.tables[table];
        let is_granted = |it: &(usize, Right)| it.0 == part && it.1 >= right;
        rights.parts.iter().any(is_granted) || rights.whole.max(self.database) >= Some(right)
    }
}

impl Cover for Declared {
    fn row(&mut self, place: Place, right: Right) -> Result<(), End> {
        let key = place.key;
        let rows = &self.tables[place.table].rows;
        let has_row = rows.iter().any(|&(low, high, granted)| low <= key && key <= high && granted >= right);
        if has_row || self.has_part(place.table, place.part, right) {
            Ok(())
        } else {
            Err(End::Abort(9))
        }
    }

    fn part(&mut self, table: usize, part: usize) -> Result<(), End> {
        if self.has_part(table, part, Right::Read) {
            Ok(())
        } else {
            Err(End::Abort(9))
        }
    }
}

/// A footprint that reconnaissance finds: while it does so, each access is granted and noted.
#[derive(Default)]
pub struct Found {
    touched: Vec<(Resource, Right)>,
}

impl Found {
    /// What was noted, each resource once with its greatest right.
    pub fn finished(mut self) -> Finished {
        self.touched.sort_unstable_by_key(|it| (it.0, Reverse(it.1)));
        self.touched.dedup_by_key(|it| it.0);
        Finished { touched: self.touched }
    }
}

impl Cover for Found {
    fn row(&mut self, place: Place, right: Right) -> Result<(), End> {
        self.touched.push((Resource::Row { table: place.table, key: place.key }, right));
        Ok(())
    }

    fn part(&mut self, table: usize, part: usize) -> Result<(), End> {
        self.touched.push((Resource::Part { table, part }, Right::Read));
        Ok(())
    }
}

/// A footprint that was found, by ascending resource: a call that touches more is stale.
pub struct Finished {
    touched: Vec<(Resource, Right)>,
}

impl Finished {
    fn has(&self, resource: Resource, right: Right) -> bool {
        let found = self.touched.binary_search_by_key(&resource, |it| it.0);
        found.is_ok_and(|place| self.touched[place].1 >= right)
    }
}

impl Cover for Finished {
    fn row(&mut self, place: Place, right: Right) -> Result<(), End> {
        let Place { table, part, key } = place;
        let is_read_of_part = right == Right::Read && self.has(Resource::Part { table, part }, right);
        if is_read_of_part || self.has(Resource::Row { table, key }, right) {
            Ok(())
        } else {
            Err(End::Stale)
        }
    }

    fn part(&mut self, table: usize, part: usize) -> Result<(), End> {
        if self.has(Resource::Part { table, part }, Right::Read) {
            Ok(())
        } else {
            Err(End::Stale)
        }
    }
}
