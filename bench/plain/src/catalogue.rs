//! The catalogue: tables, their columns, and how their keys are split into partitions.

use serde_json::Value as Json;

use crate::store::Place;
use crate::value::Kind;
use crate::Fallible;

/// How a table's keys are split: by the remainder of a division, or at bounds, each the least key of the next part.
enum Split {
    Remainder(i64),
    Bounds(Vec<i64>),
}

pub struct Table {
    pub name: String,
    pub columns: Vec<(String, Kind)>,
    split: Split,
}

/// The tables, in declared order.
pub struct Catalogue {
    pub tables: Vec<Table>,
}

impl Table {
    /// How many partitions there are.
    pub fn parts(&self) -> usize {
        match &self.split {
            Split::Remainder(parts) => *parts as usize,
            Split::Bounds(bounds) => bounds.len() + 1,
        }
    }

    /// The partition of a key, which isn't negative.
    fn part_of(&self, key: i64) -> usize {
        match &self.split {
            Split::Remainder(parts) => (key % parts) as usize,
            Split::Bounds(bounds) => bounds.partition_point(|bound| *bound <= key),
        }
    }

    /// Whether the keys of each partition are all above those of the one before it.
    pub fn is_ordered(&self) -> bool {
        matches!(self.split, Split::Bounds(_) | Split::Remainder(1))
    }
}

impl Catalogue {
    pub fn read(document: &Json) -> Fallible<Self> {
        let tables = array(&document[2])?.iter().map(table).collect::<Fallible<_>>()?;
        Ok(Self { tables })
    }

    /// Where the row of a table with a key is, or would be.
    pub fn place(&self, table: usize, key: i64) -> Place {
        Place { table, part: self.tables[table].part_of(key), key }
    }

    /// The place of the table with a name.
    pub fn table(&self, name: &str) -> Fallible<usize> {
        let place = self.tables.iter().position(|table| table.name == name);
        Ok(place.ok_or_else(|| format!("there is no table {name}"))?)
    }

    /// The place of a table's column with a name.
    pub fn column(&self, table: usize, name: &str) -> Fallible<usize> {
        let place = self.tables[table].columns.iter().position(|column| column.0 == name);
        Ok(place.ok_or_else(|| format!("there is no column {name}"))?)
    }
}

fn table(document: &Json) -> Fallible<Table> {
    let columns = array(&document[2])?;
    Ok(Table {
        name: text(&document[0])?.to_owned(),
        columns: columns.iter().map(named_kind).collect::<Fallible<_>>()?,
        split: split(&document[1])?,
    })
}

fn split(document: &Json) -> Fallible<Split> {
    match document {
        Json::Array(words) => Ok(Split::Bounds(words.iter().skip(1).map(number).collect::<Fallible<_>>()?)),
        parts => Ok(Split::Remainder(number(parts)?)),
    }
}

/// A name and the type of its values, as `["cents","int"]`.
pub fn named_kind(document: &Json) -> Fallible<(String, Kind)> {
    let kind = match text(&document[1])? {
        "int" => Kind::Int,
        "text" => Kind::Text,
        other => return Err(format!("{other} is no type").into()),
    };
    Ok((text(&document[0])?.to_owned(), kind))
}

pub fn array(document: &Json) -> Fallible<&[Json]> {
    Ok(document.as_array().ok_or_else(|| format!("{document} is no array"))?)
}

pub fn text(document: &Json) -> Fallible<&str> {
    Ok(document.as_str().ok_or_else(|| format!("{document} is no text"))?)
}

pub fn number(document: &Json) -> Fallible<i64> {
    Ok(document.as_i64().ok_or_else(|| format!("{document} is no number"))?)
}
