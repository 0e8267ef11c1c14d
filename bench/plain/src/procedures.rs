//! Reads procedures from their documents.

use std::collections::HashMap;

use serde_json::Value as Json;

use crate::catalogue::{array, named_kind, number, text, Catalogue};
use crate::footprint::Right;
use crate::syntax::{
    Block, BoolExpr, Comparison, Entry, Footprint, IntExpr, Operator, Procedure, Slot, Statement, TextExpr, ValueExpr,
};
use crate::value::Kind;
use crate::Fallible;

/// The procedures of a document, by name.
pub fn read(document: &Json, catalogue: &Catalogue) -> Fallible<HashMap<String, Procedure>> {
    array(&document[2])?.iter().map(|it| Ok((text(&it[0])?.to_owned(), procedure(it, catalogue)?))).collect()
}

fn procedure(document: &Json, catalogue: &Catalogue) -> Fallible<Procedure> {
    let mut reader = Reader { catalogue, seen: Vec::new(), ints: 0, texts: 0 };
    for parameter in array(&document[1])? {
        let (name, kind) = named_kind(parameter)?;
        reader.declare(&name, kind);
    }
    let footprint = reader.footprint(&document[2])?;
    let body = reader.block(&document[3])?;
    Ok(Procedure { footprint, body, ints: reader.ints, texts: reader.texts })
}

/// Reads one procedure. The variables that are seen at a place are a stack, the innermost last.
struct Reader<'a> {
    catalogue: &'a Catalogue,
    seen: Vec<(String, Slot)>,
    ints: usize,
    texts: usize,
}

impl Reader<'_> {
    fn declare(&mut self, name: &str, kind: Kind) -> Slot {
        let (slot, count) = match kind {
            Kind::Int => (Slot::Int(self.ints), &mut self.ints),
            Kind::Text => (Slot::Text(self.texts), &mut self.texts),
        };
        *count += 1;
        self.seen.push((name.to_owned(), slot));
        slot
    }

    fn variable(&self, name: &str) -> Option<Slot> {
        self.seen.iter().rev().find(|it| it.0 == name).map(|it| it.1)
    }

    fn seen_variable(&self, name: &str) -> Fallible<Slot> {
        Ok(self.variable(name).ok_or_else(|| format!("no variable {name} is seen"))?)
    }

    /// The variable that a statement puts a value into, which it declares where there is none yet.
    fn target(&mut self, name: &Json, kind: Kind) -> Fallible<Slot> {
        let name = text(name)?;
        Ok(self.variable(name).unwrap_or_else(|| self.declare(name, kind)))
    }

    fn table(&self, document: &Json) -> Fallible<usize> {
        self.catalogue.table(text(document)?)
    }

    fn column(&self, table: usize, document: &Json) -> Fallible<usize> {
        self.catalogue.column(table, text(document)?)
    }

    fn footprint(&self, document: &Json) -> Fallible<Footprint> {
        match array(document)? {
            [head, entries @ ..] if head == "declared" => {
                Ok(Footprint::Declared(entries.iter().map(|it| self.entry(it)).collect::<Fallible<_>>()?))
            }
            _ => Ok(Footprint::Found),
        }
    }

    fn entry(&self, document: &Json) -> Fallible<Entry> {
        let right = if document[1] == "w" { Right::Write } else { Right::Read };
        let head = text(&document[0])?;
        if head == "db" {
            return Ok(Entry::Database { right });
        }
        let table = self.table(&document[2])?;
        match head {
            "row" => Ok(Entry::Row { right, table, key: self.int(&document[3])? }),
            "rows" => Ok(Entry::Rows { right, table, low: self.int(&document[3])?, high: self.int(&document[4])? }),
            "part" => Ok(Entry::Part { right, table, part: self.int(&document[3])? }),
            _ => Ok(Entry::Table { right, table }),
        }
    }

    fn block(&mut self, document: &Json) -> Fallible<Block> {
        let outside = self.seen.len();
        let block = array(document)?.iter().map(|it| self.statement(it)).collect();
        self.seen.truncate(outside);
        block
    }

    /// The block of a loop and the variable that each turn sets, which is seen in the block alone.
    fn turns(&mut self, variable: &Json, document: &Json) -> Fallible<(usize, Block)> {
        let outside = self.seen.len();
        let place = self.ints;
        self.declare(text(variable)?, Kind::Int);
        let block = self.block(document);
        self.seen.truncate(outside);
        Ok((place, block?))
    }

    fn statement(&mut self, it: &Json) -> Fallible<Statement> {
        Ok(match text(&it[0])? {
            "let" => self.assignment(it)?,
            "get" | "put" | "insert" | "delete" => self.access(it)?,
            "if" => Statement::If {
                condition: self.boolean(&it[1])?,
                then: self.block(&it[2])?,
                otherwise: self.block(&it[3])?,
            },
            "for" => {
                let (low, high) = (self.int(&it[2])?, self.int(&it[3])?);
                let (turn, body) = self.turns(&it[1], &it[4])?;
                Statement::For { turn, low, high, body }
            }
            "each" => {
                let (table, part) = (self.table(&it[2])?, self.int(&it[3])?);
                let (key, body) = self.turns(&it[1], &it[4])?;
                Statement::Each { key, table, part, body }
            }
            "abort" => Statement::Abort(u16::try_from(number(&it[1])?)?),
            _ => Statement::Reply(self.values(&array(it)?[1..])?),
        })
    }

    fn assignment(&mut self, it: &Json) -> Fallible<Statement> {
        let value = self.value(&it[2])?;
        let kind = if let ValueExpr::Int(_) = value { Kind::Int } else { Kind::Text };
        match (self.target(&it[1], kind)?, value) {
            (Slot::Int(place), ValueExpr::Int(value)) => Ok(Statement::LetInt(place, value)),
            (Slot::Text(place), ValueExpr::Text(value)) => Ok(Statement::LetText(place, value)),
            _ => Err(format!("{it} changes a variable of another type").into()),
        }
    }

    fn access(&mut self, it: &Json) -> Fallible<Statement> {
        let head = text(&it[0])?;
        let arguments = if head == "get" { &array(it)?[2..] } else { &array(it)?[1..] };
        let table = self.table(&arguments[0])?;
        let key = self.int(&arguments[1])?;
        Ok(match head {
            "get" => {
                let column = self.column(table, &arguments[2])?;
                let to = self.target(&it[1], self.catalogue.tables[table].columns[column].1)?;
                Statement::Get { to, table, key, column }
            }
            "put" => {
                let column = self.column(table, &arguments[2])?;
                Statement::Put { table, key, column, value: self.value(&arguments[3])? }
            }
            "insert" => Statement::Insert { table, key, values: self.values(array(&arguments[2])?)? },
            _ => Statement::Delete { table, key },
        })
    }

    fn values(&self, documents: &[Json]) -> Fallible<Vec<ValueExpr>> {
        documents.iter().map(|it| self.value(it)).collect()
    }

    fn value(&self, document: &Json) -> Fallible<ValueExpr> {
        if let Json::String(name) = document {
            return Ok(match self.seen_variable(name)? {
                Slot::Int(place) => ValueExpr::Int(IntExpr::Variable(place)),
                Slot::Text(place) => ValueExpr::Text(TextExpr::Variable(place)),
            });
        }
        if document[0] == "text" {
            return Ok(ValueExpr::Text(TextExpr::Literal(text(&document[1])?.into())));
        }
        self.int(document).map(ValueExpr::Int)
    }

    fn int(&self, document: &Json) -> Fallible<IntExpr> {
        match document {
            Json::String(name) => match self.seen_variable(name)? {
                Slot::Int(place) => Ok(IntExpr::Variable(place)),
                Slot::Text(_) => Err(format!("{name} is a text").into()),
            },
            Json::Array(words) => self.computed(words),
            _ => number(document).map(IntExpr::Number),
        }
    }

    fn computed(&self, words: &[Json]) -> Fallible<IntExpr> {
        let operator = match text(&words[0])? {
            "+" => Operator::Add,
            "-" => Operator::Subtract,
            "*" => Operator::Multiply,
            "/" => Operator::Divide,
            "%" => Operator::Remainder,
            head => {
                let table = self.table(&words[1])?;
                let part = Box::new(self.int(&words[2])?);
                return match head {
                    "count" => Ok(IntExpr::Count { table, part }),
                    "sum" => Ok(IntExpr::Sum { table, part, column: self.column(table, &words[3])? }),
                    _ => Err(format!("{head} is no operator of numbers").into()),
                };
            }
        };
        Ok(IntExpr::Binary(operator, Box::new(self.int(&words[1])?), Box::new(self.int(&words[2])?)))
    }

    fn boolean(&self, it: &Json) -> Fallible<BoolExpr> {
        let operand = |place: usize| self.boolean(&it[place]).map(Box::new);
        Ok(match text(&it[0])? {
            "and" => BoolExpr::And(operand(1)?, operand(2)?),
            "or" => BoolExpr::Or(operand(1)?, operand(2)?),
            "not" => BoolExpr::Not(operand(1)?),
            "exists" => BoolExpr::Exists { table: self.table(&it[1])?, key: self.int(&it[2])? },
            "=" => self.comparison(Comparison::Equal, it)?,
            "<>" => self.comparison(Comparison::Unequal, it)?,
            "<" => self.comparison(Comparison::Less, it)?,
            "<=" => self.comparison(Comparison::AtMost, it)?,
            head => return Err(format!("{head} is no test").into()),
        })
    }

    fn comparison(&self, comparison: Comparison, it: &Json) -> Fallible<BoolExpr> {
        match (self.value(&it[1])?, self.value(&it[2])?) {
            (ValueExpr::Int(left), ValueExpr::Int(right)) => Ok(BoolExpr::Numbers(comparison, left, right)),
            (ValueExpr::Text(left), ValueExpr::Text(right)) => {
                Ok(BoolExpr::Texts { are_same: matches!(comparison, Comparison::Equal), left, right })
            }
            _ => Err(format!("{it} compares a number with a text").into()),
        }
    }
}
