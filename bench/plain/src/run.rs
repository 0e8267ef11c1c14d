//! Runs the body of a procedure on the rows.

use std::rc::Rc;

use crate::catalogue::Catalogue;
use crate::footprint::{Cover, Declared, Right};
use crate::store::{Place, Store};
use crate::syntax::{
    Block, BoolExpr, Comparison, Entry, IntExpr, Operator, Procedure, Slot, Statement, TextExpr, ValueExpr,
};
use crate::value::Value;

const MOST_STEPS: u32 = 10_000;
const MOST_REPLIED: usize = 64;
const MOST_NAMED: i128 = 65_536;

/// How a call ends that changes nothing.
#[derive(Clone, Copy)]
pub enum End {
    Abort(u16),
    Stale,
}

type Outcome<T> = Result<T, End>;

/// The variables and the reply of a call. Their memory is kept from call to call.
#[derive(Default)]
pub struct Frame {
    ints: Vec<i64>,
    texts: Vec<Rc<str>>,
    pub reply: Vec<Value>,
}

impl Frame {
    /// Starts a call with its values.
    pub fn begin(&mut self, procedure: &Procedure, values: &[Value]) {
        self.ints.clear();
        self.texts.clear();
        self.reply.clear();
        for value in values {
            match value {
                Value::Int(number) => self.ints.push(*number),
                Value::Text(text) => self.texts.push(Rc::clone(text)),
            }
        }
        self.ints.resize(procedure.ints, 0);
        self.texts.resize_with(procedure.texts, || Rc::from(""));
    }
}

/// The run of a call on the rows, held to what a cover grants.
pub struct Run<'a, C> {
    pub catalogue: &'a Catalogue,
    pub store: &'a mut Store,
    pub frame: &'a mut Frame,
    pub cover: &'a mut C,
    pub steps: u32,
}

impl<C: Cover> Run<'_, C> {
    pub fn block(&mut self, block: &Block) -> Outcome<()> {
        block.iter().try_for_each(|statement| self.statement(statement))
    }

    fn step(&mut self) -> Outcome<()> {
        self.steps += 1;
        if self.steps > MOST_STEPS {
            return Err(End::Abort(8));
        }
        Ok(())
    }

    fn statement(&mut self, statement: &Statement) -> Outcome<()> {
        self.step()?;
        match statement {
            Statement::LetInt(place, value) => self.frame.ints[*place] = self.int(value)?,
            Statement::LetText(place, value) => self.frame.texts[*place] = self.text(value),
            Statement::Get { to, table, key, column } => self.get(*to, *table, key, *column)?,
            Statement::Put { table, key, column, value } => self.put(*table, key, *column, value)?,
            Statement::Insert { table, key, values } => self.insert(*table, key, values)?,
            Statement::Delete { table, key } => {
                let key = self.int(key)?;
                let place = self.row(*table, key, Right::Write)?;
                self.store.delete(place).ok_or(End::Abort(1))?;
            }
            Statement::If { condition, then, otherwise } => {
                let block = if self.boolean(condition)? { then } else { otherwise };
                self.block(block)?;
            }
            Statement::For { turn, low, high, body } => {
                let (low, high) = (self.int(low)?, self.int(high)?);
                self.turns(*turn, low..=high, body)?;
            }
            Statement::Each { key, table, part, body } => {
                let part = self.part(*table, part)?;
                let keys: Vec<i64> = self.store.tables[*table][part].rows.keys().copied().collect();
                self.turns(*key, keys, body)?;
            }
            Statement::Abort(code) => return Err(End::Abort(*code)),
            Statement::Reply(values) => self.reply(values)?,
        }
        Ok(())
    }

    fn turns(&mut self, variable: usize, numbers: impl IntoIterator<Item = i64>, body: &Block) -> Outcome<()> {
        for number in numbers {
            self.step()?;
            self.frame.ints[variable] = number;
            self.block(body)?;
        }
        Ok(())
    }

    fn get(&mut self, to: Slot, table: usize, key: &IntExpr, column: usize) -> Outcome<()> {
        let key = self.int(key)?;
        let place = self.row(table, key, Right::Read)?;
        let row = self.store.row(place).ok_or(End::Abort(1))?;
        match (to, &row[column]) {
            (Slot::Int(place), Value::Int(number)) => self.frame.ints[place] = *number,
            (Slot::Text(place), Value::Text(text)) => self.frame.texts[place] = Rc::clone(text),
            _ => unreachable!("a variable has the type of its column"),
        }
        Ok(())
    }

    fn put(&mut self, table: usize, key: &IntExpr, column: usize, value: &ValueExpr) -> Outcome<()> {
        let key = self.int(key)?;
        let value = self.value(value)?;
        let place = self.row(table, key, Right::Write)?;
        self.store.put(place, column, value).ok_or(End::Abort(1))
    }

    fn insert(&mut self, table: usize, key: &IntExpr, values: &[ValueExpr]) -> Outcome<()> {
        let key = self.int(key)?;
        let row = values.iter().map(|value| self.value(value)).collect::<Outcome<_>>()?;
        let place = self.row(table, key, Right::Write)?;
        self.store.insert(place, row).ok_or(End::Abort(2))
    }

    fn reply(&mut self, values: &[ValueExpr]) -> Outcome<()> {
        let before = self.frame.reply.len();
        for value in values {
            let value = self.value(value)?;
            self.frame.reply.push(value);
        }
        if before + values.len() > MOST_REPLIED {
            return Err(End::Abort(7));
        }
        Ok(())
    }

    /// The place of the row with a key, where the right in it is granted.
    fn row(&mut self, table: usize, key: i64, right: Right) -> Outcome<Place> {
        if key < 0 {
            return Err(End::Abort(5));
        }
        let place = self.catalogue.place(table, key);
        self.cover.row(place, right)?;
        Ok(place)
    }

    /// The number of a partition, where the right to read it is granted.
    fn part(&mut self, table: usize, part: &IntExpr) -> Outcome<usize> {
        let part = self.int(part)?;
        let part = part_in(self.catalogue, table, part)?;
        self.cover.part(table, part)?;
        Ok(part)
    }

    fn value(&mut self, value: &ValueExpr) -> Outcome<Value> {
        match value {
            ValueExpr::Int(number) => self.int(number).map(Value::Int),
            ValueExpr::Text(text) => Ok(Value::Text(self.text(text))),
        }
    }

    fn text(&self, text: &TextExpr) -> Rc<str> {
        match text {
            TextExpr::Literal(text) => Rc::clone(text),
            TextExpr::Variable(place) => Rc::clone(&self.frame.texts[*place]),
        }
    }

    fn int(&mut self, number: &IntExpr) -> Outcome<i64> {
        match number {
            IntExpr::Number(number) => Ok(*number),
            IntExpr::Variable(place) => Ok(self.frame.ints[*place]),
            IntExpr::Binary(operator, left, right) => {
                let (left, right) = (self.int(left)?, self.int(right)?);
                computed(*operator, left, right)
            }
            IntExpr::Count { table, part } => {
                self.step()?;
                let part = self.part(*table, part)?;
                Ok(self.store.tables[*table][part].rows.len() as i64)
            }
            IntExpr::Sum { table, part, column } => {
                self.step()?;
                let part = self.part(*table, part)?;
                self.sum(*table, part, *column)
            }
        }
    }

    fn sum(&self, table: usize, part: usize, column: usize) -> Outcome<i64> {
        let rows = self.store.tables[table][part].rows.values();
        let total: i128 = rows.map(|row| if let Value::Int(number) = row[column] { number.into() } else { 0 }).sum();
        i64::try_from(total).map_err(|_| End::Abort(3))
    }

    fn boolean(&mut self, test: &BoolExpr) -> Outcome<bool> {
        match test {
            BoolExpr::Numbers(comparison, left, right) => {
                let (left, right) = (self.int(left)?, self.int(right)?);
                Ok(match comparison {
                    Comparison::Equal => left == right,
                    Comparison::Unequal => left != right,
                    Comparison::Less => left < right,
                    Comparison::AtMost => left <= right,
                })
            }
            BoolExpr::Texts { are_same, left, right } => Ok((self.text(left) == self.text(right)) == *are_same),
            BoolExpr::And(left, right) => Ok(self.boolean(left)? && self.boolean(right)?),
            BoolExpr::Or(left, right) => Ok(self.boolean(left)? || self.boolean(right)?),
            BoolExpr::Not(test) => Ok(!self.boolean(test)?),
            BoolExpr::Exists { table, key } => {
                self.step()?;
                let key = self.int(key)?;
                let place = self.row(*table, key, Right::Read)?;
                Ok(self.store.row(place).is_some())
            }
        }
    }
}

impl Run<'_, Declared> {
    /// Fills the cover with what the entries of a footprint grant.
    pub fn declare(&mut self, entries: &[Entry]) -> Outcome<()> {
        self.cover.clear();
        let mut named = 0;
        for entry in entries {
            named += self.entry(entry)?;
            if named > MOST_NAMED {
                return Err(End::Abort(7));
            }
        }
        Ok(())
    }

    /// Grants what an entry names, and counts it.
    fn entry(&mut self, entry: &Entry) -> Outcome<i128> {
        match entry {
            Entry::Row { right, table, key } => {
                let key = self.int(key)?;
                self.rows(*table, key, key, *right)
            }
            Entry::Rows { right, table, low, high } => {
                let (low, high) = (self.int(low)?, self.int(high)?);
                self.rows(*table, low, high, *right)
            }
            Entry::Part { right, table, part } => {
                let part = self.int(part)?;
                let part = part_in(self.catalogue, *table, part)?;
                self.cover.grant_part(*table, part, *right);
                Ok(1)
            }
            Entry::Table { right, table } => {
                self.cover.grant_table(*table, *right);
                Ok(1)
            }
            Entry::Database { right } => {
                self.cover.grant_database(*right);
                Ok(1)
            }
        }
    }

    fn rows(&mut self, table: usize, low: i64, high: i64, right: Right) -> Outcome<i128> {
        if low < 0 {
            return Err(End::Abort(5));
        }
        self.cover.grant_rows(table, low, high, right);
        Ok((i128::from(high) - i128::from(low) + 1).max(0))
    }
}

fn part_in(catalogue: &Catalogue, table: usize, part: i64) -> Outcome<usize> {
    let part = usize::try_from(part).ok();
    part.filter(|part| *part < catalogue.tables[table].parts()).ok_or(End::Abort(6))
}

fn computed(operator: Operator, left: i64, right: i64) -> Outcome<i64> {
    let result = match operator {
        Operator::Add => left.checked_add(right),
        Operator::Subtract => left.checked_sub(right),
        Operator::Multiply => left.checked_mul(right),
        Operator::Divide | Operator::Remainder if right == 0 => return Err(End::Abort(4)),
        Operator::Divide => left.checked_div(right),
        Operator::Remainder => left.checked_rem(right),
    };
    result.ok_or(End::Abort(3))
}
