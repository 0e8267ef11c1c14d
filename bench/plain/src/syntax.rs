//! Procedures with their names resolved: a variable, a table and a column are places, and each expression has its type.

use std::rc::Rc;

use crate::footprint::Right;

/// The place of a variable among those of its type.
#[derive(Clone, Copy)]
pub enum Slot {
    Int(usize),
    Text(usize),
}

#[derive(Clone, Copy)]
pub enum Operator {
    Add,
    Subtract,
    Multiply,
    Divide,
    Remainder,
}

#[derive(Clone, Copy)]
pub enum Comparison {
    Equal,
    Unequal,
    Less,
    AtMost,
}

pub enum IntExpr {
    Number(i64),
    Variable(usize),
    Binary(Operator, Box<IntExpr>, Box<IntExpr>),
    Count { table: usize, part: Box<IntExpr> },
    Sum { table: usize, part: Box<IntExpr>, column: usize },
}

pub enum TextExpr {
    Literal(Rc<str>),
    Variable(usize),
}

pub enum BoolExpr {
    Numbers(Comparison, IntExpr, IntExpr),
    /// Whether two texts are the same, or whether they aren't.
    Texts {
        are_same: bool,
        left: TextExpr,
        right: TextExpr,
    },
    And(Box<BoolExpr>, Box<BoolExpr>),
    Or(Box<BoolExpr>, Box<BoolExpr>),
    Not(Box<BoolExpr>),
    Exists {
        table: usize,
        key: IntExpr,
    },
}

pub enum ValueExpr {
    Int(IntExpr),
    Text(TextExpr),
}

pub type Block = Vec<Statement>;

pub enum Statement {
    LetInt(usize, IntExpr),
    LetText(usize, TextExpr),
    Get { to: Slot, table: usize, key: IntExpr, column: usize },
    Put { table: usize, key: IntExpr, column: usize, value: ValueExpr },
    Insert { table: usize, key: IntExpr, values: Vec<ValueExpr> },
    Delete { table: usize, key: IntExpr },
    If { condition: BoolExpr, then: Block, otherwise: Block },
    For { turn: usize, low: IntExpr, high: IntExpr, body: Block },
    Each { key: usize, table: usize, part: IntExpr, body: Block },
    Abort(u16),
    Reply(Vec<ValueExpr>),
}

/// An entry of a declared footprint.
pub enum Entry {
    Row { right: Right, table: usize, key: IntExpr },
    Rows { right: Right, table: usize, low: IntExpr, high: IntExpr },
    Part { right: Right, table: usize, part: IntExpr },
    Table { right: Right, table: usize },
    Database { right: Right },
}

pub enum Footprint {
    Declared(Vec<Entry>),
    Found,
}

pub struct Procedure {
    pub footprint: Footprint,
    pub body: Block,
    /// How many variables of each type there are; the parameters come first.
    pub ints: usize,
    pub texts: usize,
}
