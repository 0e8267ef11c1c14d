//! Values, rows, and how they are printed.

use std::fmt;
use std::rc::Rc;

use serde::de::{Deserialize, Deserializer, Error, Visitor};

/// What a column, a parameter or a reply holds.
#[derive(Clone, Debug, PartialEq, Eq)]
pub enum Value {
    Int(i64),
    Text(Rc<str>),
}

/// The values of a row, in the order of the columns.
pub type Row = Box<[Value]>;

#[derive(Clone, Copy, PartialEq, Eq)]
pub enum Kind {
    Int,
    Text,
}

const HEX: &[u8; 16] = b"0123456789abcdef";

/// Appends bytes in lower-case hexadecimal.
pub fn push_hex(out: &mut Vec<u8>, bytes: &[u8]) {
    for byte in bytes {
        out.extend([HEX[usize::from(byte >> 4)], HEX[usize::from(byte & 15)]]);
    }
}

/// Appends a number in decimal.
pub fn push_number(out: &mut Vec<u8>, number: impl itoa::Integer) {
    out.extend_from_slice(itoa::Buffer::new().format(number).as_bytes());
}

/// Appends the words of values, with a space before each.
pub fn push_values(out: &mut Vec<u8>, values: &[Value]) {
    for value in values {
        match value {
            Value::Int(number) => {
                out.push(b' ');
                push_number(out, *number);
            }
            Value::Text(text) => {
                out.extend_from_slice(b" x");
                push_hex(out, text.as_bytes());
            }
        }
    }
}

struct ValueVisitor;

impl Visitor<'_> for ValueVisitor {
    type Value = Value;

    fn expecting(&self, formatter: &mut fmt::Formatter) -> fmt::Result {
        formatter.write_str("a whole number or a text")
    }

    fn visit_i64<E: Error>(self, number: i64) -> Result<Value, E> {
        Ok(Value::Int(number))
    }

    fn visit_u64<E: Error>(self, number: u64) -> Result<Value, E> {
        i64::try_from(number).map(Value::Int).map_err(E::custom)
    }

    fn visit_str<E: Error>(self, text: &str) -> Result<Value, E> {
        Ok(Value::Text(text.into()))
    }
}

impl<'de> Deserialize<'de> for Value {
    fn deserialize<D: Deserializer<'de>>(deserializer: D) -> Result<Self, D::Error> {
        deserializer.deserialize_any(ValueVisitor)
    }
}
