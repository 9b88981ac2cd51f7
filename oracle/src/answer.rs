//! What a function answers, on either side.

use crate::case::hex;
use std::fmt;

#[derive(Clone, Debug, PartialEq, Eq)]
pub enum Value {
    Unsigned(u64),
    Signed(i64),
    /// Printed as 1 or 0.
    Truth(bool),
    Bytes(Vec<u8>),
    Word(&'static str),
    /// Printed one after the other.
    List(Vec<Value>),
}

impl Value {
    /// Numbers, then the items that they count.
    pub fn counted(
        numbers: impl IntoIterator<Item = u64>,
        items: impl IntoIterator<Item = Value>,
    ) -> Value {
        Value::List(numbers.into_iter().map(Value::Unsigned).chain(items).collect())
    }

    /// The numbers of a value, one after the other, bytes being told by their length.
    pub fn numbers(&self) -> Vec<u64> {
        match self {
            Value::Unsigned(n) => vec![*n],
            Value::Bytes(bytes) => vec![bytes.len() as u64],
            Value::List(values) => values.iter().flat_map(Value::numbers).collect(),
            other => panic!("{other} is no number"),
        }
    }

    /// A number, then bytes with the place where they stand.
    pub fn headed(number: u64, place: u64, bytes: Value) -> Value {
        Value::List(vec![Value::Unsigned(number), Value::Unsigned(place), bytes])
    }
}

#[derive(Clone, Debug, PartialEq, Eq)]
pub enum Answer {
    /// The result of a function that has no place.
    Is(Value),
    /// The value read, or the bytes written, and the next place.
    Reached(Value, u64),
    /// A refusal with document 01's number.
    Refused(u8),
    /// A promise that our side broke beside its answer.
    Broken(&'static str),
}

/// The answer that a case must have, or a part of it.
#[derive(Clone, Debug, PartialEq, Eq)]
pub enum Expected<A = Answer> {
    /// What the Rust answers.
    Rust(A),
    /// What document 01 or 02 asks where the Rust cannot say it: not comparable.
    Document(A),
}

impl<A> Expected<A> {
    pub fn answer(&self) -> &A {
        match self {
            Expected::Rust(answer) | Expected::Document(answer) => answer,
        }
    }

    pub fn into_answer(self) -> A {
        match self {
            Expected::Rust(answer) | Expected::Document(answer) => answer,
        }
    }

    pub fn map<B>(self, change: impl FnOnce(A) -> B) -> Expected<B> {
        match self {
            Expected::Rust(answer) => Expected::Rust(change(answer)),
            Expected::Document(answer) => Expected::Document(change(answer)),
        }
    }

    pub fn is_document(&self) -> bool {
        matches!(self, Expected::Document(_))
    }
}

/// Parts put together are a document's where one of them is.
impl<A> FromIterator<Expected<A>> for Expected<Vec<A>> {
    fn from_iter<I: IntoIterator<Item = Expected<A>>>(parts: I) -> Expected<Vec<A>> {
        let mut documented = false;
        let answers = parts.into_iter().map(|part| {
            documented |= part.is_document();
            part.into_answer()
        });
        let answers = answers.collect();
        if documented {
            Expected::Document(answers)
        } else {
            Expected::Rust(answers)
        }
    }
}

impl fmt::Display for Value {
    fn fmt(&self, f: &mut fmt::Formatter) -> fmt::Result {
        match self {
            Value::Unsigned(n) => write!(f, "{n}"),
            Value::Signed(n) => write!(f, "{n}"),
            Value::Truth(yes) => write!(f, "{}", *yes as u8),
            Value::Bytes(bytes) => f.write_str(&hex(bytes)),
            Value::Word(word) => f.write_str(word),
            Value::List(values) => {
                let texts: Vec<String> = values.iter().map(Value::to_string).collect();
                f.write_str(&texts.join(" "))
            }
        }
    }
}

impl fmt::Display for Answer {
    fn fmt(&self, f: &mut fmt::Formatter) -> fmt::Result {
        match self {
            Answer::Is(value) => write!(f, "{value}"),
            Answer::Reached(value, next) => write!(f, "{value} {next}"),
            Answer::Refused(number) => write!(f, "refused {number}"),
            Answer::Broken(what) => write!(f, "broken: {what}"),
        }
    }
}

impl fmt::Display for Expected {
    fn fmt(&self, f: &mut fmt::Formatter) -> fmt::Result {
        match self {
            Expected::Rust(answer) => write!(f, "the Rust: {answer}"),
            Expected::Document(answer) => write!(f, "the documents: {answer}"),
        }
    }
}
