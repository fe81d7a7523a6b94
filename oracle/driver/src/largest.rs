//! The largest sheets, whose checking is what all times are held against.

use crate::call::{Call, Question, FULL_MASK};
use crate::hard::{colliding, field_of, numbered};
use crate::inputs::integers;
use crate::make::timestamp;
use crate::sheet::{self, MAX_LABELS, MAX_RECORDS, RECORD};
use crate::standin::arrow::datatypes::DataType;
use DataType::*;

/// A call that is refused for its mask, once the whole of a large sheet is checked.
pub struct Largest {
    pub name: &'static str,
    /// Its names were not made to be hard to tell apart.
    pub is_ordinary: bool,
    pub call: Call,
}

const MOST: usize = RECORD * MAX_RECORDS + MAX_LABELS;
/// The records that are not the header.
const RECORDS: usize = MAX_RECORDS - 1;

impl Largest {
    fn new(name: &'static str, types: &[DataType]) -> Largest {
        let sheet = sheet::write(types).expect("types that fit in a sheet");
        // Refused for its mask, after the whole check.
        let call = Call::new(Question::List, FULL_MASK | 1, sheet);
        Largest { name, is_ordinary: true, call }
    }

    fn hard(name: &'static str, types: &[DataType]) -> Largest {
        Largest { is_ordinary: false, ..Largest::new(name, types) }
    }

    /// Whether the sheet has as many bytes as a sheet may have.
    pub fn is_full(&self) -> bool {
        self.call.sheet.len() == MOST
    }
}

/// All of them, full or not.
pub fn all() -> Vec<Largest> {
    vec![
        Largest::new("1,023 integers", &integers(RECORDS)),
        Largest::new("1,023 Timestamps with 16-byte zones", &stamps()),
        Largest::new("a Struct of 1,022 fields with 16-byte names", &[wide(&names())]),
        Largest::hard(
            "a Struct of 1,022 fields with 16-byte names made to be hard to tell apart",
            &[wide(&hard_names())],
        ),
        Largest::new("1,022 Lists in each other, nameless", &[deep(|_| Vec::new())]),
        Largest::new("1,022 Lists in each other, 16-byte names", &[deep(name_at)]),
    ]
}

/// Names of 16 bytes for 1,022 fields; the first is longer, so that all label bytes are used.
fn name_at(at: usize) -> Vec<u8> {
    let length = if at == 0 { 16 + MAX_LABELS - 16 * (RECORDS - 1) } else { 16 };
    numbered(at, length)
}

fn stamps() -> Vec<DataType> {
    let zone = |at: usize| if at == 0 { "z".repeat(32) } else { format!("zone{at:012}") };
    (0..RECORDS).map(|at| timestamp(at % 4, Some(&zone(at)))).collect()
}

fn names() -> Vec<Vec<u8>> {
    (0..RECORDS - 1).map(name_at).collect()
}

/// Names whose numbers have the same upper bits, and of which two have one number.
fn hard_names() -> Vec<Vec<u8>> {
    let others = colliding(RECORDS - 2, RECORDS - 3, 16, 4);
    [name_at(0)].into_iter().chain(others).collect()
}

fn wide(names: &[Vec<u8>]) -> DataType {
    let fields = names.iter().enumerate().map(|(at, name)| field_of(name, Int32, at % 2 == 0));
    Struct(fields.collect::<Vec<_>>().into())
}

fn deep(name: fn(usize) -> Vec<u8>) -> DataType {
    (0..RECORDS - 1).fold(Int32, |inner, at| List(field_of(&name(at), inner, true)))
}
