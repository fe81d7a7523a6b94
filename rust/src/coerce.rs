//! Types in, the common type out.

use crate::raw::{self, Answer};
use crate::sheet::{self, EncodeError};
use crate::{DataType, Mask, Refusal};
use std::fmt;

/// One of the three questions.
#[derive(Clone, Copy, Debug, PartialEq, Eq, Hash)]
pub enum Question {
    /// The common type of any number of types.
    List,
    /// The common type of two types in a union.
    Union,
    /// The type that two types are compared as.
    Compare,
}

impl Question {
    /// The three, in the order in which their answers are printed.
    pub const ALL: [Question; 3] = [Question::List, Question::Union, Question::Compare];

    /// The word for it.
    pub fn word(self) -> &'static str {
        match self {
            Question::List => "list",
            Question::Union => "union",
            Question::Compare => "compare",
        }
    }

    /// Asks it of a raw sheet, with buffers made for the call: the one-type sheet of the common
    /// type, or nothing where there is none.
    pub fn ask(self, sheet: &[u8], mask: Mask) -> Result<Option<Vec<u8>>, Refusal> {
        let call = match self {
            Question::List => raw::type_union_resolution,
            Question::Union => raw::type_union_coercion,
            Question::Compare => raw::comparison_coercion,
        };
        // A longer input is refused with 1, whatever the buffers are.
        let room = sheet.len().min(sheet::MAX_SHEET);
        let (mut output, mut work) = (vec![0; room], vec![0; 2 * room]);
        match call(sheet, mask, &mut output, &mut work)? {
            Answer::None => Ok(None),
            Answer::Type(answer) => Ok(Some(answer.to_vec())),
        }
    }

    /// Asks it of some types.
    pub fn ask_types(self, types: &[DataType], mask: Mask) -> Result<Option<DataType>, Error> {
        self.ask_encoded(&sheet::encode(types)?, mask)
    }

    fn ask_two(
        self,
        left: &DataType,
        right: &DataType,
        mask: Mask,
    ) -> Result<Option<DataType>, Error> {
        self.ask_encoded(&sheet::encode_all([left, right].into_iter())?, mask)
    }

    fn ask_encoded(self, sheet: &[u8], mask: Mask) -> Result<Option<DataType>, Error> {
        match self.ask(sheet, mask)? {
            Some(answer) => Ok(sheet::decode(&answer)?.pop()),
            None => Ok(None),
        }
    }
}

impl fmt::Display for Question {
    fn fmt(&self, f: &mut fmt::Formatter<'_>) -> fmt::Result {
        f.pad(self.word())
    }
}

/// Why there is no answer.
#[derive(Clone, Debug, PartialEq, Eq)]
pub enum Error {
    /// No sheet can carry the types.
    Encode(EncodeError),
    /// The call was refused.
    Refused(Refusal),
}

impl fmt::Display for Error {
    fn fmt(&self, f: &mut fmt::Formatter<'_>) -> fmt::Result {
        match self {
            Error::Encode(error) => error.fmt(f),
            Error::Refused(refusal) => refusal.fmt(f),
        }
    }
}

impl std::error::Error for Error {}

impl From<EncodeError> for Error {
    fn from(error: EncodeError) -> Error {
        Error::Encode(error)
    }
}

impl From<Refusal> for Error {
    fn from(refusal: Refusal) -> Error {
        Error::Refused(refusal)
    }
}

/// The common type of any number of types, or nothing where there is none.
pub fn list(types: &[DataType], mask: Mask) -> Result<Option<DataType>, Error> {
    Question::List.ask_types(types, mask)
}

/// The common type of two types in a union, or nothing where there is none.
pub fn union(left: &DataType, right: &DataType, mask: Mask) -> Result<Option<DataType>, Error> {
    Question::Union.ask_two(left, right, mask)
}

/// The type that two types are compared as, or nothing where there is none.
pub fn compare(left: &DataType, right: &DataType, mask: Mask) -> Result<Option<DataType>, Error> {
    Question::Compare.ask_two(left, right, mask)
}
