//! The 38 kinds of a record.

use std::fmt;

/// The kind of a type, with the number that a sheet and a mask have for it.
#[derive(Clone, Copy, Debug, PartialEq, Eq, Hash, PartialOrd, Ord)]
#[repr(u8)]
#[allow(missing_docs)]
pub enum Kind {
    Null = 1,
    Boolean,
    Int8,
    Int16,
    Int32,
    Int64,
    UInt8,
    UInt16,
    UInt32,
    UInt64,
    Float16,
    Float32,
    Float64,
    Decimal32,
    Decimal64,
    Decimal128,
    Decimal256,
    Date32,
    Date64,
    Time32,
    Time64,
    Timestamp,
    Interval,
    Duration,
    Utf8,
    LargeUtf8,
    Utf8View,
    Binary,
    LargeBinary,
    BinaryView,
    FixedSizeBinary,
    List,
    LargeList,
    FixedSizeList,
    Struct,
    Map,
    Dictionary,
    RunEndEncoded,
}

use Kind::*;

#[rustfmt::skip]
const ALL: [(Kind, &str); 38] = [
    (Null, "Null"), (Boolean, "Boolean"),
    (Int8, "Int8"), (Int16, "Int16"), (Int32, "Int32"), (Int64, "Int64"),
    (UInt8, "UInt8"), (UInt16, "UInt16"), (UInt32, "UInt32"), (UInt64, "UInt64"),
    (Float16, "Float16"), (Float32, "Float32"), (Float64, "Float64"),
    (Decimal32, "Decimal32"), (Decimal64, "Decimal64"),
    (Decimal128, "Decimal128"), (Decimal256, "Decimal256"),
    (Date32, "Date32"), (Date64, "Date64"), (Time32, "Time32"), (Time64, "Time64"),
    (Timestamp, "Timestamp"), (Interval, "Interval"), (Duration, "Duration"),
    (Utf8, "Utf8"), (LargeUtf8, "LargeUtf8"), (Utf8View, "Utf8View"),
    (Binary, "Binary"), (LargeBinary, "LargeBinary"), (BinaryView, "BinaryView"),
    (FixedSizeBinary, "FixedSizeBinary"),
    (List, "List"), (LargeList, "LargeList"), (FixedSizeList, "FixedSizeList"),
    (Struct, "Struct"), (Map, "Map"), (Dictionary, "Dictionary"), (RunEndEncoded, "RunEndEncoded"),
];

impl Kind {
    /// Every kind, by its number.
    pub fn all() -> impl Iterator<Item = Kind> {
        ALL.into_iter().map(|(kind, _)| kind)
    }

    /// The number, 1 to 38.
    pub fn number(self) -> u8 {
        self as u8
    }

    /// The kind with this number, if there is one.
    pub fn from_number(number: u8) -> Option<Kind> {
        ALL.get(usize::from(number).checked_sub(1)?).map(|&(kind, _)| kind)
    }

    /// Arrow's word for the kind.
    pub fn word(self) -> &'static str {
        ALL[usize::from(self.number()) - 1].1
    }

    /// The kind with this word, if there is one.
    pub fn from_word(word: &str) -> Option<Kind> {
        ALL.into_iter().find(|&(_, known)| known == word).map(|(kind, _)| kind)
    }

    /// How many parts a type of this kind has; nothing where any number will do.
    pub(crate) fn part_count(self) -> Option<usize> {
        match self {
            Struct => None,
            List | LargeList | FixedSizeList | Map => Some(1),
            Dictionary | RunEndEncoded => Some(2),
            _ => Some(0),
        }
    }

    /// Whether the parts of this kind are fields: they may be nullable and have a name.
    pub(crate) fn has_fields(self) -> bool {
        self.part_count() != Some(0) && self != Dictionary
    }

    /// The greatest precision of a decimal kind.
    pub(crate) fn precision_cap(self) -> Option<u8> {
        match self {
            Decimal32 => Some(9),
            Decimal64 => Some(18),
            Decimal128 => Some(38),
            Decimal256 => Some(76),
            _ => None,
        }
    }
}

impl fmt::Display for Kind {
    fn fmt(&self, f: &mut fmt::Formatter<'_>) -> fmt::Result {
        f.pad(self.word())
    }
}
