//! Types as an enum like Arrow's.

use crate::{Kind, Label};

/// A type of one of the 38 kinds that a sheet may carry, named as in Arrow.
///
/// `Display` and `FromStr` are the notation of [`crate::notation`]; `Debug` prints it too.
#[derive(Clone, PartialEq, Eq, Hash)]
#[allow(missing_docs)]
pub enum DataType {
    Null,
    Boolean,
    Int8,
    Int16,
    Int32,
    Int64,
    UInt8,
    UInt16,
    UInt32,
    UInt64,
    Float16,
    Float32,
    Float64,
    /// Precision and scale, as in the other decimals.
    Decimal32(u8, i8),
    Decimal64(u8, i8),
    Decimal128(u8, i8),
    Decimal256(u8, i8),
    Date32,
    Date64,
    Time32(TimeUnit),
    Time64(TimeUnit),
    /// A unit and a zone, if one is present; a zone that is present may be empty.
    Timestamp(TimeUnit, Option<Label>),
    Interval(IntervalUnit),
    Duration(TimeUnit),
    Utf8,
    LargeUtf8,
    Utf8View,
    Binary,
    LargeBinary,
    BinaryView,
    /// The size in bytes, not negative.
    FixedSizeBinary(i32),
    List(Box<Field>),
    LargeList(Box<Field>),
    /// The items and how many there are, not negative.
    FixedSizeList(Box<Field>, i32),
    Struct(Vec<Field>),
    /// The entries, and whether their keys are sorted.
    Map(Box<Field>, bool),
    /// The index type and the value type.
    Dictionary(Box<DataType>, Box<DataType>),
    /// The run ends and the values.
    RunEndEncoded(Box<Field>, Box<Field>),
}

/// A part with a name and a nullability.
#[derive(Clone, PartialEq, Eq, Hash)]
pub struct Field {
    /// Its name; in one Struct names differ.
    pub name: Label,
    /// Its type.
    pub data_type: DataType,
    /// Whether it may be null.
    pub nullable: bool,
}

impl Field {
    /// A field with this name, type and nullability.
    pub fn new(name: impl Into<Label>, data_type: DataType, nullable: bool) -> Field {
        Field { name: name.into(), data_type, nullable }
    }
}

/// The unit of a time, a timestamp or a duration, with its number in a sheet.
#[derive(Clone, Copy, Debug, PartialEq, Eq, Hash, PartialOrd, Ord)]
#[allow(missing_docs)]
pub enum TimeUnit {
    Second = 0,
    Millisecond = 1,
    Microsecond = 2,
    Nanosecond = 3,
}

/// The unit of an interval, with its number in a sheet.
#[derive(Clone, Copy, Debug, PartialEq, Eq, Hash, PartialOrd, Ord)]
#[allow(missing_docs)]
pub enum IntervalUnit {
    YearMonth = 0,
    DayTime = 1,
    MonthDayNano = 2,
}

impl TimeUnit {
    pub(crate) const ALL: [TimeUnit; 4] =
        [TimeUnit::Second, TimeUnit::Millisecond, TimeUnit::Microsecond, TimeUnit::Nanosecond];
}

impl IntervalUnit {
    pub(crate) const ALL: [IntervalUnit; 3] =
        [IntervalUnit::YearMonth, IntervalUnit::DayTime, IntervalUnit::MonthDayNano];
}

impl DataType {
    /// The kind.
    pub fn kind(&self) -> Kind {
        match self {
            DataType::Null => Kind::Null,
            DataType::Boolean => Kind::Boolean,
            DataType::Int8 => Kind::Int8,
            DataType::Int16 => Kind::Int16,
            DataType::Int32 => Kind::Int32,
            DataType::Int64 => Kind::Int64,
            DataType::UInt8 => Kind::UInt8,
            DataType::UInt16 => Kind::UInt16,
            DataType::UInt32 => Kind::UInt32,
            DataType::UInt64 => Kind::UInt64,
            DataType::Float16 => Kind::Float16,
            DataType::Float32 => Kind::Float32,
            DataType::Float64 => Kind::Float64,
            DataType::Decimal32(..) => Kind::Decimal32,
            DataType::Decimal64(..) => Kind::Decimal64,
            DataType::Decimal128(..) => Kind::Decimal128,
            DataType::Decimal256(..) => Kind::Decimal256,
            DataType::Date32 => Kind::Date32,
            DataType::Date64 => Kind::Date64,
            DataType::Time32(_) => Kind::Time32,
            DataType::Time64(_) => Kind::Time64,
            DataType::Timestamp(..) => Kind::Timestamp,
            DataType::Interval(_) => Kind::Interval,
            DataType::Duration(_) => Kind::Duration,
            DataType::Utf8 => Kind::Utf8,
            DataType::LargeUtf8 => Kind::LargeUtf8,
            DataType::Utf8View => Kind::Utf8View,
            DataType::Binary => Kind::Binary,
            DataType::LargeBinary => Kind::LargeBinary,
            DataType::BinaryView => Kind::BinaryView,
            DataType::FixedSizeBinary(_) => Kind::FixedSizeBinary,
            DataType::List(_) => Kind::List,
            DataType::LargeList(_) => Kind::LargeList,
            DataType::FixedSizeList(..) => Kind::FixedSizeList,
            DataType::Struct(_) => Kind::Struct,
            DataType::Map(..) => Kind::Map,
            DataType::Dictionary(..) => Kind::Dictionary,
            DataType::RunEndEncoded(..) => Kind::RunEndEncoded,
        }
    }
}
