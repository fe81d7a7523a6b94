//! A type in pieces: its head, its zone and its parts. Sheets and the notation both put types
//! together from these and take them apart.

use crate::data_type::{DataType, Field, IntervalUnit, TimeUnit};
use crate::{Kind, Label};
use std::fmt;

/// What a type says by itself, zone and parts left out.
#[derive(Clone, Copy, PartialEq, Eq)]
pub(crate) struct Head {
    pub kind: Kind,
    /// A decimal's precision, or the number of a unit.
    pub figure: u8,
    pub scale: i8,
    pub size: i32,
    pub sorted: bool,
}

/// A figure that no sheet may carry.
#[derive(Clone, Copy, Debug, PartialEq, Eq)]
pub enum BadFigure {
    /// A precision outside 1 to the kind's cap.
    Precision {
        /// The decimal's kind.
        kind: Kind,
        /// Its precision.
        precision: u8,
    },
    /// A scale above the precision, or so low that precision less scale exceeds 127.
    Scale {
        /// The decimal's precision.
        precision: u8,
        /// Its scale.
        scale: i8,
    },
    /// A negative size.
    Size(i32),
}

impl fmt::Display for BadFigure {
    fn fmt(&self, f: &mut fmt::Formatter<'_>) -> fmt::Result {
        match *self {
            BadFigure::Precision { kind, precision } => {
                let cap = kind.precision_cap().unwrap_or(0);
                write!(f, "the precision of {kind} is 1 to {cap}, not {precision}")
            }
            BadFigure::Scale { precision, scale } => {
                let (least, greatest) = (i16::from(precision) - 127, precision);
                write!(
                    f,
                    "the scale at precision {precision} is {least} to {greatest}, not {scale}"
                )
            }
            BadFigure::Size(size) => write!(f, "a size is not negative: {size}"),
        }
    }
}

impl Head {
    pub fn new(kind: Kind) -> Head {
        Head { kind, figure: 0, scale: 0, size: 0, sorted: false }
    }

    /// Whether a sheet may carry the figures.
    pub fn check(&self) -> Result<(), BadFigure> {
        if let Some(cap) = self.kind.precision_cap() {
            return check_decimal(self.kind, cap, self.figure, self.scale);
        }
        if self.size < 0 {
            return Err(BadFigure::Size(self.size));
        }
        Ok(())
    }
}

/// 1 ≤ p ≤ cap, s ≤ p where s > 0, and p − s ≤ 127.
fn check_decimal(kind: Kind, cap: u8, precision: u8, scale: i8) -> Result<(), BadFigure> {
    if !(1..=cap).contains(&precision) {
        return Err(BadFigure::Precision { kind, precision });
    }
    let (p, s) = (i16::from(precision), i16::from(scale));
    if (s > 0 && s > p) || p - s > 127 {
        return Err(BadFigure::Scale { precision, scale });
    }
    Ok(())
}

/// A part as it stands in its type; an index and a value have neither name nor nullability.
pub(crate) struct Part<'a> {
    pub name: &'a [u8],
    pub nullable: bool,
    pub data_type: &'a DataType,
}

impl<'a> Part<'a> {
    pub fn bare(data_type: &'a DataType) -> Part<'a> {
        Part { name: &[], nullable: false, data_type }
    }

    fn named(field: &'a Field) -> Part<'a> {
        Part { name: field.name.as_bytes(), nullable: field.nullable, data_type: &field.data_type }
    }
}

impl DataType {
    pub(crate) fn head(&self) -> Head {
        let mut head = Head::new(self.kind());
        match self {
            DataType::Decimal32(p, s)
            | DataType::Decimal64(p, s)
            | DataType::Decimal128(p, s)
            | DataType::Decimal256(p, s) => (head.figure, head.scale) = (*p, *s),
            DataType::Time32(unit)
            | DataType::Time64(unit)
            | DataType::Timestamp(unit, _)
            | DataType::Duration(unit) => head.figure = *unit as u8,
            DataType::Interval(unit) => head.figure = *unit as u8,
            DataType::FixedSizeBinary(size) | DataType::FixedSizeList(_, size) => head.size = *size,
            DataType::Map(_, sorted) => head.sorted = *sorted,
            _ => {}
        }
        head
    }

    pub(crate) fn zone(&self) -> Option<&Label> {
        match self {
            DataType::Timestamp(_, zone) => zone.as_ref(),
            _ => None,
        }
    }

    pub(crate) fn parts(&self) -> Vec<Part<'_>> {
        match self {
            DataType::List(part)
            | DataType::LargeList(part)
            | DataType::FixedSizeList(part, _)
            | DataType::Map(part, _) => vec![Part::named(part)],
            DataType::Struct(fields) => fields.iter().map(Part::named).collect(),
            DataType::Dictionary(index, value) => vec![Part::bare(index), Part::bare(value)],
            DataType::RunEndEncoded(ends, values) => vec![Part::named(ends), Part::named(values)],
            _ => vec![],
        }
    }

    /// The type of these pieces; nothing where a unit is unknown or parts are missing.
    pub(crate) fn of(head: Head, zone: Option<Label>, parts: Vec<Field>) -> Option<DataType> {
        let (kind, p, s) = (head.kind, head.figure, head.scale);
        let unit = || TimeUnit::ALL.get(usize::from(p)).copied();
        Some(match kind {
            Kind::Decimal32 => DataType::Decimal32(p, s),
            Kind::Decimal64 => DataType::Decimal64(p, s),
            Kind::Decimal128 => DataType::Decimal128(p, s),
            Kind::Decimal256 => DataType::Decimal256(p, s),
            Kind::Time32 => DataType::Time32(unit()?),
            Kind::Time64 => DataType::Time64(unit()?),
            Kind::Timestamp => DataType::Timestamp(unit()?, zone),
            Kind::Interval => DataType::Interval(IntervalUnit::ALL.get(usize::from(p)).copied()?),
            Kind::Duration => DataType::Duration(unit()?),
            Kind::FixedSizeBinary => DataType::FixedSizeBinary(head.size),
            Kind::Struct => DataType::Struct(parts),
            _ if kind.part_count() == Some(0) => simple(kind)?,
            _ => with_parts(head, parts)?,
        })
    }
}

/// The types that a kind alone tells.
fn simple(kind: Kind) -> Option<DataType> {
    Some(match kind {
        Kind::Null => DataType::Null,
        Kind::Boolean => DataType::Boolean,
        Kind::Int8 => DataType::Int8,
        Kind::Int16 => DataType::Int16,
        Kind::Int32 => DataType::Int32,
        Kind::Int64 => DataType::Int64,
        Kind::UInt8 => DataType::UInt8,
        Kind::UInt16 => DataType::UInt16,
        Kind::UInt32 => DataType::UInt32,
        Kind::UInt64 => DataType::UInt64,
        Kind::Float16 => DataType::Float16,
        Kind::Float32 => DataType::Float32,
        Kind::Float64 => DataType::Float64,
        Kind::Date32 => DataType::Date32,
        Kind::Date64 => DataType::Date64,
        Kind::Utf8 => DataType::Utf8,
        Kind::LargeUtf8 => DataType::LargeUtf8,
        Kind::Utf8View => DataType::Utf8View,
        Kind::Binary => DataType::Binary,
        Kind::LargeBinary => DataType::LargeBinary,
        Kind::BinaryView => DataType::BinaryView,
        _ => return None,
    })
}

/// The types with one part or two.
fn with_parts(head: Head, parts: Vec<Field>) -> Option<DataType> {
    let mut parts = parts.into_iter();
    let mut next = || parts.next().map(Box::new);
    Some(match head.kind {
        Kind::List => DataType::List(next()?),
        Kind::LargeList => DataType::LargeList(next()?),
        Kind::FixedSizeList => DataType::FixedSizeList(next()?, head.size),
        Kind::Map => DataType::Map(next()?, head.sorted),
        Kind::Dictionary => {
            DataType::Dictionary(Box::new(next()?.data_type), Box::new(next()?.data_type))
        }
        Kind::RunEndEncoded => DataType::RunEndEncoded(next()?, next()?),
        _ => return None,
    })
}
