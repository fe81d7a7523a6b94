//! Short constructors of types, and random and related types.

use crate::rng::Rng;
use crate::sheet::{plain_of, precision_cap, text_of};
use crate::standin::arrow::datatypes::{DataType, Field, FieldRef, IntervalUnit, TimeUnit};
use std::sync::Arc;

use DataType::*;

pub const UNITS: [TimeUnit; 4] =
    [TimeUnit::Second, TimeUnit::Millisecond, TimeUnit::Microsecond, TimeUnit::Nanosecond];
pub const INTERVALS: [IntervalUnit; 3] =
    [IntervalUnit::YearMonth, IntervalUnit::DayTime, IntervalUnit::MonthDayNano];
pub const INTEGERS: [DataType; 8] = [Int8, Int16, Int32, Int64, UInt8, UInt16, UInt32, UInt64];
pub const NUMBERS: [DataType; 11] =
    [Int8, Int16, Int32, Int64, UInt8, UInt16, UInt32, UInt64, Float16, Float32, Float64];
pub const STRINGS: [DataType; 3] = [Utf8, LargeUtf8, Utf8View];
pub const BINARIES: [DataType; 3] = [Binary, LargeBinary, BinaryView];
pub const DECIMALS: [u8; 4] = [14, 15, 16, 17];

const NAMES: [&str; 14] = [
    "a", "b", "c", "ab", "aa", "", "cases", "loose", "pieces", "Größe", "item", "key", "value", "x",
];
const ZONES: [&str; 6] = ["UTC", "+00:00", "", "Europe/Zürich", "-05:00", "UT"];

pub fn field(name: &str, data_type: DataType, nullable: bool) -> FieldRef {
    Arc::new(Field::new(text_of(name.as_bytes()), data_type, nullable))
}

pub fn list(name: &str, data_type: DataType, nullable: bool) -> DataType {
    List(field(name, data_type, nullable))
}

pub fn large_list(name: &str, data_type: DataType, nullable: bool) -> DataType {
    LargeList(field(name, data_type, nullable))
}

pub fn fixed_list(name: &str, data_type: DataType, nullable: bool, size: i32) -> DataType {
    FixedSizeList(field(name, data_type, nullable), size)
}

pub fn structure(fields: &[(&str, DataType, bool)]) -> DataType {
    let fields = fields.iter().map(|(name, t, nullable)| field(name, t.clone(), *nullable));
    Struct(fields.collect::<Vec<_>>().into())
}

pub fn map(name: &str, entries: DataType, nullable: bool, sorted: bool) -> DataType {
    Map(field(name, entries, nullable), sorted)
}

pub fn dictionary(index: DataType, value: DataType) -> DataType {
    Dictionary(Box::new(index), Box::new(value))
}

pub fn run_ends(index: DataType, value: DataType) -> DataType {
    RunEndEncoded(field("run_ends", index, false), field("values", value, true))
}

pub fn timestamp(unit: usize, zone: Option<&str>) -> DataType {
    Timestamp(UNITS[unit], zone.map(|zone| text_of(zone.as_bytes()).into()))
}

pub fn decimal(kind: u8, precision: u8, scale: i8) -> DataType {
    plain_of(kind, precision, scale)
}

/// One type of each kind without parts, Null first.
pub fn one_of_each_plain_kind() -> Vec<DataType> {
    let figure = |kind| if (14..=17).contains(&kind) { 8 } else { 0 };
    let scale = |kind| if (14..=17).contains(&kind) { 2 } else { 0 };
    (1..=31).map(|kind| plain_of(kind, figure(kind), scale(kind))).collect()
}

/// One type of each kind with parts.
pub fn one_of_each_nested_kind() -> Vec<DataType> {
    let entry = [("key", Utf8, false), ("value", Int32, true)];
    vec![
        list("item", Int32, true),
        large_list("item", Int32, true),
        fixed_list("item", Int32, true, 3),
        structure(&[("a", Int32, false), ("b", Utf8, true)]),
        map("entries", structure(&entry), false, false),
        dictionary(Int8, Utf8),
        run_ends(Int32, Int64),
    ]
}

// Random plain types

pub fn any_unit(rng: &mut Rng) -> TimeUnit {
    *rng.pick(&UNITS)
}

pub fn any_zone(rng: &mut Rng) -> Option<Arc<str>> {
    if rng.once_in(3) {
        return None;
    }
    Some(text_of(rng.pick(&ZONES).as_bytes()).into())
}

pub fn any_timestamp(rng: &mut Rng) -> DataType {
    Timestamp(any_unit(rng), any_zone(rng))
}

/// A decimal that a sheet may carry, often at the cap or below zero.
pub fn any_decimal(rng: &mut Rng, kind: u8) -> DataType {
    let cap = i32::from(precision_cap(kind).expect("a decimal kind"));
    let precision = match rng.below(4) {
        0 => cap,
        1 => rng.between(1.max(cap - 3), cap),
        _ => rng.between(1, cap),
    };
    let scale = match rng.below(6) {
        0 => 0,
        1 => precision,
        2 => rng.between(-12, 0).max(precision - 127),
        3 => rng.between(precision - 127, 0),
        _ => rng.between(0, precision),
    };
    decimal(kind, precision as u8, scale as i8)
}

fn any_decimal_kind(rng: &mut Rng) -> u8 {
    *rng.pick(&DECIMALS)
}

pub fn any_temporal(rng: &mut Rng) -> DataType {
    match rng.below(7) {
        0 => Date32,
        1 => Date64,
        2 => Time32(any_unit(rng)),
        3 => Time64(any_unit(rng)),
        4 => any_timestamp(rng),
        5 => Interval(*rng.pick(&INTERVALS)),
        _ => Duration(any_unit(rng)),
    }
}

fn any_binary(rng: &mut Rng) -> DataType {
    match rng.below(4) {
        3 => FixedSizeBinary(*rng.pick(&[0, 1, 16, i32::MAX])),
        at => BINARIES[at].clone(),
    }
}

pub fn any_plain(rng: &mut Rng) -> DataType {
    match rng.below(12) {
        0 => Null,
        1 => Boolean,
        2..=4 => rng.pick(&NUMBERS).clone(),
        5 | 6 => {
            let kind = any_decimal_kind(rng);
            any_decimal(rng, kind)
        }
        7 | 8 => any_temporal(rng),
        9 | 10 => rng.pick(&STRINGS).clone(),
        _ => any_binary(rng),
    }
}

// Random types of every kind

pub fn any_name(rng: &mut Rng) -> &'static str {
    NAMES[rng.below(NAMES.len())]
}

fn any_names(rng: &mut Rng, count: usize) -> Vec<String> {
    let mut names: Vec<String> = NAMES.iter().map(|name| name.to_string()).collect();
    names.extend((NAMES.len()..count).map(|at| format!("f{at}")));
    rng.shuffle(&mut names);
    names.truncate(count);
    names
}

fn any_field(rng: &mut Rng, records: usize) -> FieldRef {
    let data_type = any_type(rng, records);
    field(any_name(rng), data_type, rng.once_in(2))
}

fn any_struct(rng: &mut Rng, records: usize) -> DataType {
    let count = rng.below(records.min(5) + 1);
    let names = any_names(rng, count);
    let fields: Vec<FieldRef> = names
        .iter()
        .map(|name| field(name, any_type(rng, records / count), rng.once_in(2)))
        .collect();
    Struct(fields.into())
}

fn any_map(rng: &mut Rng, records: usize) -> DataType {
    let entries = if rng.once_in(8) {
        any_type(rng, records)
    } else {
        let names = any_names(rng, 2);
        let (key, value) = (any_type(rng, records / 2), any_type(rng, records / 2));
        structure(&[(&names[0], key, rng.once_in(4)), (&names[1], value, rng.once_in(2))])
    };
    Map(field(any_name(rng), entries, rng.once_in(3)), rng.once_in(2))
}

/// A type of about `records` records at most.
pub fn any_type(rng: &mut Rng, records: usize) -> DataType {
    if records < 2 || rng.once_in(4) {
        return any_plain(rng);
    }
    let rest = records - 1;
    match rng.below(9) {
        0 => List(any_field(rng, rest)),
        1 => LargeList(any_field(rng, rest)),
        2 => FixedSizeList(any_field(rng, rest), *rng.pick(&[0, 1, 2, 300, i32::MAX])),
        3..=5 => any_struct(rng, rest),
        6 => any_map(rng, rest),
        7 => dictionary(any_index(rng), any_type(rng, rest)),
        _ => RunEndEncoded(
            field(any_name(rng), any_index(rng), rng.once_in(4)),
            any_field(rng, rest),
        ),
    }
}

/// Mostly an integer, now and then any plain type, which a sheet may carry too.
fn any_index(rng: &mut Rng) -> DataType {
    if rng.once_in(8) {
        any_plain(rng)
    } else {
        rng.pick(&INTEGERS).clone()
    }
}

// Related types

/// A type that differs from `base` in a few places, so that the two often have an answer.
pub fn related(rng: &mut Rng, base: &DataType) -> DataType {
    match rng.below(24) {
        0 => return Null,
        1 => return dictionary(any_index(rng), base.clone()),
        2 => return run_ends(rng.pick(&INTEGERS).clone(), base.clone()),
        3 => return any_type(rng, 3),
        4..=8 => return base.clone(),
        _ => {}
    }
    match base {
        List(part) | LargeList(part) | FixedSizeList(part, _) => related_list(rng, base, part),
        Struct(fields) => related_struct(rng, fields),
        Map(part, sorted) => Map(related_field(rng, part), *sorted ^ rng.once_in(2)),
        Dictionary(index, value) => related_dictionary(rng, index, value),
        RunEndEncoded(ends, values) => related_run_ends(rng, ends, values),
        _ => related_plain(rng, base),
    }
}

fn related_field(rng: &mut Rng, base: &FieldRef) -> FieldRef {
    let data_type = related(rng, base.data_type());
    let nullable = base.is_nullable() ^ rng.once_in(3);
    if rng.once_in(4) {
        return field(any_name(rng), data_type, nullable);
    }
    Arc::new(Field::new(base.name(), data_type, nullable))
}

fn related_list(rng: &mut Rng, base: &DataType, part: &FieldRef) -> DataType {
    let part = related_field(rng, part);
    match (rng.below(5), base) {
        (0, _) => List(part),
        (1, _) => LargeList(part),
        (2, _) => FixedSizeList(part, 2),
        (_, List(_)) => List(part),
        (_, FixedSizeList(_, size)) => FixedSizeList(part, *size),
        _ => LargeList(part),
    }
}

/// The same names, in the same or another order, or some names changed, or another count.
fn related_struct(rng: &mut Rng, base: &[FieldRef]) -> DataType {
    let mut fields: Vec<FieldRef> = base
        .iter()
        .map(|part| {
            let nullable = part.is_nullable() ^ rng.once_in(3);
            Arc::new(Field::new(part.name(), related(rng, part.data_type()), nullable))
        })
        .collect();
    match rng.below(8) {
        0..=2 => rng.shuffle(&mut fields),
        3 | 4 => rename_one(rng, &mut fields),
        5 if rng.once_in(2) => drop(fields.pop()),
        _ => {}
    }
    Struct(fields.into())
}

fn rename_one(rng: &mut Rng, fields: &mut [FieldRef]) {
    let name = text_of(any_name(rng).as_bytes());
    if fields.is_empty() || fields.iter().any(|part| *part.name() == name) {
        return;
    }
    let at = rng.below(fields.len());
    let old = &fields[at];
    fields[at] = Arc::new(Field::new(name, old.data_type().clone(), old.is_nullable()));
}

fn related_dictionary(rng: &mut Rng, index: &DataType, value: &DataType) -> DataType {
    match rng.below(5) {
        0 => value.clone(),
        1 => related(rng, value),
        2 => run_ends(index.clone(), related(rng, value)),
        _ => dictionary(any_index(rng), related(rng, value)),
    }
}

fn related_run_ends(rng: &mut Rng, ends: &FieldRef, values: &FieldRef) -> DataType {
    match rng.below(5) {
        0 => values.data_type().clone(),
        1 => related(rng, values.data_type()),
        2 => dictionary(ends.data_type().clone(), related(rng, values.data_type())),
        _ => RunEndEncoded(related_field(rng, ends), related_field(rng, values)),
    }
}

fn related_plain(rng: &mut Rng, base: &DataType) -> DataType {
    let same_category = !rng.once_in(8);
    match base {
        _ if !same_category => any_plain(rng),
        Decimal32(..) | Decimal64(..) | Decimal128(..) | Decimal256(..) => {
            related_decimal(rng, base)
        }
        _ if base.is_numeric() => match rng.below(4) {
            0 => {
                let kind = any_decimal_kind(rng);
                any_decimal(rng, kind)
            }
            _ => rng.pick(&NUMBERS).clone(),
        },
        Utf8 | LargeUtf8 | Utf8View => rng.pick(&STRINGS).clone(),
        Timestamp(..) => any_timestamp(rng),
        _ if base.is_temporal() => any_temporal(rng),
        Binary | LargeBinary | BinaryView | FixedSizeBinary(_) => any_binary(rng),
        _ => any_plain(rng),
    }
}

fn related_decimal(rng: &mut Rng, base: &DataType) -> DataType {
    let kind = crate::sheet::kind_of(base);
    match rng.below(5) {
        0 => rng.pick(&NUMBERS).clone(),
        1 => {
            let kind = any_decimal_kind(rng);
            any_decimal(rng, kind)
        }
        _ => any_decimal(rng, kind),
    }
}

/// A mask that allows everything, or lacks a few kinds, or is anything.
pub fn any_mask(rng: &mut Rng) -> u64 {
    let full = crate::call::FULL_MASK;
    match rng.below(6) {
        0..=2 => full,
        3 => 0,
        4 => full & rng.next() & rng.next(),
        _ => full & rng.next(),
    }
}
