//! What several tests share: a seeded generator of types and damage.
#![allow(dead_code)]

use pemzhulaq::{DataType, Field, IntervalUnit, Kind, Label, TimeUnit};

/// SplitMix64.
pub struct Rng(pub u64);

impl Rng {
    pub fn next(&mut self) -> u64 {
        self.0 = self.0.wrapping_add(0x9E37_79B9_7F4A_7C15);
        let mut z = self.0;
        z = (z ^ (z >> 30)).wrapping_mul(0xBF58_476D_1CE4_E5B9);
        z = (z ^ (z >> 27)).wrapping_mul(0x94D0_49BB_1331_11EB);
        z ^ (z >> 31)
    }

    pub fn below(&mut self, limit: usize) -> usize {
        (self.next() % limit as u64) as usize
    }

    pub fn coin(&mut self) -> bool {
        self.below(2) == 0
    }

    pub fn pick<T: Copy>(&mut self, from: &[T]) -> T {
        from[self.below(from.len())]
    }
}

const UNITS: [TimeUnit; 4] =
    [TimeUnit::Second, TimeUnit::Millisecond, TimeUnit::Microsecond, TimeUnit::Nanosecond];
const INTERVALS: [IntervalUnit; 3] =
    [IntervalUnit::YearMonth, IntervalUnit::DayTime, IntervalUnit::MonthDayNano];
const NAMES: [&str; 12] = [
    "",
    "item",
    "entries",
    "run_ends",
    "values",
    "nullable",
    "Int64",
    "größe",
    "till no.",
    "\"\\",
    "\n\r\t\0",
    "x: Int8, y",
];

pub fn any_label(rng: &mut Rng) -> Label {
    match rng.below(8) {
        0..=3 => rng.pick(&NAMES).into(),
        4 => (0..rng.below(6)).map(|_| rng.next() as u8).collect::<Vec<u8>>().into(),
        5 if rng.below(10) == 0 => vec![b'n'; 255 - rng.below(3)].into(),
        _ => format!("f{}", rng.below(1000)).into(),
    }
}

fn any_decimal(rng: &mut Rng, cap: u8) -> (u8, i8) {
    let p = 1 + rng.below(usize::from(cap)) as u8;
    let s = match rng.below(4) {
        0 => i16::from(p),
        1 => i16::from(p) - 127,
        _ => i16::from(p) - rng.below(128) as i16,
    };
    (p, s as i8)
}

fn any_size(rng: &mut Rng) -> i32 {
    match rng.below(4) {
        0 => 0,
        1 => i32::MAX,
        _ => rng.below(1 << 20) as i32,
    }
}

/// A type of this kind whose parts are at most so deep.
pub fn any_of_kind(rng: &mut Rng, kind: Kind, depth: usize) -> DataType {
    use DataType as D;
    let unit = rng.pick(&UNITS);
    match kind {
        Kind::Decimal32 => {
            let (p, s) = any_decimal(rng, 9);
            D::Decimal32(p, s)
        }
        Kind::Decimal64 => {
            let (p, s) = any_decimal(rng, 18);
            D::Decimal64(p, s)
        }
        Kind::Decimal128 => {
            let (p, s) = any_decimal(rng, 38);
            D::Decimal128(p, s)
        }
        Kind::Decimal256 => {
            let (p, s) = any_decimal(rng, 76);
            D::Decimal256(p, s)
        }
        Kind::Time32 => D::Time32(unit),
        Kind::Time64 => D::Time64(unit),
        Kind::Timestamp => D::Timestamp(unit, rng.coin().then(|| any_label(rng))),
        Kind::Interval => D::Interval(rng.pick(&INTERVALS)),
        Kind::Duration => D::Duration(unit),
        Kind::FixedSizeBinary => D::FixedSizeBinary(any_size(rng)),
        Kind::List => D::List(any_field(rng, depth)),
        Kind::LargeList => D::LargeList(any_field(rng, depth)),
        Kind::FixedSizeList => D::FixedSizeList(any_field(rng, depth), any_size(rng)),
        Kind::Struct => any_struct(rng, depth),
        Kind::Map => D::Map(any_field(rng, depth), rng.coin()),
        Kind::Dictionary => D::Dictionary(
            Box::new(any_type(rng, depth.saturating_sub(1))),
            Box::new(any_type(rng, depth.saturating_sub(1))),
        ),
        Kind::RunEndEncoded => D::RunEndEncoded(any_field(rng, depth), any_field(rng, depth)),
        simple => simple.word().parse().expect("a kind that its word tells"),
    }
}

pub fn any_type(rng: &mut Rng, depth: usize) -> DataType {
    let kinds: Vec<Kind> = Kind::all().collect();
    let kind = if depth == 0 { rng.pick(&kinds[..31]) } else { rng.pick(&kinds) };
    any_of_kind(rng, kind, depth)
}

fn any_field(rng: &mut Rng, depth: usize) -> Box<Field> {
    let data_type = any_type(rng, depth.saturating_sub(1));
    Box::new(Field::new(any_label(rng), data_type, rng.coin()))
}

fn any_struct(rng: &mut Rng, depth: usize) -> DataType {
    let mut fields: Vec<Field> = Vec::new();
    for _ in 0..rng.below(5) {
        let field = any_field(rng, depth);
        if fields.iter().all(|other| other.name != field.name) {
            fields.push(*field);
        }
    }
    DataType::Struct(fields)
}

/// Any number of types up to a limit.
pub fn any_list(rng: &mut Rng, most: usize) -> Vec<DataType> {
    (0..rng.below(most + 1)).map(|_| any_type(rng, 4)).collect()
}

/// Changes a few bytes, or the length, of a sheet; links and lengths more often than chance would.
pub fn damage(rng: &mut Rng, sheet: &mut Vec<u8>) {
    for _ in 0..1 + rng.below(3) {
        let records = sheet.len() / 16;
        let at = match rng.below(4) {
            0 => 16 * rng.below(records.max(1)) + rng.pick(&[0, 1, 2, 3, 8, 10, 12, 14, 15]),
            _ => rng.below(sheet.len().max(1)),
        };
        let value = match rng.below(3) {
            0 => rng.next() as u8,
            1 => rng.below(records + 2) as u8,
            _ => 1 << rng.below(8),
        };
        match sheet.get_mut(at) {
            Some(byte) if rng.coin() => *byte = value,
            Some(byte) => *byte = byte.wrapping_add(value % 3).wrapping_sub(1),
            None => {}
        }
        match rng.below(24) {
            0 => sheet.truncate(at),
            1 => sheet.push(value),
            _ => {}
        }
    }
}

/// A type of so many Lists around Int64.
pub fn deep_list(depth: usize) -> DataType {
    (0..depth)
        .fold(DataType::Int64, |inner, _| DataType::List(Box::new(Field::new("item", inner, true))))
}
