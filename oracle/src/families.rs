//! The least-type theorem: families, `holds` and the least type by brute force, from docs/RULES.md
//! and not from the source.

use crate::call::{Answer, Call, Question, FULL_MASK};
use crate::make::{any_decimal, decimal, DECIMALS, INTEGERS, STRINGS, UNITS};
use crate::rng::Rng;
use crate::sheet::{self, kind_of, precision_cap};
use crate::standin::arrow::datatypes::DataType;
use DataType::*;

/// A set of types in which a list has a least one; decimals by the kind of their width.
#[derive(Debug, Clone, Copy, PartialEq, Eq)]
pub enum Family {
    Integers,
    Decimals(u8),
    Strings,
    Timestamps,
}

/// All families.
pub const FAMILIES: [Family; 7] = [
    Family::Integers,
    Family::Decimals(DECIMALS[0]),
    Family::Decimals(DECIMALS[1]),
    Family::Decimals(DECIMALS[2]),
    Family::Decimals(DECIMALS[3]),
    Family::Strings,
    Family::Timestamps,
];

/// Every type of a family.
pub fn members(family: Family) -> Vec<DataType> {
    match family {
        Family::Integers => {
            let mut types = INTEGERS.to_vec();
            types.push(Decimal128(20, 0));
            types
        }
        Family::Decimals(kind) => decimals(kind),
        Family::Strings => STRINGS.to_vec(),
        Family::Timestamps => UNITS.map(|unit| Timestamp(unit, None)).to_vec(),
    }
}

fn decimals(kind: u8) -> Vec<DataType> {
    let cap = precision_cap(kind).expect("a decimal kind");
    let mut types = Vec::new();
    for p in 1..=i32::from(cap) {
        for s in p - 127..=p {
            types.push(decimal(kind, p as u8, s as i8));
        }
    }
    types
}

fn range(integer: &DataType) -> (i128, i128) {
    match integer {
        Int8 => (i8::MIN.into(), i8::MAX.into()),
        Int16 => (i16::MIN.into(), i16::MAX.into()),
        Int32 => (i32::MIN.into(), i32::MAX.into()),
        Int64 => (i64::MIN.into(), i64::MAX.into()),
        UInt8 => (0, u8::MAX.into()),
        UInt16 => (0, u16::MAX.into()),
        UInt32 => (0, u32::MAX.into()),
        UInt64 => (0, u64::MAX.into()),
        _ => unreachable!("an integer"),
    }
}

fn figures(decimal: &DataType) -> (i32, i32) {
    match decimal {
        Decimal32(p, s) | Decimal64(p, s) | Decimal128(p, s) | Decimal256(p, s) => {
            (i32::from(*p), i32::from(*s))
        }
        _ => unreachable!("a decimal"),
    }
}

/// Whether `holder` holds `held`, both of one family; every type holds Null.
pub fn holds(family: Family, holder: &DataType, held: &DataType) -> bool {
    if held == &Null || holder == held {
        return true;
    }
    match family {
        Family::Integers => match (holder, held) {
            (Decimal128(20, 0), _) => true,
            (_, Decimal128(20, 0)) => false,
            _ => {
                let (outer, inner) = (range(holder), range(held));
                outer.0 <= inner.0 && inner.1 <= outer.1
            }
        },
        Family::Decimals(_) => {
            let ((p, s), (q, t)) = (figures(holder), figures(held));
            t <= s && q - t <= p - s
        }
        Family::Strings => kind_of(held) <= kind_of(holder),
        Family::Timestamps => match (holder, held) {
            (Timestamp(fine, _), Timestamp(coarse, _)) => (*coarse as u8) <= (*fine as u8),
            _ => unreachable!("timestamps"),
        },
    }
}

/// The type of the family that holds every listed type and is held by every other that does.
pub fn least(family: Family, types: &[DataType]) -> Option<DataType> {
    let mut holders = members(family);
    holders.retain(|holder| types.iter().all(|t| holds(family, holder, t)));
    let lower = |a: DataType, b: DataType| if holds(family, &a, &b) { b } else { a };
    let found = holders.iter().cloned().reduce(lower)?;
    let held_by_all = holders.iter().all(|holder| holds(family, holder, &found));
    assert!(held_by_all, "{types:?} has holders and no least one");
    Some(found)
}

/// The answer that the theorem says of a list with at least one type that is not Null.
pub fn due(family: Family, types: &[DataType]) -> DataType {
    if let Some(found) = least(family, types) {
        return found;
    }
    let Family::Decimals(kind) = family else { unreachable!("only decimals outgrow") };
    let listed = types.iter().filter(|t| **t != Null);
    let scale = listed.map(|t| figures(t).1).max().expect("a decimal");
    decimal(kind, precision_cap(kind).expect("a decimal kind"), scale as i8)
}

/// A list of the family with some Nulls and at least one type that is not Null.
pub fn any_list(rng: &mut Rng, family: Family, count: usize) -> Vec<DataType> {
    let mut types: Vec<DataType> = (0..count).map(|_| any_member(rng, family)).collect();
    for listed in types.iter_mut().skip(1) {
        if rng.once_in(5) {
            *listed = Null;
        }
    }
    rng.shuffle(&mut types);
    types
}

fn any_member(rng: &mut Rng, family: Family) -> DataType {
    match family {
        Family::Decimals(kind) => any_decimal(rng, kind),
        _ => rng.pick(&members(family)).clone(),
    }
}

fn list_call(rng: &mut Rng, types: &[DataType]) -> Vec<u8> {
    let sheet = sheet::write(types).expect("types that fit in a sheet");
    let mask = FULL_MASK & rng.next();
    match Call::new(Question::List, mask, sheet).answer() {
        Answer::Type(bytes) => bytes,
        other => panic!("{types:?}: {other:?}"),
    }
}

/// The bytes answered for a list that is shuffled, cut into stretches, and joined again.
fn by_stretches(rng: &mut Rng, types: &[DataType]) -> Vec<u8> {
    let mut order = types.to_vec();
    rng.shuffle(&mut order);
    let mut answers = Vec::new();
    let mut rest = &order[..];
    while !rest.is_empty() {
        let (stretch, after) = rest.split_at(1 + rng.below(rest.len()));
        let answer = list_call(rng, stretch);
        answers.extend(sheet::read(&answer).expect("an answer is a sheet"));
        rest = after;
    }
    rng.shuffle(&mut answers);
    list_call(rng, &answers)
}

/// The theorem on one list: whole, reordered and cut, under changing masks.
pub fn check(rng: &mut Rng, family: Family, types: &[DataType]) {
    let expected = sheet::write(&[due(family, types)]).expect("one type");
    assert_eq!(list_call(rng, types), expected, "{types:?} whole");
    for _ in 0..4 {
        assert_eq!(by_stretches(rng, types), expected, "{types:?} by stretches");
    }
}
