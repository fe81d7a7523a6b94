//! Every ordered pair of plain types with its three answers, in a compact binary form.

use crate::call::{common_type, FULL_MASK, QUESTIONS};
use crate::make::*;
use crate::rules::corner_decimals;
use crate::sheet::kind_of;
use crate::standin::arrow::datatypes::DataType;
use DataType::*;

const ZONES: [Option<&str>; 4] = [None, Some(""), Some("UTC"), Some("+02:00")];

/// All kinds without parts, in every unit, with four zones and decimals around each cap.
fn plain_types() -> Vec<DataType> {
    let mut types = vec![Null, Boolean];
    types.extend(NUMBERS);
    for kind in DECIMALS {
        types.extend(corner_decimals(kind));
    }
    types.extend([Date32, Date64]);
    types.extend(UNITS.map(Time32));
    types.extend(UNITS.map(Time64));
    for unit in 0..4 {
        types.extend(ZONES.map(|zone| timestamp(unit, zone)));
    }
    types.extend(INTERVALS.map(Interval));
    types.extend(UNITS.map(Duration));
    types.extend(STRINGS);
    types.extend(BINARIES);
    types.extend([0, 1, 2].map(FixedSizeBinary));
    types
}

/// Kind, byte 2, scale byte, and the place of the zone in the table of zones
/// (for FixedSizeBinary the size, which is below 4 here).
fn four_bytes(data_type: &DataType) -> [u8; 4] {
    let kind = kind_of(data_type);
    match data_type {
        Decimal32(p, s) | Decimal64(p, s) | Decimal128(p, s) | Decimal256(p, s) => {
            [kind, *p, *s as u8, 0]
        }
        Time32(unit) | Time64(unit) | Duration(unit) => [kind, *unit as u8, 0, 0],
        Interval(unit) => [kind, *unit as u8, 0, 0],
        Timestamp(unit, zone) => {
            let place = ZONES.iter().position(|known| *known == zone.as_deref());
            [kind, *unit as u8, 0, place.expect("a known zone") as u8]
        }
        FixedSizeBinary(size) => [kind, 0, 0, *size as u8],
        _ => [kind, 0, 0, 0],
    }
}

/// The number of types T in two bytes, T types of four bytes, then for each left and each
/// right the answers of list, union and compare, four bytes each, all zero for none.
pub fn table() -> Vec<u8> {
    let types = plain_types();
    let mut out = (types.len() as u16).to_le_bytes().to_vec();
    out.extend(types.iter().flat_map(four_bytes));
    for left in &types {
        for right in &types {
            for question in QUESTIONS {
                let pair = [left.clone(), right.clone()];
                let answer = common_type(question, FULL_MASK, &pair);
                out.extend(answer.as_ref().map_or([0; 4], four_bytes));
            }
        }
    }
    out
}
