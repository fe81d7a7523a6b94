//! Sheets built by hand, with the answer that a list call on each must give: the limits of
//! docs/FORMAT.md, and how it reads each condition.

use crate::call::Answer;
use crate::make::*;
use crate::sheet::{self, RECORD};
use crate::standin::arrow::datatypes::DataType;
use DataType::*;

/// A sheet with this header over a body of the length that it names.
fn raw(records: usize, labels: usize, body: Vec<u8>) -> Vec<u8> {
    let mut sheet = vec![0; RECORD];
    sheet[..2].copy_from_slice(&(records as u16).to_le_bytes());
    sheet[2..4].copy_from_slice(&(labels as u16).to_le_bytes());
    sheet.extend(body);
    sheet
}

/// Int8 records in one chain, without the header.
fn chain_of_int8(count: usize) -> Vec<u8> {
    let mut body = Vec::new();
    for record in 1..=count {
        let mut bytes = [0; RECORD];
        bytes[0] = 3;
        if record < count {
            bytes[10..12].copy_from_slice(&(record as u16 + 1).to_le_bytes());
        }
        body.extend(bytes);
    }
    body
}

/// One type of a kind with any number of Int8 parts, without figures or labels.
fn with_parts(kind: u8, parts: usize) -> Vec<u8> {
    let mut sheet = raw(2 + parts, 0, vec![0; RECORD]);
    sheet[RECORD] = kind;
    sheet[RECORD + 8] = if parts == 0 { 0 } else { 2 };
    for part in 2..2 + parts {
        let mut record = [0; RECORD];
        record[0] = 3;
        record[10] = if part == 1 + parts { 0 } else { part as u8 + 1 };
        sheet.extend(record);
    }
    sheet
}

/// Every kind with up to three parts, and what a list call on it must give.
fn part_counts() -> Vec<(Vec<u8>, Answer)> {
    let mut cases = Vec::new();
    for kind in 0..=40 {
        for parts in 0..=3 {
            let sheet = with_parts(kind, parts);
            let right = match kind {
                32..=34 | 36 => parts == 1,
                37 | 38 => parts == 2,
                35 => true,
                _ => parts == 0,
            };
            let answer = match kind {
                0 | 39.. => Answer::Refused(2),
                _ if !right => Answer::Refused(3),
                14..=17 => Answer::Refused(4),
                35 if parts > 1 => Answer::Refused(5),
                _ => Answer::Type(sheet.clone()),
            };
            cases.push((sheet, answer));
        }
    }
    cases
}

/// Each hand-made sheet with the answer that a list call on it must give.
pub fn hand_made() -> Vec<(Vec<u8>, Answer)> {
    let mut cases = part_counts();
    cases.extend(header_bytes());
    cases.extend(readings());
    cases
}

/// Each byte of the header's rest, set.
fn header_bytes() -> Vec<(Vec<u8>, Answer)> {
    let set = |at: usize| {
        let mut sheet = with_parts(3, 0);
        sheet[at] = 1;
        (sheet, Answer::Refused(1))
    };
    (4..RECORD).map(set).collect()
}

fn readings() -> Vec<(Vec<u8>, Answer)> {
    let refused = |sheet: Vec<u8>, number: u8| (sheet, Answer::Refused(number));
    let written = |types: &[DataType]| sheet::write(types).expect("types that fit in a sheet");
    let edited = |types: &[DataType], edits: &[(usize, usize, u8)]| {
        let mut sheet = written(types);
        for &(record, at, value) in edits {
            sheet[RECORD * record + at] = value;
        }
        sheet
    };
    let found =
        |types: &[DataType], answer: DataType| (written(types), Answer::Type(written(&[answer])));
    let zoned = structure(&[("a", timestamp(0, Some("UTC")), false)]);
    let odd_dictionary = dictionary(structure(&[]), dictionary(Utf8, Null));
    vec![
        refused(vec![], 1),
        refused(raw(0, 0, vec![]), 1),
        refused(raw(0, 16, vec![]), 1),
        refused(raw(1025, 0, chain_of_int8(1024)), 1),
        (raw(1024, 0, chain_of_int8(1023)), Answer::Type(written(&[Int8]))),
        refused(raw(1, 16385, vec![0; 16385]), 1),
        refused(raw(1, 16384, vec![b'x'; 16384]), 5),
        refused(raw(1, 1, vec![0]), 5),
        (raw(1, 0, vec![]), Answer::None),
        // A bad kind in a record that the walk never meets.
        refused(edited(&[Int8, Int16], &[(1, 10, 0), (2, 0, 39)]), 2),
        refused(edited(&[Int8, Int16], &[(1, 10, 0)]), 3),
        refused(edited(&[Int8], &[(1, 8, 1)]), 3),
        refused(edited(&[list("", Int8, false)], &[(1, 8, 0), (1, 10, 2)]), 3),
        refused(edited(&[run_ends(Int16, Int8)], &[(2, 10, 0), (1, 10, 3)]), 3),
        refused(edited(&[dictionary(Int16, Int8)], &[(2, 10, 0), (1, 10, 3)]), 3),
        refused(edited(&[Int8, Int16], &[(1, 8, 2), (1, 10, 0)]), 3),
        // Zone bytes without the bit, the bit on another kind, byte 7.
        refused(edited(&[timestamp(0, None)], &[(1, 6, 1)]), 4),
        refused(edited(&[timestamp(0, None)], &[(1, 4, 1)]), 4),
        refused(edited(&[timestamp(1, None)], &[(1, 5, 1)]), 4),
        refused(edited(&[timestamp(2, None)], &[(1, 7, 1)]), 4),
        refused(edited(&[list("", timestamp(0, None), true)], &[(2, 6, 1)]), 4),
        refused(edited(&[timestamp(0, Some("Z"))], &[(1, 1, 0)]), 4),
        refused(edited(&[Int8], &[(1, 1, 4)]), 4),
        refused(edited(&[timestamp(0, Some("Z"))], &[(1, 7, 1)]), 4),
        refused(edited(&[Int8], &[(1, 1, 1)]), 4),
        refused(edited(&[dictionary(Int8, Utf8)], &[(2, 1, 1)]), 4),
        refused(edited(&[dictionary(Int8, Utf8)], &[(3, 1, 1)]), 4),
        refused(edited(&[Int8], &[(1, 15, 1)]), 4),
        // A present empty zone, or an empty name, with an offset.
        refused(edited(&[timestamp(0, Some(""))], &[(1, 4, 1)]), 5),
        refused(edited(&[list("", Int8, true)], &[(2, 12, 1)]), 5),
        refused(edited(&[Int8], &[(1, 12, 1)]), 5),
        refused(edited(&[Int8], &[(1, 14, 1)]), 5),
        refused(edited(&[timestamp(0, Some("UTC"))], &[(1, 6, 4)]), 5),
        refused(edited(&[timestamp(0, Some("UTC"))], &[(1, 6, 2)]), 5),
        refused(edited(std::slice::from_ref(&zoned), &[(2, 12, 3), (2, 4, 0)]), 5),
        // A name in its place where none may be: a listed type, an index, a value.
        refused(labelled(&[Int8], &[1]), 5),
        refused(labelled(&[Int8, Int16], &[2]), 5),
        refused(labelled(&[timestamp(0, None)], &[1]), 5),
        refused(labelled(&[dictionary(Int8, Utf8)], &[2]), 5),
        refused(labelled(&[dictionary(Int8, Utf8)], &[3]), 5),
        refused(labelled(&[list("", dictionary(Int8, Utf8), true)], &[2, 4]), 5),
        found_bytes(labelled(&[list("", dictionary(Int8, Utf8), true)], &[2])),
        found_bytes(labelled(&[run_ends_without_names()], &[2, 3])),
        refused(written(&[structure(&[("", Int8, false), ("", Int8, true)])]), 5),
        refused(
            written(&[structure(&[("", Int8, false), ("a", Null, true), ("", Utf8, true)])]),
            5,
        ),
        refused(
            written(&[map("", structure(&[("", Int8, false), ("", Int8, true)]), true, false)]),
            5,
        ),
        refused(
            written(&[structure(&[("a", Int8, false), ("b", Int8, true), ("a", Null, true)])]),
            5,
        ),
        // Accepted: any unit for Time32 and Time64, any part for a Map, any index for a
        // Dictionary, equal names in run ends, size 0, a Struct without parts.
        found(&[Time32(UNITS[3])], Time32(UNITS[3])),
        found(&[Time64(UNITS[0])], Time64(UNITS[0])),
        found(&[map("", Int8, false, true)], map("", Int8, false, true)),
        found_bytes(written(&[odd_dictionary])),
        found_bytes(written(&[zoned])),
        found(
            &[RunEndEncoded(field("a", Utf8, true), field("a", Int8, false))],
            RunEndEncoded(field("a", Utf8, true), field("a", Int8, false)),
        ),
        found(&[FixedSizeBinary(0)], FixedSizeBinary(0)),
        found(&[fixed_list("", Null, false, 0)], fixed_list("", Null, false, 0)),
        found(&[FixedSizeBinary(i32::MAX)], FixedSizeBinary(i32::MAX)),
        found(&[structure(&[])], structure(&[])),
        found(&[Decimal256(76, -51)], Decimal256(76, -51)),
        refused(written(&[Decimal256(76, -52)]), 4),
        found(&[Decimal32(9, -118)], Decimal32(9, -118)),
        refused(written(&[Decimal32(9, -119)]), 4),
        refused(written(&[Decimal32(10, 0)]), 4),
        refused(written(&[Decimal64(19, 0)]), 4),
        refused(written(&[Decimal128(39, 0)]), 4),
        refused(written(&[Decimal256(77, 0)]), 4),
        refused(written(&[Decimal32(0, 0)]), 4),
        refused(written(&[Decimal128(0, 0)]), 4),
        refused(written(&[Decimal128(3, 4)]), 4),
        refused(written(&[FixedSizeBinary(-1)]), 4),
        refused(written(&[fixed_list("", Int8, true, i32::MIN)]), 4),
    ]
}

fn found_bytes(sheet: Vec<u8>) -> (Vec<u8>, Answer) {
    (sheet.clone(), Answer::Type(sheet))
}

fn run_ends_without_names() -> DataType {
    RunEndEncoded(field("", Int32, false), field("", Utf8, true))
}

/// Types without labels, and then a name of one byte for each of these records.
fn labelled(types: &[DataType], named: &[usize]) -> Vec<u8> {
    let mut sheet = sheet::write(types).expect("types that fit in a sheet");
    for (at, record) in named.iter().enumerate() {
        sheet[RECORD * record + 12] = at as u8;
        sheet[RECORD * record + 14] = 1;
        sheet.push(b'x');
    }
    sheet[2] = named.len() as u8;
    sheet
}
