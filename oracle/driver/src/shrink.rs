//! The smallest call that can be found for a difference.

use crate::call::{Call, FULL_MASK};
use crate::sheet::{self, RECORD};
use crate::standin::arrow::datatypes::{DataType, Field, FieldRef};
use std::sync::Arc;
use DataType::*;

/// Takes smaller calls as long as one of them still differs.
pub fn shrink(mut call: Call, differs: &dyn Fn(&Call) -> bool) -> Call {
    while let Some(smaller) = smaller_call(&call, differs) {
        call = smaller;
    }
    call
}

fn smaller_call(call: &Call, differs: &dyn Fn(&Call) -> bool) -> Option<Call> {
    let size = size(call);
    let fits = |smaller: &Call| self::size(smaller) < size && differs(smaller);
    let spelled = lists(call).into_iter().filter_map(|types| sheet::write(&types));
    let mut sheets = spelled.chain(raw(&call.sheet)).map(|sheet| with_sheet(call, sheet));
    sheets.find(fits).or_else(|| plainer(call).into_iter().find(fits))
}

/// What is made smaller: the sheet, its bytes, the mask's holes, the space past the need.
fn size(call: &Call) -> (usize, usize, usize, u64, u64) {
    let filled = call.sheet.iter().filter(|&&byte| byte != 0).count();
    let sum = call.sheet.iter().map(|&byte| usize::from(byte)).sum();
    let length = call.sheet.len() as u64;
    let spare = u64::from(call.output).abs_diff(length) + u64::from(call.work).abs_diff(2 * length);
    (call.sheet.len(), filled, sum, call.mask ^ FULL_MASK, spare)
}

/// The call with another sheet, and spaces as far from it as they were.
fn with_sheet(call: &Call, sheet: Vec<u8>) -> Call {
    let moved = |space: u32, times: i64| {
        let by = times * (sheet.len() as i64 - call.sheet.len() as i64);
        (i64::from(space) + by).max(0) as u32
    };
    Call { output: moved(call.output, 1), work: moved(call.work, 2), sheet, ..*call }
}

/// The call with a full mask, or with exact spaces, or a little nearer to both.
fn plainer(call: &Call) -> Vec<Call> {
    let length = call.sheet.len() as u32;
    let with = |mask, output, work| Call { mask, output, work, ..call.clone() };
    vec![
        with(FULL_MASK, call.output, call.work),
        with(call.mask, length, call.work),
        with(call.mask, call.output, 2 * length),
        with(call.mask, length + 1, call.work),
        with(call.mask, call.output, 2 * length + 1),
        with(call.mask, length.saturating_sub(1), call.work),
        with(call.mask, call.output, (2 * length).saturating_sub(1)),
    ]
}

/// Lists with a type less, or with one type made simpler.
fn lists(call: &Call) -> Vec<Vec<DataType>> {
    let Ok(types) = sheet::read(&call.sheet) else { return Vec::new() };
    let (front, back) = types.split_at(types.len() / 2);
    let mut lists = vec![front.to_vec(), back.to_vec()];
    for at in 0..types.len() {
        let mut fewer = types.clone();
        fewer.remove(at);
        lists.push(fewer);
    }
    for (at, listed) in types.iter().enumerate() {
        for simple in simpler(listed) {
            let mut changed = types.clone();
            changed[at] = simple;
            lists.push(changed);
        }
    }
    lists
}

/// Types that are simpler: a part, fewer fields, a simpler part, Null or Int8.
fn simpler(data_type: &DataType) -> Vec<DataType> {
    let mut found = vec![Null, Int8];
    match data_type {
        List(part) => wrap(&mut found, part, List),
        LargeList(part) => wrap(&mut found, part, LargeList),
        FixedSizeList(part, size) => wrap(&mut found, part, |part| FixedSizeList(part, *size)),
        Map(part, sorted) => wrap(&mut found, part, |part| Map(part, *sorted)),
        Dictionary(index, value) => {
            found.push((**value).clone());
            let pair = |index, value| Dictionary(Box::new(index), Box::new(value));
            found.extend(simpler(index).into_iter().map(|simple| pair(simple, (**value).clone())));
            found.extend(simpler(value).into_iter().map(|simple| pair((**index).clone(), simple)));
        }
        RunEndEncoded(ends, values) => {
            wrap(&mut found, values, |part| RunEndEncoded(ends.clone(), part));
            wrap(&mut found, ends, |part| RunEndEncoded(part, values.clone()));
        }
        Struct(fields) => found.extend(simpler_struct(fields)),
        Timestamp(unit, Some(zone)) => {
            found.push(Timestamp(*unit, None));
            found.extend(shorter(zone).into_iter().map(|zone| Timestamp(*unit, Some(zone.into()))));
        }
        _ => {}
    }
    found
}

fn wrap(found: &mut Vec<DataType>, part: &FieldRef, wrapper: impl Fn(FieldRef) -> DataType) {
    found.push(part.data_type().clone());
    found.extend(simpler_field(part).into_iter().map(wrapper));
}

fn simpler_struct(fields: &[FieldRef]) -> Vec<DataType> {
    let mut found: Vec<DataType> = fields.iter().map(|part| part.data_type().clone()).collect();
    found.push(Struct(fields[..fields.len() / 2].to_vec().into()));
    found.push(Struct(fields[fields.len() / 2..].to_vec().into()));
    for at in 0..fields.len() {
        let mut fewer = fields.to_vec();
        fewer.remove(at);
        found.push(Struct(fewer.into()));
        for simple in simpler_field(&fields[at]) {
            let mut changed = fields.to_vec();
            changed[at] = simple;
            found.push(Struct(changed.into()));
        }
    }
    found
}

fn simpler_field(field: &Field) -> Vec<FieldRef> {
    let (name, data_type) = (field.name(), field.data_type());
    let made = |name: &str, data_type: &DataType, nullable| {
        Arc::new(Field::new(name, data_type.clone(), nullable))
    };
    let mut found = vec![made(name, data_type, false)];
    found.extend(shorter(name).iter().map(|name| made(name, data_type, field.is_nullable())));
    let simple = simpler(data_type);
    found.extend(simple.iter().map(|simple| made(name, simple, field.is_nullable())));
    found
}

/// Nothing, a half, or all but a character.
fn shorter(text: &str) -> Vec<String> {
    let letters: Vec<char> = text.chars().collect();
    let half = letters.len() / 2;
    let last = letters.len().saturating_sub(1);
    let parts = [&letters[..0], &letters[..half], &letters[half..], &letters[..last]];
    parts.iter().map(|part| part.iter().collect()).collect()
}

/// Bytes as they are: cut off, a record or a label byte less, one byte smaller.
fn raw(bytes: &[u8]) -> Vec<Vec<u8>> {
    let mut found = vec![bytes[..bytes.len() / 2].to_vec()];
    found.push(bytes[..bytes.len().saturating_sub(1)].to_vec());
    if bytes.len() >= 2 * RECORD {
        found.extend(
            (1..bytes.len() / RECORD).map(|record| without(bytes, RECORD * record, RECORD)),
        );
        found.push(without(bytes, bytes.len() - 1, 1));
    }
    for at in 0..bytes.len() {
        for value in [0, bytes[at] / 2, bytes[at].saturating_sub(1)] {
            let mut smaller = bytes.to_vec();
            smaller[at] = value;
            found.push(smaller);
        }
    }
    found
}

/// The bytes without a record or a label byte, and the header's number one less.
fn without(bytes: &[u8], at: usize, length: usize) -> Vec<u8> {
    let mut fewer = bytes.to_vec();
    fewer.drain(at..at + length);
    let number = if length == RECORD { 0 } else { 2 };
    fewer[number] = fewer[number].wrapping_sub(1);
    fewer
}
