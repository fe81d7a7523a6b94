//! Damaged calls: every condition of the refusal table, alone and in company.

use crate::book::{Book, Class};
use crate::call::{Answer, Call, Question, FULL_MASK, QUESTIONS};
use crate::make::*;
use crate::readings;
use crate::rng::Rng;
use crate::sheet::{self, precision_cap, LIST, MAP, RECORD, STRUCT, TIMESTAMP};
use crate::standin::arrow::datatypes::DataType;
use DataType::*;

/// The classes of damaged calls.
pub const CLASSES: [Class; 12] = [
    (301, "torn, alone", alone),
    (302, "kind, alone", alone),
    (303, "chain, alone", alone),
    (304, "figure, alone", alone),
    (305, "label, alone", alone),
    (306, "mask, alone", alone),
    (307, "pair, alone", alone),
    (308, "space, alone", alone),
    (309, "two refusal conditions at once", in_pairs),
    (310, "three and more refusal conditions at once", in_company),
    (311, "limits and readings of docs/FORMAT.md, each built by hand", by_hand),
    (312, "output and work space exact, short and long", spaces),
];

/// Changes a call that meets no condition so that it meets one of that number;
/// false where the call has no place for it.
struct Damage {
    number: u8,
    apply: fn(&mut Call, &mut Rng) -> bool,
}

const fn damage(number: u8, apply: fn(&mut Call, &mut Rng) -> bool) -> Damage {
    Damage { number, apply }
}

const DAMAGES: [Damage; 63] = [
    damage(1, |call, rng| cut(call, rng.below(16))),
    damage(1, |call, _| cut(call, 15)),
    damage(1, |call, _| set_header(call, 0, 0)),
    damage(1, |call, _| shift_header(call, 0, 1)),
    damage(1, |call, _| shift_header(call, 0, -1)),
    damage(1, |call, _| shift_header(call, 2, 1)),
    damage(1, |call, _| shift_header(call, 2, -1)),
    damage(1, |call, rng| put(call, 0, 4 + rng.below(12), 1 + rng.below(255))),
    damage(1, |call, _| {
        call.sheet.push(0);
        true
    }),
    damage(1, |call, _| cut(call, call.sheet.len().saturating_sub(1))),
    damage(2, |call, rng| set_kind(call, rng, 0)),
    damage(2, |call, rng| set_kind(call, rng, 39)),
    damage(2, |call, rng| {
        let kind = 39 + rng.below(217);
        set_kind(call, rng, kind)
    }),
    damage(3, part_of_plain),
    damage(3, |call, rng| link_any(call, rng, |kind, _| has_parts(kind), 8, |_, _, _| 0)),
    damage(3, |call, rng| link_any(call, rng, |kind, _| has_parts(kind), 8, |r, _, _| r)),
    damage(3, |call, rng| link_any(call, rng, |kind, _| has_parts(kind), 8, |_, old, _| old + 1)),
    damage(3, |call, rng| link_any(call, rng, |kind, _| has_parts(kind), 8, |r, _, _| r - 1)),
    damage(3, |call, rng| {
        link_any(
            call,
            rng,
            |_, parent| parent >= 37,
            10,
            |_, old, n| if old == 0 { n - 1 } else { 0 },
        )
    }),
    damage(3, |call, rng| link_any(call, rng, |_, _| true, 10, |r, _, _| r)),
    damage(3, |call, rng| link_any(call, rng, |_, _| true, 10, |r, _, _| r.max(2) - 1)),
    damage(3, |call, rng| link_any(call, rng, |_, _| true, 10, |_, _, n| n)),
    damage(3, |call, rng| link_any(call, rng, |_, _| true, 10, |_, _, _| 0xffff)),
    damage(3, |call, rng| link_any(call, rng, |_, _| true, 10, |_, old, _| old + 1)),
    damage(3, |call, rng| {
        link_any(call, rng, |_, _| true, 10, |_, old, n| if old == 0 { n - 1 } else { 0 })
    }),
    damage(3, |call, rng| link_any(call, rng, |_, _| true, 8, |_, _, n| n + 3)),
    damage(3, part_too_many),
    damage(3, sibling_as_part),
    damage(3, unmet_record),
    damage(4, |call, rng| {
        let bit = 8 << rng.below(5);
        flag_any(call, rng, |_, _| true, bit)
    }),
    damage(4, |call, rng| flag_any(call, rng, |_, parent| parent == 0 || parent == 37, 1)),
    damage(4, |call, rng| flag_any(call, rng, |kind, _| kind != MAP, 2)),
    damage(4, |call, rng| flag_any(call, rng, |kind, _| kind != TIMESTAMP, 4)),
    damage(4, |call, rng| value_any(call, rng, |kind, _| !has_figure(kind), 2)),
    damage(4, |call, rng| value_any(call, rng, |kind, _| !is_decimal(kind), 3)),
    damage(4, |call, rng| {
        let at = 4 + rng.below(4);
        value_any(call, rng, |kind, _| !matches!(kind, 22 | 31 | 34), at)
    }),
    damage(4, zone_bytes),
    damage(4, |call, rng| at_any(call, rng, |kind, _| is_decimal(kind), 2, 0)),
    damage(4, |call, rng| decimal_any(call, rng, |_, cap, scale| (cap + 1, scale))),
    damage(4, |call, rng| decimal_any(call, rng, |_, _, scale| (255, scale))),
    damage(4, |call, rng| decimal_any(call, rng, |p, _, _| (p, p + 1))),
    damage(4, |call, rng| decimal_any(call, rng, |p, _, _| (p, p - 128))),
    damage(4, |call, rng| decimal_any(call, rng, |_, cap, _| (cap, -128))),
    damage(4, |call, rng| at_any(call, rng, |kind, _| matches!(kind, 20..=22 | 24), 2, 4)),
    damage(4, |call, rng| at_any(call, rng, |kind, _| kind == 23, 2, 3)),
    damage(4, |call, rng| at_any(call, rng, |kind, _| matches!(kind, 31 | 34), 7, 128)),
    damage(4, |call, rng| value_any(call, rng, |_, _| true, 15)),
    damage(5, |call, rng| value_any(call, rng, |_, parent| parent == 0 || parent == 37, 14)),
    damage(5, |call, rng| value_any(call, rng, |_, parent| parent == 0 || parent == 37, 12)),
    damage(5, |call, rng| shift_place(call, rng, 12, 1)),
    damage(5, |call, rng| shift_place(call, rng, 12, -1)),
    damage(5, |call, rng| shift_place(call, rng, 14, 1)),
    damage(5, |call, rng| shift_place(call, rng, 14, -1)),
    damage(5, |call, rng| shift_zone(call, rng, 4, 1)),
    damage(5, |call, rng| shift_zone(call, rng, 6, 1)),
    damage(5, zone_before_name),
    damage(5, unused_label_bytes),
    damage(5, label_past_end),
    damage(5, equal_names),
    damage(6, |call, _| {
        call.mask |= 1;
        true
    }),
    damage(6, |call, rng| {
        call.mask |= 1 << (39 + rng.below(25));
        true
    }),
    damage(8, |call, rng| {
        call.output = *rng.pick(&[0, 1, call.sheet.len() as u32 - 1]);
        true
    }),
    damage(8, |call, rng| {
        let length = call.sheet.len() as u32;
        call.work = *rng.pick(&[0, length, 2 * length - 1]);
        true
    }),
];

// Places in a sheet

fn records(call: &Call) -> usize {
    usize::from(u16::from_le_bytes([call.sheet[0], call.sheet[1]]))
}

fn label_bytes(call: &Call) -> usize {
    usize::from(u16::from_le_bytes([call.sheet[2], call.sheet[3]]))
}

fn byte(call: &Call, record: usize, at: usize) -> u8 {
    call.sheet[RECORD * record + at]
}

fn pair(call: &Call, record: usize, at: usize) -> usize {
    usize::from(u16::from_le_bytes([byte(call, record, at), byte(call, record, at + 1)]))
}

fn put(call: &mut Call, record: usize, at: usize, value: usize) -> bool {
    let changed = byte(call, record, at) != value as u8;
    call.sheet[RECORD * record + at] = value as u8;
    changed
}

fn put_pair(call: &mut Call, record: usize, at: usize, value: usize) -> bool {
    let low = put(call, record, at, value & 255);
    put(call, record, at + 1, value >> 8) | low
}

/// A record that fits, by its kind and its parent's kind (0 for a listed type).
fn find(call: &Call, rng: &mut Rng, fits: impl Fn(u8, u8) -> bool) -> Option<usize> {
    let parents = sheet::parents_of(&call.sheet)?;
    let parent_kind = |record: usize| match parents[record] {
        0 => 0,
        parent => byte(call, parent, 0),
    };
    let found: Vec<usize> = (1..records(call))
        .filter(|&record| fits(byte(call, record, 0), parent_kind(record)))
        .collect();
    (!found.is_empty()).then(|| *rng.pick(&found))
}

fn has_parts(kind: u8) -> bool {
    kind >= LIST && kind != STRUCT
}

fn is_decimal(kind: u8) -> bool {
    precision_cap(kind).is_some()
}

fn has_figure(kind: u8) -> bool {
    is_decimal(kind) || matches!(kind, 20..=24)
}

// Kinds of damage

fn cut(call: &mut Call, length: usize) -> bool {
    let shorter = length < call.sheet.len();
    call.sheet.truncate(length);
    shorter
}

fn set_header(call: &mut Call, at: usize, value: usize) -> bool {
    put_pair(call, 0, at, value)
}

fn shift_header(call: &mut Call, at: usize, by: i32) -> bool {
    let value = pair(call, 0, at) as i32 + by;
    put_pair(call, 0, at, value as u16 as usize)
}

/// In any record, met by the walk or not.
fn set_kind(call: &mut Call, rng: &mut Rng, kind: usize) -> bool {
    records(call) > 1 && {
        let record = 1 + rng.below(records(call) - 1);
        put(call, record, 0, kind)
    }
}

fn at_any(
    call: &mut Call,
    rng: &mut Rng,
    fits: fn(u8, u8) -> bool,
    at: usize,
    value: usize,
) -> bool {
    find(call, rng, fits).is_some_and(|record| put(call, record, at, value))
}

fn value_any(call: &mut Call, rng: &mut Rng, fits: fn(u8, u8) -> bool, at: usize) -> bool {
    let value = if rng.once_in(2) { 1 } else { 1 + rng.below(255) };
    at_any(call, rng, fits, at, value)
}

fn flag_any(call: &mut Call, rng: &mut Rng, fits: fn(u8, u8) -> bool, bit: usize) -> bool {
    find(call, rng, fits).is_some_and(|record| {
        let flags = usize::from(byte(call, record, 1));
        put(call, record, 1, flags | bit)
    })
}

/// Sets a link from the record's number, its old value and the number of records.
fn link_any(
    call: &mut Call,
    rng: &mut Rng,
    fits: fn(u8, u8) -> bool,
    at: usize,
    to: fn(usize, usize, usize) -> usize,
) -> bool {
    find(call, rng, fits).is_some_and(|record| {
        let link = to(record, pair(call, record, at), records(call));
        put_pair(call, record, at, link)
    })
}

fn part_of_plain(call: &mut Call, rng: &mut Rng) -> bool {
    let Some(record) = find(call, rng, |kind, _| kind < LIST) else { return false };
    let link = *rng.pick(&[record, record + 1, 1]);
    put_pair(call, record, 8, link)
}

/// What follows a record becomes a part of it, in a walk that is otherwise right.
fn part_too_many(call: &mut Call, rng: &mut Rng) -> bool {
    let Some(record) = find(call, rng, |kind, _| has_parts(kind)) else { return false };
    let next = pair(call, record, 10);
    let mut part = pair(call, record, 8);
    while pair(call, part, 10) != 0 {
        part = pair(call, part, 10);
    }
    put_pair(call, part, 10, next);
    next != 0 && put_pair(call, record, 10, 0)
}

/// What follows a plain record becomes its part, in a walk that is otherwise right.
fn sibling_as_part(call: &mut Call, rng: &mut Rng) -> bool {
    let Some(record) = find(call, rng, |kind, _| kind < LIST) else { return false };
    let next = pair(call, record, 10);
    put_pair(call, record, 8, next);
    put_pair(call, record, 10, 0)
}

fn unmet_record(call: &mut Call, _: &mut Rng) -> bool {
    let end = RECORD * records(call);
    let mut record = [0; RECORD];
    record[0] = 3;
    call.sheet.splice(end..end, record);
    shift_header(call, 0, 1);
    fit_space(call)
}

/// Sizes follow a sheet that grew, so that space is not what is refused.
fn fit_space(call: &mut Call) -> bool {
    let length = call.sheet.len() as u32;
    call.output = call.output.max(length);
    call.work = call.work.max(2 * length);
    true
}

fn zone_bytes(call: &mut Call, rng: &mut Rng) -> bool {
    let Some(record) = find(call, rng, |kind, _| kind == TIMESTAMP) else { return false };
    let zoned = byte(call, record, 1) & 4 != 0;
    let at = if zoned { 7 } else { 4 + rng.below(4) };
    put(call, record, at, 1)
}

fn decimal_any(call: &mut Call, rng: &mut Rng, to: fn(i32, i32, i32) -> (i32, i32)) -> bool {
    let Some(record) = find(call, rng, |kind, _| is_decimal(kind)) else { return false };
    let cap = precision_cap(byte(call, record, 0)).expect("a decimal");
    let scale = byte(call, record, 3) as i8;
    let (p, s) = to(byte(call, record, 2).into(), cap.into(), scale.into());
    let Ok(s) = i8::try_from(s) else { return false };
    put(call, record, 2, p as usize);
    put(call, record, 3, usize::from(s as u8));
    p > i32::from(cap) || i32::from(s) > p || p - i32::from(s) > 127
}

fn is_field(parent: u8) -> bool {
    matches!(parent, 32..=36 | 38)
}

fn shift_place(call: &mut Call, rng: &mut Rng, at: usize, by: i32) -> bool {
    let Some(record) = find(call, rng, |_, parent| is_field(parent)) else { return false };
    let value = i32::from(byte(call, record, at)) + by;
    (0..256).contains(&value) && put(call, record, at, value as usize)
}

fn shift_zone(call: &mut Call, rng: &mut Rng, at: usize, by: i32) -> bool {
    let Some(record) = find(call, rng, |kind, _| kind == TIMESTAMP) else { return false };
    let zoned = byte(call, record, 1) & 4 != 0;
    let value = i32::from(byte(call, record, at)) + by;
    zoned && (0..256).contains(&value) && put(call, record, at, value as usize)
}

fn zone_before_name(call: &mut Call, rng: &mut Rng) -> bool {
    let Some(record) = find(call, rng, |kind, parent| kind == TIMESTAMP && is_field(parent)) else {
        return false;
    };
    let (name, zone) = (byte(call, record, 14), byte(call, record, 6));
    if name == 0 || zone == 0 {
        return false;
    }
    let start = pair(call, record, 12);
    put_pair(call, record, 4, start);
    put_pair(call, record, 12, start + usize::from(zone))
}

fn unused_label_bytes(call: &mut Call, rng: &mut Rng) -> bool {
    call.sheet.push(rng.below(256) as u8);
    shift_header(call, 2, 1);
    fit_space(call)
}

fn label_past_end(call: &mut Call, _: &mut Rng) -> bool {
    if label_bytes(call) == 0 {
        return false;
    }
    call.sheet.pop();
    shift_header(call, 2, -1)
}

/// Two names of one length in a Struct become equal.
fn equal_names(call: &mut Call, rng: &mut Rng) -> bool {
    let Some(record) = find(call, rng, |kind, _| kind == STRUCT) else { return false };
    let mut parts = Vec::new();
    let mut part = pair(call, record, 8);
    while part != 0 {
        parts.push(part);
        part = pair(call, part, 10);
    }
    if parts.len() < 2 {
        return false;
    }
    rng.shuffle(&mut parts);
    let length = usize::from(byte(call, parts[0], 14));
    if length == 0 || length != usize::from(byte(call, parts[1], 14)) {
        return false;
    }
    let labels = RECORD * records(call);
    let from = labels + pair(call, parts[0], 12);
    let to = labels + pair(call, parts[1], 12);
    call.sheet.copy_within(from..from + length, to);
    true
}

// Calls to damage

fn some_type(rng: &mut Rng) -> DataType {
    match rng.below(16) {
        0 => structure(&[("a", Int8, false), ("b", timestamp(2, Some("UTC")), true)]),
        1 => structure(&[("ab", Utf8, false), ("cd", Int8, true), ("ef", Null, false)]),
        2 => list("item", Decimal64(10, 2), true),
        3 => fixed_list("x", Int32, false, 3),
        4 => map("e", structure(&[("k", Utf8, false), ("v", Int8, true)]), false, true),
        5 => dictionary(Int8, Utf8),
        6 => run_ends(Int16, Interval(INTERVALS[2])),
        7 => timestamp(1, Some("+01:00")),
        8 => timestamp(0, None),
        9 => timestamp(3, Some("")),
        10 => FixedSizeBinary(4),
        11 => Time32(UNITS[1]),
        12 => Interval(INTERVALS[0]),
        13 => large_list("", dictionary(Int16, timestamp(1, Some("Z"))), true),
        14 => rng.pick(&[Decimal32(9, -3), Decimal128(38, 38), Decimal256(76, -51)]).clone(),
        _ => any_plain(rng),
    }
}

fn some_call(rng: &mut Rng, question: Question, count: usize) -> Call {
    let types: Vec<DataType> = (0..count).map(|_| some_type(rng)).collect();
    let sheet = sheet::write(&types).expect("types that fit in a sheet");
    Call::new(question, any_mask(rng), sheet)
}

/// A call that meets condition 7 and no other, or none at all.
fn call_for(rng: &mut Rng, with_pair: bool) -> Call {
    let question = *rng.pick(&QUESTIONS);
    if !with_pair {
        let count = if question == Question::List { 1 + rng.below(3) } else { 2 };
        return some_call(rng, question, count);
    }
    let question = if rng.once_in(2) { Question::Union } else { Question::Compare };
    let count = *rng.pick(&[0, 1, 1, 3, 4]);
    some_call(rng, question, count)
}

/// A call that meets these conditions; damage is done from the highest number down, since
/// a lower one may hide where a higher one could be placed.
fn damaged(rng: &mut Rng, numbers: &[u8], choose: &mut dyn FnMut(&mut Rng, u8) -> usize) -> Call {
    loop {
        let mut call = call_for(rng, numbers.contains(&7));
        let mut done = true;
        for &number in numbers.iter().rev().filter(|&&number| number != 7) {
            let at = choose(rng, number);
            done = done && (DAMAGES[at].apply)(&mut call, rng);
        }
        if done && call.answer() == Answer::Refused(numbers[0]) {
            return call;
        }
    }
}

fn any_damage(rng: &mut Rng, number: u8) -> usize {
    let found: Vec<usize> = (0..DAMAGES.len()).filter(|&at| DAMAGES[at].number == number).collect();
    *rng.pick(&found)
}

fn alone(book: &mut Book, tag: u16) {
    let number = (tag - 300) as u8;
    if number == 7 {
        for _ in 0..30 {
            let call = damaged(&mut book.rng, &[7], &mut any_damage);
            book.add(tag, call);
        }
        return;
    }
    for at in (0..DAMAGES.len()).filter(|&at| DAMAGES[at].number == number) {
        for _ in 0..8 {
            let call = damaged(&mut book.rng, &[number], &mut |_, _| at);
            book.add(tag, call);
        }
    }
}

fn in_pairs(book: &mut Book, tag: u16) {
    for low in 1..=8u8 {
        for high in low + 1..=8 {
            for _ in 0..8 {
                let call = damaged(&mut book.rng, &[low, high], &mut any_damage);
                book.add(tag, call);
            }
        }
    }
}

fn in_company(book: &mut Book, tag: u16) {
    for _ in 0..80 {
        let mut numbers: Vec<u8> = (1..=8).collect();
        book.rng.shuffle(&mut numbers);
        numbers.truncate(3 + book.rng.below(5));
        numbers.sort_unstable();
        let call = damaged(&mut book.rng, &numbers, &mut any_damage);
        book.add(tag, call);
    }
}

fn by_hand(book: &mut Book, tag: u16) {
    for (sheet, _) in readings::hand_made() {
        book.add(tag, Call::new(Question::List, FULL_MASK, sheet));
    }
    for bit in [0, 39, 40, 63] {
        let mut call = some_call(&mut book.rng, Question::List, 1);
        call.mask = 1 << bit;
        book.add(tag, call);
    }
    for bit in [1, 38] {
        let mut call = some_call(&mut book.rng, Question::List, 1);
        call.mask = 1 << bit;
        book.add(tag, call);
    }
}

fn spaces(book: &mut Book, tag: u16) {
    for _ in 0..40 {
        let call = call_for(&mut book.rng, false);
        let length = call.sheet.len() as u32;
        for (output, work) in [
            (length, 2 * length),
            (length - 1, 2 * length),
            (length, 2 * length - 1),
            (length + 1, 2 * length + 1),
            (3 * length, 5 * length),
            (0, 5 * length),
            (5 * length, 0),
        ] {
            book.add(tag, Call { output, work, ..call.clone() });
        }
    }
}

/// A call with one to three conditions at random.
pub fn any_call(rng: &mut Rng) -> Call {
    let mut numbers: Vec<u8> = (1..=8).collect();
    rng.shuffle(&mut numbers);
    numbers.truncate(1 + rng.below(3));
    numbers.sort_unstable();
    damaged(rng, &numbers, &mut any_damage)
}
