//! Vectors for the traps of TRAPS.md, under its numbers: class 200 + n is trap n.

use crate::book::{Book, Class};
use crate::call::{Question, FULL_MASK};
use crate::make::*;
use crate::sheet::kind_of;
use crate::standin::arrow::datatypes::DataType;
use DataType::*;

/// The classes of the traps.
pub const CLASSES: [Class; 13] = [
    (201, "union and compare lose the wrapper, the list keeps it", lost_wrapper),
    (202, "a wrapper is kept for an equal value, not for an alike one", kept_wrapper),
    (203, "in a list the wrapped value goes left", wrapped_left),
    (204, "a Dictionary whose joined value is Utf8View, in a list", view_alone),
    (205, "run ends with run ends in a list: types joined, fields the new type's", run_fields),
    (206, "Structs in a list: types by name, nullability by place", struct_in_list),
    (
        207,
        "Map entries by the Struct rule of union and compare, without the alike test",
        map_entries,
    ),
    (208, "categories are tested at the top only", categories_at_top),
    (209, "strings with times; a Timestamp with a date", strings_with_times),
    (210, "Null with a Dictionary or run ends asks the value first", null_with_wrapper),
    (211, "units of durations, intervals and times; sizes of binaries", units_and_sizes),
    (212, "a decimal with a number clamps, two widths do not", clamps),
    (213, "alike Structs with permuted names", permuted_alike),
];

fn lost_wrapper(book: &mut Book, tag: u16) {
    for (one, other) in [(Int8, Int16), (Utf8, LargeUtf8), (Utf8, Utf8), (Date32, Date64)] {
        book.both_ways(tag, &dictionary(Int8, one.clone()), &dictionary(Int32, other.clone()));
        book.both_ways(tag, &run_ends(Int16, one), &run_ends(Int32, other));
    }
    let zoned = dictionary(Int8, timestamp(0, Some("UTC")));
    book.both_ways(tag, &zoned, &dictionary(Int8, timestamp(1, Some("+01:00"))));
}

fn kept_wrapper(book: &mut Book, tag: u16) {
    let values = [
        (structure(&[("a", Int8, false)]), structure(&[("b", Int8, false)])),
        (list("a", Utf8, true), list("b", Utf8, true)),
        (Int32, Int32),
        (Utf8View, Utf8View),
        (timestamp(1, Some("UTC")), timestamp(1, Some("UTC"))),
    ];
    for (one, other) in values {
        for t in [&one, &other] {
            book.both_ways(tag, &dictionary(Int8, one.clone()), t);
            book.both_ways(tag, &run_ends(Int16, one.clone()), t);
        }
    }
}

fn wrapped_left(book: &mut Book, tag: u16) {
    let values = [
        (timestamp(1, Some("UTC")), timestamp(2, Some("+01:00"))),
        (list("in", Int8, false), list("out", Int16, false)),
        (
            structure(&[("a", Int8, false), ("b", Utf8, false)]),
            structure(&[("b", LargeUtf8, true), ("a", Int32, false)]),
        ),
    ];
    for (wrapped, other) in values {
        for wrapper in [dictionary(Int8, wrapped.clone()), run_ends(Int16, wrapped)] {
            book.both_ways(tag, &wrapper, &other);
            book.ask(tag, Question::List, 0, &[other.clone(), wrapper.clone(), other.clone()]);
        }
    }
}

fn view_alone(book: &mut Book, tag: u16) {
    for (one, other) in [(Utf8, Utf8View), (Utf8View, Utf8), (Utf8View, Utf8View), (Utf8View, Int8)]
    {
        book.both_ways(tag, &dictionary(Int8, one.clone()), &other);
        book.both_ways(tag, &dictionary(Int8, one.clone()), &dictionary(Int16, other.clone()));
        book.both_ways(tag, &run_ends(Int16, one), &other);
    }
    let types = [dictionary(Int8, Utf8), Utf8View, dictionary(Int8, Utf8)];
    book.ask(tag, Question::List, 0, &types);
    book.both_ways(tag, &dictionary(Int8, dictionary(Int8, Utf8)), &Utf8View);
}

fn run_fields(book: &mut Book, tag: u16) {
    let ends = [
        field("r", Int16, false),
        field("r", Int16, true),
        field("s", Int32, false),
        field("", UInt64, true),
    ];
    let values = [
        field("v", Int8, false),
        field("v", Int8, true),
        field("w", Int32, false),
        field("", UInt16, true),
    ];
    for at in 0..4 {
        for with in 0..4 {
            let one = RunEndEncoded(ends[at].clone(), values[with].clone());
            let other = RunEndEncoded(ends[(at + 1) % 4].clone(), values[(with + at) % 4].clone());
            book.both_ways(tag, &one, &other);
            book.both_ways(tag, &one, &Int64);
        }
    }
}

fn struct_in_list(book: &mut Book, tag: u16) {
    let structs = [
        structure(&[("a", Int8, true), ("b", Utf8, false)]),
        structure(&[("b", LargeUtf8, true), ("a", Int16, false)]),
        structure(&[("b", Utf8, false), ("a", Int8, false)]),
        structure(&[("a", Utf8, false), ("b", Int8, false)]),
        structure(&[("a", Int8, false), ("c", Utf8, false)]),
        structure(&[("a", Date32, false), ("b", Utf8, false)]),
        structure(&[("a", Int8, true), ("b", Utf8, false), ("c", Null, true)]),
        structure(&[("a", Int8, true)]),
    ];
    for one in &structs {
        for other in &structs {
            book.ask_all(tag, &[one.clone(), other.clone()]);
        }
    }
    for at in 0..6 {
        let types: Vec<_> = (0..3).map(|step| structs[(at + step) % 3].clone()).collect();
        book.ask(tag, Question::List, 0, &types);
    }
}

fn map_entries(book: &mut Book, tag: u16) {
    let entries = [
        structure(&[("k", Utf8, false), ("v", Int8, true)]),
        structure(&[("v", Int8, true), ("k", Utf8, false)]),
        structure(&[("v", Int8, false), ("k", Utf8, true)]),
        structure(&[("x", Int8, false), ("y", Int8, true)]),
        structure(&[("y", Int8, false), ("x", Int8, true)]),
        structure(&[("q", Int16, false), ("x", Int8, true)]),
    ];
    let mut turn = 0;
    for one in &entries {
        for other in &entries {
            turn += 1;
            let sorted = turn % 2 == 0;
            let left = map("e", one.clone(), false, true);
            book.ask_all(tag, &[left.clone(), map("f", other.clone(), true, false)]);
            book.in_turn(tag, 0, &[left, map("e", other.clone(), false, sorted)]);
        }
    }
}

fn categories_at_top(book: &mut Book, tag: u16) {
    let pairs = [
        (Date32, Int8),
        (Binary, LargeBinary),
        (Binary, Utf8),
        (FixedSizeBinary(3), Binary),
        (FixedSizeBinary(3), LargeBinary),
        (Int8, Boolean),
        (Date64, Utf8),
        (Boolean, Null),
    ];
    for (one, other) in pairs {
        book.both_ways(tag, &one, &other);
        book.both_ways(tag, &list("", one.clone(), true), &list("", other.clone(), true));
        book.both_ways(tag, &structure(&[("a", one, false)]), &structure(&[("a", other, true)]));
    }
}

fn strings_with_times(book: &mut Book, tag: u16) {
    let mut times = vec![Date32, Date64, Interval(INTERVALS[0]), Duration(UNITS[1])];
    times.extend(UNITS.map(Time32));
    times.extend(UNITS.map(Time64));
    for unit in 0..4 {
        times.extend([None, Some(""), Some("UTC")].map(|zone| timestamp(unit, zone)));
    }
    for (at, time) in times.iter().enumerate() {
        book.both_ways(tag, &STRINGS[at % 3], time);
        book.in_turn(tag, 0, &[list("", Utf8, true), list("", time.clone(), true)]);
    }
    for date in [Date32, Date64] {
        for zone in [None, Some(""), Some("+09:00")] {
            for unit in 0..4 {
                book.in_turn(tag, 0, &[timestamp(unit, zone), date.clone()]);
                book.in_turn(tag, 0, &[date.clone(), timestamp(unit, zone)]);
            }
        }
    }
}

fn null_with_wrapper(book: &mut Book, tag: u16) {
    let values = [Int8, Utf8, Utf8View, Null, list("", Int8, true), dictionary(Int8, Int16)];
    for value in values {
        for wrapper in [dictionary(Int8, value.clone()), run_ends(Int16, value.clone())] {
            let own = 1u64 << kind_of(&wrapper);
            let inner = 1u64 << kind_of(&value);
            for mask in [own, inner, own | inner, FULL_MASK & !own, FULL_MASK & !inner, 2, 0] {
                for question in [Question::Union, Question::Compare] {
                    book.ask(tag, question, mask, &[Null, wrapper.clone()]);
                    book.ask(tag, question, mask, &[wrapper.clone(), Null]);
                }
                let nested = [list("", Null, true), list("", wrapper.clone(), true)];
                book.ask(tag, Question::List, mask, &nested);
            }
        }
    }
}

fn units_and_sizes(book: &mut Book, tag: u16) {
    let mut spans: Vec<DataType> = UNITS.map(Duration).to_vec();
    spans.extend(INTERVALS.map(Interval));
    for one in &spans {
        for other in &spans {
            book.in_turn(tag, 0, &[one.clone(), other.clone()]);
        }
    }
    let times = [UNITS.map(Time32), UNITS.map(Time64)].concat();
    for one in &times {
        for other in &times {
            book.in_turn(tag, 0, &[one.clone(), other.clone()]);
        }
    }
    for other in [LargeBinary, Utf8, FixedSizeBinary(2), Binary, BinaryView] {
        book.both_ways(tag, &FixedSizeBinary(1), &other);
        book.both_ways(tag, &list("", FixedSizeBinary(1), true), &list("", other, true));
    }
}

fn clamps(book: &mut Book, tag: u16) {
    let pairs = [
        (Decimal32(9, 0), Int8),
        (Decimal32(9, 8), Int16),
        (Decimal32(9, 9), Float16),
        (Decimal32(9, 9), Int32),
        (Decimal32(9, 9), UInt32),
        (Decimal32(9, 9), Float32),
        (Decimal64(18, 18), Int32),
        (Decimal64(18, 18), Float32),
        (Decimal64(18, 18), Int64),
        (Decimal64(18, 18), Float64),
        (Decimal128(38, 38), UInt64),
        (Decimal128(38, 20), Float64),
        (Decimal256(76, 76), Int64),
        (Decimal256(1, -126), UInt8),
        (Decimal256(1, -126), Float64),
        (Decimal256(76, 76), Decimal256(1, -126)),
        (Decimal256(76, 76), Decimal256(76, 0)),
        (Decimal256(76, 75), Decimal256(52, 0)),
        (Decimal256(76, 76), Decimal256(52, 0)),
        (Decimal256(76, 76), Decimal256(51, 0)),
        (Decimal256(76, 76), Decimal128(1, -126)),
        (Decimal256(76, 76), Decimal128(38, 0)),
        (Decimal256(38, 38), Decimal128(38, 0)),
        (Decimal256(39, 39), Decimal128(38, 0)),
        (Decimal32(9, 0), Decimal128(38, 29)),
        (Decimal32(9, 0), Decimal128(38, 30)),
        (Decimal64(18, 0), Decimal128(38, 21)),
        (Decimal64(18, 9), Decimal32(9, 9)),
    ];
    for (one, other) in pairs {
        book.both_ways(tag, &one, &other);
    }
}

fn permuted_alike(book: &mut Book, tag: u16) {
    let left = structure(&[("a", Int8, false), ("b", Int8, false)]);
    let permuted = structure(&[("b", Int8, false), ("a", Int8, false)]);
    let nullable = structure(&[("b", Int8, true), ("a", Int8, false)]);
    let renamed = structure(&[("x", Int8, false), ("y", Int8, false)]);
    for right in [&permuted, &nullable, &renamed] {
        book.both_ways(tag, &left, right);
        book.both_ways(tag, &list("", left.clone(), true), &list("", right.clone(), true));
        book.both_ways(tag, &dictionary(Int8, left.clone()), &dictionary(Int16, right.clone()));
        let outer = |t: &DataType| structure(&[("s", t.clone(), false), ("t", Int8, false)]);
        book.both_ways(tag, &outer(&left), &outer(right));
    }
    book.ask(tag, Question::List, 0, &[left.clone(), permuted.clone(), nullable, left, permuted]);
}
