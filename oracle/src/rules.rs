//! Vectors for the rules of the source, class by class.

use crate::book::{Book, Class};
use crate::call::{Question, FULL_MASK};
use crate::make::*;
use crate::sheet::{kind_of, precision_cap};
use crate::standin::arrow::datatypes::DataType;
use DataType::*;

/// The classes of the rules.
pub const CLASSES: [Class; 29] = [
    (101, "the twelve marked cases and the worked example", marked),
    (102, "the empty list, one type, the same type again", same),
    (103, "every ordered pair of plain kinds, one type of each", plain_pairs),
    (104, "the same pairs inside a List, asked as a list", plain_pairs_in_lists),
    (105, "decimals of one width around its cap and below zero", one_width),
    (106, "decimals of two widths", two_widths),
    (107, "decimals with numbers", decimals_with_numbers),
    (108, "timestamps: units and zones", timestamps),
    (109, "dates, times, intervals and durations of every unit", temporals),
    (110, "strings, binaries and FixedSizeBinary", binaries),
    (111, "Null with every kind under masks with holes", nulls),
    (112, "categories of a list", categories),
    (113, "lists of three and more: the order of the fold", folds),
    (114, "Dictionary with Dictionary and with others", dictionaries),
    (115, "run ends with run ends and with others", run_ends_pairs),
    (116, "Dictionary with run ends", mixed_wrappers),
    (117, "List, LargeList and FixedSizeList", lists),
    (118, "Structs with equal sets of names", structs_by_name),
    (119, "Structs with unequal sets of names, or counts", structs_by_place),
    (120, "Maps", maps),
    (121, "alike types", alike),
    (122, "related pairs of every kind, at random", random_pairs),
    (123, "related lists of every kind, at random", random_lists),
    (124, "unrelated types at random", random_unrelated),
    (125, "sheets at their limits: records, labels, depth, width", limits),
    (126, "the least-type theorem: lists of one family with Nulls, any mask", families),
    (127, "one nested kind with every kind", nested_with_every),
    (128, "every ordered pair of integers and floats", numbers),
    (129, "dates with integers", dates_with_integers),
];

fn marked(book: &mut Book, tag: u16) {
    book.ask_all(tag, &[Int64, Decimal128(7, 2)]);
    book.ask(tag, Question::List, FULL_MASK, &[]);
    book.ask(tag, Question::List, FULL_MASK, &[Null, Null]);
    book.ask(tag, Question::List, FULL_MASK, &[Binary, Null]);
    book.ask_all(tag, &[UInt64, Int8]);
    book.ask_all(tag, &[UInt32, Int8]);
    book.ask_all(tag, &[Decimal32(9, 2), Int64]);
    book.ask_all(tag, &[Decimal128(38, 0), Decimal128(38, 10)]);
    book.ask_all(tag, &[Decimal32(9, 0), Decimal64(18, 9)]);
    book.ask_all(tag, &[Decimal32(9, 0), Decimal64(18, 10)]);
    book.ask_all(tag, &[Decimal128(5, -3), Decimal128(4, 0)]);
    book.ask_all(tag, &[Utf8, Int32]);
    book.ask_all(tag, &[Date32, Int8]);
}

fn same(book: &mut Book, tag: u16) {
    book.ask(tag, Question::List, 0, &[]);
    let mut types = one_of_each_plain_kind();
    types.extend(one_of_each_nested_kind());
    for t in types {
        book.ask(tag, Question::List, 0, std::slice::from_ref(&t));
        book.ask_all(tag, &[t.clone(), t.clone()]);
        book.ask(tag, Question::List, 0, &[t.clone(), t.clone(), t]);
    }
}

fn plain_pairs(book: &mut Book, tag: u16) {
    let types = one_of_each_plain_kind();
    for left in &types {
        for right in &types {
            book.in_turn(tag, FULL_MASK, &[left.clone(), right.clone()]);
        }
    }
}

fn plain_pairs_in_lists(book: &mut Book, tag: u16) {
    let types = one_of_each_plain_kind();
    for left in &types {
        for right in &types {
            let pair = [list("", left.clone(), false), list("", right.clone(), false)];
            book.ask(tag, Question::List, FULL_MASK, &pair);
        }
    }
}

/// Decimals of one width at the ends of what a sheet may carry.
pub fn corner_decimals(kind: u8) -> Vec<DataType> {
    let cap = i32::from(precision_cap(kind).expect("a decimal kind"));
    let mut corners = Vec::new();
    for precision in [1, cap / 2, cap - 1, cap] {
        for scale in [precision - 127, -3, 0, 1, precision - 1, precision] {
            if scale <= precision && scale >= precision - 127 {
                corners.push(decimal(kind, precision as u8, scale as i8));
            }
        }
    }
    corners.dedup();
    corners
}

fn one_width(book: &mut Book, tag: u16) {
    for kind in DECIMALS {
        let cap = precision_cap(kind).expect("a decimal kind");
        let (whole, fraction) = (decimal(kind, cap, 0), decimal(kind, cap, cap as i8));
        book.both_ways(tag, &whole, &fraction);
        book.both_ways(tag, &decimal(kind, 1, -126), &fraction);
        book.both_ways(tag, &decimal(kind, 2, -3), &decimal(kind, 4, -5));
        let corners = corner_decimals(kind);
        for _ in 0..60 {
            let left = book.rng.pick(&corners).clone();
            let right = any_decimal(&mut book.rng, kind);
            book.in_turn(tag, FULL_MASK, &[left, right]);
        }
    }
}

fn two_widths(book: &mut Book, tag: u16) {
    for (narrow, wide) in [(14, 15), (14, 16), (14, 17), (15, 16), (15, 17), (16, 17)] {
        let cap = precision_cap(wide).expect("a decimal kind");
        let small = precision_cap(narrow).expect("a decimal kind");
        let scale = (cap - small) as i8;
        for scale in [scale - 1, scale, scale + 1] {
            book.both_ways(tag, &decimal(narrow, small, 0), &decimal(wide, cap, scale));
        }
        book.both_ways(tag, &decimal(narrow, 1, -126), &decimal(wide, cap, cap as i8));
        book.both_ways(tag, &decimal(narrow, 2, -3), &decimal(wide, 4, -5));
        for _ in 0..24 {
            let pair = [any_decimal(&mut book.rng, narrow), any_decimal(&mut book.rng, wide)];
            book.in_turn(tag, FULL_MASK, &pair);
            book.in_turn(tag, FULL_MASK, &[pair[1].clone(), pair[0].clone()]);
        }
    }
}

fn decimals_with_numbers(book: &mut Book, tag: u16) {
    for kind in DECIMALS {
        let cap = precision_cap(kind).expect("a decimal kind");
        let decimals = [
            decimal(kind, cap, 0),
            decimal(kind, cap, cap as i8),
            decimal(kind, 4, 4),
            decimal(kind, 7, -2),
        ];
        for number in NUMBERS {
            book.ask_all(tag, &[decimal(kind, 1, 0), number]);
        }
        for decimal in decimals {
            for number in NUMBERS {
                book.in_turn(tag, FULL_MASK, &[decimal.clone(), number.clone()]);
                book.in_turn(tag, FULL_MASK, &[number, decimal.clone()]);
            }
        }
    }
}

fn timestamps(book: &mut Book, tag: u16) {
    let zones = [None, Some(""), Some("UTC"), Some("+02:00")];
    for left in zones {
        for right in zones {
            for pair in 0..16 {
                let types = [timestamp(pair / 4, left), timestamp(pair % 4, right)];
                book.in_turn(tag, FULL_MASK, &types);
            }
            let types = [timestamp(1, left), timestamp(2, right)];
            book.ask_all(tag, &types);
        }
    }
    for _ in 0..40 {
        let types: Vec<_> = (0..3).map(|_| any_timestamp(&mut book.rng)).collect();
        book.ask(tag, Question::List, FULL_MASK, &types);
    }
}

fn all_temporals() -> Vec<DataType> {
    let mut types = vec![Date32, Date64];
    types.extend(UNITS.map(Time32));
    types.extend(UNITS.map(Time64));
    types.extend(UNITS.map(Duration));
    types.extend(INTERVALS.map(Interval));
    types.extend([timestamp(0, None), timestamp(2, Some("UTC")), timestamp(1, Some(""))]);
    types
}

fn temporals(book: &mut Book, tag: u16) {
    let types = all_temporals();
    for left in &types {
        for right in &types {
            book.in_turn(tag, FULL_MASK, &[left.clone(), right.clone()]);
        }
        for other in [Utf8, Utf8View, Int16, UInt64, Float64, Boolean, Binary] {
            book.in_turn(tag, FULL_MASK, &[left.clone(), other.clone()]);
            book.in_turn(tag, FULL_MASK, &[other.clone(), left.clone()]);
            let nested = [list("", left.clone(), false), list("", other, true)];
            book.in_turn(tag, FULL_MASK, &nested);
        }
    }
}

fn binaries(book: &mut Book, tag: u16) {
    let mut types = [STRINGS, BINARIES].concat();
    types.extend([0, 1, 16, i32::MAX].map(FixedSizeBinary));
    for left in &types {
        for right in &types {
            book.in_turn(tag, FULL_MASK, &[left.clone(), right.clone()]);
            let nested = [list("x", left.clone(), true), list("y", right.clone(), false)];
            book.in_turn(tag, FULL_MASK, &nested);
        }
    }
}

fn nulls(book: &mut Book, tag: u16) {
    let mut types = one_of_each_plain_kind();
    types.extend(one_of_each_nested_kind());
    for t in types {
        let only = 1u64 << kind_of(&t);
        for mask in [only, FULL_MASK & !only, FULL_MASK & !2, 0] {
            book.in_turn(tag, mask, &[Null, t.clone()]);
            book.in_turn(tag, mask, &[t.clone(), Null]);
            let nested = [list("", Null, false), list("", t.clone(), true)];
            book.ask(tag, Question::List, mask, &nested);
            book.ask(tag, Question::List, mask, &[Null, t.clone(), Null, t.clone()]);
        }
    }
}

fn categories(book: &mut Book, tag: u16) {
    let mut types = one_of_each_nested_kind();
    types.extend([Boolean, Int16, Float32, Decimal64(9, 2), Date32, Utf8, LargeUtf8, Binary]);
    types.extend([Time64(UNITS[3]), Interval(INTERVALS[1]), Duration(UNITS[0])]);
    types.extend([timestamp(1, None), BinaryView, FixedSizeBinary(4), LargeBinary]);
    types.extend([dictionary(Int8, Binary), run_ends(Int16, Binary), dictionary(Int8, Date32)]);
    types.extend([run_ends(Int16, Boolean), dictionary(Int8, list("", Int8, true))]);
    for left in &types {
        for right in &types {
            let rank = (kind_of(left) + kind_of(right)) % 3;
            match rank {
                0 => book.ask(tag, Question::List, 0, &[left.clone(), right.clone()]),
                1 => book.ask(tag, Question::List, 0, &[left.clone(), Null, right.clone()]),
                _ => book.ask(tag, Question::List, 0, &[left.clone(), Utf8, right.clone()]),
            }
        }
    }
}

fn folds(book: &mut Book, tag: u16) {
    let pools = [
        [Utf8, Int8, LargeUtf8, UInt64, Int64],
        [Decimal32(9, 2), Int64, Decimal64(18, 2), Float32, Utf8],
        [Utf8View, Null, dictionary(Int8, Utf8), Utf8, dictionary(UInt16, LargeUtf8)],
        [
            timestamp(0, Some("UTC")),
            Date32,
            timestamp(3, Some("+01:00")),
            timestamp(1, None),
            Date64,
        ],
        [
            Int32,
            dictionary(Int8, Int8),
            run_ends(Int16, Float32),
            UInt32,
            dictionary(Int64, UInt64),
        ],
        [UInt64, Float16, Decimal128(38, 30), Int8, Decimal128(20, 0)],
    ];
    for pool in &pools {
        for _ in 0..25 {
            let count = 3 + book.rng.below(4);
            let types: Vec<_> = (0..count).map(|_| book.rng.pick(pool).clone()).collect();
            let mask = any_mask(&mut book.rng);
            book.ask(tag, Question::List, mask, &types);
        }
    }
}

fn value_types() -> Vec<DataType> {
    vec![
        Utf8,
        Utf8View,
        Int32,
        UInt64,
        Decimal128(10, 2),
        timestamp(1, Some("UTC")),
        timestamp(2, Some("+02:00")),
        Null,
        Binary,
        structure(&[("a", Int8, false), ("b", Utf8, true)]),
        structure(&[("b", Utf8, true), ("a", Int8, false)]),
        list("item", Int16, true),
    ]
}

fn dictionaries(book: &mut Book, tag: u16) {
    for (at, left) in value_types().iter().enumerate() {
        for right in value_types() {
            let (small, other) =
                (dictionary(Int8, left.clone()), dictionary(UInt16, right.clone()));
            book.in_turn(tag, FULL_MASK, &[small.clone(), other.clone()]);
            book.in_turn(tag, FULL_MASK, &[small.clone(), right.clone()]);
            book.in_turn(tag, FULL_MASK, &[right.clone(), small.clone()]);
            if at % 3 == 0 {
                book.ask_all(tag, &[small, right]);
            }
        }
    }
    book.both_ways(tag, &dictionary(Utf8, Int8), &dictionary(Int8, Int8));
    book.both_ways(tag, &dictionary(Int8, Int8), &dictionary(Date32, Int8));
    book.both_ways(tag, &dictionary(Int8, dictionary(Int16, Utf8)), &Utf8);
    book.both_ways(tag, &dictionary(Int8, dictionary(Int16, Utf8)), &dictionary(Int16, Utf8));
}

fn run_ends_pairs(book: &mut Book, tag: u16) {
    for (at, left) in value_types().iter().enumerate() {
        for right in value_types() {
            let small = RunEndEncoded(field("ends", Int16, false), field("v", left.clone(), false));
            let other = RunEndEncoded(field("e", Int64, true), field("w", right.clone(), true));
            book.in_turn(tag, FULL_MASK, &[small.clone(), other.clone()]);
            book.in_turn(tag, FULL_MASK, &[small.clone(), right.clone()]);
            book.in_turn(tag, FULL_MASK, &[right.clone(), small.clone()]);
            if at % 3 == 0 {
                book.ask_all(tag, &[small, right]);
            }
        }
    }
    let names_alike = RunEndEncoded(field("e", Int16, false), field("w", Int16, false));
    book.both_ways(tag, &names_alike, &run_ends(Int16, Int16));
    book.both_ways(tag, &run_ends(Int16, run_ends(Int32, Utf8)), &Utf8);
    book.both_ways(tag, &run_ends(Utf8, Int8), &run_ends(Date32, Int8));
}

fn mixed_wrappers(book: &mut Book, tag: u16) {
    let values = [Int8, Utf8, Utf8View, Binary, timestamp(1, Some("UTC")), Null];
    for left in &values {
        for right in &values {
            let (one, other) = (dictionary(Int16, left.clone()), run_ends(Int32, right.clone()));
            book.both_ways(tag, &one, &other);
        }
    }
    let deep = dictionary(Int8, run_ends(Int16, Int32));
    for other in [
        run_ends(Int16, Int32),
        run_ends(Int64, dictionary(Int8, Int32)),
        dictionary(Int8, Int32),
        Int32,
        Int64,
    ] {
        book.both_ways(tag, &deep, &other);
    }
}

fn lists(book: &mut Book, tag: u16) {
    let shapes = |name: &str, t: &DataType, nullable: bool| {
        [
            list(name, t.clone(), nullable),
            large_list(name, t.clone(), nullable),
            fixed_list(name, t.clone(), nullable, 2),
            fixed_list(name, t.clone(), nullable, 3),
        ]
    };
    let parts = [(Int8, Int32), (Int32, Int32), (Utf8, Int16), (Utf8, Binary), (Int64, Boolean)];
    for (left, right) in parts {
        for one in shapes("item", &left, false) {
            book.ask_all(tag, &[one.clone(), list("item", right.clone(), false)]);
            for other in shapes("element", &right, true) {
                book.in_turn(tag, FULL_MASK, &[one.clone(), other.clone()]);
                book.in_turn(tag, FULL_MASK, &[other, one.clone()]);
            }
        }
    }
    for one in shapes("x", &Int8, true) {
        for other in shapes("x", &UInt8, true) {
            book.in_turn(tag, FULL_MASK, &[one.clone(), other]);
        }
    }
}

/// The fields in another order, each with a type and nullability of its own.
fn structs_by_name(book: &mut Book, tag: u16) {
    let left = structure(&[("cases", Int8, false), ("loose", UInt16, true), ("", Utf8, false)]);
    let rights = [
        structure(&[("loose", Int32, false), ("", LargeUtf8, true), ("cases", Float32, false)]),
        structure(&[("", Utf8View, true), ("loose", UInt64, false), ("cases", Int64, true)]),
        structure(&[("cases", Int16, true), ("loose", Int64, false), ("", Utf8, false)]),
        structure(&[("loose", Boolean, false), ("", Utf8, true), ("cases", Int8, false)]),
        structure(&[("loose", UInt16, true), ("cases", Int8, false), ("", Utf8, false)]),
        structure(&[("", Utf8, true), ("cases", Int8, false), ("loose", UInt16, true)]),
        structure(&[("cases", Null, false), ("", Null, true), ("loose", Null, false)]),
    ];
    for right in &rights {
        book.both_ways(tag, &left, right);
        book.both_ways(tag, &list("", left.clone(), true), &list("", right.clone(), true));
    }
    book.ask(tag, Question::List, FULL_MASK, &[left.clone(), rights[0].clone(), rights[1].clone()]);
    book.ask(tag, Question::List, FULL_MASK, &[rights[1].clone(), rights[0].clone(), left]);
    let inner = |t: DataType| structure(&[("x", t, false), ("y", Int8, false)]);
    let swapped = |t: DataType| structure(&[("y", Int8, true), ("x", t, false)]);
    let outer = structure(&[("in", inner(Int32), false), ("out", Utf8, false)]);
    let other = structure(&[("out", Utf8View, false), ("in", swapped(Int64), true)]);
    book.both_ways(tag, &outer, &other);
    let unit = structure(&[]);
    book.both_ways(tag, &unit, &list("", Int8, true));
    book.both_ways(tag, &list("", unit.clone(), true), &list("", unit, false));
}

fn structs_by_place(book: &mut Book, tag: u16) {
    let left = structure(&[("cases", Int8, false), ("loose", Utf8, true)]);
    let rights = [
        structure(&[("pieces", Int64, true), ("cases", LargeUtf8, false)]),
        structure(&[("pieces", Int64, true), ("packs", LargeUtf8, false)]),
        structure(&[("loose", Int64, true), ("case", Utf8, false)]),
        structure(&[("cases", Date32, false), ("pieces", Utf8, false)]),
        structure(&[("pieces", Boolean, false), ("cases", Utf8, false)]),
        structure(&[("cases", Int8, false)]),
        structure(&[("cases", Int8, false), ("loose", Utf8, true), ("more", Int8, false)]),
        structure(&[("loose", Int8, false), ("pieces", Utf8, true)]),
        structure(&[]),
    ];
    for right in &rights {
        book.both_ways(tag, &left, right);
        book.both_ways(tag, &list("", left.clone(), true), &list("", right.clone(), true));
    }
    let sides = |name: &str, unit: usize, zone: &str, part: DataType| {
        structure(&[(name, timestamp(unit, Some(zone)), false), ("list", part, true)])
    };
    let one = sides("p", 1, "UTC", list("in", Int8, false));
    for name in ["p", "q"] {
        let other = sides(name, 2, "+01:00", list("out", Int16, false));
        book.both_ways(tag, &one, &other);
    }
}

fn maps(book: &mut Book, tag: u16) {
    let entries = [
        structure(&[("key", Utf8, false), ("value", Int32, true)]),
        structure(&[("value", Int64, false), ("key", LargeUtf8, true)]),
        structure(&[("value", Int32, true), ("key", Utf8, false)]),
        structure(&[("k", Utf8View, false), ("v", UInt8, false)]),
        structure(&[("key", Int8, false), ("value", Int8, false)]),
        structure(&[("key", dictionary(Int8, Utf8), false), ("value", Date32, false)]),
        structure(&[("value", Utf8View, false), ("key", dictionary(Int16, Utf8), true)]),
        structure(&[("key", Utf8, false)]),
        Int32,
    ];
    let mut turn = 0;
    for left in &entries {
        for right in &entries {
            for sorted in [(true, true), (true, false), (false, true)] {
                turn += 1;
                let one = map("entries", left.clone(), turn % 2 == 0, sorted.0);
                let other = map("pairs", right.clone(), turn % 4 < 2, sorted.1);
                book.ask_all(tag, &[one, other]);
            }
        }
    }
    book.both_ways(tag, &map("e", entries[0].clone(), false, true), &entries[0]);
}

fn alike(book: &mut Book, tag: u16) {
    let pairs = [
        (list("a", Int8, true), list("b", Int8, true)),
        (list("a", Int8, true), list("a", Int8, false)),
        (fixed_list("a", Int8, true, 7), fixed_list("b", Int8, true, 7)),
        (fixed_list("a", Int8, true, 0), fixed_list("a", Int8, true, i32::MAX)),
        (
            structure(&[("a", Int8, false), ("b", Int8, false)]),
            structure(&[("b", Int8, false), ("a", Int8, false)]),
        ),
        (
            structure(&[("a", Int8, false), ("b", Int8, true)]),
            structure(&[("b", Int8, false), ("a", Int8, true)]),
        ),
        (
            dictionary(Int8, structure(&[("a", Int8, false)])),
            dictionary(Int8, structure(&[("b", Int8, false)])),
        ),
        (dictionary(list("a", Int8, true), Int8), dictionary(list("b", Int8, true), Int8)),
        (
            RunEndEncoded(field("r", Int16, false), field("v", Int8, true)),
            RunEndEncoded(field("q", Int16, false), field("w", Int8, true)),
        ),
        (
            RunEndEncoded(field("r", Int16, false), field("v", Int8, true)),
            RunEndEncoded(field("r", Int16, true), field("v", Int8, true)),
        ),
        (
            map("e", structure(&[("k", Int8, false), ("v", Int8, false)]), false, true),
            map("f", structure(&[("v", Int8, false), ("k", Int8, false)]), false, true),
        ),
        (
            list("", structure(&[("a", list("p", Utf8, true), false)]), false),
            list("", structure(&[("a", list("q", Utf8, true), false)]), false),
        ),
        (timestamp(1, Some("")), timestamp(1, None)),
        (list("", timestamp(1, Some("UTC")), true), list("x", timestamp(1, Some("utc")), true)),
    ];
    for (one, other) in &pairs {
        book.both_ways(tag, one, other);
        book.ask(tag, Question::List, FULL_MASK, &[one.clone(), other.clone(), one.clone()]);
        book.both_ways(tag, &list("", one.clone(), true), &large_list("z", other.clone(), true));
    }
}

fn random_pairs(book: &mut Book, tag: u16) {
    for _ in 0..500 {
        let records = 2 + book.rng.below(9);
        let left = any_type(&mut book.rng, records);
        let right = related(&mut book.rng, &left);
        let mask = any_mask(&mut book.rng);
        book.in_turn(tag, mask, &[left, right]);
    }
}

fn random_lists(book: &mut Book, tag: u16) {
    for _ in 0..250 {
        let records = 2 + book.rng.below(6);
        let first = any_type(&mut book.rng, records);
        let mut types = vec![first];
        for _ in 0..1 + book.rng.below(4) {
            let base = book.rng.pick(&types).clone();
            types.push(related(&mut book.rng, &base));
        }
        let mask = any_mask(&mut book.rng);
        book.ask(tag, Question::List, mask, &types);
    }
}

fn random_unrelated(book: &mut Book, tag: u16) {
    for _ in 0..100 {
        let pair = [any_type(&mut book.rng, 5), any_type(&mut book.rng, 5)];
        let mask = any_mask(&mut book.rng);
        book.in_turn(tag, mask, &pair);
    }
}

/// `depth` Lists around a type.
pub fn nest(depth: usize, name: &str, inner: DataType) -> DataType {
    (0..depth).fold(inner, |t, at| list(name, t, at % 2 == 0))
}

fn wide(count: usize, backwards: bool, member: &DataType) -> DataType {
    let mut at: Vec<usize> = (0..count).collect();
    if backwards {
        at.reverse();
    }
    let fields: Vec<_> = at
        .into_iter()
        .map(|at| field(&format!("column {at}"), member.clone(), at % 3 == 0))
        .collect();
    Struct(fields.into())
}

fn limits(book: &mut Book, tag: u16) {
    // 1,023 types; the answer comes from the last.
    let mut many = vec![Int8; 1022];
    many.push(UInt64);
    book.ask(tag, Question::List, 0, &many);
    // Two chains as deep as a sheet allows: 2 x 511 records and the header.
    let deep = [nest(510, "", Int8), nest(510, "", UInt8)];
    book.ask(tag, Question::Union, FULL_MASK, &deep);
    book.ask(tag, Question::List, FULL_MASK, &[nest(1022, "", Utf8)]);
    // Wide Structs, matched by name and by place.
    book.ask(tag, Question::Compare, 0, &[wide(300, false, &Int8), wide(300, true, &Int16)]);
    book.ask(tag, Question::List, 0, &[wide(120, false, &Int8), wide(120, true, &Int16)]);
    // Labels of 255 bytes, and exactly 16,384 of them.
    let long = "n".repeat(255);
    let named = |t: DataType| list(&long, list(&long, t, true), false);
    book.ask_all(tag, &[named(Int8), named(timestamp(0, Some(&long)))]);
    book.ask_all(tag, &[named(timestamp(2, Some("Z"))), named(timestamp(0, Some(&long)))]);
    let rest = "z".repeat(16384 - 63 * 255 - 255);
    let full =
        [nest(63, &long, timestamp(0, Some(&long))), nest(63, "", timestamp(1, Some(&rest)))];
    book.ask(tag, Question::Compare, 0, &full);
}

fn families(book: &mut Book, tag: u16) {
    for family in crate::families::FAMILIES {
        for _ in 0..25 {
            let count = 1 + book.rng.below(12);
            let types = crate::families::any_list(&mut book.rng, family, count);
            let mask = any_mask(&mut book.rng);
            book.ask(tag, Question::List, mask, &types);
        }
    }
}

fn nested_with_every(book: &mut Book, tag: u16) {
    let mut others = one_of_each_plain_kind();
    others.extend(one_of_each_nested_kind());
    for nested in one_of_each_nested_kind() {
        for other in &others {
            book.in_turn(tag, FULL_MASK, &[nested.clone(), other.clone()]);
            book.in_turn(tag, FULL_MASK, &[other.clone(), nested.clone()]);
        }
    }
}

fn numbers(book: &mut Book, tag: u16) {
    for left in NUMBERS {
        for right in NUMBERS {
            book.ask_all(tag, &[left.clone(), right]);
        }
    }
}

fn dates_with_integers(book: &mut Book, tag: u16) {
    for date in [Date32, Date64] {
        for integer in INTEGERS {
            for question in [Question::Union, Question::Compare] {
                book.ask(tag, question, 0, &[date.clone(), integer.clone()]);
                book.ask(tag, question, 0, &[integer.clone(), date.clone()]);
            }
        }
    }
}
