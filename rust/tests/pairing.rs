//! Structs that are matched by place: which are found, and that the archive matches them so.

mod common;

use common::Rng;
use pemzhulaq::coerce;
use pemzhulaq::pairing::{by_place, ByPlace};
use pemzhulaq::{DataType, Field, Label, Mask};

fn parsed(text: &str) -> DataType {
    text.parse().unwrap()
}

fn dotted<'a>(names: impl Iterator<Item = &'a Label>) -> String {
    names.map(Label::to_string).collect::<Vec<String>>().join(".")
}

/// What is found in two types, as `ours <- theirs` with the paths before the names.
fn found(left: &str, right: &str) -> Vec<String> {
    let lines = |matched: &ByPlace| -> Vec<String> {
        let line = |(our, their): &(Label, Label)| {
            let ours = dotted(matched.left.iter().chain([our]));
            format!("{ours} <- {}", dotted(matched.right.iter().chain([their])))
        };
        matched.pairs.iter().map(line).collect()
    };
    by_place(&parsed(left), &parsed(right)).iter().flat_map(lines).collect()
}

fn has_answer(left: &str, right: &str) -> bool {
    let (left, right) = (parsed(left), parsed(right));
    let union = coerce::union(&left, &right, Mask::ALL).unwrap();
    assert_eq!(union.is_some(), coerce::compare(&left, &right, Mask::ALL).unwrap().is_some());
    union.is_some()
}

/// The loose screws, and the places in which Structs may stand.
#[test]
fn what_is_found() {
    let cases: [(&str, &str, &[&str]); 26] = [
        (
            "Struct(cases: Int64, loose: Int64)",
            "Struct(pieces: Int32, cases: Int32)",
            &["cases <- pieces", "loose <- cases"],
        ),
        // Alike: the answer is the left type, and no column is looked at.
        (
            "Struct(cases: Int64, loose: Int64)",
            "Struct(pieces: Int64, cases: Int64)",
            &["cases <- pieces", "loose <- cases"],
        ),
        ("Struct(cases: Int64)", "Struct(Cases: Int64)", &["cases <- Cases"]),
        ("Struct(a: Int8, b: Int8)", "Struct(b: Int16, a: Int8)", &[]),
        ("Struct(a: Int8, b: Int8)", "Struct(b: Int8, a: Int8)", &[]),
        ("Struct()", "Struct()", &[]),
        ("Int8", "Int16", &[]),
        ("Null", "Struct(a: Int8)", &[]),
        ("List(Struct(a: Int8))", "List(Struct(b: Int16))", &["item.a <- item.b"]),
        (
            "LargeList(shelf: Struct(a: Int8))",
            "FixedSizeList(2 x row: Struct(b: Int8))",
            &["shelf.a <- row.b"],
        ),
        (
            "Map(Struct(keys: Utf8, values: Struct(a: Int8)), sorted)",
            "Map(Struct(key: Utf8, value: Struct(b: Int8)), unsorted)",
            &[
                "entries.keys <- entries.key",
                "entries.values <- entries.value",
                "entries.values.a <- entries.value.b",
            ],
        ),
        (
            "Struct(x: Struct(a: Int8), y: Struct(b: Int8))",
            "Struct(y: Struct(c: Int16), x: Struct(a: Int16))",
            &["y.b <- y.c"],
        ),
        (
            "Dictionary(Int32, Struct(a: Int8))",
            "Dictionary(Int8, Struct(b: Int8))",
            &["value.a <- value.b"],
        ),
        ("Dictionary(Int32, Struct(a: Int8))", "Struct(b: Int8)", &["value.a <- b"]),
        ("Struct(a: Int8)", "Dictionary(Int32, Struct(b: Int8))", &["a <- value.b"]),
        ("RunEndEncoded(Int32, Struct(a: Int8))", "Struct(b: Int8)", &["values.a <- b"]),
        ("Struct(a: Int8)", "RunEndEncoded(Int32, Struct(b: Int8))", &["a <- values.b"]),
        (
            "RunEndEncoded(Int32, Dictionary(Int8, Struct(a: Int8)))",
            "Dictionary(Int8, RunEndEncoded(Int32, Struct(b: Int8)))",
            &["values.value.a <- value.values.b"],
        ),
        (
            "RunEndEncoded(Int32, Struct(a: Int8))",
            "RunEndEncoded(Int16, Struct(b: Int8))",
            &["values.a <- values.b"],
        ),
        // An index and run ends are looked at in alike types alone.
        (
            "Dictionary(Struct(a: Int8), Struct(b: Int8))",
            "Dictionary(Struct(c: Int8), Struct(d: Int8))",
            &["index.a <- index.c", "value.b <- value.d"],
        ),
        (
            "Dictionary(Struct(a: Int8), Struct(b: Int8))",
            "Dictionary(Struct(c: Int8), Struct(d: Int16))",
            &["value.b <- value.d"],
        ),
        (
            "RunEndEncoded(Struct(a: Int8), Struct(b: Int8))",
            "RunEndEncoded(Struct(c: Int8), Struct(d: Int8))",
            &["run_ends.a <- run_ends.c", "values.b <- values.d"],
        ),
        (
            r#"Dictionary(Struct(a: Int8), Timestamp(s, "A"))"#,
            r#"Dictionary(Struct(b: Int8), Timestamp(s, "B"))"#,
            &[],
        ),
        (
            "Dictionary(Struct(a: Int8), Decimal128(5, 2))",
            "Dictionary(Struct(b: Int8), Decimal128(5, 3))",
            &[],
        ),
        (
            "RunEndEncoded(Struct(a: Int8), Struct(n: Int8))",
            "RunEndEncoded(Struct(b: Int8), Struct(n: nullable Int8))",
            &[],
        ),
        (
            "RunEndEncoded(Struct(a: Int8), nullable Int8)",
            "RunEndEncoded(Struct(b: Int8), Int8)",
            &[],
        ),
    ];
    for (left, right, expected) in cases {
        assert!(has_answer(left, right), "{left} | {right}");
        assert_eq!(found(left, right), expected, "{left} | {right}");
    }
}

/// Without a common type nothing is matched in the end, and unequal numbers of fields never are.
#[test]
fn unequal_numbers_of_fields() {
    let (left, right) = ("Struct(a: Int8)", "Struct(b: Int8, c: Int8)");
    assert!(!has_answer(left, right));
    assert!(found(left, right).is_empty());
}

#[test]
fn names_that_are_no_words() {
    let (left, right) = (r#"Struct("till no.": Int8)"#, r#"Struct("\xFF": Int8)"#);
    assert_eq!(found(left, right), [r#""till no." <- "\xFF""#]);
}

#[test]
fn deep_types() {
    let nested = |name: &str| {
        (0..510)
            .fold(DataType::Int8, |inner, _| DataType::Struct(vec![Field::new(name, inner, false)]))
    };
    let found = by_place(&nested("a"), &nested("b"));
    assert_eq!(found.len(), 510);
    assert_eq!(found[509].left.len(), 509);
}

/// The fields of the Struct that stands at a path; there is no wrapper on the way.
fn at_path<'a>(whole: &'a mut DataType, path: &[Label]) -> &'a mut Vec<Field> {
    let mut data_type = whole;
    for name in path {
        data_type = match data_type {
            DataType::Struct(fields) => {
                &mut fields.iter_mut().find(|field| field.name == *name).unwrap().data_type
            }
            DataType::List(field)
            | DataType::LargeList(field)
            | DataType::FixedSizeList(field, _)
            | DataType::Map(field, _) => &mut field.data_type,
            other => panic!("{other} has no parts"),
        };
    }
    let DataType::Struct(fields) = data_type else { panic!("{data_type} is no Struct") };
    fields
}

const NAMES: [&str; 6] = ["a", "b", "c", "d", "till no.", ""];

/// Two types that have a common type, or nearly so: Structs in each other, in lists and in Maps,
/// with fields whose names are the same, in another order, or others. No field is nullable and no
/// Map is sorted: of alike types the left's are kept, where matching by name would join them.
fn any_pair(rng: &mut Rng, depth: usize) -> (DataType, DataType) {
    use DataType::*;
    let numbers = [(Int8, Int8), (Int8, Int64), (UInt8, Decimal128(5, 2)), (Float32, Int32)];
    match if depth == 0 { 0 } else { rng.below(8) } {
        0 => numbers[rng.below(numbers.len())].clone(),
        1 => {
            let (left, right) = any_fields(rng, "item", "element", depth);
            (List(left), if rng.coin() { List(right) } else { LargeList(right) })
        }
        2 => {
            let (left, right) = any_fields(rng, "item", "item", depth);
            (FixedSizeList(left, 2), FixedSizeList(right, 2 + rng.below(2) as i32))
        }
        3 => {
            let (left, right) = any_structs(rng, depth);
            let field = |name: &str, data_type| Box::new(Field::new(name, data_type, false));
            (Map(field("entries", left), false), Map(field("rows", right), false))
        }
        _ => any_structs(rng, depth),
    }
}

fn any_fields(rng: &mut Rng, our: &str, their: &str, depth: usize) -> (Box<Field>, Box<Field>) {
    let (left, right) = any_pair(rng, depth - 1);
    (Box::new(Field::new(our, left, false)), Box::new(Field::new(their, right, false)))
}

fn any_structs(rng: &mut Rng, depth: usize) -> (DataType, DataType) {
    let count = rng.below(NAMES.len());
    let shift = if rng.coin() { 0 } else { 1 };
    let fields = (0..count).map(|at| any_fields(rng, NAMES[at], NAMES[at + shift], depth));
    let (left, mut right): (Vec<_>, Vec<_>) = fields.map(|(our, their)| (*our, *their)).unzip();
    if rng.coin() {
        right.reverse();
    }
    (DataType::Struct(left), DataType::Struct(right))
}

/// The same type with the fields of each Struct in the other order.
fn reversed(data_type: &DataType) -> DataType {
    use DataType::*;
    let inside =
        |field: &Field| Field::new(field.name.clone(), reversed(&field.data_type), field.nullable);
    match data_type {
        Struct(fields) => Struct(fields.iter().rev().map(inside).collect()),
        List(field) => List(Box::new(inside(field))),
        LargeList(field) => LargeList(Box::new(inside(field))),
        FixedSizeList(field, size) => FixedSizeList(Box::new(inside(field)), *size),
        Map(field, sorted) => Map(Box::new(inside(field)), *sorted),
        other => other.clone(),
    }
}

/// Where the right's fields get the names of those that they are said to feed, union and comparison
/// answer as before, so they did match as was said. All Structs match by name then, whatever the
/// order of their fields is, so none was missed.
#[test]
fn renamed_by_what_is_found_the_answer_stays() {
    let mut rng = Rng(11);
    let (mut matched, mut nested) = (0, 0);
    for _ in 0..30_000 {
        let (left, right) = any_pair(&mut rng, 4);
        let Ok(Some(union)) = coerce::union(&left, &right, Mask::ALL) else { continue };
        let compare = coerce::compare(&left, &right, Mask::ALL).unwrap();
        let found = by_place(&left, &right);
        let mut renamed = right.clone();
        // From the inside out, since a path has the names that stand outside.
        for one in found.iter().rev() {
            let fields = at_path(&mut renamed, &one.right);
            assert_eq!(fields.len(), one.pairs.len());
            for (field, (our, their)) in fields.iter_mut().zip(&one.pairs) {
                assert_eq!(field.name, *their);
                field.name = our.clone();
            }
        }
        for right in [&renamed, &reversed(&renamed)] {
            assert!(by_place(&left, right).is_empty(), "{left} {right}");
            let (found_union, found_compare) = (
                coerce::union(&left, right, Mask::ALL).unwrap(),
                coerce::compare(&left, right, Mask::ALL).unwrap(),
            );
            assert_eq!(found_union.as_ref(), Some(&union), "{left} {right}");
            assert_eq!(found_compare, compare, "{left} {right}");
        }
        matched += usize::from(!found.is_empty());
        nested += usize::from(found.iter().any(|one| !one.left.is_empty()));
    }
    assert!(matched > 3000 && nested > 1000, "{matched} matched by place, {nested} inside");
}
