//! The oracle's own tests, from docs/FORMAT.md, docs/RULES.md and TRAPS.md.

use crate::call::{common_type, Answer, Call, Question, FULL_MASK, QUESTIONS};
use crate::families::{self, FAMILIES};
use crate::make::*;
use crate::rng::Rng;
use crate::sheet::{self, precision_cap};
use crate::standin::arrow::datatypes::DataType;
use crate::{examples, generator, readings};
use DataType::*;
use Question::{Compare, List, Union};

/// Runs every test, and stops at the first that fails.
pub fn run() -> std::io::Result<bool> {
    step("the twelve marked cases", marked_cases);
    step("the worked example", worked_example);
    step("the traps of TRAPS.md", traps);
    step("the examples of TRAPS.md and docs/RULES.md", examples::check);
    step("sheets made by hand", hand_made_sheets);
    step("decimals by the formula of docs/RULES.md", decimal_formulas);
    step("writing what was read gives the same bytes", round_trips);
    step("an answer is no longer than its sheet", short_answers);
    step("the least-type theorem: orders, cuttings and masks", least_type_theorem);
    Ok(true)
}

fn step(name: &str, test: fn() -> usize) {
    let cases = test();
    println!("{name}: {cases} cases");
}

fn expect(question: Question, types: &[DataType], expected: Option<DataType>) {
    let sheet = sheet::write(types).expect("types that fit in a sheet");
    let expected = match expected {
        None => Answer::None,
        Some(t) => Answer::Type(sheet::write(&[t]).expect("one type")),
    };
    let answer = Call::new(question, FULL_MASK, sheet).answer();
    assert_eq!(answer, expected, "{question:?} of {types:?}");
}

fn expect_all(types: &[DataType], expected: Option<DataType>) {
    for question in QUESTIONS {
        expect(question, types, expected.clone());
    }
}

fn marked_cases() -> usize {
    expect(List, &[], None);
    expect(List, &[Null, Null], Some(Null));
    expect(List, &[Binary, Null], None);
    expect_all(&[UInt64, Int8], Some(Decimal128(20, 0)));
    expect_all(&[UInt32, Int8], Some(Int64));
    expect_all(&[Decimal32(9, 2), Int64], Some(Int64));
    expect_all(&[Decimal128(38, 0), Decimal128(38, 10)], Some(Decimal128(38, 10)));
    expect_all(&[Decimal32(9, 0), Decimal64(18, 9)], Some(Decimal64(18, 9)));
    expect_all(&[Decimal32(9, 0), Decimal64(18, 10)], None);
    expect_all(&[Decimal128(5, -3), Decimal128(4, 0)], Some(Decimal128(8, 0)));
    expect(Union, &[Utf8, Int32], Some(Utf8));
    expect(List, &[Utf8, Int32], Some(Int32));
    expect(Compare, &[Utf8, Int32], Some(Int32));
    expect(Compare, &[Date32, Int8], Some(Date32));
    expect(List, &[Date32, Int8], None);
    12
}

/// The shelf program's lines for a sheet, under the full mask.
pub fn shelf_lines(bytes: &[u8]) -> Vec<String> {
    let line = |question: Question| {
        let word = question.word();
        match Call::new(question, FULL_MASK, bytes.to_vec()).answer() {
            Answer::Refused(number) => format!("{word} refused {number}"),
            Answer::None => format!("{word} none"),
            Answer::Type(found) => {
                let records = u16::from_le_bytes([found[0], found[1]]) - 1;
                let (kind, figure, scale) = (found[16], found[18], found[19] as i8);
                format!("{word} {kind} {figure} {scale} {records}")
            }
        }
    };
    QUESTIONS.map(line).to_vec()
}

fn worked_example() -> usize {
    let sheet = sheet::write(&[Int64, Decimal128(7, 2)]).expect("two types");
    assert_eq!(shelf_lines(&sheet), ["list 16 22 2 1", "union 16 22 2 1", "compare 16 22 2 1"]);
    1
}

fn expect_pair(types: &[DataType], expected: Option<DataType>) {
    expect(Union, types, expected.clone());
    expect(Compare, types, expected);
}

/// Each trap by its number in TRAPS.md, but for the 14th, which takes too long.
fn traps() -> usize {
    wrapper_traps();
    field_traps();
    plain_traps();
    13
}

fn wrapper_traps() {
    // 1: the wrapper is lost in union and compare, kept in a list.
    let dictionaries = [dictionary(Int8, Utf8), dictionary(Int32, Utf8)];
    expect_pair(&dictionaries, Some(Utf8));
    expect(List, &dictionaries, Some(dictionary(Int32, Utf8)));
    let ends = [run_ends(Int16, Int8), run_ends(Int32, Int8)];
    expect_pair(&ends, Some(Int8));
    expect(List, &ends, Some(run_ends(Int32, Int8)));
    // 2: kept for an equal value, not for an alike one.
    let value = list("a", Utf8, true);
    let kept = dictionary(Int8, value.clone());
    expect_pair(&[value.clone(), kept.clone()], Some(kept.clone()));
    expect_pair(&[kept, list("b", Utf8, true)], Some(value));
    // 3: the wrapped value goes left in a list.
    let (left, right) = (timestamp(1, Some("UTC")), timestamp(1, Some("+01:00")));
    for wrapper in [dictionary(Int8, left.clone()), run_ends(Int16, left)] {
        expect(List, &[wrapper.clone(), right.clone()], Some(wrapper.clone()));
        expect(List, &[right.clone(), wrapper.clone()], Some(wrapper));
    }
    // 4: Utf8View alone, but for Dictionary with Dictionary.
    expect(List, &[dictionary(Int8, Utf8), Utf8View], Some(Utf8View));
    let views = [dictionary(Int8, Utf8), dictionary(Int8, Utf8View)];
    expect(List, &views, Some(dictionary(Int8, Utf8View)));
    // 10: Null asks the value's kind first, then the Dictionary's own.
    let asked = dictionary(Int8, Utf8);
    let pair = [Null, asked.clone()];
    assert_eq!(common_type(Union, FULL_MASK, &pair), Some(Utf8));
    assert_eq!(common_type(Union, 1 << 37, &pair), Some(asked));
    assert_eq!(common_type(Union, FULL_MASK & !(1 << 37) & !(1 << 25), &pair), None);
    assert_eq!(common_type(Union, 0, &[Null, Null]), Some(Null));
}

fn field_traps() {
    // 5: run-end types are joined; names and nullability are the new type's.
    let old = RunEndEncoded(field("r", Int16, true), field("v", Int8, true));
    let new = RunEndEncoded(field("s", Int32, false), field("w", Int16, false));
    expect(List, &[old.clone(), new.clone()], Some(new.clone()));
    let joined = RunEndEncoded(field("r", Int32, true), field("v", Int16, true));
    expect(List, &[new, old], Some(joined));
    // 6: types by name, nullability by place, no match by place.
    let old = structure(&[("a", Int16, true), ("b", Utf8, false)]);
    let new = structure(&[("b", Utf8, false), ("a", Int8, false)]);
    let joined = structure(&[("b", Utf8, true), ("a", Int16, false)]);
    expect(List, &[old.clone(), new], Some(joined));
    expect(List, &[old, structure(&[("a", Int16, true), ("c", Utf8, false)])], None);
    // 7: maps that differ in the sorted bit alone match their entries by name.
    let entries = structure(&[("k", Int8, false), ("v", Int8, true)]);
    let swapped = structure(&[("v", Int8, false), ("k", Int8, true)]);
    let joined = structure(&[("k", Int8, true), ("v", Int8, true)]);
    let maps = [map("e", entries, false, true), map("f", swapped, true, false)];
    expect_pair(&maps, Some(map("e", joined, false, false)));
    let joined = structure(&[("v", Int8, true), ("k", Int8, true)]);
    expect(List, &maps, Some(map("f", joined, true, false)));
    // 8: categories are tested at the top only.
    let lists = |one, other| [list("", one, true), list("", other, true)];
    expect(List, &lists(Date32, Int8), Some(list("", Date32, true)));
    expect(List, &lists(Binary, LargeBinary), Some(list("", LargeBinary, true)));
    // 9, first half: a list has no rule for strings with times.
    expect(List, &lists(Utf8, Date32), None);
    // 13: alike Structs with permuted names.
    let left = structure(&[("a", Int8, false), ("b", Int8, false)]);
    let right = structure(&[("b", Int8, false), ("a", Int8, false)]);
    expect_pair(&[left.clone(), right.clone()], Some(left.clone()));
    expect(List, &[left, right.clone()], Some(right));
}

fn plain_traps() {
    // 9, second half.
    expect_pair(&[Utf8, timestamp(0, Some("UTC"))], Some(timestamp(3, Some("UTC"))));
    expect_pair(&[Time32(UNITS[1]), Utf8], Some(Time32(UNITS[1])));
    expect_pair(&[Time32(UNITS[2]), Utf8], None);
    expect_all(&[timestamp(0, Some("UTC")), Date32], Some(timestamp(3, None)));
    // 11: units and sizes.
    let month_day_nano = Interval(INTERVALS[2]);
    expect_all(&[Duration(UNITS[0]), Duration(UNITS[1])], Some(month_day_nano.clone()));
    expect_all(&[Interval(INTERVALS[0]), Interval(INTERVALS[1])], Some(month_day_nano));
    expect_all(&[Time32(UNITS[0]), Time32(UNITS[1])], None);
    expect_all(&[Time32(UNITS[0]), Time64(UNITS[3])], None);
    for other in [LargeBinary, Utf8, FixedSizeBinary(2)] {
        expect_all(&[FixedSizeBinary(1), other], None);
    }
    // 12: a decimal with a number clamps, two widths do not.
    expect_all(&[Decimal32(9, 8), Int16], Some(Decimal32(9, 8)));
    expect_all(&[Decimal32(9, 2), Int32], Some(Int32));
    expect_all(&[Decimal32(9, 2), Float32], Some(Float32));
    expect_all(&[Decimal256(76, 76), Decimal256(1, -126)], Some(Decimal256(76, 76)));
    expect_all(&[Decimal256(76, 76), Decimal128(1, -126)], None);
}

fn hand_made_sheets() -> usize {
    let cases = readings::hand_made();
    for (bytes, expected) in &cases {
        let answer = Call::new(List, FULL_MASK, bytes.clone()).answer();
        let shown = &bytes[..bytes.len().min(64)];
        assert_eq!(answer, *expected, "{}", generator::hex(shown));
    }
    cases.len()
}

/// One width is held to the cap; two widths take the wider and none above its cap.
fn decimal_formulas() -> usize {
    let mut rng = Rng::new(3);
    for _ in 0..20_000 {
        let (k, l) = (*rng.pick(&DECIMALS), *rng.pick(&DECIMALS));
        let pair = [any_decimal(&mut rng, k), any_decimal(&mut rng, l)];
        let expected = wider_by_formula((k, &pair[0]), (l, &pair[1]));
        for question in QUESTIONS {
            let answer = common_type(question, FULL_MASK, &pair);
            assert_eq!(answer, expected, "{question:?} of {pair:?}");
        }
    }
    20_000
}

fn wider_by_formula(left: (u8, &DataType), right: (u8, &DataType)) -> Option<DataType> {
    let (p, s) = figures(left.1);
    let (q, t) = figures(right.1);
    let kind = left.0.max(right.0);
    let cap = i32::from(precision_cap(kind).expect("a decimal kind"));
    let scale = s.max(t);
    let precision = scale + (p - s).max(q - t);
    if left.0 != right.0 && precision > cap {
        return None;
    }
    Some(decimal(kind, precision.min(cap) as u8, scale as i8))
}

fn figures(t: &DataType) -> (i32, i32) {
    match t {
        Decimal32(p, s) | Decimal64(p, s) | Decimal128(p, s) | Decimal256(p, s) => {
            (i32::from(*p), i32::from(*s))
        }
        _ => unreachable!("a decimal"),
    }
}

/// Both laws: reading what was written gives the types, and every accepted sheet is the one
/// spelling of its types.
fn round_trips() -> usize {
    let mut rng = Rng::new(1);
    let mut accepted = 0;
    for _ in 0..20_000 {
        let types: Vec<DataType> = (0..rng.below(4)).map(|_| any_type(&mut rng, 9)).collect();
        let bytes = sheet::write(&types).expect("types that fit in a sheet");
        assert_eq!(sheet::read(&bytes), Ok(types));
        let call = generator::any_call(&mut rng);
        if let Ok(types) = sheet::read(&call.sheet) {
            accepted += 1;
            assert_eq!(sheet::write(&types), Some(call.sheet));
        }
    }
    20_000 + accepted
}

fn short_answers() -> usize {
    let mut rng = Rng::new(2);
    let mut answered = 0;
    for _ in 0..30_000 {
        let call = generator::any_call(&mut rng);
        if let Answer::Type(found) = call.answer() {
            answered += 1;
            let size = |bytes: &[u8]| sheet::size_of(&sheet::read(bytes).expect("a good sheet"));
            let (of_answer, of_sheet) = (size(&found), size(&call.sheet));
            let shorter = of_answer.0 <= of_sheet.0 && of_answer.1 <= of_sheet.1;
            assert!(shorter && found.len() <= call.sheet.len(), "{}", generator::line(&call));
        }
    }
    answered
}

fn least_type_theorem() -> usize {
    let mut rng = Rng::new(4);
    let mut cases = 0;
    for family in FAMILIES {
        for round in 0..150 {
            let count = 1 + rng.below(if round % 10 == 0 { 200 } else { 25 });
            let types = families::any_list(&mut rng, family, count);
            families::check(&mut rng, family, &types);
            cases += 1;
        }
    }
    for types in [vec![Decimal128(20, 0)], vec![Null, Decimal128(20, 0), Null]] {
        families::check(&mut rng, families::Family::Integers, &types);
        families::check(&mut rng, families::Family::Decimals(16), &types);
        cases += 2;
    }
    cases
}
