//! The worked example and the marked cases of `docs/FORMAT.md`.

use pemzhulaq::coerce::{self, Error, Question};
use pemzhulaq::{sheet, DataType, Kind, Mask, Refusal};

fn types(texts: &[&str]) -> Vec<DataType> {
    texts.iter().map(|text| text.parse().unwrap()).collect()
}

/// What a question answers of some types, as text.
fn answer(question: Question, texts: &[&str]) -> String {
    match question.ask_types(&types(texts), Mask::ALL) {
        Ok(Some(data_type)) => data_type.to_string(),
        Ok(None) => "none".to_string(),
        Err(error) => error.to_string(),
    }
}

fn all_answer(texts: &[&str], expected: &str) {
    for question in Question::ALL {
        assert_eq!(answer(question, texts), expected, "{question} of {texts:?}");
    }
}

#[test]
fn worked_example() {
    let bytes = sheet::encode(&types(&["Int64", "Decimal128(7, 2)"])).unwrap();
    let mut expected = vec![0; 48];
    for (at, byte) in [(0, 3), (16, 6), (26, 2), (32, 16), (34, 7), (35, 2)] {
        expected[at] = byte;
    }
    assert_eq!(bytes, expected);
    for question in Question::ALL {
        let answer = question.ask(&bytes, Mask::ALL).unwrap().unwrap();
        assert_eq!(answer[..4], [2, 0, 0, 0]);
        assert_eq!((answer.len(), answer[16], answer[18], answer[19]), (32, 16, 22, 2));
    }
}

#[test]
fn marked_cases() {
    assert_eq!(answer(Question::List, &[]), "none");
    assert_eq!(answer(Question::List, &["Null", "Null"]), "Null");
    assert_eq!(answer(Question::List, &["Binary", "Null"]), "none");
    all_answer(&["UInt64", "Int8"], "Decimal128(20, 0)");
    all_answer(&["UInt32", "Int8"], "Int64");
    all_answer(&["Decimal32(9, 2)", "Int64"], "Int64");
    all_answer(&["Decimal128(38, 0)", "Decimal128(38, 10)"], "Decimal128(38, 10)");
    all_answer(&["Decimal32(9, 0)", "Decimal64(18, 9)"], "Decimal64(18, 9)");
    all_answer(&["Decimal32(9, 0)", "Decimal64(18, 10)"], "none");
    all_answer(&["Decimal128(5, -3)", "Decimal128(4, 0)"], "Decimal128(8, 0)");
    assert_eq!(answer(Question::Union, &["Utf8", "Int32"]), "Utf8");
    assert_eq!(answer(Question::List, &["Utf8", "Int32"]), "Int32");
    assert_eq!(answer(Question::Compare, &["Utf8", "Int32"]), "Int32");
    assert_eq!(answer(Question::Compare, &["Date32", "Int8"]), "Date32");
    assert_eq!(answer(Question::List, &["Date32", "Int8"]), "none");
}

/// The two that the table has by name, and the same questions of a union.
#[test]
fn zones_and_structs() {
    let zones = ["Timestamp(s, \"A\")", "Timestamp(s, \"B\")"];
    assert_eq!(answer(Question::List, &zones), zones[1]);
    assert_eq!(answer(Question::Union, &zones), zones[0]);
    let structs = ["Struct(a: nullable Int8, b: Int8)", "Struct(b: Int8, a: Int8)"];
    assert_eq!(answer(Question::List, &structs), "Struct(b: nullable Int8, a: Int8)");
    assert_eq!(answer(Question::Union, &structs), structs[0]);
}

#[test]
fn masks() {
    let pair = types(&["Null", "Int64"]);
    let ask = |mask| coerce::union(&pair[0], &pair[1], mask);
    assert_eq!(ask(Mask::NONE.with(Kind::Int64)), Ok(Some(DataType::Int64)));
    assert_eq!(ask(Mask::ALL.without(Kind::Int64)), Ok(None));
    assert_eq!(ask(Mask::from_bits(1)), Err(Error::Refused(Refusal::Mask)));
    assert_eq!(ask(Mask::from_bits(1 << 39)), Err(Error::Refused(Refusal::Mask)));
    let bits = Kind::all().fold(Mask::NONE, Mask::with);
    assert_eq!(bits, Mask::ALL);
}

#[test]
fn kinds() {
    let numbers: Vec<u8> = Kind::all().map(Kind::number).collect();
    assert_eq!(numbers, (1..=38).collect::<Vec<u8>>());
    for kind in Kind::all() {
        assert_eq!(Kind::from_number(kind.number()), Some(kind));
        assert_eq!(Kind::from_word(kind.word()), Some(kind));
    }
    assert_eq!((Kind::from_number(0), Kind::from_number(39)), (None, None));
}

#[test]
fn pairs_only() {
    for texts in [&["Int8"][..], &["Int8", "Int8", "Int8"], &[]] {
        assert_eq!(answer(Question::Union, texts), "refused 7 (pair)");
        assert_eq!(answer(Question::Compare, texts), "refused 7 (pair)");
    }
}
