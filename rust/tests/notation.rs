//! The notation: both ways, and errors with their places.

mod common;

use common::{any_label, any_of_kind, Rng};
use pemzhulaq::{notation, sheet, DataType, Field, Kind, TimeUnit};

#[test]
fn every_kind_goes_round() {
    let mut rng = Rng(5);
    for kind in Kind::all() {
        for _ in 0..300 {
            let data_type = any_of_kind(&mut rng, kind, 4);
            let text = data_type.to_string();
            assert_eq!(notation::parse(&text).as_ref(), Ok(&data_type), "{text}");
            assert!(!text.contains('\n') && !text.contains('\0'));
        }
    }
}

#[test]
fn every_byte_goes_round_in_a_name() {
    for byte in 0..=255u8 {
        for name in [vec![byte], vec![b'a', byte], vec![byte, b'a'], vec![0xC3, byte]] {
            let data_type = DataType::Struct(vec![Field::new(name, DataType::Int8, false)]);
            assert_eq!(data_type.to_string().parse(), Ok(data_type));
        }
    }
    let mut rng = Rng(6);
    for _ in 0..3000 {
        let data_type = DataType::Timestamp(TimeUnit::Second, Some(any_label(&mut rng)));
        assert_eq!(data_type.to_string().parse(), Ok(data_type));
    }
}

#[test]
fn table_of_the_readme() {
    let readme = include_str!("../README.md");
    let mut kinds = Vec::new();
    let table = readme.split_once("| Example | Kind |\n").unwrap().1;
    for line in table.lines().skip(1).take_while(|line| line.starts_with("| `")) {
        let example = line.split('`').nth(1).unwrap();
        let data_type = notation::parse(example).unwrap();
        assert_eq!(data_type.to_string(), example);
        let said = line.split("` | ").nth(1).unwrap();
        assert!(said.starts_with(&data_type.kind().number().to_string()), "{line}");
        kinds.push(data_type.kind());
    }
    kinds.dedup();
    assert_eq!(kinds, Kind::all().collect::<Vec<Kind>>());
}

#[test]
fn other_spellings() {
    let same = [
        ("Struct(cases: Int64, loose: Int64)", "Struct( \"cases\" :Int64,\n\tloose:Int64 )"),
        ("List(Int64)", "List(item: Int64)"),
        ("Map(Struct(), unsorted)", "Map(\"entries\": Struct(), unsorted)"),
        (
            "RunEndEncoded(Int32, nullable Utf8)",
            "RunEndEncoded(\"run_ends\": Int32, \"values\": nullable Utf8)",
        ),
        ("Time64(µs)", "Time64(us)"),
        ("Time64(µs)", "Time64(\u{3bc}s)"),
        ("Decimal128(20, 0)", "Decimal128(020,-0)"),
        ("Struct(nullable: nullable Int8)", "Struct(\"nullable\": nullable Int8)"),
        ("Struct(\"\": Int8)", "Struct(\"\":Int8)"),
        ("Struct(größe: Int8)", "Struct(\"gr\\xC3\\xB6ße\": Int8)"),
        ("List(Int32)", "List(non-null Int32)"),
        ("List(nullable Int32)", "List(\tnullable\tInt32)"),
        ("Struct(a: Int8, b: nullable Int8)", "Struct(a:non-null Int8, b: nullable Int8)"),
        ("Map(Struct(), sorted)", "Map(non-null Struct(), sorted)"),
        (
            "RunEndEncoded(Int32, nullable Utf8)",
            "RunEndEncoded(non-null Int32, values: nullable Utf8)",
        ),
        ("Struct(non: Int8)", "Struct(non: non-null Int8)"),
        ("Struct(\"non-null\": Int8)", "Struct(\"non-null\": non-null Int8)"),
    ];
    for (shown, typed) in same {
        assert_eq!(notation::parse(typed).unwrap().to_string(), shown);
    }
}

#[test]
fn errors_have_places() {
    let cases = [
        ("", 1, 1, "expected a type, found the end of the text"),
        ("Int65", 1, 1, "unknown type Int65"),
        ("utf8", 1, 1, "unknown type utf8, did you mean Utf8?"),
        ("Int64 Int64", 1, 7, "expected the end of the text, found Int64"),
        ("Int64)", 1, 6, "expected the end of the text, found ')'"),
        ("List(Int64", 1, 11, "expected ')', found the end of the text"),
        ("List Int64", 1, 6, "expected '(', found Int64"),
        ("List()", 1, 6, "expected a type, found ')'"),
        ("List(Int8, Int8)", 1, 10, "expected ')', found ','"),
        ("Struct(a: Int8", 1, 15, "expected ',' or ')', found the end of the text"),
        ("Struct(a: Int8,)", 1, 16, "expected a type, found ')'"),
        ("Struct(Int8)", 1, 8, "a field of a Struct needs a name, as in cases: Int64"),
        ("Struct(a: Int8,\n  a: Int8)", 2, 3, "two fields of this Struct have the name a"),
        ("Struct(a Int8)", 1, 8, "unknown type a"),
        ("Dictionary(Int8)", 1, 16, "expected ',', found ')'"),
        ("Dictionary(a: Int8, Utf8)", 1, 12, "the parts of a Dictionary have no names"),
        ("Dictionary(Int8, nullable Utf8)", 1, 18, "the parts of a Dictionary are never nullable"),
        ("nullable Int8", 1, 1, "a type is never nullable where it is not a part"),
        ("a: Int8", 1, 1, "a type has no name where it is not a part"),
        ("Decimal128(39, 0)", 1, 12, "the precision of Decimal128 is 1 to 38, not 39"),
        ("Decimal128(0, 0)", 1, 12, "the precision of Decimal128 is 1 to 38, not 0"),
        ("Decimal128(5, 6)", 1, 15, "the scale at precision 5 is -122 to 5, not 6"),
        ("Decimal128(5, -123)", 1, 15, "the scale at precision 5 is -122 to 5, not -123"),
        (
            "Decimal128(99999999999999999999, 0)",
            1,
            12,
            "the precision of Decimal128 is 1 to 38, not 99999999999999999999",
        ),
        ("Decimal128(5)", 1, 13, "expected ',', found ')'"),
        ("Decimal128(x, 0)", 1, 12, "expected a number, found x"),
        ("FixedSizeBinary(-1)", 1, 17, "a size is 0 to 2147483647, not -1"),
        ("FixedSizeBinary(2147483648)", 1, 17, "a size is 0 to 2147483647, not 2147483648"),
        ("FixedSizeBinary(-)", 1, 17, "a size is 0 to 2147483647, not -"),
        ("FixedSizeList(2 Int8)", 1, 17, "expected x, found Int8"),
        ("Time32(h)", 1, 8, "expected s or ms or µs or ns, found h"),
        ("Timestamp(s, UTC)", 1, 14, "expected a zone in quotes, found UTC"),
        ("Timestamp(s, \"UTC)", 1, 14, "this quote is not closed"),
        ("Timestamp(s, \"\\q\")", 1, 15, "an escape is one of \\\" \\\\ \\n \\r \\t and \\xHH"),
        ("Timestamp(s, \"\\x4\")", 1, 15, "an escape is one of \\\" \\\\ \\n \\r \\t and \\xHH"),
        ("Map(Int8)", 1, 9, "expected ',', found ')'"),
        ("Map(Int8, maybe)", 1, 11, "expected unsorted or sorted, found maybe"),
        ("Int8;", 1, 5, "the character ';' stands for nothing"),
        ("Struct(größe: Int8, b: Foo)", 1, 24, "unknown type Foo"),
        (
            "non-null Int8",
            1,
            1,
            "a type is never nullable where it is not a part: leave non-null out",
        ),
        (
            "Dictionary(Int8, non-null Utf8)",
            1,
            18,
            "the parts of a Dictionary are never nullable: leave non-null out",
        ),
    ];
    for (text, line, column, message) in cases {
        let error = notation::parse(text).unwrap_err();
        assert_eq!(
            (error.line(), error.column(), error.message()),
            (line, column, message),
            "{text}"
        );
    }
}

/// What may be meant to say that a field is not nullable, or that it is, is answered with the rule.
#[test]
fn errors_say_what_is_nullable() {
    let rule = "a field is not nullable unless nullable stands before its type \
                (non-null may stand there too)";
    let cases = [
        ("List(not null Int32)", 6, "unknown type not"),
        ("List(NOT NULL Int32)", 6, "unknown type NOT"),
        ("List(nonnull Int32)", 6, "unknown type nonnull"),
        ("List(non_null Int32)", 6, "unknown type non_null"),
        ("List(NonNull Int32)", 6, "unknown type NonNull"),
        ("List(non null Int32)", 6, "unknown type non"),
        ("List(non-nullable Int32)", 6, "unknown type non"),
        ("List(non-nullish Int32)", 6, "unknown type non"),
        ("List(not_nullable Int32)", 6, "unknown type not_nullable"),
        ("List(nullable nullable Int32)", 15, "unknown type nullable"),
        ("List(nullable non-null Int32)", 15, "expected a type, found non-null"),
        ("Struct(a: Int32 not null)", 17, "expected ',' or ')', found not"),
        ("Struct(a: Int32 NULL)", 17, "expected ',' or ')', found NULL"),
        ("Struct(a: Int32 nullable)", 17, "expected ',' or ')', found nullable"),
        ("List(Int32 non-null)", 12, "expected ')', found non-null"),
    ];
    for (text, column, front) in cases {
        let error = notation::parse(text).unwrap_err();
        let message = format!("{front}; {rule}");
        assert_eq!((error.column(), error.message()), (column, message.as_str()), "{text}");
    }
    for (text, message) in [
        ("List(null Int32)", "unknown type null, did you mean Null?"),
        ("List(Int8 Null)", "expected ')', found Null"),
        ("List(nothing Int32)", "unknown type nothing"),
        ("Struct(non-null: Int32)", "expected a type, found ':'"),
    ] {
        assert_eq!(notation::parse(text).unwrap_err().message(), message);
    }
}

#[test]
fn errors_show_the_place() {
    let error = notation::parse("Struct(a: Int8,\n\tb: Foo)").unwrap_err();
    assert_eq!(error.to_string(), "line 2, column 5: unknown type Foo\n   b: Foo)\n      ^");
    let long = format!("Struct({}: Foo, {})", "n".repeat(200), "m".repeat(200));
    let shown = notation::parse(&long).unwrap_err().to_string();
    let lines: Vec<&str> = shown.lines().collect();
    assert!(lines.iter().all(|line| line.len() < 130), "{shown}");
    let word = notation::parse(&"n".repeat(100_000)).unwrap_err();
    assert!(word.message().len() < 60);
    assert!(lines[1][lines[2].find('^').unwrap()..].starts_with("Foo,"), "{shown}");
}

#[test]
fn lines_are_counted() {
    let text = "# two types\nInt64\n\n  Utf8\r\nFoo\n";
    let error = notation::parse_lines(text).unwrap_err();
    assert_eq!((error.line(), error.column()), (5, 1));
    let types = notation::parse_lines(&text.replace("Foo", "")).unwrap();
    assert_eq!(types, [DataType::Int64, DataType::Utf8]);
}

#[test]
fn a_byte_order_mark_and_indented_remarks_are_passed_over() {
    let text = "\u{feff}Int64\r\n \t# Foo\n    #\n  List(Bar)\n";
    let error = notation::parse_lines(text).unwrap_err();
    assert_eq!((error.line(), error.column(), error.message()), (4, 8, "unknown type Bar"));
    assert_eq!(notation::parse_lines("\u{feff}# Foo\nInt8").unwrap(), [DataType::Int8]);
    assert_eq!(notation::parse_lines("\u{feff}").unwrap(), []);
    // In the first line columns are counted from the first character behind the mark.
    let error = notation::parse_lines("\u{feff}List(Bar)").unwrap_err();
    assert_eq!((error.line(), error.column()), (1, 6));
    assert_eq!(error.to_string(), "line 1, column 6: unknown type Bar\n  List(Bar)\n       ^");
    // Elsewhere it is a character like others, and in quotes a `#` is one too.
    assert!(notation::parse_lines("Int8\n\u{feff}Int8").is_err());
    assert!(notation::parse_lines("Struct(\"#\": Int8)").is_ok());
}

#[test]
fn labels_have_a_limit() {
    let named = |length: usize| format!("Struct({}: Int8)", "n".repeat(length));
    assert!(sheet::encode(&[named(255).parse().unwrap()]).is_ok());
    assert_eq!(
        notation::parse(&named(256)).unwrap_err().message(),
        "a name of more than 255 bytes"
    );
    let zoned = format!("Timestamp(s, \"{}\")", "z".repeat(256));
    assert_eq!(notation::parse(&zoned).unwrap_err().message(), "a zone of more than 255 bytes");
}

#[test]
fn depth_has_a_limit() {
    let nested = |depth: usize| format!("{}Int8{}", "List(".repeat(depth), ")".repeat(depth));
    assert!(notation::parse(&nested(1022)).is_ok());
    for depth in [1023, 100_000] {
        let error = notation::parse(&nested(depth)).unwrap_err();
        assert_eq!(error.message(), "more than 1023 types, parts counted");
    }
    assert_eq!(notation::parse(&"List(".repeat(1023)).unwrap_err().column(), 5 * 1023 + 1);
}

#[test]
fn damaged_text_never_panics() {
    let mut rng = Rng(7);
    let kinds: Vec<Kind> = Kind::all().collect();
    for _ in 0..20_000 {
        let kind = rng.pick(&kinds);
        let mut text: Vec<char> = any_of_kind(&mut rng, kind, 3).to_string().chars().collect();
        for _ in 0..1 + rng.below(3) {
            let at = rng.below(text.len() + 1);
            match rng.below(3) {
                0 => {
                    text.insert(at, rng.pick(&['(', ')', ',', ':', '"', '\\', ' ', '7', 'x', 'µ']))
                }
                1 => text.truncate(at),
                _ => drop((at < text.len()).then(|| text.remove(at))),
            }
        }
        let text: String = text.into_iter().collect();
        match notation::parse(&text) {
            Ok(data_type) => assert_eq!(data_type.to_string().parse(), Ok(data_type)),
            Err(error) => assert!(error.column() <= text.chars().count() + 1),
        }
    }
}
