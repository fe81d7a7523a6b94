//! Encoding and decoding, against each other and against the proved check.

mod common;

use common::{any_list, any_of_kind, damage, deep_list, Rng};
use pemzhulaq::coerce::Question;
use pemzhulaq::sheet::{self, BadFigure, EncodeError};
use pemzhulaq::{DataType, Field, Kind, Mask, Refusal};

/// The refusal from 1 to 5 that the archive gives, if any.
fn checked(bytes: &[u8]) -> Option<Refusal> {
    // A mask with bit 0 is refused with 6 where 1 to 5 do not apply, so nothing more is worked out.
    match Question::List.ask(bytes, Mask::from_bits(1)) {
        Err(Refusal::Mask) => None,
        Err(refusal) => Some(refusal),
        Ok(_) => panic!("a mask with bit 0 was taken"),
    }
}

/// Decoding agrees with the archive's check, and what is accepted is spelled once.
fn agrees(bytes: &[u8]) -> bool {
    let decoded = sheet::decode(bytes);
    assert_eq!(decoded.as_ref().err().copied(), checked(bytes), "{bytes:?}");
    let Ok(types) = decoded else { return false };
    assert_eq!(sheet::encode(&types).as_deref(), Ok(bytes));
    true
}

#[test]
fn every_kind_goes_round() {
    let mut rng = Rng(1);
    for kind in Kind::all() {
        for _ in 0..200 {
            let types = [any_of_kind(&mut rng, kind, 3)];
            assert_eq!(types[0].kind(), kind);
            let bytes = sheet::encode(&types).unwrap();
            assert_eq!(sheet::decode(&bytes).unwrap(), types);
            assert!(agrees(&bytes));
        }
    }
}

#[test]
fn lists_go_round() {
    let mut rng = Rng(2);
    for _ in 0..2000 {
        let types = any_list(&mut rng, 12);
        match sheet::encode(&types) {
            Ok(bytes) => {
                assert_eq!(sheet::decode(&bytes).unwrap(), types);
                assert!(agrees(&bytes));
            }
            Err(error) => {
                assert!(matches!(error, EncodeError::TooManyTypes | EncodeError::TooManyLabelBytes))
            }
        }
    }
}

#[test]
fn damage_is_refused_alike() {
    let mut rng = Rng(3);
    let mut seen = [0; 6];
    for _ in 0..60_000 {
        let Ok(mut bytes) = sheet::encode(&any_list(&mut rng, 4)) else { continue };
        damage(&mut rng, &mut bytes);
        let number = if agrees(&bytes) { 0 } else { checked(&bytes).unwrap().number() };
        seen[usize::from(number)] += 1;
    }
    assert!(seen.iter().all(|&count| count > 500), "refusals 0 to 5 were met {seen:?} times");
}

/// Every change of one byte of a sheet that has every kind, a label in each place, and two names
/// that differ in one byte.
#[test]
fn every_change_of_one_byte() {
    let mut rng = Rng(9);
    let mut types: Vec<DataType> = Kind::all().map(|kind| any_of_kind(&mut rng, kind, 1)).collect();
    types.push("Struct(a: Timestamp(s, \"UTC\"), b: Timestamp(s, \"\"))".parse().unwrap());
    let mut bytes = sheet::encode(&types).unwrap();
    for at in 0..bytes.len() {
        let before = bytes[at];
        for byte in 0..=255 {
            bytes[at] = byte;
            agrees(&bytes);
        }
        bytes[at] = before;
    }
}

#[test]
fn equal_names_are_refused() {
    let data_type: DataType = "Struct(a: Int8, b: List(a: Int8), c: Int8)".parse().unwrap();
    let mut bytes = sheet::encode(&[data_type]).unwrap();
    assert!(agrees(&bytes));
    *bytes.last_mut().unwrap() = b'a';
    assert_eq!(sheet::decode(&bytes), Err(Refusal::Label));
    assert!(!agrees(&bytes));
}

#[test]
fn limits_of_the_header() {
    for n in [0, 1, 2, 1024, 1025, 65535] {
        for m in [0, 1, 16384, 16385, 65535usize] {
            for length in [16 * n + m, 16 * n + m + 1, (16 * n + m).saturating_sub(1)] {
                let mut bytes = vec![0; length];
                let counts = [n as u8, (n >> 8) as u8, m as u8, (m >> 8) as u8];
                bytes.iter_mut().zip(counts).for_each(|(byte, count)| *byte = count);
                agrees(&bytes);
            }
        }
    }
}

#[test]
fn noise_is_refused_alike() {
    let mut rng = Rng(4);
    for _ in 0..20_000 {
        let records = 1 + rng.below(6);
        let labels = rng.below(4);
        let mut bytes: Vec<u8> = (0..16 * records + labels)
            .map(|_| if rng.below(3) == 0 { rng.below(40) as u8 } else { 0 })
            .collect();
        bytes[..16].fill(0);
        (bytes[0], bytes[2]) = (records as u8, labels as u8);
        agrees(&bytes);
    }
}

#[test]
fn answers_are_sheets_of_one_type() {
    let mut rng = Rng(8);
    let mut types = 0;
    for _ in 0..5_000 {
        let mut pair = any_list(&mut rng, 2);
        pair.resize_with(2, || any_of_kind(&mut rng, Kind::Int64, 0));
        let bytes = sheet::encode(&pair).unwrap();
        for question in Question::ALL {
            let Some(answer) = question.ask(&bytes, Mask::ALL).unwrap() else { continue };
            assert!(agrees(&answer) && answer.len() <= bytes.len());
            let decoded = sheet::decode(&answer).unwrap();
            assert_eq!(decoded.len(), 1);
            assert_eq!(question.ask_types(&pair, Mask::ALL).unwrap().as_ref(), decoded.first());
            types += 1;
        }
    }
    assert!(types > 1000, "{types}");
}

#[test]
fn limits() {
    let listed = |count: usize| vec![DataType::Int8; count];
    assert!(agrees(&sheet::encode(&listed(1023)).unwrap()));
    assert_eq!(sheet::encode(&listed(1024)), Err(EncodeError::TooManyTypes));
    assert!(agrees(&sheet::encode(&[]).unwrap()));
    assert!(agrees(&sheet::encode(&[deep_list(1022)]).unwrap()));
    assert_eq!(sheet::encode(&[deep_list(1023)]), Err(EncodeError::TooManyTypes));
    let zoned = |length: usize| {
        DataType::Timestamp(pemzhulaq::TimeUnit::Second, Some(vec![b'z'; length].into()))
    };
    let mut types = vec![zoned(255); 64];
    types.push(zoned(64));
    assert!(agrees(&sheet::encode(&types).unwrap()));
    types.push(zoned(1));
    assert_eq!(sheet::encode(&types), Err(EncodeError::TooManyLabelBytes));
    let error = sheet::encode(&[zoned(256)]).unwrap_err();
    assert_eq!(error.to_string(), "a name or zone of 256 bytes, where 255 are the most");
}

#[test]
fn what_no_sheet_carries() {
    let figure = |data_type: DataType| match sheet::encode(&[data_type]) {
        Err(EncodeError::Figure(figure)) => figure.to_string(),
        other => panic!("{other:?}"),
    };
    assert_eq!(figure(DataType::Decimal32(10, 0)), "the precision of Decimal32 is 1 to 9, not 10");
    assert_eq!(figure(DataType::Decimal256(0, 0)), "the precision of Decimal256 is 1 to 76, not 0");
    assert_eq!(figure(DataType::Decimal64(3, 4)), "the scale at precision 3 is -124 to 3, not 4");
    assert_eq!(
        figure(DataType::Decimal64(3, -125)),
        "the scale at precision 3 is -124 to 3, not -125"
    );
    assert_eq!(figure(DataType::FixedSizeBinary(-1)), BadFigure::Size(-1).to_string());
    let twice =
        vec![Field::new("a", DataType::Int8, false), Field::new("a", DataType::Int16, true)];
    assert_eq!(sheet::encode(&[DataType::Struct(twice)]), Err(EncodeError::EqualNames("a".into())));
}

#[test]
fn deep_types_need_little_stack() {
    let deep = || {
        let types = [deep_list(1022)];
        let bytes = sheet::encode(&types).unwrap();
        let read = sheet::decode(&bytes).unwrap();
        let text = read[0].to_string();
        assert_eq!(sheet::encode(&[text.parse().unwrap()]).unwrap(), bytes);
    };
    std::thread::Builder::new().stack_size(512 << 10).spawn(deep).unwrap().join().unwrap();
}

#[test]
fn deep_types_are_compared_and_copied() {
    let deep = deep_list(1022);
    assert_eq!(deep.clone(), deep);
    assert_eq!(pemzhulaq::coerce::list(std::slice::from_ref(&deep), Mask::ALL), Ok(Some(deep)));
    let half = deep_list(510);
    assert_eq!(pemzhulaq::coerce::union(&half, &half, Mask::ALL), Ok(Some(half)));
}
