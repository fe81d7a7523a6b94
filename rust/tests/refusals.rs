//! The raw calls: refusals change nothing, answers change what they say.

use pemzhulaq::raw;
use pemzhulaq::{sheet, Answer, DataType, Mask, Refusal};

type Call = for<'a> fn(&[u8], Mask, &'a mut [u8], &mut [u8]) -> Result<Answer<'a>, Refusal>;

const LIST: Call = raw::type_union_resolution;
const UNION: Call = raw::type_union_coercion;
const COMPARE: Call = raw::comparison_coercion;

fn pair() -> Vec<u8> {
    sheet::encode(&[DataType::Int64, DataType::Decimal128(7, 2)]).unwrap()
}

/// Asks with buffers of these lengths that hold a pattern; gives the refusal.
fn refused(call: Call, bytes: &[u8], mask: Mask, room: (usize, usize)) -> Option<Refusal> {
    let pattern = |length: usize| (0..length).map(|i| i as u8 ^ 0xA5).collect::<Vec<u8>>();
    let (mut output, mut work) = (pattern(room.0), pattern(room.1));
    let refusal = call(bytes, mask, &mut output, &mut work).err();
    if refusal.is_some() {
        assert!(output == pattern(room.0) && work == pattern(room.1), "a refusal changed a byte");
    }
    refusal
}

#[test]
fn each_refusal_changes_nothing() {
    let good = pair();
    let with = |at: usize, byte: u8| {
        let mut bytes = pair();
        bytes[at] = byte;
        bytes
    };
    let cases = [
        (Refusal::Torn, vec![]),
        (Refusal::Torn, good[..47].to_vec()),
        (Refusal::Torn, vec![0; 40000]),
        (Refusal::Kind, with(16, 39)),
        (Refusal::Chain, with(26, 1)),
        (Refusal::Figure, with(34, 39)),
        (Refusal::Label, with(30, 1)),
    ];
    for call in [LIST, UNION, COMPARE] {
        for (refusal, bytes) in &cases {
            assert_eq!(refused(call, bytes, Mask::from_bits(1), (100, 200)), Some(*refusal));
        }
        assert_eq!(refused(call, &good, Mask::from_bits(1), (0, 0)), Some(Refusal::Mask));
        assert_eq!(refused(call, &good, Mask::ALL, (47, 96)), Some(Refusal::Space));
        assert_eq!(refused(call, &good, Mask::ALL, (48, 95)), Some(Refusal::Space));
        assert_eq!(refused(call, &good, Mask::ALL, (48, 96)), None);
    }
    let one = sheet::encode(&[DataType::Int8]).unwrap();
    assert_eq!(refused(UNION, &one, Mask::ALL, (0, 0)), Some(Refusal::Pair));
    assert_eq!(refused(COMPARE, &one, Mask::ALL, (0, 0)), Some(Refusal::Pair));
    assert_eq!(refused(LIST, &one, Mask::ALL, (0, 0)), Some(Refusal::Space));
}

#[test]
fn a_type_leaves_later_bytes() {
    let (mut output, mut work) = ([0xA5; 60], [0xA5; 120]);
    let expected = sheet::encode(&[DataType::Decimal128(22, 2)]).unwrap();
    let answer = LIST(&pair(), Mask::ALL, &mut output, &mut work);
    assert_eq!(answer, Ok(Answer::Type(&expected)));
    assert_eq!(output[..32], expected);
    assert!(output[32..].iter().all(|&byte| byte == 0xA5));
    assert!(work[..96].iter().all(|&byte| byte == 0) && work[96..].iter().all(|&b| b == 0xA5));
}

#[test]
fn none_leaves_the_output() {
    let bytes = sheet::encode(&[DataType::Boolean, DataType::Date32]).unwrap();
    let (mut output, mut work) = ([0xA5; 60], [0xA5; 120]);
    assert_eq!(LIST(&bytes, Mask::ALL, &mut output, &mut work), Ok(Answer::None));
    assert!(output.iter().all(|&byte| byte == 0xA5));
    assert!(work[..96].iter().all(|&byte| byte == 0) && work[96..].iter().all(|&b| b == 0xA5));
}

#[test]
fn numbers_and_words() {
    let words: Vec<String> = Refusal::ALL.iter().map(|refusal| refusal.to_string()).collect();
    assert_eq!(words[0], "refused 1 (torn)");
    assert_eq!(words[7], "refused 8 (space)");
    for number in 0..40 {
        let refusal = Refusal::from_number(number);
        assert_eq!(
            refusal.map(|r| usize::from(r.number())),
            Some(number).filter(|n| (1..9).contains(n))
        );
    }
}
