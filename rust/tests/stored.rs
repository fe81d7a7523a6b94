//! The stored calls of the Rust source (`oracle/vectors/README.md` has their form), through the
//! raw calls: answers, every byte of both buffers, and the sheets through decoding and notation.

use pemzhulaq::{raw, sheet, Answer, Mask};
use std::path::Path;

/// A stored call, from the front of some bytes.
struct Stored<'a> {
    question: u8,
    expected: u8,
    mask: Mask,
    room: (usize, usize),
    sheet: &'a [u8],
    answer: &'a [u8],
}

fn take<'a>(bytes: &mut &'a [u8], length: usize) -> &'a [u8] {
    let (front, rest) = bytes.split_at(length);
    *bytes = rest;
    front
}

impl<'a> Stored<'a> {
    fn take(bytes: &mut &'a [u8]) -> Stored<'a> {
        let head = take(bytes, 32);
        let length = |at: usize| u32::from_le_bytes(head[at..at + 4].try_into().unwrap()) as usize;
        Stored {
            question: head[0],
            expected: head[1],
            mask: Mask::from_bits(u64::from_le_bytes(head[16..24].try_into().unwrap())),
            room: (length(4), length(8)),
            sheet: take(bytes, length(12)),
            answer: take(bytes, length(24)),
        }
    }

    /// The buffers after the call, which are told by the answer.
    fn expected_buffers(&self, mut output: Vec<u8>, mut work: Vec<u8>) -> (Vec<u8>, Vec<u8>) {
        output[..self.answer.len()].copy_from_slice(self.answer);
        if self.expected == 0 || self.expected == 32 {
            work[..2 * self.sheet.len()].fill(0);
        }
        (output, work)
    }

    fn replay(&self) {
        let call = match self.question {
            1 => raw::type_union_resolution,
            2 => raw::type_union_coercion,
            _ => raw::comparison_coercion,
        };
        let (mut output, mut work) = (vec![0xA5; self.room.0], vec![0x5A; self.room.1]);
        let expected = self.expected_buffers(output.clone(), work.clone());
        let number = match call(self.sheet, self.mask, &mut output, &mut work) {
            Ok(Answer::None) => 0,
            Ok(Answer::Type(answer)) => {
                assert_eq!(answer, self.answer);
                32
            }
            Err(refusal) => refusal.number(),
        };
        assert_eq!(number, self.expected);
        assert!((output, work) == expected);
    }

    fn read(&self) {
        match sheet::decode(self.sheet) {
            Err(refusal) => assert_eq!(refusal.number(), self.expected),
            Ok(types) => {
                assert!(self.expected == 0 || self.expected > 5);
                assert_eq!(sheet::encode(&types).as_deref(), Ok(self.sheet));
                let texts = types.iter().map(|data_type| data_type.to_string());
                assert!(texts
                    .zip(&types)
                    .all(|(text, data_type)| text.parse().as_ref() == Ok(data_type)));
            }
        }
    }
}

#[test]
fn stored_calls_answer_as_the_source_did() {
    let path = Path::new(env!("CARGO_MANIFEST_DIR")).join("../crates/replay/data/calls.bin");
    let stored = std::fs::read(path).unwrap();
    let mut rest = stored.as_slice();
    let mut count = 0;
    while !rest.is_empty() {
        let call = Stored::take(&mut rest);
        call.replay();
        call.read();
        count += 1;
    }
    assert!(count > 8000, "{count} calls");
}
