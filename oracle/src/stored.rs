//! Stored vectors: their binary form, and running them again.

use crate::call::{Answer, Call, Question};
use std::collections::BTreeMap;
use std::io;

const HEADER: usize = 32;
const TYPE_CODE: u8 = 32;

/// A call, the class it belongs to, and the answer that was stored for it.
pub struct Vector {
    pub tag: u16,
    pub call: Call,
    pub answer: Answer,
}

fn code_of(answer: &Answer) -> (u8, &[u8]) {
    match answer {
        Answer::Refused(number) => (*number, &[]),
        Answer::None => (0, &[]),
        Answer::Type(bytes) => (TYPE_CODE, bytes),
    }
}

fn length_bytes(bytes: &[u8]) -> [u8; 4] {
    u32::try_from(bytes.len()).expect("a short piece").to_le_bytes()
}

/// The bytes of a list, in the form that vectors/README.md says.
pub fn write(vectors: &[Vector]) -> Vec<u8> {
    let mut out = Vec::new();
    for Vector { tag, call, answer } in vectors {
        let (code, bytes) = code_of(answer);
        out.push(call.question.number());
        out.push(code);
        out.extend_from_slice(&tag.to_le_bytes());
        out.extend_from_slice(&call.output.to_le_bytes());
        out.extend_from_slice(&call.work.to_le_bytes());
        out.extend_from_slice(&length_bytes(&call.sheet));
        out.extend_from_slice(&call.mask.to_le_bytes());
        out.extend_from_slice(&length_bytes(bytes));
        out.extend_from_slice(&[0; 4]);
        out.extend_from_slice(&call.sheet);
        out.extend_from_slice(bytes);
    }
    out
}

/// The vectors of a stored list; an error says where it is damaged.
pub fn read(bytes: &[u8]) -> Result<Vec<Vector>, String> {
    let mut vectors = Vec::new();
    let mut at = 0;
    while at < bytes.len() {
        let vector = read_one(bytes, &mut at);
        vectors.push(vector.ok_or_else(|| format!("vector {} is damaged", vectors.len()))?);
    }
    Ok(vectors)
}

fn read_one(bytes: &[u8], at: &mut usize) -> Option<Vector> {
    let header = take(bytes, at, HEADER)?;
    let number = |from: usize| u32::from_le_bytes(header[from..from + 4].try_into().expect("four"));
    let sheet = take(bytes, at, number(12) as usize)?.to_vec();
    let found = take(bytes, at, number(24) as usize)?.to_vec();
    let answer = match header[1] {
        TYPE_CODE => Answer::Type(found),
        0 => Answer::None,
        refusal @ 1..=8 => Answer::Refused(refusal),
        _ => return None,
    };
    let call = Call {
        question: Question::of_number(header[0])?,
        mask: u64::from_le_bytes(header[16..24].try_into().expect("eight")),
        output: number(4),
        work: number(8),
        sheet,
    };
    let tag = u16::from_le_bytes([header[2], header[3]]);
    (number(28) == 0).then_some(Vector { tag, call, answer })
}

fn take<'a>(bytes: &'a [u8], at: &mut usize, length: usize) -> Option<&'a [u8]> {
    let part = bytes.get(*at..at.checked_add(length)?)?;
    *at += length;
    Some(part)
}

/// The vectors of a file.
pub fn load(path: &str) -> io::Result<Vec<Vector>> {
    read(&std::fs::read(path)?).map_err(io::Error::other)
}

/// Runs a stored list and says how many vectors notice a difference, and of which class;
/// a vector notices where the answer differs or the source panics.
pub fn replay(path: &str) -> io::Result<bool> {
    let stored = load(path)?;
    std::panic::set_hook(Box::new(|_| {}));
    let differs = |vector: &&Vector| {
        let answer = std::panic::catch_unwind(|| vector.call.answer());
        !answer.is_ok_and(|answer| answer == vector.answer)
    };
    let mut tags: BTreeMap<u16, usize> = BTreeMap::new();
    for vector in stored.iter().filter(differs) {
        *tags.entry(vector.tag).or_default() += 1;
    }
    let differing: usize = tags.values().sum();
    println!("{differing} of {} differ {tags:?}", stored.len());
    Ok(differing == 0)
}
