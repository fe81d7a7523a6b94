//! Calls at random, without end: good sheets of every kind and damaged ones.

use crate::call::{Call, Question, FULL_MASK, QUESTIONS};
use crate::damage;
use crate::families;
use crate::make::{
    any_mask, any_name, any_plain, any_type, field, fixed_list, large_list, list, related,
    structure,
};
use crate::rng::Rng;
use crate::sheet;
use crate::standin::arrow::datatypes::DataType;

/// A call of any sort, good or damaged.
pub fn any_call(rng: &mut Rng) -> Call {
    match rng.below(20) {
        0..=2 => damage::any_call(rng),
        3 => flipped(rng),
        _ if rng.once_in(50) => large(rng),
        _ if rng.once_in(200) => good_call(rng, Question::List, &[]),
        4 => {
            let family = *rng.pick(&families::FAMILIES);
            let count = 1 + rng.below(60);
            let types = families::any_list(rng, family, count);
            good_call(rng, Question::List, &types)
        }
        5..=7 => {
            let types = related_types(rng);
            good_call(rng, Question::List, &types)
        }
        _ => {
            let left = any_type_of_some_size(rng);
            let right = related(rng, &left);
            let question = *rng.pick(&QUESTIONS);
            let pair = if rng.once_in(2) { [left, right] } else { [right, left] };
            good_call(rng, question, &pair)
        }
    }
}

/// A pair that is deep, or wide with names in another order or partly changed.
fn large(rng: &mut Rng) -> Call {
    let pair = if rng.once_in(2) { deep_pair(rng) } else { wide_pair(rng) };
    let question = *rng.pick(&QUESTIONS);
    good_call(rng, question, &pair)
}

/// Two related types, of many levels.
pub fn deep_pair(rng: &mut Rng) -> [DataType; 2] {
    let left = any_plain(rng);
    let mut pair = [related(rng, &left), left];
    for _ in 0..1 + rng.below(400) {
        let shape = rng.below(4);
        let name = any_name(rng);
        pair = pair.map(|t| match shape {
            0 => large_list(name, t, rng.once_in(2)),
            1 => fixed_list("", t, rng.once_in(2), 2),
            2 => structure(&[(name, t, rng.once_in(2))]),
            _ => list("", t, rng.once_in(2)),
        });
    }
    pair
}

/// Two related Structs of many fields.
pub fn wide_pair(rng: &mut Rng) -> [DataType; 2] {
    let count = 1 + rng.below(150);
    let types: Vec<DataType> = (0..count).map(|_| any_plain(rng)).collect();
    let mut other: Vec<(String, DataType, bool)> = Vec::new();
    let changed = rng.once_in(2).then(|| rng.below(count));
    for (at, t) in types.iter().enumerate() {
        let name = if changed == Some(at) { "other".to_string() } else { format!("f{at}") };
        let partner = if rng.once_in(30) { related(rng, t) } else { t.clone() };
        other.push((name, partner, rng.once_in(2)));
    }
    rng.shuffle(&mut other);
    let one =
        types.into_iter().enumerate().map(|(at, t)| field(&format!("f{at}"), t, rng.once_in(2)));
    let one = DataType::Struct(one.collect::<Vec<_>>().into());
    let other = other.iter().map(|(name, t, nullable)| field(name, t.clone(), *nullable));
    [one, DataType::Struct(other.collect::<Vec<_>>().into())]
}

/// A random type of about 12 records at most, now and then of about 40.
pub fn any_type_of_some_size(rng: &mut Rng) -> DataType {
    let records = if rng.once_in(6) { 40 } else { 12 };
    any_type(rng, records)
}

/// Two to seven types, each related to one before it.
pub fn related_types(rng: &mut Rng) -> Vec<DataType> {
    let mut types = vec![any_type_of_some_size(rng)];
    for _ in 0..1 + rng.below(6) {
        let base = rng.pick(&types).clone();
        types.push(related(rng, &base));
    }
    types
}

fn good_call(rng: &mut Rng, question: Question, types: &[DataType]) -> Call {
    let sheet = sheet::write(types).expect("types that fit in a sheet");
    let mut call = Call::new(question, any_mask(rng), sheet);
    if rng.once_in(4) {
        call.output += rng.below(100) as u32;
        call.work += rng.below(100) as u32;
    }
    call
}

/// A good call with a few bytes of its sheet changed; now and then it is still good.
fn flipped(rng: &mut Rng) -> Call {
    let left = any_type(rng, 6);
    let pair = [related(rng, &left), left];
    let question = *rng.pick(&QUESTIONS);
    let mut call = good_call(rng, question, &pair);
    for _ in 0..1 + rng.below(3) {
        let at = rng.below(call.sheet.len());
        call.sheet[at] = match rng.below(3) {
            0 => rng.below(256) as u8,
            1 => rng.below(40) as u8,
            _ => call.sheet[at] ^ (1 << rng.below(8)),
        };
    }
    call
}

/// A line for `oracle answer`.
pub fn line(call: &Call) -> String {
    let word = call.question.word();
    let sheet = hex(&call.sheet);
    format!("{word} {:x} {} {} {sheet}", call.mask, call.output, call.work)
}

/// The call of a line; an empty sheet may be left out.
pub fn of_line(line: &str) -> Option<Call> {
    let mut words = line.split_whitespace();
    let question = Question::of_word(words.next()?)?;
    let mask = match words.next()? {
        "full" => FULL_MASK,
        digits => u64::from_str_radix(digits, 16).ok()?,
    };
    let output = words.next()?.parse().ok()?;
    let work = words.next()?.parse().ok()?;
    let sheet = of_hex(words.next().unwrap_or(""))?;
    words.next().is_none().then_some(Call { question, mask, output, work, sheet })
}

/// Two digits for each byte.
pub fn hex(bytes: &[u8]) -> String {
    bytes.iter().map(|byte| format!("{byte:02x}")).collect()
}

fn of_hex(digits: &str) -> Option<Vec<u8>> {
    if !digits.len().is_multiple_of(2) || !digits.is_ascii() {
        return None;
    }
    let byte = |at: usize| u8::from_str_radix(&digits[at..at + 2], 16).ok();
    (0..digits.len()).step_by(2).map(byte).collect()
}
