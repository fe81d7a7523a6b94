//! Mistakes put into the port's answers on purpose, to show that the comparison sees them.

use crate::call::{Call, Question};
use crate::lent::Lent;

/// What is changed in an answer.
#[derive(Debug, Clone, Copy, PartialEq, Eq)]
pub enum Spoil {
    Number,
    Refusal,
    Output,
    Later,
    Work,
    Rest,
    Touched,
    Sheet,
    Asked,
}

use Spoil::*;

/// Each spoil by its word.
pub const SPOILS: [(&str, Spoil); 9] = [
    ("number", Number),
    ("refusal", Refusal),
    ("output", Output),
    ("later", Later),
    ("work", Work),
    ("rest", Rest),
    ("touched", Touched),
    ("sheet", Sheet),
    ("question", Asked),
];

/// The spoil of a word.
pub fn of_word(word: &str) -> Option<Spoil> {
    SPOILS.iter().find(|(name, _)| *name == word).map(|(_, spoil)| *spoil)
}

/// Asks the port with one mistake: a number one too high, a bit of one byte, or union's
/// answers for compare.
pub fn ask(spoil: Option<Spoil>, lent: &mut Lent, call: &Call) -> usize {
    if spoil == Some(Asked) && call.question == Question::Compare {
        return lent.ask(&Call { question: Question::Union, ..call.clone() });
    }
    let answer = lent.ask(call);
    let both = 2 * call.sheet.len();
    let is_type = answer >= 32;
    let is_refused = (1..32).contains(&answer);
    match spoil {
        Some(Number) if is_type => answer + 1,
        Some(Refusal) if is_refused => answer + 1,
        Some(Output) if is_type => flip(lent.output_mut(), answer - 1, answer),
        Some(Later) if is_type => flip(lent.output_mut(), answer, answer),
        Some(Work) if !is_refused => flip(lent.work_mut(), both - 1, answer),
        Some(Rest) if !is_refused => flip(lent.work_mut(), both, answer),
        Some(Touched) if is_refused => flip(lent.output_mut(), 0, answer),
        Some(Sheet) => flip(lent.sheet_mut(), 0, answer),
        _ => answer,
    }
}

fn flip(bytes: &mut [u8], at: usize, answer: usize) -> usize {
    if let Some(byte) = bytes.get_mut(at) {
        *byte ^= 1;
    }
    answer
}
