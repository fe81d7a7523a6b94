//! A call on a sheet, and its answer by the source.

use crate::sheet;
use crate::source;
use crate::standin::arrow::compute::set_null_mask;
use crate::standin::arrow::datatypes::DataType;

/// Refusal number: a bit of the mask outside 1 to 38.
pub const MASK: u8 = 6;
/// Refusal number: a union or a comparison of any number of types but two.
pub const PAIR: u8 = 7;
/// Refusal number: an output or a work space that is too short.
pub const SPACE: u8 = 8;

/// Every bit that a mask may have: 1 to 38.
pub const FULL_MASK: u64 = ((1 << 39) - 1) & !1;

/// What is asked about the types of a sheet.
#[derive(Debug, Clone, Copy, PartialEq, Eq)]
pub enum Question {
    List,
    Union,
    Compare,
}

/// All questions, by their numbers.
pub const QUESTIONS: [Question; 3] = [Question::List, Question::Union, Question::Compare];

impl Question {
    /// 1 list, 2 union, 3 compare.
    pub fn number(self) -> u8 {
        self as u8 + 1
    }

    /// The question of a number from 1 to 3.
    pub fn of_number(number: u8) -> Option<Question> {
        QUESTIONS.into_iter().find(|question| question.number() == number)
    }

    /// The word in lines and tables.
    pub fn word(self) -> &'static str {
        match self {
            Question::List => "list",
            Question::Union => "union",
            Question::Compare => "compare",
        }
    }

    /// The question of a word.
    pub fn of_word(word: &str) -> Option<Question> {
        QUESTIONS.into_iter().find(|question| question.word() == word)
    }
}

/// A call; `output` and `work` are the lengths of what is lent, in bytes.
#[derive(Debug, Clone, PartialEq, Eq)]
pub struct Call {
    pub question: Question,
    pub mask: u64,
    pub output: u32,
    pub work: u32,
    pub sheet: Vec<u8>,
}

/// What a call comes to: a refusal number, no common type, or a type.
#[derive(Debug, Clone, PartialEq, Eq)]
pub enum Answer {
    Refused(u8),
    None,
    /// The bytes of the type's one-type sheet.
    Type(Vec<u8>),
}

impl Call {
    /// A call with space for its sheet and no more.
    pub fn new(question: Question, mask: u64, sheet: Vec<u8>) -> Call {
        let length = u32::try_from(sheet.len()).expect("a short sheet");
        Call { question, mask, output: length, work: 2 * length, sheet }
    }

    /// The lowest refusal number that applies, or the source's answer.
    pub fn answer(&self) -> Answer {
        match self.types() {
            Err(number) => Answer::Refused(number),
            Ok(types) => match common_type(self.question, self.mask, &types) {
                None => Answer::None,
                Some(found) => {
                    Answer::Type(sheet::write(&[found]).expect("no longer than its sheet"))
                }
            },
        }
    }

    /// The listed types, or the lowest refusal number that applies.
    fn types(&self) -> Result<Vec<DataType>, u8> {
        let types = sheet::read(&self.sheet)?;
        if self.mask & !FULL_MASK != 0 {
            return Err(MASK);
        }
        if self.question != Question::List && types.len() != 2 {
            return Err(PAIR);
        }
        let length = self.sheet.len() as u64;
        if u64::from(self.output) < length || u64::from(self.work) < 2 * length {
            return Err(SPACE);
        }
        Ok(types)
    }
}

/// The source's answer; union and compare take exactly two types.
pub fn common_type(question: Question, mask: u64, types: &[DataType]) -> Option<DataType> {
    set_null_mask(mask);
    match question {
        Question::List => source::type_union_resolution(types),
        Question::Union => source::type_union_coercion(&types[0], &types[1]),
        Question::Compare => source::comparison_coercion(&types[0], &types[1]),
    }
}
