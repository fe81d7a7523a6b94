//! The examples of documents: `question(types) = answer` between backticks, in the notation of
//! rust/README.md. `; mask BITS` may stand behind the types, in hex; else the mask is full.

use crate::call::{Answer, Call, Question, FULL_MASK};
use crate::make::{field, INTERVALS, UNITS};
use crate::sheet::{self, plain_of, text_of};
use crate::standin::arrow::datatypes::{DataType, FieldRef};
use DataType::*;

const DOCUMENTS: [&str; 2] = ["TRAPS.md", "../docs/RULES.md"];

/// Asks the source about each example of the documents, and gives their number.
pub fn check() -> usize {
    DOCUMENTS.into_iter().map(check_document).sum()
}

fn check_document(path: &str) -> usize {
    let text = std::fs::read_to_string(path).unwrap_or_else(|error| panic!("{path}: {error}"));
    let is_example = |part: &&str| {
        let word = part.split_once('(').map(|(word, _)| word);
        word.and_then(Question::of_word).is_some() && part.contains('=')
    };
    let mut count = 0;
    for example in text.split('`').filter(is_example) {
        let read = Reader { rest: example }.example();
        let (call, expected) = read.unwrap_or_else(|| panic!("{path}: not understood: {example}"));
        assert_eq!(call.answer(), expected, "{path}: {example}");
        count += 1;
    }
    count
}

/// What is left of a text that is read from its front.
struct Reader<'a> {
    rest: &'a str,
}

impl<'a> Reader<'a> {
    fn example(mut self) -> Option<(Call, Answer)> {
        let question = Question::of_word(self.word())?;
        self.expect("(")?;
        let mut types = Vec::new();
        while !self.rest.trim_start().starts_with([')', ';']) {
            self.separate(types.is_empty())?;
            types.push(self.data_type()?);
        }
        let mask = if self.take(";") { self.mask()? } else { FULL_MASK };
        self.expect(")")?;
        self.expect("=")?;
        let answer = if self.take("none") {
            Answer::None
        } else {
            Answer::Type(sheet::write(&[self.data_type()?])?)
        };
        let call = Call::new(question, mask, sheet::write(&types)?);
        self.rest.trim().is_empty().then_some((call, answer))
    }

    fn mask(&mut self) -> Option<u64> {
        self.expect("mask")?;
        u64::from_str_radix(self.word(), 16).ok()
    }

    fn data_type(&mut self) -> Option<DataType> {
        let word = self.word();
        let Some(plain) = plain_named(word) else { return self.nested(word) };
        let figures = match plain {
            Decimal32(..) | Decimal64(..) | Decimal128(..) | Decimal256(..) => {
                self.expect("(")?;
                let precision = self.number()?;
                self.expect(",")?;
                plain_of(sheet::kind_of(&plain), precision, self.number()?)
            }
            Time32(_) | Time64(_) | Duration(_) => {
                self.expect("(")?;
                plain_of(sheet::kind_of(&plain), self.unit()?, 0)
            }
            Timestamp(..) => {
                self.expect("(")?;
                let unit = UNITS[usize::from(self.unit()?)];
                let zone = if self.take(",") { Some(self.quoted()?.into()) } else { None };
                Timestamp(unit, zone)
            }
            Interval(_) => {
                self.expect("(")?;
                let word = self.word();
                Interval(INTERVALS.into_iter().find(|unit| format!("{unit:?}") == word)?)
            }
            FixedSizeBinary(_) => {
                self.expect("(")?;
                FixedSizeBinary(self.number()?)
            }
            _ => return Some(plain),
        };
        self.expect(")")?;
        Some(figures)
    }

    fn nested(&mut self, word: &str) -> Option<DataType> {
        self.expect("(")?;
        let found = match word {
            "List" => List(self.field("item")?),
            "LargeList" => LargeList(self.field("item")?),
            "FixedSizeList" => {
                let size = self.number()?;
                self.expect("x")?;
                FixedSizeList(self.field("item")?, size)
            }
            "Struct" => Struct(self.fields()?.into()),
            "Map" => {
                let entry = self.field("entries")?;
                self.expect(",")?;
                let sorted = self.take("sorted");
                (sorted || self.take("unsorted")).then_some(Map(entry, sorted))?
            }
            "Dictionary" => {
                let index = self.data_type()?;
                self.expect(",")?;
                Dictionary(index.into(), self.data_type()?.into())
            }
            "RunEndEncoded" => {
                let ends = self.field("run_ends")?;
                self.expect(",")?;
                RunEndEncoded(ends, self.field("values")?)
            }
            _ => return None,
        };
        self.expect(")")?;
        Some(found)
    }

    fn fields(&mut self) -> Option<Vec<FieldRef>> {
        let mut found = Vec::new();
        while !self.rest.trim_start().starts_with(')') {
            self.separate(found.is_empty())?;
            found.push(self.field("")?);
        }
        Some(found)
    }

    /// A field that has the name `default` where none stands before it.
    fn field(&mut self, default: &str) -> Option<FieldRef> {
        let name = self.name();
        let nullable = self.take("nullable ");
        let name = name.unwrap_or_else(|| default.to_string());
        Some(field(&name, self.data_type()?, nullable))
    }

    /// A name and its colon.
    fn name(&mut self) -> Option<String> {
        let start = self.rest;
        let name = self.quoted().unwrap_or_else(|| self.word().to_string());
        let found = self.take(":").then_some(name);
        if found.is_none() {
            self.rest = start;
        }
        found
    }

    fn unit(&mut self) -> Option<u8> {
        match self.word() {
            "s" => Some(0),
            "ms" => Some(1),
            "µs" | "us" => Some(2),
            "ns" => Some(3),
            _ => None,
        }
    }

    /// The comma before all but the first of a row.
    fn separate(&mut self, is_first: bool) -> Option<()> {
        (is_first || self.take(",")).then_some(())
    }

    fn expect(&mut self, text: &str) -> Option<()> {
        self.take(text).then_some(())
    }

    fn take(&mut self, text: &str) -> bool {
        let found = self.rest.trim_start().strip_prefix(text);
        self.rest = found.unwrap_or(self.rest);
        found.is_some()
    }

    fn word(&mut self) -> &'a str {
        self.front(|letter| letter.is_alphanumeric() || letter == '_')
    }

    fn number<T: std::str::FromStr>(&mut self) -> Option<T> {
        self.front(|letter| letter.is_ascii_digit() || letter == '-').parse().ok()
    }

    fn front(&mut self, belongs: fn(char) -> bool) -> &'a str {
        let text = self.rest.trim_start();
        let (found, rest) =
            text.split_at(text.find(|letter| !belongs(letter)).unwrap_or(text.len()));
        self.rest = rest;
        found
    }

    /// Text in quotes, without escapes.
    fn quoted(&mut self) -> Option<String> {
        let (text, rest) = self.rest.trim_start().strip_prefix('"')?.split_once('"')?;
        self.rest = rest;
        Some(text_of(text.as_bytes()))
    }
}

/// The kind of that name that has no parts, with its least figures.
fn plain_named(word: &str) -> Option<DataType> {
    let is_named = |plain: &DataType| format!("{plain:?}").split('(').next() == Some(word);
    (1..=31).map(|kind| plain_of(kind, 0, 0)).find(is_named)
}
