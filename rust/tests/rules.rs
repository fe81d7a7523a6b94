//! Every example of `docs/RULES.md`, such as `union(Utf8, Int32) = Utf8`.

use pemzhulaq::coerce::{Error, Question};
use pemzhulaq::{DataType, Mask, Refusal};
use std::fs;
use std::path::Path;

/// A question, its types and mask, and the answer that is said.
struct Example {
    text: String,
    question: Question,
    types: Vec<String>,
    mask: Mask,
    answer: String,
}

/// The commas and semicolons of a text that stand in no parentheses and no quotes part it.
fn parts(text: &str) -> Vec<String> {
    let (mut parts, mut depth, mut quoted) = (vec![String::new()], 0, false);
    for c in text.chars() {
        match c {
            '"' => quoted = !quoted,
            '(' if !quoted => depth += 1,
            ')' if !quoted => depth -= 1,
            ',' | ';' if !quoted && depth == 0 => {
                parts.push(String::new());
                continue;
            }
            _ => {}
        }
        parts.last_mut().unwrap().push(c);
    }
    parts.iter().map(|part| part.trim().to_string()).filter(|part| !part.is_empty()).collect()
}

impl Example {
    /// The example in a text between backticks, if it is one.
    fn read(text: &str) -> Option<Example> {
        let text = text.split_whitespace().collect::<Vec<&str>>().join(" ");
        let (call, answer) = text.split_once(") = ")?;
        let (word, types) = call.split_once('(')?;
        let question = Question::ALL.into_iter().find(|question| question.word() == word)?;
        let mut types = parts(types);
        let mask = match types.last().and_then(|last| last.strip_prefix("mask ")) {
            Some(digits) => Mask::from_bits(u64::from_str_radix(digits, 16).unwrap()),
            None => Mask::ALL,
        };
        types.retain(|part| !part.starts_with("mask "));
        let answer = answer.to_string();
        Some(Example { text, question, types, mask, answer })
    }

    fn check(&self) {
        let types: Vec<DataType> = self.types.iter().map(|text| text.parse().unwrap()).collect();
        let answer = match self.question.ask_types(&types, self.mask) {
            Ok(Some(data_type)) => data_type.to_string(),
            Ok(None) => "none".to_string(),
            Err(Error::Refused(Refusal::Pair)) => "refused 7".to_string(),
            Err(error) => error.to_string(),
        };
        assert_eq!(answer, self.answer, "{}", self.text);
    }
}

#[test]
fn every_example_is_what_is_answered() {
    let path = Path::new(env!("CARGO_MANIFEST_DIR")).join("../docs/RULES.md");
    let page = fs::read_to_string(path).expect("docs/RULES.md can be read");
    let prose: Vec<&str> = page.split("```").step_by(2).collect();
    let prose = prose.concat();
    let examples: Vec<Example> =
        prose.split('`').skip(1).step_by(2).filter_map(Example::read).collect();
    examples.iter().for_each(Example::check);
    assert!(examples.len() > 100, "{} examples", examples.len());
}
