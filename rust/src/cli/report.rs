//! The lines that the program prints, and its warning.

use super::Failure;
use pemzhulaq::coerce::Question;
use pemzhulaq::pairing::{self, ByPlace};
use pemzhulaq::{sheet, Label, Refusal};
use std::fmt::Write;

/// A question, and the sheet of its answer, if there is one.
pub type Answer = (Question, Result<Option<Vec<u8>>, Refusal>);

pub fn text(sheet: &[u8], answers: &[Answer], with_hex: bool) -> Result<String, Failure> {
    let mut text = String::new();
    if with_hex {
        line(&mut text, "sheet", &hex(sheet));
    }
    for (question, answer) in answers {
        line(&mut text, question.word(), &said(answer)?);
        if let (true, Ok(Some(sheet))) = (with_hex, answer) {
            line(&mut text, "", &hex(sheet));
        }
    }
    Ok(text)
}

fn line(text: &mut String, word: &str, rest: &str) {
    text.push_str(&format!("{word:<8} {rest}\n"));
}

fn said(answer: &Result<Option<Vec<u8>>, Refusal>) -> Result<String, Failure> {
    let bytes = match answer {
        Ok(Some(bytes)) => bytes,
        Ok(None) => return Ok("none".to_string()),
        Err(refusal) => return Ok(refusal.to_string()),
    };
    match sheet::decode(bytes).as_deref() {
        Ok([data_type]) => Ok(data_type.to_string()),
        _ => Err(Failure::wrong("the answer is not a sheet of one type")),
    }
}

/// What is said where a union or a comparison has an answer and matches Structs by place: which
/// columns of the second type go into which of the first.
pub fn warning(sheet: &[u8], answers: &[Answer]) -> Option<String> {
    let matching: Vec<&str> = answers
        .iter()
        .filter(|(question, answer)| *question != Question::List && matches!(answer, Ok(Some(_))))
        .map(|(question, _)| question.word())
        .collect();
    let verb = match matching.len() {
        0 => return None,
        1 => "matches",
        _ => "match",
    };
    let types = sheet::decode(sheet).ok()?;
    let [left, right] = types.as_slice() else { return None };
    let lines: Vec<String> = pairing::by_place(left, right).iter().flat_map(pair_lines).collect();
    let questions = matching.join(" and ");
    let why = "since their names differ (type 1 <- type 2)";
    let pairs = lines.join("\n");
    (!lines.is_empty())
        .then(|| format!("warning: {questions} {verb} Structs by place, {why}:\n{pairs}"))
}

/// The pairs of two Structs, one to a line.
fn pair_lines(matched: &ByPlace) -> Vec<String> {
    let full = |path: &[Label], name: &Label| {
        let names: Vec<String> = path.iter().chain([name]).map(Label::to_string).collect();
        names.join(".")
    };
    let pairs: Vec<(String, String)> = matched
        .pairs
        .iter()
        .map(|(our, their)| (full(&matched.left, our), full(&matched.right, their)))
        .collect();
    let width = pairs.iter().map(|(our, _)| our.chars().count()).max().unwrap_or(0);
    pairs.iter().map(|(our, their)| format!("  {our:<width$} <- {their}")).collect()
}

fn hex(bytes: &[u8]) -> String {
    let mut digits = String::with_capacity(2 * bytes.len());
    for byte in bytes {
        let _ = write!(digits, "{byte:02x}");
    }
    digits
}
