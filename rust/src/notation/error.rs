//! Errors in a text, with their places.

use std::fmt;

/// What is wrong with a text, and where.
///
/// ```
/// use pemzhulaq::notation;
/// let error = notation::parse("Struct(cases: int64)").unwrap_err();
/// assert_eq!(
///     error.to_string(),
///     "line 1, column 15: unknown type int64, did you mean Int64?\n  \
///        Struct(cases: int64)\n                \
///                      ^"
/// );
/// ```
#[derive(Clone, Debug, PartialEq, Eq)]
pub struct ParseError {
    line: usize,
    column: usize,
    message: String,
    /// A part of the line, and how many of its characters stand before the place.
    excerpt: String,
    before: usize,
}

/// How many characters an excerpt has at most on each side of the place.
const SIDE: usize = 60;

impl ParseError {
    /// An error at a byte offset of a text.
    pub(super) fn new(text: &str, offset: usize, message: impl Into<String>) -> ParseError {
        let (passed, rest) = text.split_at(offset);
        let line_start = passed.rfind('\n').map_or(0, |at| at + 1);
        let before: Vec<char> = passed[line_start..].chars().collect();
        let after = rest.chars().take_while(|&c| c != '\n').take(SIDE);
        let cut = before.len().saturating_sub(SIDE);
        let excerpt = before[cut..].iter().copied().chain(after);
        ParseError {
            line: passed.matches('\n').count() + 1,
            column: before.len() + 1,
            message: message.into(),
            // Control characters would move the caret, and more on a terminal.
            excerpt: excerpt.map(|c| if c.is_control() { ' ' } else { c }).collect(),
            before: before.len() - cut,
        }
    }

    /// The same error, in a text of which this line is the given one.
    pub(super) fn in_line(self, line: usize) -> ParseError {
        ParseError { line, ..self }
    }

    /// The line, from 1 on.
    pub fn line(&self) -> usize {
        self.line
    }

    /// The column in characters, from 1 on.
    pub fn column(&self) -> usize {
        self.column
    }

    /// What is wrong.
    pub fn message(&self) -> &str {
        &self.message
    }
}

/// Three lines: place and message, the text, and a caret under the place.
impl fmt::Display for ParseError {
    fn fmt(&self, f: &mut fmt::Formatter<'_>) -> fmt::Result {
        writeln!(f, "line {}, column {}: {}", self.line, self.column, self.message)?;
        writeln!(f, "  {}", self.excerpt.trim_end())?;
        write!(f, "  {:before$}^", "", before = self.before)
    }
}

impl std::error::Error for ParseError {}
