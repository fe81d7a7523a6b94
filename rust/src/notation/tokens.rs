//! The words, numbers, labels and signs of a text.

use super::{continues_word, starts_word, ParseError};
use crate::Kind;
use std::fmt;

#[derive(Clone, Debug, PartialEq)]
pub(super) enum Token<'a> {
    Word(&'a str),
    /// `non-null`, which has a sign in it and so is no word.
    NonNull,
    Number(&'a str),
    Quoted(Vec<u8>),
    Sign(char),
    End,
}

impl Token<'_> {
    /// What a message adds where something was met that may be meant to say whether a field is
    /// nullable, as `nonnull` or `NOT NULL` is; nothing where something else was met.
    pub fn hint(&self) -> &'static str {
        if self.is_like_a_mark() {
            "; a field is not nullable unless nullable stands before its type \
             (non-null may stand there too)"
        } else {
            ""
        }
    }

    fn is_like_a_mark(&self) -> bool {
        let word = match self {
            Token::NonNull => return true,
            Token::Word(word) if *word != Kind::Null.word() => word.to_ascii_lowercase(),
            _ => return false,
        };
        let word = word.replace('_', "");
        let rest = word.strip_prefix("non").or(word.strip_prefix("not")).unwrap_or(&word);
        matches!(rest, "" | "null" | "nullable")
    }
}

/// As a message names what was found.
impl fmt::Display for Token<'_> {
    fn fmt(&self, f: &mut fmt::Formatter<'_>) -> fmt::Result {
        match self {
            Token::Word(text) | Token::Number(text) => f.write_str(&short(text)),
            Token::NonNull => f.write_str(NON_NULL),
            Token::Quoted(_) => f.write_str("a label in quotes"),
            Token::Sign(sign) => write!(f, "'{sign}'"),
            Token::End => f.write_str("the end of the text"),
        }
    }
}

const NON_NULL: &str = "non-null";

/// The tokens of a text, with one looked at ahead.
pub(super) struct Tokens<'a> {
    text: &'a str,
    /// Where the token that was taken last begins.
    taken: usize,
    /// Where the token ahead begins, and where it ends.
    start: usize,
    end: usize,
    ahead: Token<'a>,
}

impl<'a> Tokens<'a> {
    pub fn new(text: &'a str) -> Result<Tokens<'a>, ParseError> {
        let mut tokens = Tokens { text, taken: 0, start: 0, end: 0, ahead: Token::End };
        tokens.next()?;
        Ok(tokens)
    }

    pub fn peek(&self) -> &Token<'a> {
        &self.ahead
    }

    /// Where the token ahead begins.
    pub fn place(&self) -> usize {
        self.start
    }

    /// Where the token that was taken last begins.
    pub fn taken(&self) -> usize {
        self.taken
    }

    pub fn error(&self, place: usize, message: impl Into<String>) -> ParseError {
        ParseError::new(self.text, place, message)
    }

    /// An error at the token ahead.
    pub fn expected(&self, what: &str) -> ParseError {
        let found = &self.ahead;
        self.error(self.start, format!("expected {what}, found {found}{}", found.hint()))
    }

    /// Takes the token ahead and looks at the one behind it.
    pub fn next(&mut self) -> Result<Token<'a>, ParseError> {
        let rest = &self.text[self.end..];
        let trimmed = rest.trim_start();
        self.taken = self.start;
        self.start = self.end + rest.len() - trimmed.len();
        let (token, length) = match trimmed.chars().next() {
            None => (Token::End, 0),
            Some('"') => self.quoted(trimmed)?,
            Some(_) if has_non_null(trimmed) => (Token::NonNull, NON_NULL.len()),
            Some(c) if starts_word(c) => {
                let word = front(trimmed, continues_word);
                (Token::Word(word), word.len())
            }
            Some(c) if c.is_ascii_digit() || c == '-' => {
                let digits = front(&trimmed[1..], |c| c.is_ascii_digit());
                (Token::Number(&trimmed[..1 + digits.len()]), 1 + digits.len())
            }
            Some(c @ ('(' | ')' | ',' | ':')) => (Token::Sign(c), 1),
            Some(c) => {
                return Err(
                    self.error(self.start, format!("the character {c:?} stands for nothing"))
                )
            }
        };
        self.end = self.start + length;
        Ok(std::mem::replace(&mut self.ahead, token))
    }

    pub fn is_ahead(&self, sign: char) -> bool {
        self.ahead == Token::Sign(sign)
    }

    /// Takes a sign.
    pub fn sign(&mut self, sign: char) -> Result<(), ParseError> {
        if !self.is_ahead(sign) {
            return Err(self.expected(&format!("'{sign}'")));
        }
        self.next().map(|_| ())
    }

    /// Takes one of some words, and gives its place among them.
    pub fn choice(&mut self, words: &[&str]) -> Result<u8, ParseError> {
        let is_ahead = |word: &&str| self.ahead == Token::Word(word);
        let Some(number) = words.iter().position(is_ahead) else {
            return Err(self.expected(&words.join(" or ")));
        };
        self.next()?;
        Ok(number as u8)
    }

    /// Takes a number between two others.
    pub fn number(&mut self, what: &str, least: i32, greatest: i32) -> Result<i32, ParseError> {
        let Token::Number(digits) = self.ahead else {
            return Err(self.expected("a number"));
        };
        match digits.parse().ok().filter(|number| (least..=greatest).contains(number)) {
            Some(number) => self.next().map(|_| number),
            None => {
                let message = format!("{what} is {least} to {greatest}, not {}", short(digits));
                Err(self.error(self.start, message))
            }
        }
    }

    /// A label in quotes at the front of a text, and the bytes that it takes.
    fn quoted(&self, text: &'a str) -> Result<(Token<'a>, usize), ParseError> {
        let mut label = Vec::new();
        let mut at = 1;
        while let Some(c) = text[at..].chars().next() {
            match c {
                '"' => return Ok((Token::Quoted(label), at + 1)),
                '\\' => {
                    let (byte, length) = escape(&text[at..]).ok_or_else(|| {
                        let known = "an escape is one of \\\" \\\\ \\n \\r \\t and \\xHH";
                        self.error(self.start + at, known)
                    })?;
                    label.push(byte);
                    at += length;
                }
                _ => {
                    label.extend_from_slice(c.encode_utf8(&mut [0; 4]).as_bytes());
                    at += c.len_utf8();
                }
            }
        }
        Err(self.error(self.start, "this quote is not closed"))
    }
}

/// A word or a number as a message shows it, cut where it is long.
pub(super) fn short(text: &str) -> String {
    match text.char_indices().nth(40) {
        Some((at, _)) => format!("{}...", &text[..at]),
        None => text.to_string(),
    }
}

/// Whether `non-null`, and no longer word, is at the front of a text.
fn has_non_null(text: &str) -> bool {
    text.strip_prefix(NON_NULL).is_some_and(|rest| !rest.starts_with(continues_word))
}

/// The longest front of a text whose characters all pass a test.
fn front(text: &str, test: impl Fn(char) -> bool) -> &str {
    &text[..text.find(|c| !test(c)).unwrap_or(text.len())]
}

/// The byte of the escape at the front of a text, and how many bytes the escape takes.
fn escape(text: &str) -> Option<(u8, usize)> {
    let bytes = text.as_bytes();
    let byte = match bytes.get(1)? {
        b'"' => b'"',
        b'\\' => b'\\',
        b'n' => b'\n',
        b'r' => b'\r',
        b't' => b'\t',
        b'x' => {
            let digit = |at: usize| char::from(*bytes.get(at)?).to_digit(16);
            return Some(((16 * digit(2)? + digit(3)?) as u8, 4));
        }
        _ => return None,
    };
    Some((byte, 2))
}
