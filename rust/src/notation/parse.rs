//! Reading a type.

use super::tokens::{short, Token, Tokens};
use super::{default_name, figures, ParseError};
use crate::head::Head;
use crate::sheet::{MAX_LABEL, MAX_RECORDS};
use crate::{DataType, Field, Kind, Label};
use std::str::FromStr;

/// The type that a text stands for, the whole of it.
///
/// Figures that no sheet may carry are errors too, and so are more types in one than a sheet has
/// records for; that bounds the depth.
pub fn parse(text: &str) -> Result<DataType, ParseError> {
    let mut parser = Parser { tokens: Tokens::new(text)?, open: Vec::new(), count: 0 };
    let data_type = parser.data_type()?;
    match parser.tokens.peek() {
        Token::End => Ok(data_type),
        _ => Err(parser.tokens.expected("the end of the text")),
    }
}

/// The types of a text with one type to a line.
///
/// Empty lines are passed over, and so are lines whose first character, spaces aside, is `#`. A
/// byte order mark at the front of the text is no part of it.
///
/// ```
/// use pemzhulaq::{notation, DataType};
/// let text = "\u{feff}# our column\nInt64\n\n  # the till's\n  Utf8\n";
/// assert_eq!(notation::parse_lines(text).unwrap(), [DataType::Int64, DataType::Utf8]);
/// ```
pub fn parse_lines(text: &str) -> Result<Vec<DataType>, ParseError> {
    let text = text.strip_prefix(BYTE_ORDER_MARK).unwrap_or(text);
    let has_type = |line: &str| !matches!(line.trim_start().chars().next(), None | Some('#'));
    let lines = text.lines().enumerate().filter(|(_, line)| has_type(line));
    lines.map(|(at, line)| parse(line).map_err(|error| error.in_line(at + 1))).collect()
}

/// What some programs put before the first character of a file.
const BYTE_ORDER_MARK: char = '\u{feff}';

impl FromStr for DataType {
    type Err = ParseError;

    fn from_str(text: &str) -> Result<DataType, ParseError> {
        parse(text)
    }
}

struct Parser<'a> {
    tokens: Tokens<'a>,
    /// The types whose parts are being read, the outermost first.
    open: Vec<Open>,
    /// How many types were met.
    count: usize,
}

/// A type whose parts are being read, and what was said before it.
struct Open {
    head: Head,
    front: Front,
    parts: Vec<Field>,
}

/// What a field says before its type.
struct Front {
    name: Label,
    nullable: bool,
}

impl<'a> Parser<'a> {
    /// Reads a type. Open types are kept in a list and not on the stack.
    fn data_type(&mut self) -> Result<DataType, ParseError> {
        loop {
            let (front, mut head) = self.field_front()?;
            if head.kind.part_count() != Some(0) {
                figures::before_parts(&mut self.tokens, &mut head)?;
                self.open.push(Open { head, front, parts: Vec::new() });
                if !self.is_empty_struct() {
                    continue;
                }
            } else {
                let zone = figures::read(&mut self.tokens, &mut head)?;
                let data_type = self.build(head, zone, Vec::new())?;
                if let Some(whole) = self.add(front, data_type) {
                    return Ok(whole);
                }
            }
            if let Some(whole) = self.close()? {
                return Ok(whole);
            }
        }
    }

    fn is_empty_struct(&self) -> bool {
        self.open_kind() == Some(Kind::Struct) && self.tokens.is_ahead(')')
    }

    fn open_kind(&self) -> Option<Kind> {
        self.open.last().map(|open| open.head.kind)
    }

    /// Closes each open type whose last part was read; gives the whole if that closes all.
    fn close(&mut self) -> Result<Option<DataType>, ParseError> {
        while let Some(mut open) = self.open.pop() {
            if self.has_more(&open)? {
                self.open.push(open);
                return Ok(None);
            }
            if open.head.kind == Kind::Map {
                self.tokens.sign(',')?;
                open.head.sorted = self.tokens.choice(&["unsorted", "sorted"])? == 1;
            }
            self.tokens.sign(')')?;
            let data_type = self.build(open.head, None, open.parts)?;
            if let Some(whole) = self.add(open.front, data_type) {
                return Ok(Some(whole));
            }
        }
        Ok(None)
    }

    /// Whether another part follows; then the comma before it is taken.
    fn has_more(&mut self, open: &Open) -> Result<bool, ParseError> {
        match open.head.kind.part_count() {
            Some(count) if open.parts.len() == count => return Ok(false),
            None if self.tokens.is_ahead(')') => return Ok(false),
            None if !self.tokens.is_ahead(',') => return Err(self.tokens.expected("',' or ')'")),
            _ => {}
        }
        self.tokens.sign(',')?;
        Ok(true)
    }

    /// Adds a type that was read to the open type, or gives it back where none is open.
    fn add(&mut self, front: Front, data_type: DataType) -> Option<DataType> {
        let Some(open) = self.open.last_mut() else {
            return Some(data_type);
        };
        open.parts.push(Field { name: front.name, data_type, nullable: front.nullable });
        None
    }

    fn build(
        &self,
        head: Head,
        zone: Option<Label>,
        parts: Vec<Field>,
    ) -> Result<DataType, ParseError> {
        let built = DataType::of(head, zone, parts);
        built.ok_or_else(|| self.tokens.expected("a whole type"))
    }

    /// Reads name, nullability and the word of the type.
    fn field_front(&mut self) -> Result<(Front, Head), ParseError> {
        let start = self.tokens.place();
        let mut token = self.tokens.next()?;
        let mut name = None;
        if self.tokens.is_ahead(':') && matches!(token, Token::Word(_) | Token::Quoted(_)) {
            name = Some(self.name(start, token)?);
            self.tokens.sign(':')?;
            token = self.tokens.next()?;
        }
        let nullable = token == Token::Word("nullable");
        if nullable || token == Token::NonNull {
            self.check_mark(&token)?;
            token = self.tokens.next()?;
        }
        let head = self.head(token)?;
        let name = name.map_or_else(|| self.unsaid_name(start), Ok)?;
        Ok((Front { name, nullable }, head))
    }

    /// A name that was said, where one may be.
    fn name(&self, place: usize, token: Token) -> Result<Label, ParseError> {
        let name = match token {
            Token::Word(word) => Label::from(word),
            Token::Quoted(bytes) => Label::from(bytes),
            _ => Label::default(),
        };
        let error = |message: String| Err(self.tokens.error(place, message));
        let Some(open) = self.open.last() else {
            return error("a type has no name where it is not a part".to_string());
        };
        let kind = open.head.kind;
        if !kind.has_fields() {
            return error(format!("the parts of a {kind} have no names"));
        }
        if name.as_bytes().len() > MAX_LABEL {
            return error(format!("a name of more than {MAX_LABEL} bytes"));
        }
        if kind == Kind::Struct && open.parts.iter().any(|part| part.name == name) {
            return error(format!("two fields of this Struct have the name {name}"));
        }
        Ok(name)
    }

    /// The name of a field that says none.
    fn unsaid_name(&self, place: usize) -> Result<Label, ParseError> {
        let Some(open) = self.open.last() else {
            return Ok(Label::default());
        };
        match default_name(open.head.kind, open.parts.len()) {
            Some(name) => Ok(name.into()),
            None if open.head.kind == Kind::Struct => Err(self
                .tokens
                .error(place, "a field of a Struct needs a name, as in cases: Int64")),
            None => Ok(Label::default()),
        }
    }

    /// `nullable` or `non-null` was just taken; an error if it may not be said here.
    fn check_mark(&self, mark: &Token) -> Result<(), ParseError> {
        let message = match self.open_kind() {
            Some(kind) if kind.has_fields() => return Ok(()),
            Some(kind) => format!("the parts of a {kind} are never nullable"),
            None => "a type is never nullable where it is not a part".to_string(),
        };
        let advice = if *mark == Token::NonNull { ": leave non-null out" } else { "" };
        Err(self.tokens.error(self.tokens.taken(), format!("{message}{advice}")))
    }

    /// The head of the type whose word was just taken.
    fn head(&mut self, token: Token) -> Result<Head, ParseError> {
        let place = self.tokens.taken();
        let Token::Word(word) = token else {
            let message = format!("expected a type, found {token}{}", token.hint());
            return Err(self.tokens.error(place, message));
        };
        let Some(kind) = Kind::from_word(word) else {
            return Err(self.tokens.error(place, unknown(word)));
        };
        self.count += 1;
        if self.count == MAX_RECORDS {
            let most = MAX_RECORDS - 1;
            return Err(self.tokens.error(place, format!("more than {most} types, parts counted")));
        }
        Ok(Head::new(kind))
    }
}

fn unknown(word: &str) -> String {
    match Kind::all().find(|kind| kind.word().eq_ignore_ascii_case(word)) {
        Some(kind) => format!("unknown type {word}, did you mean {kind}?"),
        None => format!("unknown type {}{}", short(word), Token::Word(word).hint()),
    }
}
