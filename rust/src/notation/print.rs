//! Printing a type.

use super::{default_name, is_word, INTERVALS, UNITS};
use crate::head::{Head, Part};
use crate::{DataType, Field, Kind, Label};
use std::fmt::{self, Formatter, Write};

impl fmt::Display for DataType {
    fn fmt(&self, f: &mut Formatter<'_>) -> fmt::Result {
        print(f, vec![Piece::Type(self)])
    }
}

impl fmt::Debug for DataType {
    fn fmt(&self, f: &mut Formatter<'_>) -> fmt::Result {
        fmt::Display::fmt(self, f)
    }
}

/// With its name always: `loose: nullable Int64`.
impl fmt::Display for Field {
    fn fmt(&self, f: &mut Formatter<'_>) -> fmt::Result {
        let nullable = if self.nullable { "nullable " } else { "" };
        write!(f, "{}: {nullable}{}", self.name, self.data_type)
    }
}

impl fmt::Debug for Field {
    fn fmt(&self, f: &mut Formatter<'_>) -> fmt::Result {
        fmt::Display::fmt(self, f)
    }
}

/// What is still to be printed.
enum Piece<'a> {
    Text(&'static str),
    Type(&'a DataType),
    /// A part, with its kind's name for it.
    Part(Part<'a>, Kind, usize),
}

/// Prints pieces from the last to the first. They are kept in a list and not on the stack, so
/// that a type of any depth can be printed.
fn print(f: &mut Formatter<'_>, mut pieces: Vec<Piece<'_>>) -> fmt::Result {
    while let Some(piece) = pieces.pop() {
        match piece {
            Piece::Text(text) => f.write_str(text)?,
            Piece::Type(data_type) => print_front(f, data_type, &mut pieces)?,
            Piece::Part(part, kind, number) => {
                print_field_front(f, &part, kind, number)?;
                pieces.push(Piece::Type(part.data_type));
            }
        }
    }
    Ok(())
}

/// Prints a type up to its first part, and leaves the rest as pieces.
fn print_front<'a>(
    f: &mut Formatter<'_>,
    data_type: &'a DataType,
    pieces: &mut Vec<Piece<'a>>,
) -> fmt::Result {
    let head = data_type.head();
    f.write_str(head.kind.word())?;
    if head.kind.part_count() == Some(0) {
        return print_figures(f, head, data_type.zone());
    }
    f.write_char('(')?;
    if head.kind == Kind::FixedSizeList {
        write!(f, "{} x ", head.size)?;
    }
    pieces.push(Piece::Text(match head.kind {
        Kind::Map if head.sorted => ", sorted)",
        Kind::Map => ", unsorted)",
        _ => ")",
    }));
    for (number, part) in data_type.parts().into_iter().enumerate().rev() {
        pieces.push(Piece::Part(part, head.kind, number));
        if number > 0 {
            pieces.push(Piece::Text(", "));
        }
    }
    Ok(())
}

fn print_figures(f: &mut Formatter<'_>, head: Head, zone: Option<&Label>) -> fmt::Result {
    let unit = usize::from(head.figure);
    match head.kind {
        Kind::Decimal32 | Kind::Decimal64 | Kind::Decimal128 | Kind::Decimal256 => {
            write!(f, "({}, {})", head.figure, head.scale)
        }
        Kind::Timestamp if zone.is_some() => {
            write!(f, "({}, ", UNITS[unit])?;
            zone.map_or(Ok(()), |zone| print_quoted(f, zone))?;
            f.write_char(')')
        }
        Kind::Time32 | Kind::Time64 | Kind::Timestamp | Kind::Duration => {
            write!(f, "({})", UNITS[unit])
        }
        Kind::Interval => write!(f, "({})", INTERVALS[unit]),
        Kind::FixedSizeBinary => write!(f, "({})", head.size),
        _ => Ok(()),
    }
}

/// The name, unless it goes without saying, and the nullability.
fn print_field_front(f: &mut Formatter<'_>, part: &Part, kind: Kind, number: usize) -> fmt::Result {
    let is_default = default_name(kind, number).is_some_and(|name| name.as_bytes() == part.name);
    if kind.has_fields() && !is_default {
        write!(f, "{}: ", Label::from(part.name))?;
    }
    f.write_str(if part.nullable { "nullable " } else { "" })
}

/// A name: bare where it is a word, else in quotes.
pub(crate) fn print_name(f: &mut Formatter<'_>, label: &Label) -> fmt::Result {
    match label.as_text().filter(|text| is_word(text)) {
        Some(word) => f.write_str(word),
        None => print_quoted(f, label),
    }
}

/// A label in quotes: text as it is, and escapes for quotes, backslashes, control characters and
/// bytes that are no text.
pub(crate) fn print_quoted(f: &mut Formatter<'_>, label: &Label) -> fmt::Result {
    f.write_char('"')?;
    for chunk in label.as_bytes().utf8_chunks() {
        chunk.valid().chars().try_for_each(|c| print_char(f, c))?;
        print_bytes(f, chunk.invalid())?;
    }
    f.write_char('"')
}

fn print_char(f: &mut Formatter<'_>, c: char) -> fmt::Result {
    match c {
        '"' => f.write_str("\\\""),
        '\\' => f.write_str("\\\\"),
        '\n' => f.write_str("\\n"),
        '\r' => f.write_str("\\r"),
        '\t' => f.write_str("\\t"),
        _ if c.is_control() => print_bytes(f, c.encode_utf8(&mut [0; 4]).as_bytes()),
        _ => f.write_char(c),
    }
}

fn print_bytes(f: &mut Formatter<'_>, bytes: &[u8]) -> fmt::Result {
    bytes.iter().try_for_each(|byte| write!(f, "\\x{byte:02X}"))
}
