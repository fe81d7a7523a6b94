//! Reading figures, units and zones.

use super::tokens::{Token, Tokens};
use super::{ParseError, INTERVALS, UNITS};
use crate::head::Head;
use crate::sheet::MAX_LABEL;
use crate::{Kind, Label};

/// Reads what stands between a type's word and its first part.
pub(super) fn before_parts(tokens: &mut Tokens, head: &mut Head) -> Result<(), ParseError> {
    tokens.sign('(')?;
    if head.kind == Kind::FixedSizeList {
        head.size = tokens.number("a size", 0, i32::MAX)?;
        tokens.choice(&["x"])?;
    }
    Ok(())
}

/// Reads the figures of a type without parts; gives its zone, if it has one.
pub(super) fn read(tokens: &mut Tokens, head: &mut Head) -> Result<Option<Label>, ParseError> {
    let mut zone = None;
    if !has_figures(head.kind) {
        return Ok(zone);
    }
    tokens.sign('(')?;
    match head.kind {
        Kind::Interval => head.figure = tokens.choice(&INTERVALS)?,
        Kind::FixedSizeBinary => head.size = tokens.number("a size", 0, i32::MAX)?,
        Kind::Timestamp => {
            head.figure = unit(tokens)?;
            zone = read_zone(tokens)?;
        }
        kind => match kind.precision_cap() {
            Some(cap) => decimal(tokens, head, cap)?,
            None => head.figure = unit(tokens)?,
        },
    }
    tokens.sign(')')?;
    Ok(zone)
}

fn has_figures(kind: Kind) -> bool {
    use Kind::*;
    kind.precision_cap().is_some()
        || matches!(kind, Time32 | Time64 | Timestamp | Interval | Duration | FixedSizeBinary)
}

/// 1 ≤ p ≤ cap, and p − 127 ≤ s ≤ p.
fn decimal(tokens: &mut Tokens, head: &mut Head, cap: u8) -> Result<(), ParseError> {
    let what = format!("the precision of {}", head.kind);
    let precision = tokens.number(&what, 1, i32::from(cap))?;
    tokens.sign(',')?;
    let what = format!("the scale at precision {precision}");
    let scale = tokens.number(&what, precision - 127, precision)?;
    (head.figure, head.scale) = (precision as u8, scale as i8);
    Ok(())
}

fn unit(tokens: &mut Tokens) -> Result<u8, ParseError> {
    // Easier to type, and the Greek letter that looks the same.
    if let Token::Word("us" | "\u{3bc}s") = tokens.peek() {
        tokens.next()?;
        return Ok(2);
    }
    tokens.choice(&UNITS)
}

fn read_zone(tokens: &mut Tokens) -> Result<Option<Label>, ParseError> {
    if !tokens.is_ahead(',') {
        return Ok(None);
    }
    tokens.sign(',')?;
    if !matches!(tokens.peek(), Token::Quoted(_)) {
        return Err(tokens.expected("a zone in quotes"));
    }
    match tokens.next()? {
        Token::Quoted(zone) if zone.len() <= MAX_LABEL => Ok(Some(zone.into())),
        _ => {
            let message = format!("a zone of more than {MAX_LABEL} bytes");
            Err(tokens.error(tokens.taken(), message))
        }
    }
}
