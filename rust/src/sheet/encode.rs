//! Writing a sheet.

use super::{MAX_LABEL, MAX_LABELS, MAX_RECORDS, NULLABLE, RECORD, SORTED, ZONED};
use crate::head::{BadFigure, Part};
use crate::{DataType, Kind, Label};
use std::fmt;

/// Why no sheet can carry some types.
#[derive(Clone, Debug, PartialEq, Eq)]
#[non_exhaustive]
pub enum EncodeError {
    /// More than 1,023 types, parts counted.
    TooManyTypes,
    /// More than 16,384 bytes of names and zones.
    TooManyLabelBytes,
    /// A name or a zone of more than 255 bytes.
    LabelTooLong(Label),
    /// Two fields of one Struct have this name.
    EqualNames(Label),
    /// A figure that is out of its range.
    Figure(BadFigure),
}

impl fmt::Display for EncodeError {
    fn fmt(&self, f: &mut fmt::Formatter<'_>) -> fmt::Result {
        match self {
            EncodeError::TooManyTypes => {
                write!(f, "more than {} types, parts counted", MAX_RECORDS - 1)
            }
            EncodeError::TooManyLabelBytes => {
                write!(f, "more than {MAX_LABELS} bytes of names and zones")
            }
            EncodeError::LabelTooLong(label) => {
                let length = label.as_bytes().len();
                write!(f, "a name or zone of {length} bytes, where {MAX_LABEL} are the most")
            }
            EncodeError::EqualNames(name) => {
                write!(f, "two fields of one Struct have the name {name}")
            }
            EncodeError::Figure(figure) => figure.fmt(f),
        }
    }
}

impl std::error::Error for EncodeError {}

impl From<BadFigure> for EncodeError {
    fn from(figure: BadFigure) -> EncodeError {
        EncodeError::Figure(figure)
    }
}

/// The sheet of these types, in this order.
pub fn encode(types: &[DataType]) -> Result<Vec<u8>, EncodeError> {
    encode_all(types.iter())
}

/// The sheet of types that stand in different places.
pub(crate) fn encode_all<'a>(
    types: impl Iterator<Item = &'a DataType>,
) -> Result<Vec<u8>, EncodeError> {
    let mut writer = Writer { records: vec![[0; RECORD]], labels: Vec::new() };
    writer.chains(types.map(Part::bare).collect())?;
    let (n, m) = (writer.records.len(), writer.labels.len());
    set_pair(&mut writer.records[0], 0, n);
    set_pair(&mut writer.records[0], 2, m);
    let mut sheet = writer.records.concat();
    sheet.extend_from_slice(&writer.labels);
    Ok(sheet)
}

struct Writer {
    records: Vec<[u8; RECORD]>,
    labels: Vec<u8>,
}

/// Types that are still to be written in one chain, and where the number of the next one goes.
struct Chain<'a> {
    rest: std::vec::IntoIter<Part<'a>>,
    link: Option<(usize, usize)>,
}

impl Writer {
    /// Writes a record, then its parts, then its next. Open chains are kept in a list and not on
    /// the stack, so that a type of any depth ends in an error and not in an overflow.
    fn chains(&mut self, listed: Vec<Part>) -> Result<(), EncodeError> {
        let mut open = vec![Chain { rest: listed.into_iter(), link: None }];
        while let Some(chain) = open.last_mut() {
            let Some(part) = chain.rest.next() else {
                open.pop();
                continue;
            };
            let record = self.records.len();
            if let Some((from, at)) = chain.link {
                set_pair(&mut self.records[from], at, record);
            }
            chain.link = Some((record, 10));
            self.record(&part)?;
            let parts = part.data_type.parts();
            check_names(part.data_type.kind(), &parts)?;
            open.push(Chain { rest: parts.into_iter(), link: Some((record, 8)) });
        }
        Ok(())
    }

    /// Writes a record but for its links.
    fn record(&mut self, part: &Part) -> Result<(), EncodeError> {
        if self.records.len() == MAX_RECORDS {
            return Err(EncodeError::TooManyTypes);
        }
        let head = part.data_type.head();
        head.check()?;
        let mut record = [0; RECORD];
        record[0] = head.kind.number();
        record[1] = flag(part.nullable, NULLABLE) | flag(head.sorted, SORTED);
        record[2] = head.figure;
        record[3] = head.scale as u8;
        record[4..8].copy_from_slice(&head.size.to_le_bytes());
        self.label(&mut record, 12, part.name)?;
        if let Some(zone) = part.data_type.zone() {
            record[1] |= ZONED;
            self.label(&mut record, 4, zone.as_bytes())?;
        }
        self.records.push(record);
        Ok(())
    }

    /// Adds a label, and its offset and length to a record; an empty one has offset 0.
    fn label(
        &mut self,
        record: &mut [u8; RECORD],
        at: usize,
        label: &[u8],
    ) -> Result<(), EncodeError> {
        let length =
            u8::try_from(label.len()).map_err(|_| EncodeError::LabelTooLong(label.into()))?;
        if self.labels.len() + label.len() > MAX_LABELS {
            return Err(EncodeError::TooManyLabelBytes);
        }
        let offset = if label.is_empty() { 0 } else { self.labels.len() };
        set_pair(record, at, offset);
        record[at + 2] = length;
        self.labels.extend_from_slice(label);
        Ok(())
    }
}

fn check_names(kind: Kind, parts: &[Part]) -> Result<(), EncodeError> {
    if kind != Kind::Struct {
        return Ok(());
    }
    let mut names: Vec<&[u8]> = parts.iter().map(|part| part.name).collect();
    names.sort_unstable();
    match names.windows(2).find(|two| two[0] == two[1]) {
        Some(two) => Err(EncodeError::EqualNames(two[0].into())),
        None => Ok(()),
    }
}

fn flag(is_set: bool, bit: u8) -> u8 {
    if is_set {
        bit
    } else {
        0
    }
}

/// Writes a number of two bytes; record numbers and label offsets are below 65,536 by the limits.
fn set_pair(record: &mut [u8; RECORD], at: usize, value: usize) {
    record[at..at + 2].copy_from_slice(&(value as u16).to_le_bytes());
}
