//! The fields of a record, by their places.

use super::{MAX_LABELS, MAX_RECORDS, NULLABLE, RECORD, SORTED, ZONED};
use crate::Kind;

/// A sheet whose length, limits and header are right; records are read by number.
pub(super) struct View<'a> {
    bytes: &'a [u8],
    records: usize,
}

impl<'a> View<'a> {
    /// Nothing where refusal 1 applies.
    pub fn open(bytes: &'a [u8]) -> Option<View<'a>> {
        let header = bytes.get(..RECORD)?;
        let pair = |at: usize| usize::from(u16::from_le_bytes([header[at], header[at + 1]]));
        let (records, labels) = (pair(0), pair(2));
        let is_right = (1..=MAX_RECORDS).contains(&records)
            && labels <= MAX_LABELS
            && bytes.len() == RECORD * records + labels
            && header[4..].iter().all(|&byte| byte == 0);
        is_right.then_some(View { bytes, records })
    }

    /// n, the header counted.
    pub fn records(&self) -> usize {
        self.records
    }

    pub fn byte(&self, record: usize, at: usize) -> u8 {
        self.bytes[RECORD * record + at]
    }

    fn pair(&self, record: usize, at: usize) -> usize {
        usize::from(u16::from_le_bytes([self.byte(record, at), self.byte(record, at + 1)]))
    }

    /// Nothing where refusal 2 applies.
    pub fn kind(&self, record: usize) -> Option<Kind> {
        Kind::from_number(self.byte(record, 0))
    }

    pub fn is_nullable(&self, record: usize) -> bool {
        self.byte(record, 1) & NULLABLE != 0
    }

    pub fn is_sorted(&self, record: usize) -> bool {
        self.byte(record, 1) & SORTED != 0
    }

    pub fn has_zone(&self, record: usize) -> bool {
        self.byte(record, 1) & ZONED != 0
    }

    pub fn size(&self, record: usize) -> i32 {
        let at = RECORD * record + 4;
        let bytes = &self.bytes[at..at + 4];
        i32::from_le_bytes([bytes[0], bytes[1], bytes[2], bytes[3]])
    }

    /// The first part; zero where there is none.
    pub fn first_part(&self, record: usize) -> usize {
        self.pair(record, 8)
    }

    /// The next record of the chain; zero at its end.
    pub fn next(&self, record: usize) -> usize {
        self.pair(record, 10)
    }

    /// Offset and length of the name.
    pub fn name_place(&self, record: usize) -> (usize, usize) {
        (self.pair(record, 12), usize::from(self.byte(record, 14)))
    }

    /// Offset and length of the zone.
    pub fn zone_place(&self, record: usize) -> (usize, usize) {
        (self.pair(record, 4), usize::from(self.byte(record, 6)))
    }

    pub fn labels(&self) -> &'a [u8] {
        &self.bytes[RECORD * self.records..]
    }

    /// The label at a place; what lies past the labels is left out.
    pub fn label(&self, (offset, length): (usize, usize)) -> &'a [u8] {
        let labels = self.labels();
        let start = offset.min(labels.len());
        &labels[start..(start + length).min(labels.len())]
    }
}
