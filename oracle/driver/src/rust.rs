//! From sheet bytes to answer bytes in Rust, with the source in the middle: the other side of
//! the benchmark. One walk checks a sheet, types are built once, and the answer is written
//! straight into the output. Tests hold it to the oracle's own reader and writer.

use crate::call::{common_type, Question, FULL_MASK, MASK, PAIR, SPACE};
use crate::sheet::{head, plain_of, precision_cap, text_of, CHAIN, FIGURE, KIND, LABEL, TORN};
use crate::sheet::{DICTIONARY, FIXED_SIZE_BINARY, FIXED_SIZE_LIST, INTERVAL, LIST, MAP, RECORD};
use crate::sheet::{MAX_LABELS, MAX_RECORDS, RUN_ENDS, STRUCT, TIMESTAMP};
use crate::standin::arrow::datatypes::{DataType, Field, FieldRef, TimeUnit};
use std::sync::Arc;

const LARGE_LIST: u8 = 33;
const NULLABLE: u8 = 1;
const SORTED: u8 = 2;
const ZONED: u8 = 4;
/// Up to this many names are compared each with each, more are sorted.
const FEW: usize = 12;

const UNITS: [TimeUnit; 4] =
    [TimeUnit::Second, TimeUnit::Millisecond, TimeUnit::Microsecond, TimeUnit::Nanosecond];

/// The answer in the numbers of the archive; the work space is only measured. Never inlined,
/// since the archive's calls are not.
#[inline(never)]
pub fn ask(question: Question, sheet: &[u8], mask: u64, output: &mut [u8], work: usize) -> usize {
    let sheet = match check(sheet) {
        Ok(sheet) => sheet,
        Err(number) => return usize::from(number),
    };
    if mask & !FULL_MASK != 0 {
        return usize::from(MASK);
    }
    if question != Question::List && sheet.count(1) != 2 {
        return usize::from(PAIR);
    }
    if output.len() < sheet.bytes.len() || work < 2 * sheet.bytes.len() {
        return usize::from(SPACE);
    }
    match common_type(question, mask, &sheet.types()) {
        None => 0,
        Some(found) => write(&found, output),
    }
}

// Reading

struct Sheet<'a> {
    bytes: &'a [u8],
    labels: &'a [u8],
    records: usize,
}

/// The fields of a record.
#[derive(Clone, Copy)]
struct Record<'a>(&'a [u8; RECORD]);

impl Record<'_> {
    fn pair(self, at: usize) -> usize {
        usize::from(u16::from_le_bytes([self.0[at], self.0[at + 1]]))
    }

    fn kind(self) -> u8 {
        self.0[0]
    }

    fn has(self, flag: u8) -> bool {
        self.0[1] & flag != 0
    }

    fn scale(self) -> i8 {
        self.0[3] as i8
    }

    fn size(self) -> i32 {
        i32::from_le_bytes([self.0[4], self.0[5], self.0[6], self.0[7]])
    }

    fn first_part(self) -> usize {
        self.pair(8)
    }

    fn next(self) -> usize {
        self.pair(10)
    }

    fn name(self) -> (usize, usize) {
        (self.pair(12), usize::from(self.0[14]))
    }

    fn zone(self) -> (usize, usize) {
        (self.pair(4), usize::from(self.0[6]))
    }
}

/// Refusals 1 to 5, the lowest that applies.
fn check(bytes: &[u8]) -> Result<Sheet<'_>, u8> {
    let header: &[u8; RECORD] = bytes.first_chunk().ok_or(TORN)?;
    let (records, labels) = (Record(header).pair(0), Record(header).pair(2));
    let fits = (1..=MAX_RECORDS).contains(&records)
        && labels <= MAX_LABELS
        && bytes.len() == RECORD * records + labels
        && header[4..] == [0; 12];
    if !fits {
        return Err(TORN);
    }
    let (types, labels) = bytes.split_at(RECORD * records);
    if !types[RECORD..].chunks_exact(RECORD).all(|record| (1..=38).contains(&record[0])) {
        return Err(KIND);
    }
    let sheet = Sheet { bytes, labels, records };
    let mut walk = Walk { sheet: &sheet, met: 1, label: 0, figure_bad: false, label_bad: false };
    if records > 1 {
        walk.chain(1, 0).ok_or(CHAIN)?;
    }
    match walk {
        Walk { met, .. } if met != records => Err(CHAIN),
        Walk { figure_bad: true, .. } => Err(FIGURE),
        Walk { label_bad, label, .. } if label_bad || label != labels.len() => Err(LABEL),
        _ => Ok(sheet),
    }
}

/// A walk over a sheet, which meets records in their order, and what it has seen so far.
struct Walk<'a> {
    sheet: &'a Sheet<'a>,
    met: usize,
    label: usize,
    figure_bad: bool,
    label_bad: bool,
}

impl Walk<'_> {
    /// Walks a chain and gives its length; none where the chain is wrong.
    fn chain(&mut self, first: usize, parent: u8) -> Option<usize> {
        let is_field = matches!(parent, 32..=36 | 38);
        let mut length = 0;
        let mut at = first;
        while at != 0 {
            if at != self.met || at >= self.sheet.records {
                return None;
            }
            self.met += 1;
            length += 1;
            let record = self.sheet.record(at);
            self.figure_bad |= !figures_right(record, is_field);
            self.labels(record, is_field);
            let parts = self.chain(record.first_part(), record.kind())?;
            let due = match record.kind() {
                32..=34 | MAP => 1,
                DICTIONARY | RUN_ENDS => 2,
                STRUCT => parts,
                _ => 0,
            };
            if parts != due {
                return None;
            }
            if record.kind() == STRUCT && !self.label_bad {
                self.label_bad = self.sheet.repeats_name(record, parts);
            }
            at = record.next();
        }
        Some(length)
    }

    fn labels(&mut self, record: Record, is_field: bool) {
        if !is_field && record.name() != (0, 0) {
            self.label_bad = true;
        }
        self.place(record.name());
        if record.has(ZONED) {
            self.place(record.zone());
        }
    }

    /// A label stands where those before it end and inside; an empty one has offset 0.
    fn place(&mut self, (offset, length): (usize, usize)) {
        let due = if length == 0 { 0 } else { self.label };
        self.label += length;
        self.label_bad |= offset != due || self.label > self.sheet.labels.len();
    }
}

fn figures_right(record: Record, is_field: bool) -> bool {
    let kind = record.kind();
    let allowed = match kind {
        MAP => SORTED,
        TIMESTAMP => ZONED,
        _ => 0,
    } | u8::from(is_field);
    let figure_right = match (precision_cap(kind), kind) {
        (Some(cap), _) => {
            let (p, s) = (i32::from(record.0[2]), i32::from(record.scale()));
            (1..=i32::from(cap)).contains(&p) && s <= p.max(0) && p - s <= 127
        }
        (_, 20..=22 | 24) => record.0[2] <= 3 && record.0[3] == 0,
        (_, INTERVAL) => record.0[2] <= 2 && record.0[3] == 0,
        _ => record.0[2] == 0 && record.0[3] == 0,
    };
    let size_right = match kind {
        FIXED_SIZE_BINARY | FIXED_SIZE_LIST => record.size() >= 0,
        TIMESTAMP if record.has(ZONED) => record.0[7] == 0,
        _ => record.size() == 0,
    };
    record.0[1] & !allowed == 0 && figure_right && size_right && record.0[15] == 0
}

impl<'a> Sheet<'a> {
    fn record(&self, at: usize) -> Record<'a> {
        Record(self.bytes[RECORD * at..].first_chunk().expect("a record of the sheet"))
    }

    fn label(&self, (offset, length): (usize, usize)) -> &'a [u8] {
        &self.labels[offset..offset + length]
    }

    fn chain(&self, first: usize) -> impl Iterator<Item = Record<'a>> + '_ {
        let mut at = first;
        std::iter::from_fn(move || {
            let record = (at != 0).then(|| self.record(at))?;
            at = record.next();
            Some(record)
        })
    }

    fn count(&self, first: usize) -> usize {
        if self.records == 1 {
            return 0;
        }
        self.chain(first).count()
    }

    fn repeats_name(&self, structure: Record, parts: usize) -> bool {
        let names = self.chain(structure.first_part()).map(|part| self.label(part.name()));
        if parts <= FEW {
            let mut few = [&[][..]; FEW];
            few.iter_mut().zip(names).for_each(|(place, name)| *place = name);
            return (1..parts).any(|at| few[..at].contains(&few[at]));
        }
        let mut names: Vec<&[u8]> = names.collect();
        names.sort_unstable();
        names.windows(2).any(|two| two[0] == two[1])
    }

    fn types(&self) -> Vec<DataType> {
        let mut types = Vec::with_capacity(self.count(1));
        if self.records > 1 {
            types.extend(self.chain(1).map(|record| self.data_type(record)));
        }
        types
    }

    fn field(&self, record: Record) -> FieldRef {
        let name = text(self.label(record.name()));
        Arc::new(Field::new(name, self.data_type(record), record.has(NULLABLE)))
    }

    fn data_type(&self, record: Record) -> DataType {
        use DataType::*;
        let part = || self.field(self.record(record.first_part()));
        let second = || self.record(self.record(record.first_part()).next());
        match record.kind() {
            TIMESTAMP => Timestamp(UNITS[usize::from(record.0[2])], self.zone(record)),
            FIXED_SIZE_BINARY => FixedSizeBinary(record.size()),
            LIST => List(part()),
            LARGE_LIST => LargeList(part()),
            FIXED_SIZE_LIST => FixedSizeList(part(), record.size()),
            MAP => Map(part(), record.has(SORTED)),
            STRUCT => {
                let mut fields = Vec::with_capacity(self.count(record.first_part()));
                fields.extend(self.chain(record.first_part()).map(|part| self.field(part)));
                Struct(fields.into())
            }
            DICTIONARY => {
                let index = self.data_type(self.record(record.first_part()));
                Dictionary(Box::new(index), Box::new(self.data_type(second())))
            }
            RUN_ENDS => RunEndEncoded(part(), self.field(second())),
            kind => plain_of(kind, record.0[2], record.scale()),
        }
    }

    fn zone(&self, record: Record) -> Option<Arc<str>> {
        record.has(ZONED).then(|| text(self.label(record.zone())).into())
    }
}

/// The oracle's text of a label, without a detour where it is the same bytes.
fn text(label: &[u8]) -> String {
    match std::str::from_utf8(label) {
        Ok(text) if text.is_ascii() => text.to_string(),
        _ => text_of(label),
    }
}

// Writing

/// Writes the one-type sheet to the front of the output and gives its length.
fn write(found: &DataType, output: &mut [u8]) -> usize {
    let (mut records, mut labels) = (1, 0);
    add_size(found, "", &mut records, &mut labels);
    let (head, tail) = output[..RECORD * records + labels].split_at_mut(RECORD * records);
    head[..RECORD].fill(0);
    head[..2].copy_from_slice(&(records as u16).to_le_bytes());
    head[2..4].copy_from_slice(&(labels as u16).to_le_bytes());
    let mut writer = Writer { records: head, labels: tail, next: 1, label: 0 };
    writer.put(found, "", false);
    RECORD * records + labels
}

/// Calls `each` with every part of a type: its name, its type, its nullability.
fn each_part<'t>(found: &'t DataType, mut each: impl FnMut(&'t str, &'t DataType, bool)) {
    use DataType::*;
    let mut field = |part: &'t FieldRef| each(part.name(), part.data_type(), part.is_nullable());
    match found {
        List(part) | LargeList(part) | FixedSizeList(part, _) | Map(part, _) => field(part),
        Struct(fields) => fields.iter().for_each(field),
        RunEndEncoded(ends, values) => {
            field(ends);
            field(values);
        }
        Dictionary(index, value) => {
            each("", index, false);
            each("", value, false);
        }
        _ => {}
    }
}

fn length_of(text: &str) -> usize {
    if text.is_ascii() {
        text.len()
    } else {
        text.chars().count()
    }
}

fn add_size(found: &DataType, name: &str, records: &mut usize, labels: &mut usize) {
    *records += 1;
    *labels += length_of(name);
    if let DataType::Timestamp(_, Some(zone)) = found {
        *labels += length_of(zone);
    }
    each_part(found, |name, part, _| add_size(part, name, records, labels));
}

struct Writer<'a> {
    records: &'a mut [u8],
    labels: &'a mut [u8],
    next: usize,
    label: usize,
}

impl Writer<'_> {
    fn put(&mut self, found: &DataType, name: &str, nullable: bool) {
        let at = RECORD * self.next;
        self.next += 1;
        let mut record = head(found);
        record[1] |= u8::from(nullable);
        let (offset, length) = self.put_label(name);
        record[12..14].copy_from_slice(&offset.to_le_bytes());
        record[14] = length;
        if let DataType::Timestamp(_, Some(zone)) = found {
            let (offset, length) = self.put_label(zone);
            record[4..6].copy_from_slice(&offset.to_le_bytes());
            record[6] = length;
        }
        self.records[at..at + RECORD].copy_from_slice(&record);
        let mut link = at + 8;
        each_part(found, |name, part, nullable| {
            let first = self.next;
            self.records[link..link + 2].copy_from_slice(&(first as u16).to_le_bytes());
            self.put(part, name, nullable);
            link = RECORD * first + 10;
        });
    }

    fn put_label(&mut self, text: &str) -> (u16, u8) {
        let (from, length) = (self.label, length_of(text));
        if length == 0 {
            return (0, 0);
        }
        self.label += length;
        let label = &mut self.labels[from..from + length];
        if text.is_ascii() {
            label.copy_from_slice(text.as_bytes());
        } else {
            label.iter_mut().zip(text.chars()).for_each(|(byte, c)| *byte = c as u8);
        }
        (from as u16, length as u8)
    }
}
