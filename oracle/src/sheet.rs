//! Sheets: reading with refusals 1 to 5, and writing, one more reading of docs/FORMAT.md.

use crate::standin::arrow::datatypes::{DataType, Field, FieldRef, IntervalUnit, TimeUnit};
use std::sync::Arc;

/// The bytes of a record.
pub const RECORD: usize = 16;
/// The most records of a sheet, the header among them.
pub const MAX_RECORDS: usize = 1024;
/// The most label bytes of a sheet.
pub const MAX_LABELS: usize = 16384;

/// Refusal number: the bytes are no header, records and labels.
pub const TORN: u8 = 1;
/// Refusal number: a kind outside 1 to 38.
pub const KIND: u8 = 2;
/// Refusal number: the walk or a number of parts is wrong.
pub const CHAIN: u8 = 3;
/// Refusal number: a precision, scale, unit, size, flag or unused byte is wrong.
pub const FIGURE: u8 = 4;
/// Refusal number: a label is wrong, or two fields of a Struct have one name.
pub const LABEL: u8 = 5;

const NULLABLE: u8 = 1;
const SORTED: u8 = 2;
const ZONED: u8 = 4;

pub const TIMESTAMP: u8 = 22;
pub const INTERVAL: u8 = 23;
pub const FIXED_SIZE_BINARY: u8 = 31;
pub const LIST: u8 = 32;
pub const FIXED_SIZE_LIST: u8 = 34;
pub const STRUCT: u8 = 35;
pub const MAP: u8 = 36;
pub const DICTIONARY: u8 = 37;
pub const RUN_ENDS: u8 = 38;

const UNITS: [TimeUnit; 4] =
    [TimeUnit::Second, TimeUnit::Millisecond, TimeUnit::Microsecond, TimeUnit::Nanosecond];
const INTERVALS: [IntervalUnit; 3] =
    [IntervalUnit::YearMonth, IntervalUnit::DayTime, IntervalUnit::MonthDayNano];

/// The kind number of a type.
pub fn kind_of(data_type: &DataType) -> u8 {
    use DataType::*;
    match data_type {
        Null => 1,
        Boolean => 2,
        Int8 => 3,
        Int16 => 4,
        Int32 => 5,
        Int64 => 6,
        UInt8 => 7,
        UInt16 => 8,
        UInt32 => 9,
        UInt64 => 10,
        Float16 => 11,
        Float32 => 12,
        Float64 => 13,
        Decimal32(..) => 14,
        Decimal64(..) => 15,
        Decimal128(..) => 16,
        Decimal256(..) => 17,
        Date32 => 18,
        Date64 => 19,
        Time32(_) => 20,
        Time64(_) => 21,
        Timestamp(..) => TIMESTAMP,
        Interval(_) => INTERVAL,
        Duration(_) => 24,
        Utf8 => 25,
        LargeUtf8 => 26,
        Utf8View => 27,
        Binary => 28,
        LargeBinary => 29,
        BinaryView => 30,
        FixedSizeBinary(_) => FIXED_SIZE_BINARY,
        List(_) => LIST,
        LargeList(_) => 33,
        FixedSizeList(..) => FIXED_SIZE_LIST,
        Struct(_) => STRUCT,
        Map(..) => MAP,
        Dictionary(..) => DICTIONARY,
        RunEndEncoded(..) => RUN_ENDS,
        Union(..) => unreachable!("a sheet has no Union"),
    }
}

/// The greatest precision of a decimal kind.
pub fn precision_cap(kind: u8) -> Option<u8> {
    match kind {
        14 => Some(9),
        15 => Some(18),
        16 => Some(38),
        17 => Some(76),
        _ => None,
    }
}

/// Whether parts of this kind may be nullable and may have a name.
fn has_fields(kind: u8) -> bool {
    matches!(kind, 32..=36 | 38)
}

/// How many parts a kind has; none where any number will do.
fn part_count(kind: u8) -> Option<usize> {
    match kind {
        32..=34 | MAP => Some(1),
        DICTIONARY | RUN_ENDS => Some(2),
        STRUCT => None,
        _ => Some(0),
    }
}

/// Labels are plain bytes and the source's names are text: one character for each byte.
/// The source asks only whether two names are equal, which this keeps.
pub fn text_of(label: &[u8]) -> String {
    label.iter().map(|&byte| byte as char).collect()
}

fn bytes_of(text: &str) -> Vec<u8> {
    text.chars().map(|c| u8::try_from(u32::from(c)).expect("one byte for each character")).collect()
}

// Reading

/// A sheet whose length, limits and header are right; records are read by number.
struct Sheet<'a> {
    bytes: &'a [u8],
    records: usize,
}

impl<'a> Sheet<'a> {
    fn open(bytes: &'a [u8]) -> Option<Self> {
        if bytes.len() < RECORD {
            return None;
        }
        let records = usize::from(u16::from_le_bytes([bytes[0], bytes[1]]));
        let labels = usize::from(u16::from_le_bytes([bytes[2], bytes[3]]));
        let fits = (1..=MAX_RECORDS).contains(&records)
            && labels <= MAX_LABELS
            && bytes.len() == RECORD * records + labels
            && bytes[4..RECORD].iter().all(|&b| b == 0);
        fits.then_some(Sheet { bytes, records })
    }

    fn byte(&self, record: usize, at: usize) -> u8 {
        self.bytes[RECORD * record + at]
    }

    fn pair(&self, record: usize, at: usize) -> usize {
        usize::from(u16::from_le_bytes([self.byte(record, at), self.byte(record, at + 1)]))
    }

    fn kind(&self, record: usize) -> u8 {
        self.byte(record, 0)
    }

    fn flag(&self, record: usize, bit: u8) -> bool {
        self.byte(record, 1) & bit != 0
    }

    fn figure(&self, record: usize) -> u8 {
        self.byte(record, 2)
    }

    fn scale(&self, record: usize) -> i8 {
        self.byte(record, 3) as i8
    }

    fn size(&self, record: usize) -> i32 {
        let at = RECORD * record + 4;
        i32::from_le_bytes(self.bytes[at..at + 4].try_into().expect("four bytes"))
    }

    fn first_part(&self, record: usize) -> usize {
        self.pair(record, 8)
    }

    fn next(&self, record: usize) -> usize {
        self.pair(record, 10)
    }

    fn name_place(&self, record: usize) -> (usize, usize) {
        (self.pair(record, 12), usize::from(self.byte(record, 14)))
    }

    fn zone_place(&self, record: usize) -> (usize, usize) {
        (self.pair(record, 4), usize::from(self.byte(record, 6)))
    }

    fn labels(&self) -> &'a [u8] {
        &self.bytes[RECORD * self.records..]
    }

    fn label(&self, (offset, length): (usize, usize)) -> &'a [u8] {
        &self.labels()[offset..offset + length]
    }

    fn chain(&self, first: usize) -> Vec<usize> {
        let mut records = Vec::new();
        let mut record = first;
        while record != 0 {
            records.push(record);
            record = self.next(record);
        }
        records
    }

    /// The parent of each record (0 for a listed type), where the walk and the numbers of
    /// parts are right.
    fn parents(&self) -> Option<Vec<usize>> {
        let mut parents = vec![0];
        if self.records > 1 {
            self.walk(1, 0, &mut parents)?;
        }
        (parents.len() == self.records).then_some(parents)
    }

    /// Walks a chain and gives its length; the records met so far stand in `parents`.
    fn walk(&self, first: usize, parent: usize, parents: &mut Vec<usize>) -> Option<usize> {
        let mut length = 0;
        let mut record = first;
        while record != 0 {
            if record != parents.len() || record >= self.records {
                return None;
            }
            parents.push(parent);
            length += 1;
            let parts = self.walk(self.first_part(record), record, parents)?;
            if part_count(self.kind(record)).is_some_and(|count| count != parts) {
                return None;
            }
            record = self.next(record);
        }
        Some(length)
    }

    fn figures_right(&self, record: usize, is_field: bool) -> bool {
        self.flags_right(record, is_field)
            && self.figure_right(record)
            && self.size_right(record)
            && self.byte(record, 15) == 0
    }

    fn flags_right(&self, record: usize, is_field: bool) -> bool {
        let mut allowed = 0;
        if is_field {
            allowed |= NULLABLE;
        }
        if self.kind(record) == MAP {
            allowed |= SORTED;
        }
        if self.kind(record) == TIMESTAMP {
            allowed |= ZONED;
        }
        self.byte(record, 1) & !allowed == 0
    }

    /// Bytes 2 and 3: precision and scale, or a unit, or unused.
    fn figure_right(&self, record: usize) -> bool {
        let figure = self.figure(record);
        if let Some(cap) = precision_cap(self.kind(record)) {
            return decimal_right(cap, figure, self.scale(record));
        }
        let greatest = match self.kind(record) {
            20..=22 | 24 => 3,
            INTERVAL => 2,
            _ => 0,
        };
        figure <= greatest && self.scale(record) == 0
    }

    /// Bytes 4 to 7: a size, or the place of a zone and a zero, or unused.
    fn size_right(&self, record: usize) -> bool {
        match self.kind(record) {
            FIXED_SIZE_BINARY | FIXED_SIZE_LIST => self.size(record) >= 0,
            TIMESTAMP if self.flag(record, ZONED) => self.byte(record, 7) == 0,
            _ => self.size(record) == 0,
        }
    }

    /// Every label in its place, none where none may be, and all label bytes used.
    fn labels_right(&self, is_field: &[bool]) -> bool {
        let mut at = 0;
        for (record, &is_field) in is_field.iter().enumerate().skip(1) {
            if !is_field && self.name_place(record) != (0, 0) {
                return false;
            }
            if !passes(&mut at, self.name_place(record)) {
                return false;
            }
            if self.flag(record, ZONED) && !passes(&mut at, self.zone_place(record)) {
                return false;
            }
        }
        at == self.labels().len()
    }

    /// Names in one Struct differ; asked only where every label is in its place.
    fn names_differ(&self, record: usize) -> bool {
        let parts = self.chain(self.first_part(record));
        let mut names: Vec<&[u8]> =
            parts.iter().map(|&part| self.label(self.name_place(part))).collect();
        names.sort_unstable();
        names.windows(2).all(|two| two[0] != two[1])
    }

    fn types(&self, first: usize) -> Vec<DataType> {
        self.chain(first).into_iter().map(|record| self.data_type(record)).collect()
    }

    fn fields(&self, record: usize) -> Vec<FieldRef> {
        let parts = self.chain(self.first_part(record)).into_iter();
        parts.map(|part| self.field(part)).collect()
    }

    fn field(&self, record: usize) -> FieldRef {
        let name = text_of(self.label(self.name_place(record)));
        Arc::new(Field::new(name, self.data_type(record), self.flag(record, NULLABLE)))
    }

    fn data_type(&self, record: usize) -> DataType {
        use DataType::*;
        let kind = self.kind(record);
        match kind {
            FIXED_SIZE_BINARY => FixedSizeBinary(self.size(record)),
            TIMESTAMP => Timestamp(UNITS[usize::from(self.figure(record))], self.zone(record)),
            32..=36 | RUN_ENDS => self.with_fields(record),
            DICTIONARY => {
                let mut parts = self.types(self.first_part(record)).into_iter();
                Dictionary(boxed(parts.next()), boxed(parts.next()))
            }
            _ => plain_of(kind, self.figure(record), self.scale(record)),
        }
    }

    fn with_fields(&self, record: usize) -> DataType {
        use DataType::*;
        let mut fields = self.fields(record);
        match self.kind(record) {
            STRUCT => Struct(fields.into()),
            RUN_ENDS => {
                let values = fields.pop().expect("two parts");
                RunEndEncoded(fields.pop().expect("two parts"), values)
            }
            kind => {
                let part = fields.pop().expect("one part");
                match kind {
                    LIST => List(part),
                    33 => LargeList(part),
                    FIXED_SIZE_LIST => FixedSizeList(part, self.size(record)),
                    _ => Map(part, self.flag(record, SORTED)),
                }
            }
        }
    }

    fn zone(&self, record: usize) -> Option<Arc<str>> {
        let place = self.zone_place(record);
        self.flag(record, ZONED).then(|| text_of(self.label(place)).into())
    }
}

fn boxed(data_type: Option<DataType>) -> Box<DataType> {
    Box::new(data_type.expect("two parts"))
}

fn decimal_right(cap: u8, precision: u8, scale: i8) -> bool {
    let (p, s) = (i32::from(precision), i32::from(scale));
    (1..=i32::from(cap)).contains(&p) && (s <= 0 || s <= p) && p - s <= 127
}

/// Whether a label stands where the labels before it end; an empty one has offset 0.
fn passes(at: &mut usize, (offset, length): (usize, usize)) -> bool {
    let place = if length == 0 { 0 } else { *at };
    *at += length;
    offset == place
}

/// A type of a kind without parts, from its bytes 2 and 3; no zone, size 0.
pub fn plain_of(kind: u8, figure: u8, scale: i8) -> DataType {
    use DataType::*;
    let unit = || UNITS[usize::from(figure)];
    match kind {
        1 => Null,
        2 => Boolean,
        3 => Int8,
        4 => Int16,
        5 => Int32,
        6 => Int64,
        7 => UInt8,
        8 => UInt16,
        9 => UInt32,
        10 => UInt64,
        11 => Float16,
        12 => Float32,
        13 => Float64,
        14 => Decimal32(figure, scale),
        15 => Decimal64(figure, scale),
        16 => Decimal128(figure, scale),
        17 => Decimal256(figure, scale),
        18 => Date32,
        19 => Date64,
        20 => Time32(unit()),
        21 => Time64(unit()),
        22 => Timestamp(unit(), None),
        23 => Interval(INTERVALS[usize::from(figure)]),
        24 => Duration(unit()),
        25 => Utf8,
        26 => LargeUtf8,
        27 => Utf8View,
        28 => Binary,
        29 => LargeBinary,
        30 => BinaryView,
        31 => FixedSizeBinary(0),
        _ => unreachable!("kind {kind} has parts"),
    }
}

/// The parent of each record of a sheet whose walk is right.
pub fn parents_of(bytes: &[u8]) -> Option<Vec<usize>> {
    Sheet::open(bytes)?.parents()
}

/// The listed types of a sheet, or the lowest refusal number from 1 to 5 that applies.
pub fn read(bytes: &[u8]) -> Result<Vec<DataType>, u8> {
    let sheet = Sheet::open(bytes).ok_or(TORN)?;
    let records = 1..sheet.records;
    if !records.clone().all(|record| (1..=38).contains(&sheet.kind(record))) {
        return Err(KIND);
    }
    let parents = sheet.parents().ok_or(CHAIN)?;
    let is_field: Vec<bool> =
        parents.iter().map(|&parent| parent != 0 && has_fields(sheet.kind(parent))).collect();
    if !records.clone().all(|record| sheet.figures_right(record, is_field[record])) {
        return Err(FIGURE);
    }
    if !sheet.labels_right(&is_field) {
        return Err(LABEL);
    }
    let mut structs = records.filter(|&record| sheet.kind(record) == STRUCT);
    if !structs.all(|record| sheet.names_differ(record)) {
        return Err(LABEL);
    }
    Ok(sheet.types(usize::from(sheet.records > 1)))
}

// Writing

struct Writer {
    records: Vec<[u8; RECORD]>,
    labels: Vec<u8>,
}

impl Writer {
    fn chain<'a>(&mut self, members: impl Iterator<Item = Member<'a>>) -> u16 {
        let mut first = 0;
        let mut last = None;
        for member in members {
            let record = self.records.len();
            match last {
                None => first = record,
                Some(before) => set_pair(&mut self.records[before], 10, record),
            }
            self.member(&member);
            last = Some(record);
        }
        u16::try_from(first).expect("a record number")
    }

    fn member(&mut self, member: &Member) {
        let mut record = head(member.data_type);
        record[1] |= if member.nullable { NULLABLE } else { 0 };
        let (offset, length) = self.add_label(member.name);
        set_pair(&mut record, 12, offset);
        record[14] = length;
        if let DataType::Timestamp(_, Some(zone)) = member.data_type {
            let (offset, length) = self.add_label(zone);
            set_pair(&mut record, 4, offset);
            record[6] = length;
        }
        let at = self.records.len();
        self.records.push(record);
        let first = self.chain(members_of(member.data_type).into_iter());
        set_pair(&mut self.records[at], 8, usize::from(first));
    }

    fn add_label(&mut self, text: &str) -> (usize, u8) {
        let label = bytes_of(text);
        let offset = if label.is_empty() { 0 } else { self.labels.len() };
        self.labels.extend_from_slice(&label);
        (offset, u8::try_from(label.len()).expect("a label of at most 255 bytes"))
    }
}

/// A type with the name and nullability that it has where it stands.
struct Member<'a> {
    name: &'a str,
    nullable: bool,
    data_type: &'a DataType,
}

fn bare(data_type: &DataType) -> Member<'_> {
    Member { name: "", nullable: false, data_type }
}

fn named(field: &FieldRef) -> Member<'_> {
    Member { name: field.name(), nullable: field.is_nullable(), data_type: field.data_type() }
}

fn members_of(data_type: &DataType) -> Vec<Member<'_>> {
    use DataType::*;
    match data_type {
        List(part) | LargeList(part) | FixedSizeList(part, _) | Map(part, _) => vec![named(part)],
        Struct(fields) => fields.iter().map(named).collect(),
        Dictionary(index, value) => vec![bare(index), bare(value)],
        RunEndEncoded(run_ends, values) => vec![named(run_ends), named(values)],
        _ => vec![],
    }
}

/// What a record says of its type by itself.
pub fn head(data_type: &DataType) -> [u8; RECORD] {
    use DataType::*;
    let mut record = [0; RECORD];
    record[0] = kind_of(data_type);
    match data_type {
        Decimal32(p, s) | Decimal64(p, s) | Decimal128(p, s) | Decimal256(p, s) => {
            record[2] = *p;
            record[3] = *s as u8;
        }
        Time32(unit) | Time64(unit) | Duration(unit) => record[2] = *unit as u8,
        Timestamp(unit, zone) => {
            record[1] = if zone.is_some() { ZONED } else { 0 };
            record[2] = *unit as u8;
        }
        Interval(unit) => record[2] = *unit as u8,
        FixedSizeBinary(size) | FixedSizeList(_, size) => {
            record[4..8].copy_from_slice(&size.to_le_bytes());
        }
        Map(_, sorted) => record[1] = if *sorted { SORTED } else { 0 },
        _ => {}
    }
    record
}

fn set_pair(record: &mut [u8; RECORD], at: usize, value: usize) {
    let value = u16::try_from(value).expect("two bytes");
    record[at..at + 2].copy_from_slice(&value.to_le_bytes());
}

/// The one spelling of a list of types, or nothing where it has more records or label
/// bytes than a sheet may carry.
pub fn write(types: &[DataType]) -> Option<Vec<u8>> {
    let mut writer = Writer { records: vec![[0; RECORD]], labels: Vec::new() };
    let (records, labels) = size_of(types);
    if records > MAX_RECORDS || labels > MAX_LABELS {
        return None;
    }
    writer.chain(types.iter().map(bare));
    let header = &mut writer.records[0];
    set_pair(header, 0, records);
    set_pair(header, 2, labels);
    let mut bytes: Vec<u8> = writer.records.concat();
    bytes.extend_from_slice(&writer.labels);
    Some(bytes)
}

/// Records with the header, and label bytes, of the sheet of these types.
pub fn size_of(types: &[DataType]) -> (usize, usize) {
    let mut size = (1, 0);
    for data_type in types {
        add_size(&bare(data_type), &mut size);
    }
    size
}

fn add_size(member: &Member, size: &mut (usize, usize)) {
    size.0 += 1;
    size.1 += member.name.chars().count();
    if let DataType::Timestamp(_, Some(zone)) = member.data_type {
        size.1 += zone.chars().count();
    }
    for part in members_of(member.data_type) {
        add_size(&part, size);
    }
}
