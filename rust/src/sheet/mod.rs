//! Sheets: the one spelling of a list of types as bytes.
//!
//! Integers are little-endian. A sheet is n records of 16 bytes and then m bytes of labels. Record
//! 0 is the header, with n in bytes 0–1 and m in 2–3. Every other record is one type: a record,
//! then its parts, then the next record of its chain.
//!
//! ```
//! use pemzhulaq::{sheet, DataType, Refusal};
//! let types = [DataType::Int64, DataType::Decimal128(7, 2)];
//! let bytes = sheet::encode(&types).unwrap();
//! assert_eq!(bytes.len(), 48);
//! assert_eq!(sheet::decode(&bytes).unwrap(), types);
//! assert_eq!(sheet::decode(&bytes[1..]), Err(Refusal::Torn));
//! ```

mod decode;
mod encode;
mod view;

pub use crate::head::BadFigure;
pub use decode::decode;
pub(crate) use encode::encode_all;
pub use encode::{encode, EncodeError};

/// The bytes of a record.
pub const RECORD: usize = 16;
/// The greatest number of records, the header included.
pub const MAX_RECORDS: usize = 1024;
/// The greatest number of label bytes.
pub const MAX_LABELS: usize = 16384;
/// The greatest number of bytes of one name or zone.
pub const MAX_LABEL: usize = 255;
/// No sheet has more bytes than this.
pub const MAX_SHEET: usize = RECORD * MAX_RECORDS + MAX_LABELS;

/// Bits of byte 1.
const NULLABLE: u8 = 1;
const SORTED: u8 = 2;
const ZONED: u8 = 4;
