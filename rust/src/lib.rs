//! The common type of Arrow types, answered by a proved library.
//!
//! Three questions: the common type of a list of types ([`coerce::list`]), of two types in a union
//! ([`coerce::union`]), and of two types that are compared ([`coerce::compare`]). The answers come
//! from the archive `libpemzhulaq.a`, which is proved to meet its contracts; this crate is plain
//! Rust around it.
//!
//! ```
//! use pemzhulaq::{coerce, DataType, Mask};
//! let ours: DataType = "Struct(cases: Int64, loose: Int64)".parse()?;
//! let till: DataType = "Struct(pieces: Decimal128(7, 2), cases: Int32)".parse()?;
//! let common = coerce::union(&ours, &till, Mask::ALL)?.expect("they have a common type");
//! assert_eq!(common.to_string(), "Struct(cases: Decimal128(22, 2), loose: Int64)");
//! # Ok::<(), Box<dyn std::error::Error>>(())
//! ```
//!
//! - [`coerce`]: types in, the common type out.
//! - [`pairing`]: which fields of two Structs are matched by place, of which no answer tells.
//! - [`DataType`], [`Field`], [`notation`]: types as an enum, and as text.
//! - [`sheet`]: types as bytes, both ways.
//! - [`raw`]: the calls over bytes and lent buffers, without any allocation.
//!
//! A call uses up to 1.25 MiB of stack for the deepest sheets (measured, not proved); the threads of
//! Rust's standard library have 2 MiB.

pub mod coerce;
pub mod notation;
pub mod pairing;
pub mod raw;
pub mod sheet;

mod data_type;
mod ffi;
mod head;
mod kind;
mod label;
mod mask;
mod refusal;

pub use data_type::{DataType, Field, IntervalUnit, TimeUnit};
pub use kind::Kind;
pub use label::Label;
pub use mask::Mask;
pub use raw::Answer;
pub use refusal::Refusal;
