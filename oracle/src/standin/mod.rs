//! Stand-ins for the crates that the source names, with just as much as it names. What a function of
//! arrow is taken to mean stands in docs/RULES.md, under the readings that were decided.

#![allow(dead_code)]

pub mod arrow;
pub mod datafusion_common;
pub mod itertools;
pub mod operator;

/// What the source finds at the roots of `arrow`, `datafusion_common` and `itertools`, and
/// in its own crate.
pub mod names {
    pub use super::arrow::{array, compute, datatypes, error};
    pub(crate) use super::datafusion_common::{
        exec_err, internal_err, not_impl_err, plan_datafusion_err, plan_err,
    };
    pub use super::datafusion_common::{Diagnostic, Result, Span, Spans};
    pub use super::itertools::Itertools;
    pub use super::operator;
}
