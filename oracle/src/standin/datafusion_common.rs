//! Errors, spans and error macros, as far as the source names them.
//! The three answers of the port use none of them.

use std::fmt;

#[derive(Debug)]
pub struct DataFusionError(pub String);

impl DataFusionError {
    pub fn with_diagnostic(self, _diagnostic: Diagnostic) -> Self {
        self
    }
}

impl fmt::Display for DataFusionError {
    fn fmt(&self, f: &mut fmt::Formatter<'_>) -> fmt::Result {
        f.write_str(&self.0)
    }
}

pub type Result<T> = std::result::Result<T, DataFusionError>;

#[derive(Debug, Clone, Copy)]
pub struct Span;

impl Span {
    pub fn union_iter<I: IntoIterator<Item = Span>>(spans: I) -> Option<Span> {
        spans.into_iter().next()
    }
}

#[derive(Debug, Clone, Default)]
pub struct Spans;

impl Spans {
    pub fn new() -> Self {
        Spans
    }

    pub fn first(&self) -> Option<Span> {
        None
    }
}

pub struct Diagnostic;

impl Diagnostic {
    pub fn new_error(_message: &str, _span: Option<Span>) -> Self {
        Diagnostic
    }

    pub fn with_note(self, _message: String, _span: Option<Span>) -> Self {
        self
    }
}

macro_rules! plan_datafusion_err {
    ($($part:tt)*) => {
        $crate::standin::datafusion_common::DataFusionError(format!($($part)*))
    };
}

macro_rules! plan_err {
    ($($part:tt)*) => {
        Err($crate::standin::datafusion_common::DataFusionError(format!($($part)*)))
    };
}

pub(crate) use plan_datafusion_err;
pub(crate) use plan_err;
pub(crate) use plan_err as exec_err;
pub(crate) use plan_err as internal_err;
pub(crate) use plan_err as not_impl_err;
