//! The three calls over raw sheets and lent buffers. Nothing here allocates.

use crate::ffi::{self, Call};
use crate::{Mask, Refusal};

/// A one-type sheet has at least this many bytes; the archive's smaller numbers are refusals.
const LEAST_TYPE: usize = 32;

/// What a call that was not refused answers.
#[derive(Clone, Copy, Debug, PartialEq, Eq)]
pub enum Answer<'a> {
    /// There is no common type. No byte of the output has changed.
    None,
    /// The one-type sheet of the common type: the front of the output. Later bytes are unchanged.
    Type(&'a [u8]),
}

/// The common type of any number of listed types (list).
///
/// The output needs as many bytes as the sheet, the work space twice as many; more do no harm.
/// After an answer the first 2 × sheet-length bytes of the work space are zero; after a refusal
/// no byte of either has changed.
///
/// ```
/// use pemzhulaq::{raw, sheet, Answer, DataType, Mask};
/// let sheet = sheet::encode(&[DataType::UInt32, DataType::Int8]).unwrap();
/// let (mut output, mut work) = ([0; 48], [0; 96]);
/// let answer = raw::type_union_resolution(&sheet, Mask::ALL, &mut output, &mut work);
/// let int64 = sheet::encode(&[DataType::Int64]).unwrap();
/// assert_eq!(answer, Ok(Answer::Type(&int64)));
/// ```
pub fn type_union_resolution<'a>(
    sheet: &[u8],
    mask: Mask,
    output: &'a mut [u8],
    work: &mut [u8],
) -> Result<Answer<'a>, Refusal> {
    call(ffi::LIST, sheet, mask, output, work)
}

/// The common type of exactly two listed types in a union, left then right (union).
///
/// Buffers are as in [`type_union_resolution`].
pub fn type_union_coercion<'a>(
    sheet: &[u8],
    mask: Mask,
    output: &'a mut [u8],
    work: &mut [u8],
) -> Result<Answer<'a>, Refusal> {
    call(ffi::UNION, sheet, mask, output, work)
}

/// The type that exactly two listed types are compared as, left then right (compare).
///
/// Buffers are as in [`type_union_resolution`].
pub fn comparison_coercion<'a>(
    sheet: &[u8],
    mask: Mask,
    output: &'a mut [u8],
    work: &mut [u8],
) -> Result<Answer<'a>, Refusal> {
    call(ffi::COMPARE, sheet, mask, output, work)
}

fn call<'a>(
    call: Call,
    sheet: &[u8],
    mask: Mask,
    output: &'a mut [u8],
    work: &mut [u8],
) -> Result<Answer<'a>, Refusal> {
    match call.ask(sheet, mask.bits(), output, work) {
        0 => Ok(Answer::None),
        number if number < LEAST_TYPE => Err(Refusal::from_number(number)
            .unwrap_or_else(|| panic!("the archive answered a refusal {number} that is unknown"))),
        length => Ok(Answer::Type(&output[..length])),
    }
}
