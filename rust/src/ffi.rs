//! The archive's three functions, and the only unsafe code of this crate.
#![allow(unsafe_code)]

/// A slice crosses as its pointer and its length.
type Export = unsafe extern "C" fn(
    sheet: *const u8,
    sheet_len: usize,
    mask: u64,
    output: *mut u8,
    output_len: usize,
    work: *mut u8,
    work_len: usize,
) -> usize;

macro_rules! exports {
    ($($name:ident),*) => {
        extern "C" {
            $(fn $name(
                sheet: *const u8,
                sheet_len: usize,
                mask: u64,
                output: *mut u8,
                output_len: usize,
                work: *mut u8,
                work_len: usize,
            ) -> usize;)*
        }
    };
}

exports!(
    pemzhulaq_type_union_resolution,
    pemzhulaq_type_union_coercion,
    pemzhulaq_comparison_coercion
);

/// One of the three exports. The field is private, so no other function can stand in it.
#[derive(Clone, Copy)]
pub(crate) struct Call(Export);

pub(crate) const LIST: Call = Call(pemzhulaq_type_union_resolution);
pub(crate) const UNION: Call = Call(pemzhulaq_type_union_coercion);
pub(crate) const COMPARE: Call = Call(pemzhulaq_comparison_coercion);

impl Call {
    /// The number that the archive answers: 0, a refusal number below 32, or a byte length.
    pub(crate) fn ask(self, sheet: &[u8], mask: u64, output: &mut [u8], work: &mut [u8]) -> usize {
        // SAFETY: each pointer comes from a slice and goes with that slice's length, so it is not
        // null and its bytes may be read, and for the two mutable ones written, during the call;
        // the borrows keep the three apart. The exports have no `requires`: their contracts hold
        // for all bytes, masks and lengths, and they keep no pointer.
        unsafe {
            (self.0)(
                sheet.as_ptr(),
                sheet.len(),
                mask,
                output.as_mut_ptr(),
                output.len(),
                work.as_mut_ptr(),
                work.len(),
            )
        }
    }
}
