//! The port's three calls, from its archive.

use crate::call::Question;

macro_rules! exported {
    ($($name:ident $symbol:ident)*) => {
        extern "C" {
            $(fn $symbol(
                sheet: *const u8,
                sheet_len: usize,
                mask: u64,
                output: *mut u8,
                output_len: usize,
                work: *mut u8,
                work_len: usize,
            ) -> usize;)*
        }

        // Slices cross as pointer and length; Rust's borrows see that the three do not overlap.
        $(pub fn $name(sheet: &[u8], mask: u64, output: &mut [u8], work: &mut [u8]) -> usize {
            unsafe {
                $symbol(
                    sheet.as_ptr(),
                    sheet.len(),
                    mask,
                    output.as_mut_ptr(),
                    output.len(),
                    work.as_mut_ptr(),
                    work.len(),
                )
            }
        })*
    };
}

exported! {
    type_union_resolution pemzhulaq_type_union_resolution
    type_union_coercion pemzhulaq_type_union_coercion
    comparison_coercion pemzhulaq_comparison_coercion
}

/// 0 for none, 1 to 31 a refusal number, from 32 on the length of the answer's sheet.
pub fn ask(
    question: Question,
    sheet: &[u8],
    mask: u64,
    output: &mut [u8],
    work: &mut [u8],
) -> usize {
    match question {
        Question::List => type_union_resolution(sheet, mask, output, work),
        Question::Union => type_union_coercion(sheet, mask, output, work),
        Question::Compare => comparison_coercion(sheet, mask, output, work),
    }
}
