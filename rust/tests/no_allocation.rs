//! The raw calls allocate nothing.
#![allow(unsafe_code)]

use pemzhulaq::{raw, sheet, Answer, DataType, Mask, Refusal};
use std::alloc::{GlobalAlloc, Layout, System};
use std::cell::Cell;

struct Counting;

thread_local! {
    /// The allocations of this thread; the harness has another.
    static COUNT: Cell<usize> = const { Cell::new(0) };
}

// SAFETY: every call is handed on to the system's allocator as it came.
unsafe impl GlobalAlloc for Counting {
    unsafe fn alloc(&self, layout: Layout) -> *mut u8 {
        COUNT.set(COUNT.get() + 1);
        System.alloc(layout)
    }

    unsafe fn dealloc(&self, pointer: *mut u8, layout: Layout) {
        System.dealloc(pointer, layout)
    }
}

#[global_allocator]
static ALLOCATOR: Counting = Counting;

#[test]
fn raw_calls_allocate_nothing() {
    let types = ["Struct(a: Int8, b: Utf8)", "Struct(b: Utf8View, a: Int16)"];
    let types: Vec<DataType> = types.iter().map(|text| text.parse().unwrap()).collect();
    let bytes = sheet::encode(&types).unwrap();
    let (mut output, mut work) = (vec![0; bytes.len()], vec![0; 2 * bytes.len()]);
    let before = COUNT.get();
    let mut answered = 0;
    for call in [raw::type_union_resolution, raw::type_union_coercion, raw::comparison_coercion] {
        let answer = call(&bytes, Mask::ALL, &mut output, &mut work);
        answered += usize::from(matches!(answer, Ok(Answer::Type(_))));
        let refused = call(&bytes[1..], Mask::ALL, &mut output, &mut work);
        answered += usize::from(refused == Err(Refusal::Torn));
    }
    let after = COUNT.get();
    assert_eq!((answered, after - before), (6, 0));
}
