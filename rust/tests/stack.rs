//! The deepest and widest sheets, asked about on a thread with 1.25 MiB of stack.

mod common;

use common::deep_list;
use pemzhulaq::coerce::Question;
use pemzhulaq::{sheet, DataType, Field, Mask};

fn deep_struct(depth: usize) -> DataType {
    (0..depth).fold(DataType::Int8, |inner, _| DataType::Struct(vec![Field::new("", inner, false)]))
}

fn deep_dictionary(depth: usize) -> DataType {
    (0..depth).fold(DataType::Int8, |inner, _| {
        DataType::Dictionary(Box::new(DataType::Int8), Box::new(inner))
    })
}

fn deep_run_ends(depth: usize, core: DataType) -> DataType {
    (0..depth).fold(core, |inner, _| {
        let ends = Box::new(Field::new("run_ends", DataType::Int8, false));
        DataType::RunEndEncoded(ends, Box::new(Field::new("values", inner, true)))
    })
}

fn wide_struct(count: usize, data_type: DataType) -> DataType {
    let field = |at: usize| Field::new(format!("f{at}"), data_type.clone(), false);
    DataType::Struct((0..count).map(field).collect())
}

#[test]
fn five_quarters_of_a_mebibyte_are_enough() {
    let pairs = [
        vec![deep_list(1022)],
        vec![deep_list(510), deep_list(510)],
        vec![deep_list(510), deep_list(509)],
        vec![deep_struct(510), deep_struct(510)],
        vec![deep_struct(510), deep_struct(509)],
        vec![deep_dictionary(510), DataType::Utf8],
        vec![deep_dictionary(255), deep_dictionary(254)],
        vec![deep_run_ends(254, DataType::Int8), deep_run_ends(254, DataType::Utf8)],
        vec![wide_struct(510, DataType::Int8), wide_struct(510, DataType::Int16)],
        vec![DataType::Int8; 1023],
    ];
    let sheets: Vec<Vec<u8>> = pairs.iter().map(|types| sheet::encode(types).unwrap()).collect();
    let ask = move || {
        for bytes in &sheets {
            for question in Question::ALL {
                let _ = question.ask(bytes, Mask::ALL);
            }
        }
    };
    std::thread::Builder::new().stack_size(5 << 18).spawn(ask).unwrap().join().unwrap();
}
