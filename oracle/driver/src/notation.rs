//! Types and calls for people.

use crate::call::{Answer, Call, FULL_MASK};
use crate::generator::{hex, line};
use crate::sheet;
use crate::standin::arrow::datatypes::{DataType, Field};

/// A type on one line: `Struct("a": nullable Int8, "b": List("": Utf8))`.
pub fn shown(data_type: &DataType) -> String {
    use DataType::*;
    match data_type {
        List(part) => format!("List({})", field(part)),
        LargeList(part) => format!("LargeList({})", field(part)),
        FixedSizeList(part, size) => format!("FixedSizeList({}; {size})", field(part)),
        Map(part, sorted) => format!("Map({}; sorted {sorted})", field(part)),
        Dictionary(index, value) => format!("Dictionary({}, {})", shown(index), shown(value)),
        RunEndEncoded(ends, values) => format!("RunEnds({}, {})", field(ends), field(values)),
        Struct(fields) => {
            let fields: Vec<String> = fields.iter().map(|part| field(part)).collect();
            format!("Struct({})", fields.join(", "))
        }
        plain => format!("{plain:?}"),
    }
}

fn field(field: &Field) -> String {
    let nullable = if field.is_nullable() { "nullable " } else { "" };
    format!("{:?}: {nullable}{}", field.name(), shown(field.data_type()))
}

/// The types of a sheet on one line.
pub fn shown_types(sheet: &[u8]) -> String {
    match sheet::read(sheet) {
        Err(number) => format!("not a sheet (refusal {number})"),
        Ok(types) => types.iter().map(shown).collect::<Vec<_>>().join(" | "),
    }
}

/// A call in words, and as a line for `oracle answer`.
pub fn shown_call(call: &Call) -> String {
    let (length, output, work) = (call.sheet.len(), call.output, call.work);
    let mask = if call.mask == FULL_MASK { "full".into() } else { format!("{:#x}", call.mask) };
    format!(
        "  question  {}\n  types     {}\n  mask      {mask}\n  \
         sheet     {length} bytes, output {output}, work space {work}\n  line      {}",
        call.question.word(),
        shown_types(&call.sheet),
        line(call),
    )
}

/// An answer on one line.
pub fn shown_answer(answer: &Answer) -> String {
    match answer {
        Answer::Refused(number) => format!("refused {number}"),
        Answer::None => "none".to_string(),
        Answer::Type(bytes) => {
            format!("{}, {} bytes {}", shown_types(bytes), bytes.len(), hex(bytes))
        }
    }
}
