//! The inputs of the benchmark and of the plot.

use crate::call::{Call, Question, FULL_MASK, QUESTIONS};
use crate::make::*;
use crate::rng::Rng;
use crate::sheet::{self, RECORD};
use crate::standin::arrow::datatypes::DataType;
use DataType::*;

/// A class of the benchmark and a call of it.
pub struct Input {
    pub name: String,
    pub call: Call,
}

const FIELDS: usize = 100;
const SEED: u64 = 11;

fn call_on(question: Question, types: &[DataType]) -> Call {
    Call::new(question, FULL_MASK, sheet::write(types).expect("types that fit in a sheet"))
}

fn input(name: &str, question: Question, types: &[DataType]) -> Input {
    Input { name: name.to_string(), call: call_on(question, types) }
}

/// One input for each question that takes these types.
fn each(name: &str, types: &[DataType]) -> Vec<Input> {
    let asked = if types.len() == 2 { &QUESTIONS[..] } else { &QUESTIONS[..1] };
    asked.iter().map(|&question| input(name, question, types)).collect()
}

/// Every class of the benchmark.
pub fn all() -> Vec<Input> {
    let ten = [Int8, UInt8, Int16, Int8, UInt16, Int32, Int16, UInt8, Int32, Int64];
    let mut inputs = each("two plain types: Int64, Decimal128(7,2)", &[Int64, Decimal128(7, 2)]);
    inputs.extend(each("two plain types: Utf8, Int32", &[Utf8, Int32]));
    inputs.extend(each("ten integers", &ten));
    inputs.extend(each("1,000 types: integers", &integers(1000)));
    inputs.extend(each("1,000 types: one decimal width", &decimals(1000)));
    inputs.extend(each("1,000 types: the same zoned Timestamp", &stamps(1000)));
    let [left, by_name, by_place] = structs(FIELDS);
    inputs.extend(
        each("Struct of 100 fields by name", &[left.clone(), by_name.clone()]).split_off(1),
    );
    inputs.extend(each("Struct of 100 fields by place", &[left.clone(), by_place]).split_off(1));
    inputs.extend(each("two Structs of 100 fields in a list", &[left, by_name]).drain(..1));
    inputs.push(input(
        "five Structs of 100 fields in a list",
        Question::List,
        &many_structs(5, FIELDS),
    ));
    inputs.extend(each("lists 200 deep", &nested(200, list)));
    inputs.extend(wrappers());
    inputs.extend(refused());
    inputs
}

/// Random integer types, the same in each run.
pub fn integers(count: usize) -> Vec<DataType> {
    let mut rng = Rng::new(SEED);
    (0..count).map(|_| rng.pick(&INTEGERS).clone()).collect()
}

fn decimals(count: usize) -> Vec<DataType> {
    let mut rng = Rng::new(SEED);
    (0..count).map(|_| any_decimal(&mut rng, 16)).collect()
}

fn stamps(count: usize) -> Vec<DataType> {
    vec![timestamp(2, Some("UTC")); count]
}

/// A Struct, one with its names in another order, and one with a name changed; no two
/// of the types at a place are equal.
pub fn structs(count: usize) -> [DataType; 3] {
    let mut rng = Rng::new(SEED);
    let names: Vec<String> = (0..count).map(|at| format!("field_{at}")).collect();
    let made = |order: &[usize], t: DataType, changed: &str| {
        let named = |&at: &usize| {
            let name = if at == 0 { changed } else { names[at].as_str() };
            field(name, t.clone(), at % 2 == 0)
        };
        Struct(order.iter().map(named).collect::<Vec<_>>().into())
    };
    let order: Vec<usize> = (0..count).collect();
    let mut other = order.clone();
    rng.shuffle(&mut other);
    [
        made(&order, Int32, &names[0]),
        made(&other, Int64, &names[0]),
        made(&other, Int64, "otherwise"),
    ]
}

/// Structs with the same names in changing orders.
pub fn many_structs(count: usize, fields: usize) -> Vec<DataType> {
    let [left, right, _] = structs(fields);
    (0..count).map(|at| if at % 2 == 0 { left.clone() } else { right.clone() }).collect()
}

/// Two types that differ at the bottom of a number of wrappers.
pub fn nested(depth: usize, wrap: fn(&str, DataType, bool) -> DataType) -> [DataType; 2] {
    let deep = |bottom| (0..depth).fold(bottom, |inner, _| wrap("item", inner, true));
    [deep(Int32), deep(Int64)]
}

/// A Dictionary of Int32, for `nested`.
pub fn wrap_dictionary(_: &str, value: DataType, _: bool) -> DataType {
    dictionary(Int32, value)
}

/// Run ends of Int32, for `nested`.
pub fn wrap_run_ends(_: &str, value: DataType, _: bool) -> DataType {
    run_ends(Int32, value)
}

fn wrappers() -> Vec<Input> {
    let dict = dictionary(Int32, Utf8);
    let ends = run_ends(Int32, Int16);
    let both = dictionary(Int8, run_ends(Int32, LargeUtf8));
    let mut inputs = each("Dictionary of Utf8, LargeUtf8", &[dict.clone(), LargeUtf8]);
    inputs.extend(each("two Dictionaries", &[dict.clone(), dictionary(Int8, LargeUtf8)]));
    inputs.extend(each("run ends of Int16, Int64", &[ends.clone(), Int64]));
    inputs.extend(each("two run ends", &[ends, run_ends(Int64, Int32)]));
    inputs.extend(each("Dictionary of run ends, Dictionary", &[both, dict]));
    inputs
}

/// A call for each refusal number, on two Structs of 100 fields; what is wrong with the
/// sheet is wrong at its end.
fn refused() -> Vec<Input> {
    (1..=8)
        .map(|number| Input {
            name: format!("refused {number}"),
            call: refused_call(number, FIELDS),
        })
        .collect()
}

/// A union of two Structs that gets a refusal number from 1 to 8.
pub fn refused_call(number: u8, fields: usize) -> Call {
    let [left, right, _] = structs(fields);
    let mut call = call_on(Question::Union, &[left.clone(), right.clone()]);
    let last = RECORD * 2 * (fields + 1);
    match number {
        1 => call.sheet.push(0),
        2 => call.sheet[last] = 39,
        3 => call.sheet[last + 10] = 1,
        4 => call.sheet[last + 15] = 1,
        5 => call.sheet[last + 14] -= 1,
        6 => call.mask |= 1,
        7 => call = call_on(Question::Union, &[left, right, Int8]),
        _ => call.work -= 1,
    }
    call
}

/// A panel of the plot: a class by the size of its sheets.
pub struct Panel {
    pub name: &'static str,
    pub sizes: &'static [usize],
    pub make: fn(usize) -> Call,
}

const FEW_TO_MANY: &[usize] = &[2, 4, 8, 16, 32, 64, 128, 256, 510];
const TYPES: &[usize] = &[2, 4, 8, 16, 32, 64, 128, 256, 512, 1023];
const WRAPPERS: &[usize] = &[1, 2, 4, 8, 16, 32, 64, 128, 255];

/// All panels.
pub const PANELS: [Panel; 9] = [
    Panel {
        name: "list of integers",
        sizes: TYPES,
        make: |n| call_on(Question::List, &integers(n)),
    },
    Panel {
        name: "list of one zoned Timestamp",
        sizes: TYPES,
        make: |n| call_on(Question::List, &stamps(n)),
    },
    Panel {
        name: "union, Struct by name",
        sizes: FEW_TO_MANY,
        make: |n| pair_of(Question::Union, n, 1),
    },
    Panel {
        name: "union, Struct by place",
        sizes: FEW_TO_MANY,
        make: |n| pair_of(Question::Union, n, 2),
    },
    Panel {
        name: "list of two Structs",
        sizes: FEW_TO_MANY,
        make: |n| pair_of(Question::List, n, 1),
    },
    Panel {
        name: "union, nested lists",
        sizes: FEW_TO_MANY,
        make: |n| call_on(Question::Union, &nested(n, list)),
    },
    Panel {
        name: "list, nested Dictionaries",
        sizes: WRAPPERS,
        make: |n| call_on(Question::List, &nested(n, wrap_dictionary)),
    },
    Panel {
        name: "list, nested run ends",
        sizes: WRAPPERS,
        make: |n| call_on(Question::List, &nested(n, wrap_run_ends)),
    },
    Panel { name: "refused 5, two Structs", sizes: FEW_TO_MANY, make: |n| refused_call(5, n) },
];

fn pair_of(question: Question, fields: usize, other: usize) -> Call {
    let [left, right, third] = structs(fields);
    call_on(question, &[left, if other == 1 { right } else { third }])
}
