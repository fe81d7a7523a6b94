//! Sheets that are meant to take long. A sheet has at most 1,023 types, parts among them,
//! and 16,384 bytes of labels, so that two types have 511 records each.

use crate::call::{Answer, Call, Question, FULL_MASK, QUESTIONS};
use crate::candidates;
use crate::inputs::integers;
use crate::ladders::wrapped;
use crate::make::{dictionary, timestamp};
use crate::rng::Rng;
use crate::sheet::{self, text_of};
use crate::standin::arrow::datatypes::{DataType, Field, FieldRef};
use std::sync::Arc;
use DataType::*;

/// A sheet, what it may be asked, and how many steps of mixed wrappers it has where these
/// have no common type: there the source takes exponential time and is not asked.
pub struct Hard {
    pub family: String,
    pub name: String,
    pub types: Vec<DataType>,
    pub mask: u64,
    pub steps: usize,
}

impl Hard {
    /// A sheet of these types, asked with every mask bit.
    pub fn new(family: &str, name: &str, types: Vec<DataType>) -> Hard {
        let (family, name) = (family.to_string(), name.to_string());
        Hard { family, name, types, mask: FULL_MASK, steps: 0 }
    }

    /// All three questions about two types, else the list alone.
    pub fn calls(&self) -> Vec<Call> {
        let sheet = sheet::write(&self.types).expect("types that fit in a sheet");
        let asked = if self.types.len() == 2 { &QUESTIONS[..] } else { &QUESTIONS[..1] };
        asked.iter().map(|&question| Call::new(question, self.mask, sheet.clone())).collect()
    }

    /// The oracle's answer to a call, where it may be asked.
    pub fn answer(&self, call: &Call) -> Option<Answer> {
        let asked = self.steps == 0 || call.question == Question::List;
        asked.then(|| call.answer())
    }
}

/// All sheets, family by family.
pub fn all() -> Vec<Hard> {
    let made = [
        deep(),
        shifted(),
        mixed(),
        uneven(),
        wide(),
        collided(),
        folded(),
        small(),
        candidates::all(),
    ];
    let mut sheets: Vec<Hard> = made.into_iter().flatten().collect();
    sheets.sort_by(|a, b| a.family.cmp(&b.family));
    sheets
}

// Names

/// A field whose name is any bytes.
pub fn field_of(name: &[u8], data_type: DataType, nullable: bool) -> FieldRef {
    Arc::new(Field::new(text_of(name), data_type, nullable))
}

/// A number with zeros before it: names that differ in their last bytes.
pub fn numbered(at: usize, length: usize) -> Vec<u8> {
    format!("{at:0length$}").into_bytes()
}

/// Names that differ in the two bytes at a place alone.
fn differing(count: usize, length: usize, place: usize) -> Vec<Vec<u8>> {
    let name = |at: usize| {
        let mut name = vec![b'x'; length];
        (name[place], name[place + 1]) = ((at / 256) as u8, (at % 256) as u8);
        name
    };
    (0..count).map(name).collect()
}

const FACTOR: u32 = 1_640_531_527;

/// FACTOR times this is 1, so that a number can be traced back.
const INVERSE: u32 = inverse(FACTOR);

const fn inverse(factor: u32) -> u32 {
    let (mut guess, mut step) = (factor, 0);
    while step < 5 {
        guess = guess.wrapping_mul(2u32.wrapping_sub(factor.wrapping_mul(guess)));
        step += 1;
    }
    guess
}

fn stir(number: u32, four: u32) -> u32 {
    number.rotate_left(16).wrapping_add(four).wrapping_mul(FACTOR)
}

/// The number from which four bytes lead to a number.
fn before(number: u32, four: u32) -> u32 {
    number.wrapping_mul(INVERSE).wrapping_sub(four).rotate_left(16)
}

/// The number that the check makes of a name of whole fours of bytes. The names of one Struct are
/// told apart by its upper 13 bits, as far as these differ.
fn number(name: &[u8]) -> u32 {
    fours(name).into_iter().fold(0, stir)
}

fn fours(name: &[u8]) -> Vec<u32> {
    let four = |bytes: &[u8]| u32::from_le_bytes(bytes.try_into().expect("four bytes"));
    name.chunks(4).map(four).collect()
}

/// A name with this number, made from another in the eight bytes at a place.
fn with_number(name: &[u8], place: usize, first: u32, wanted: u32) -> Vec<u8> {
    let behind = fours(&name[place + 8..]).into_iter().rev().fold(wanted, before);
    let here = stir(number(&name[..place]), first);
    let second = behind.wrapping_mul(INVERSE).wrapping_sub(here.rotate_left(16));
    let mut made = name.to_vec();
    made[place..place + 4].copy_from_slice(&first.to_le_bytes());
    made[place + 4..place + 8].copy_from_slice(&second.to_le_bytes());
    assert_eq!(number(&made), wanted);
    made
}

/// Names in no order which differ in the eight bytes at a place alone, a multiple of four. They
/// have as many numbers, all with the same upper bits.
pub fn colliding(count: usize, numbers: usize, length: usize, place: usize) -> Vec<Vec<u8>> {
    let name = vec![b'x'; length];
    let wanted = |at: usize| (7 << 19) + at.min(numbers - 1) as u32;
    let spread = |at: usize| (at as u32).wrapping_mul(2_654_435_769);
    (0..count).map(|at| with_number(&name, place, spread(at), wanted(at))).collect()
}

// Deep types, alike almost to the end

/// How the parts of a level are: the same name on each, and nullable or not.
struct Part {
    name: Vec<u8>,
    nullable: bool,
}

impl Part {
    fn of(&self, data_type: DataType) -> FieldRef {
        field_of(&self.name, data_type, self.nullable)
    }
}

/// A wrapper, the levels that fit into half a sheet, and the name bytes of a part then.
struct Wrapper {
    name: &'static str,
    levels: usize,
    bytes: usize,
    wrap: fn(&Part, DataType) -> DataType,
}

static WRAPPERS: [Wrapper; 9] = [
    Wrapper { name: "Lists", levels: 510, bytes: 16, wrap: |part, t| List(part.of(t)) },
    Wrapper {
        name: "Structs of one field",
        levels: 510,
        bytes: 16,
        wrap: |part, t| Struct(vec![part.of(t)].into()),
    },
    Wrapper {
        name: "Structs of two fields, the deep one first",
        levels: 255,
        bytes: 31,
        wrap: |part, t| Struct(vec![part.of(t), field_of(b"b", Int8, false)].into()),
    },
    Wrapper {
        name: "Structs of two fields, the deep one last",
        levels: 255,
        bytes: 31,
        wrap: |part, t| Struct(vec![field_of(b"b", Int8, false), part.of(t)].into()),
    },
    Wrapper {
        name: "Maps of Structs of one field",
        levels: 255,
        bytes: 16,
        wrap: |part, t| Map(part.of(Struct(vec![part.of(t)].into())), false),
    },
    Wrapper {
        name: "Maps of Structs of a key and a value",
        levels: 170,
        bytes: 23,
        wrap: |part, t| {
            let key = field_of(b"k", Int8, false);
            Map(part.of(Struct(vec![key, part.of(t)].into())), false)
        },
    },
    Wrapper { name: "Dictionaries", levels: 255, bytes: 0, wrap: |_, t| dictionary(Int32, t) },
    Wrapper {
        name: "run ends",
        levels: 255,
        bytes: 16,
        wrap: |part, t| RunEndEncoded(part.of(Int32), part.of(t)),
    },
    Wrapper {
        name: "Lists of Dictionaries",
        levels: 170,
        bytes: 48,
        wrap: |part, t| List(part.of(dictionary(Int32, t))),
    },
];

fn tower(wrapper: &Wrapper, bytes: usize, core: DataType, bottom: Part) -> DataType {
    let part = Part { name: vec![b'x'; bytes], nullable: true };
    let low = (wrapper.wrap)(&bottom, core);
    (1..wrapper.levels).fold(low, |inner, _| (wrapper.wrap)(&part, inner))
}

/// Two towers that differ at the bottom: in the type, in nullability, or in a name's first byte.
fn towers(wrapper: &Wrapper, bytes: usize) -> Vec<Hard> {
    let Wrapper { name, levels, .. } = wrapper;
    let part = |nullable| Part { name: vec![b'x'; bytes], nullable };
    let mut changed = part(true);
    changed.name.iter_mut().take(1).for_each(|byte| *byte = b'y');
    let others = [
        ("type", tower(wrapper, bytes, Int64, part(true))),
        ("nullability", tower(wrapper, bytes, Int32, part(false))),
        ("name", tower(wrapper, bytes, Int32, changed)),
    ];
    let left = tower(wrapper, bytes, Int32, part(true));
    let pair = |(what, other): (&str, DataType)| {
        let name = format!(
            "{levels} levels of {name} around Int32, {bytes}-byte names, and the same with another {what} at the bottom"
        );
        Hard::new(&format!("deep: {}", wrapper.name), &name, vec![left.clone(), other])
    };
    others.into_iter().filter(|(_, other)| *other != left).map(pair).collect()
}

fn deep() -> Vec<Hard> {
    let sizes = |wrapper: &'static Wrapper| {
        let named = (wrapper.bytes > 0).then(|| towers(wrapper, wrapper.bytes));
        [Some(towers(wrapper, 0)), named].into_iter().flatten().flatten()
    };
    WRAPPERS.iter().flat_map(sizes).collect()
}

/// Wrappers in turn against wrappers in the other turn, with a common type inside: one side's
/// value is all but the same as the other side.
fn shifted() -> Vec<Hard> {
    let pair = |name: &str, left: (&str, usize), right: (&str, usize)| {
        let types = vec![wrapped(left.0, left.1, Int32), wrapped(right.0, right.1, Int64)];
        Hard::new("deep: wrappers in turn", name, types)
    };
    vec![
        pair("255 wrappers DRDR.. against RDRD.., Int32 and Int64", ("DR", 255), ("RD", 255)),
        pair("255 Dictionaries against 254, Int32 and Int64", ("D", 255), ("D", 254)),
        pair("255 run ends against 254, Int32 and Int64", ("R", 255), ("R", 254)),
        pair("255 Dictionaries against 255 run ends, Int32 and Int64", ("D", 255), ("R", 255)),
        pair("200 wrappers DLRL.. against RLDL.., Int32 and Int64", ("DLRL", 200), ("RLDL", 200)),
        pair("510 wrappers LL.. against 509, Int32 and Int64", ("L", 510), ("L", 509)),
    ]
}

/// Wrappers with Lists between them that have no common type: the source tries two ways at
/// each List.
fn mixed() -> Vec<Hard> {
    let pair = |name: &str, pattern: (&str, &str), steps: usize, cores: (DataType, DataType)| {
        let types = vec![wrapped(pattern.0, steps, cores.0), wrapped(pattern.1, steps, cores.1)];
        Hard { steps, ..Hard::new("deep: wrappers with no common type", name, types) }
    };
    let none = || (Boolean, Binary);
    vec![
        pair("340 wrappers DLDL.. against RLRL.., Boolean and Binary", ("DL", "RL"), 340, none()),
        pair("340 wrappers RLRL.. against DLDL.., Boolean and Binary", ("RL", "DL"), 340, none()),
        pair(
            "290 wrappers DDRL.. against RRDL.., Boolean and Binary",
            ("DDRL", "RRDL"),
            290,
            none(),
        ),
        pair(
            "340 wrappers DLDL.. against RLRL.., Null and Binary",
            ("DL", "RL"),
            340,
            (Null, Binary),
        ),
        pair("255 wrappers DRDR.. against RDRD.., Boolean and Binary", ("DR", "RD"), 255, none()),
    ]
}

/// More Dictionaries than run ends, or fewer, around Null, with a mask that allows little.
fn uneven() -> Vec<Hard> {
    let mut found = Vec::new();
    for (few, many) in [(50, 460), (127, 383), (200, 310)] {
        for (mask, word) in [(1 << 37, "bit 37"), (1 << 38, "bit 38"), (0, "no bit")] {
            for ((left, l), (right, r)) in [(("D", many), ("R", few)), (("D", few), ("R", many))] {
                let types = vec![wrapped(left, l, Null), wrapped(right, r, Binary)];
                let name =
                    format!("{l} Dictionaries around Null, {r} run ends around Binary, {word}");
                let sheet = Hard::new("deep: unequal numbers of wrappers", &name, types);
                found.push(Hard { mask, steps: many, ..sheet });
            }
        }
    }
    found
}

// Wide Structs

/// A Struct with fields of these names and of one type.
pub fn row(names: &[Vec<u8>], data_type: &DataType) -> DataType {
    let fields = names.iter().map(|name| field_of(name, data_type.clone(), true));
    Struct(fields.collect::<Vec<_>>().into())
}

fn turned(names: &[Vec<u8>]) -> Vec<Vec<u8>> {
    names.iter().rev().cloned().collect()
}

fn shuffled(names: &[Vec<u8>]) -> Vec<Vec<u8>> {
    let mut other = names.to_vec();
    Rng::new(3).shuffle(&mut other);
    other
}

const FIELDS: usize = 510;

/// Two Structs by name, with the names of the right turned or shuffled, and by place.
fn name_orders(what: &str, names: &[Vec<u8>]) -> Vec<Hard> {
    let mut odd = turned(names);
    *odd.last_mut().expect("a name") = vec![b'?'; names[0].len()];
    let name = |order: &str| format!("two Structs of {} fields, {what}, {order}", names.len());
    [(turned(names), "turned"), (shuffled(names), "shuffled"), (odd, "turned, one name is other")]
        .into_iter()
        .map(|(other, order)| {
            let types = vec![row(names, &Int32), row(&other, &Int64)];
            Hard::new(&format!("wide: {what}"), &name(order), types)
        })
        .collect()
}

fn wide() -> Vec<Hard> {
    let numbers: Vec<Vec<u8>> = (0..FIELDS).map(|at| numbered(at, 16)).collect();
    let mut found = name_orders("16-byte numbers for names", &numbers);
    for (place, word) in [
        (0, "first two bytes"),
        (7, "middle two bytes"),
        (13, "two bytes before the last"),
        (14, "last two bytes"),
    ] {
        let what = format!("16-byte names that differ in the {word}");
        found.extend(name_orders(&what, &differing(FIELDS, 16, place)));
    }
    found.extend(name_orders("two-byte names", &differing(FIELDS, 2, 0)));
    found.extend(name_orders(
        "255-byte names that differ in the first two bytes",
        &differing(32, 255, 0),
    ));
    let names = differing(FIELDS, 16, 0);
    let mut same = vec![Int32; FIELDS];
    same[FIELDS - 1] = Int64;
    let other = names.iter().zip(same).map(|(name, t)| field_of(name, t, true));
    let other = Struct(other.collect::<Vec<_>>().into());
    let pair = vec![row(&names, &Int32), other];
    let name = "two Structs of 510 fields, 16-byte names in one order, last type other";
    found.push(Hard::new("wide: in one order", name, pair));
    let name = "two Structs of 22 Structs of 22 fields, 16-byte names that differ in the first two bytes, turned";
    found.push(Hard::new("wide: Structs of Structs", name, squares()));
    found
}

fn squares() -> Vec<DataType> {
    let names = differing(22, 16, 0);
    let square = |names: &[Vec<u8>], t: DataType| row(names, &row(names, &t));
    vec![square(&names, Int32), square(&turned(&names), Int64)]
}

const PLACES: [(usize, usize, &str); 4] = [
    (16, 0, "first eight bytes"),
    (16, 4, "middle eight bytes"),
    (16, 8, "last eight bytes"),
    (8, 0, "eight bytes"),
];

/// Names whose numbers do not tell them apart by their upper bits, and that the check has to
/// sort, as two have one number, or all.
fn collided() -> Vec<Hard> {
    let mut found = Vec::new();
    for (length, place, word) in PLACES {
        for one_number in [false, true] {
            let shared = if one_number { "all of one number" } else { "two of one number" };
            let what =
                format!("{length}-byte names of one key that differ in the {word}, {shared}");
            let names = |count: usize| {
                colliding(count, if one_number { 1 } else { count - 1 }, length, place)
            };
            found.extend(name_orders(&what, &names(FIELDS)));
            let name = format!("a Struct of 1,022 fields, {what}");
            let one = vec![row(&names(1022), &Int32)];
            found.push(Hard::new(&format!("one Struct: {what}"), &name, one));
        }
    }
    found
}

// Lists of many types

/// Structs of one shape, every other one with its names turned.
fn folded() -> Vec<Hard> {
    let shapes = [(3, 340), (5, 200), (10, 100), (30, 33), (92, 10), (204, 4), (340, 2), (511, 1)];
    shapes.into_iter().map(|(count, fields)| structs(count, fields)).collect()
}

/// Lists of as many small types as there may be.
fn small() -> Vec<Hard> {
    let made = |name: &str, count: usize, make: &dyn Fn(usize) -> DataType| {
        Hard::new("list: small types", name, (0..count).map(make).collect())
    };
    let plain = integers(1023);
    let named = |at: usize| List(field_of(&numbered(at, 32), plain[at].clone(), true));
    let zoned = |at: usize| timestamp(at % 4, Some(&format!("{at:016}")));
    vec![
        made("a list of 1,023 integers", 1023, &|at| plain[at].clone()),
        made("a list of 1,023 Timestamps with 16-byte zones", 1023, &zoned),
        made("a list of 511 Lists with 32-byte names", 511, &named),
        made("a list of 341 Dictionaries", 341, &|at| dictionary(Int32, plain[at].clone())),
    ]
}

fn structs(count: usize, fields: usize) -> Hard {
    let fields = if count * (fields + 1) > 1023 { 1023 / count - 1 } else { fields };
    let length = (16384 / (count * fields)).clamp(2, 255);
    let names = differing(fields, length, 0);
    let other = turned(&names);
    let types =
        (0..count).map(|at| if at % 2 == 0 { row(&names, &Int32) } else { row(&other, &Int64) });
    Hard::new(
        "list: Structs",
        &format!(
            "a list of {count} Structs of {fields} fields, {length}-byte names that differ in the \
             first two bytes, every other turned"
        ),
        types.collect(),
    )
}

/// Run ends around a type, whose parts have names of this many bytes.
pub fn run_ends(levels: usize, bytes: usize, core: DataType) -> DataType {
    let part = Part { name: vec![b'x'; bytes], nullable: true };
    (0..levels).fold(core, |t, _| RunEndEncoded(part.of(Int32), part.of(t)))
}
