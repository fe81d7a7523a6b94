//! Cases of the comparison: sheets of each class, and the calls made on each sheet.

use crate::call::{Call, Question, FULL_MASK, QUESTIONS};
use crate::make::*;
use crate::rng::Rng;
use crate::standin::arrow::datatypes::{DataType, Field, FieldRef};
use crate::{damage, families, generator, sheet};
use std::sync::Arc;

/// What makes a sheet of two types, a sheet of any number, or calls as they are.
#[derive(Clone, Copy)]
pub enum Make {
    Two(fn(&mut Rng) -> Vec<u8>),
    Many(fn(&mut Rng) -> Vec<u8>),
    Calls(fn(&mut Rng) -> Vec<Call>),
}

use Make::*;

/// A class of sheets, and of how many sheets in a thousand it makes up.
type Class = (&'static str, usize, Make);

/// The classes of sheets of the comparison.
pub const CLASSES: [Class; 13] = [
    ("pairs of plain types", 160, Two(plain_pair)),
    ("related pairs of every kind", 270, Two(related_pair)),
    ("Dictionary and run ends, nested", 80, Two(wrapped_pair)),
    ("long labels of any bytes", 60, Two(labelled_pair)),
    ("deep pairs", 4, Two(|rng| written(&generator::deep_pair(rng)))),
    ("wide pairs", 6, Two(|rng| written(&generator::wide_pair(rng)))),
    ("related lists", 120, Many(|rng| written(&generator::related_types(rng)))),
    ("lists of one family", 60, Many(family)),
    ("lists of up to 1,023 types", 1, Many(long_list)),
    ("lists of none or one type", 20, Many(short_list)),
    ("refusal conditions, one to three", 79, Calls(refused)),
    ("good sheets with bytes changed", 120, Two(changed)),
    ("random bytes", 20, Many(random)),
];

/// The number of a class, by weight.
pub fn any_class(rng: &mut Rng) -> usize {
    let mut at = rng.below(CLASSES.iter().map(|class| class.1).sum());
    let passed = |class: &&Class| {
        let inside = at < class.1;
        at = at.wrapping_sub(class.1);
        !inside
    };
    CLASSES.iter().take_while(passed).count()
}

/// The calls on one sheet: each question for two types, else mostly the list.
pub fn calls(rng: &mut Rng, class: usize) -> Vec<Call> {
    let (sheet, asked): (Vec<u8>, &[Question]) = match CLASSES[class].2 {
        Calls(make) => return make(rng),
        Two(make) => (make(rng), &QUESTIONS),
        Many(make) if rng.once_in(4) => (make(rng), &QUESTIONS),
        Many(make) => (make(rng), &[Question::List, Question::List]),
    };
    asked.iter().map(|&question| any_call(rng, question, sheet.clone())).collect()
}

/// A call as it was damaged, and two more of other masks and spaces on its sheet.
fn refused(rng: &mut Rng) -> Vec<Call> {
    let call = damage::any_call(rng);
    let sheet = call.sheet.clone();
    let question = *rng.pick(&QUESTIONS);
    let other = any_call(rng, question, sheet.clone());
    let exact = Call::new(call.question, FULL_MASK, sheet);
    vec![call, other, exact]
}

/// Any mask, a bad one now and then; spaces exact, long, or short.
fn any_call(rng: &mut Rng, question: Question, sheet: Vec<u8>) -> Call {
    let mut mask = any_mask(rng);
    if rng.once_in(40) {
        mask |= 1 << *rng.pick(&[0, 39, 40, 47, 48, 62, 63]);
    }
    let mut call = Call::new(question, mask, sheet);
    let length = call.output;
    match rng.below(16) {
        0 => call.output = any_below(rng, length),
        1 => call.work = any_below(rng, 2 * length),
        2..=7 => {
            call.output += rng.below(100) as u32;
            call.work += rng.below(100) as u32;
        }
        _ => {}
    }
    call
}

/// One less, none at all, half, or any number below.
fn any_below(rng: &mut Rng, length: u32) -> u32 {
    match rng.below(4) {
        0 => 0,
        1 => length / 2,
        2 => rng.below(length as usize + 1) as u32,
        _ => length.saturating_sub(1),
    }
}

fn written(types: &[DataType]) -> Vec<u8> {
    sheet::write(types).expect("types that fit in a sheet")
}

fn either_way(rng: &mut Rng, left: DataType, right: DataType) -> Vec<u8> {
    written(&if rng.once_in(2) { [left, right] } else { [right, left] })
}

fn plain_pair(rng: &mut Rng) -> Vec<u8> {
    written(&[any_plain(rng), any_plain(rng)])
}

fn related_pair(rng: &mut Rng) -> Vec<u8> {
    let left = generator::any_type_of_some_size(rng);
    let right = related(rng, &left);
    either_way(rng, left, right)
}

/// Up to four wrappers on each side, so that the source's double attempts stay cheap.
fn wrapped_pair(rng: &mut Rng) -> Vec<u8> {
    let left = any_type(rng, 4);
    let right = related(rng, &left);
    let (left, right) = (wrapped(rng, left), wrapped(rng, right));
    either_way(rng, left, right)
}

fn wrapped(rng: &mut Rng, mut inner: DataType) -> DataType {
    for _ in 0..rng.below(5) {
        let index = rng.pick(&INTEGERS[..3]).clone();
        inner = if rng.once_in(2) { dictionary(index, inner) } else { run_ends(index, inner) };
    }
    inner
}

fn family(rng: &mut Rng) -> Vec<u8> {
    let family = *rng.pick(&families::FAMILIES);
    let count = 1 + rng.below(60);
    written(&families::any_list(rng, family, count))
}

fn long_list(rng: &mut Rng) -> Vec<u8> {
    let count = 500 + rng.below(524);
    let family = *rng.pick(&families::FAMILIES);
    let mut types = families::any_list(rng, family, count);
    if rng.once_in(4) {
        types[count - 1] = any_plain(rng);
    }
    written(&types)
}

fn short_list(rng: &mut Rng) -> Vec<u8> {
    let types = [generator::any_type_of_some_size(rng)];
    written(if rng.once_in(4) { &[] } else { &types })
}

/// Structs of up to eight fields whose names share long beginnings.
fn labelled_pair(rng: &mut Rng) -> Vec<u8> {
    let longest = *rng.pick(&[8, 40, 254]);
    let stem: Vec<u8> = (0..longest).map(|_| rng.below(256) as u8).collect();
    let count = 1 + rng.below(8);
    let names: Vec<String> = (0..count).map(|at| any_label(rng, &stem, at)).collect();
    let zoned = rng.once_in(3);
    let left = labelled(rng, &names, zoned);
    let mut other = names.clone();
    rng.shuffle(&mut other);
    if rng.once_in(3) {
        let at = rng.below(count);
        other[at] = any_label(rng, &stem, count);
    }
    let right = labelled(rng, &other, zoned);
    written(&[left, right])
}

/// The stem, whole or cut, with the field's number as its last byte or somewhere inside.
fn any_label(rng: &mut Rng, stem: &[u8], at: usize) -> String {
    let mut label = stem.to_vec();
    if rng.once_in(4) {
        label.truncate(rng.below(stem.len() + 1));
    }
    let place = if rng.once_in(2) { label.len() } else { rng.below(label.len() + 1) };
    label.insert(place, at as u8);
    sheet::text_of(&label)
}

/// A Struct of numbers or of zoned Timestamps with these names, a repeated one left out.
fn labelled(rng: &mut Rng, names: &[String], zoned: bool) -> DataType {
    let mut fields: Vec<FieldRef> = Vec::new();
    for name in names {
        if fields.iter().any(|field| field.name() == name) {
            continue;
        }
        let inner = if zoned {
            let zone: String = name.chars().take(200).collect();
            DataType::Timestamp(UNITS[rng.below(4)], Some(zone.into()))
        } else {
            rng.pick(&NUMBERS).clone()
        };
        fields.push(Arc::new(Field::new(name.as_str(), inner, rng.once_in(2))));
    }
    DataType::Struct(fields.into())
}

/// A good sheet with a few bytes changed; now and then it is still good.
fn changed(rng: &mut Rng) -> Vec<u8> {
    let mut sheet = match rng.below(4) {
        0 => labelled_pair(rng),
        1 => plain_pair(rng),
        _ => related_pair(rng),
    };
    for _ in 0..1 + rng.below(3) {
        let at = rng.below(sheet.len());
        sheet[at] = match rng.below(3) {
            0 => rng.below(256) as u8,
            1 => rng.below(40) as u8,
            _ => sheet[at] ^ (1 << rng.below(8)),
        };
    }
    sheet
}

/// Random bytes, with or without a header that fits them.
fn random(rng: &mut Rng) -> Vec<u8> {
    let (records, labels) = (1 + rng.below(6), rng.below(12));
    let length = if rng.once_in(2) { rng.below(100) } else { 16 * records + labels };
    let most = *rng.pick(&[2, 6, 39, 256]);
    let mut sheet: Vec<u8> = (0..length).map(|_| rng.below(most) as u8).collect();
    if length == 16 * records + labels {
        sheet[..16].fill(0);
        sheet[0] = records as u8;
        sheet[2] = labels as u8;
    }
    sheet
}
