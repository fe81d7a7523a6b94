//! Lists whose first type is large and goes through every other type of the list.

use crate::hard::{field_of, numbered, row, run_ends, Hard};
use crate::inputs::integers;
use crate::make::{decimal, dictionary, timestamp};
use crate::sheet::{self, MAX_LABELS, MAX_RECORDS};
use crate::standin::arrow::datatypes::DataType;
use DataType::*;

/// Something large around a core.
struct Large {
    name: String,
    wrap: Box<dyn Fn(DataType) -> DataType>,
}

/// A core and the types that it meets.
struct Core {
    first: (&'static str, DataType),
    rest: (&'static str, Vec<DataType>),
}

/// Where the core and the other types stand.
struct Setting {
    name: &'static str,
    first: fn(&Large, DataType) -> DataType,
    other: fn(usize, DataType) -> DataType,
}

static SETTINGS: [Setting; 9] = [
    Setting { name: "alone", first: |large, core| (large.wrap)(core), other: |_, t| t },
    Setting {
        name: "in Lists of one item name",
        first: |large, core| item(b"item", (large.wrap)(core)),
        other: |_, t| item(b"item", t),
    },
    Setting {
        name: "in Lists of two item names in turn",
        first: |large, core| item(b"item", (large.wrap)(core)),
        other: |at, t| item(if at % 2 == 0 { b"element" } else { b"item" }, t),
    },
    Setting {
        name: "in Structs of one field",
        first: |large, core| Struct(vec![field_of(b"a", (large.wrap)(core), true)].into()),
        other: |_, t| Struct(vec![field_of(b"a", t, true)].into()),
    },
    Setting {
        name: "in Structs of two fields",
        first: |large, core| two_fields((large.wrap)(core)),
        other: |_, t| two_fields(t),
    },
    Setting {
        name: "the others in Dictionaries",
        first: |large, core| (large.wrap)(core),
        other: |_, t| dictionary(Int32, t),
    },
    Setting {
        name: "the others in run ends",
        first: |large, core| (large.wrap)(core),
        other: |_, t| run_ends(1, 0, t),
    },
    Setting {
        name: "the others in run ends in Dictionaries",
        first: |large, core| (large.wrap)(core),
        other: |_, t| dictionary(Int32, run_ends(1, 0, t)),
    },
    Setting {
        name: "around Lists",
        first: |large, core| (large.wrap)(item(b"item", core)),
        other: |_, t| item(b"item", t),
    },
];

fn item(name: &[u8], t: DataType) -> DataType {
    List(field_of(name, t, true))
}

fn two_fields(t: DataType) -> DataType {
    Struct(vec![field_of(b"a", Int8, true), field_of(b"b", t, true)].into())
}

/// Each core in each setting, below each large type.
pub fn all() -> Vec<Hard> {
    let cores = [integer(), zoned(), dated(), growing(), views(), strings()];
    let mut found = Vec::new();
    for setting in &SETTINGS {
        for core in &cores {
            let made = larges().into_iter().map(|large| candidate(setting, &large, core));
            found.extend(made);
        }
    }
    found
}

fn in_turn(t: DataType, level: usize) -> DataType {
    if level.is_multiple_of(2) {
        run_ends(1, 0, t)
    } else {
        dictionary(Int32, t)
    }
}

fn larges() -> Vec<Large> {
    let mut found = Vec::new();
    for levels in [128, 200, 255, 300, 380] {
        for bytes in [0, 7000 / levels] {
            let name = format!("{levels} run ends with {bytes}-byte names");
            found.push(Large { name, wrap: Box::new(move |t| run_ends(levels, bytes, t)) });
        }
        let wrap = move |core| (0..levels).fold(core, |t, _| dictionary(Int32, t));
        found.push(Large { name: format!("{levels} Dictionaries"), wrap: Box::new(wrap) });
        let wrap = move |core| (0..levels).fold(core, in_turn);
        let name = format!("{levels} Dictionaries and run ends in turn");
        found.push(Large { name, wrap: Box::new(wrap) });
    }
    for (fields, length) in [(510, 3), (510, 31), (128, 120), (64, 250)] {
        let name = format!("a Dictionary with an index of {fields} fields, {length}-byte names");
        let names: Vec<Vec<u8>> = (0..fields).map(|at| numbered(at, length)).collect();
        let wrap = move |core| dictionary(row(&names, &Int32), core);
        found.push(Large { name, wrap: Box::new(wrap) });
    }
    found
}

fn integer() -> Core {
    Core { first: ("Int8", Int8), rest: ("integers", integers(MAX_RECORDS)) }
}

/// Timestamps of all units with three zones.
fn zoned() -> Core {
    let zones = ["+02:00", "UTC", "-03:30"];
    let rest = (0..MAX_RECORDS).map(|at| timestamp(at % 4, Some(zones[at % zones.len()])));
    Core {
        first: ("a Timestamp", timestamp(0, Some("+01:00"))),
        rest: ("zoned Timestamps", rest.collect()),
    }
}

/// Dates and Timestamps with a zone in turn: a Date takes the zone away, and the next Timestamp
/// brings one.
fn dated() -> Core {
    let rest = (0..MAX_RECORDS).map(|at| if at % 2 == 0 { Date32 } else { nanos("A") });
    Core {
        first: ("a Timestamp", nanos("+01:00")),
        rest: ("Dates and zoned Timestamps in turn", rest.collect()),
    }
}

fn nanos(zone: &str) -> DataType {
    timestamp(3, Some(zone))
}

/// The least scale of a decimal of one digit, and Decimal256 of each scale above it: each of them
/// changes the candidate.
fn growing() -> Core {
    const LEAST: i8 = -126;
    let rest = (LEAST + 1..=76).map(|scale| decimal(17, scale.max(1) as u8, scale));
    Core { first: ("a decimal", decimal(17, 1, LEAST)), rest: ("growing decimals", rest.collect()) }
}

/// Utf8View and the strings that it takes up. In a Dictionary it stands alone afterwards.
fn views() -> Core {
    let rest = (0..MAX_RECORDS).map(|at| [Utf8, LargeUtf8, Utf8View][at % 3].clone());
    Core { first: ("Utf8View", Utf8View), rest: ("strings", rest.collect()) }
}

fn strings() -> Core {
    let rest = (0..MAX_RECORDS).map(|at| [LargeUtf8, Utf8][at % 2].clone());
    Core { first: ("Utf8", Utf8), rest: ("other strings", rest.collect()) }
}

/// The large type, and others as many as there are and fit after it.
fn candidate(setting: &Setting, large: &Large, core: &Core) -> Hard {
    let first = (setting.first)(large, core.first.1.clone());
    let others = core.rest.1.iter().enumerate().map(|(at, t)| (setting.other)(at, t.clone()));
    let mut types: Vec<DataType> = [first].into_iter().chain(others).collect();
    while !fits(&types) {
        types.pop();
    }
    let (rest, setting) = (core.rest.0, setting.name);
    let family = format!("list: a large candidate {setting}, then {rest}");
    let name = format!(
        "a list of {} around {}, then {} {rest}, {setting}",
        large.name,
        core.first.0,
        types.len() - 1
    );
    Hard::new(&family, &name, types)
}

fn fits(types: &[DataType]) -> bool {
    let (records, labels) = sheet::size_of(types);
    records <= MAX_RECORDS && labels <= MAX_LABELS
}
