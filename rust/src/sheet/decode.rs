//! Reading a sheet, with refusals 1 to 5.

use super::view::View;
use super::{NULLABLE, SORTED, ZONED};
use crate::head::Head;
use crate::{DataType, Field, Kind, Label, Refusal};

/// The listed types of a sheet, or the lowest refusal from 1 to 5 that applies.
///
/// Any bytes will do: no bytes make it panic, recurse, or run longer than a sheet of their length
/// takes.
pub fn decode(bytes: &[u8]) -> Result<Vec<DataType>, Refusal> {
    let view = View::open(bytes).ok_or(Refusal::Torn)?;
    let kinds = kinds(&view).ok_or(Refusal::Kind)?;
    let parents = parents(&view, &kinds).ok_or(Refusal::Chain)?;
    let is_field = |record: usize| parents[record] != 0 && kinds[parents[record]].has_fields();
    let records = 1..view.records();
    if !records.clone().all(|record| figures_right(&view, kinds[record], record, is_field(record)))
    {
        return Err(Refusal::Figure);
    }
    if !labels_right(&view, is_field) {
        return Err(Refusal::Label);
    }
    let mut structs = records.filter(|&record| kinds[record] == Kind::Struct);
    if !structs.all(|record| names_differ(&view, record)) {
        return Err(Refusal::Label);
    }
    build(&view, &kinds).ok_or(Refusal::Chain)
}

/// The kind of each record; the header has a place too, so that numbers are places.
fn kinds(view: &View) -> Option<Vec<Kind>> {
    let records = (1..view.records()).map(|record| view.kind(record));
    std::iter::once(Some(Kind::Struct)).chain(records).collect()
}

/// The parent of each record, 0 for a listed type, where the walk meets 1, 2, .. n − 1 in that
/// order and every number of parts is right.
fn parents(view: &View, kinds: &[Kind]) -> Option<Vec<usize>> {
    let mut parents = vec![0];
    let mut counts = vec![0; view.records()];
    let mut path = Vec::new();
    let mut link = usize::from(view.records() > 1);
    loop {
        if link != 0 {
            if link != parents.len() || link >= view.records() {
                return None;
            }
            let parent = path.last().copied().unwrap_or(0);
            counts[parent] += 1;
            parents.push(parent);
            path.push(link);
            link = view.first_part(link);
        } else {
            let Some(record) = path.pop() else { break };
            if kinds[record].part_count().is_some_and(|count| count != counts[record]) {
                return None;
            }
            link = view.next(record);
        }
    }
    (parents.len() == view.records()).then_some(parents)
}

/// Flags, bytes 2 to 7 and byte 15 of a record; a zone's place belongs to the labels.
fn figures_right(view: &View, kind: Kind, record: usize, is_field: bool) -> bool {
    let mut flags = if is_field { NULLABLE } else { 0 };
    flags |= match kind {
        Kind::Map => SORTED,
        Kind::Timestamp => ZONED,
        _ => 0,
    };
    let size_right = match kind {
        Kind::FixedSizeBinary | Kind::FixedSizeList => view.size(record) >= 0,
        Kind::Timestamp if view.has_zone(record) => view.byte(record, 7) == 0,
        _ => view.size(record) == 0,
    };
    view.byte(record, 1) & !flags == 0
        && figure_right(view, kind, record)
        && size_right
        && view.byte(record, 15) == 0
}

/// Bytes 2 and 3: precision and scale, or a unit, or unused.
fn figure_right(view: &View, kind: Kind, record: usize) -> bool {
    if kind.precision_cap().is_some() {
        return head(view, kind, record).check().is_ok();
    }
    let greatest = match kind {
        Kind::Time32 | Kind::Time64 | Kind::Timestamp | Kind::Duration => 3,
        Kind::Interval => 2,
        _ => 0,
    };
    view.byte(record, 2) <= greatest && view.byte(record, 3) == 0
}

/// Every label stands where the one before it ends, none where none may be, and they end at m.
fn labels_right(view: &View, is_field: impl Fn(usize) -> bool) -> bool {
    let mut end = 0;
    let mut stands = |(offset, length): (usize, usize)| {
        let due = if length == 0 { 0 } else { end };
        end += length;
        offset == due
    };
    for record in 1..view.records() {
        let name = view.name_place(record);
        if (name.1 != 0 && !is_field(record)) || !stands(name) {
            return false;
        }
        if view.has_zone(record) && !stands(view.zone_place(record)) {
            return false;
        }
    }
    end == view.labels().len()
}

fn names_differ(view: &View, record: usize) -> bool {
    let parts = chain(view, view.first_part(record));
    let mut names: Vec<&[u8]> = parts.map(|part| view.label(view.name_place(part))).collect();
    names.sort_unstable();
    names.windows(2).all(|two| two[0] != two[1])
}

/// The records of a chain. In a sheet whose walk is right a link leads to a later record.
fn chain<'a>(view: &'a View, first: usize) -> impl Iterator<Item = usize> + 'a {
    let start = Some(first).filter(|&record| record != 0);
    std::iter::successors(start, |&record| Some(view.next(record)).filter(|&next| next != 0))
}

/// Builds the types from the last record to the first: parts come after their type, so they are
/// there when it is built, and nothing recurses.
fn build(view: &View, kinds: &[Kind]) -> Option<Vec<DataType>> {
    let mut built: Vec<Option<Field>> = Vec::new();
    built.resize_with(view.records(), || None);
    for record in (1..view.records()).rev() {
        let parts = chain(view, view.first_part(record)).map(|part| built[part].take());
        let parts = parts.collect::<Option<Vec<Field>>>()?;
        let zone = view.has_zone(record).then(|| Label::from(view.label(view.zone_place(record))));
        let data_type = DataType::of(head(view, kinds[record], record), zone, parts)?;
        let name = view.label(view.name_place(record));
        built[record] = Some(Field::new(name, data_type, view.is_nullable(record)));
    }
    let listed = chain(view, usize::from(view.records() > 1));
    listed.map(|record| built[record].take().map(|field| field.data_type)).collect()
}

fn head(view: &View, kind: Kind, record: usize) -> Head {
    Head {
        kind,
        figure: view.byte(record, 2),
        scale: view.byte(record, 3) as i8,
        size: view.size(record),
        sorted: view.is_sorted(record),
    }
}
