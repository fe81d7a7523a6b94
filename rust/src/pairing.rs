//! Which fields of two Structs a union or a comparison matches by place.
//!
//! Two Structs with the same set of names are matched by name. Where the sets differ, and there are
//! as many fields on both sides, the first field of the one meets the first of the other, the
//! second meets the second, and so on, whatever they are called. Nothing in the answer tells that:
//! what a counter calls `loose` may be fed by what a till calls `cases`. [`by_place`] finds such
//! Structs, at any depth.
//!
//! A list finds the fields of two Structs by name and has no answer where a name is missing.

use crate::{DataType, Field, Label};
use std::collections::HashMap;

/// Two Structs that are matched by place.
///
/// A path has the names of the parts that lead to a Struct, from the outside in; it is empty where
/// the type itself is the Struct. The parts of a Dictionary have no names and stand in a path as
/// `index` and `value`. The two paths may differ, in names, and where one side has a Dictionary or
/// a RunEndEncoded that the other has not.
#[derive(Clone, Debug, PartialEq, Eq)]
#[non_exhaustive]
pub struct ByPlace {
    /// Where the left Struct stands in the left type.
    pub left: Vec<Label>,
    /// Where the right Struct stands in the right type.
    pub right: Vec<Label>,
    /// The name of each field of the left Struct, in its order, with that of the right's field
    /// which feeds it.
    pub pairs: Vec<(Label, Label)>,
}

/// The Structs that a union or a comparison of two types matches by place: an outer one before
/// those inside it, else in the order of the left type.
///
/// Both questions match in the same way. What is found holds for types that have a common type;
/// where there is none, nothing is matched in the end. Types that are alike, the same but for
/// names, are no exception: their answer is the left one, with no look at the columns, but whoever
/// joins the columns has to pair them, and does so by the same rule.
///
/// ```
/// use pemzhulaq::{pairing, DataType};
/// let ours: DataType = "Struct(cases: Int64, loose: Int64)".parse()?;
/// let till: DataType = "Struct(pieces: Int64, cases: Int64)".parse()?;
/// let found = pairing::by_place(&ours, &till);
/// assert_eq!(found.len(), 1);
/// let expected = [("cases".into(), "pieces".into()), ("loose".into(), "cases".into())];
/// assert_eq!(found[0].pairs, expected);
/// # Ok::<(), Box<dyn std::error::Error>>(())
/// ```
pub fn by_place(left: &DataType, right: &DataType) -> Vec<ByPlace> {
    use DataType::*;
    let mut found = Vec::new();
    // The pairs of types that are still to be looked at, the next one last. They are kept in a
    // list and not on the stack, so that types of any depth will do.
    let mut open = vec![(Place::new(left), Place::new(right))];
    while let Some((left, right)) = open.pop() {
        match (left.data_type, right.data_type) {
            (Struct(ours), Struct(theirs)) if ours.len() == theirs.len() => {
                let theirs = fields_by_name(ours, theirs).unwrap_or_else(|| {
                    found.push(matched_by_place(&left, ours, &right, theirs));
                    theirs.iter().collect()
                });
                let pairs = ours.iter().zip(theirs).rev();
                open.extend(pairs.map(|(our, their)| (left.field(our), right.field(their))));
            }
            (
                List(our) | LargeList(our) | FixedSizeList(our, _),
                List(their) | LargeList(their) | FixedSizeList(their, _),
            )
            | (Map(our, _), Map(their, _)) => open.push((left.field(our), right.field(their))),
            _ => open.extend(unwrapped(left, right).into_iter().rev()),
        }
    }
    found
}

/// The right's fields in the order of the left's names; nothing where a name is missing.
fn fields_by_name<'a>(ours: &[Field], theirs: &'a [Field]) -> Option<Vec<&'a Field>> {
    let named: HashMap<&Label, &Field> = theirs.iter().map(|field| (&field.name, field)).collect();
    ours.iter().map(|our| named.get(&our.name).copied()).collect()
}

fn matched_by_place(left: &Place, ours: &[Field], right: &Place, theirs: &[Field]) -> ByPlace {
    let names = |(our, their): (&Field, &Field)| (our.name.clone(), their.name.clone());
    ByPlace {
        left: left.labels(),
        right: right.labels(),
        pairs: ours.iter().zip(theirs).map(names).collect(),
    }
}

/// What meets where at least one of two types is a Dictionary or a RunEndEncoded: values, with the
/// other type where only one is wrapped; the Dictionary goes first. Alike types meet part by part.
fn unwrapped<'a>(left: Place<'a>, right: Place<'a>) -> Vec<(Place<'a>, Place<'a>)> {
    use DataType::*;
    match (left.data_type, right.data_type) {
        (Dictionary(our_index, our_value), Dictionary(their_index, their_value)) => {
            let values = (left.value(our_value), right.value(their_value));
            if alike(left.data_type, right.data_type) {
                vec![(left.index(our_index), right.index(their_index)), values]
            } else {
                vec![values]
            }
        }
        (Dictionary(_, value), _) => vec![(left.value(value), right)],
        (_, Dictionary(_, value)) => {
            let value = right.value(value);
            vec![(left, value)]
        }
        (RunEndEncoded(our_ends, our_values), RunEndEncoded(their_ends, their_values)) => {
            let values = (left.field(our_values), right.field(their_values));
            if alike(left.data_type, right.data_type) {
                vec![(left.field(our_ends), right.field(their_ends)), values]
            } else {
                vec![values]
            }
        }
        (RunEndEncoded(_, values), _) => vec![(left.field(values), right)],
        (_, RunEndEncoded(_, values)) => {
            let values = right.field(values);
            vec![(left, values)]
        }
        _ => Vec::new(),
    }
}

/// Whether two types are the same but for names.
fn alike(left: &DataType, right: &DataType) -> bool {
    let mut open = vec![(left, right)];
    while let Some((left, right)) = open.pop() {
        let (ours, theirs) = (left.parts(), right.parts());
        let mut pairs = ours.iter().zip(&theirs);
        if left.head() != right.head()
            || left.zone() != right.zone()
            || ours.len() != theirs.len()
            || pairs.any(|(our, their)| our.nullable != their.nullable)
        {
            return false;
        }
        open.extend(ours.iter().zip(&theirs).map(|(our, their)| (our.data_type, their.data_type)));
    }
    true
}

/// A type in another, and the names that lead to it.
struct Place<'a> {
    data_type: &'a DataType,
    path: Vec<&'a [u8]>,
}

impl<'a> Place<'a> {
    fn new(data_type: &'a DataType) -> Place<'a> {
        Place { data_type, path: Vec::new() }
    }

    fn part(&self, name: &'a [u8], data_type: &'a DataType) -> Place<'a> {
        let path = self.path.iter().copied().chain([name]).collect();
        Place { data_type, path }
    }

    fn field(&self, field: &'a Field) -> Place<'a> {
        self.part(field.name.as_bytes(), &field.data_type)
    }

    fn index(&self, data_type: &'a DataType) -> Place<'a> {
        self.part(b"index", data_type)
    }

    fn value(&self, data_type: &'a DataType) -> Place<'a> {
        self.part(b"value", data_type)
    }

    fn labels(&self) -> Vec<Label> {
        self.path.iter().map(|&name| name.into()).collect()
    }
}
