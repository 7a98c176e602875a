//! The dataset that most directed cases start from, and small changes to fields and records.

use crate::build::*;

pub type Records = Vec<Vec<Field>>;

/// The numbers of the base dataset's records.
pub const INFORMATION: usize = 4;
pub const POINT: usize = 6;
pub const MULTI: usize = 7;
pub const FEATURE: usize = 8;
pub const BARE_FEATURE: usize = 9;

/// Where a further record of each kind ends up.
pub const AS_INFORMATION: usize = 6;
pub const AS_POINT: usize = 7;
pub const AS_MULTI: usize = 8;
pub const AS_FEATURE: usize = 10;

/// An RCID that the base dataset has not.
pub const NEW: u32 = 50;

/// The feature's attributes: places 1 to 7.
pub const TREE: [Tuple<'static>; 7] = [
    (21, 1, 0, 1, "a"),
    (22, 1, 0, 1, ""),
    (25, 1, 2, 1, "b"),
    (25, 2, 2, 1, "c"),
    (26, 1, 2, 1, ""),
    (27, 1, 5, 1, "d"),
    (22, 2, 0, 1, ""),
];

/// Its spatial associations.
pub const PLACES: [Spatial; 2] = [(110, 7, 1, 0, u32::MAX, 1), (115, 8, 255, 1000, 5, 1)];

/// Nine records: two information types (5, 6), point 7, multi point 8, features 3 and 4.
pub fn dataset() -> Records {
    vec![
        vec![field("0000", b"unread".to_vec())],
        vec![dsid(1, "CHART", 3, 7), field("DSSI", vec![0x1e, 0x1f]), field("FTCS", b"codes".to_vec())],
        vec![field("CSID", vec![15, 1, 0, 0, 0, 0x1f])],
        vec![irid(5, 30, 2, 1), attr(&[(1, 1, 0, 1, "note")])],
        vec![irid(6, 31, 1, 1)],
        vec![prid(7, 1, 1), c2it(10, -1)],
        vec![mrid(8, 4, 1), inas(5, 1, 2, 1, &[]), c2il(&[(1, 1), (2, 2), (3, 3)])],
        feature(2, &TREE),
        vec![frid(4, 41, 1, 1), foid(0xffff, 0xffffffff, 0xffff)],
    ]
}

/// The first feature with this RVER and these attributes.
pub fn feature(rver: u16, tree: &[Tuple]) -> Vec<Field> {
    vec![
        frid(3, 40, rver, 1),
        foid(1, 2, 3),
        attr(tree),
        inas(5, 1, 1, 1, &[(9, 1, 0, 1, "x")]),
        inas(6, 1, 1, 1, &[]),
        spas(&PLACES),
    ]
}

/// The first two records of an update that follows the base dataset.
pub fn heading() -> Records {
    vec![vec![field("9999", Vec::new())], vec![dsid(2, "CHART", 3, 8)]]
}

/// The base dataset after an update of no more than the heading.
pub fn after() -> Records {
    changed(2, |general| general[0] = dsid(2, "CHART", 3, 8))
}

/// Records with the one of this number changed.
pub fn changed_in(mut records: Records, number: usize, change: impl FnOnce(&mut Vec<Field>)) -> Records {
    change(&mut records[number - 1]);
    records
}

/// The base dataset with the record of this number changed.
pub fn changed(number: usize, change: impl FnOnce(&mut Vec<Field>)) -> Records {
    changed_in(dataset(), number, change)
}

/// The result of the heading alone with the record of this number replaced.
pub fn after_with(number: usize, fields: Vec<Field>) -> Records {
    changed_in(after(), number, |old| *old = fields)
}

pub fn empty(tag: &str) -> Field {
    field(tag, Vec::new())
}

/// A field with bytes behind its body.
pub fn longer(mut field: Field, more: &[u8]) -> Field {
    field.body.extend_from_slice(more);
    field
}

/// A field without its last bytes.
pub fn shorter(mut field: Field, less: usize) -> Field {
    field.body.truncate(field.body.len() - less);
    field
}

/// A field with other bytes at a place of its body.
pub fn with(mut field: Field, at: usize, bytes: &[u8]) -> Field {
    field.body[at..at + bytes.len()].copy_from_slice(bytes);
    field
}

pub fn retagged(tag: &str, from: Field) -> Field {
    field(tag, from.body)
}
