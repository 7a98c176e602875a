//! One record as a file sends it: its tags (4), the values of its fields (5), its trees (6), its keys (7).

use std::collections::HashSet;

use crate::build::Field;
use crate::model::{Association, General, Key, Kind, Record, Spatial};
use crate::subfields::{all_of, repeated, Subfields};
use crate::tree::{self, Tuple};

pub const INSERT: u8 = 1;
pub const DELETE: u8 = 2;
pub const MODIFY: u8 = 3;

#[derive(Clone, Copy, PartialEq, Eq)]
pub enum Mode {
    Dataset,
    Update,
}

/// The values of one field.
#[derive(Clone, Debug)]
pub enum Part {
    Object([u8; 8]),
    Attributes(Vec<Tuple>),
    Association { key: (Key, u16, u16), instruction: u8, attributes: Vec<Tuple> },
    Control { instruction: u8, index: u16, count: u16 },
    Position(i32, i32),
    Coordinates(Vec<(i32, i32)>),
    Spatial(Vec<(Spatial, u8)>),
}

/// A record with the values of all its fields.
#[derive(Clone, Debug)]
pub struct Sent {
    pub kind: Kind,
    pub rcid: u32,
    pub code: u16,
    pub version: u16,
    pub instruction: u8,
    pub parts: Vec<Part>,
}

impl Sent {
    pub fn key(&self) -> Key {
        (self.kind.name(), self.rcid)
    }

    /// The coordinate tuples of all its C2IL fields.
    pub fn coordinates(&self) -> Vec<(i32, i32)> {
        let lists = self.parts.iter().filter_map(|p| match p {
            Part::Coordinates(list) => Some(list.as_slice()),
            _ => None,
        });
        lists.collect::<Vec<_>>().concat()
    }

    /// It is as in a dataset: it stands in one, or it is inserted.
    fn stored(&self, mode: Mode) -> bool {
        mode == Mode::Dataset || self.instruction == INSERT
    }
}

/// A record of one of the four kinds, tested number by number: 4, 5, 6, and 7 within a record that is to be stored.
pub fn record(mode: Mode, fields: &[Field]) -> Result<Sent, u32> {
    let kind = tags(mode, fields).ok_or(4u32)?;
    let sent = values(mode, kind, fields).ok_or(5u32)?;
    if !sent.parts.iter().all(|part| stands(part, sent.stored(mode))) {
        return Err(6);
    }
    if sent.stored(mode) && !keys_once(&sent) {
        return Err(7);
    }
    Ok(sent)
}

// ---- 4: tags, their order and their presence

/// The tags after the identifier, and whether each may stand more than once.
fn rows(kind: Kind) -> &'static [(&'static [u8; 4], bool)] {
    match kind {
        Kind::Information => &[(b"ATTR", false), (b"INAS", true)],
        Kind::Point => &[(b"INAS", true), (b"C2IT", false)],
        Kind::MultiPoint => &[(b"INAS", true), (b"COCC", false), (b"C2IL", true)],
        Kind::Feature => &[(b"FOID", false), (b"ATTR", false), (b"INAS", true), (b"SPAS", true)],
    }
}

fn in_order(fields: &[Field], rows: &[(&[u8; 4], bool)]) -> bool {
    let mut row = 0;
    for field in fields {
        let Some(found) = rows[row..].iter().position(|(tag, _)| **tag == field.tag) else {
            return false;
        };
        row += found;
        if !rows[row].1 {
            row += 1;
        }
    }
    true
}

/// The kind of the record, if it has the tags that its kind, its mode and its instructions take.
fn tags(mode: Mode, fields: &[Field]) -> Option<Kind> {
    let (identifier, rest) = fields.split_first()?;
    let kind = Kind::of_tag(&identifier.tag)?;
    if !in_order(rest, rows(kind)) {
        return None;
    }
    let place = if kind.coded() { 9 } else { 7 };
    let instruction = identifier.body.get(place).copied();
    let has = |tag: &[u8; 4]| rest.iter().any(|f| f.tag == *tag);
    let refused = match mode {
        Mode::Dataset => has(b"COCC"),
        Mode::Update => not_taken(instruction, rest),
    };
    let as_stored = mode == Mode::Dataset || instruction == Some(INSERT);
    let needed = match kind {
        Kind::Point => has(b"C2IT"),
        Kind::Feature => has(b"FOID"),
        _ => true,
    };
    (!refused && (needed || !as_stored)).then_some(kind)
}

/// A field stands in an update record that an instruction, if in range, does not take.
fn not_taken(instruction: Option<u8>, rest: &[Field]) -> bool {
    let control = rest.iter().find(|f| f.tag == *b"COCC");
    let lists = rest.iter().any(|f| f.tag == *b"C2IL");
    let deletes_places = control.is_some_and(|f| f.body.first() == Some(&DELETE));
    match instruction {
        Some(DELETE) if !rest.is_empty() => true,
        Some(INSERT) if control.is_some() => true,
        Some(MODIFY) if lists && control.is_none() => true,
        _ => lists && deletes_places,
    }
}

// ---- 5: the values of each field

const RCID: std::ops::RangeInclusive<u32> = 1..=4_294_967_294;
const FREE: std::ops::RangeInclusive<u32> = 0..=u32::MAX;
const CODE: std::ops::RangeInclusive<u16> = 0..=65_534;
const COUNT: std::ops::RangeInclusive<u16> = 1..=65_534;
const ANY_CHANGE: &[u8] = &[INSERT, DELETE, MODIFY];

fn values(mode: Mode, kind: Kind, fields: &[Field]) -> Option<Sent> {
    let (identifier, rest) = fields.split_first()?;
    let mut sent = all_of(&identifier.body, |s| identified(s, mode, kind))?;
    let stored = sent.stored(mode);
    for field in rest {
        sent.parts.push(part(field, stored)?);
    }
    let number = sent.coordinates().len();
    let counted = sent.parts.iter().all(|part| match part {
        Part::Control { instruction, count, .. } => *instruction == DELETE || usize::from(*count) == number,
        _ => true,
    });
    counted.then_some(sent)
}

fn identified(s: &mut Subfields, mode: Mode, kind: Kind) -> Option<Sent> {
    s.b11(&[kind.name()])?;
    let rcid = s.b14(RCID)?;
    let code = if kind.coded() { s.b12(CODE)? } else { 0 };
    let version = s.b12(COUNT)?;
    let instruction = s.b11(if mode == Mode::Dataset { &[INSERT] } else { ANY_CHANGE })?;
    Some(Sent { kind, rcid, code, version, instruction, parts: Vec::new() })
}

fn part(field: &Field, stored: bool) -> Option<Part> {
    let body = field.body.as_slice();
    match &field.tag {
        b"FOID" => body.try_into().ok().map(Part::Object),
        b"ATTR" => all_of(body, |s| tuples(s, if stored { &[INSERT] } else { ANY_CHANGE })).map(Part::Attributes),
        b"INAS" => all_of(body, |s| association(s, stored)),
        b"COCC" => all_of(body, |s| {
            Some(Part::Control { instruction: s.b11(ANY_CHANGE)?, index: s.b12(COUNT)?, count: s.b12(COUNT)? })
        }),
        b"C2IT" => all_of(body, |s| Some(Part::Position(s.b24()?, s.b24()?))),
        b"C2IL" => all_of(body, |s| repeated(s, |s| Some((s.b24()?, s.b24()?)))).map(Part::Coordinates),
        b"SPAS" => all_of(body, |s| repeated(s, |s| spatial(s, stored))).map(Part::Spatial),
        _ => None,
    }
}

fn tuples(s: &mut Subfields, instructions: &[u8]) -> Option<Vec<Tuple>> {
    repeated(s, |s| {
        Some(Tuple {
            code: s.b12(CODE)?,
            index: s.b12(COUNT)?,
            parent: s.b12(0..=u16::MAX)?,
            instruction: s.b11(instructions)?,
            value: s.text()?.to_vec(),
        })
    })
}

fn association(s: &mut Subfields, stored: bool) -> Option<Part> {
    let key = ((s.b11(&[150])?, s.b14(FREE)?), s.b12(CODE)?, s.b12(CODE)?);
    let instruction = s.b11(if stored { &[INSERT] } else { &[INSERT, DELETE] })?;
    let attributes = if instruction == DELETE { Vec::new() } else { tuples(s, &[INSERT])? };
    Some(Part::Association { key, instruction, attributes })
}

fn spatial(s: &mut Subfields, stored: bool) -> Option<(Spatial, u8)> {
    let key = (s.b11(&[110, 115])?, s.b14(FREE)?);
    let orientation = s.b11(&[1, 2, 255])?;
    let (scale_minimum, scale_maximum) = (s.b14(FREE)?, s.b14(FREE)?);
    let instruction = s.b11(if stored { &[INSERT] } else { &[INSERT, DELETE] })?;
    Some((Spatial { key, orientation, scale_minimum, scale_maximum }, instruction))
}

// ---- 6 and 7

/// The tree rule: the whole of it, or, for the attributes of a modify, what it asks of parents.
fn stands(part: &Part, stored: bool) -> bool {
    match part {
        Part::Attributes(list) if stored => tree::whole_rule(list),
        Part::Attributes(list) => tree::parents_rule(list),
        Part::Association { attributes, .. } => tree::whole_rule(attributes),
        _ => true,
    }
}

fn keys_once(sent: &Sent) -> bool {
    let (mut associations, mut spatials) = (HashSet::new(), HashSet::new());
    sent.parts.iter().all(|part| match part {
        Part::Association { key, .. } => associations.insert(*key),
        Part::Spatial(list) => list.iter().all(|(s, _)| spatials.insert(s.key)),
        _ => true,
    })
}

// ---- what an accepted record means

/// The stored record that a record of a dataset, or an inserted one, is.
pub fn meaning(sent: &Sent) -> Record {
    let mut record = Record {
        kind: sent.kind,
        rcid: sent.rcid,
        code: sent.code,
        version: sent.version,
        object: None,
        attributes: Vec::new(),
        associations: Vec::new(),
        coordinates: Vec::new(),
        spatial: Vec::new(),
    };
    for part in &sent.parts {
        match part {
            Part::Object(object) => record.object = Some(*object),
            Part::Attributes(list) => record.attributes = tree::forest(list),
            Part::Association { key, attributes, .. } => {
                record.associations.push(Association { key: *key, attributes: tree::forest(attributes) });
            }
            Part::Control { .. } => {}
            Part::Position(y, x) => record.coordinates.push((*y, *x)),
            Part::Coordinates(list) => record.coordinates.extend_from_slice(list),
            Part::Spatial(list) => record.spatial.extend(list.iter().map(|(s, _)| s.clone())),
        }
    }
    record
}

// ---- the general record

/// The fields of a general record after DSID, each at most once.
pub const UNREAD: [&[u8; 4]; 7] = [b"DSSI", b"ATCS", b"ITCS", b"FTCS", b"IACS", b"FACS", b"ARCS"];

pub fn general(mode: Mode, fields: &[Field]) -> Result<General, u32> {
    let (identification, rest) = fields.split_first().ok_or(4u32)?;
    if identification.tag != *b"DSID" || !in_order(rest, &UNREAD.map(|tag| (tag, false))) {
        return Err(4);
    }
    let least = if mode == Mode::Update { 1 } else { 0 };
    let numbers = all_of(&identification.body, |s| {
        s.b11(&[10])?;
        s.b14(RCID)?;
        for _ in 0..5 {
            s.text()?;
        }
        let name = s.text()?.to_vec();
        let (edition, update) = (s.b12(COUNT)?, s.b12(least..=65_534)?);
        s.fixed(8)?;
        Some((name, edition, update))
    });
    let (name, edition, update) = numbers.ok_or(5u32)?;
    Ok(General { name, edition, update, fields: fields.to_vec() })
}
