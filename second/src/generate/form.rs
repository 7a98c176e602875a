//! From what a dataset says to its bytes: in the written form, or in any other form that means the same.

use super::chart::{Association, Chart, General, Item, Kind, Location, Node};
use super::random::Random;
use crate::build::{self, Field};

/// How a choice is made where the paper leaves one: as the written form has it, or freely.
pub enum Form<'a> {
    Written,
    Free(&'a mut Random),
}

/// A tuple of an ATTR or INAS field as it is sent.
#[derive(Clone, Debug, PartialEq, Eq)]
pub struct Sent {
    pub code: u16,
    pub index: u16,
    pub parent: u16,
    pub instruction: u8,
    pub value: Vec<u8>,
}

impl Form<'_> {
    fn chance(&mut self, percent: usize) -> bool {
        match self {
            Form::Written => false,
            Form::Free(random) => random.percent(percent),
        }
    }

    /// How many of so many tuples the next field holds.
    fn share(&mut self, all: usize) -> usize {
        match self {
            Form::Written => all,
            Form::Free(random) => {
                if random.percent(40) {
                    random.between(1, all)
                } else {
                    all
                }
            }
        }
    }

    /// A list over fields: the written form has one field for it, or none if it is empty.
    pub fn parts<T: Clone>(&mut self, list: &[T]) -> Vec<Vec<T>> {
        let mut parts = Vec::new();
        let mut rest = list;
        while !rest.is_empty() {
            if self.chance(8) {
                parts.push(Vec::new());
            }
            let length = self.share(rest.len());
            parts.push(rest[..length].to_vec());
            rest = &rest[length..];
        }
        if self.chance(15) {
            parts.push(Vec::new());
        }
        parts
    }

    /// The bytes of a record, in widths that hold its lengths and positions.
    pub fn record(&mut self, first: bool, fields: &[Field]) -> Vec<u8> {
        let (a, b) = match self {
            Form::Written => (5, 5),
            Form::Free(random) => free_widths(random, fields),
        };
        build::record(first, a, b, fields)
    }

    pub fn file(&mut self, records: &[Vec<Field>]) -> Vec<u8> {
        records.iter().enumerate().flat_map(|(n, fields)| self.record(n == 0, fields)).collect()
    }
}

/// The least widths that hold a record's field lengths and positions.
pub fn least_widths(fields: &[Field]) -> (usize, usize) {
    let digits = |number: usize| number.to_string().len();
    let longest = fields.iter().map(|f| f.body.len() + 1).max().unwrap_or(1);
    let all: usize = fields.iter().map(|f| f.body.len() + 1).sum();
    let last = all - fields.last().map_or(0, |f| f.body.len() + 1);
    (digits(longest), digits(last))
}

fn free_widths(random: &mut Random, fields: &[Field]) -> (usize, usize) {
    let (a, b) = least_widths(fields);
    match random.below(10) {
        0..=3 => (5, 5),
        4..=5 => (a, b),
        6 => (9, 9),
        _ => (random.between(a, 9), random.between(b, 9)),
    }
}

/// A forest as tuples, each with the index and the parent's place that follow from where it stands.
pub fn flat(run: &[Node]) -> Vec<Sent> {
    let mut sent = Vec::new();
    flatten(run, 0, &mut sent);
    sent
}

fn flatten(run: &[Node], parent: u16, sent: &mut Vec<Sent>) {
    for (at, node) in run.iter().enumerate() {
        let earlier = run[..at].iter().filter(|other| other.code == node.code).count();
        let index = earlier as u16 + 1;
        sent.push(Sent { code: node.code, index, parent, instruction: 1, value: node.value.clone() });
        let place = sent.len() as u16;
        flatten(&node.children, place, sent);
    }
}

pub fn tuples(sent: &[Sent]) -> Vec<u8> {
    sent.iter().flat_map(|s| build::tuple(s.code, s.index, s.parent, s.instruction, &s.value)).collect()
}

pub fn association(key: (u32, u16, u16), instruction: u8, attributes: &[Node]) -> Field {
    let mut field = build::inas(key.0, key.1, key.2, instruction, &[]);
    field.body.extend(tuples(&flat(attributes)));
    field
}

/// A spatial association as the tuple of SPAS with this instruction.
pub fn location(location: &Location, instruction: u8) -> build::Spatial {
    let (smallest, largest) = location.scales;
    (location.key.0.name(), location.key.1, location.orientation, smallest, largest, instruction)
}

pub fn identifier(item: &Item, instruction: u8) -> Field {
    let (kind, rcid) = item.key;
    match kind {
        Kind::Information => build::irid(rcid, item.code, item.rver, instruction),
        Kind::Point => build::prid(rcid, item.rver, instruction),
        Kind::MultiPoint => build::mrid(rcid, item.rver, instruction),
        Kind::Feature => build::frid(rcid, item.code, item.rver, instruction),
    }
}

/// A record as it stands in a dataset, and as an update inserts it.
pub fn item(item: &Item, form: &mut Form) -> Vec<Field> {
    let mut fields = vec![identifier(item, 1)];
    if item.key.0 == Kind::Feature {
        fields.push(build::foid(item.foid.0, item.foid.1, item.foid.2));
    }
    if !item.attributes.is_empty() || (item.key.0.coded() && form.chance(15)) {
        fields.push(build::field("ATTR", tuples(&flat(&item.attributes))));
    }
    fields.extend(item.associations.iter().map(|Association { key, attributes }| association(*key, 1, attributes)));
    match item.key.0 {
        Kind::Point => fields.push(build::c2it(item.coordinates[0].0, item.coordinates[0].1)),
        Kind::MultiPoint => fields.extend(form.parts(&item.coordinates).iter().map(|part| build::c2il(part))),
        Kind::Feature => {
            let sent: Vec<build::Spatial> = item.locations.iter().map(|l| location(l, 1)).collect();
            fields.extend(form.parts(&sent).iter().map(|part| build::spas(part)));
        }
        Kind::Information => {}
    }
    fields
}

pub fn general(general: &General) -> Vec<Field> {
    let mut body = vec![10];
    body.extend_from_slice(&general.rcid.to_le_bytes());
    for text in general.texts.iter().chain([&general.name]) {
        body.extend_from_slice(text);
        body.push(0x1f);
    }
    body.extend_from_slice(&general.edition.to_le_bytes());
    body.extend_from_slice(&general.update.to_le_bytes());
    body.extend_from_slice(&general.date);
    let mut fields = vec![build::field("DSID", body)];
    fields.extend_from_slice(&general.unread);
    fields
}

/// All records of a dataset as fields.
pub fn records(chart: &Chart, form: &mut Form) -> Vec<Vec<Field>> {
    let mut records = vec![chart.descriptive.clone(), general(&chart.general), chart.csid.clone()];
    records.extend(chart.items.iter().map(|i| item(i, form)));
    records
}

/// The dataset in its written form.
pub fn written(chart: &Chart) -> Vec<u8> {
    let records = records(chart, &mut Form::Written);
    Form::Written.file(&records)
}
