//! Files, record after record: a dataset (1 to 7, then 11), the first pass over an update (1 to 7), and no more of
//! either than its first two records.

use std::collections::HashSet;

use crate::build::Field;
use crate::model::{Dataset, General, Key, Record};
use crate::sent::{self, Mode, Sent};
use crate::skeleton;

pub const DATASET: u32 = 1;
pub const UPDATE: u32 = 2;
pub const RESULT: u32 = 3;

/// The longest input and the longest result.
pub const LONGEST: usize = 16_777_216;

/// A refusal: its number, the file and the record that it is at.
#[derive(Clone, Copy, Debug, PartialEq, Eq)]
pub struct Refusal {
    pub number: u32,
    pub file: u32,
    pub record: usize,
}

pub fn refusal(number: u32, file: u32, record: usize) -> Refusal {
    Refusal { number, file, record }
}

/// 14 where a file is too long to be read as a whole.
pub fn short_enough(bytes: &[u8], file: u32) -> Result<(), Refusal> {
    if bytes.len() > LONGEST {
        return Err(refusal(14, file, 0));
    }
    Ok(())
}

/// How many records are read: a file with fewer than the least lacks the next one, and behind the most none is looked at.
struct Span {
    least: usize,
    most: usize,
}

/// So many records or more, to the end of the file.
fn from(least: usize) -> Span {
    Span { least, most: usize::MAX }
}

/// Each record's fields handed to `take` with its number.
fn each_record(
    bytes: &[u8],
    file: u32,
    span: Span,
    mut take: impl FnMut(usize, Vec<Field>) -> Result<(), u32>,
) -> Result<(), Refusal> {
    if bytes.is_empty() {
        return Err(refusal(1, file, 1));
    }
    let (mut at, mut number) = (0, 0);
    while at < bytes.len() && number < span.most {
        number += 1;
        let place = |refused| refusal(refused, file, number);
        let (fields, length) = skeleton::record_at(&bytes[at..], at == 0).map_err(place)?;
        take(number, fields).map_err(place)?;
        at += length;
    }
    if number < span.least {
        return Err(refusal(4, file, number + 1));
    }
    Ok(())
}

/// The dataset that a file is.
pub fn dataset(bytes: &[u8]) -> Result<Dataset, Refusal> {
    short_enough(bytes, DATASET)?;
    let (mut descriptive, mut general, mut systems) = (Vec::new(), None, Vec::new());
    let mut records: Vec<Record> = Vec::new();
    let mut keys: HashSet<Key> = HashSet::new();
    each_record(bytes, DATASET, from(3), |number, fields| {
        match number {
            1 => descriptive = fields,
            2 => general = Some(sent::general(Mode::Dataset, &fields)?),
            3 if fields[0].tag != *b"CSID" => return Err(4),
            3 => systems = fields,
            _ => records.push(stored(&fields, records.last(), &mut keys)?),
        }
        Ok(())
    })?;
    let general = general.expect("a dataset has three records");
    references(&records, &keys, DATASET)?;
    Ok(Dataset { descriptive, general, systems, records })
}

/// A record of a dataset after `last`: its kind is not lower (4, before its own numbers from 5 on), its key is new (7).
fn stored(fields: &[Field], last: Option<&Record>, keys: &mut HashSet<Key>) -> Result<Record, u32> {
    if let (Some(kind), Some(last)) = (crate::model::Kind::of_tag(&fields[0].tag), last) {
        if kind < last.kind {
            return Err(4);
        }
    }
    let record = sent::meaning(&sent::record(Mode::Dataset, fields)?);
    if !keys.insert(record.key()) {
        return Err(7);
    }
    Ok(record)
}

/// Every named record exists, else 11 at the first record that names one which does not.
pub fn references(records: &[Record], keys: &HashSet<Key>, file: u32) -> Result<(), Refusal> {
    match records.iter().position(|record| record.named().any(|key| !keys.contains(&key))) {
        Some(n) => Err(refusal(11, file, n + 4)),
        None => Ok(()),
    }
}

/// The first pass over an update that is short enough: its general record and its records as they are sent.
pub fn update(bytes: &[u8]) -> Result<(General, Vec<Sent>), Refusal> {
    let mut general = None;
    let mut records = Vec::new();
    each_record(bytes, UPDATE, from(2), |number, fields| {
        match number {
            1 => {}
            2 => general = Some(sent::general(Mode::Update, &fields)?),
            _ => records.push(sent::record(Mode::Update, &fields)?),
        }
        Ok(())
    })?;
    Ok((general.expect("an update has two records"), records))
}

/// The general record of a file of any length, of which the first two records alone are read.
pub fn general(bytes: &[u8], mode: Mode) -> Result<General, Refusal> {
    let file = if mode == Mode::Dataset { DATASET } else { UPDATE };
    let mut general = None;
    each_record(bytes, file, Span { least: 2, most: 2 }, |number, fields| {
        if number == 2 {
            general = Some(sent::general(mode, &fields)?);
        }
        Ok(())
    })?;
    Ok(general.expect("two records were read"))
}
