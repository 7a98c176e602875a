//! An update applied: its general record, then its records in file order, each on the latest version.

use std::collections::HashSet;

use crate::build::Field;
use crate::file::{refusal, references, Refusal, RESULT, UPDATE};
use crate::model::{Association, Dataset, General, Key, Record, Spatial};
use crate::sent::{self, Part, Sent, DELETE, INSERT, UNREAD};
use crate::tree;
use crate::written::{self, LONGEST_RECORD};

/// The dataset that a dataset and an update make.
pub fn applied(dataset: Dataset, general: General, sent: &[Sent]) -> Result<Dataset, Refusal> {
    let general = follow(&dataset.general, general).map_err(|number| refusal(number, UPDATE, 2))?;
    let mut records = dataset.records;
    for (n, change) in sent.iter().enumerate() {
        step(&mut records, change).map_err(|number| refusal(number, UPDATE, n + 3))?;
    }
    let keys: HashSet<Key> = records.iter().map(Record::key).collect();
    references(&records, &keys, RESULT)?;
    Ok(Dataset { general, records, ..dataset })
}

/// The general record of the result: 8 where the update does not follow, 12 where it is too long.
fn follow(old: &General, new: General) -> Result<General, u32> {
    let next = u32::from(old.update) + 1;
    if new.name != old.name || new.edition != old.edition || u32::from(new.update) != next {
        return Err(8);
    }
    let mut fields = vec![new.fields[0].clone()];
    for tag in UNREAD {
        let with_tag = |f: &&Field| f.tag == *tag;
        fields.extend(new.fields.iter().find(with_tag).or(old.fields.iter().find(with_tag)).cloned());
    }
    fits(&fields)?;
    Ok(General { fields, ..new })
}

fn fits(fields: &[Field]) -> Result<(), u32> {
    if written::length(fields) > LONGEST_RECORD {
        return Err(12);
    }
    Ok(())
}

/// One update record on the records as the earlier ones left them.
fn step(records: &mut Vec<Record>, change: &Sent) -> Result<(), u32> {
    let found = records.iter().position(|r| r.key() == change.key());
    if change.instruction == INSERT {
        if found.is_some() {
            return Err(7);
        }
        if change.version != 1 {
            return Err(10);
        }
        let record = sent::meaning(change);
        fits(&written::fields(&record))?;
        let end = records.iter().rposition(|r| r.kind <= record.kind).map_or(0, |last| last + 1);
        records.insert(end, record);
        return Ok(());
    }
    let at = found.ok_or(9u32)?;
    agrees(&records[at], change)?;
    if change.instruction == DELETE {
        records.remove(at);
        return Ok(());
    }
    records[at].version = change.version;
    for part in &change.parts {
        act(&mut records[at], part, change)?;
    }
    fits(&written::fields(&records[at]))
}

/// RVER is the old one plus one; code and FOID are the old ones.
fn agrees(old: &Record, change: &Sent) -> Result<(), u32> {
    let other_object = change.parts.iter().any(|part| matches!(part, Part::Object(o) if old.object != Some(*o)));
    if u32::from(change.version) != u32::from(old.version) + 1 || change.code != old.code || other_object {
        return Err(10);
    }
    Ok(())
}

/// One field of a modify.
fn act(record: &mut Record, part: &Part, change: &Sent) -> Result<(), u32> {
    match part {
        Part::Object(_) | Part::Coordinates(_) => Ok(()),
        Part::Attributes(tuples) => tree::edit(&mut record.attributes, tuples),
        Part::Association { key, instruction, attributes } => {
            let item = Association { key: *key, attributes: tree::forest(attributes) };
            keyed(&mut record.associations, |a| a.key == *key, *instruction, item)
        }
        Part::Control { instruction, index, count } => {
            let sent = change.coordinates();
            placed(&mut record.coordinates, *instruction, usize::from(*index), usize::from(*count), &sent)
        }
        Part::Position(y, x) => {
            record.coordinates = vec![(*y, *x)];
            Ok(())
        }
        Part::Spatial(list) => list.iter().try_for_each(|(item, instruction)| {
            let same = |s: &Spatial| s.key == item.key;
            keyed(&mut record.spatial, same, *instruction, item.clone())
        }),
    }
}

/// Insert appends, its key absent before (else 7); delete removes by key (else 9).
fn keyed<T>(list: &mut Vec<T>, same: impl Fn(&T) -> bool, instruction: u8, item: T) -> Result<(), u32> {
    match (list.iter().position(same), instruction) {
        (Some(_), INSERT) => Err(7),
        (None, INSERT) => {
            list.push(item);
            Ok(())
        }
        (Some(at), _) => {
            list.remove(at);
            Ok(())
        }
        (None, _) => Err(9),
    }
}

/// Tuples put before place `index`, or `count` of them from there on replaced or removed; 9 where there is no such place.
fn placed<T: Clone>(list: &mut Vec<T>, instruction: u8, index: usize, count: usize, sent: &[T]) -> Result<(), u32> {
    if instruction == INSERT {
        if index > list.len() + 1 {
            return Err(9);
        }
        list.splice(index - 1..index - 1, sent.iter().cloned());
        return Ok(());
    }
    if index + count - 1 > list.len() {
        return Err(9);
    }
    let range = index - 1..index - 1 + count;
    if instruction == DELETE {
        list.drain(range);
    } else {
        list.splice(range, sent.iter().cloned());
    }
    Ok(())
}
