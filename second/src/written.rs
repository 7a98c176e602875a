//! The written form: a = b = 5, the fields in order, lists joined, empty lists left out.

use crate::build::{self, Field};
use crate::file::{refusal, Refusal, DATASET, LONGEST, RESULT};
use crate::model::{Association, Dataset, Kind, Record};
use crate::sent::INSERT;
use crate::tree;

/// The longest written record.
pub const LONGEST_RECORD: usize = 99_999;

/// The length of a record in the written form.
pub fn length(fields: &[Field]) -> usize {
    24 + 14 * fields.len() + 1 + fields.iter().map(|f| f.body.len() + 1).sum::<usize>()
}

/// The fields of a stored record, in order.
pub fn fields(record: &Record) -> Vec<Field> {
    let mut fields = vec![identifier(record)];
    let mut put = |tag: &str, body: Vec<u8>| {
        if !body.is_empty() {
            fields.push(build::field(tag, body));
        }
    };
    put("FOID", record.object.map_or(Vec::new(), |object| object.to_vec()));
    put("ATTR", tree::bytes(&record.attributes));
    for association in &record.associations {
        put("INAS", association_body(association));
    }
    let tag = if record.kind == Kind::Point { "C2IT" } else { "C2IL" };
    put(tag, record.coordinates.iter().flat_map(|(y, x)| [y.to_le_bytes(), x.to_le_bytes()].concat()).collect());
    let spatials: Vec<build::Spatial> = record
        .spatial
        .iter()
        .map(|s| (s.key.0, s.key.1, s.orientation, s.scale_minimum, s.scale_maximum, INSERT))
        .collect();
    put("SPAS", build::spas(&spatials).body);
    fields
}

fn identifier(record: &Record) -> Field {
    let tag = std::str::from_utf8(record.kind.tag()).expect("tags are ASCII");
    if record.kind.coded() {
        build::coded(tag, record.kind.name(), record.rcid, record.code, record.version, INSERT)
    } else {
        build::plain(tag, record.kind.name(), record.rcid, record.version, INSERT)
    }
}

fn association_body(association: &Association) -> Vec<u8> {
    let ((_, rrid), niac, narc) = association.key;
    let mut body = build::inas(rrid, niac, narc, INSERT, &[]).body;
    body.extend_from_slice(&tree::bytes(&association.attributes));
    body
}

/// The fields of all records of a dataset.
pub fn records(dataset: &Dataset) -> Vec<Vec<Field>> {
    let mut all = vec![dataset.descriptive.clone(), dataset.general.fields.clone(), dataset.systems.clone()];
    all.extend(dataset.records.iter().map(fields));
    all
}

/// 12 at the first record of a dataset that is too long when it is written.
pub fn each_fits(dataset: &Dataset) -> Result<(), Refusal> {
    match records(dataset).iter().position(|fields| length(fields) > LONGEST_RECORD) {
        Some(n) => Err(refusal(12, DATASET, n + 1)),
        None => Ok(()),
    }
}

/// The written form of a dataset whose records fit; 14 where it is too long, 13 where the output slice is too short.
pub fn bytes(dataset: &Dataset, room: usize) -> Result<Vec<u8>, Refusal> {
    let records = records(dataset);
    let total: usize = records.iter().map(|fields| length(fields)).sum();
    if total > LONGEST {
        return Err(refusal(14, RESULT, 0));
    }
    if total > room {
        return Err(refusal(13, RESULT, 0));
    }
    Ok(build::file(&records))
}
