//! Files of which one of the first two records cannot be read, a third one standing behind them.

use super::super::skeleton::{edited, number_at, Edit};
use super::*;

/// What is wrong, the bytes of the file, and number and record of the refusal.
pub struct Fault {
    pub name: String,
    pub bytes: Vec<u8>,
    pub number: u32,
    pub record: usize,
}

/// The faults of a dataset's or an update's first two records.
pub fn faults(records: &Records) -> Vec<Fault> {
    let mut found = ends(records);
    found.extend([1, 2].into_iter().flat_map(|number| skeletons(records, number)));
    found.extend(tags(records));
    found.extend(values(records));
    found
}

/// One fault of each number and record.
pub fn one_of_each(records: &Records) -> Vec<Fault> {
    let mut met = Vec::new();
    let mut all = faults(records);
    all.retain(|fault| {
        let place = (fault.number, fault.record);
        let new = !met.contains(&place);
        met.push(place);
        new
    });
    all
}

fn fault(name: &str, bytes: Vec<u8>, number: u32, record: usize) -> Fault {
    Fault { name: name.to_string(), bytes, number, record }
}

/// The file ends before or inside its second record.
fn ends(records: &Records) -> Vec<Fault> {
    let whole = file(records);
    let (first, second) = (file(&records[..1]).len(), file(&records[..2]).len());
    let rows: [(&str, usize, u32, usize); 8] = [
        ("no bytes", 0, 1, 1),
        ("23 bytes of the first record", 23, 1, 1),
        ("the first record without its last byte", first - 1, 1, 1),
        ("one record", first, 4, 2),
        ("a byte of the second record", first + 1, 1, 2),
        ("23 bytes of the second record", first + 23, 1, 2),
        ("24 bytes of the second record", first + 24, 1, 2),
        ("the second record without its last byte", second - 1, 1, 2),
    ];
    rows.map(|(name, length, number, record)| fault(name, whole[..length].to_vec(), number, record)).into()
}

/// Leader and directory of one of the two records, changed.
fn skeletons(records: &Records, place: usize) -> Vec<Fault> {
    let rows: [(&str, u32, Edit); 12] = [
        ("a length far past the end", 1, |r| r[..5].copy_from_slice(b"99999")),
        ("a blank in the length", 2, |r| r[0] = b' '),
        ("another byte 6 in the leader", 2, |r| r[6] = b'~'),
        ("a width of 0", 2, |r| r[20] = b'0'),
        ("another byte 22 in the leader", 2, |r| r[22] = b'1'),
        ("a wrong leader and a length past the end", 2, |r| r[..6].copy_from_slice(b"99999~")),
        ("a length one too small", 3, |r| number_at(r, 0, -1)),
        ("a base one too great", 3, |r| number_at(r, 12, 1)),
        ("a field length of 0", 3, |r| r[28..33].copy_from_slice(b"00000")),
        ("a first position of 1", 3, |r| r[37] = b'1'),
        ("a last field that ends in 1F", 3, |r| *r.last_mut().expect("bytes") = 0x1f),
        ("no entry", 3, |r| r[24] = 0x1e),
    ];
    let at = |(name, number, edit): (&str, u32, Edit)| {
        fault(&format!("{name}, record {place}"), edited(records, place, edit), number, place)
    };
    let mut found: Vec<Fault> = rows.into_iter().map(at).collect();
    let other_leader = edited(records, place, |r| *r = record(place != 1, 5, 5, &records[place - 1]));
    found.push(fault(&format!("the other leader, record {place}"), other_leader, 2, place));
    found
}

/// The general record with these fields.
fn general(records: &Records, name: &str, fields: Vec<Field>, number: u32) -> Fault {
    fault(name, file(&changed_in(records.clone(), 2, |general| *general = fields)), number, 2)
}

fn tags(records: &Records) -> Vec<Fault> {
    let id = || records[1][0].clone();
    let rows: [(&str, Vec<Field>); 7] = [
        ("a point in the second place", vec![prid(NEW, 1, 1), c2it(0, 0)]),
        ("DSSI before DSID", vec![empty("DSSI"), id()]),
        ("DSID twice", vec![id(), id()]),
        ("DSSI twice", vec![id(), empty("DSSI"), empty("DSSI")]),
        ("ARCS before ATCS", vec![id(), empty("ARCS"), empty("ATCS")]),
        ("CSID in the general record", vec![id(), empty("CSID")]),
        ("an unknown field and RCID 0", vec![with(id(), 1, &[0; 4]), empty("ABCD")]),
    ];
    rows.into_iter().map(|(name, fields)| general(records, name, fields, 4)).collect()
}

/// DSID is RCNM, RCID from 1, five empty texts, the name from 10, its edition from 16, its update number from 18, its date.
fn values(records: &Records) -> Vec<Fault> {
    let id = || records[1][0].clone();
    let mut text_less = id();
    text_less.body.remove(5);
    let rows: [(&str, Field); 13] = [
        ("RCNM 11", with(id(), 0, &[11])),
        ("RCID 0", with(id(), 1, &[0; 4])),
        ("the greatest RCID", with(id(), 1, &[0xff; 4])),
        ("1E in the name", with(id(), 12, &[0x1e])),
        ("1E in the first text", with(id(), 5, &[0x1e])),
        ("a text less", text_less),
        ("edition 0", with(id(), 16, &[0; 2])),
        ("edition 65,535", with(id(), 16, &[0xff; 2])),
        ("update number 65,535", with(id(), 18, &[0xff; 2])),
        ("1F in the date", with(id(), 22, &[0x1f])),
        ("a date of seven bytes", shorter(id(), 1)),
        ("a date of nine bytes", longer(id(), b"0")),
        ("an empty DSID", empty("DSID")),
    ];
    rows.into_iter().map(|(name, id)| general(records, name, vec![id, empty("DSSI")], 5)).collect()
}
