//! Numbers 1, 2 and 3: the ends of files, leaders, directories and the bounds of fields.

use super::base::{changed_in, dataset, heading, Records};
use super::{with_heading, Table};
use crate::batch::{READ, UPDATE, WRITE};
use crate::build::*;

pub fn rows(table: &mut Table) {
    ends(table);
    leader_bytes(table);
    leaders(table);
    lengths_and_bases(table);
    entries(table);
    built(table);
    accepted(table);
}

/// A change to the bytes of one record.
pub(super) type Edit = fn(&mut Vec<u8>);

/// An update with several fields in its third record, and a record behind that.
fn update() -> Records {
    let inserted = vec![irid(50, 1, 1, 1), attr(&[(1, 1, 0, 1, "v")]), inas(5, 1, 1, 1, &[])];
    with_heading(&[inserted, vec![prid(51, 1, 1), c2it(0, 0)]])
}

/// The file with the bytes of one record changed.
pub(super) fn edited(records: &Records, number: usize, edit: impl FnOnce(&mut Vec<u8>)) -> Vec<u8> {
    let mut pieces: Vec<Vec<u8>> = records.iter().enumerate().map(|(n, fields)| record(n == 0, 5, 5, fields)).collect();
    edit(&mut pieces[number - 1]);
    pieces.concat()
}

/// The change in several records of both files: none of them is the last of its file.
fn everywhere(table: &mut Table, name: &str, number: u32, edit: impl Fn(&mut Vec<u8>)) {
    for (operation, place) in [(READ, 1), (WRITE, 2), (UPDATE, 8)] {
        let name = format!("{name}, record {place}");
        table.dataset_by(operation, &name, edited(&dataset(), place, &edit), number, place);
    }
    for place in [1, 3] {
        table.update_bytes(&format!("{name}, record {place}"), edited(&update(), place, &edit), number, place);
    }
}

fn both_files(table: &mut Table, name: &str, number: u32, past: usize, edit: impl Fn(&mut Vec<u8>)) {
    for (records, is_dataset) in [(dataset(), true), (update(), false)] {
        let mut bytes = file(&records);
        edit(&mut bytes);
        let record = if past == 0 { 1 } else { records.len() - 1 + past };
        match is_dataset {
            true => table.dataset_bytes(name, bytes, number, record),
            false => table.update_bytes(name, bytes, number, record),
        }
    }
}

/// Past 0 is the first record, 1 the last, 2 the one after it.
fn ends(table: &mut Table) {
    both_files(table, "no bytes", 1, 0, |b| b.clear());
    both_files(table, "one byte", 1, 0, |b| b.truncate(1));
    both_files(table, "a leader short by one byte", 1, 0, |b| b.truncate(23));
    both_files(table, "23 bytes that are no leader", 1, 0, |b| *b = vec![0; 23]);
    both_files(table, "a leader and nothing else", 1, 0, |b| b.truncate(24));
    both_files(table, "24 bytes that are no leader", 2, 0, |b| *b = vec![0; 24]);
    both_files(table, "the last byte lost", 1, 1, |b| b.truncate(b.len() - 1));
    both_files(table, "one byte behind the last record", 1, 2, |b| b.push(0x1e));
    both_files(table, "23 bytes behind the last record", 1, 2, |b| b.extend([b' '; 23]));
    both_files(table, "24 bytes behind the last record", 2, 2, |b| b.extend([b'0'; 24]));
    let last_length_grows = |records: &Records, number| edited(records, number, |r| number_at(r, 0, 1));
    table.dataset_bytes("last length runs past the end", last_length_grows(&dataset(), 9), 1, 9);
    table.update_bytes("last length runs past the end", last_length_grows(&update(), 4), 1, 4);
    let bad_and_long = |r: &mut Vec<u8>| {
        number_at(r, 0, 1);
        r[28] = b' ';
    };
    table.dataset_bytes("a bad directory past the end", edited(&dataset(), 9, bad_and_long), 1, 9);
    let leader_and_long = |r: &mut Vec<u8>| {
        number_at(r, 0, 1);
        r[22] = b'1';
    };
    table.dataset_bytes("a bad leader past the end", edited(&dataset(), 9, leader_and_long), 2, 9);
    table.update_bytes("a bad leader past the end", edited(&update(), 4, leader_and_long), 2, 4);
}

/// Adds to the five digits at a place.
pub(super) fn number_at(record: &mut [u8], at: usize, more: i64) {
    let old: i64 = std::str::from_utf8(&record[at..at + 5]).expect("digits").parse().expect("a number");
    record[at..at + 5].copy_from_slice(format!("{:05}", old + more).as_bytes());
}

/// Each byte of the leader, in the first record and in others: a byte that cannot stand there.
fn leader_bytes(table: &mut Table) {
    for at in 0..24 {
        let wrong = |r: &mut Vec<u8>| r[at] = if at == 18 && r[at] == b' ' { b'!' } else { b'~' };
        everywhere(table, &format!("leader byte {at}"), 2, wrong);
    }
}

fn leaders(table: &mut Table) {
    let edits: [(&str, Edit); 9] = [
        ("a blank before the length", |r| r[0] = b' '),
        ("a slash as a digit of the length", |r| r[4] = b'/'),
        ("a colon as a digit of the base", |r| r[16] = b':'),
        ("a sign before the base", |r| r[12] = b'+'),
        ("width a of 0", |r| r[20] = b'0'),
        ("width b of 0", |r| r[21] = b'0'),
        ("width a of a colon", |r| r[20] = b':'),
        ("width b of a blank", |r| r[21] = b' '),
        ("entry map 4504", |r| r[22..24].copy_from_slice(b"14")),
    ];
    for (name, edit) in edits {
        everywhere(table, name, 2, edit);
    }
    let follower = record(false, 5, 5, &dataset()[0]);
    let first = record(true, 5, 5, &dataset()[3]);
    table.dataset_bytes("the first record with the leader of others", edited(&dataset(), 1, |r| *r = follower), 2, 1);
    table.dataset_bytes("a later record with the leader of the first", edited(&dataset(), 4, |r| *r = first), 2, 4);
    let follower = record(false, 5, 5, &heading()[0]);
    table.update_bytes("the first record with the leader of others", edited(&update(), 1, |r| *r = follower), 2, 1);
    let first = record(true, 5, 5, &update()[2]);
    table.update_bytes("a later record with the leader of the first", edited(&update(), 3, |r| *r = first), 2, 3);
}

fn lengths_and_bases(table: &mut Table) {
    let edits: [(&str, Edit); 14] = [
        ("length 0", |r| r[..5].copy_from_slice(b"00000")),
        ("length 23", |r| r[..5].copy_from_slice(b"00023")),
        ("length 24", |r| r[..5].copy_from_slice(b"00024")),
        ("length that ends inside the directory", |r| r[..5].copy_from_slice(b"00030")),
        ("length equal to the base", |r| r.copy_within(12..17, 0)),
        ("length one too small", |r| number_at(r, 0, -1)),
        ("length one too great", |r| number_at(r, 0, 1)),
        ("base one too small", |r| number_at(r, 12, -1)),
        ("base one too great", |r| number_at(r, 12, 1)),
        ("base 0", |r| r[12..17].copy_from_slice(b"00000")),
        ("base 24", |r| r[12..17].copy_from_slice(b"00024")),
        ("base 99999", |r| r[12..17].copy_from_slice(b"99999")),
        ("a byte between directory and fields", |r| {
            let base = base_of(r);
            r.insert(base, b'x');
            number_at(r, 12, 1);
            number_at(r, 0, 1);
        }),
        ("a byte behind the fields", |r| {
            r.push(0x1e);
            number_at(r, 0, 1);
        }),
    ];
    for (name, edit) in edits {
        everywhere(table, name, 3, edit);
    }
}

fn base_of(record: &[u8]) -> usize {
    std::str::from_utf8(&record[12..17]).expect("digits").parse().expect("a number")
}

/// The first entry lies at 24: tag, length from 28, position from 33.
fn entries(table: &mut Table) {
    let edits: [(&str, Edit); 14] = [
        ("field length one too great", |r| number_at(r, 28, 1)),
        ("field length one too small", |r| number_at(r, 28, -1)),
        ("field length 0", |r| r[28..33].copy_from_slice(b"00000")),
        ("field length 99999", |r| r[28..33].copy_from_slice(b"99999")),
        ("first position 1", |r| r[37] = b'1'),
        ("a blank before the field length", |r| r[28] = b' '),
        ("a blank before the position", |r| r[33] = b' '),
        ("a plus sign before the field length", |r| r[28] = b'+'),
        ("a minus sign before the position", |r| r[33] = b'-'),
        ("a colon as a digit of the position", |r| r[36] = b':'),
        ("the last field ends in 1F", |r| *r.last_mut().expect("bytes") = 0x1f),
        ("the directory ends in 1F", |r| {
            let end = base_of(r) - 1;
            r[end] = 0x1f;
        }),
        ("1E where the first entry starts", |r| r[24] = 0x1e),
        ("the directory ends inside an entry", |r| {
            let end = base_of(r) - 2;
            r.remove(end);
            number_at(r, 12, -1);
            number_at(r, 0, -1);
        }),
    ];
    for (name, edit) in edits {
        everywhere(table, name, 3, edit);
    }
}

/// A record put together from entries (tag, length, position) and what lies behind the directory.
fn raw(first: bool, widths: (usize, usize), entries: &[(&str, usize, usize)], body: &[u8]) -> Vec<u8> {
    let (a, b) = widths;
    let mut bytes = record(first, a, b, &[])[..24].to_vec();
    for (tag, length, position) in entries {
        bytes.extend(format!("{tag}{length:0a$}{position:0b$}").bytes());
    }
    bytes.push(0x1e);
    let base = bytes.len();
    bytes.extend_from_slice(body);
    let length = bytes.len();
    bytes[..5].copy_from_slice(format!("{length:05}").as_bytes());
    bytes[12..17].copy_from_slice(format!("{base:05}").as_bytes());
    bytes
}

/// Whole records whose directory is wrong though every byte of their leader is right.
fn built(table: &mut Table) {
    let body = b"12\x1e345\x1e";
    let rows: [(&str, &[(&str, usize, usize)], &[u8]); 13] = [
        ("no field", &[], b""),
        ("no entry, but bytes behind", &[], b"12\x1e"),
        ("a field of no bytes at the start", &[("CSID", 0, 0), ("ABCD", 3, 0)], b"12\x1e"),
        ("a field of no bytes at the end", &[("CSID", 3, 0), ("ABCD", 0, 3)], b"12\x1e"),
        ("a field of no bytes and none besides", &[("CSID", 0, 0)], b""),
        ("the entries in another order than the fields", &[("ABCD", 4, 3), ("CSID", 3, 0)], body),
        ("a second field that starts too late", &[("CSID", 3, 0), ("ABCD", 3, 4)], body),
        ("a second field over the first", &[("CSID", 3, 0), ("ABCD", 7, 0)], body),
        ("a first field that does not end in 1E", &[("CSID", 2, 0), ("ABCD", 5, 2)], body),
        ("fields that do not fill the record", &[("CSID", 3, 0)], body),
        ("fields longer than the record", &[("CSID", 3, 0), ("ABCD", 5, 3)], body),
        ("two fields at position 0", &[("CSID", 3, 0), ("ABCD", 4, 0)], body),
        ("a field of great length", &[("CSID", 99999, 0)], body),
    ];
    for (name, entries, body) in rows {
        everywhere(table, name, 3, |r| *r = raw(r[5] == b'3', (5, 5), entries, body));
    }
    let far = [("CSID", 999_999_999, 999_999_999)];
    everywhere(table, "999,999,999 twice in widths of 9", 3, |r| *r = raw(r[5] == b'3', (9, 9), &far, body));
    let wraps = [("CSID", 3, 0), ("ABCD", 999_999_999, 3)];
    everywhere(table, "a length of 999,999,999", 3, |r| *r = raw(r[5] == b'3', (9, 9), &wraps, body));
    let unclosed = raw(false, (5, 5), &[("CSID", 7, 0)], b"      \x1e");
    let cut = |r: &mut Vec<u8>| {
        *r = unclosed.clone();
        // The directory's end lies behind the stated length.
        r[..5].copy_from_slice(b"00038");
    };
    table.dataset_bytes("a directory closed behind the stated length", edited(&dataset(), 3, cut), 3, 3);
}

fn accepted(table: &mut Table) {
    let strange = |fields: &mut Vec<Field>| fields.push(Field { tag: *b"A\x1e\x1f\0", body: vec![0x1e, 0x1e] });
    for (name, number) in [("descriptive", 1), ("CSID", 3)] {
        let records = changed_in(dataset(), number, strange);
        table.dataset_done(&format!("a tag with 1E inside in the {name} record"), file(&records), &records);
    }
    for (a, b) in [(9, 9), (3, 3), (9, 3), (3, 9), (4, 4)] {
        let bytes: Vec<u8> = dataset().iter().enumerate().flat_map(|(n, f)| record(n == 0, a, b, f)).collect();
        table.dataset_done(&format!("widths {a} and {b}"), bytes, &dataset());
    }
}
