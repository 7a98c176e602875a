//! Numbers 8, 9 and 10: updates that do not follow, places and records that are absent, versions that disagree.

use super::base::*;
use super::trees::edit;
use super::{Intent, Table, ROOM, WORK};
use crate::batch::Case;
use crate::build::*;

pub fn rows(table: &mut Table) {
    not_following(table);
    last_update(table);
    absent_records(table);
    absent_associations(table);
    absent_entries(table);
    absent_coordinates(table);
    versions(table);
    codes_and_objects(table);
    last_version(table);
}

fn not_following(table: &mut Table) {
    let rows: [(&str, Field); 12] = [
        ("the same update number", dsid(2, "CHART", 3, 7)),
        ("an update number two greater", dsid(2, "CHART", 3, 9)),
        ("an update number less", dsid(2, "CHART", 3, 6)),
        ("update number 65,534", dsid(2, "CHART", 3, 65534)),
        ("the next edition", dsid(2, "CHART", 4, 8)),
        ("an earlier edition", dsid(2, "CHART", 2, 8)),
        ("another name", dsid(2, "CHARD", 3, 8)),
        ("a shorter name", dsid(2, "CHAR", 3, 8)),
        ("a longer name", dsid(2, "CHARTS", 3, 8)),
        ("no name", dsid(2, "", 3, 8)),
        ("the name in small letters", dsid(2, "chart", 3, 8)),
        ("nothing that follows", dsid(2, "X", 1, 1)),
    ];
    for (name, id) in rows {
        table.update(name, &[heading()[0].clone(), vec![id]], 8, 2);
    }
}

/// After update 65,534 no other can follow.
fn last_update(table: &mut Table) {
    let last = changed(2, |f| f[0] = dsid(1, "CHART", 3, 65534));
    for (number, next) in [(8, 65534), (8, 1), (5, 65535), (5, 0)] {
        let update = [heading()[0].clone(), vec![dsid(2, "CHART", 3, next)]];
        let case = Case::update(file(&last), file(&update), ROOM, WORK);
        table.row(&format!("update: {next} after update 65,534"), case, Intent::Refused(number, 2, 2));
    }
    let before = changed(2, |f| f[0] = dsid(1, "", 65534, 65533));
    let result = changed(2, |f| f[0] = dsid(9, "", 65534, 65534));
    let update = [heading()[0].clone(), vec![dsid(9, "", 65534, 65534)]];
    table.update_done("the last update of the last edition, without a name", &before, &update, &result);
}

fn absent_records(table: &mut Table) {
    table.act("delete of an absent point", vec![prid(NEW, 2, 2)], 9);
    table.act("modify of an absent point", vec![prid(NEW, 2, 3)], 9);
    table.act("delete of a point by a multi point's RCID", vec![prid(8, 5, 2)], 9);
    table.act("modify of an information type by a feature's RCID", vec![irid(3, 40, 3, 3)], 9);
    table.act("modify of an absent feature", vec![frid(NEW, 1, 2, 3)], 9);
    table.act("delete of an absent multi point", vec![mrid(9, 2, 2)], 9);
    let deleted = vec![frid(4, 41, 2, 2)];
    table.acts("delete twice", &[deleted.clone(), deleted.clone()], 9);
    table.acts("delete twice, the version counted on", &[deleted.clone(), vec![frid(4, 41, 3, 2)]], 9);
    table.acts("modify after delete", &[deleted, vec![frid(4, 41, 3, 3)]], 9);
}

fn absent_associations(table: &mut Table) {
    let modify = |more: &[Field]| [&[frid(3, 40, 3, 3)], more].concat();
    let gone = |rrid, association, role| inas(rrid, association, role, 2, &[]);
    let rows: [(&str, Vec<Field>); 9] = [
        ("an association by another RRID", modify(&[gone(7, 1, 1)])),
        ("an association by another NIAC", modify(&[gone(5, 2, 1)])),
        ("an association by another NARC", modify(&[gone(5, 1, 2)])),
        ("an association twice", modify(&[gone(5, 1, 1), gone(5, 1, 1)])),
        ("an association where there are none", vec![prid(7, 2, 3), gone(5, 1, 1)]),
        ("a place by another RRID", modify(&[spas(&[(110, 8, 1, 0, 0, 2)])])),
        ("a place by another RRNM", modify(&[spas(&[(115, 7, 1, 0, 0, 2)])])),
        ("a place twice", modify(&[spas(&[(110, 7, 1, 0, 0, 2)]), spas(&[(110, 7, 1, 0, 0, 2)])])),
        ("a place where there are none", vec![frid(4, 41, 2, 3), spas(&[(110, 7, 1, 0, 0, 2)])]),
    ];
    for (name, fields) in rows {
        table.act(&format!("delete of {name}"), fields, 9);
    }
}

/// Codes and indices that the tree has not, as earlier tuples left it.
fn absent_entries(table: &mut Table) {
    let rows: [(&str, &[Tuple]); 20] = [
        ("modify of an absent code", &[(23, 1, 0, 3, "z")]),
        ("modify of an absent index", &[(21, 2, 0, 3, "z")]),
        ("modify of index 65,534", &[(22, 65534, 0, 3, "")]),
        ("delete of an absent code", &[(23, 1, 0, 2, "")]),
        ("delete of an absent index", &[(22, 3, 0, 2, "")]),
        ("delete twice", &[(21, 1, 0, 2, ""), (21, 1, 0, 2, "")]),
        ("modify of the last after a delete", &[(22, 1, 0, 2, ""), (22, 2, 0, 3, "")]),
        ("insert two above the count", &[(21, 3, 0, 1, "z")]),
        ("insert of a new code at 2", &[(23, 2, 0, 1, "z")]),
        ("insert at 65,534", &[(22, 65534, 0, 1, "z")]),
        ("insert above the count below another", &[(22, 1, 0, 3, ""), (25, 4, 1, 1, "z")]),
        ("an entry of the top looked for below", &[(22, 1, 0, 3, ""), (21, 1, 1, 3, "z")]),
        ("an entry from below looked for at the top", &[(25, 1, 0, 3, "z")]),
        ("modify below an entry with a value", &[(21, 1, 0, 3, "z"), (25, 1, 1, 3, "z")]),
        ("delete below an entry with a value", &[(21, 1, 0, 3, "z"), (25, 1, 1, 2, "")]),
        ("modify below an empty entry", &[(22, 2, 0, 3, ""), (25, 1, 1, 3, "z")]),
        ("delete below an inserted entry", &[(22, 3, 0, 1, ""), (25, 1, 1, 2, "")]),
        ("the second of one after an insert before it", &[(21, 1, 0, 1, "z"), (21, 3, 0, 3, "z")]),
        ("a modified parent that is absent", &[(23, 1, 0, 3, ""), (25, 1, 1, 1, "z")]),
        ("insert two above what a delete left", &[(22, 2, 0, 2, ""), (22, 3, 0, 1, "z")]),
    ];
    for (name, tuples) in rows {
        table.act(&format!("attributes: {name}"), edit(tuples), 9);
    }
}

/// On three tuples, and on none.
fn absent_coordinates(table: &mut Table) {
    let sent = |count: usize| c2il(&vec![(0, 0); count]);
    let modify = |place: Field, lists: &[Field]| [&[mrid(8, 5, 3), place], lists].concat();
    let rows: [(&str, Vec<Field>); 10] = [
        ("insert two behind the last", modify(cocc(1, 5, 1), &[sent(1)])),
        ("insert at 65,534", modify(cocc(1, 65534, 1), &[sent(1)])),
        ("modify of four", modify(cocc(3, 1, 4), &[sent(4)])),
        ("modify behind the last", modify(cocc(3, 4, 1), &[sent(1)])),
        ("modify over the end", modify(cocc(3, 3, 2), &[sent(2)])),
        ("delete of two, three (P5)", modify(cocc(2, 2, 3), &[])),
        ("delete behind the last", modify(cocc(2, 4, 1), &[])),
        ("delete of 65,534", modify(cocc(2, 1, 65534), &[])),
        ("delete at 65,534 of 65,534", modify(cocc(2, 65534, 65534), &[])),
        ("delete at 3 of 65,534", modify(cocc(2, 3, 65534), &[])),
    ];
    for (name, fields) in rows {
        table.act(&format!("coordinates: {name}"), fields, 9);
    }
    let none = vec![mrid(NEW, 1, 1)];
    let on_none = |place: Field, lists: &[Field]| [&[mrid(NEW, 2, 3), place], lists].concat();
    table.acts("coordinates: delete from none", &[none.clone(), on_none(cocc(2, 1, 1), &[])], 9);
    table.acts("coordinates: modify of none", &[none.clone(), on_none(cocc(3, 1, 1), &[sent(1)])], 9);
    table.acts("coordinates: insert at 2 into none", &[none, on_none(cocc(1, 2, 1), &[sent(1)])], 9);
    let first = vec![mrid(8, 5, 3), cocc(2, 1, 2)];
    let second = vec![mrid(8, 6, 3), cocc(2, 2, 1)];
    table.acts("coordinates: delete of what went before", &[first, second], 9);
}

fn versions(table: &mut Table) {
    for (rver, what) in
        [(4, "the same"), (3, "a lower"), (6, "a version too great"), (1, "the first"), (65534, "the last")]
    {
        table.act(&format!("delete with {what} RVER"), vec![mrid(8, rver, 2)], 10);
        table.act(&format!("modify with {what} RVER"), vec![mrid(8, rver, 3)], 10);
    }
    table.act("insert with RVER 2", vec![prid(NEW, 2, 1), c2it(0, 0)], 10);
    table.act("insert with the greatest RVER", vec![irid(NEW, 1, 65534, 1)], 10);
    let modify = |rver| vec![mrid(8, rver, 3)];
    table.acts("modify twice with one RVER", &[modify(5), modify(5)], 10);
    table.acts("modify twice with a step of two (P10)", &[modify(5), modify(7)], 10);
    table.acts("delete after modify with the first RVER", &[modify(5), vec![mrid(8, 5, 2)]], 10);
    let again = vec![frid(4, 41, 3, 1), foid(0, 0, 0)];
    table.acts("insert after delete with the version counted on", &[vec![frid(4, 41, 2, 2)], again], 10);
    table.acts("modify after insert with RVER 1", &[vec![mrid(NEW, 1, 1)], vec![mrid(NEW, 1, 3)]], 10);
}

fn codes_and_objects(table: &mut Table) {
    table.act("modify of an information type with another code", vec![irid(5, 31, 3, 3)], 10);
    table.act("delete of an information type with another code", vec![irid(6, 30, 2, 2)], 10);
    table.act("modify of a feature with another code", vec![frid(3, 41, 3, 3)], 10);
    table.act("delete of a feature with another code", vec![frid(4, 40, 2, 2)], 10);
    let rows = [("AGEN", foid(9, 2, 3)), ("FIDN", foid(1, 9, 3)), ("FIDS", foid(1, 2, 9))];
    for (part, object) in rows {
        table.act(&format!("modify with another {part}"), vec![frid(3, 40, 3, 3), object], 10);
    }
    let marked = vec![frid(4, 41, 2, 3), foid(0xffff, 0xffffffff, 0)];
    table.act("modify with another FIDS than all ones", marked, 10);
}

/// A record of version 65,534 can no longer be changed.
fn last_version(table: &mut Table) {
    let last = changed(POINT, |f| f[0] = prid(7, 65534, 1));
    for (number, rver) in [(10, 65534), (10, 1), (5, 65535), (5, 0)] {
        for instruction in [2, 3] {
            let update = [heading(), vec![vec![prid(7, rver, instruction)]]].concat();
            let case = Case::update(file(&last), file(&update), ROOM, WORK);
            let name = format!("update: RVER {rver} after 65,534, instruction {instruction}");
            table.row(&name, case, Intent::Refused(number, 2, 3));
        }
    }
    let before = changed(POINT, |f| f[0] = prid(7, 65533, 1));
    let update = [heading(), vec![vec![prid(7, 65534, 3)]]].concat();
    let result = after_with(POINT, vec![prid(7, 65534, 1), c2it(10, -1)]);
    table.update_done("the last version", &before, &update, &result);
}
