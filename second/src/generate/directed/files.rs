//! Number 4 among records: which stand where, and the general record's fields.

use super::base::*;
use super::Table;
use crate::build::*;

pub fn rows(table: &mut Table) {
    missing(table);
    heads(table);
    kinds(table);
    general(table);
    general_done(table);
}

/// A file that ends before a record that it needs: 4 at the number after the last.
fn missing(table: &mut Table) {
    table.dataset("nothing after the descriptive record", &dataset()[..1], 4, 2);
    table.dataset("nothing after the general record", &dataset()[..2], 4, 3);
    table.update("nothing after the descriptive record", &heading()[..1], 4, 2);
    table.dataset_done("nothing after the third record", file(&dataset()[..3]), &dataset()[..3]);
    let faulty = changed(2, |general| general[0] = dsid(0, "CHART", 3, 7));
    table.dataset("a fault before the missing record", &faulty[..2], 5, 2);
    let mut cut = file(&dataset()[..2]);
    cut.extend([b' '; 10]);
    table.dataset_bytes("ten bytes where the third record is missing", cut, 1, 3);
}

fn heads(table: &mut Table) {
    let point = vec![prid(NEW, 1, 1), c2it(0, 0)];
    let mut no_csid = dataset();
    no_csid.remove(2);
    table.dataset("an information type in the third place", &no_csid, 4, 3);
    table.dataset("CSID behind another field", &changed(3, |f| f.insert(0, empty("ABCD"))), 4, 3);
    table.dataset("a point in the second place", &changed(2, |f| *f = point.clone()), 4, 2);
    let second = [dataset(), vec![dataset()[2].clone()]].concat();
    table.dataset("a second CSID record", &second, 4, 10);
    let mut general_again = dataset();
    general_again.insert(3, dataset()[1].clone());
    table.dataset("a second general record", &general_again, 4, 4);
    let foreign = [dataset(), vec![vec![field("CRID", vec![120, 1, 0, 0, 0, 1, 0, 1])]]].concat();
    table.dataset("a curve", &foreign, 4, 10);
    table.update("a point in the second place", &[heading()[0].clone(), point.clone()], 4, 2);
    table.act("a CSID record", dataset()[2].clone(), 4);
    table.act("a second general record", heading()[1].clone(), 4);
    table.act("a surface", vec![field("SRID", vec![130, 1, 0, 0, 0, 1, 0, 1])], 4);
    table.act("a tag in small letters", vec![retagged("prid", prid(NEW, 1, 1)), c2it(0, 0)], 4);
}

/// A kind lower than one already met is 4, before any fault of its own.
fn kinds(table: &mut Table) {
    let news = [
        vec![irid(NEW, 1, 1, 1)],
        vec![prid(NEW, 1, 1), c2it(0, 0)],
        vec![mrid(NEW, 1, 1)],
        vec![frid(NEW, 1, 1, 1), foid(0, 0, 0)],
    ];
    for (earlier, first) in news.iter().enumerate() {
        for later in &news[earlier + 1..] {
            let records = [dataset()[..3].to_vec(), vec![later.clone(), first.clone()]].concat();
            let [first, later] = [first, later].map(|fields| String::from_utf8_lossy(&fields[0].tag));
            table.dataset(&format!("{first} after {later}"), &records, 4, 5);
        }
    }
    let own_fault = [dataset(), vec![vec![irid(0, 1, 1, 1)]]].concat();
    table.dataset("out of order, and out of range itself", &own_fault, 4, 10);
    // In an update the kinds come in any order.
    let acts: Vec<Vec<Field>> = news.iter().rev().cloned().collect();
    let mut result = after();
    for (place, fields) in [(9, 3), (7, 2), (6, 1), (5, 0)].map(|(at, kind)| (at, news[kind].clone())) {
        result.insert(place, fields);
    }
    table.acts_done("the kinds in the contrary order", &acts, &result);
}

fn general(table: &mut Table) {
    let id = || dsid(2, "CHART", 3, 8);
    let rows: [(&str, Vec<Field>); 9] = [
        ("DSSI before DSID", vec![empty("DSSI"), id()]),
        ("DSID twice", vec![id(), id()]),
        ("DSSI twice", vec![id(), empty("DSSI"), empty("DSSI")]),
        ("ARCS twice, not side by side", vec![id(), empty("ARCS"), empty("DSSI"), empty("ARCS")]),
        ("ATCS before DSSI", vec![id(), empty("ATCS"), empty("DSSI")]),
        ("ARCS before FACS", vec![id(), empty("ARCS"), empty("FACS")]),
        ("an unknown field", vec![id(), empty("ABCD")]),
        ("CSID in the general record", vec![id(), empty("CSID")]),
        ("DSID in small letters", vec![retagged("dsid", id())]),
    ];
    for (name, fields) in rows {
        table.dataset(name, &changed(2, |f| *f = fields.clone()), 4, 2);
        table.update(name, &[heading()[0].clone(), fields], 4, 2);
    }
}

/// Each unread field is the update's if there, also if there but empty, else the dataset's.
fn general_done(table: &mut Table) {
    let all = |body: &[u8]| ["DSSI", "ATCS", "ITCS", "FTCS", "IACS", "FACS", "ARCS"].map(|t| field(t, body.to_vec()));
    let filled = changed(2, |f| *f = [vec![dsid(1, "CHART", 3, 7)], all(b"old\x1e").to_vec()].concat());
    table.dataset_done("all unread fields", file(&filled), &filled);
    let id = || dsid(2, "CHART", 3, 8);
    let update = |fields: Vec<Field>| vec![heading()[0].clone(), [vec![id()], fields].concat()];
    let result = |fields: Vec<Field>| changed(2, |f| *f = [vec![id()], fields].concat());
    table.update_done("no unread field sent", &filled, &update(Vec::new()), &result(all(b"old\x1e").to_vec()));
    let mut mixed = all(b"old\x1e").to_vec();
    mixed[1].body = Vec::new();
    mixed[6].body = b"new".to_vec();
    let sent = vec![empty("ATCS"), field("ARCS", b"new".to_vec())];
    table.update_done("two unread fields sent, one empty", &filled, &update(sent), &result(mixed));
    let none = changed(2, |f| f.truncate(1));
    let sent = all(&[0x1f]).to_vec();
    table.update_done("all unread fields sent to none", &none, &update(sent.clone()), &result(sent));
}
