//! Number 5: subfields that do not fill their field, and values out of their range.

use super::base::*;
use super::Table;
use crate::build::*;

pub fn rows(table: &mut Table) {
    general(table);
    general_bounds(table);
    identifiers(table);
    identifier_bounds(table);
    bodies(table);
    attributes(table);
    associations(table);
    spatial(table);
    instructions(table);
    places(table);
    accepted(table);
}

/// DSID's body: RCNM, RCID at 1, six texts from 5, then the numbers.
fn general(table: &mut Table) {
    let id = || dsid(2, "CHART", 3, 8);
    let numbers = id().body.len() - 12;
    let date = id().body.len() - 8;
    let rows: [(&str, Field); 17] = [
        ("DSID with RCNM 11", with(id(), 0, &[11])),
        ("DSID with RCID 0", dsid(0, "CHART", 3, 8)),
        ("DSID with RCID of all ones", dsid(u32::MAX, "CHART", 3, 8)),
        ("EDTN 0", dsid(2, "CHART", 0, 8)),
        ("EDTN of all ones", dsid(2, "CHART", 65535, 8)),
        ("UPDN of all ones", dsid(2, "CHART", 3, 65535)),
        ("1E in a text", dsid(2, "CH\x1eRT", 3, 8)),
        ("1E before the end of the first text", with(id(), 5, &[0x1e])),
        ("a text too few", field("DSID", [&id().body[..5], &id().body[6..]].concat())),
        ("a text too many", field("DSID", [&id().body[..5], &[0x1f], &id().body[5..]].concat())),
        ("the name not ended", with(id(), numbers - 1, b"X")),
        ("ISDT of 7 bytes", shorter(id(), 1)),
        ("ISDT of 9 bytes", longer(id(), b"1")),
        ("1F behind ISDT", longer(id(), &[0x1f])),
        ("1F in ISDT", with(id(), date + 3, &[0x1f])),
        ("1E in ISDT", with(id(), date + 7, &[0x1e])),
        ("an empty DSID", empty("DSID")),
    ];
    for (name, id) in rows {
        table.dataset(name, &changed(2, |f| f[0] = id.clone()), 5, 2);
        table.update(name, &[heading()[0].clone(), vec![id]], 5, 2);
    }
    table.update("UPDN 0", &[heading()[0].clone(), vec![dsid(2, "CHART", 3, 0)]], 5, 2);
}

fn general_bounds(table: &mut Table) {
    let date = dsid(1, "", 1, 0).body.len() - 8;
    let rows: [(&str, Field); 6] = [
        ("DSID with the greatest RCID", dsid(0xfffffffe, "CHART", 3, 7)),
        ("the greatest EDTN and UPDN", dsid(1, "CHART", 65534, 65534)),
        ("UPDN 0", dsid(1, "CHART", 1, 0)),
        ("no name", dsid(1, "", 1, 0)),
        ("a blank ISDT", with(dsid(1, "", 1, 0), date, b"        ")),
        ("an ISDT of no digits", with(dsid(1, "", 1, 0), date, b"\0\xff\x1d\x20ABC~")),
    ];
    for (name, id) in rows {
        let records = changed(2, |f| f[0] = id);
        table.dataset_done(name, file(&records), &records);
    }
}

/// Each kind's identifier: RCNM at 0, RCID at 1, the code (if any) at 5, RVER and RUIN at the end.
fn identifiers(table: &mut Table) {
    for (place, id, others) in kinds() {
        let name = |what: &str| format!("{} {what}", String::from_utf8_lossy(&id.tag));
        let length = id.body.len();
        let mut rows = vec![
            ("with RCNM 0", with(id.clone(), 0, &[0])),
            ("with RCNM of another kind", with(id.clone(), 0, &[if place == AS_POINT { 115 } else { 110 }])),
            ("with RCID 0", with(id.clone(), 1, &[0; 4])),
            ("with RCID of all ones", with(id.clone(), 1, &[255; 4])),
            ("with RVER 0", with(id.clone(), length - 3, &[0, 0])),
            ("with RVER of all ones", with(id.clone(), length - 3, &[255, 255])),
            ("with RUIN 0", with(id.clone(), length - 1, &[0])),
            ("with RUIN 4", with(id.clone(), length - 1, &[4])),
            ("one byte too long", longer(id.clone(), &[1])),
        ];
        if length == 10 {
            rows.push(("with a code of all ones", with(id.clone(), 5, &[255, 255])));
        }
        for (what, id) in rows {
            table.specimen(&name(what), place, 5, [vec![id], others.clone()].concat());
        }
    }
    table.specimen("IRID one byte too short", AS_INFORMATION, 5, vec![shorter(irid(NEW, 1, 1, 1), 1)]);
    table.specimen("an empty MRID", AS_MULTI, 5, vec![empty("MRID")]);
}

/// Where a record of each kind goes, its identifier, and the fields that it needs besides.
fn kinds() -> [(usize, Field, Vec<Field>); 4] {
    [
        (AS_INFORMATION, irid(NEW, 1, 1, 1), Vec::new()),
        (AS_POINT, prid(NEW, 1, 1), vec![c2it(0, 0)]),
        (AS_MULTI, mrid(NEW, 1, 1), Vec::new()),
        (AS_FEATURE, frid(NEW, 1, 1, 1), vec![foid(0, 0, 0)]),
    ]
}

fn identifier_bounds(table: &mut Table) {
    for (place, id, others) in kinds() {
        let tag = String::from_utf8_lossy(&id.tag).to_string();
        let with_id = |id: Field| [vec![id], others.clone()].concat();
        table.good_specimen(
            &format!("{tag} with the greatest RCID"),
            place,
            with_id(with(id.clone(), 1, &[254, 255, 255, 255])),
        );
        table.good_specimen(&format!("{tag} with RCID 1"), place, with_id(with(id.clone(), 1, &[1, 0, 0, 0])));
        if id.body.len() == 10 {
            table.good_specimen(
                &format!("{tag} with the greatest code"),
                place,
                with_id(with(id.clone(), 5, &[254, 255])),
            );
            table.good_specimen(&format!("{tag} with code 0"), place, with_id(with(id.clone(), 5, &[0, 0])));
        }
        let mut records = dataset();
        records.insert(place - 1, with_id(with(id.clone(), id.body.len() - 3, &[254, 255])));
        table.dataset_done(&format!("{tag} with the greatest RVER"), file(&records), &records);
    }
}

/// Fields of fixed length, and lists that hold whole tuples only.
fn bodies(table: &mut Table) {
    let point = |at: Field| vec![prid(NEW, 1, 1), at];
    let multi = |lists: &[Field]| [&[mrid(NEW, 1, 1)], lists].concat();
    let feature = |object: Field| vec![frid(NEW, 1, 1, 1), object];
    let rows: [(&str, usize, Vec<Field>); 11] = [
        ("C2IT of 7 bytes", AS_POINT, point(shorter(c2it(0, 0), 1))),
        ("C2IT of 9 bytes", AS_POINT, point(longer(c2it(0, 0), &[0]))),
        ("C2IT of two tuples", AS_POINT, point(field("C2IT", vec![0; 16]))),
        ("an empty C2IT", AS_POINT, point(empty("C2IT"))),
        ("C2IL of 4 bytes", AS_MULTI, multi(&[field("C2IL", vec![0; 4])])),
        ("C2IL of 12 bytes", AS_MULTI, multi(&[field("C2IL", vec![0; 12])])),
        ("a tuple over two C2IL", AS_MULTI, multi(&[field("C2IL", vec![0; 4]), field("C2IL", vec![0; 4])])),
        ("C2IL of 9 bytes", AS_MULTI, multi(&[field("C2IL", vec![0; 9])])),
        ("FOID of 7 bytes", AS_FEATURE, feature(shorter(foid(0, 0, 0), 1))),
        ("FOID of 9 bytes", AS_FEATURE, feature(longer(foid(0, 0, 0), &[0]))),
        ("an empty FOID", AS_FEATURE, feature(empty("FOID"))),
    ];
    for (name, place, fields) in rows {
        table.specimen(name, place, 5, fields);
    }
}

/// Faults of tuples, in an ATTR and in an INAS alike.
fn attributes(table: &mut Table) {
    let good = tuples(&[(1, 1, 0, 1, "v")]);
    let rows: [(&str, Vec<u8>); 13] = [
        ("NATC of all ones", tuples(&[(65535, 1, 0, 1, "v")])),
        ("ATIX 0", tuples(&[(1, 0, 0, 1, "v")])),
        ("ATIX of all ones", tuples(&[(1, 65535, 0, 1, "v")])),
        ("ATIN 0", tuples(&[(1, 1, 0, 0, "v")])),
        ("ATIN 2", tuples(&[(1, 1, 0, 2, "v")])),
        ("ATIN 3", tuples(&[(1, 1, 0, 3, "v")])),
        ("ATIN 4", tuples(&[(1, 1, 0, 4, "v")])),
        ("1E in a value", tuples(&[(1, 1, 0, 1, "v\x1ew")])),
        ("a value not ended", good[..good.len() - 1].to_vec()),
        ("a tuple cut in its numbers", [&good[..], &good[..5]].concat()),
        ("a byte behind the last tuple", [&good[..], &[0x1f]].concat()),
        ("a second tuple with ATIN 3", tuples(&[(1, 1, 0, 1, "v"), (2, 1, 0, 3, "w")])),
        ("ATIN 2 in a child", tuples(&[(1, 1, 0, 1, ""), (2, 1, 1, 2, "w")])),
    ];
    for (name, body) in rows {
        let by_attr = vec![irid(NEW, 1, 1, 1), field("ATTR", body.clone())];
        table.specimen(&format!("ATTR with {name}"), AS_INFORMATION, 5, by_attr);
        let by_inas = vec![mrid(NEW, 1, 1), longer(inas(5, 1, 1, 1, &[]), &body)];
        table.specimen(&format!("INAS with {name}"), AS_MULTI, 5, by_inas);
    }
}

fn associations(table: &mut Table) {
    let named = || inas(5, 1, 1, 1, &[]);
    let rows: [(&str, Field); 11] = [
        ("RRNM 110", with(named(), 0, &[110])),
        ("RRNM 0", with(named(), 0, &[0])),
        ("NIAC of all ones", inas(5, 65535, 1, 1, &[])),
        ("NARC of all ones", inas(5, 1, 65535, 1, &[])),
        ("IUIN 0", inas(5, 1, 1, 0, &[])),
        ("IUIN 2", inas(5, 1, 1, 2, &[])),
        ("IUIN 3", inas(5, 1, 1, 3, &[])),
        ("IUIN 4", inas(5, 1, 1, 4, &[])),
        ("no IUIN", shorter(named(), 1)),
        ("no bytes", empty("INAS")),
        ("one byte behind IUIN", longer(named(), &[1])),
    ];
    for (name, association) in rows {
        let fields = vec![prid(NEW, 1, 1), association, c2it(0, 0)];
        table.specimen(&format!("INAS with {name}"), AS_POINT, 5, fields);
    }
}

fn spatial(table: &mut Table) {
    let one = |rrnm, ornt, saui| spas(&[PLACES[0], (rrnm, 8, ornt, 0, 0, saui)]);
    let rows: [(&str, Field); 12] = [
        ("RRNM 150", one(150, 1, 1)),
        ("RRNM 100", one(100, 1, 1)),
        ("RRNM 0", one(0, 1, 1)),
        ("ORNT 0", one(115, 0, 1)),
        ("ORNT 3", one(115, 3, 1)),
        ("ORNT 254", one(115, 254, 1)),
        ("SAUI 0", one(115, 1, 0)),
        ("SAUI 2", one(115, 1, 2)),
        ("SAUI 3", one(115, 1, 3)),
        ("a cut tuple", shorter(spas(&PLACES), 1)),
        ("one byte", field("SPAS", vec![110])),
        ("a byte behind the tuples", longer(spas(&PLACES), &[1])),
    ];
    for (name, list) in rows {
        let fields = vec![frid(NEW, 1, 1, 1), foid(0, 0, 0), list];
        table.specimen(&format!("SPAS with {name}"), AS_FEATURE, 5, fields);
    }
    let (cut, rest) =
        (field("SPAS", spas(&PLACES).body[..7].to_vec()), field("SPAS", spas(&PLACES).body[7..].to_vec()));
    table.specimen("a tuple over two SPAS", AS_FEATURE, 5, vec![frid(NEW, 1, 1, 1), foid(0, 0, 0), cut, rest]);
}

/// Instructions and ranges inside a modify.
fn instructions(table: &mut Table) {
    let info = |f: Field| vec![irid(5, 30, 3, 3), f];
    let feature = |f: Field| vec![frid(3, 40, 3, 3), f];
    let gone = || inas(5, 1, 1, 2, &[]);
    let rows: [(&str, Vec<Field>); 16] = [
        ("INAS delete with a tuple", feature(inas(5, 1, 1, 2, &[(9, 1, 0, 1, "x")]))),
        ("INAS delete with a delete tuple", feature(inas(5, 1, 1, 2, &[(9, 1, 0, 2, "")]))),
        ("INAS delete with a byte behind", feature(longer(gone(), &[0x1f]))),
        ("INAS delete with NIAC of all ones", feature(inas(5, 65535, 1, 2, &[]))),
        ("IUIN 3", feature(inas(5, 1, 1, 3, &[]))),
        ("INAS insert with ATIN 2", feature(inas(5, 9, 9, 1, &[(9, 1, 0, 2, "x")]))),
        ("INAS insert with ATIN 3", feature(inas(5, 9, 9, 1, &[(9, 1, 0, 3, "x")]))),
        ("ATIN 0", info(attr(&[(1, 1, 0, 0, "x")]))),
        ("ATIN 4", info(attr(&[(1, 1, 0, 4, "x")]))),
        ("ATIX 0", info(attr(&[(1, 0, 0, 3, "x")]))),
        ("NATC of all ones in a delete", info(attr(&[(65535, 1, 0, 2, "x")]))),
        ("1E in the value of a delete", info(attr(&[(1, 1, 0, 2, "\x1e")]))),
        ("SAUI 3", feature(spas(&[(110, 7, 1, 0, 0, 3)]))),
        ("SPAS delete with ORNT 3", feature(spas(&[(110, 7, 3, 0, 0, 2)]))),
        ("SPAS delete with RRNM 150", feature(spas(&[(150, 7, 1, 0, 0, 2)]))),
        ("C2IT of 4 bytes", vec![prid(7, 2, 3), field("C2IT", vec![0; 4])]),
    ];
    for (name, fields) in rows {
        table.act(&format!("modify, {name}"), fields, 5);
    }
    table.act("delete with RVER 0", vec![prid(7, 0, 2)], 5);
    table.act("delete with RVER of all ones", vec![prid(7, 65535, 2)], 5);
}

/// COCC and the number of tuples sent with it.
fn places(table: &mut Table) {
    let rows: [(&str, Field, Vec<Field>); 17] = [
        ("COUI 0", cocc(0, 1, 1), Vec::new()),
        ("COUI 4", cocc(4, 1, 1), Vec::new()),
        ("COIX 0", cocc(2, 0, 1), Vec::new()),
        ("COIX of all ones", cocc(2, 65535, 1), Vec::new()),
        ("NCOR 0", cocc(2, 1, 0), Vec::new()),
        ("NCOR of all ones", cocc(2, 1, 65535), Vec::new()),
        ("4 bytes", shorter(cocc(2, 1, 1), 1), Vec::new()),
        ("6 bytes", longer(cocc(2, 1, 1), &[0]), Vec::new()),
        ("no bytes", empty("COCC"), Vec::new()),
        ("insert of 1 and none sent", cocc(1, 1, 1), Vec::new()),
        ("modify of 1 and none sent", cocc(3, 1, 1), Vec::new()),
        ("insert of 1 and an empty list sent", cocc(1, 1, 1), vec![c2il(&[])]),
        ("insert of 0 and none sent", cocc(1, 1, 0), Vec::new()),
        ("insert of 1 and 2 sent", cocc(1, 1, 1), vec![c2il(&[(0, 0), (0, 0)])]),
        ("modify of 2 and 1 sent", cocc(3, 1, 2), vec![c2il(&[(0, 0)])]),
        ("insert of 1 and 2 sent in two fields", cocc(1, 1, 1), vec![c2il(&[(0, 0)]), c2il(&[(0, 0)])]),
        ("insert of 1 and a tuple cut in two", cocc(1, 1, 1), vec![field("C2IL", vec![0; 4]); 2]),
    ];
    for (name, place, lists) in rows {
        table.act(&format!("COCC with {name}"), [vec![mrid(8, 5, 3), place], lists].concat(), 5);
    }
}

/// Marks, boundary values and separators where they are data.
fn accepted(table: &mut Table) {
    let all = u32::MAX;
    let separators = [(0x1e1e1e1e, 0x1f1f1f1f), (-1, i32::MIN), (0x1e1f, i32::MAX)];
    let lists = vec![frid(NEW, 1, 1, 1), foid(0x1e1e, 0x1f1f1f1f, 0x1e1f), spas(&[(110, 7, 255, all, all, 1)])];
    table.good_specimen("FOID of separators, scales of all ones", AS_FEATURE, lists);
    table.good_specimen("FOID of noughts", AS_FEATURE, vec![frid(NEW, 1, 1, 1), foid(0, 0, 0)]);
    table.good_specimen("coordinates of separators", AS_MULTI, vec![mrid(NEW, 1, 1), c2il(&separators)]);
    table.good_specimen("a point at -1, -1", AS_POINT, vec![prid(0x1e1f1e1f, 1, 1), c2it(-1, -1)]);
    let codes = [(0x1e1f, 1, 0, 1, "v"), (65534, 1, 0, 1, ""), (0, 1, 2, 1, "\u{7f}\u{80}\0 ")];
    table.good_specimen(
        "codes and values at their bounds",
        AS_INFORMATION,
        vec![irid(NEW, 0x1f1e, 1, 1), attr(&codes)],
    );
    let named = inas(5, 65534, 0, 1, &codes);
    table.good_specimen("an association at the bounds", AS_POINT, vec![prid(NEW, 1, 1), named, c2it(0, 0)]);
    table.good_specimen("a multi point of nothing", AS_MULTI, vec![mrid(NEW, 1, 1)]);
}
