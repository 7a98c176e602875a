//! Numbers 7 and 11: keys that stand twice or are inserted while present, and references to what is absent.

use super::base::*;
use super::{with_heading, Intent, Table, ROOM, WORK};
use crate::batch::Case;
use crate::build::*;

pub fn rows(table: &mut Table) {
    twice_in_a_dataset(table);
    twice_in_a_record(table);
    inserted_while_present(table);
    same_numbers(table);
    loose_in_a_dataset(table);
    loose_in_a_result(table);
    loose_in_between(table);
}

/// The later record is refused, side by side with the first or not.
fn twice_in_a_dataset(table: &mut Table) {
    for (number, end) in [(4, 6), (5, 6), (6, 7), (7, 8), (8, 10), (9, 10)] {
        let mut records = dataset();
        let again = records[number - 1].clone();
        records.insert(end - 1, again);
        table.dataset(&format!("record {number} twice"), &records, 7, end);
    }
    let mut differing = dataset();
    differing.insert(AS_POINT - 1, vec![prid(7, 9, 1), c2it(5, 5)]);
    table.dataset("a point's key twice, all else different", &differing, 7, AS_POINT);
}

fn twice_in_a_record(table: &mut Table) {
    let feature = |more: &[Field]| [&[frid(NEW, 1, 1, 1), foid(0, 0, 0)], more].concat();
    let place = |ornt, smin| (110, 7, ornt, smin, 0, 1);
    let rows: [(&str, usize, Vec<Field>); 5] = [
        (
            "an association twice",
            AS_INFORMATION,
            vec![irid(NEW, 1, 1, 1), inas(5, 1, 1, 1, &[]), inas(5, 1, 1, 1, &[])],
        ),
        (
            "an association twice, not side by side",
            AS_MULTI,
            vec![mrid(NEW, 1, 1), inas(5, 1, 1, 1, &[(1, 1, 0, 1, "v")]), inas(6, 1, 1, 1, &[]), inas(5, 1, 1, 1, &[])],
        ),
        ("a place twice in one SPAS", AS_FEATURE, feature(&[spas(&[place(1, 0), place(2, 5)])])),
        ("a place twice in two SPAS", AS_FEATURE, feature(&[spas(&[place(1, 0)]), spas(&[place(1, 0)])])),
        (
            "a place twice, an empty SPAS between",
            AS_FEATURE,
            feature(&[spas(&[place(1, 0)]), spas(&[]), spas(&[place(255, 1)])]),
        ),
    ];
    for (name, at, fields) in rows {
        table.specimen(name, at, 7, fields);
    }
}

fn inserted_while_present(table: &mut Table) {
    let point = || vec![prid(NEW, 1, 1), c2it(0, 0)];
    table.act("insert of a point that is there", vec![prid(7, 1, 1), c2it(0, 0)], 7);
    table.act("insert of an information type that is there", vec![irid(5, 30, 1, 1)], 7);
    table.act("insert of a multi point that is there", vec![mrid(8, 1, 1)], 7);
    table.act("insert of a feature that is there", vec![frid(4, 41, 1, 1), foid(0, 0, 0)], 7);
    table.act("insert of what is there, RVER 5", vec![prid(7, 5, 1), c2it(0, 0)], 7);
    table.acts("insert twice", &[point(), point()], 7);
    let modify = |more: &[Field]| [&[frid(3, 40, 3, 3)], more].concat();
    let new = || inas(5, 7, 7, 1, &[]);
    table.act("a modify inserts an association that is there", modify(&[inas(5, 1, 1, 1, &[])]), 7);
    table.act("a modify inserts an association twice", modify(&[new(), new()]), 7);
    let back = [inas(5, 1, 1, 2, &[]), inas(5, 1, 1, 1, &[]), inas(5, 1, 1, 1, &[])];
    table.act("a modify inserts a deleted association twice", modify(&back), 7);
    let place = |saui| (110, 7, 2, 9, 9, saui);
    table.act("a modify inserts a place that is there", modify(&[spas(&[place(1)])]), 7);
    table.act(
        "a modify inserts a new place twice",
        modify(&[spas(&[(110, 99, 1, 0, 0, 1), (110, 99, 2, 0, 0, 1)])]),
        7,
    );
    table.act(
        "a modify inserts a place twice after its delete",
        modify(&[spas(&[place(2), place(1)]), spas(&[place(1)])]),
        7,
    );
}

/// What is no key: numbers of another kind, the general record's, other roles, other orientations.
fn same_numbers(table: &mut Table) {
    table.good_specimen("a point with a feature's RCID", AS_POINT, vec![prid(3, 1, 1), c2it(0, 0)]);
    table.good_specimen("a multi point with a point's RCID", AS_MULTI, vec![mrid(7, 1, 1)]);
    table.good_specimen("an information type with the general record's RCID", AS_INFORMATION, vec![irid(1, 1, 1, 1)]);
    let roles = vec![
        irid(NEW, 1, 1, 1),
        inas(5, 1, 1, 1, &[]),
        inas(5, 1, 2, 1, &[]),
        inas(5, 2, 1, 1, &[]),
        inas(6, 1, 1, 1, &[]),
    ];
    table.good_specimen("associations that differ in one part of the key", AS_INFORMATION, roles);
    let mut records = dataset();
    records.insert(AS_MULTI - 1, vec![mrid(7, 1, 1)]);
    let both = vec![frid(NEW, 1, 1, 1), foid(0, 0, 0), spas(&[(110, 7, 1, 0, 0, 1), (115, 7, 1, 0, 0, 1)])];
    records.push(both);
    table.dataset_done("places that differ in kind only", file(&records), &records);
}

fn loose_in_a_dataset(table: &mut Table) {
    let loose_place = |rrnm, rrid| spas(&[PLACES[0], (rrnm, rrid, 1, 0, 0, 1)]);
    let rows: [(&str, usize, Vec<Field>); 9] = [
        ("an association with nothing", AS_POINT, vec![prid(NEW, 1, 1), inas(99, 1, 1, 1, &[]), c2it(0, 0)]),
        ("an association with a point's RCID", AS_INFORMATION, vec![irid(NEW, 1, 1, 1), inas(7, 1, 1, 1, &[])]),
        ("RRID 0", AS_MULTI, vec![mrid(NEW, 1, 1), inas(0, 1, 1, 1, &[])]),
        ("RRID of all ones", AS_MULTI, vec![mrid(NEW, 1, 1), inas(u32::MAX, 1, 1, 1, &[])]),
        ("a second association loose", AS_MULTI, vec![mrid(NEW, 1, 1), inas(5, 1, 1, 1, &[]), inas(99, 1, 1, 1, &[])]),
        ("a point that is absent", AS_FEATURE, vec![frid(NEW, 1, 1, 1), foid(0, 0, 0), loose_place(110, 99)]),
        ("a multi point's RCID as a point", AS_FEATURE, vec![frid(NEW, 1, 1, 1), foid(0, 0, 0), loose_place(110, 8)]),
        ("a point's RCID as a multi point", AS_FEATURE, vec![frid(NEW, 1, 1, 1), foid(0, 0, 0), loose_place(115, 7)]),
        ("a place with RRID 0", AS_FEATURE, vec![frid(NEW, 1, 1, 1), foid(0, 0, 0), loose_place(115, 0)]),
    ];
    for (name, at, fields) in rows {
        let mut records = dataset();
        records.insert(at - 1, fields.clone());
        table.dataset(&format!("loose: {name}"), &records, 11, at);
        loose_result(table, &format!("inserted, loose: {name}"), &[fields], at);
    }
    table.good_specimen(
        "an information type that names itself",
        AS_INFORMATION,
        vec![irid(NEW, 1, 1, 1), inas(NEW, 1, 1, 1, &[])],
    );
    let mut forward = dataset();
    forward[3].push(inas(6, 1, 1, 1, &[]));
    table.dataset_done("a name of a later record", file(&forward), &forward);
    let mut both = dataset();
    both[4].push(inas(99, 1, 1, 1, &[]));
    both[8].push(spas(&[(110, 99, 1, 0, 0, 1)]));
    table.dataset("two loose records", &both, 11, 5);
}

/// Acts after which the result's record of this number names what is absent.
fn loose_result(table: &mut Table, name: &str, acts: &[Vec<Field>], record: usize) {
    let case = Case::update(file(&dataset()), file(&with_heading(acts)), ROOM, WORK);
    table.row(&format!("update: {name}"), case, Intent::Refused(11, 3, record));
}

fn loose_in_a_result(table: &mut Table) {
    loose_result(table, "delete of a named point", &[vec![prid(7, 2, 2)]], FEATURE - 1);
    loose_result(table, "delete of a named multi point", &[vec![mrid(8, 5, 2)]], FEATURE - 1);
    loose_result(table, "delete of a named information type", &[vec![irid(5, 30, 3, 2)]], MULTI - 1);
    let named = [vec![irid(6, 31, 2, 2)], vec![irid(NEW, 1, 1, 1)], vec![irid(NEW + 1, 1, 1, 1)]];
    loose_result(table, "delete of a named record among inserts", &named, FEATURE + 1);
    let modify = vec![prid(7, 2, 3), inas(99, 1, 1, 1, &[])];
    loose_result(table, "a modify that names nothing", &[modify], POINT);
    let place = vec![frid(4, 41, 2, 3), spas(&[(115, 7, 1, 0, 0, 1)])];
    loose_result(table, "a modify that names a point as a multi point", &[place], BARE_FEATURE);
}

/// Only the end counts: what is named may be gone in between, or not yet there.
fn loose_in_between(table: &mut Table) {
    let (deleted, again) = (vec![prid(7, 2, 2)], vec![prid(7, 1, 1), c2it(5, 6)]);
    let result = after_with(POINT, again.clone());
    table.acts_done("a named point deleted and inserted again", &[deleted.clone(), again], &result);
    let cut = vec![frid(3, 40, 3, 3), spas(&[(110, 7, 2, 5, 5, 2)])];
    let mut result = after();
    result[FEATURE - 1] = feature(3, &TREE);
    result[FEATURE - 1][5] = spas(&PLACES[1..]);
    result.remove(POINT - 1);
    table.acts_done("a point deleted before its name", &[deleted, cut], &result);
    let early = vec![frid(NEW, 1, 1, 1), foid(0, 0, 0), inas(NEW, 1, 1, 1, &[]), spas(&[(115, NEW, 1, 0, 0, 1)])];
    let (information, multi) = (vec![irid(NEW, 1, 1, 1)], vec![mrid(NEW, 1, 1)]);
    let mut result = after();
    result.push(early.clone());
    result.insert(AS_MULTI - 1, multi.clone());
    result.insert(AS_INFORMATION - 1, information.clone());
    table.acts_done("names before what they name", &[early, multi, information], &result);
    let passing = vec![prid(7, 2, 3), inas(99, 1, 1, 1, &[])];
    let back = vec![prid(7, 3, 3), inas(99, 1, 1, 2, &[])];
    let result = after_with(POINT, vec![prid(7, 3, 1), c2it(10, -1)]);
    table.acts_done("a loose name that is taken back", &[passing, back], &result);
}
