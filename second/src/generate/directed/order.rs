//! Two faults at once: which of them is answered.

use super::base::*;
use super::trees::edit;
use super::{with_heading, Intent, Table, ROOM, WORK};
use crate::batch::Case;
use crate::build::*;

pub fn rows(table: &mut Table) {
    within_a_record(table);
    key_again(table);
    among_records(table);
    dataset_before_update(table);
    first_pass_before_eight(table);
    eight_before_the_acts(table);
    within_an_act(table);
    among_acts(table);
    rooms(table);
}

/// The smaller number of one record, 1 to 7.
fn within_a_record(table: &mut Table) {
    let twice = |tree: &[Tuple]| vec![irid(NEW, 1, 1, 1), inas(5, 1, 1, 1, tree), inas(5, 1, 1, 1, tree)];
    let loop_to_itself = [(1, 1, 1, 1, "")];
    let rows: [(&str, usize, Vec<Field>, u32); 7] = [
        ("4 before 5", AS_POINT, vec![prid(0, 1, 1), attr(&[]), c2it(0, 0)], 4),
        (
            "4 at the end before 5 at the start",
            AS_FEATURE,
            vec![frid(0, 65535, 0, 1), foid(0, 0, 0), spas(&[]), empty("MASK")],
            4,
        ),
        (
            "5 at the end before 6",
            AS_FEATURE,
            vec![frid(NEW, 1, 1, 1), foid(0, 0, 0), attr(&loop_to_itself), spas(&[(110, 7, 3, 0, 0, 1)])],
            5,
        ),
        ("5 before 6 in one tuple", AS_INFORMATION, vec![irid(NEW, 1, 1, 1), attr(&[(1, 0, 1, 1, "")])], 5),
        ("6 before 7", AS_INFORMATION, twice(&loop_to_itself), 6),
        ("5 before 7", AS_INFORMATION, twice(&[(1, 1, 0, 4, "")]), 5),
        (
            "6 in a record whose references are loose",
            AS_MULTI,
            vec![mrid(NEW, 1, 1), inas(99, 1, 1, 1, &loop_to_itself)],
            6,
        ),
    ];
    for (name, place, fields, number) in rows {
        table.specimen(name, place, number, fields);
    }
}

/// A record whose key stands already has no 7 before its own smaller numbers.
fn key_again(table: &mut Table) {
    let at = AS_INFORMATION;
    let again =
        |fields: Vec<Field>| [dataset()[..at - 1].to_vec(), vec![fields], dataset()[at - 1..].to_vec()].concat();
    let six = again(vec![irid(5, 1, 1, 1), attr(&[(1, 1, 1, 1, "")])]);
    table.dataset("6 before a key that stands twice", &six, 6, at);
    table.dataset("5 before a key that stands twice", &again(vec![irid(5, 65535, 1, 1)]), 5, at);
    let mut bounds = file(&again(vec![irid(0, 1, 1, 1), empty("ABCD")]));
    let start = file(&dataset()[..at - 1]).len();
    bounds[start + 28] = b' ';
    table.dataset_bytes("3 before 4", bounds.clone(), 3, at);
    bounds[start + 10] = b'!';
    table.dataset_bytes("2 before 3", bounds, 2, at);
}

/// The earlier record, whatever the numbers.
fn among_records(table: &mut Table) {
    let mut records = changed(FEATURE, |f| f.push(empty("MASK")));
    records[INFORMATION - 1][0] = irid(0, 30, 2, 1);
    table.dataset("5 at record 4 before 4 at record 8", &records, 5, INFORMATION);
    let mut twice = changed(FEATURE, |f| f.push(empty("MASK")));
    twice[INFORMATION][0] = irid(5, 31, 1, 1);
    table.dataset("7 at record 5 before 4 at record 8", &twice, 7, 5);
    let mut cut = file(&changed(INFORMATION, |f| f[0] = irid(0, 30, 2, 1)));
    cut.pop();
    table.dataset_bytes("5 at record 4 before 1 at the end", cut, 5, INFORMATION);
    let mut loose = changed(INFORMATION, |f| f.push(inas(99, 1, 1, 1, &[])));
    loose[BARE_FEATURE - 1][0] = frid(3, 41, 1, 1);
    table.dataset("7 at record 9 before a loose record 4", &loose, 7, BARE_FEATURE);
    let mut behind = file(&changed(INFORMATION, |f| f.push(inas(99, 1, 1, 1, &[]))));
    behind.push(0);
    table.dataset_bytes("1 behind the last record before a loose record 4", behind, 1, 10);
    let acts = [vec![prid(NEW, 1, 1)], vec![empty("ABCD")]];
    table.update("4 at record 3 before 4 at record 4", &with_heading(&acts), 4, 3);
    let acts = [vec![prid(0, 1, 1), c2it(0, 0)], vec![empty("ABCD")]];
    table.update("5 at record 3 before 4 at record 4", &with_heading(&acts), 5, 3);
}

fn on(dataset: &[Vec<Field>], update: Vec<u8>) -> Case {
    Case::update(file(dataset), update, ROOM, WORK)
}

/// All of the dataset, its references too, before anything of the update.
fn dataset_before_update(table: &mut Table) {
    let loose = changed(INFORMATION, |f| f.push(inas(99, 1, 1, 1, &[])));
    let wrong_first = [vec![empty("AAAA")], vec![empty("BBBB")]];
    let refused = Intent::Refused(11, 1, INFORMATION);
    table.row("a loose dataset before an empty update", on(&loose, Vec::new()), refused.clone());
    table.row("a loose dataset before 4 of the update", on(&loose, file(&wrong_first)), refused.clone());
    let mended = with_heading(&[vec![irid(99, 1, 1, 1)]]);
    table.row("a loose dataset that the update would mend", on(&loose, file(&mended)), refused);
    let late = changed(BARE_FEATURE, |f| f[0] = frid(3, 41, 1, 1));
    table.row("7 at the dataset's end before an empty update", on(&late, Vec::new()), Intent::Refused(7, 1, 9));
    table.row("an empty dataset and an empty update", on(&[], Vec::new()), Intent::Refused(1, 1, 1));
}

/// The heading with something that does not follow.
fn unfollowing(acts: &[Vec<Field>]) -> Records {
    [vec![heading()[0].clone(), vec![dsid(2, "OTHER", 1, 1)]], acts.to_vec()].concat()
}

fn first_pass_before_eight(table: &mut Table) {
    let good = vec![prid(NEW, 1, 1), c2it(0, 0)];
    let rows: [(&str, u32, Vec<Field>); 5] = [
        ("4", 4, vec![prid(NEW, 1, 1)]),
        ("5", 5, vec![irid(0, 1, 1, 1)]),
        ("6", 6, vec![irid(NEW, 1, 1, 1), attr(&[(1, 2, 0, 1, "")])]),
        ("7 within an inserted record", 7, vec![irid(NEW, 1, 1, 1), inas(5, 1, 1, 1, &[]), inas(5, 1, 1, 1, &[])]),
        (
            "7 of places within an inserted record",
            7,
            vec![frid(NEW, 1, 1, 1), foid(0, 0, 0), spas(&[PLACES[0], PLACES[0]])],
        ),
    ];
    for (name, number, fields) in rows {
        table.update(&format!("{name} at record 4 before 8"), &unfollowing(&[good.clone(), fields.clone()]), number, 4);
        let absent = vec![prid(99, 1, 2)];
        table.acts(&format!("{name} at record 4 before 9 at record 3"), &[absent, fields], number);
    }
    let mut cut = file(&unfollowing(std::slice::from_ref(&good)));
    cut.pop();
    table.update_bytes("1 before 8", cut, 1, 3);
    let mut behind = file(&unfollowing(&[good]));
    behind.extend([0; 24]);
    table.update_bytes("2 before 8", behind, 2, 4);
}

fn eight_before_the_acts(table: &mut Table) {
    let rows: [(&str, Vec<Field>); 7] = [
        ("7 of a record", vec![prid(7, 1, 1), c2it(0, 0)]),
        ("7 of an association in a modify", vec![frid(3, 40, 3, 3), inas(5, 1, 1, 1, &[])]),
        ("7 twice inserted in a modify", vec![frid(3, 40, 3, 3), inas(5, 9, 9, 1, &[]), inas(5, 9, 9, 1, &[])]),
        ("9", vec![prid(99, 1, 2)]),
        ("10", vec![prid(7, 9, 3)]),
        ("6 when applied", edit(&[(21, 1, 0, 3, "z"), (30, 1, 1, 1, "")])),
        ("9 of an entry", edit(&[(99, 1, 0, 2, "")])),
    ];
    for (name, fields) in rows {
        table.update(&format!("8 before {name}"), &unfollowing(&[fields]), 8, 2);
    }
}

/// 7 or 9 for the record, 10, then field after field and in it tuple after tuple.
fn within_an_act(table: &mut Table) {
    let modify = |more: &[Field]| [&[frid(3, 40, 3, 3)], more].concat();
    let there = || inas(5, 1, 1, 1, &[]);
    let absent = || inas(77, 1, 1, 2, &[]);
    let both = |first: Tuple<'static>, second: Tuple<'static>| attr(&[first, second]);
    let place_there = spas(&[(110, 7, 1, 0, 0, 1)]);
    let place_absent = spas(&[(110, 99, 1, 0, 0, 2)]);
    let rows: [(&str, Vec<Field>, u32); 14] = [
        ("7 of the record before 10", vec![prid(7, 9, 1), c2it(0, 0)], 7),
        ("9 of the record before its fields", vec![prid(99, 2, 3), there()], 9),
        ("10 of RVER before 9 of a field", vec![frid(3, 40, 9, 3), absent()], 10),
        ("10 of the code before 9 of a field", vec![frid(3, 99, 3, 3), absent()], 10),
        ("10 of FOID before 9 of an entry", vec![frid(3, 40, 3, 3), foid(9, 9, 9), attr(&[(99, 1, 0, 2, "")])], 10),
        ("10 of FOID before 6 of an entry", vec![frid(3, 40, 3, 3), foid(9, 9, 9), attr(&[(22, 1, 0, 3, "v")])], 10),
        ("9 of INAS before 7 of SPAS", modify(&[absent(), place_there.clone()]), 9),
        ("7 of INAS before 9 of SPAS", modify(&[there(), place_absent.clone()]), 7),
        ("9 of the first tuple before 6 of the second", modify(&[both((99, 1, 0, 2, ""), (22, 1, 0, 3, "v"))]), 9),
        ("6 of the first tuple before 9 of the second", modify(&[both((22, 1, 0, 3, "v"), (99, 1, 0, 2, ""))]), 6),
        ("9 of ATTR before 7 of INAS", modify(&[attr(&[(99, 1, 0, 2, "")]), there()]), 9),
        ("6 of ATTR before 9 of INAS", modify(&[attr(&[(22, 1, 0, 3, "v")]), absent()]), 6),
        ("9 of the first SPAS tuple before 7", modify(&[spas(&[(110, 99, 1, 0, 0, 2), (110, 7, 1, 0, 0, 1)])]), 9),
        ("7 of the first SPAS before 9 of the second", modify(&[place_there, place_absent]), 7),
    ];
    for (name, fields, number) in rows {
        table.act(name, fields, number);
    }
    let multi = |more: &[Field]| [&[mrid(8, 5, 3)], more].concat();
    table.act("7 of INAS before 9 of COCC", multi(&[inas(5, 1, 2, 1, &[]), cocc(2, 9, 9)]), 7);
    table.act("9 of INAS before 9 of COCC", multi(&[absent(), cocc(2, 9, 9)]), 9);
}

fn among_acts(table: &mut Table) {
    let absent = vec![prid(99, 2, 2)];
    let late = vec![prid(7, 9, 3)];
    table.update("10 at record 3 before 9 at record 4", &with_heading(&[late.clone(), absent.clone()]), 10, 3);
    table.update("9 at record 3 before 10 at record 4", &with_heading(&[absent.clone(), late]), 9, 3);
    let loose = vec![prid(7, 2, 2)];
    table.acts("9 at the last record before a loose result", &[loose.clone(), absent], 9);
    let twice = [vec![prid(7, 2, 2)], vec![irid(5, 30, 3, 2)]];
    let case = Case::update(file(&dataset()), file(&with_heading(&twice)), ROOM, WORK);
    table.row("the first loose record of the result", case, Intent::Refused(11, 3, MULTI - 2));
    let case = Case::update(file(&dataset()), file(&with_heading(&[loose])), 0, WORK);
    table.row("a loose result before no room", case, Intent::Refused(11, 3, FEATURE - 1));
}

/// 15 before everything, 13 after everything.
fn rooms(table: &mut Table) {
    let (bytes, update) = (file(&dataset()), file(&heading()));
    let length = bytes.len() as u32;
    let written = file(&after());
    for out in [0, 1, length - 1] {
        let refused = Intent::Refused(13, 3, 0);
        table.row(&format!("write: {out} bytes of room"), Case::write(bytes.clone(), out), refused.clone());
        table.row(
            &format!("update: {out} bytes of room"),
            Case::update(bytes.clone(), update.clone(), out, WORK),
            refused,
        );
    }
    for out in [length, length + 1, length + 1000] {
        let done = |written: &[u8]| Intent::Done { written: written.to_vec(), count: 9 };
        table.row(&format!("write: {out} bytes of room"), Case::write(bytes.clone(), out), done(&bytes));
        table.row(
            &format!("update: {out} bytes of room"),
            Case::update(bytes.clone(), update.clone(), out, WORK),
            done(&written),
        );
    }
    for work in [0, 1, WORK - 1] {
        for (name, given, sent) in [("good files", &bytes, &update), ("empty files", &Vec::new(), &Vec::new())] {
            let case = Case::update(given.clone(), sent.clone(), 0, work);
            table.row(&format!("update: workspace of {work}, {name}"), case, Intent::Refused(15, 0, 0));
        }
    }
    let roomy = Case::update(bytes.clone(), update, length, WORK + 1);
    table.row("update: workspace of 400,001", roomy, Intent::Done { written, count: 9 });
    let loose = file(&changed(INFORMATION, |f| f.push(inas(99, 1, 1, 1, &[]))));
    table.row("write: a loose dataset before no room", Case::write(loose, 0), Intent::Refused(11, 1, INFORMATION));
}
