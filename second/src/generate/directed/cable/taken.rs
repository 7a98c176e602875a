//! Parcels taken: 27 before all, then the updater's answers to the body, and the chart's length afterwards.

use super::faults::one_of_each;
use super::*;

pub fn rows(table: &mut Table) {
    lengths(table);
    kinds(table);
    wrong_before_all(table);
    updaters_order(table);
    unreadable(table);
    accepted(table);
}

fn row(table: &mut Table, name: &str, case: Case, intent: Intent) {
    table.row(&format!("take: {name}"), case, intent);
}

/// A parcel on the base dataset, all else as it should be.
fn base(parcel: Vec<u8>) -> Case {
    Case::take(file(&dataset()), parcel, ROOM, WORK)
}

fn twenty_seven(table: &mut Table, name: &str, case: Case) {
    row(table, name, case, Intent::Refused(27, 0, 0));
}

/// The base dataset after the update that moves the point.
fn moved() -> Records {
    after_with(POINT, vec![prid(7, 2, 1), c2it(4, 5)])
}

fn done(chart: &Records) -> Intent {
    Intent::Done { written: file(chart), count: chart.len() }
}

fn lengths(table: &mut Table) {
    let good = carried(&next());
    for length in 0..6 {
        twenty_seven(table, &format!("a parcel of {length} bytes"), base(good[..length].to_vec()));
        twenty_seven(table, &format!("a parcel that states {length} bytes"), base(stating(good.clone(), length)));
        let cut = stating(carried(&[]), length)[..length.max(4)].to_vec();
        twenty_seven(table, &format!("no more than {length} bytes, as stated"), base(cut));
    }
    let mut off = vec![6, good.len() - 1, good.len() + 1, 0xffff_ffff];
    off.extend(high_bytes(good.len()));
    for length in off {
        let name = format!("a parcel that states {length} bytes");
        twenty_seven(table, &name, base(stating(good.clone(), length)));
    }
    let behind = |bytes: &[u8]| base([&good, bytes].concat());
    twenty_seven(table, "a byte behind the parcel", behind(&[0]));
    twenty_seven(table, "the same parcel behind the parcel", behind(&good));
    twenty_seven(table, "an empty parcel behind the parcel", behind(&carried(&[])));
    twenty_seven(table, "the last byte lost", base(good[..good.len() - 1].to_vec()));
}

fn kinds(table: &mut Table) {
    for kind in [0, 1, 3, 0x0100, 0x0102, 0x0200, 0x0201, 0xffff] {
        let of_kind = head_with(carried(&next()), 4, &u16::to_le_bytes(kind));
        twenty_seven(table, &format!("a parcel of kind {kind:04x}"), base(of_kind));
    }
    twenty_seven(table, "a holding", base(held()));
    twenty_seven(table, "six bytes of kind 1", base(parcel(1, &[])));
}

/// 27 before a short workspace, a chart that cannot be read, and no room.
fn wrong_before_all(table: &mut Table) {
    let bad = [("a wrong length", stating(carried(&next()), 5)), ("a wrong kind", held()), ("nothing", Vec::new())];
    for (name, parcel) in bad {
        let chart = file(&dataset());
        let short = Case::take(chart.clone(), parcel.clone(), ROOM, WORK - 1);
        twenty_seven(table, &format!("{name} before 15"), short);
        twenty_seven(table, &format!("{name} before no workspace"), Case::take(chart.clone(), parcel.clone(), ROOM, 0));
        twenty_seven(table, &format!("{name} before no chart"), Case::take(Vec::new(), parcel.clone(), ROOM, WORK));
        twenty_seven(table, &format!("{name} before no room"), Case::take(chart, parcel.clone(), 0, WORK));
        twenty_seven(table, &format!("{name} and nothing lent"), Case::take(Vec::new(), parcel, 0, 0));
    }
}

/// What the updater answers to chart and body, in its order.
fn updaters_order(table: &mut Table) {
    let (chart, good) = (file(&dataset()), carried(&next()));
    let result = file(&moved()).len() as u32;
    let take = |parcel: &[u8], out, work| Case::take(chart.clone(), parcel.to_vec(), out, work);
    row(table, "a short workspace", take(&good, ROOM, WORK - 1), Intent::Refused(15, 0, 0));
    row(table, "15 before an empty body", take(&carried(&[]), ROOM, 0), Intent::Refused(15, 0, 0));
    row(table, "15 before 13", take(&good, 0, WORK - 1), Intent::Refused(15, 0, 0));
    for out in [0, 1, result - 1] {
        row(table, &format!("{out} bytes of room"), take(&good, out, WORK), Intent::Refused(13, 3, 0));
    }
    for (name, file) in [
        ("the chart's own number", numbered(7)),
        ("the number after the next", numbered(9)),
        ("another name", named("CHARTS", 3, 8)),
        ("another edition", named("CHART", 4, 8)),
    ] {
        row(table, &format!("a file of {name}"), base(carried(&file)), Intent::Refused(8, 2, 2));
        row(
            table,
            &format!("a file of {name} before no room"),
            take(&carried(&file), 0, WORK),
            Intent::Refused(8, 2, 2),
        );
    }
    let absent = carried(&file(&with_heading(&[vec![prid(99, 2, 2)]])));
    row(table, "an absent record", base(absent), Intent::Refused(9, 2, 3));
    let version = carried(&file(&with_heading(&[vec![prid(7, 9, 3)]])));
    row(table, "a version that disagrees", base(version), Intent::Refused(10, 2, 3));
    let loose = carried(&file(&with_heading(&[vec![prid(7, 2, 2)]])));
    row(table, "a point that is still named", base(loose), Intent::Refused(11, 3, FEATURE - 1));
}

/// Bodies and charts whose records cannot be read; here the third one is read too.
fn unreadable(table: &mut Table) {
    for fault in one_of_each(&next_records()) {
        let intent = Intent::Refused(fault.number, 2, fault.record);
        row(table, &format!("a file with {}", fault.name), base(carried(&fault.bytes)), intent);
    }
    for fault in one_of_each(&dataset()) {
        let case = Case::take(fault.bytes, carried(&next()), ROOM, WORK);
        row(table, &format!("a chart with {}", fault.name), case, Intent::Refused(fault.number, 1, fault.record));
    }
    let third = carried(&[numbered(8), vec![b' '; 24]].concat());
    row(table, "a file with blanks in the third place", base(third), Intent::Refused(2, 2, 3));
    let left = carried(&[numbered(8), vec![0]].concat());
    row(table, "a file with a byte in the third place", base(left), Intent::Refused(1, 2, 3));
    row(table, "an empty body", base(carried(&[])), Intent::Refused(1, 2, 1));
    row(table, "a dataset in the parcel", base(carried(&file(&after()))), Intent::Refused(4, 2, 3));
    let two = Case::take(file(&dataset()[..2]), carried(&next()), ROOM, WORK);
    row(table, "a chart of two records", two, Intent::Refused(4, 1, 3));
    row(table, "an empty body on no chart", Case::take(Vec::new(), carried(&[]), ROOM, WORK), Intent::Refused(1, 1, 1));
}

fn accepted(table: &mut Table) {
    let result = file(&moved()).len() as u32;
    for out in [result, result + 1, ROOM] {
        let case = Case::take(file(&dataset()), carried(&next()), out, WORK);
        row(table, &format!("the next file, {out} bytes of room"), case, done(&moved()));
    }
    let longer = Case::take(file(&dataset()), carried(&next()), ROOM, WORK + 1);
    row(table, "the next file, a longer workspace", longer, done(&moved()));
    row(table, "a file of two records", base(carried(&numbered(8))), done(&after()));
    let free: Vec<u8> = dataset().iter().enumerate().flat_map(|(n, f)| record(n == 0, 9, 7, f)).collect();
    let case = Case::take(free, carried(&next()), ROOM, WORK);
    row(table, "a chart in other widths", case, done(&moved()));
    let acts = [vec![frid(3, 40, 3, 2)], vec![mrid(8, 5, 2)]];
    let mut left = after();
    left.drain(MULTI - 1..FEATURE);
    row(table, "a file that leaves a shorter chart", base(carried(&file(&with_heading(&acts)))), done(&left));
}

/// 14 is the updater's own.
pub fn huge(table: &mut Table) {
    let long = carried(&vec![b' '; TOO_LONG]);
    row(table, "a body of a byte too many", base(long), Intent::Refused(14, 2, 0));
}
