//! A holding told: what is read of the chart, and the output slice.

use super::faults::{faults, one_of_each};
use super::*;

pub fn rows(table: &mut Table) {
    refused(table);
    rooms(table);
    first_two_records(table);
    names_and_numbers(table);
}

fn row(table: &mut Table, name: &str, case: Case, intent: Intent) {
    table.row(&format!("tell: {name}"), case, intent);
}

/// The chart is told as this holding, in a slice that is longer.
fn told(table: &mut Table, name: &str, chart: Vec<u8>, holding: Vec<u8>) {
    row(table, name, Case::tell(chart, ROOM), Intent::Done { written: holding, count: 0 });
}

/// Every refusal of the first two records, with room and without.
fn refused(table: &mut Table) {
    for fault in faults(&dataset()) {
        let intent = Intent::Refused(fault.number, 1, fault.record);
        row(table, &fault.name, Case::tell(fault.bytes, ROOM), intent);
    }
    for fault in one_of_each(&dataset()) {
        let intent = Intent::Refused(fault.number, 1, fault.record);
        row(table, &format!("{}, and no room", fault.name), Case::tell(fault.bytes, 0), intent);
    }
}

fn rooms(table: &mut Table) {
    let (chart, needed) = (file(&dataset()), held().len() as u32);
    let thirteen = || Intent::Refused(13, 3, 0);
    for out in [0, 1, 6, 9, 10, needed - 1] {
        row(table, &format!("{out} bytes of room"), Case::tell(chart.clone(), out), thirteen());
    }
    for out in [needed, needed + 1, 2 * needed, 5000] {
        let done = Intent::Done { written: held(), count: 0 };
        row(table, &format!("{out} bytes of room"), Case::tell(chart.clone(), out), done);
    }
    let nameless = file(&changed(2, |f| f[0] = dsid(1, "", 3, 7)));
    row(table, "an empty name, 9 bytes of room", Case::tell(nameless.clone(), 9), thirteen());
    let done = Intent::Done { written: holding(3, 7, b""), count: 0 };
    row(table, "an empty name, 10 bytes of room", Case::tell(nameless, 10), done);
}

/// Two records are enough, and what stands behind them is not looked at.
fn first_two_records(table: &mut Table) {
    let front = file(&dataset()[..2]);
    let behind: [(&str, Vec<u8>); 7] = [
        ("two records", Vec::new()),
        ("a byte in the third place", vec![0]),
        ("23 blanks in the third place", vec![b' '; 23]),
        ("24 blanks in the third place", vec![b' '; 24]),
        ("a point in the third place", record(false, 5, 5, &[prid(0, 1, 1)])),
        ("a CSID record cut", record(false, 5, 5, &dataset()[2])[..30].to_vec()),
        ("three records", record(false, 5, 5, &dataset()[2])),
    ];
    for (name, bytes) in behind {
        told(table, name, [&front[..], &bytes].concat(), held());
    }
    told(table, "a key twice", file(&[dataset(), dataset()[8..].to_vec()].concat()), held());
    told(table, "a loose reference", file(&changed(5, |f| f.push(inas(99, 1, 1, 1, &[])))), held());
    told(table, "an update in the place of a chart", next(), holding(3, 8, b"CHART"));
    let widths = [record(true, 9, 1, &dataset()[0]), record(false, 6, 8, &dataset()[1])].concat();
    told(table, "other widths", widths, held());
    let bare = file(&changed(2, |f| f.truncate(1)));
    told(table, "a general record of DSID alone", bare, held());
}

fn names_and_numbers(table: &mut Table) {
    let chart = |name: &str, edition, update| file(&changed(2, |f| f[0] = dsid(1, name, edition, update)));
    let long = "n".repeat(1000);
    for (what, name) in [("one byte", "N"), ("bytes beyond ASCII", "Å/→\0\u{7f}"), ("1,000 bytes", &long)] {
        told(table, &format!("a name of {what}"), chart(name, 3, 7), holding(3, 7, name.as_bytes()));
    }
    for (edition, update) in [(1, 0), (65_534, 65_534), (256, 255), (0x1e1f, 0x1f1e), (1, 65_533)] {
        let name = format!("edition {edition}, update {update}");
        told(table, &name, chart("CHART", edition, update), holding(edition, update, b"CHART"));
    }
    let mut id = dsid(1, "CHART", 3, 7);
    id.body.splice(5..10, *b"S-100\x1f5.0\x1fINT\x1f\xff\x1fP\x1f");
    told(table, "texts before the name", file(&changed(2, |f| f[0] = id.clone())), held());
}

/// There is no 14.
pub fn huge(table: &mut Table) {
    let mut chart = file(&dataset());
    chart.resize(TOO_LONG, b' ');
    told(table, "a chart of a byte too many", chart, held());
}
