//! What the listing program prints.

use super::base::*;
use super::{Intent, Table};
use crate::batch::Case;
use crate::build::*;

const HEADER: &str = "rec tag rcid rver attr coord\n";
/// The longest input that is read.
const LONGEST: usize = 65_536;

pub fn rows(table: &mut Table) {
    tables(table);
    refusals(table);
    lengths(table);
}

fn prints(table: &mut Table, name: &str, input: Vec<u8>, printed: &str) {
    table.row(&format!("listing: {name}"), Case::listing(input), Intent::Prints(printed.to_string()));
}

fn tables(table: &mut Table) {
    let base =
        "4 IRID 5 2 1 0\n5 IRID 6 1 0 0\n6 PRID 7 1 0 1\n7 MRID 8 4 0 3\n8 FRID 3 2 7 0\n9 FRID 4 1 0 0\ntotal 6\n";
    prints(table, "a record of each kind", file(&dataset()), &format!("{HEADER}{base}"));
    prints(table, "no records", file(&dataset()[..3]), &format!("{HEADER}total 0\n"));
    let three = [(1, 1, 0, 1, ""), (2, 1, 1, 1, "a"), (2, 2, 1, 1, "b")];
    let sample = [
        dataset()[..3].to_vec(),
        vec![vec![prid(7, 1, 1), c2it(0, 0)], vec![frid(3, 1, 2, 1), foid(0, 0, 0), attr(&three)]],
    ];
    prints(
        table,
        "the paper's sample",
        file(&sample.concat()),
        &format!("{HEADER}4 PRID 7 1 0 1\n5 FRID 3 2 3 0\ntotal 2\n"),
    );
    let split = vec![mrid(0xfffffffe, 65534, 1), c2il(&[(1, 1)]), c2il(&[]), c2il(&[(1, 1), (1, 1)])];
    let named = vec![irid(1, 1, 1, 1), attr(&[]), inas(1, 1, 1, 1, &three)];
    let records = [dataset()[..3].to_vec(), vec![named, split]].concat();
    let printed = format!("{HEADER}4 IRID 1 1 0 0\n5 MRID 4294967294 65534 0 3\ntotal 2\n");
    prints(table, "split lists, attributes of an association, the greatest numbers", file(&records), &printed);
}

fn refusals(table: &mut Table) {
    prints(table, "nothing", Vec::new(), "refused 1 1 1\n");
    prints(table, "one byte", vec![b'0'], "refused 1 1 1\n");
    prints(table, "no leader", vec![0; 24], "refused 2 1 1\n");
    prints(table, "no field", record(true, 5, 5, &[]), "refused 3 1 1\n");
    prints(table, "no third record", file(&dataset()[..2]), "refused 4 1 3\n");
    prints(table, "RCID 0 (P7)", file(&changed(POINT, |f| f[0] = prid(0, 1, 1))), "refused 5 1 6\n");
    let twice = [(1, 1, 0, 1, ""), (1, 1, 0, 1, "")];
    prints(table, "ATIX 1 twice (P9)", file(&changed(INFORMATION, |f| f[1] = attr(&twice))), "refused 6 1 4\n");
    prints(table, "a key twice", file(&changed(BARE_FEATURE, |f| f[0] = frid(3, 1, 1, 1))), "refused 7 1 9\n");
    prints(table, "a loose reference", file(&changed(MULTI, |f| f[1] = inas(99, 1, 1, 1, &[]))), "refused 11 1 7\n");
    let ten = [dataset(), vec![vec![frid(NEW, 1, 1, 1)]]].concat();
    prints(table, "a fault at record 10", file(&ten), "refused 4 1 10\n");
}

fn lengths(table: &mut Table) {
    prints(table, "65,536 bytes of nothing", vec![0; LONGEST], "refused 2 1 1\n");
    prints(table, "65,537 bytes of nothing", vec![0; LONGEST + 1], "too long\n");
    let filled = |length: usize| {
        let mut records = dataset()[..3].to_vec();
        let rest = length - file(&records).len();
        records[2][0].body.extend(vec![0; rest]);
        file(&records)
    };
    prints(table, "a dataset of 65,536 bytes", filled(LONGEST), &format!("{HEADER}total 0\n"));
    prints(table, "a dataset of 65,537 bytes", filled(LONGEST + 1), "too long\n");
    prints(table, "a dataset of 65,536 bytes and one more", [filled(LONGEST), vec![0]].concat(), "too long\n");
    prints(table, "a record cut at 65,536 bytes", filled(LONGEST + 1)[..LONGEST].to_vec(), "refused 1 1 3\n");
}
