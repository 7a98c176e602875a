//! The dataset: its length in the pool, what is refused of it and in which turn, and forms that are not the written one.

use super::super::sizes::{multi, narrow, MOST};
use super::*;

pub fn rows(table: &mut Table) {
    framing_and_dataset(table);
    dataset_lengths(table);
    refused_datasets(table);
    refused_by_size(table);
    free_forms(table);
}

/// The first file's framing, then the dataset's length, then what the updater refuses.
fn framing_and_dataset(table: &mut Table) {
    let above = |list| MonthCall { length: FIRST + 1, ..base(list) };
    let mut refuse = |name: &str, call, refused| none(table, name, call, Some(refused));
    refuse("a length above the pool", above(list([1])), (1, 1, 0));
    refuse("a length above the pool, three files", above(list(1..=3)), (1, 1, 0));
    refuse("the greatest length", MonthCall { length: 0xffff_ffff, ..base(list([1])) }, (1, 1, 0));
    refuse("a cut length before a length above the pool", above(vec![0, 0]), (1, 2, 0));
    refuse("a length past the end before a length above the pool", above(vec![9, 0, 0, 0, 1]), (1, 2, 0));
    refuse("a length above the pool before a broken second file", above(behind(1, &[0])), (1, 1, 0));
    refuse("a length above the pool before a file of no bytes", above(joined(&[Vec::new()])), (1, 1, 0));
    refuse("a length above the pool before 8", above(list([2])), (1, 1, 0));
    refuse("a length above the pool before 13", MonthCall { second: 0, ..above(list([1])) }, (1, 1, 0));
    let no_pool = |length| MonthCall { length, ..in_pool(&[], 0, list([1])) };
    refuse("a length above a pool of no bytes", no_pool(1), (1, 1, 0));
    refuse("a pool of no bytes", no_pool(0), (1, 1, 1));
    let wrong = || in_pool(b"no dataset", FIRST, vec![1]);
    refuse("a cut length before a dataset of ten bytes", wrong(), (1, 2, 0));
    refuse("a dataset of ten bytes", MonthCall { list: list([1]), ..wrong() }, (1, 1, 1));
    refuse("a dataset of ten bytes before a broken second file", MonthCall { list: behind(1, &[0]), ..wrong() }, (1, 1, 1));
    refuse("a dataset of ten bytes before a file of no bytes", MonthCall { list: vec![0; 4], ..wrong() }, (1, 1, 1));
}

/// A dataset ends where its length says.
fn dataset_lengths(table: &mut Table) {
    let whole = file(&dataset()).len();
    let said = |length| MonthCall { length, ..base(list([1])) };
    let mut refuse = |name: &str, length, refused| none(table, name, said(length), Some(refused));
    refuse("a length of 0", 0, (1, 1, 1));
    refuse("a length of 23", 23, (1, 1, 1));
    refuse("a length a byte too small", whole - 1, (1, 1, 9));
    refuse("a length a byte too great", whole + 1, (1, 1, 10));
    refuse("a length of a leader too much", whole + 24, (2, 1, 10));
    refuse("a length of the whole pool", FIRST, (2, 1, 10));
    let without_last = file(&dataset()[..8]).len();
    let mut shorter = chart(1);
    shorter.pop();
    some(table, "a length that leaves out the last record", said(without_last), (1, &shorter), None);
}

/// The reader's refusals, and 12, at the first file's turn.
fn refused_datasets(table: &mut Table) {
    let rows: [(&str, Records, Refused); 6] = [
        ("no general record", dataset()[..1].to_vec(), (4, 1, 2)),
        ("RCID 0", changed(POINT, |f| f[0] = prid(0, 1, 1)), (5, 1, POINT)),
        ("a broken tree", changed(INFORMATION, |f| f[1] = attr(&[(1, 2, 0, 1, "")])), (6, 1, INFORMATION)),
        ("a key twice", [dataset(), dataset()[8..].to_vec()].concat(), (7, 1, 10)),
        ("a loose reference", changed(5, |f| f.push(inas(99, 1, 1, 1, &[]))), (11, 1, 5)),
        ("update number 65,535", changed(2, |f| f[0] = dsid(1, "CHART", 3, 65_535)), (5, 1, 2)),
    ];
    for (name, records, refused) in rows {
        let call = in_pool(&file(&records), FIRST, list(1..=2));
        none(table, &format!("a dataset with {name}"), call, Some(refused));
    }
    let mut leader = file(&dataset());
    leader[22] = b'1';
    none(table, "a dataset with a wrong leader", in_pool(&leader, FIRST, list(1..=2)), Some((2, 1, 1)));
    let long = narrow(&[dataset()[..3].to_vec(), vec![multi(1, 1, 1, MOST + 1)]].concat(), 4);
    let call = in_pool(&long, long.len() + 9, joined(&[numbered(1, &[vec![mrid(1, 2, 2)]])]));
    none(table, "a dataset with a record that cannot be written", call, Some((12, 1, 4)));
}

/// 12 by a record that the second file makes too long.
fn refused_by_size(table: &mut Table) {
    let full = |general| vec![dataset()[0].clone(), general, dataset()[2].clone(), multi(1, 1, 1, MOST)];
    let longer = numbered(2, &[vec![mrid(1, 2, 3), cocc(1, 1, 1), c2il(&[(0, 0)])]]);
    let given = file(&full(dataset()[1].clone()));
    let call = in_pool(&given, given.len(), joined(&[numbered(1, &[]), longer]));
    let first = full(changed(2, |f| f[0] = dsid(1, "CHART", 3, 8))[1].clone());
    let call = MonthCall { second: given.len() + 1, ..call };
    some(table, "a second file that makes a record too long", call, (1, &first), Some((12, 2, 3)));
}

fn in_widths(a: usize, b: usize, records: &[Vec<Field>]) -> Vec<u8> {
    records.iter().enumerate().flat_map(|(n, fields)| record(n == 0, a, b, fields)).collect()
}

/// The base dataset with other widths, lists over several fields, and empty lists.
fn free() -> Vec<u8> {
    let mut records = dataset();
    records[4].push(attr(&[]));
    let list = records[MULTI - 1].pop().expect("its coordinates").body;
    records[MULTI - 1].extend([&list[..8], &[], &list[8..]].map(|part| field("C2IL", part.to_vec())));
    in_widths(9, 7, &records)
}

/// The first file is applied to a form that is not the written one, the next to the written one.
fn free_forms(table: &mut Table) {
    for n in 1..=3 {
        let call = in_pool(&free(), FIRST, list(1..=n));
        some(table, &format!("a dataset in a free form, {n} files"), call, (n.into(), &chart(n)), None);
    }
    let repeated = in_pool(&free(), FIRST, list([2]));
    none(table, "a dataset in a free form, a file that does not follow", repeated, Some((8, 2, 2)));
    none(table, "a dataset in a free form, no file", in_pool(&free(), FIRST, Vec::new()), None);
    let full = in_pool(&free(), free().len(), list(1..=2));
    some(table, "a dataset in a free form that fills its pool, two files", full, (2, &chart(2)), None);
    let freely = |n: u16| in_widths(6, 9, &[heading()[0].clone(), vec![dsid(n.into(), "CHART", 3, 7 + n)]]);
    let result = changed(2, |f| f[0] = dsid(2, "CHART", 3, 9));
    let call = in_pool(&free(), FIRST, joined(&[freely(1), freely(2)]));
    some(table, "a dataset and two files in a free form", call, (2, &result), None);
}
