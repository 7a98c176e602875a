//! What is lent: pools that are just long enough or too short, what stands in them before and after, and the workspace.

use super::super::sizes::multi;
use super::*;

pub fn rows(table: &mut Table) {
    workspaces(table);
    exact_pools(table);
    too_short(table);
    full_pools(table);
    behind_the_dataset(table);
    shrinking(table);
}

/// 15 before all.
fn workspaces(table: &mut Table) {
    let mut short = |name: &str, call: MonthCall| {
        let call = MonthCall { work: WORK - 1, ..call };
        none(table, &format!("a short workspace, {name}"), call, Some((15, 0, 0)));
    };
    short("an empty list", base(Vec::new()));
    short("an empty list, a length above the pool", MonthCall { length: FIRST + 1, ..base(Vec::new()) });
    short("a good list", base(list(1..=2)));
    short("a broken list", base(vec![1, 0]));
    short("a length above the pool", MonthCall { length: FIRST + 1, ..base(list([1])) });
    short("a dataset that cannot be read", in_pool(&[], FIRST, list([1])));
    short("no room", MonthCall { second: 0, ..base(list([1])) });
    let nothing = MonthCall { work: 0, ..base(list([1])) };
    none(table, "no workspace", nothing, Some((15, 0, 0)));
    let more = MonthCall { work: WORK + 1, ..base(list([1])) };
    some(table, "a longer workspace", more, (1, &chart(1)), None);
}

/// Pools that just hold the last results which come to them, and pools a byte shorter.
fn exact_pools(table: &mut Table) {
    for n in 1..=6 {
        let (even, odd) = if n % 2 == 0 { (n, n - 1) } else { (n - 1, n) };
        let first = if even == 0 { file(&dataset()).len() } else { length(even) };
        let call = |first, second| MonthCall { second, ..in_pool(&file(&dataset()), first, list(1..=n)) };
        some(table, &format!("{n} files in exact pools"), call(first, length(odd)), (n.into(), &chart(n)), None);
        let short = if n == odd { call(first, length(odd) - 1) } else { call(first - 1, length(odd)) };
        stops(table, &format!("a byte too few for the last of {n} files"), short, n - 1, (13, 3, 0));
    }
}

/// 13: each pool has its own length, and a later file finds no room either way.
fn too_short(table: &mut Table) {
    let call = |first, second, n| MonthCall { second, ..in_pool(&file(&dataset()), first, list(1..=n)) };
    let mut thirteen = |name: &str, call: MonthCall, applied| stops(table, name, call, applied, (13, 3, 0));
    thirteen("a second pool of no bytes", call(FIRST, 0, 1), 0);
    thirteen("a second pool a byte too short for the first of three", call(FIRST, length(1) - 1, 3), 0);
    thirteen("a first pool a byte too short for the second of four", call(length(2) - 1, SECOND, 4), 1);
    thirteen("a second pool that takes the first and not the third", call(FIRST, length(1), 4), 2);
    thirteen("a first pool that takes the second and not the fourth", call(length(2), SECOND, 5), 3);
    thirteen("both pools end at the second file", call(length(2) - 1, length(1), 3), 1);
    let eight_first = MonthCall { second: 0, ..base(list([2])) };
    stops(table, "8 before 13", eight_first, 0, (8, 2, 2));
}

/// A dataset that leaves no byte of its pool.
fn full_pools(table: &mut Table) {
    let written = file(&dataset());
    let full = |list| in_pool(&written, written.len(), list);
    none(table, "a full pool, an empty list", full(Vec::new()), None);
    some(table, "a full pool, one file", full(list([1])), (1, &chart(1)), None);
    stops(table, "a full pool, two files", full(list(1..=2)), 1, (13, 3, 0));
    let above = MonthCall { length: written.len() + 1, ..full(list([1])) };
    none(table, "a full pool, a length a byte above it", above, Some((1, 1, 0)));
    let same_size = [numbered(1, &[vec![prid(7, 2, 3), c2it(0, 0)]]), numbered(2, &[vec![prid(7, 3, 3), c2it(9, 9)]])];
    let mut result = dataset();
    result[1][0] = dsid(2, "CHART", 3, 9);
    result[POINT - 1] = vec![prid(7, 3, 1), c2it(9, 9)];
    let call = MonthCall { second: written.len(), ..full(joined(&same_size)) };
    some(table, "two full pools, two files that change no length", call, (2, &result), None);
}

/// Kept where none is applied, zero where the result comes back to the pool and where it does not.
fn behind_the_dataset(table: &mut Table) {
    let written = file(&dataset());
    for byte in [0x00, 0x1e, 0xff] {
        let call = |list| MonthCall { first: [&written[..], &[byte; 700]].concat(), length: written.len(), ..base(list) };
        none(table, &format!("{byte:02x} behind the dataset, none applied"), call(list([2])), Some((8, 2, 2)));
        none(table, &format!("{byte:02x} behind the dataset, no file"), call(Vec::new()), None);
        some(table, &format!("{byte:02x} behind the dataset, one applied"), call(list([1])), (1, &chart(1)), None);
        some(table, &format!("{byte:02x} behind the dataset, two applied"), call(list(1..=2)), (2, &chart(2)), None);
    }
}

/// Results that are shorter than what stood in their pool before.
fn shrinking(table: &mut Table) {
    let long = numbered(1, &[multi(NEW, 1, 1, 60)]);
    let shorter = numbered(2, &[vec![mrid(NEW, 2, 2)], vec![frid(4, 41, 2, 2)]]);
    let shortest = numbered(3, &[vec![frid(3, 40, 3, 2)], vec![mrid(8, 5, 2)], vec![prid(7, 2, 2)]]);
    let left = |n: u16, count| changed(2, |f| f[0] = dsid(n.into(), "CHART", 3, 7 + n))[..count].to_vec();
    let call = |files: &[&Vec<u8>]| base(joined(&files.iter().map(|f| f.to_vec()).collect::<Vec<_>>()));
    some(table, "a second result shorter than the dataset", call(&[&long, &shorter]), (2, &left(2, 8)), None);
    let all = call(&[&long, &shorter, &shortest]);
    some(table, "a third result shorter than the first", all, (3, &left(3, 5)), None);
    let repeated = call(&[&long, &shorter, &shortest, &shorter]);
    some(table, "a third result shorter than the first, and 8", repeated, (3, &left(3, 5)), Some((8, 2, 2)));
}
