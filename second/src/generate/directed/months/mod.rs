//! Months: lists, pools and datasets in any state, and what both pools hold at the end. Here stands what the cases share.

mod datasets;
mod lists;
mod pools;

use super::base::*;
use super::{Intent, Table, WORK};
use crate::batch::{Case, MonthCall};
use crate::build::*;
use crate::month::Held;

pub fn rows(table: &mut Table) {
    lists::rows(table);
    pools::rows(table);
    datasets::rows(table);
}

/// Enough for every small result, in pools that differ.
const FIRST: usize = 2_000;
const SECOND: usize = 2_500;
/// What stands in the first pool behind the dataset.
const BEHIND: u8 = 0x31;

/// A dataset in a first pool of so many bytes, and a list, all else as it should be.
fn in_pool(dataset: &[u8], pool: usize, list: Vec<u8>) -> MonthCall {
    let first = pooled(dataset, pool, BEHIND);
    MonthCall { first, length: dataset.len(), list, second: SECOND, work: WORK }
}

/// The base dataset and a list.
fn base(list: Vec<u8>) -> MonthCall {
    in_pool(&file(&dataset()), FIRST, list)
}

/// Number, file and record.
type Refused = (u32, u32, usize);

fn row(table: &mut Table, name: &str, call: MonthCall, outcome: Result<(usize, usize), Refused>, end: (Held, [Vec<u8>; 2])) {
    let (held, pools) = end;
    table.row(&format!("month: {name}"), Case::month(&call), Intent::Month { outcome, held, pools });
}

/// None is applied: the first pool keeps all its bytes, the second is zero, and the length is the one handed over.
fn none(table: &mut Table, name: &str, call: MonthCall, refused: Option<Refused>) {
    let held = Held { applied: 0, pool: 1, length: call.length };
    let pools = [call.first.clone(), vec![0; call.second]];
    row(table, name, call, refused.map_or(Ok((0, 0)), Err), (held, pools));
}

/// So many are applied: one pool holds this chart and zeroes, the other zeroes.
fn some(table: &mut Table, name: &str, call: MonthCall, (applied, chart): (usize, &Records), refused: Option<Refused>) {
    let written = file(chart);
    let pool = if applied % 2 == 1 { 2 } else { 1 };
    let mut pools = [vec![0; call.first.len()], vec![0; call.second]];
    pools[pool - 1][..written.len()].copy_from_slice(&written);
    let outcome = refused.map_or(Ok((written.len(), chart.len())), Err);
    row(table, name, call, outcome, (Held { applied, pool, length: written.len() }, pools));
}

/// So many of the updates below are applied to the base dataset, and then a file is refused.
fn stops(table: &mut Table, name: &str, call: MonthCall, applied: u16, refused: Refused) {
    match applied {
        0 => none(table, name, call, Some(refused)),
        _ => some(table, name, call, (applied.into(), &chart(applied)), Some(refused)),
    }
}

/// The update file of this number after the base dataset, with these records.
fn numbered(n: u16, acts: &[Vec<Field>]) -> Vec<u8> {
    file(&[&[heading()[0].clone(), vec![dsid(n.into(), "CHART", 3, 7 + n)]], acts].concat())
}

fn added(n: u16) -> u32 {
    NEW + u32::from(n)
}

/// Update n: it moves the point, inserts a multi point, and gives a tuple to the one that update n-1 inserted.
fn update(n: u16) -> Vec<u8> {
    let mut acts = vec![vec![prid(7, n + 1, 3), c2it(n.into(), -1)], vec![mrid(added(n), 1, 1)]];
    if n > 1 {
        acts.push(vec![mrid(added(n - 1), 2, 3), cocc(1, 1, 1), c2il(&[(n.into(), 0)])]);
    }
    numbered(n, &acts)
}

/// The base dataset after updates 1 to n.
fn chart(n: u16) -> Records {
    let mut records = dataset();
    records[1][0] = dsid(n.into(), "CHART", 3, 7 + n);
    records[POINT - 1] = vec![prid(7, n + 1, 1), c2it(n.into(), -1)];
    for earlier in 1..n {
        let tuple = c2il(&[(i32::from(earlier) + 1, 0)]);
        records.insert(FEATURE - 2 + usize::from(earlier), vec![mrid(added(earlier), 2, 1), tuple]);
    }
    records.insert(FEATURE - 2 + usize::from(n), vec![mrid(added(n), 1, 1)]);
    records
}

/// How long that is.
fn length(n: u16) -> usize {
    file(&chart(n)).len()
}

/// The list of these updates.
fn list(numbers: impl IntoIterator<Item = u16>) -> Vec<u8> {
    joined(&numbers.into_iter().map(update).collect::<Vec<_>>())
}

/// The list of updates 1 to n, then these bytes.
fn behind(n: u16, bytes: &[u8]) -> Vec<u8> {
    [&list(1..=n), bytes].concat()
}
