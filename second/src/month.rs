//! A month of updates: files joined to a list, each preceded by its length, applied one by one. The result of each
//! stands in the pool that did not hold the chart before it.

use crate::calls::{self, Written};
use crate::file::{refusal, Refusal, DATASET, UPDATE};

/// What a month holds at its end: how many files were applied, and the pool (1 or 2) and the length of the result.
#[derive(Clone, Copy, Debug, PartialEq, Eq)]
pub struct Held {
    pub applied: usize,
    pub pool: usize,
    pub length: usize,
}

/// The refusal, or length and count as the last update answered them; what is held; and the bytes of both pools.
pub struct Month {
    pub outcome: Result<(usize, usize), Refusal>,
    pub held: Held,
    pub pools: [Vec<u8>; 2],
}

/// The pools as they are lent: the first with a dataset of a length that is not tested yet, the second with nothing.
pub struct Lent<'a> {
    pub first: &'a [u8],
    pub length: usize,
    pub second: usize,
}

pub fn month(list: &[u8], lent: &Lent, work: u32) -> Month {
    let mut results = Vec::new();
    let refused = walk(list, lent, work, &mut results).err();
    let applied = results.len();
    let mut pools = [vec![0; lent.first.len()], vec![0; lent.second]];
    let (last, count) = results.pop().unwrap_or_default();
    let length = if applied == 0 { lent.length } else { last.len() };
    let holder = applied % 2;
    // Where none was applied the first pool keeps what stands behind the dataset too.
    let held_bytes = if applied == 0 { lent.first } else { &last };
    pools[holder][..held_bytes.len()].copy_from_slice(held_bytes);
    let outcome = refused.map_or(Ok((last.len(), count)), Err);
    Month { outcome, held: Held { applied, pool: holder + 1, length }, pools }
}

/// The files in turn, and what each led to, until one is refused.
fn walk(list: &[u8], lent: &Lent, work: u32, results: &mut Vec<Written>) -> Result<(), Refusal> {
    calls::workspace(work)?;
    let mut rest = list;
    while !rest.is_empty() {
        let (file, behind) = next(rest).ok_or(refusal(1, UPDATE, 0))?;
        let chart = match results.last() {
            Some((written, _)) => written,
            None => lent.first.get(..lent.length).ok_or(refusal(1, DATASET, 0))?,
        };
        let room = if results.len() % 2 == 0 { lent.second } else { lent.first.len() };
        results.push(calls::update(chart, file, room, work)?);
        rest = behind;
    }
    Ok(())
}

/// The first file of a list and what stands behind it; none where its length is cut off or runs past the end.
fn next(list: &[u8]) -> Option<(&[u8], &[u8])> {
    let (length, rest) = list.split_first_chunk()?;
    rest.split_at_checked(u32::from_le_bytes(*length) as usize)
}
