//! Cases for every comparison: named ones for each cause in the paper, and random ones that a seed decides.

mod cable;
pub mod chart;
mod damage;
mod directed;
mod exchange;
pub mod form;
pub mod invent;
mod month;
mod publisher;
pub mod random;
pub mod revise;
mod scatter;
mod trace;

pub use cable::{random_reply, random_taken, random_told, RandomReply, RandomTaken, RandomTold};
pub use directed::{directed, table, Directed, Intent};
pub use exchange::{exchanges, Act, Exchanges, Step};
pub use month::{random_month, RandomMonth};
pub use scatter::{random_case, Scattered};
pub use trace::{trace, Trace};

use crate::batch::{Case, MONTH, REPLY, TAKE, TELL};
use random::Random;

/// The operations whose random cases are a series of their own.
const APART: [u8; 4] = [MONTH, REPLY, TAKE, TELL];

/// A corpus of so many cases of these operations. Beside other operations each of those apart gets the share of one.
pub fn corpus(seed: u64, count: usize, operations: &[u8]) -> Vec<Case> {
    let others: Vec<u8> = operations.iter().copied().filter(|operation| !APART.contains(operation)).collect();
    let apart = APART.into_iter().filter(|operation| operations.contains(operation)).map(|operation| vec![operation]);
    let mut groups: Vec<Vec<u8>> = apart.collect();
    if !others.is_empty() {
        groups.insert(0, others);
    }
    let share = count / operations.len();
    let first = count - share * (groups.len() - 1);
    let lengths = std::iter::once(first).chain(std::iter::repeat(share));
    let series = |(group, length): (&Vec<u8>, usize)| series(seed, length, group, |number| random(seed, number, group));
    let mut cases: Vec<Case> = groups.iter().zip(lengths).flat_map(series).collect();
    if groups.len() > 1 {
        Random::new(seed).shuffle(&mut cases);
    }
    cases
}

/// The random case of this number, where it is of one of the operations.
fn random(seed: u64, number: usize, operations: &[u8]) -> Option<Case> {
    match operations {
        [MONTH] => Some(random_month(seed, number).case),
        [REPLY] => Some(random_reply(seed, number).case),
        [TAKE] => Some(random_taken(seed, number).case),
        [TELL] => Some(random_told(seed, number).case),
        _ => operations.contains(&scatter::operation(seed, number)).then(|| random_case(seed, number).case),
    }
}

/// So many cases of these operations, directed ones and those that numbers scatter. The directed ones are at most two
/// fifths, and those of many megabytes come only where all the directed ones find room.
fn series(seed: u64, count: usize, operations: &[u8], scattered: impl Fn(usize) -> Option<Case>) -> Vec<Case> {
    let mut random = Random::new(seed);
    let share = count * 2 / 5;
    let wanted = |cases: Vec<Case>| -> Vec<Case> {
        cases.into_iter().filter(|case| operations.contains(&case.operation)).collect()
    };
    let mut cases = wanted(directed::small());
    if share >= cases.len() + directed::HUGE {
        cases = wanted(directed::all());
    }
    random.shuffle(&mut cases);
    cases.truncate(share);
    let more = count - cases.len();
    cases.extend((cases.len()..).filter_map(scattered).take(more));
    random.shuffle(&mut cases);
    cases
}
