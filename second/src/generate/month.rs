//! Random months: a publisher's chart in the first pool, its updates in a list, and what happens to both on their way.

use super::chart::Chart;
use super::form::{self, Form};
use super::publisher::{publisher, Publisher};
use super::random::Random;
use super::scatter::{any_workspace, arrived, Fate, WORKSPACE};
use crate::batch::{Case, MonthCall};
use crate::build::joined;

/// A random month; and how many files it applies and the chart that it then holds, where it was made to be accepted.
pub struct RandomMonth {
    pub case: Case,
    pub accepted: Option<(usize, Chart)>,
}

/// Months are a series of their own: they take no number from the cases of the other operations.
const SERIES: u64 = 0x6d6f6e746873;

/// The most files that a publisher sends.
const MOST: usize = 6;

/// The month of this number under this seed.
pub fn random_month(seed: u64, number: usize) -> RandomMonth {
    let random = &mut Random::of_case(seed ^ SERIES, number);
    let publisher = publisher(random, MOST);
    let records = form::records(&publisher.charts[0], &mut Form::Free(random));
    let fate = random.pick(&[Fate::Fields, Fate::Bytes]);
    let fate = if random.percent(4) { fate } else { Fate::Whole };
    let dataset = arrived(random, records, fate);
    let (list, applied) = match random.percent(72) {
        true => sound_list(random, &publisher),
        false => (odd_list(random, &publisher), None),
    };
    let (first, second, roomy) = pools(random, &publisher, dataset.len(), applied);
    let length = if random.percent(96) { dataset.len() } else { any_length(random, dataset.len(), first) };
    let work = if random.percent(96) { WORKSPACE } else { any_workspace(random) };
    let sound = fate == Fate::Whole && roomy && length == dataset.len() && work >= WORKSPACE;
    let accepted = applied.filter(|_| sound).map(|applied| (applied, publisher.charts[applied].clone()));
    let call = MonthCall { first: filled(random, dataset, first), length, list, second, work: work as u32 };
    RandomMonth { case: Case::month(&call), accepted }
}

/// The publisher's files in order, mostly all of them, and how many they are.
fn sound_list(random: &mut Random, publisher: &Publisher) -> (Vec<u8>, Option<usize>) {
    let all = publisher.updates.len();
    let count = if random.percent(80) { all } else { random.between(1, all) };
    let files: Vec<Vec<u8>> = publisher.updates[..count].iter().map(|update| update.file.clone()).collect();
    (joined(&files), Some(count))
}

/// A list that something happened to: to a file, to the order of the files, or to the bytes of the whole.
fn odd_list(random: &mut Random, publisher: &Publisher) -> Vec<u8> {
    let mut files: Vec<Vec<u8>> = publisher.updates.iter().map(|update| update.file.clone()).collect();
    let (at, other) = (random.below(files.len()), random.below(files.len()));
    match random.below(12) {
        0..=3 => files[at] = arrived(random, publisher.updates[at].records.clone(), Fate::Fields),
        4..=5 => files[at] = arrived(random, publisher.updates[at].records.clone(), Fate::Bytes),
        6 => drop(files.remove(at)),
        7 => files.insert(other, files[at].clone()),
        8 => files.swap(at, other),
        9 => files[at].clear(),
        _ => return odd_bytes(random, joined(&files)),
    }
    joined(&files)
}

/// A list cut anywhere, a few bytes more behind it, or another number in the place of the first length.
fn odd_bytes(random: &mut Random, mut list: Vec<u8>) -> Vec<u8> {
    match random.below(4) {
        0 => list[random.below(4)] ^= 1 << random.below(8),
        1 => {
            let more = random.between(1, 9);
            list.extend(random.bytes(more));
        }
        _ => list.truncate(random.below(list.len())),
    }
    list
}

/// The lengths of the pools, around what the results need, and whether they are long enough for this many files.
fn pools(random: &mut Random, publisher: &Publisher, dataset: usize, applied: Option<usize>) -> (usize, usize, bool) {
    let needed: Vec<usize> = publisher.charts.iter().map(|chart| form::written(chart).len()).collect();
    let needed = &needed[..=applied.unwrap_or(needed.len() - 1)];
    // Behind the dataset, results 2, 4, .. come to the first pool and results 1, 3, .. to the second.
    let first = needed.iter().copied().skip(2).step_by(2).max().unwrap_or(0).max(dataset);
    let second = needed.iter().copied().skip(1).step_by(2).max().unwrap_or(0);
    let (lent_first, lent_second) = (room(random, first).max(dataset), room(random, second));
    (lent_first, lent_second, lent_first >= first && lent_second >= second)
}

/// Around what is needed: exact, a byte less, something less, or more.
pub(super) fn room(random: &mut Random, needed: usize) -> usize {
    match random.below(20) {
        0 => needed.saturating_sub(1),
        1 => random.below(needed + 1),
        2..=9 => needed,
        10 => needed + 1,
        _ => needed + random.between(1, 1500),
    }
}

/// A length that is not the dataset's, within the pool and above it.
fn any_length(random: &mut Random, dataset: usize, pool: usize) -> usize {
    let within = random.below(pool + 1);
    random.pick(&[0, 1, dataset.saturating_sub(1), dataset + 1, pool, pool + 1, within, 0xffff_ffff])
}

/// The dataset in a pool of so many bytes, with zeroes or anything else behind it.
fn filled(random: &mut Random, mut dataset: Vec<u8>, pool: usize) -> Vec<u8> {
    let more = pool - dataset.len();
    let behind = if random.percent(30) { vec![0; more] } else { random.bytes(more) };
    dataset.extend(behind);
    dataset
}
