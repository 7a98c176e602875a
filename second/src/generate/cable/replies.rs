//! Random shelves, and random holdings that come to them.

use super::super::chart::General;
use super::super::form;
use super::super::publisher::{publisher, Publisher};
use super::super::random::Random;
use super::{damaged, odd_head, odd_parcel};
use crate::batch::Case;
use crate::build::{file, holding, parcel};
use crate::cable::Found;

/// A random holding before a random shelf; and the answer, where neither was damaged.
pub struct RandomReply {
    pub case: Case,
    pub answer: Option<Option<Found>>,
}

/// A series of their own, as months are.
const SERIES: u64 = 0x7265706c696573;

/// The most files that a publisher sends.
const MOST: usize = 6;

/// A file on the shelf: its bytes, and what its general record says.
struct Shelved {
    bytes: Vec<u8>,
    general: General,
}

/// The reply of this number under this seed.
pub fn random_reply(seed: u64, number: usize) -> RandomReply {
    let random = &mut Random::of_case(seed ^ SERIES, number);
    let publisher = publisher(random, MOST);
    let held = random.pick(&publisher.charts).general;
    let files = files(random, &publisher);
    let mut parcels: Vec<Vec<u8>> = files.iter().map(|file| parcel(2, &file.bytes)).collect();
    let mut told = holding(held.edition, held.update, &held.name);
    if random.percent(55) {
        let answer = expected(&held, &files);
        return RandomReply { case: Case::reply(told, parcels.concat()), answer: Some(answer) };
    }
    match random.below(12) {
        0..=1 => odd_parcel(random, &mut told),
        2..=3 => told = other_holding(random, &held),
        4..=6 => damage_one(random, &publisher, &mut parcels),
        7..=10 if !parcels.is_empty() => {
            let at = random.below(parcels.len());
            odd_head(random, &mut parcels[at]);
        }
        _ => {
            let mut shelf = parcels.concat();
            let (length, more) = (random.between(0, shelf.len()), random.between(1, 5));
            shelf.truncate(length);
            shelf.extend(random.bytes(more));
            parcels = vec![shelf];
        }
    }
    RandomReply { case: Case::reply(told, parcels.concat()), answer: None }
}

/// The first of the files whose general record follows the chart's.
fn expected(held: &General, files: &[Shelved]) -> Option<Found> {
    let follows = |sent: &General| {
        sent.name == held.name && sent.edition == held.edition && u32::from(sent.update) == u32::from(held.update) + 1
    };
    let at = files.iter().position(|file| follows(&file.general))?;
    let start = files[..at].iter().map(|file| 6 + file.bytes.len()).sum();
    Some(Found { start, length: 6 + files[at].bytes.len() })
}

/// Most of the publisher's files, some twice, some of others, in any order.
fn files(random: &mut Random, publisher: &Publisher) -> Vec<Shelved> {
    let count = publisher.updates.len();
    let mut numbers: Vec<usize> = (0..count).filter(|_| random.percent(80)).collect();
    for _ in 0..random.pick(&[0, 0, 1, 2, 3]) {
        numbers.push(random.below(count));
    }
    let own = |at: usize| Shelved {
        bytes: publisher.updates[at].file.clone(),
        general: publisher.charts[at + 1].general.clone(),
    };
    let mut files: Vec<Shelved> = numbers.into_iter().map(own).collect();
    for _ in 0..random.pick(&[0, 0, 1, 2]) {
        files.push(stranger(random, publisher));
    }
    if random.percent(70) {
        random.shuffle(&mut files);
    }
    files
}

/// A file that one of the publisher's would be, were its name, its edition or its number another.
fn stranger(random: &mut Random, publisher: &Publisher) -> Shelved {
    let at = random.below(publisher.updates.len());
    let mut general = General { unread: Vec::new(), ..publisher.charts[at + 1].general.clone() };
    match random.below(6) {
        0 => general.name.push(b' '),
        1 => general.name.insert(0, b'X'),
        2 => drop(general.name.pop()),
        3 => general.edition ^= 2,
        4 => general.edition = random.pick(&[1, 2, 3, 65_534]),
        _ => general.update = random.pick(&[1, 2, 256, 65_534]),
    }
    let mut records = publisher.updates[at].records.clone();
    records[1] = form::general(&general);
    Shelved { bytes: file(&records), general }
}

/// One of the publisher's files, damaged, at any place; now and then no other is there.
fn damage_one(random: &mut Random, publisher: &Publisher, parcels: &mut Vec<Vec<u8>>) {
    let at = random.below(publisher.updates.len());
    let bytes = damaged(random, publisher.updates[at].records.clone());
    if random.percent(30) {
        parcels.clear();
    }
    let at = random.between(0, parcels.len());
    parcels.insert(at, parcel(2, &bytes));
}

/// A holding of another number, edition or name; its numbers may be out of every range.
fn other_holding(random: &mut Random, held: &General) -> Vec<u8> {
    let any = random.pick(&[0, 1, 0xff00, 65_533, 65_534, 65_535]);
    let mut name = held.name.clone();
    match random.below(5) {
        0 => name.push(random.pick(&[0, b' ', 0x1f, 0x1e])),
        1 => drop(name.pop()),
        2 => return holding(any, held.update, &name),
        3 => return holding(held.edition, any, &name),
        _ => return holding(held.edition, held.update.wrapping_add(random.pick(&[1, 2, 0xffff])), &name),
    }
    holding(held.edition, held.update, &name)
}
