//! Random cases: what a call is asked, on which files, in what rooms.

use super::chart::Chart;
use super::damage;
use super::form::{self, Form};
use super::invent;
use super::random::Random;
use super::revise::{revise, Revised};
use crate::batch::{Case, LISTING, READ, UPDATE, WRITE};
use crate::build::Field;

/// The workspace that the updater asks for.
pub(super) const WORKSPACE: usize = 400_000;

/// The longest input that the listing program reads.
const LISTED: usize = 65_536;

/// A random case, and the chart that its output says where it was made to be accepted.
pub struct Scattered {
    pub case: Case,
    pub accepted: Option<Chart>,
}

/// The operation of the case of this number under this seed.
pub fn operation(seed: u64, number: usize) -> u8 {
    drawn(&mut Random::of_case(seed, number))
}

fn drawn(random: &mut Random) -> u8 {
    random.pick(&[READ, WRITE, LISTING, UPDATE, UPDATE, UPDATE, UPDATE])
}

/// The case of this number under this seed.
pub fn random_case(seed: u64, number: usize) -> Scattered {
    let random = &mut Random::of_case(seed, number);
    let operation = drawn(random);
    let chart = invent::chart(random);
    match operation {
        UPDATE => update_case(random, &chart),
        _ => single_case(random, operation, chart),
    }
}

/// What happens to a file on its way into a case.
#[derive(Clone, Copy, PartialEq, Eq)]
pub(super) enum Fate {
    Whole,
    Fields,
    Bytes,
}

/// The bytes of a file in a free form, after its fate.
pub(super) fn arrived(random: &mut Random, mut records: Vec<Vec<Field>>, fate: Fate) -> Vec<u8> {
    // A second fault now and then shows which of the two is answered.
    let times = random.pick(&[1, 1, 2]);
    if fate == Fate::Fields {
        (0..times).for_each(|_| damage::fields(random, &mut records));
    }
    let mut file = Form::Free(random).file(&records);
    if fate == Fate::Bytes {
        (0..times).for_each(|_| damage::bytes(random, &mut file));
    }
    file
}

fn single_case(random: &mut Random, operation: u8, chart: Chart) -> Scattered {
    let fate = random.pick(&[Fate::Whole, Fate::Whole, Fate::Whole, Fate::Fields, Fate::Bytes]);
    let records = form::records(&chart, &mut Form::Free(random));
    let dataset = arrived(random, records, fate);
    let (out, roomy) = room(random, &chart);
    let fits = match operation {
        READ => true,
        WRITE => roomy,
        _ => dataset.len() <= LISTED,
    };
    let accepted = (fate == Fate::Whole && fits).then_some(chart);
    let case = match operation {
        READ => Case::read(dataset),
        WRITE => Case::write(dataset, out),
        _ => Case::listing(dataset),
    };
    Scattered { case, accepted }
}

fn update_case(random: &mut Random, old: &Chart) -> Scattered {
    let (dataset_fate, update_fate) = match random.below(20) {
        0..=1 => (Fate::Fields, Fate::Whole),
        2 => (Fate::Bytes, Fate::Whole),
        3..=7 => (Fate::Whole, Fate::Fields),
        8 => (Fate::Whole, Fate::Bytes),
        _ => (Fate::Whole, Fate::Whole),
    };
    let careless = random.percent(10);
    let Revised { records, chart } = revise(random, old, careless);
    let given = form::records(old, &mut Form::Free(random));
    let dataset = arrived(random, given, dataset_fate);
    let update = arrived(random, records, update_fate);
    let (out, roomy) = room(random, &chart);
    let work = if random.percent(93) { WORKSPACE } else { any_workspace(random) };
    let sound = dataset_fate == Fate::Whole && update_fate == Fate::Whole && !careless;
    let accepted = (sound && roomy && work >= WORKSPACE).then_some(chart);
    Scattered { case: Case::update(dataset, update, out, work as u32), accepted }
}

pub(super) fn any_workspace(random: &mut Random) -> usize {
    random.pick(&[0, 1, WORKSPACE - 1, WORKSPACE, WORKSPACE + 1, WORKSPACE * 2])
}

/// An output slice for what the chart's written form needs, and whether it is long enough.
pub(super) fn room(random: &mut Random, chart: &Chart) -> (u32, bool) {
    let needed = form::written(chart).len();
    let length = match random.below(40) {
        0 => 0,
        1..=2 => needed - 1,
        3 => random.below(needed),
        4..=20 => needed,
        21 => needed + 1,
        _ => needed + random.between(1, 3000),
    };
    (length as u32, length >= needed)
}
