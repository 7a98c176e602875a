//! Random parcels that come to displays.

use super::super::chart::Chart;
use super::super::form::{self, Form};
use super::super::publisher::publisher;
use super::super::random::Random;
use super::super::scatter::{any_workspace, arrived, room, Fate, WORKSPACE};
use super::{damaged, odd_parcel};
use crate::batch::Case;
use crate::build::parcel;

/// A random parcel before a chart; and the chart that it leads to, where it was made to be accepted.
pub struct RandomTaken {
    pub case: Case,
    pub accepted: Option<Chart>,
}

/// A series of their own, as months are.
const SERIES: u64 = 0x70617263656c73;

/// The parcel of this number under this seed.
pub fn random_taken(seed: u64, number: usize) -> RandomTaken {
    let random = &mut Random::of_case(seed ^ SERIES, number);
    let publisher = publisher(random, 3);
    let held = random.below(publisher.updates.len());
    let sent = if random.percent(80) { held } else { random.below(publisher.updates.len()) };
    let update = &publisher.updates[sent];
    let (mut file, mut sound) = (update.file.clone(), sent == held);
    if random.percent(12) {
        (file, sound) = (damaged(random, update.records.clone()), false);
    }
    let mut carried = parcel(2, &file);
    if random.percent(14) {
        odd_parcel(random, &mut carried);
        sound = false;
    }
    let (chart, whole) = chart_bytes(random, &publisher.charts[held]);
    let (out, roomy) = room(random, &publisher.charts[sent + 1]);
    let work = if random.percent(93) { WORKSPACE } else { any_workspace(random) };
    let accepted = sound && whole && roomy && work >= WORKSPACE;
    let case = Case::take(chart, carried, out, work as u32);
    RandomTaken { case, accepted: accepted.then(|| publisher.charts[sent + 1].clone()) }
}

/// A display's chart: mostly in its written form, and whole.
fn chart_bytes(random: &mut Random, chart: &Chart) -> (Vec<u8>, bool) {
    if random.percent(70) {
        return (form::written(chart), true);
    }
    let records = form::records(chart, &mut Form::Free(random));
    let fate = random.pick(&[Fate::Whole, Fate::Whole, Fate::Whole, Fate::Fields, Fate::Bytes]);
    (arrived(random, records, fate), fate == Fate::Whole)
}
