//! Traces: a display that a publisher's updates reach in any order, with loss and repetition, as the calls that it makes.

use super::form;
use super::publisher::publisher;
use super::random::Random;
use crate::answer::{answer, Answered};
use crate::batch::Case;
use crate::calls::WORKSPACE;

/// The calls of a display, and the charts that it may show.
pub struct Trace {
    pub calls: Vec<Case>,
    pub charts: Vec<Vec<u8>>,
}

/// The slice and the workspace that a display lends: mostly long enough.
pub(super) fn lent(random: &mut Random, needed: usize) -> (u32, u32) {
    let room = match random.below(10) {
        0 => needed - 1,
        1..=3 => needed,
        _ => needed + random.between(1, 3000),
    };
    (room as u32, if random.percent(94) { WORKSPACE } else { WORKSPACE - 1 })
}

/// The trace of this number under this seed: the model of a display, which holds a chart, and takes a result in its place.
pub fn trace(seed: u64, number: usize) -> Trace {
    let random = &mut Random::of_case(seed, number);
    let published = publisher(random, 5);
    let charts: Vec<Vec<u8>> = published.charts.iter().map(form::written).collect();
    let files: Vec<Vec<u8>> = published.updates.into_iter().map(|update| update.file).collect();
    let (mut chart, mut shown, mut calls) = (charts[0].clone(), 0, Vec::new());
    for _ in 0..random.between(2, 3 * files.len() + 2) {
        let sent = if shown < files.len() && random.percent(60) { shown } else { random.below(files.len()) };
        let (room, work) = lent(random, charts[sent + 1].len());
        let call = Case::update(chart.clone(), files[sent].clone(), room, work);
        if let Answered::Call { number: 0, length, out, .. } = answer(&call) {
            chart = out[..length].to_vec();
            shown += 1;
        }
        calls.push(call);
    }
    Trace { calls, charts }
}
