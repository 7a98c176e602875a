//! A publisher: a chart, and updates of it that follow each other.

use super::chart::Chart;
use super::form::Form;
use super::invent;
use super::random::Random;
use super::revise::{revise, Revised};
use crate::build::Field;

/// An update as the fields of its records, and as a file in a free form.
pub struct Issued {
    pub records: Vec<Vec<Field>>,
    pub file: Vec<u8>,
}

/// The updates that are sent, and the chart after each number of them.
pub struct Publisher {
    pub charts: Vec<Chart>,
    pub updates: Vec<Issued>,
}

/// A publisher of one update to so many.
pub fn publisher(random: &mut Random, most: usize) -> Publisher {
    let mut chart = invent::chart(random);
    // A few updates must be able to follow.
    chart.general.update = chart.general.update.min(65_000);
    let mut publisher = Publisher { charts: vec![chart.clone()], updates: Vec::new() };
    for _ in 0..random.between(1, most) {
        let Revised { records, chart: next } = revise(random, &chart, false);
        let file = Form::Free(random).file(&records);
        publisher.updates.push(Issued { records, file });
        publisher.charts.push(next.clone());
        chart = next;
    }
    publisher
}
