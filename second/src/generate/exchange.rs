//! Exchanges: displays that tell what they hold, a master that answers from its shelf, and a cable between them that
//! loses, repeats and delays parcels, and lets others hear some of them.

use super::form;
use super::publisher::publisher;
use super::random::Random;
use super::trace::lent;
use crate::answer::{answer, Answered, More};
use crate::batch::Case;
use crate::build::parcel;

/// Who did what. A holding is known by the step at which it was told.
#[derive(Clone, Copy, Debug, PartialEq, Eq)]
pub enum Act {
    Tell {
        display: usize,
    },
    /// The master is reached by this holding, or by an answer of its own.
    Reply {
        holding: Option<usize>,
    },
    /// A display is reached by the answer to this holding of its own, or by anything else.
    Take {
        display: usize,
        answers: Option<usize>,
    },
}

pub struct Step {
    pub act: Act,
    pub case: Case,
}

/// The steps of some displays and their master, and what they start from.
pub struct Exchanges {
    pub steps: Vec<Step>,
    /// The written chart after each number of updates.
    pub charts: Vec<Vec<u8>>,
    /// The number of each display at the start.
    pub begun: Vec<usize>,
    /// Of each parcel of the shelf, the number that its file follows.
    pub shelved: Vec<usize>,
    pub lost: usize,
    pub repeated: usize,
}

/// Exchanges are a series of their own, as months are.
const SERIES: u64 = 0x65786368616e6765;

/// The most files that a publisher sends.
const MOST: usize = 6;

/// The exchanges of this number under this seed.
pub fn exchanges(seed: u64, number: usize) -> Exchanges {
    let random = &mut Random::of_case(seed ^ SERIES, number);
    let published = publisher(random, MOST);
    let charts: Vec<Vec<u8>> = published.charts.iter().map(form::written).collect();
    let last = published.updates.len();
    let shelved = shelved(random, last);
    let mut bridge = Bridge {
        shelf: shelved.iter().flat_map(|n| parcel(2, &published.updates[*n].file)).collect(),
        holding: 10 + published.charts[0].general.name.len(),
        needed: charts.iter().map(Vec::len).collect(),
        numbers: (0..random.between(2, 4)).map(|_| random.between(0, last).min(random.between(0, last))).collect(),
        shown: Vec::new(),
        on_way: Vec::new(),
        steps: Vec::new(),
        lost: 0,
        repeated: 0,
    };
    bridge.shown = bridge.numbers.iter().map(|n| charts[*n].clone()).collect();
    let begun = bridge.numbers.clone();
    for _ in 0..random.between(12, 48) {
        bridge.step(random);
    }
    let Bridge { steps, lost, repeated, .. } = bridge;
    Exchanges { steps, charts, begun, shelved, lost, repeated }
}

/// Mostly all of the files, some of them again, in any order.
fn shelved(random: &mut Random, count: usize) -> Vec<usize> {
    let gaps = random.percent(25);
    let mut numbers: Vec<usize> = (0..count).filter(|_| !gaps || random.percent(60)).collect();
    for _ in 0..random.pick(&[0, 0, 1, 2]) {
        numbers.push(random.below(count));
    }
    random.shuffle(&mut numbers);
    numbers
}

/// A parcel on the cable: a display's holding, or the master's answer to it.
#[derive(Clone)]
struct Carried {
    bytes: Vec<u8>,
    display: usize,
    told: usize,
    is_answer: bool,
}

struct Bridge {
    shelf: Vec<u8>,
    /// How long a holding is, and the chart of each number.
    holding: usize,
    needed: Vec<usize>,
    /// What each display holds.
    numbers: Vec<usize>,
    shown: Vec<Vec<u8>>,
    on_way: Vec<Carried>,
    steps: Vec<Step>,
    lost: usize,
    repeated: usize,
}

impl Bridge {
    /// A display tells, or something arrives.
    fn step(&mut self, random: &mut Random) {
        if self.on_way.is_empty() || random.percent(30) {
            return self.tell(random);
        }
        let at = random.below(self.on_way.len());
        let repeated = random.percent(20);
        self.repeated += usize::from(repeated);
        let arrived = if repeated { self.on_way[at].clone() } else { self.on_way.swap_remove(at) };
        // One in twenty comes to the wrong end of the cable, and a third of the answers to every display.
        let all = self.shown.len();
        let anyone = random.below(all);
        match (random.below(20), arrived.is_answer) {
            (0, true) => self.reply(random, arrived),
            (0, false) => self.take(random, anyone, arrived),
            (1..=7, true) => (0..all).for_each(|display| self.take(random, display, arrived.clone())),
            (_, false) => self.reply(random, arrived),
            (_, true) => self.take(random, arrived.display, arrived),
        }
    }

    /// The answer to a case, which is a step.
    fn answered(&mut self, act: Act, case: Case) -> (bool, Vec<u8>, More) {
        let answered = answer(&case);
        self.steps.push(Step { act, case });
        match answered {
            Answered::Call { number, length, mut out, more, .. } => {
                out.truncate(length);
                (number == 0, out, more)
            }
            Answered::Printed(_) => unreachable!("no listing is asked for"),
        }
    }

    fn send(&mut self, random: &mut Random, parcel: Carried) {
        match random.percent(85) {
            true => self.on_way.push(parcel),
            false => self.lost += 1,
        }
    }

    fn tell(&mut self, random: &mut Random) {
        let (display, told) = (random.below(self.shown.len()), self.steps.len());
        let room = if random.percent(92) { self.holding + random.below(40) } else { self.holding - 1 };
        let case = Case::tell(self.shown[display].clone(), room as u32);
        if let (true, bytes, _) = self.answered(Act::Tell { display }, case) {
            self.send(random, Carried { bytes, display, told, is_answer: false });
        }
    }

    fn reply(&mut self, random: &mut Random, arrived: Carried) {
        let holding = (!arrived.is_answer).then_some(arrived.told);
        let case = Case::reply(arrived.bytes.clone(), self.shelf.clone());
        if let (true, _, More::Reply(Some(found))) = self.answered(Act::Reply { holding }, case) {
            let bytes = self.shelf[found.start..found.start + found.length].to_vec();
            self.send(random, Carried { bytes, is_answer: true, ..arrived });
        }
    }

    fn take(&mut self, random: &mut Random, display: usize, arrived: Carried) {
        let own = arrived.is_answer && arrived.display == display;
        let next = (self.numbers[display] + 1).min(self.needed.len() - 1);
        let (room, work) = lent(random, self.needed[next]);
        let case = Case::take(self.shown[display].clone(), arrived.bytes, room, work);
        let act = Act::Take { display, answers: own.then_some(arrived.told) };
        if let (true, chart, _) = self.answered(act, case) {
            self.shown[display] = chart;
            self.numbers[display] += 1;
        }
    }
}
