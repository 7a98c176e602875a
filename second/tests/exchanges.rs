//! The generated exchanges against the publisher that they come from: parcels are lost, repeated and late, and every
//! display always holds the written chart of its own number.

use std::collections::BTreeMap;

use second::answer::{answer, Answered, More};
use second::generate::{exchanges, Act, Exchanges, Step};

const BRIDGES: usize = 200;
const WORKSPACE: u32 = 400_000;

/// How often each thing happened.
type Met = BTreeMap<String, usize>;

fn met(seen: &mut Met, what: impl Into<String>) {
    *seen.entry(what.into()).or_default() += 1;
}

/// What a display holds, by the test's own account.
struct Display {
    number: usize,
    begun: usize,
    /// How many exchanges arrived, and the step at which the answer of the last of them was taken.
    arrived: usize,
    last: Option<usize>,
}

/// A bridge as the test follows it.
struct Followed<'a> {
    bridge: &'a Exchanges,
    displays: Vec<Display>,
    /// By the step at which it was told, each holding's bytes and number.
    told: BTreeMap<usize, (Vec<u8>, usize)>,
}

/// The number, the output up to the length, and the words behind.
fn asked(step: &Step) -> (u32, Vec<u8>, More) {
    match answer(&step.case) {
        Answered::Call { number, length, out, more, .. } => (number, out[..length].to_vec(), more),
        other => panic!("{other:?}"),
    }
}

/// Where each parcel of a shelf starts, by the lengths that stand in it, and where the last one ends.
fn starts(shelf: &[u8]) -> Vec<usize> {
    let mut starts = vec![0];
    while let Some(length) = shelf[starts[starts.len() - 1]..].first_chunk() {
        starts.push(starts[starts.len() - 1] + u32::from_le_bytes(*length) as usize);
    }
    starts
}

impl Followed<'_> {
    fn tell(&mut self, seen: &mut Met, at: usize, display: usize) {
        let (step, number) = (&self.bridge.steps[at], self.displays[display].number);
        assert!(step.case.first == self.bridge.charts[number], "a display tells what it holds");
        let (refused, bytes, _) = asked(step);
        met(seen, format!("told {refused}"));
        if refused == 0 {
            self.told.insert(at, (bytes, number));
        }
    }

    /// Silence exactly when nothing on the shelf follows, else the first that does.
    fn reply(&self, seen: &mut Met, at: usize, holding: Option<usize>) {
        let step = &self.bridge.steps[at];
        let (refused, _, more) = asked(step);
        let Some((bytes, number)) = holding.map(|told| &self.told[&told]) else {
            assert_eq!((refused, more), (27, More::Reply(None)), "the master heard its own answer");
            return met(seen, "replied 27");
        };
        assert!(step.case.first == *bytes, "the cable changes no parcel");
        let starts = starts(&step.case.second);
        assert_eq!(starts.len(), self.bridge.shelved.len() + 1);
        let follows = self.bridge.shelved.iter().position(|sent| sent == number);
        let found = match more {
            More::Reply(found) => found.map(|found| (found.start, found.start + found.length)),
            other => panic!("{other:?}"),
        };
        assert_eq!((refused, found), (0, follows.map(|n| (starts[n], starts[n + 1]))));
        met(seen, if found.is_some() { "answered" } else { "silence" });
    }

    /// The chart afterwards is that of the display's number; an own answer that is taken ends an exchange.
    fn take(&mut self, seen: &mut Met, at: usize, display: usize, answers: Option<usize>) {
        let (step, charts) = (&self.bridge.steps[at], &self.bridge.charts);
        let display = &mut self.displays[display];
        assert!(step.case.first == charts[display.number], "a display holds the chart of its number");
        let (refused, chart, more) = asked(step);
        let next = charts.get(display.number + 1);
        let room = next.is_none_or(|next| step.case.out as usize >= next.len()) && step.case.work >= WORKSPACE;
        if refused == 0 {
            assert!(Some(&chart) == next, "a display moves on to the chart of the next number");
            display.number += 1;
        }
        assert_eq!(more, More::Chart(charts[display.number].len()));
        met(seen, format!("taken {refused}"));
        let in_turn = answers.is_some_and(|told| display.last.is_none_or(|last| told > last));
        if in_turn && room {
            (display.arrived, display.last) = (display.arrived + 1, Some(at));
            met(seen, if refused == 0 { "exchanges that raised" } else { "exchanges that came after another parcel" });
        }
        assert!(display.number >= display.begun + display.arrived, "each exchange that arrives raises a display");
    }
}

fn follow(bridge: &Exchanges, seen: &mut Met) -> Vec<Display> {
    let begin = |begun: &usize| Display { number: *begun, begun: *begun, arrived: 0, last: None };
    let displays = bridge.begun.iter().map(begin).collect();
    let mut followed = Followed { bridge, displays, told: BTreeMap::new() };
    for at in 0..bridge.steps.len() {
        match bridge.steps[at].act {
            Act::Tell { display } => followed.tell(seen, at, display),
            Act::Reply { holding } => followed.reply(seen, at, holding),
            Act::Take { display, answers } => followed.take(seen, at, display, answers),
        }
    }
    followed.displays
}

#[test]
fn displays_hold_the_chart_of_their_number_and_exchanges_raise_them() {
    let mut seen = Met::new();
    let (mut lost, mut repeated, mut several) = (0, 0, 0);
    for n in 0..BRIDGES {
        let bridge = exchanges(3, n);
        let displays = follow(&bridge, &mut seen);
        (lost, repeated) = (lost + bridge.lost, repeated + bridge.repeated);
        several += displays.iter().filter(|display| display.arrived > 1).count();
    }
    println!("{seen:?}, {lost} lost, {repeated} repeated, {several} displays with several exchanges");
    let often = ["told 0", "told 13", "answered", "silence", "taken 0", "taken 8", "exchanges that raised"];
    for what in often {
        assert!(seen.get(what).is_some_and(|times| *times > BRIDGES / 2), "{what}: {seen:?}");
    }
    let now_and_then = ["replied 27", "taken 13", "taken 15", "taken 27", "exchanges that came after another parcel"];
    for what in now_and_then {
        assert!(seen.get(what).is_some_and(|times| *times > BRIDGES / 20), "{what}: {seen:?}");
    }
    assert!(lost > BRIDGES && repeated > BRIDGES && several > BRIDGES / 4, "{lost} {repeated} {several}");
}
