//! The generated cases of the cable against the answering core: those made to be answered come to what they were made
//! for, and the corpora that the gate compares have every answer and every directed case in them.

mod common;
use common::*;

use std::collections::BTreeMap;

use second::batch::{framed, REPLY, TAKE, TELL};
use second::cable::Found;
use second::generate::{corpus, directed, form, random_reply, random_taken, random_told};

/// How many cases of each operation the gate compares.
const COUNTS: [(u8, usize); 3] = [(REPLY, 900), (TAKE, 400), (TELL, 400)];
const SEEDS: [u64; 3] = [1, 2, 3];
/// How many random cases are looked at here.
const RANDOM: usize = 500;

/// The answer to a holding.
fn found(case: &Case) -> Option<Found> {
    match reply(case).more {
        More::Reply(found) => found,
        other => panic!("{other:?}"),
    }
}

#[test]
fn whole_shelves_answer_whole_holdings() {
    for seed in SEEDS {
        let (mut parcels, mut silences) = (0, 0);
        for made in (0..RANDOM).map(|number| random_reply(seed, number)) {
            let Some(answer) = made.answer else { continue };
            assert_eq!((reply(&made.case).number, found(&made.case)), (0, answer));
            *(if answer.is_some() { &mut parcels } else { &mut silences }) += 1;
        }
        println!("{parcels} parcels, {silences} silences of {RANDOM}");
        assert!(parcels > RANDOM / 4 && silences > RANDOM / 10, "{parcels} {silences}");
    }
}

#[test]
fn parcels_made_to_be_accepted_are_accepted() {
    for seed in SEEDS {
        let mut accepted = 0;
        for made in (0..RANDOM).map(|number| random_taken(seed, number)) {
            let Some(chart) = made.accepted else { continue };
            let written = form::written(&chart);
            assert_same(&done(&made.case), &written);
            assert_eq!(reply(&made.case).more, More::Chart(written.len()));
            accepted += 1;
        }
        println!("{accepted} of {RANDOM} parcels are made to be accepted");
        assert!(accepted > RANDOM / 3, "{accepted}");
    }
}

#[test]
fn charts_made_to_be_told_are_told() {
    for seed in SEEDS {
        let mut accepted = 0;
        for made in (0..RANDOM).map(|number| random_told(seed, number)) {
            let Some(holding) = made.accepted else { continue };
            let reply = reply(&made.case);
            assert_eq!((reply.number, reply.length, reply.count), (0, holding.len(), 0));
            assert_same(&reply.out[..reply.length], &holding);
            assert!(reply.out[reply.length..].iter().all(|byte| *byte == 0));
            accepted += 1;
        }
        println!("{accepted} of {RANDOM} charts are made to be told");
        assert!(accepted > RANDOM / 3, "{accepted}");
    }
}

/// How often each number and file is the answer to cases; a parcel that answers a holding counts as number 100.
fn answers<'a>(cases: impl Iterator<Item = &'a Case>) -> BTreeMap<(u32, u32), usize> {
    let mut met = BTreeMap::new();
    for case in cases {
        let reply = reply(case);
        let number = if matches!(reply.more, More::Reply(Some(_))) { 100 } else { reply.number };
        *met.entry((number, reply.file)).or_default() += 1;
    }
    met
}

/// The least that random cases have of each number and file.
fn wanted(operation: u8) -> Vec<((u32, u32), usize)> {
    match operation {
        REPLY => vec![((100, 0), RANDOM / 4), ((0, 0), RANDOM / 8), ((27, 0), RANDOM / 10)],
        TAKE => {
            let often = [((0, 0), RANDOM / 3), ((27, 0), RANDOM / 12), ((8, 2), RANDOM / 25), ((13, 3), RANDOM / 50)];
            let seldom = [(15, 0), (1, 2), (4, 2), (5, 2), (4, 1)].map(|answer| (answer, 1));
            [often.to_vec(), seldom.to_vec()].concat()
        }
        _ => {
            let refusals = [(1, 1), (2, 1), (3, 1), (4, 1), (5, 1)].map(|answer| (answer, RANDOM / 125));
            [vec![((0, 0), RANDOM / 2), ((13, 3), RANDOM / 25)], refusals.to_vec()].concat()
        }
    }
}

#[test]
fn random_cases_have_every_answer() {
    let random = |operation: u8, seed: u64, number: usize| match operation {
        REPLY => random_reply(seed, number).case,
        TAKE => random_taken(seed, number).case,
        _ => random_told(seed, number).case,
    };
    for seed in SEEDS {
        for (operation, _) in COUNTS {
            let cases: Vec<Case> = (0..RANDOM).map(|number| random(operation, seed, number)).collect();
            let met = answers(cases.iter());
            println!("operation {operation}: {met:?}");
            for (answer, least) in wanted(operation) {
                let times = met.get(&answer).copied().unwrap_or(0);
                assert!(times >= least, "operation {operation}, (number, file) {answer:?}: {times} of {least}");
            }
        }
    }
}

#[test]
fn a_corpus_has_every_directed_case_and_is_not_too_long() {
    let all: Vec<Case> = directed().into_iter().map(|(_, case)| case).collect();
    for (operation, count) in COUNTS {
        let named: Vec<&Case> = all.iter().filter(|case| case.operation == operation).collect();
        let cases = corpus(SEEDS[0], count, &[operation]);
        println!("{} directed cases of operation {operation}", named.len());
        assert!(cases.len() == count && cases.iter().all(|case| case.operation == operation));
        assert_eq!(named.iter().filter(|case| !cases.contains(case)).count(), 0, "of {}", named.len());
        assert!(named.len() * 5 <= count * 2, "{} directed ones are more than two fifths", named.len());
        let bytes = framed(&cases).len();
        assert!(bytes < 50_000_000, "{bytes} bytes");
    }
}
