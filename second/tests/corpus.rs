//! The generated cases against the answering core: every directed case comes to what the paper asks for, every case
//! made to be accepted is accepted with the bytes that it was made to give, and a corpus has every answer in it.

use std::collections::{BTreeMap, BTreeSet};

use second::answer::{all, More};
use second::batch::{fnv, framed, Case, LISTING, MONTH, OPERATIONS, READ, REPLY, TAKE, TELL, UPDATE, WRITE};
use second::generate::chart::{Chart, Kind, Node};
use second::generate::{corpus, directed, form, random_case, random_month, table, Directed, Intent, RandomMonth};
use second::month::Held;
use second::Answered;

/// The operations on one dataset.
const SINGLE: [u8; 4] = [READ, WRITE, UPDATE, LISTING];
const CORPUS: usize = 5400;
/// How many months the gate compares.
const MONTHS: usize = 600;
const SEEDS: [u64; 3] = [1, 2, 3];

/// What an answer tells behind the words that all have: of a parcel taken the length of the chart, of a reply none.
fn more_of(case: &Case, chart: usize) -> More {
    match case.operation {
        REPLY => More::Reply(None),
        TAKE => More::Chart(chart),
        _ => More::Nothing,
    }
}

/// What an answer has in common with an intended one.
fn seen(answered: &Answered, case: &Case) -> Intent {
    match answered {
        Answered::Call { number, file, record, length, count, out, work_zero: true, more: More::Month(held) } => {
            assert!(*number == 0 || (*length, *count) == (0, 0), "length and count of a refusal");
            let outcome = if *number == 0 { Ok((*length, *count)) } else { Err((*number, *file, *record)) };
            let (first, second) = out.split_at(case.first.len());
            Intent::Month { outcome, held: *held, pools: [first.to_vec(), second.to_vec()] }
        }
        Answered::Call { number: 0, file: 0, record: 0, length, count, out, more: More::Reply(found), .. } => {
            assert!((*length, *count) == (0, 0) && out.is_empty(), "a reply writes nothing");
            Intent::Replied(*found)
        }
        Answered::Call { number: 0, file: 0, record: 0, length, count, out, work_zero: true, more } => {
            let zero_behind = out[*length..].iter().all(|byte| *byte == 0);
            assert!(zero_behind && (case.operation != READ || *length == 0), "the output behind the written length");
            assert_eq!(*more, more_of(case, *length), "the words behind");
            Intent::Done { written: out[..*length].to_vec(), count: *count }
        }
        Answered::Call { number, file, record, length: 0, count: 0, out, work_zero: true, more } => {
            assert!(out.iter().all(|byte| *byte == 0), "the output of a refusal");
            assert_eq!(*more, more_of(case, case.first.len()), "the words behind a refusal");
            Intent::Refused(*number, *file, *record)
        }
        Answered::Call { .. } => panic!("an answer that is neither done nor refused: {answered:?}"),
        Answered::Printed(text) => Intent::Prints(String::from_utf8_lossy(text).to_string()),
    }
}

/// An intended answer in few words.
fn told(intent: &Intent) -> String {
    match intent {
        Intent::Done { written, count } => format!("done, {} bytes, {count} records", written.len()),
        Intent::Month { outcome, held, pools } => {
            let hashes = pools.each_ref().map(|pool| format!("{:016x}", fnv(pool)));
            format!("{outcome:?}, {held:?}, pools {hashes:?}")
        }
        other => format!("{other:?}"),
    }
}

#[test]
fn every_directed_case_comes_to_what_the_paper_asks_for() {
    let rows = table();
    let mut wrong = Vec::new();
    for some in rows.chunks(100) {
        let cases: Vec<Case> = some.iter().map(|row| row.case.clone()).collect();
        for (Directed { name, case, intent }, answered) in some.iter().zip(all(&cases)) {
            let seen = seen(&answered, case);
            if seen != *intent {
                wrong.push(format!("{name}: intended {}, answered {}", told(intent), told(&seen)));
            }
        }
    }
    assert!(wrong.is_empty(), "{} of {} disagree:\n{}", wrong.len(), rows.len(), wrong.join("\n"));
}

#[test]
fn directed_cases_have_names_of_their_own() {
    let names: Vec<String> = directed().into_iter().map(|(name, _)| name).collect();
    let different: BTreeSet<&String> = names.iter().collect();
    let twice: Vec<&String> =
        different.iter().filter(|n| names.iter().filter(|m| m == *n).count() > 1).copied().collect();
    assert!(twice.is_empty(), "{twice:?}");
}

fn entries(run: &[Node]) -> usize {
    run.iter().map(|node| 1 + entries(&node.children)).sum()
}

fn listed(chart: &Chart) -> String {
    let mut text = "rec tag rcid rver attr coord\n".to_string();
    for (n, item) in chart.items.iter().enumerate() {
        let tag = match item.key.0 {
            Kind::Information => "IRID",
            Kind::Point => "PRID",
            Kind::MultiPoint => "MRID",
            Kind::Feature => "FRID",
        };
        let (attributes, coordinates) = (entries(&item.attributes), item.coordinates.len());
        text += &format!("{} {tag} {} {} {attributes} {coordinates}\n", n + 4, item.key.1, item.rver);
    }
    format!("{text}total {}\n", chart.items.len())
}

/// What a case that was made to be accepted comes to.
fn expected(case: &Case, chart: &Chart) -> Intent {
    let count = 3 + chart.items.len();
    match case.operation {
        READ => Intent::Done { written: Vec::new(), count },
        LISTING => Intent::Prints(listed(chart)),
        _ => Intent::Done { written: form::written(chart), count },
    }
}

#[test]
fn cases_made_to_be_accepted_are_accepted() {
    for seed in SEEDS {
        let (cases, charts): (Vec<Case>, Vec<Chart>) = (0..CORPUS)
            .filter_map(|n| {
                let made = random_case(seed, n);
                made.accepted.map(|chart| (made.case, chart))
            })
            .unzip();
        println!("{} of {CORPUS} are made to be accepted", cases.len());
        assert!(cases.len() * 20 > CORPUS * 9, "about half of the random cases are made to be accepted");
        for ((case, chart), answered) in cases.iter().zip(&charts).zip(all(&cases)) {
            let (seen, expected) = (seen(&answered, case), expected(case, chart));
            assert!(seen == expected, "operation {}: {} and not {}", case.operation, told(&seen), told(&expected));
        }
    }
}

/// What a month that was made to be accepted comes to: the chart and zeroes in one pool, zeroes in the other.
fn expected_of_month(case: &Case, applied: usize, chart: &Chart) -> Intent {
    let written = form::written(chart);
    let mut pools = [vec![0; case.first.len()], vec![0; case.out as usize]];
    pools[applied % 2][..written.len()].copy_from_slice(&written);
    let held = Held { applied, pool: applied % 2 + 1, length: written.len() };
    Intent::Month { outcome: Ok((written.len(), 3 + chart.items.len())), held, pools }
}

#[test]
fn months_made_to_be_accepted_are_accepted() {
    for seed in SEEDS {
        let months = (0..MONTHS).map(|number| random_month(seed, number));
        let (cases, ends): (Vec<Case>, Vec<(usize, Chart)>) =
            months.filter_map(|RandomMonth { case, accepted }| accepted.map(|end| (case, end))).unzip();
        println!("{} of {MONTHS} months are made to be accepted", cases.len());
        assert!(cases.len() * 20 > MONTHS * 9, "about half of the random months are made to be accepted");
        for ((case, (applied, chart)), answered) in cases.iter().zip(&ends).zip(all(&cases)) {
            let (seen, expected) = (seen(&answered, case), expected_of_month(case, *applied, chart));
            assert!(seen == expected, "{} and not {}", told(&seen), told(&expected));
        }
    }
}

/// Operation, number and file of each answer that a corpus must have.
fn wanted() -> BTreeSet<(u8, u32, u32)> {
    let mut wanted = BTreeSet::new();
    for operation in [READ, WRITE, UPDATE] {
        wanted.extend([0].map(|number| (operation, number, 0)));
        wanted.extend([1, 2, 3, 4, 5, 6, 7, 11, 14].map(|number| (operation, number, 1)));
    }
    for operation in [WRITE, UPDATE] {
        wanted.extend([(operation, 12, 1), (operation, 13, 3), (operation, 14, 3)]);
    }
    wanted.extend([1, 2, 3, 4, 5, 6, 7, 8, 9, 10, 12, 14].map(|number| (UPDATE, number, 2)));
    wanted.extend([(UPDATE, 11, 3), (UPDATE, 15, 0)]);
    wanted
}

/// How often each (operation, number, file) and each first word of a listing is the answer.
type Met = (BTreeMap<(u8, u32, u32), usize>, BTreeMap<String, usize>);

fn answers_met(cases: &[Case]) -> Met {
    let (mut met, mut printed): Met = Default::default();
    for some in cases.chunks(100) {
        for (case, answered) in some.iter().zip(all(some)) {
            match seen(&answered, case) {
                Intent::Done { .. } => *met.entry((case.operation, 0, 0)).or_default() += 1,
                Intent::Refused(number, file, _) => *met.entry((case.operation, number, file)).or_default() += 1,
                Intent::Month { .. } | Intent::Replied(_) => {
                    panic!("neither a month nor a reply is a call on one dataset")
                }
                Intent::Prints(text) => {
                    let word = text.split(' ').next().unwrap_or("");
                    *printed.entry(word.to_string()).or_default() += 1;
                }
            }
        }
    }
    (met, printed)
}

#[test]
fn a_corpus_has_every_answer() {
    let cases = corpus(SEEDS[0], CORPUS, &SINGLE);
    assert_eq!(cases.len(), CORPUS);
    let bytes: usize = cases.iter().map(|case| case.first.len() + case.second.len()).sum();
    assert!(bytes < 170_000_000, "{bytes} bytes");
    let (met, printed) = answers_met(&cases);
    println!("{met:?} {printed:?}");
    let missing: Vec<(u8, u32, u32)> = wanted().into_iter().filter(|answer| !met.contains_key(answer)).collect();
    assert!(missing.is_empty(), "no case has (operation, number, file) {missing:?}");
    let strange: Vec<&(u8, u32, u32)> = met.keys().filter(|answer| !wanted().contains(answer)).collect();
    assert!(strange.is_empty(), "no case should have (operation, number, file) {strange:?}");
    assert_eq!(printed.keys().collect::<Vec<_>>(), ["rec", "refused", "too"]);
}

#[test]
fn a_seed_decides_every_byte() {
    let count = 400;
    assert!(framed(&corpus(7, count, &OPERATIONS)) == framed(&corpus(7, count, &OPERATIONS)));
    assert!(framed(&corpus(7, count, &OPERATIONS)) != framed(&corpus(8, count, &OPERATIONS)));
    assert_eq!(corpus(7, count, &OPERATIONS).len(), count);
    assert!(corpus(7, 0, &OPERATIONS).is_empty());
}

#[test]
fn a_corpus_can_be_of_some_operations() {
    let count = 4000;
    let cases = corpus(7, count, &[READ, LISTING]);
    assert_eq!(cases.len(), count);
    let of = |operation: u8| cases.iter().filter(|case| case.operation == operation).count();
    let longest = |operation: u8| cases.iter().filter(|c| c.operation == operation).map(|c| c.first.len()).max();
    assert_eq!(of(READ) + of(LISTING), count);
    assert!(of(READ) > count / 3 && of(LISTING) > count / 3, "{} reads", of(READ));
    assert_eq!(longest(READ), Some(16_777_217), "the huge ones are among them");
    let (met, printed) = answers_met(&cases);
    let missing: Vec<_> = wanted().into_iter().filter(|a| a.0 == READ && !met.contains_key(a)).collect();
    assert!(missing.is_empty(), "no case has (operation, number, file) {missing:?}");
    assert_eq!(printed.keys().collect::<Vec<_>>(), ["rec", "refused", "too"]);
}

/// Number, file and, where it is below 2, record of each answer that a corpus of months must have.
const WANTED_OF_MONTHS: [(u32, u32, Option<usize>); 10] = [
    (0, 0, Some(0)),
    (15, 0, Some(0)),
    (1, 2, Some(0)),
    (1, 1, Some(0)),
    (1, 2, Some(1)),
    (1, 1, Some(1)),
    (8, 2, None),
    (13, 3, Some(0)),
    (9, 2, None),
    (11, 3, None),
];

#[test]
fn a_corpus_of_months_has_every_answer() {
    for seed in SEEDS {
        let cases = corpus(seed, MONTHS, &[MONTH]);
        assert_eq!(cases.len(), MONTHS);
        assert!(cases.iter().all(|case| case.operation == MONTH));
        let bytes = framed(&cases).len();
        assert!(bytes < 10_000_000, "{bytes} bytes");
        let (mut answers, mut ends) = (BTreeSet::new(), BTreeSet::new());
        for (case, answered) in cases.iter().zip(all(&cases)) {
            let Intent::Month { outcome, held, .. } = seen(&answered, case) else { panic!("no month: {answered:?}") };
            let (number, file, record) = outcome.err().unwrap_or((0, 0, 0));
            answers.insert((number, file, Some(record).filter(|record| *record < 2)));
            ends.insert((held.applied.min(5), held.pool));
        }
        let missing: Vec<_> = WANTED_OF_MONTHS.iter().filter(|answer| !answers.contains(answer)).collect();
        assert!(missing.is_empty(), "no month has (number, file, record) {missing:?}");
        assert_eq!(ends, BTreeSet::from([(0, 1), (1, 2), (2, 1), (3, 2), (4, 1), (5, 1), (5, 2)]), "applied and pool");
    }
}

#[test]
fn a_corpus_of_months_has_every_directed_one() {
    let months: Vec<Case> = directed().into_iter().map(|(_, case)| case).filter(|c| c.operation == MONTH).collect();
    let cases = corpus(SEEDS[0], MONTHS, &[MONTH]);
    println!("{} directed months", months.len());
    let absent = months.iter().filter(|month| !cases.contains(month)).count();
    assert_eq!(absent, 0, "of {} directed months", months.len());
    assert!(months.len() * 5 <= MONTHS * 2, "directed ones are at most two fifths");
}

/// The operations apart take nothing from the others, nor from each other.
#[test]
fn a_corpus_can_be_of_all_operations() {
    let cases = corpus(7, 800, &OPERATIONS);
    let of = |operations: &[u8]| -> Vec<&Case> {
        cases.iter().filter(|case| operations.contains(&case.operation)).collect()
    };
    for (operations, count) in [(&SINGLE[..], 400), (&[MONTH], 100), (&[REPLY], 100), (&[TAKE], 100), (&[TELL], 100)] {
        let (here, alone) = (of(operations), corpus(7, count, operations));
        assert_eq!(here.len(), count, "of operations {operations:?}");
        assert!(alone.iter().all(|case| here.contains(&case)), "operations {operations:?}");
    }
}
