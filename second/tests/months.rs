//! The points of document 02 on a month of updates, each as decided, by its letter and number.

mod common;
use common::*;
use second::answer::{answer, line};
use second::batch::{fnv, MonthCall};
use second::month::Held;

/// The pools of most tests: lengths that differ, and bytes behind the dataset.
const FIRST: usize = 3_000;
const SECOND: usize = 2_000;
const BEHIND: u8 = 0x77;

/// A dataset in the first pool, and these files, all else as it should be.
fn of_dataset(dataset: &[u8], files: &[Vec<u8>]) -> MonthCall {
    let first = pooled(dataset, FIRST, BEHIND);
    MonthCall { first, length: dataset.len(), list: joined(files), second: SECOND, work: WORK }
}

/// The base dataset, and these files.
fn asked(files: &[Vec<u8>]) -> MonthCall {
    of_dataset(&given(&base()), files)
}

/// The base dataset and updates of these numbers.
fn of_updates(numbers: &[u16]) -> MonthCall {
    asked(&numbers.iter().map(|n| update(*n)).collect::<Vec<_>>())
}

/// Update n of the base dataset, which inserts a point.
fn update(n: u16) -> Vec<u8> {
    numbered(n, &[added(n)])
}

fn added(n: u16) -> Record {
    vec![prid(10 + u32::from(n), 1, INSERT), c2it(n.into(), 0)]
}

fn numbered(n: u16, records: &[Record]) -> Vec<u8> {
    given(&[&[vec![field("0000", Vec::new())], vec![numbered_id(n)]], records].concat())
}

fn numbered_id(n: u16) -> Field {
    identification(n.into(), ["", "", "", "", "", NAME], EDITION, NUMBER + n, b"20260202")
}

/// The records of the base dataset after updates 1 to n.
fn chart(n: u16) -> Vec<Record> {
    let mut records = base();
    records[GENERAL - 1][0] = numbered_id(n);
    for point in 1..=n {
        records.insert(SECOND_POINT - 1 + usize::from(point), added(point));
    }
    records
}

/// The first pool and the second after a call.
fn pools(asked: &MonthCall, reply: &Reply) -> (Vec<u8>, Vec<u8>) {
    assert_eq!(reply.out.len(), asked.first.len() + asked.second, "length of both pools");
    let (first, second) = reply.out.split_at(asked.first.len());
    (first.to_vec(), second.to_vec())
}

fn padded(written: &[u8], length: usize) -> Vec<u8> {
    let mut pool = written.to_vec();
    pool.resize(length, 0);
    pool
}

/// None is applied: number, file and record of the answer; all else that an answer says then is tested here.
fn none_applied(asked: &MonthCall) -> Refusal {
    let reply = reply(&Case::month(asked));
    assert_eq!((reply.length, reply.count), (0, 0), "length and count");
    assert_eq!(reply.more, More::Month(Held { applied: 0, pool: 1, length: asked.length }));
    assert!(pools(asked, &reply) == (asked.first.clone(), vec![0; asked.second]), "bytes of the pools");
    assert!(reply.work_zero, "workspace is not zero");
    (reply.number, reply.file, reply.record)
}

/// So many are applied and this chart is held: the refusal behind them, or zeroes; all else is tested here.
fn some_applied(asked: &MonthCall, applied: usize, chart: &[Record]) -> Refusal {
    let (reply, written) = (reply(&Case::month(asked)), file(chart));
    let done = (written.len(), chart.len());
    assert_eq!((reply.length, reply.count), if reply.number == 0 { done } else { (0, 0) }, "length and count");
    let pool = if applied % 2 == 1 { 2 } else { 1 };
    assert_eq!(reply.more, More::Month(Held { applied, pool, length: written.len() }));
    let wanted = match pool {
        1 => (padded(&written, asked.first.len()), vec![0; asked.second]),
        _ => (vec![0; asked.first.len()], padded(&written, asked.second)),
    };
    assert!(pools(asked, &reply) == wanted, "bytes of the pools");
    assert!(reply.work_zero, "workspace is not zero");
    (reply.number, reply.file, reply.record)
}

const DONE: Refusal = (0, 0, 0);

// ---- M1: the answer ----

/// What the updater itself answers to the files one by one, each on what the one before it left in the other pool.
fn one_by_one(asked: &MonthCall, files: &[Vec<u8>]) -> (Refusal, usize, usize) {
    let mut chart = asked.first[..asked.length].to_vec();
    let mut last = (DONE, 0, 0);
    for (n, file) in files.iter().enumerate() {
        let room = if n % 2 == 0 { asked.second } else { asked.first.len() };
        let reply = reply(&Case::update(chart, file.clone(), room as u32, asked.work));
        last = ((reply.number, reply.file, reply.record), reply.length, reply.count);
        if reply.number != 0 {
            break;
        }
        chart = reply.out[..reply.length].to_vec();
    }
    last
}

#[test]
fn m1_the_answer_is_that_of_the_last_update() {
    let lists: [&[u16]; 6] = [&[1], &[1, 2], &[1, 2, 3], &[1, 2, 3, 4, 5], &[1, 3], &[1, 2, 2]];
    for numbers in lists {
        let asked = of_updates(numbers);
        let files: Vec<Vec<u8>> = numbers.iter().map(|n| update(*n)).collect();
        let reply = reply(&Case::month(&asked));
        let answer = ((reply.number, reply.file, reply.record), reply.length, reply.count);
        assert_eq!(answer, one_by_one(&asked, &files), "{numbers:?}");
    }
}

#[test]
fn m1_how_many_were_applied_and_where_the_result_is() {
    for n in 1..=5 {
        let numbers: Vec<u16> = (1..=n).collect();
        assert_eq!(some_applied(&of_updates(&numbers), n.into(), &chart(n)), DONE);
        let again = [numbers, vec![n, n + 1]].concat();
        assert_eq!(some_applied(&of_updates(&again), n.into(), &chart(n)), (8, 2, 2));
    }
    assert_eq!(none_applied(&of_updates(&[2, 1])), (8, 2, 2));
}

#[test]
fn m1_the_line_tells_it_behind_the_old_words() {
    let asked = of_updates(&[1, 2, 2]);
    let length = file(&chart(2)).len();
    let hash = fnv(&[padded(&file(&chart(2)), FIRST), vec![0; SECOND]].concat());
    assert_eq!(line(&answer(&Case::month(&asked))), format!("8 2 2 0 0 {hash:016x} 1 2 1 {length}"));
    let one = of_updates(&[1]);
    let (length, count) = (file(&chart(1)).len(), chart(1).len());
    let hash = fnv(&[vec![0; FIRST], padded(&file(&chart(1)), SECOND)].concat());
    assert_eq!(line(&answer(&Case::month(&one))), format!("0 0 0 {length} {count} {hash:016x} 1 1 2 {length}"));
}

// ---- M2: the order of refusals ----

#[test]
fn m2_15_comes_before_all() {
    for list in [Vec::new(), vec![0], joined(&[update(1)]), joined(&[Vec::new()])] {
        for length in [0, given(&base()).len(), FIRST + 1] {
            for work in [0, WORK - 1] {
                let short = MonthCall { list: list.clone(), length, work, ..asked(&[]) };
                assert_eq!(none_applied(&short), (15, 0, 0));
            }
        }
    }
    let longer = MonthCall { work: WORK + 1, ..of_updates(&[1]) };
    assert_eq!(some_applied(&longer, 1, &chart(1)), DONE);
}

#[test]
fn m2_fewer_than_four_bytes_or_a_length_past_the_end_at_that_files_turn() {
    let next = update(3);
    let broken = [
        vec![0],
        vec![0, 0],
        vec![0, 0, 0],
        vec![1, 0, 0, 0],
        [&(next.len() as u32 + 1).to_le_bytes(), &next[..]].concat(),
        [&[0xff; 4], &next[..]].concat(),
    ];
    for bytes in broken {
        let behind = |numbers: &[u16]| {
            let asked = of_updates(numbers);
            MonthCall { list: [&asked.list[..], &bytes].concat(), ..asked }
        };
        assert_eq!(none_applied(&behind(&[])), (1, 2, 0));
        assert_eq!(some_applied(&behind(&[1]), 1, &chart(1)), (1, 2, 0));
        assert_eq!(some_applied(&behind(&[1, 2]), 2, &chart(2)), (1, 2, 0));
        // A file before it is refused first.
        assert_eq!(none_applied(&behind(&[2])), (8, 2, 2));
        assert_eq!(some_applied(&behind(&[1, 1]), 1, &chart(1)), (8, 2, 2));
    }
    let exact = MonthCall { list: [&(next.len() as u32).to_le_bytes(), &next[..]].concat(), ..asked(&[]) };
    assert_eq!(none_applied(&exact), (8, 2, 2));
}

#[test]
fn m2_then_the_datasets_length_and_then_what_the_updater_refuses() {
    let above = |asked: MonthCall| MonthCall { length: FIRST + 1, ..asked };
    assert_eq!(none_applied(&above(of_updates(&[1]))), (1, 1, 0));
    assert_eq!(none_applied(&above(asked(&[Vec::new()]))), (1, 1, 0));
    assert_eq!(none_applied(&above(of_updates(&[2]))), (1, 1, 0));
    assert_eq!(none_applied(&MonthCall { length: u32::MAX as usize, ..of_updates(&[1]) }), (1, 1, 0));
    let broken_later = joined(&[update(1)]).into_iter().chain([0]).collect();
    assert_eq!(none_applied(&above(MonthCall { list: broken_later, ..asked(&[]) })), (1, 1, 0));
    assert_eq!(none_applied(&above(MonthCall { list: vec![0; 3], ..asked(&[]) })), (1, 2, 0));
    assert_eq!(none_applied(&above(MonthCall { list: vec![9, 0, 0, 0], ..asked(&[]) })), (1, 2, 0));
    // The whole pool is a length that is not above it.
    assert_eq!(none_applied(&MonthCall { length: FIRST, ..of_updates(&[1]) }), (2, 1, SECOND_FEATURE + 1));
    assert_eq!(none_applied(&MonthCall { length: 0, ..of_updates(&[1]) }), (1, 1, 1));
}

#[test]
fn m2_the_updaters_refusals_are_of_the_chart_so_far() {
    let second = |records: &[Record]| asked(&[update(1), numbered(2, records), update(2)]);
    assert_eq!(some_applied(&second(&[vec![prid(99, 2, DELETE)]]), 1, &chart(1)), (9, 2, 3));
    assert_eq!(some_applied(&second(&[added(1)]), 1, &chart(1)), (7, 2, 3));
    assert_eq!(some_applied(&second(&[vec![prid(11, 1, MODIFY)]]), 1, &chart(1)), (10, 2, 3));
    // The first file put a point before the feature that names point 1, the second takes one away.
    assert_eq!(some_applied(&second(&[vec![prid(1, 2, DELETE)]]), 1, &chart(1)), (11, 3, FEATURE));
    let deleted = base_with(GENERAL, [vec![numbered_id(2)], general_rest()].concat());
    assert_eq!(some_applied(&second(&[vec![prid(11, 2, DELETE)]]), 2, &deleted), (8, 2, 2));
}

#[test]
fn m2_each_result_needs_room_in_the_other_pool() {
    let length = |n| file(&chart(n)).len();
    let rooms = |first: usize, second| {
        let whole = of_updates(&[1, 2, 3, 4]);
        MonthCall { first: whole.first[..first].to_vec(), second, ..whole }
    };
    assert_eq!(some_applied(&rooms(length(4), length(3)), 4, &chart(4)), DONE);
    assert_eq!(none_applied(&rooms(length(4), length(1) - 1)), (13, 3, 0));
    assert_eq!(some_applied(&rooms(length(2) - 1, length(3)), 1, &chart(1)), (13, 3, 0));
    assert_eq!(some_applied(&rooms(length(4), length(3) - 1), 2, &chart(2)), (13, 3, 0));
    assert_eq!(some_applied(&rooms(length(4) - 1, length(3)), 3, &chart(3)), (13, 3, 0));
}

// ---- M3: an empty list ----

#[test]
fn m3_an_empty_list_is_done_and_reads_nothing() {
    assert_eq!(none_applied(&asked(&[])), DONE);
    for length in [0, 5, FIRST, FIRST + 1, u32::MAX as usize] {
        assert_eq!(none_applied(&MonthCall { length, ..asked(&[]) }), DONE, "length {length}");
    }
    assert_eq!(none_applied(&of_dataset(b"no dataset", &[])), DONE);
    assert_eq!(none_applied(&MonthCall { second: 0, ..asked(&[]) }), DONE);
    assert_eq!(none_applied(&MonthCall { first: Vec::new(), second: 0, ..asked(&[]) }), DONE);
}

// ---- M4: the pools ----

/// The same call with other bytes behind the dataset.
fn with_behind(asked: MonthCall, byte: u8) -> MonthCall {
    let mut first = asked.first;
    first[asked.length..].fill(byte);
    MonthCall { first, ..asked }
}

#[test]
fn m4_none_applied_keeps_every_byte_of_the_first_pool() {
    for byte in [0, BEHIND, 0xff] {
        assert_eq!(none_applied(&with_behind(of_updates(&[2]), byte)), (8, 2, 2));
        assert_eq!(none_applied(&with_behind(asked(&[]), byte)), DONE);
        assert_eq!(none_applied(&with_behind(MonthCall { work: 0, ..of_updates(&[1]) }, byte)), (15, 0, 0));
        assert_eq!(none_applied(&with_behind(MonthCall { second: 9, ..of_updates(&[1]) }, byte)), (13, 3, 0));
    }
}

#[test]
fn m4_the_pool_that_does_not_hold_the_result_is_zero() {
    for byte in [0, BEHIND, 0xff] {
        assert_eq!(some_applied(&with_behind(of_updates(&[1]), byte), 1, &chart(1)), DONE);
        assert_eq!(some_applied(&with_behind(of_updates(&[1, 2]), byte), 2, &chart(2)), DONE);
        assert_eq!(some_applied(&with_behind(of_updates(&[1, 1]), byte), 1, &chart(1)), (8, 2, 2));
        assert_eq!(some_applied(&with_behind(of_updates(&[1, 2, 2]), byte), 2, &chart(2)), (8, 2, 2));
    }
}

// ---- M5: what is held after a refusal ----

#[test]
fn m5_none_applied_holds_the_length_handed_over_whatever_it_is() {
    for length in [0, 1, FIRST, FIRST + 1, u32::MAX as usize] {
        let refusal = none_applied(&MonthCall { length, ..of_updates(&[1]) });
        assert_ne!(refusal, DONE, "length {length}");
        assert_eq!(none_applied(&MonthCall { length, list: vec![1], ..asked(&[]) }), (1, 2, 0));
    }
}

#[test]
fn m5_a_file_of_no_bytes_is_the_updaters_own_1() {
    assert_eq!(none_applied(&asked(&[Vec::new()])), (1, 2, 1));
    assert_eq!(none_applied(&asked(&[Vec::new(), update(1)])), (1, 2, 1));
    assert_eq!(some_applied(&asked(&[update(1), Vec::new(), update(2)]), 1, &chart(1)), (1, 2, 1));
    assert_eq!(some_applied(&asked(&[update(1), update(2), Vec::new()]), 2, &chart(2)), (1, 2, 1));
    assert_eq!(none_applied(&of_dataset(&[], &[Vec::new()])), (1, 1, 1));
}

#[test]
fn m5_behind_the_result_its_pool_is_zero_also_where_a_longer_one_stood() {
    let points: Vec<Record> = (1..=9).map(added).collect();
    let gone: Vec<Record> = (11..20).map(|rcid| vec![prid(rcid, 2, DELETE)]).collect();
    let files = [numbered(1, &points), numbered(2, &gone), numbered(3, &[]), numbered(3, &[])];
    let left = |n| base_with(GENERAL, [vec![numbered_id(n)], general_rest()].concat());
    assert_eq!(some_applied(&asked(&files[..2]), 2, &left(2)), DONE);
    assert_eq!(some_applied(&asked(&files[..3]), 3, &left(3)), DONE);
    assert_eq!(some_applied(&asked(&files), 3, &left(3)), (8, 2, 2));
}
