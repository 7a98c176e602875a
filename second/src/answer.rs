//! What a case comes to: the answer of the entry point that it asks for, and what that leaves in the lent slices.

use crate::batch::{fnv, Case, LISTING, MONTH, READ, REPLY, TAKE, TELL, UPDATE, WRITE};
use crate::cable::{self, Found};
use crate::calls::{self, Written};
use crate::file::Refusal;
use crate::listing;
use crate::month::{self, Held, Lent};

/// What a case comes to. The output of a month is its first pool and then its second.
#[derive(Clone, Debug, PartialEq, Eq)]
pub enum Answered {
    Call {
        number: u32,
        file: u32,
        record: usize,
        length: usize,
        count: usize,
        out: Vec<u8>,
        work_zero: bool,
        more: More,
    },
    Printed(Vec<u8>),
}

/// What some answers tell behind the words that all have.
#[derive(Clone, Copy, Debug, PartialEq, Eq)]
pub enum More {
    Nothing,
    Month(Held),
    /// The parcel that answers a holding, or none.
    Reply(Option<Found>),
    /// How long the chart is after a parcel was taken.
    Chart(usize),
}

/// The stack of a thread that answers: attribute trees are as deep as a record is long.
const STACK: usize = 1 << 29;

/// The answer to a case.
pub fn answer(case: &Case) -> Answered {
    all(std::slice::from_ref(case)).remove(0)
}

/// The answers to cases, in order.
pub fn all(cases: &[Case]) -> Vec<Answered> {
    std::thread::scope(|scope| {
        let thread = std::thread::Builder::new().stack_size(STACK);
        let answers = thread.spawn_scoped(scope, || cases.iter().map(one).collect());
        answers.expect("a thread can be started").join().expect("answering does not panic")
    })
}

fn one(case: &Case) -> Answered {
    let room = case.out as usize;
    match case.operation {
        READ => written(calls::read(&case.first).map(|count| (Vec::new(), count)), 0),
        WRITE => written(calls::write(&case.first, room), room),
        UPDATE => written(calls::update(&case.first, &case.second, room, case.work), room),
        LISTING => Answered::Printed(listing::printed(&case.first).into_bytes()),
        MONTH => held(case),
        REPLY => replied(case),
        TAKE => taken(case),
        TELL => written(cable::tell(&case.first, room).map(|holding| (holding, 0)), room),
        other => unreachable!("operation {other} is no case's"),
    }
}

/// The output slice holds what is written, and zeroes.
fn written(outcome: Result<Written, Refusal>, room: usize) -> Answered {
    written_and(outcome, room, More::Nothing)
}

fn written_and(outcome: Result<Written, Refusal>, room: usize, more: More) -> Answered {
    let mut out = vec![0; room];
    if let Ok((bytes, _)) = &outcome {
        out[..bytes.len()].copy_from_slice(bytes);
    }
    call(outcome.map(|(bytes, count)| (bytes.len(), count)), out, more)
}

fn held(case: &Case) -> Answered {
    let (length, list) = case.length_and_list().expect("a month's second part starts with a length");
    let lent = Lent { first: &case.first, length: length as usize, second: case.out as usize };
    let month = month::month(list, &lent, case.work);
    call(month.outcome, month.pools.concat(), More::Month(month.held))
}

fn replied(case: &Case) -> Answered {
    let reply = cable::reply(&case.first, &case.second);
    call(reply.map(|_| (0, 0)), Vec::new(), More::Reply(reply.unwrap_or_default()))
}

/// The result is the chart from then on; a refusal leaves the one handed over.
fn taken(case: &Case) -> Answered {
    let room = case.out as usize;
    let outcome = cable::take(&case.first, &case.second, room, case.work);
    let length = outcome.as_ref().map_or(case.first.len(), |(chart, _)| chart.len());
    written_and(outcome, room, More::Chart(length))
}

/// The answer of a call whose outcome is a refusal, or length and count.
fn call(outcome: Result<(usize, usize), Refusal>, out: Vec<u8>, more: More) -> Answered {
    let (length, count) = outcome.unwrap_or_default();
    let (number, file, record) = outcome.err().map_or((0, 0, 0), |r| (r.number, r.file, r.record));
    Answered::Call { number, file, record, length, count, out, work_zero: true, more }
}

/// The line of an answer.
pub fn line(answered: &Answered) -> String {
    match answered {
        Answered::Call { number, file, record, length, count, out, work_zero, more } => {
            let work = u8::from(*work_zero);
            format!("{number} {file} {record} {length} {count} {:016x} {work}{}", fnv(out), behind(more))
        }
        Answered::Printed(text) => format!("listing {} {:016x}", text.len(), fnv(text)),
    }
}

/// The words behind those that all answers have, each with a blank before it.
fn behind(more: &More) -> String {
    match more {
        More::Nothing => String::new(),
        More::Month(Held { applied, pool, length }) => format!(" {applied} {pool} {length}"),
        More::Reply(Some(Found { start, length })) => format!(" 1 {start} {length}"),
        More::Reply(None) => " 0 0 0".to_string(),
        More::Chart(length) => format!(" {length}"),
    }
}
