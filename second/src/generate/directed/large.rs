//! Large records: attributes edited in long runs, numbered anew whatever their codes and depths, and lengths that come to the last byte.

use super::base::*;
use super::{with_heading, Intent, Table, WORK};
use crate::batch::Case;
use crate::build::*;

pub fn rows(table: &mut Table) {
    for length in [63, 64, 65, 128, 200] {
        edits_of_a_run(table, length);
    }
    edits_below(table);
    numbered_anew(table);
    to_the_last_byte(table);
}

/// An attribute with what is below it.
#[derive(Clone)]
struct Entry {
    code: u16,
    value: &'static str,
    below: Vec<Entry>,
}

fn leaf(code: u16, value: &'static str) -> Entry {
    Entry { code, value, below: Vec::new() }
}

fn branch(code: u16, below: Vec<Entry>) -> Entry {
    Entry { code, value: "", below }
}

/// The tuples that they are stored as, behind those that stand already, below the one of this place.
fn store(run: &[Entry], parent: u16, tuples: &mut Vec<Tuple<'static>>) {
    for (n, entry) in run.iter().enumerate() {
        let index = 1 + run[..n].iter().filter(|other| other.code == entry.code).count();
        tuples.push((entry.code, index as u16, parent, 1, entry.value));
        store(&entry.below, tuples.len() as u16, tuples);
    }
}

fn stored(run: &[Entry]) -> Field {
    let mut tuples = Vec::new();
    store(run, 0, &mut tuples);
    attr(&tuples)
}

/// Three records and information type 1 of this version.
fn chart(general: Vec<Field>, rver: u16, attributes: Field) -> Records {
    let mut records = dataset()[..3].to_vec();
    records[1] = general;
    records.push(vec![irid(1, 1, rver, 1), attributes]);
    records
}

/// A modify of it by these tuples, and what it comes to: the run, or the number of a refusal.
fn edited(table: &mut Table, name: &str, given: &[Entry], acts: &[Tuple], wanted: Result<&[Entry], u32>) {
    let before = chart(dataset()[1].clone(), 1, stored(given));
    let update = with_heading(&[vec![irid(1, 1, 2, 3), attr(acts)]]);
    match wanted {
        Ok(run) => table.update_done(name, &before, &update, &chart(after()[1].clone(), 2, stored(run))),
        Err(number) => {
            let case = Case::update(file(&before), file(&update), 50_000, WORK);
            table.row(&format!("update: {name}"), case, Intent::Refused(number, 2, 3));
        }
    }
}

/// One run of so many attributes of one code, with one of another in the middle and two at the end.
fn mixed_run(length: usize) -> Vec<Entry> {
    let mut run = vec![leaf(1, "a"); length];
    run.insert(length / 2, branch(2, vec![leaf(1, "below"), leaf(2, "below")]));
    run.extend([leaf(3, "c"), leaf(3, "d")]);
    run
}

/// Where number k of a code stands in a run.
fn place(run: &[Entry], code: u16, k: usize) -> usize {
    let twins = run.iter().enumerate().filter(|(_, entry)| entry.code == code);
    twins.map(|(n, _)| n).nth(k - 1).expect("so many of the code")
}

fn edits_of_a_run(table: &mut Table, length: usize) {
    let given = mixed_run(length);
    let named = |act: &str, k: usize| format!("{act} number {k} of {length} attributes");
    for k in [1, length / 2, length - 1, length] {
        let at = place(&given, 1, k);
        let mut more = given.clone();
        more.insert(at, leaf(1, "new"));
        edited(table, &named("insert before", k), &given, &[(1, k as u16, 0, 1, "new")], Ok(&more));
        let mut fewer = given.clone();
        fewer.remove(at);
        edited(table, &named("delete", k), &given, &[(1, k as u16, 0, 2, "")], Ok(&fewer));
        let mut other = given.clone();
        other[at].value = "other";
        edited(table, &named("modify", k), &given, &[(1, k as u16, 0, 3, "other")], Ok(&other));
    }
    let last = length as u16;
    let mut more = given.clone();
    more.insert(place(&given, 1, length) + 1, leaf(1, "new"));
    edited(table, &named("insert behind", length), &given, &[(1, last + 1, 0, 1, "new")], Ok(&more));
    let mut at_the_end = given.clone();
    at_the_end.push(leaf(9, "new"));
    edited(table, &named("insert of a new code behind", length), &given, &[(9, 1, 0, 1, "new")], Ok(&at_the_end));
    edited(table, &named("insert too far behind", length), &given, &[(1, last + 2, 0, 1, "new")], Err(9));
    edited(table, &named("delete behind", length), &given, &[(1, last + 1, 0, 2, "")], Err(9));
    edited(table, &named("delete in another code of", length), &given, &[(2, 2, 0, 2, "")], Err(9));
}

/// Edits of a long run below one attribute, with others before and behind it.
fn edits_below(table: &mut Table) {
    let with = |below: Vec<Entry>| {
        let mut run = vec![leaf(1, "a"); 70];
        run.insert(30, branch(5, below));
        run
    };
    let below = vec![leaf(1, "b"); 100];
    let given = with(below.clone());
    for k in [1, 63, 64, 65, 100] {
        let acts = |instruction: u8, value: &'static str| [(5, 1, 0, 3, ""), (1, k as u16, 1, instruction, value)];
        let mut more = below.clone();
        more.insert(k - 1, leaf(1, "new"));
        edited(table, &format!("insert before number {k} of 100 below"), &given, &acts(1, "new"), Ok(&with(more)));
        let mut fewer = below.clone();
        fewer.remove(k - 1);
        edited(table, &format!("delete number {k} of 100 below"), &given, &acts(2, ""), Ok(&with(fewer)));
    }
    let mut more = below.clone();
    more.push(leaf(1, "new"));
    let behind = [(5, 1, 0, 3, ""), (1, 101, 1, 1, "new")];
    edited(table, "insert behind the last of 100 below", &given, &behind, Ok(&with(more)));
    edited(table, "delete behind the last of 100 below", &given, &[(5, 1, 0, 3, ""), (1, 101, 1, 2, "")], Err(9));
    let without: Vec<Entry> = given.iter().filter(|entry| entry.code == 1).cloned().collect();
    edited(table, "delete with 100 below", &given, &[(5, 1, 0, 2, "")], Ok(&without));
}

/// So many codes, in an order that is neither rising nor falling.
fn codes(count: u32) -> impl Iterator<Item = u16> {
    (0..count).map(move |n| (1 + n * 101 % count) as u16)
}

/// Attributes one in the other, down to a depth, with these in the innermost.
fn nested(depth: usize, innermost: Vec<Entry>) -> Vec<Entry> {
    (0..depth).fold(innermost, |below, _| vec![branch(1, below)])
}

/// Attributes one in the other, each with another behind what is below it.
fn comb(depth: usize) -> Vec<Entry> {
    (0..depth).fold(Vec::new(), |below, n| vec![branch(1, below), leaf(1 + (n % 3) as u16, "back")])
}

/// Forests whose numbers take long looks back; an attribute that is put in before the first of its code moves many of them.
fn numbered_anew(table: &mut Table) {
    let twice: Vec<Entry> = codes(700).chain(codes(700)).map(|code| leaf(code, "")).collect();
    let families: Vec<Entry> = codes(40).map(|code| branch(code, codes(30).map(|code| leaf(code, "x")).collect())).collect();
    let forests = [
        ("700 codes twice", twice.clone()),
        ("700 codes twice at depth 9", nested(9, twice)),
        ("1,300 of one code at depth 12", nested(12, vec![leaf(7, "y"); 1_300])),
        ("40 families of 30 codes", families.clone()),
        ("40 families of 30 codes at depth 20", nested(20, families)),
        ("600 in a comb", comb(600)),
    ];
    for (name, given) in forests {
        let mut wanted = given.clone();
        wanted.insert(place(&given, 1, 1), leaf(1, "new"));
        edited(table, &format!("{name}, numbered anew"), &given, &[(1, 1, 0, 1, "new")], Ok(&wanted));
    }
}

/// Three records, information type 1, and multi point 2 with 12,480 tuples and these associations.
fn long_multi(general: Vec<Field>, rver: u16, associations: &[Field]) -> Records {
    let mut records = dataset()[..3].to_vec();
    records[1] = general;
    records.push(vec![irid(1, 1, 1, 1)]);
    let list = c2il(&vec![(7, -1); 12_480]);
    records.push([vec![mrid(2, rver, 1)], associations.to_vec(), vec![list]].concat());
    records
}

/// An association of multi point 2, 96 bytes long with its entry where its value has 63: the most that fit.
fn association(role: u16, instruction: u8, value: usize) -> Field {
    let value = "v".repeat(value);
    inas(1, 1, role, instruction, &[(1, 1, 0, 1, &value)])
}

/// Number 12 after associations that join and leave, and after attributes that come and go.
fn to_the_last_byte(table: &mut Table) {
    let given = file(&long_multi(dataset()[1].clone(), 1, &[]));
    let act = |rver: u16, fields: &[Field]| [vec![mrid(2, rver, 3)], fields.to_vec()].concat();
    let gone = || inas(1, 1, 1, 2, &[]);
    let most = || association(1, 1, 63);
    let more = || association(1, 1, 64);
    let done = |rver: u16, associations: &[Field]| {
        let result = long_multi(after()[1].clone(), rver, associations);
        Intent::Done { written: file(&result), count: result.len() }
    };
    let cases = [
        ("an association to the last byte", vec![act(2, &[most()])], done(2, &[most()])),
        ("an association a byte too long", vec![act(2, &[more()])], Intent::Refused(12, 2, 3)),
        ("one to the last byte, then nothing", vec![act(2, &[most()]), act(3, &[])], done(3, &[most()])),
        ("one out and in again", vec![act(2, &[most()]), act(3, &[gone(), most()])], done(3, &[most()])),
        ("one out, and in a byte too long", vec![act(2, &[most()]), act(3, &[gone(), more()])], Intent::Refused(12, 2, 4)),
        ("one more, without attributes", vec![act(2, &[most()]), act(3, &[inas(1, 1, 2, 1, &[])])], Intent::Refused(12, 2, 4)),
        ("one out", vec![act(2, &[most()]), act(3, &[gone()]), act(4, &[most()])], done(4, &[most()])),
    ];
    for (name, acts, intent) in cases {
        let case = Case::update(given.clone(), file(&with_heading(&acts)), 200_000, WORK);
        table.row(&format!("update: 12,480 tuples, {name}"), case, intent);
    }
    attributes_to_the_last_byte(table);
}

fn attributes_to_the_last_byte(table: &mut Table) {
    let value = "v".repeat(99_900);
    let first = (1, 1, 0, 1, value.as_str());
    let before = file(&chart(dataset()[1].clone(), 1, attr(&[first])));
    let act = |rver: u16, list: &[Tuple]| vec![irid(1, 1, rver, 3), attr(list)];
    let (most, more) = ("w".repeat(18), "w".repeat(19));
    let full = |rver: u16| {
        let result = chart(after()[1].clone(), rver, attr(&[first, (1, 2, 0, 1, most.as_str())]));
        Intent::Done { written: file(&result), count: 4 }
    };
    let fills = act(2, &[(1, 2, 0, 1, &most)]);
    let cases = [
        ("to the last byte", vec![fills.clone()], full(2)),
        ("a byte too long", vec![act(2, &[(1, 2, 0, 1, &more)])], Intent::Refused(12, 2, 3)),
        ("to the last byte, then nothing", vec![fills.clone(), vec![irid(1, 1, 3, 3)]], full(3)),
        ("full, and a byte more", vec![fills.clone(), act(3, &[(1, 2, 0, 3, &more)])], Intent::Refused(12, 2, 4)),
        ("full, emptied and filled", vec![fills, act(3, &[(1, 2, 0, 2, "")]), act(4, &[(1, 2, 0, 1, &most)])], full(4)),
    ];
    for (name, acts, intent) in cases {
        let case = Case::update(before.clone(), file(&with_heading(&acts)), 200_000, WORK);
        table.row(&format!("update: an attribute of 99,900 bytes and one more, {name}"), case, intent);
    }
}
