//! Many keys: repeats and loose references that only many records show, and updates of many records in any rooms.

use super::base::*;
use super::{with_heading, Intent, Table, WORK};
use crate::batch::{Case, READ};
use crate::build::*;
use crate::generate::random::Random;

pub fn rows(table: &mut Table) {
    repeats(table);
    repeats_by_kind(table);
    places(table);
    associations(table);
    places_in_results(table);
    updates(table, "rising keys", (1..=POINTS).collect());
    let mut strewn: Vec<u32> = (1..=POINTS).map(|n| n * (u32::MAX / (POINTS + 1))).collect();
    Random::new(1).shuffle(&mut strewn);
    updates(table, "strewn keys", strewn);
}

fn headed(records: impl IntoIterator<Item = Vec<Field>>) -> Records {
    dataset()[..3].iter().cloned().chain(records).collect()
}

fn read_done(table: &mut Table, name: &str, records: &Records) {
    let done = Intent::Done { written: Vec::new(), count: records.len() };
    table.row(&format!("read: {name}"), Case::read(file(records)), done);
}

/// So many RCIDs that are alike but for multiples of 262,144, each below the one before.
fn alike(count: u32) -> Vec<u32> {
    (0..count).rev().map(|n| 5 + n * 262_144).collect()
}

/// The first repeat is refused, wherever the first of the key stands and whatever is repeated later.
fn repeats(table: &mut Table) {
    let multis = |rcids: &[u32]| headed(rcids.iter().map(|rcid| vec![mrid(*rcid, 1, 1)]));
    for count in [9, 40, 4_200, 8_300] {
        let rcids = alike(count);
        let all = rcids.len();
        read_done(table, &format!("{count} falling keys that are alike"), &multis(&rcids));
        for (which, first) in [("first", 0), ("middle", all / 2), ("last", all - 1)] {
            let again = multis(&[&rcids[..], &[rcids[first]]].concat());
            let name = format!("the {which} of {count} alike keys again at the end");
            table.dataset_by(READ, &name, file(&again), 7, all + 4);
        }
        let mut two = [&rcids[..], &[rcids[1]]].concat();
        two.insert(all / 2, rcids[0]);
        let name = format!("two of {count} alike keys again, in the middle and at the end");
        table.dataset_by(READ, &name, file(&multis(&two)), 7, all / 2 + 4);
    }
}

/// Twelve of each kind; what one kind has, another may have too.
fn repeats_by_kind(table: &mut Table) {
    let kinds: [fn(u32) -> Vec<Field>; 4] = [
        |rcid| vec![irid(rcid, 1, 1, 1)],
        |rcid| vec![prid(rcid, 1, 1), c2it(0, 0)],
        |rcid| vec![mrid(rcid, 1, 1)],
        |rcid| vec![frid(rcid, 1, 1, 1), foid(0, 0, 0)],
    ];
    let all = headed(kinds.iter().flat_map(|of| alike(12).into_iter().map(of)));
    read_done(table, "twelve alike keys of each kind", &all);
    for (n, of) in kinds.iter().enumerate() {
        let mut again = all.clone();
        let end = 3 + 12 * (n + 1);
        again.insert(end, of(alike(12)[3]));
        table.dataset(&format!("one of twelve alike keys of kind {n} again"), &again, 7, end + 1);
    }
}

/// How many records one record names here: more than a book of 6,144 has, and nearly as many as fit.
const NAMED: u32 = 6_400;

/// The RCID of record n of those, above what any map has room for. Odd ones are absent.
fn above(n: u32) -> u32 {
    200_000 + 2 * n
}

/// Multi points whose keys fall.
fn falling_multis() -> Vec<Vec<Field>> {
    (0..NAMED).rev().map(|n| vec![mrid(above(n), 1, 1)]).collect()
}

/// All of them named, in an order that is neither theirs nor the other way round.
fn all_named() -> Vec<Spatial> {
    (0..NAMED).map(|n| (115, above(n * 1_009 % NAMED), 1, 0, 0, 1)).collect()
}

/// The same with the one at a place loose.
fn one_loose(place: usize) -> Vec<Spatial> {
    let mut named = all_named();
    named[place].1 += 1;
    named
}

fn naming(rcid: u32, lists: &[&[Spatial]]) -> Vec<Field> {
    let fields = lists.iter().map(|list| spas(list));
    [frid(rcid, 1, 1, 1), foid(0, 0, 0)].into_iter().chain(fields).collect()
}

fn places(table: &mut Table) {
    let with = |features: Vec<Vec<Field>>| headed(falling_multis().into_iter().chain(features));
    let (all, last) = (all_named(), NAMED as usize - 1);
    read_done(table, "6,400 places in one SPAS", &with(vec![naming(1, &[&all])]));
    read_done(table, "6,400 places in two SPAS", &with(vec![naming(1, &[&all[..1_000], &all[1_000..]])]));
    for place in [0, 6_143, 6_144, 6_145, last] {
        let records = with(vec![naming(1, &[&one_loose(place)])]);
        let name = format!("loose: place {place} of 6,400 in one SPAS");
        table.dataset_by(READ, &name, file(&records), 11, NAMED as usize + 4);
    }
    let shared = |list: &[Spatial]| (1..).zip(list.chunks(300)).map(|(n, part)| naming(n, &[part])).collect();
    read_done(table, "6,400 places in 22 features", &with(shared(&all)));
    let records = with(shared(&one_loose(last)));
    table.dataset_by(READ, "loose: the last of 6,400 places in 22 features", file(&records), 11, records.len());
}

fn associations(table: &mut Table) {
    let count = 2_100;
    let types = (0..count).rev().map(|n| vec![irid(above(n), 1, 1, 1)]);
    let named = (0..count).map(|n| inas(above(n * 1_009 % count), 1, 1, 1, &[]));
    let mut records = headed(types.chain([[mrid(1, 1, 1)].into_iter().chain(named).collect()]));
    read_done(table, "2,100 associations of one record", &records);
    *records.last_mut().expect("the multi point").last_mut().expect("its last association") =
        inas(above(0) + 1, 1, 1, 1, &[]);
    table.dataset_by(READ, "loose: the last of 2,100 associations", file(&records), 11, records.len());
}

/// An update inserts what names them, and changes some of them.
fn places_in_results(table: &mut Table) {
    let given = headed(falling_multis());
    let moved = |n: u32| vec![mrid(above(n), 2, 3), cocc(1, 1, 1), c2il(&[(9, 9)])];
    let acts = |list: &[Spatial]| with_heading(&[moved(7), naming(1, &[list]), moved(6_000)]);
    let last = NAMED as usize - 1;
    let mut result = given.clone();
    result[1] = after()[1].clone();
    for n in [7, 6_000] {
        result[(NAMED - n) as usize + 2] = vec![mrid(above(n), 2, 1), c2il(&[(9, 9)])];
    }
    result.push(naming(1, &[&all_named()]));
    table.update_done("6,400 places in an inserted SPAS", &given, &acts(&all_named()), &result);
    let written = file(&result);
    let length = written.len();
    for room in [length - 1, length, length + 8, length + 52_000] {
        let intent = match room < length {
            true => Intent::Refused(13, 3, 0),
            false => Intent::Done { written: written.clone(), count: result.len() },
        };
        let case = Case::update(file(&given), file(&acts(&all_named())), room as u32, WORK);
        table.row(&format!("update: 6,400 places in an inserted SPAS, a room of {room}"), case, intent);
    }
    for (place, room) in [(0, 500_000), (6_143, 500_000), (last, 500_000), (0, length), (last, length), (last, length - 1)] {
        let case = Case::update(file(&given), file(&acts(&one_loose(place))), room as u32, WORK);
        let refused = Intent::Refused(11, 3, result.len());
        table.row(&format!("update: place {place} of 6,400 in an inserted SPAS loose, a room of {room}"), case, refused);
    }
}

/// How many points the datasets below have.
const POINTS: u32 = 200;

/// Keys that no dataset below has: one below all strewn ones, and one above all keys.
const LOWEST: u32 = 201;
const HIGHEST: u32 = u32::MAX - 1;

/// What a dataset of points says: RCID, RVER and Y of each.
#[derive(Clone)]
struct Points(Vec<(u32, u16, i32)>);

impl Points {
    fn records(&self, general: Vec<Field>) -> Records {
        let mut records = headed(self.0.iter().map(|(rcid, rver, y)| vec![prid(*rcid, *rver, 1), c2it(*y, 0)]));
        records[1] = general;
        records
    }

    /// The update record that does this to the point, done.
    fn act(&mut self, rcid: u32, ruin: u8, y: i32) -> Vec<Field> {
        if ruin == 1 {
            self.0.push((rcid, 1, y));
            return vec![prid(rcid, 1, 1), c2it(y, 0)];
        }
        let at = self.0.iter().position(|point| point.0 == rcid).expect("what is changed is there");
        let rver = self.0[at].1 + 1;
        if ruin == 2 {
            self.0.remove(at);
            return vec![prid(rcid, rver, 2)];
        }
        self.0[at] = (rcid, rver, y);
        vec![prid(rcid, rver, 3), c2it(y, 0)]
    }
}

/// A dataset and an update that it takes.
struct Revision {
    name: String,
    before: Points,
    after: Points,
    acts: Records,
}

/// So many points with these keys, after acts that are chosen one after the other from what is there.
fn revised(name: &str, keys: &[u32], count: usize, mut choose: impl FnMut(usize, &Points) -> (u32, u8)) -> Revision {
    let before = Points(keys.iter().map(|rcid| (*rcid, 1, 0)).collect());
    let mut after = before.clone();
    let mut acts = Vec::new();
    for n in 0..count {
        let (rcid, ruin) = choose(n, &after);
        acts.push(after.act(rcid, ruin, n as i32));
    }
    Revision { name: name.to_string(), before, after, acts }
}

fn updates(table: &mut Table, keys_are: &str, keys: Vec<u32>) {
    let mut shuffled = keys.clone();
    Random::new(2).shuffle(&mut shuffled);
    let random = &mut Random::new(3);
    let any = |_: usize, points: &Points| {
        let rcid = shuffled[random.below(20)];
        let there = points.0.iter().any(|point| point.0 == rcid);
        (rcid, if there { random.pick(&[2, 3, 3]) } else { 1 })
    };
    let revisions = [
        revised(&format!("{keys_are}, all moved in random order"), &keys, keys.len(), |n, _| (shuffled[n], 3)),
        revised(&format!("{keys_are}, seven moved in turn"), &keys, 300, |n, _| (shuffled[n % 7], 3)),
        revised(&format!("{keys_are}, one in and out"), &keys, 301, |n, _| (HIGHEST - 1, 1 + (n % 2) as u8)),
        revised(&format!("{keys_are}, twenty in, out and moved"), &keys, 300, any),
    ];
    for revision in &revisions {
        rooms(table, revision);
        faults(table, revision);
        two_faults(table, revision);
    }
}

/// The result, in rooms around its length and around eight bytes more for each update record.
fn rooms(table: &mut Table, revision: &Revision) {
    let given = file(&revision.before.records(dataset()[1].clone()));
    let update = file(&with_heading(&revision.acts));
    let result = revision.after.records(after()[1].clone());
    let written = file(&result);
    let (length, more) = (written.len(), 8 * revision.acts.len());
    for room in [0, 100, more, length - 1, length, length + more - 1, length + more] {
        let intent = match room < length {
            true => Intent::Refused(13, 3, 0),
            false => Intent::Done { written: written.clone(), count: result.len() },
        };
        let case = Case::update(given.clone(), update.clone(), room as u32, WORK);
        table.row(&format!("update: {}, a room of {room}", revision.name), case, intent);
    }
}

/// The update with other records in the place of some: refused at one of them.
fn refused(table: &mut Table, revision: &Revision, name: &str, others: &[(usize, Vec<Field>)], number: u32, at: usize) {
    let mut acts = revision.acts.clone();
    for (n, fields) in others {
        acts[*n] = fields.clone();
    }
    let given = revision.before.records(dataset()[1].clone());
    let case = Case::update(file(&given), file(&with_heading(&acts)), 50_000, WORK);
    table.row(&format!("update: {}, {name}", revision.name), case, Intent::Refused(number, 2, at + 3));
}

/// The update record of this number with a version too many.
fn ahead(revision: &Revision, n: usize) -> (usize, Vec<Field>) {
    let mut fields = revision.acts[n].clone();
    fields[0].body[5] += 1;
    (n, fields)
}

fn faults(table: &mut Table, revision: &Revision) {
    let last = revision.acts.len() - 1;
    let stays = revision.before.0[POINTS as usize / 2].0;
    for (which, n) in [("first", 0), ("middle", last / 2), ("last", last)] {
        let inserted = vec![prid(stays, 1, 1), c2it(0, 0)];
        refused(table, revision, &format!("7 at the {which}"), &[(n, inserted)], 7, n);
        refused(table, revision, &format!("9 at the {which}"), &[(n, vec![prid(LOWEST, 2, 3)])], 9, n);
        refused(table, revision, &format!("10 at the {which}"), &[ahead(revision, n)], 10, n);
    }
}

/// The first in the file is answered, whatever the order of the keys.
fn two_faults(table: &mut Table, revision: &Revision) {
    let absent = |n: usize, rcid: u32| (n, vec![prid(rcid, 2, 2)]);
    let (at, later) = (100, 180);
    let rising = [absent(at, LOWEST), absent(later, HIGHEST)];
    refused(table, revision, "9 twice, the lower key first", &rising, 9, at);
    let falling = [absent(at, HIGHEST), absent(later, LOWEST)];
    refused(table, revision, "9 twice, the higher key first", &falling, 9, at);
    refused(table, revision, "10 twice", &[ahead(revision, at), ahead(revision, later)], 10, at);
    refused(table, revision, "10 and then 9", &[ahead(revision, at), absent(later, LOWEST)], 10, at);
}
