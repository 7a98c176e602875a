//! Updates that fit a dataset: each act is made on the state that the earlier acts left, and changes it.

use super::chart::{merged_unread, Association, Chart, Item, Key, Kind, Node};
use super::form::{self, Form, Sent};
use super::invent;
use super::random::Random;
use crate::build::{self, Field};

const INSERT: u8 = 1;
const DELETE: u8 = 2;
const MODIFY: u8 = 3;
/// The greatest RVER and UPDN.
const LAST: u16 = 65534;

/// An update as the fields of its records, and the chart that it leads to.
pub struct Revised {
    pub records: Vec<Vec<Field>>,
    pub chart: Chart,
}

/// An update for a chart whose update number can grow. A careless one may delete what others name
/// and may miss a place in a tree.
pub fn revise(random: &mut Random, chart: &Chart, careless: bool) -> Revised {
    let mut chart = chart.clone();
    let general = invent::next_general(random, &chart.general);
    let records = vec![invent::descriptive(random), form::general(&general)];
    let brought = general.unread.clone();
    let old = std::mem::replace(&mut chart.general, general);
    chart.general.unread = merged_unread(&old.unread, &brought);
    let mut acts = Acts { chart, records, promised: Vec::new(), careless };
    for _ in 0..random.pick(&[0, 1, 1, 2, 2, 3, 4, 6, 10]) {
        acts.act(random);
    }
    acts.keep_promises(random);
    Revised { records: acts.records, chart: acts.chart }
}

struct Acts {
    chart: Chart,
    records: Vec<Vec<Field>>,
    /// Keys that records of the update name before the update inserts them.
    promised: Vec<Key>,
    careless: bool,
}

impl Acts {
    fn act(&mut self, random: &mut Random) {
        match random.below(12) {
            0..=2 => self.insert_new(random),
            3..=4 => self.delete_one(random),
            5 => self.life_of_one(random),
            _ => self.modify_one(random),
        }
    }

    fn any_place(&self, random: &mut Random) -> Option<usize> {
        (!self.chart.items.is_empty()).then(|| random.below(self.chart.items.len()))
    }

    fn new_key(&self, random: &mut Random) -> Key {
        loop {
            let key = (random.pick(&Kind::ALL), invent::rcid(random));
            if self.chart.place(key).is_none() && !self.promised.contains(&key) {
                return key;
            }
        }
    }

    /// A new record; now and then it, or one after it, names a record that is inserted later.
    fn insert_new(&mut self, random: &mut Random) {
        if random.percent(15) {
            let key = self.new_key(random);
            self.promised.push(key);
        }
        let key = self.new_key(random);
        self.insert(random, key);
    }

    fn insert(&mut self, random: &mut Random, key: Key) {
        let mut keys = self.chart.keys();
        keys.push(key);
        keys.extend_from_slice(&self.promised);
        let item = Item { rver: 1, ..invent::item(random, key, &keys) };
        self.records.push(form::item(&item, &mut Form::Free(random)));
        self.chart.join(item);
    }

    fn keep_promises(&mut self, random: &mut Random) {
        for key in std::mem::take(&mut self.promised) {
            if self.chart.place(key).is_none() {
                self.insert(random, key);
            }
        }
    }

    fn delete_one(&mut self, random: &mut Random) {
        if let Some(place) = self.any_place(random) {
            let key = self.chart.items[place].key;
            if self.careless || !self.chart.is_named(key) {
                self.delete(place);
            }
        }
    }

    fn delete(&mut self, place: usize) {
        let item = &self.chart.items[place];
        if item.rver < LAST {
            let next = Item { rver: item.rver + 1, ..item.clone() };
            self.records.push(vec![form::identifier(&next, DELETE)]);
            self.chart.items.remove(place);
        }
    }

    /// One record modified twice, deleted and inserted again; what names it holds afterwards.
    fn life_of_one(&mut self, random: &mut Random) {
        if let Some(place) = self.any_place(random) {
            let key = self.chart.items[place].key;
            if self.chart.items[place].rver < LAST - 3 {
                self.modify(random, place);
                self.modify(random, place);
                self.delete(place);
                self.insert(random, key);
            }
        }
    }

    fn modify_one(&mut self, random: &mut Random) {
        if let Some(place) = self.any_place(random) {
            self.modify(random, place);
        }
    }

    fn modify(&mut self, random: &mut Random, place: usize) {
        let keys: Vec<Key> = self.chart.keys().into_iter().chain(self.promised.iter().copied()).collect();
        let item = &mut self.chart.items[place];
        if item.rver < LAST {
            item.rver += 1;
            self.records.push(modified(random, item, &keys, self.careless));
        }
    }
}

/// Edits on one record, made on it and told as the fields of a modify.
fn modified(random: &mut Random, item: &mut Item, keys: &[Key], careless: bool) -> Vec<Field> {
    let mut fields = vec![form::identifier(item, MODIFY)];
    let kind = item.key.0;
    if kind == Kind::Feature && random.percent(50) {
        fields.push(build::foid(item.foid.0, item.foid.1, item.foid.2));
    }
    if kind.coded() && random.percent(75) {
        let mut sent = Vec::new();
        edit_run(random, &mut item.attributes, 0, &mut sent);
        if careless && random.percent(60) {
            misplace(random, &mut sent);
        }
        fields.push(build::field("ATTR", form::tuples(&sent)));
    }
    if random.percent(50) {
        edit_associations(random, &mut item.associations, keys, &mut fields);
    }
    match kind {
        Kind::Point if random.percent(70) => {
            item.coordinates = vec![invent::coordinate(random)];
            fields.push(build::c2it(item.coordinates[0].0, item.coordinates[0].1));
        }
        Kind::MultiPoint if random.percent(80) => edit_coordinates(random, &mut item.coordinates, &mut fields),
        Kind::Feature if random.percent(70) => edit_locations(random, item, keys, &mut fields),
        _ => {}
    }
    fields
}

/// Edits among the children of one entry; below one that was inserted or modified they may go on.
fn edit_run(random: &mut Random, run: &mut Vec<Node>, parent: u16, sent: &mut Vec<Sent>) {
    for _ in 0..random.pick(&[1, 1, 2, 2, 3]) {
        let at = if run.is_empty() { None } else { Some(random.below(run.len())) };
        match (at, random.below(5)) {
            (Some(at), 0 | 1) => modify_entry(random, run, at, parent, sent),
            (Some(at), 2) => {
                let removed = run[at].code;
                let (index, value) = (index_of(run, at), invent::text(random));
                sent.push(Sent { code: removed, index, parent, instruction: DELETE, value });
                run.remove(at);
            }
            _ => insert_entry(random, run, parent, sent),
        }
    }
}

/// One tuple that may no longer fit the tree: another index, parent, instruction or value.
fn misplace(random: &mut Random, sent: &mut [Sent]) {
    let at = random.below(sent.len());
    let tuple = &mut sent[at];
    match random.below(4) {
        0 => tuple.index += 1,
        1 => tuple.parent = random.below(at + 1) as u16,
        2 => tuple.instruction = random.pick(&[INSERT, DELETE, MODIFY]),
        _ if tuple.value.is_empty() => tuple.value = b"v".to_vec(),
        _ => tuple.value.clear(),
    }
}

/// The number of an entry among those of its code and parent.
fn index_of(run: &[Node], at: usize) -> u16 {
    run[..=at].iter().filter(|node| node.code == run[at].code).count() as u16
}

fn modify_entry(random: &mut Random, run: &mut [Node], at: usize, parent: u16, sent: &mut Vec<Sent>) {
    let (code, index) = (run[at].code, index_of(run, at));
    let leads = !run[at].children.is_empty() || random.percent(20);
    let value = if leads { Vec::new() } else { invent::text(random) };
    run[at].value = value.clone();
    sent.push(Sent { code, index, parent, instruction: MODIFY, value });
    let place = sent.len() as u16;
    if leads && random.percent(85) {
        edit_run(random, &mut run[at].children, place, sent);
    }
}

fn insert_entry(random: &mut Random, run: &mut Vec<Node>, parent: u16, sent: &mut Vec<Sent>) {
    let again = !run.is_empty() && random.percent(60);
    let code = if again { run[random.below(run.len())].code } else { invent::code(random) };
    let of_code: Vec<usize> = (0..run.len()).filter(|at| run[*at].code == code).collect();
    let index = random.between(1, of_code.len() + 1);
    let at = match (of_code.get(index - 1), of_code.last()) {
        (Some(before), _) => *before,
        (None, Some(last)) => last + 1,
        (None, None) => run.len(),
    };
    let leads = random.percent(30);
    let value = if leads { Vec::new() } else { invent::text(random) };
    sent.push(Sent { code, index: index as u16, parent, instruction: INSERT, value: value.clone() });
    let place = sent.len() as u16;
    run.insert(at, Node { code, value, children: Vec::new() });
    if leads {
        edit_run(random, &mut run[at].children, place, sent);
    }
}

/// Inserts and deletes in any order; a key that is deleted may come again at once.
fn edit_associations(random: &mut Random, list: &mut Vec<Association>, keys: &[Key], fields: &mut Vec<Field>) {
    for _ in 0..random.between(1, 3) {
        if !list.is_empty() && random.percent(45) {
            let gone = list.remove(random.below(list.len()));
            fields.push(form::association(gone.key, DELETE, &[]));
            if random.percent(40) {
                fields.push(form::association(gone.key, INSERT, &gone.attributes));
                list.push(gone);
            }
            continue;
        }
        match invent::association_key(random, keys) {
            Some(key) if list.iter().all(|other| other.key != key) => {
                let attributes = invent::attributes(random);
                fields.push(form::association(key, INSERT, &attributes));
                list.push(Association { key, attributes });
            }
            _ => {}
        }
    }
}

fn edit_locations(random: &mut Random, item: &mut Item, keys: &[Key], fields: &mut Vec<Field>) {
    let mut sent = Vec::new();
    let list = &mut item.locations;
    for _ in 0..random.between(1, 4) {
        if !list.is_empty() && random.percent(45) {
            let gone = list.remove(random.below(list.len()));
            // Only the key says which one goes.
            sent.push(form::location(&invent::location_of(random, gone.key), DELETE));
            if random.percent(40) {
                sent.push(form::location(&gone, INSERT));
                list.push(gone);
            }
            continue;
        }
        match invent::location(random, keys) {
            Some(new) if list.iter().all(|other| other.key != new.key) => {
                sent.push(form::location(&new, INSERT));
                list.push(new);
            }
            _ => {}
        }
    }
    fields.extend(Form::Free(random).parts(&sent).iter().map(|part| build::spas(part)));
}

/// One COCC with its tuples, at any place that the list has.
fn edit_coordinates(random: &mut Random, list: &mut Vec<(i32, i32)>, fields: &mut Vec<Field>) {
    let instruction = if list.is_empty() { INSERT } else { random.pick(&[INSERT, DELETE, MODIFY]) };
    let at = if instruction == INSERT { random.between(0, list.len()) } else { random.below(list.len()) };
    let most = if instruction == INSERT { 6 } else { list.len() - at };
    let count = random.between(1, most);
    let new: Vec<(i32, i32)> = match instruction {
        DELETE => Vec::new(),
        _ => (0..count).map(|_| invent::coordinate(random)).collect(),
    };
    let end = if instruction == INSERT { at } else { at + count };
    list.splice(at..end, new.iter().copied());
    fields.push(build::cocc(instruction, at as u16 + 1, count as u16));
    if instruction != DELETE {
        fields.extend(Form::Free(random).parts(&new).iter().map(|part| build::c2il(part)));
    }
}
