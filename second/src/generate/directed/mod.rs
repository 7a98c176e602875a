//! Named cases, one for each cause that the paper gives, each with the answer that the paper asks for.

mod base;
mod cable;
mod changes;
mod disagreements;
mod fields;
mod files;
mod keys;
mod large;
mod listings;
mod many;
mod months;
mod order;
mod sizes;
mod skeleton;
mod trees;
mod values;

use crate::batch::{Case, READ, UPDATE, WRITE};
use crate::build::{self, Field};
use crate::cable::Found;
use crate::month::Held;
use base::{dataset, heading, Records};

pub use sizes::HUGE;

/// What the paper says a case comes to.
#[derive(Clone, Debug, PartialEq, Eq)]
pub enum Intent {
    /// Number, file, record.
    Refused(u32, u32, usize),
    /// What is written (nothing by the reader), and how many records the dataset or the result has.
    Done {
        written: Vec<u8>,
        count: usize,
    },
    Prints(String),
    /// Of a month: length and count, or number, file and record; what is held at its end; the bytes of both pools.
    Month {
        outcome: Result<(usize, usize), (u32, u32, usize)>,
        held: Held,
        pools: [Vec<u8>; 2],
    },
    /// The parcel of the shelf that answers a holding, or silence.
    Replied(Option<Found>),
}

#[derive(Clone, Debug)]
pub struct Directed {
    pub name: String,
    pub case: Case,
    pub intent: Intent,
}

/// The named cases with their intended answers.
pub fn table() -> Vec<Directed> {
    let mut table = small_table();
    sizes::huge(&mut table);
    cable::huge(&mut table);
    table.rows
}

/// The named cases.
pub fn directed() -> Vec<(String, Case)> {
    table().into_iter().map(|row| (row.name, row.case)).collect()
}

/// All directed cases, those of many megabytes too.
pub fn all() -> Vec<Case> {
    directed().into_iter().map(|(_, case)| case).collect()
}

/// The directed cases but for those of many megabytes.
pub fn small() -> Vec<Case> {
    small_table().rows.into_iter().map(|row| row.case).collect()
}

fn small_table() -> Table {
    let mut table = Table { rows: Vec::new() };
    skeleton::rows(&mut table);
    files::rows(&mut table);
    fields::rows(&mut table);
    values::rows(&mut table);
    trees::rows(&mut table);
    keys::rows(&mut table);
    disagreements::rows(&mut table);
    changes::rows(&mut table);
    order::rows(&mut table);
    sizes::rows(&mut table);
    listings::rows(&mut table);
    many::rows(&mut table);
    large::rows(&mut table);
    months::rows(&mut table);
    cable::rows(&mut table);
    table
}

/// Enough for every small result, and the least workspace.
const ROOM: u32 = 5000;
const WORK: u32 = 400_000;

struct Table {
    rows: Vec<Directed>,
}

impl Table {
    fn row(&mut self, name: &str, case: Case, intent: Intent) {
        self.rows.push(Directed { name: name.to_string(), case, intent });
    }

    /// A fault of the dataset, asked of reader, writer or updater: they find it alike.
    fn dataset_by(&mut self, operation: u8, name: &str, bytes: Vec<u8>, number: u32, record: usize) {
        let (asked, case) = match operation {
            READ => ("read", Case::read(bytes)),
            WRITE => ("write", Case::write(bytes, ROOM)),
            _ => ("update of a dataset", Case::update(bytes, build::file(&heading()), ROOM, WORK)),
        };
        self.row(&format!("{asked}: {name}"), case, Intent::Refused(number, 1, record));
    }

    fn dataset_bytes(&mut self, name: &str, bytes: Vec<u8>, number: u32, record: usize) {
        for operation in [READ, WRITE, UPDATE] {
            self.dataset_by(operation, name, bytes.clone(), number, record);
        }
    }

    fn dataset(&mut self, name: &str, records: &[Vec<Field>], number: u32, record: usize) {
        self.dataset_bytes(name, build::file(records), number, record);
    }

    /// A dataset that is read and written.
    fn dataset_done(&mut self, name: &str, bytes: Vec<u8>, written: &[Vec<Field>]) {
        let count = written.len();
        let written = build::file(written);
        let room = written.len() as u32;
        self.row(&format!("read: {name}"), Case::read(bytes.clone()), Intent::Done { written: Vec::new(), count });
        self.row(&format!("write: {name}"), Case::write(bytes, room), Intent::Done { written, count });
    }

    /// An update of the base dataset that is refused.
    fn update_bytes(&mut self, name: &str, update: Vec<u8>, number: u32, record: usize) {
        let case = Case::update(build::file(&dataset()), update, ROOM, WORK);
        self.row(&format!("update: {name}"), case, Intent::Refused(number, 2, record));
    }

    fn update(&mut self, name: &str, update: &[Vec<Field>], number: u32, record: usize) {
        self.update_bytes(name, build::file(update), number, record);
    }

    /// Records after the heading of an update of the base dataset; the last of them is refused.
    fn acts(&mut self, name: &str, acts: &[Vec<Field>], number: u32) {
        self.update(name, &with_heading(acts), number, 2 + acts.len());
    }

    /// One such record.
    fn act(&mut self, name: &str, fields: Vec<Field>, number: u32) {
        self.acts(name, &[fields], number);
    }

    /// Records after the heading that turn the base dataset into the records of the result.
    fn acts_done(&mut self, name: &str, acts: &[Vec<Field>], result: &[Vec<Field>]) {
        self.update_done(name, &dataset(), &with_heading(acts), result);
    }

    fn update_done(&mut self, name: &str, dataset: &[Vec<Field>], update: &[Vec<Field>], result: &[Vec<Field>]) {
        let written = build::file(result);
        let case = Case::update(build::file(dataset), build::file(update), written.len() as u32, WORK);
        self.row(&format!("update: {name}"), case, Intent::Done { written, count: result.len() });
    }

    /// A record with instruction insert that is refused alike in a dataset at this place and in an update.
    fn specimen(&mut self, name: &str, place: usize, number: u32, fields: Vec<Field>) {
        let mut records = dataset();
        records.insert(place - 1, fields.clone());
        let operation = [READ, WRITE, UPDATE][self.rows.len() / 2 % 3];
        self.dataset_by(operation, name, build::file(&records), number, place);
        self.act(&format!("inserted, {name}"), fields, number);
    }

    /// A record with instruction insert and RVER 1 that is accepted alike, and written as it stands.
    fn good_specimen(&mut self, name: &str, place: usize, fields: Vec<Field>) {
        let mut records = dataset();
        records.insert(place - 1, fields.clone());
        self.dataset_done(name, build::file(&records), &records);
        let mut result = base::after();
        result.insert(place - 1, fields.clone());
        self.acts_done(&format!("inserted, {name}"), &[fields], &result);
    }
}

fn with_heading(acts: &[Vec<Field>]) -> Records {
    let mut update = heading();
    update.extend_from_slice(acts);
    update
}
