//! The listing program: what it prints for its standard input.

use crate::file;
use crate::model::{Dataset, Kind};
use crate::tree;

/// The longest input that it reads.
pub const LONGEST_INPUT: usize = 65_536;

pub fn printed(input: &[u8]) -> String {
    if input.len() > LONGEST_INPUT {
        return "too long\n".to_string();
    }
    match file::dataset(input) {
        Ok(dataset) => table(&dataset),
        Err(r) => format!("refused {} {} {}\n", r.number, r.file, r.record),
    }
}

fn table(dataset: &Dataset) -> String {
    let mut text = "rec tag rcid rver attr coord\n".to_string();
    for (n, record) in dataset.records.iter().enumerate() {
        let tag = std::str::from_utf8(record.kind.tag()).expect("tags are ASCII");
        let coordinates = match record.kind {
            Kind::Point | Kind::MultiPoint => record.coordinates.len(),
            Kind::Information | Kind::Feature => 0,
        };
        let entries = tree::count(&record.attributes);
        text += &format!("{} {tag} {} {} {entries} {coordinates}\n", n + 4, record.rcid, record.version);
    }
    text + &format!("total {}\n", dataset.records.len())
}
