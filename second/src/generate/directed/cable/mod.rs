//! The cable: holdings that a shelf answers, charts that are told, parcels that are taken. Here stands what the cases
//! share.

mod faults;
mod holdings;
mod numbers;
mod shelves;
mod taken;
mod told;

use super::base::*;
use super::{with_heading, Intent, Table, ROOM, WORK};
use crate::batch::Case;
use crate::build::*;
use crate::cable::Found;

pub fn rows(table: &mut Table) {
    holdings::rows(table);
    numbers::rows(table);
    shelves::rows(table);
    told::rows(table);
    taken::rows(table);
}

/// Cases of sixteen megabytes each: taking a parcel finds its file too long, a reply and a telling do not.
pub fn huge(table: &mut Table) {
    shelves::huge(table);
    told::huge(table);
    taken::huge(table);
}

/// The length of a file that is a byte too long.
const TOO_LONG: usize = 16_777_217;

/// The holding of the base dataset.
fn held() -> Vec<u8> {
    holding(3, 7, b"CHART")
}

/// The first two records of an update file with this name, edition and update number.
fn named(name: &str, edition: u16, update: u16) -> Vec<u8> {
    file(&[heading()[0].clone(), vec![dsid(2, name, edition, update)]])
}

/// The base chart's update file of this number.
fn numbered(update: u16) -> Vec<u8> {
    named("CHART", 3, update)
}

/// The records of the update that follows the base dataset: it moves the point.
fn next_records() -> Records {
    with_heading(&[vec![prid(7, 2, 3), c2it(4, 5)]])
}

/// The file of them.
fn next() -> Vec<u8> {
    file(&next_records())
}

/// A parcel of kind 2.
fn carried(file: &[u8]) -> Vec<u8> {
    parcel(2, file)
}

/// Parcels of kind 2 one after the other.
fn shelf(files: &[Vec<u8>]) -> Vec<u8> {
    files.iter().flat_map(|file| carried(file)).collect()
}

/// A parcel with other bytes in the place of its length or its kind.
fn head_with(mut parcel: Vec<u8>, at: usize, bytes: &[u8]) -> Vec<u8> {
    parcel[at..at + bytes.len()].copy_from_slice(bytes);
    parcel
}

/// A parcel that states another length.
fn stating(parcel: Vec<u8>, length: usize) -> Vec<u8> {
    head_with(parcel, 0, &(length as u32).to_le_bytes())
}

/// Lengths that a parcel of so many bytes does not have, but whose low bytes may be its own.
fn high_bytes(length: usize) -> [usize; 4] {
    [length + (1 << 8), length + (1 << 16), length + (1 << 24), length + (1 << 31)]
}

fn reply(table: &mut Table, name: &str, (holding, shelf): (Vec<u8>, Vec<u8>), intent: Intent) {
    table.row(&format!("reply: {name}"), Case::reply(holding, shelf), intent);
}

fn silent(table: &mut Table, name: &str, holding: Vec<u8>, shelf: Vec<u8>) {
    reply(table, name, (holding, shelf), Intent::Replied(None));
}

fn wrong(table: &mut Table, name: &str, holding: Vec<u8>, shelf: Vec<u8>) {
    reply(table, name, (holding, shelf), Intent::Refused(27, 0, 0));
}

/// The parcel between two parts of a shelf is the answer to a holding.
fn found(table: &mut Table, name: &str, holding: Vec<u8>, [before, parcel, behind]: [&[u8]; 3]) {
    let answer = Found { start: before.len(), length: parcel.len() };
    reply(table, name, (holding, [before, parcel, behind].concat()), Intent::Replied(Some(answer)));
}
