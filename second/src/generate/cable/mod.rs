//! Random calls of the cable: holdings that come to shelves, charts that are told, parcels that come to displays.

mod replies;
mod taken;
mod told;

pub use replies::{random_reply, RandomReply};
pub use taken::{random_taken, RandomTaken};
pub use told::{random_told, RandomTold};

use super::random::Random;
use super::scatter::{arrived, Fate};
use crate::build::Field;

/// The bytes of a file that something happened to. Most of them are short, so that it happens to the first two records.
fn damaged(random: &mut Random, mut records: Vec<Vec<Field>>) -> Vec<u8> {
    records.truncate(random.pick(&[2, 2, 2, 3, 100]));
    let fate = random.pick(&[Fate::Fields, Fate::Bytes]);
    arrived(random, records, fate)
}

/// Another length or another kind at the front of a parcel.
fn odd_head(random: &mut Random, parcel: &mut [u8]) {
    let length = parcel.len() as u32;
    let near = random.between(6, 2 * parcel.len()) as u32;
    let lengths = [0, 1, 5, 6, 9, 10, length - 1, length + 1, length + 256, length | 1 << 24, u32::MAX, near];
    match random.below(3) {
        0 => parcel[4] = random.pick(&[0, 1, 2, 3, 4, 0x82, 0xff]),
        1 => parcel[5] = random.pick(&[1, 2, 0x80]),
        _ => parcel[..4].copy_from_slice(&random.pick(&lengths).to_le_bytes()),
    }
}

/// A parcel that arrives otherwise than it was sent: with another head, cut, or with bytes behind it.
fn odd_parcel(random: &mut Random, parcel: &mut Vec<u8>) {
    match random.below(4) {
        0..=1 => odd_head(random, parcel),
        2 => parcel.truncate(random.below(parcel.len())),
        _ => {
            let more = random.pick(&[1, 2, 6, 20]);
            parcel.extend(random.bytes(more));
        }
    }
}
