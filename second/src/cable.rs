//! The bridge cable: a display tells which chart it holds, the master answers from its shelf of update files, and the
//! display takes what arrives.

use crate::build;
use crate::calls::{self, Written};
use crate::file::{self, refusal, Refusal, RESULT};
use crate::sent::Mode;

/// What a parcel has before its body: its whole length and its kind.
const HEAD: usize = 6;

/// The kinds of parcel: one tells a holding, one carries an update file.
const HOLDING: u16 = 1;
const FILE: u16 = 2;

/// Where a parcel starts in the shelf, and its length.
#[derive(Clone, Copy, Debug, PartialEq, Eq)]
pub struct Found {
    pub start: usize,
    pub length: usize,
}

/// Which chart a display holds.
struct Held<'a> {
    edition: u16,
    update: u16,
    name: &'a [u8],
}

/// 27: a parcel's length or kind is wrong.
fn wrong() -> Refusal {
    refusal(27, 0, 0)
}

/// The body of the parcel at the front of these bytes; none where it is no whole parcel of this kind.
fn body(bytes: &[u8], kind: u16) -> Option<&[u8]> {
    let length = u32::from_le_bytes(*bytes.first_chunk()?);
    let (head, body) = bytes.get(..length as usize)?.split_at_checked(HEAD)?;
    head.ends_with(&kind.to_le_bytes()).then_some(body)
}

/// The body of a parcel that has these bytes to itself.
fn body_of_all(bytes: &[u8], kind: u16) -> Result<&[u8], Refusal> {
    body(bytes, kind).filter(|body| HEAD + body.len() == bytes.len()).ok_or(wrong())
}

/// What a holding tells; its numbers are tested for no range.
fn held(holding: &[u8]) -> Result<Held<'_>, Refusal> {
    let body = body_of_all(holding, HOLDING)?;
    let (&[e0, e1, u0, u1], name) = body.split_first_chunk().ok_or(wrong())?;
    Ok(Held { edition: u16::from_le_bytes([e0, e1]), update: u16::from_le_bytes([u0, u1]), name })
}

/// The first parcel of the shelf whose file follows the holding; what stands behind it is not looked at.
pub fn reply(holding: &[u8], shelf: &[u8]) -> Result<Option<Found>, Refusal> {
    let held = held(holding)?;
    let mut start = 0;
    while start < shelf.len() {
        let file = body(&shelf[start..], FILE).ok_or(wrong())?;
        let length = HEAD + file.len();
        if follows(file, &held) {
            return Ok(Some(Found { start, length }));
        }
        start += length;
    }
    Ok(None)
}

/// The file's first two records can be read, and its name, edition and update number are the next ones.
fn follows(file: &[u8], held: &Held) -> bool {
    let next = u32::from(held.update) + 1;
    file::general(file, Mode::Update)
        .is_ok_and(|sent| sent.name == held.name && sent.edition == held.edition && u32::from(sent.update) == next)
}

/// The holding of a chart, of which the first two records alone are read.
pub fn tell(chart: &[u8], room: usize) -> Result<Vec<u8>, Refusal> {
    let general = file::general(chart, Mode::Dataset)?;
    let holding = build::holding(general.edition, general.update, &general.name);
    if holding.len() > room {
        return Err(refusal(13, RESULT, 0));
    }
    Ok(holding)
}

/// The update file that a parcel carries, on the chart; a wrong parcel is refused before anything else is looked at.
pub fn take(chart: &[u8], parcel: &[u8], room: usize, work: u32) -> Result<Written, Refusal> {
    let sent = body_of_all(parcel, FILE)?;
    calls::update(chart, sent, room, work)
}
