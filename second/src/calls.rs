//! The reader, the writer and the updater: what each makes of the bytes handed over, or its refusal.

use crate::file::{self, refusal, Refusal};
use crate::model::Dataset;
use crate::update;
use crate::written;

/// The shortest workspace that the updater takes.
pub const WORKSPACE: u32 = 400_000;

/// What is written, and how many records it has.
pub type Written = (Vec<u8>, usize);

fn count(dataset: &Dataset) -> usize {
    3 + dataset.records.len()
}

/// How many records the dataset has.
pub fn read(dataset: &[u8]) -> Result<usize, Refusal> {
    Ok(count(&file::dataset(dataset)?))
}

pub fn write(dataset: &[u8], room: usize) -> Result<Written, Refusal> {
    let dataset = file::dataset(dataset)?;
    written::each_fits(&dataset)?;
    Ok((written::bytes(&dataset, room)?, count(&dataset)))
}

/// 15 where the workspace is too short.
pub fn workspace(length: u32) -> Result<(), Refusal> {
    if length < WORKSPACE {
        return Err(refusal(15, 0, 0));
    }
    Ok(())
}

pub fn update(dataset: &[u8], sent: &[u8], room: usize, work: u32) -> Result<Written, Refusal> {
    workspace(work)?;
    file::short_enough(dataset, file::DATASET)?;
    file::short_enough(sent, file::UPDATE)?;
    let dataset = file::dataset(dataset)?;
    written::each_fits(&dataset)?;
    let (general, sent) = file::update(sent)?;
    let result = update::applied(dataset, general, &sent)?;
    Ok((written::bytes(&result, room)?, count(&result)))
}
