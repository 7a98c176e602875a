//! Random charts that are told.

use super::super::form::{self, Form};
use super::super::invent;
use super::super::month::room;
use super::super::random::Random;
use super::damaged;
use crate::batch::Case;
use crate::build::holding;

/// A random chart to be told; and its holding, where it was made to be accepted.
pub struct RandomTold {
    pub case: Case,
    pub accepted: Option<Vec<u8>>,
}

/// A series of their own, as months are.
const SERIES: u64 = 0x686f6c64696e67;

/// The telling of this number under this seed.
pub fn random_told(seed: u64, number: usize) -> RandomTold {
    let random = &mut Random::of_case(seed ^ SERIES, number);
    let chart = invent::chart(random);
    let mut records = form::records(&chart, &mut Form::Free(random));
    let told = holding(chart.general.edition, chart.general.update, &chart.general.name);
    let out = room(random, told.len());
    if random.percent(50) {
        let bytes = damaged(random, records);
        return RandomTold { case: Case::tell(bytes, out as u32), accepted: None };
    }
    let cut = random.percent(40);
    if cut {
        records.truncate(random.between(2, 3));
    }
    let mut bytes = Form::Free(random).file(&records);
    if cut {
        // What is no record may stand behind the first two.
        let more = random.pick(&[0, 1, 23, 24, 50]);
        bytes.extend(random.bytes(more));
    }
    RandomTold { case: Case::tell(bytes, out as u32), accepted: (out >= told.len()).then_some(told) }
}
