//! Framed cases: one call of an entry point each, as every comparison hands them over.

/// The operations that a case can ask for.
pub const READ: u8 = 1;
pub const WRITE: u8 = 2;
pub const UPDATE: u8 = 3;
pub const LISTING: u8 = 4;
pub const MONTH: u8 = 9;
pub const REPLY: u8 = 11;
pub const TAKE: u8 = 12;
pub const TELL: u8 = 13;
pub const OPERATIONS: [u8; 8] = [READ, WRITE, UPDATE, LISTING, MONTH, REPLY, TAKE, TELL];

/// What output slice and workspace are filled with before a call, so that zeroing shows.
pub const FILLED: u8 = 0xA5;

/// One call: what is asked, the bytes handed over in two parts, and how long the lent slices are.
#[derive(Clone, Debug, PartialEq, Eq)]
pub struct Case {
    pub operation: u8,
    pub first: Vec<u8>,
    pub second: Vec<u8>,
    pub out: u32,
    pub work: u32,
}

impl Case {
    pub fn read(dataset: Vec<u8>) -> Case {
        Case { operation: READ, first: dataset, second: Vec::new(), out: 0, work: 0 }
    }

    pub fn write(dataset: Vec<u8>, out: u32) -> Case {
        Case { operation: WRITE, first: dataset, second: Vec::new(), out, work: 0 }
    }

    pub fn update(dataset: Vec<u8>, update: Vec<u8>, out: u32, work: u32) -> Case {
        Case { operation: UPDATE, first: dataset, second: update, out, work }
    }

    pub fn listing(input: Vec<u8>) -> Case {
        Case { operation: LISTING, first: input, second: Vec::new(), out: 0, work: 0 }
    }

    pub fn month(call: &MonthCall) -> Case {
        let second = [&(call.length as u32).to_le_bytes(), &call.list[..]].concat();
        Case { operation: MONTH, first: call.first.clone(), second, out: call.second as u32, work: call.work }
    }

    pub fn reply(holding: Vec<u8>, shelf: Vec<u8>) -> Case {
        Case { operation: REPLY, first: holding, second: shelf, out: 0, work: 0 }
    }

    pub fn take(chart: Vec<u8>, parcel: Vec<u8>, out: u32, work: u32) -> Case {
        Case { operation: TAKE, first: chart, second: parcel, out, work }
    }

    pub fn tell(chart: Vec<u8>, out: u32) -> Case {
        Case { operation: TELL, first: chart, second: Vec::new(), out, work: 0 }
    }

    /// Of a month: the dataset's length in the first pool, and the list. None where the second part is too short.
    pub fn length_and_list(&self) -> Option<(u32, &[u8])> {
        let (length, list) = self.second.split_first_chunk()?;
        Some((u32::from_le_bytes(*length), list))
    }
}

/// What a month is handed: the first pool with its bytes, the dataset's length in it, the list, and how long the second
/// pool and the workspace are.
#[derive(Clone, Debug)]
pub struct MonthCall {
    pub first: Vec<u8>,
    pub length: usize,
    pub list: Vec<u8>,
    pub second: usize,
    pub work: u32,
}

/// The cases as the bytes of a file.
pub fn framed(cases: &[Case]) -> Vec<u8> {
    let mut bytes = Vec::new();
    for case in cases {
        bytes.push(case.operation);
        for number in [case.first.len() as u32, case.second.len() as u32, case.out, case.work] {
            bytes.extend_from_slice(&number.to_le_bytes());
        }
        bytes.extend_from_slice(&case.first);
        bytes.extend_from_slice(&case.second);
    }
    bytes
}

/// The cases of a file; or the number, from 1, of the case inside which it ends or whose operation there is not.
pub fn unframed(bytes: &[u8]) -> Result<Vec<Case>, usize> {
    let mut cases = Vec::new();
    let mut rest = bytes;
    while !rest.is_empty() {
        let number = cases.len() + 1;
        let (case, left) = one(rest).ok_or(number)?;
        cases.push(case);
        rest = left;
    }
    Ok(cases)
}

fn one(bytes: &[u8]) -> Option<(Case, &[u8])> {
    if bytes.len() < 17 {
        return None;
    }
    let number = |at: usize| u32::from_le_bytes([bytes[at], bytes[at + 1], bytes[at + 2], bytes[at + 3]]);
    let operation = bytes[0];
    if !OPERATIONS.contains(&operation) {
        return None;
    }
    let (first, second) = (number(1) as usize, number(5) as usize);
    let end = 17usize.checked_add(first)?.checked_add(second)?;
    if bytes.len() < end {
        return None;
    }
    let case = Case {
        operation,
        first: bytes[17..17 + first].to_vec(),
        second: bytes[17 + first..end].to_vec(),
        out: number(9),
        work: number(13),
    };
    if operation == MONTH {
        case.length_and_list()?;
    }
    Some((case, &bytes[end..]))
}

/// FNV-1a, 64 bits.
pub fn fnv(bytes: &[u8]) -> u64 {
    bytes.iter().fold(0xcbf29ce484222325, |hash, byte| (hash ^ u64::from(*byte)).wrapping_mul(0x100000001b3))
}
