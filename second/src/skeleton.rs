//! The record skeleton of ISO/IEC 8211: leader, directory, field bounds (refusals 1, 2 and 3).

use crate::build::Field;

const FIRST: &[u8; 24] = b"#####3LE1 09##### ! ++04";
const OTHER: &[u8; 24] = b"##### D     #####   ++04";

/// A byte of a leader against its pattern: `#` is any digit, `+` a digit but 0, everything else itself.
fn fits(pattern: u8, byte: u8) -> bool {
    match pattern {
        b'#' => byte.is_ascii_digit(),
        b'+' => (b'1'..=b'9').contains(&byte),
        _ => byte == pattern,
    }
}

/// The number that digits say, if all are digits.
fn number(digits: &[u8]) -> Option<usize> {
    digits.iter().try_fold(0usize, |n, d| d.is_ascii_digit().then(|| n * 10 + usize::from(d - b'0')))
}

/// The record at the front of the bytes left of a file: its fields and its length, or the number of the refusal.
pub fn record_at(rest: &[u8], first: bool) -> Result<(Vec<Field>, usize), u32> {
    if rest.len() < 24 {
        return Err(1);
    }
    let pattern = if first { FIRST } else { OTHER };
    if !pattern.iter().zip(rest).all(|(p, b)| fits(*p, *b)) {
        return Err(2);
    }
    let length = number(&rest[0..5]).ok_or(2u32)?;
    let base = number(&rest[12..17]).ok_or(2u32)?;
    if length > rest.len() {
        return Err(1);
    }
    let widths = (usize::from(rest[20] - b'0'), usize::from(rest[21] - b'0'));
    fields_of(&rest[..length], base, widths).map(|fields| (fields, length)).ok_or(3)
}

/// The fields of a record that its leader bounds; none where directory or bounds are wrong.
fn fields_of(record: &[u8], base: usize, (a, b): (usize, usize)) -> Option<Vec<Field>> {
    let mut fields = Vec::new();
    let mut at = 24;
    let mut position = 0;
    while *record.get(at)? != 0x1e {
        let entry = record.get(at..at + 4 + a + b)?;
        let size = number(&entry[4..4 + a])?;
        if number(&entry[4 + a..])? != position || size == 0 {
            return None;
        }
        let start = base.checked_add(position)?;
        let bytes = record.get(start..start + size)?;
        let (end, body) = bytes.split_last()?;
        if *end != 0x1e {
            return None;
        }
        fields.push(Field { tag: entry[..4].try_into().ok()?, body: body.to_vec() });
        position += size;
        at += 4 + a + b;
    }
    (!fields.is_empty() && base == at + 1 && base + position == record.len()).then_some(fields)
}
