//! The subfields of a body, one after the other. Each gives nothing where the body does not hold it in its range.

use std::ops::RangeInclusive;

pub struct Subfields<'a>(pub &'a [u8]);

impl<'a> Subfields<'a> {
    pub fn is_empty(&self) -> bool {
        self.0.is_empty()
    }

    /// The next n bytes, whatever they are.
    pub fn bytes(&mut self, n: usize) -> Option<&'a [u8]> {
        if self.0.len() < n {
            return None;
        }
        let (front, rest) = self.0.split_at(n);
        self.0 = rest;
        Some(front)
    }

    fn whole<const N: usize>(&mut self) -> Option<[u8; N]> {
        self.bytes(N)?.try_into().ok()
    }

    pub fn b11(&mut self, allowed: &[u8]) -> Option<u8> {
        let [byte] = self.whole()?;
        allowed.contains(&byte).then_some(byte)
    }

    pub fn b12(&mut self, range: RangeInclusive<u16>) -> Option<u16> {
        let number = u16::from_le_bytes(self.whole()?);
        range.contains(&number).then_some(number)
    }

    pub fn b14(&mut self, range: RangeInclusive<u32>) -> Option<u32> {
        let number = u32::from_le_bytes(self.whole()?);
        range.contains(&number).then_some(number)
    }

    pub fn b24(&mut self) -> Option<i32> {
        Some(i32::from_le_bytes(self.whole()?))
    }

    /// A text up to its 1F; a 1E before that is no text.
    pub fn text(&mut self) -> Option<&'a [u8]> {
        let end = self.0.iter().position(|b| matches!(b, 0x1e | 0x1f))?;
        if self.0[end] == 0x1e {
            return None;
        }
        let text = &self.0[..end];
        self.0 = &self.0[end + 1..];
        Some(text)
    }

    /// A text of n bytes that nothing ends.
    pub fn fixed(&mut self, n: usize) -> Option<&'a [u8]> {
        let text = self.bytes(n)?;
        (!text.iter().any(|b| matches!(b, 0x1e | 0x1f))).then_some(text)
    }
}

/// A whole body read by one function: nothing may be left over.
pub fn all_of<T>(body: &[u8], read: impl FnOnce(&mut Subfields) -> Option<T>) -> Option<T> {
    let mut subfields = Subfields(body);
    let value = read(&mut subfields)?;
    subfields.is_empty().then_some(value)
}

/// Tuples up to the end of the body.
pub fn repeated<T>(rest: &mut Subfields, read: impl Fn(&mut Subfields) -> Option<T>) -> Option<Vec<T>> {
    let mut tuples = Vec::new();
    while !rest.is_empty() {
        tuples.push(read(rest)?);
    }
    Some(tuples)
}
