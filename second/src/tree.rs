//! The attribute tree: its rule over tuples, its tuples written again, and its edits by an update.

use std::collections::HashMap;

use crate::model::Entry;
use crate::sent::{DELETE, INSERT};

/// A tuple of ATTR or of the end of INAS.
#[derive(Clone, Debug, PartialEq, Eq)]
pub struct Tuple {
    pub code: u16,
    pub index: u16,
    pub parent: u16,
    pub instruction: u8,
    pub value: Vec<u8>,
}

/// For each tuple the place of its parent, 0 for none, if each parent is none, the previous tuple or one of its ancestors.
fn parents(tuples: &[Tuple]) -> Option<Vec<usize>> {
    let mut ancestors: Vec<usize> = Vec::new();
    let mut found = Vec::new();
    for (n, tuple) in tuples.iter().enumerate() {
        let parent = usize::from(tuple.parent);
        while parent != ancestors.last().copied().unwrap_or(0) {
            ancestors.pop()?;
        }
        found.push(parent);
        ancestors.push(n + 1);
    }
    Some(found)
}

/// PAIX as the rule asks; ATIX one more than the earlier entries of the same code and parent; no value beside a child.
pub fn whole_rule(tuples: &[Tuple]) -> bool {
    let Some(parents) = parents(tuples) else {
        return false;
    };
    let mut earlier: HashMap<(u16, u16), u32> = HashMap::new();
    tuples.iter().zip(parents).all(|(tuple, parent)| {
        let number = earlier.entry((tuple.parent, tuple.code)).or_insert(0);
        *number += 1;
        u32::from(tuple.index) == *number && (parent == 0 || tuples[parent - 1].value.is_empty())
    })
}

/// What the first pass asks of a modify's attributes: PAIX, and that no parent is a delete.
pub fn parents_rule(tuples: &[Tuple]) -> bool {
    parents(tuples).is_some_and(|list| list.iter().all(|p| *p == 0 || tuples[p - 1].instruction != DELETE))
}

/// The forest of tuples that obey the whole rule.
pub fn forest(tuples: &[Tuple]) -> Vec<Entry> {
    let mut at = 0;
    run(tuples, &mut at, 0)
}

fn run(tuples: &[Tuple], at: &mut usize, parent: usize) -> Vec<Entry> {
    let mut entries = Vec::new();
    while *at < tuples.len() && usize::from(tuples[*at].parent) == parent {
        let tuple = &tuples[*at];
        *at += 1;
        let place = *at;
        entries.push(Entry { code: tuple.code, value: tuple.value.clone(), children: run(tuples, at, place) });
    }
    entries
}

/// The number of entries in a forest.
pub fn count(forest: &[Entry]) -> usize {
    forest.iter().map(|e| 1 + count(&e.children)).sum()
}

/// The bytes of a forest's tuples, every instruction insert.
pub fn bytes(forest: &[Entry]) -> Vec<u8> {
    let mut body = Vec::new();
    let mut place = 0;
    put(forest, 0, &mut place, &mut body);
    body
}

fn put(run: &[Entry], parent: usize, place: &mut usize, body: &mut Vec<u8>) {
    let mut earlier: HashMap<u16, usize> = HashMap::new();
    for entry in run {
        let index = earlier.entry(entry.code).or_insert(0);
        *index += 1;
        *place += 1;
        body.extend_from_slice(&entry.code.to_le_bytes());
        body.extend_from_slice(&u16::try_from(*index).expect("two records hold fewer entries").to_le_bytes());
        body.extend_from_slice(&u16::try_from(parent).expect("two records hold fewer entries").to_le_bytes());
        body.push(INSERT);
        body.extend_from_slice(&entry.value);
        body.push(0x1f);
        put(&entry.children, *place, place, body);
    }
}

/// The entry that a tuple of the update led to: the tuple's place, and its number among its parent's children.
struct Led {
    place: usize,
    child: usize,
}

/// The tuples of a modify, one after the other, on the tree as the earlier ones left it; or 6 or 9.
pub fn edit(forest: &mut Vec<Entry>, tuples: &[Tuple]) -> Result<(), u32> {
    let mut path: Vec<Led> = Vec::new();
    for (n, tuple) in tuples.iter().enumerate() {
        while usize::from(tuple.parent) != path.last().map_or(0, |led| led.place) {
            path.pop().ok_or(6u32)?;
        }
        let mut siblings = &mut *forest;
        let mut parent_has_value = false;
        for led in &path {
            let entry = &mut siblings[led.child];
            parent_has_value = !entry.value.is_empty();
            siblings = &mut entry.children;
        }
        if let Some(child) = one(siblings, parent_has_value, tuple)? {
            path.push(Led { place: n + 1, child });
        }
    }
    Ok(())
}

/// One tuple among the children of its parent; what it led to, if it still stands.
fn one(siblings: &mut Vec<Entry>, parent_has_value: bool, tuple: &Tuple) -> Result<Option<usize>, u32> {
    let same: Vec<usize> = (0..siblings.len()).filter(|i| siblings[*i].code == tuple.code).collect();
    let k = usize::from(tuple.index);
    if tuple.instruction == INSERT {
        if parent_has_value {
            return Err(6);
        }
        if k > same.len() + 1 {
            return Err(9);
        }
        let before = same.get(k - 1).copied();
        let behind = same.last().map(|last| last + 1);
        let at = before.or(behind).unwrap_or(siblings.len());
        siblings.insert(at, Entry { code: tuple.code, value: tuple.value.clone(), children: Vec::new() });
        return Ok(Some(at));
    }
    let at = *same.get(k - 1).ok_or(9u32)?;
    if tuple.instruction == DELETE {
        siblings.remove(at);
        return Ok(None);
    }
    let entry = &mut siblings[at];
    if entry.children.is_empty() {
        entry.value = tuple.value.clone();
    } else if !tuple.value.is_empty() {
        return Err(6);
    }
    Ok(Some(at))
}
