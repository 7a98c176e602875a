//! Datasets out of nothing: every value in its range, boundary values often, references that hold.

use super::chart::{Association, AssociationKey, Chart, General, Item, Key, Kind, Location, Node, UNREAD};
use super::random::Random;
use crate::build::{field, Field};

/// A valid dataset, mostly of a few small records.
pub fn chart(random: &mut Random) -> Chart {
    let keys = keys(random);
    let items = keys.iter().map(|key| item(random, *key, &keys)).collect();
    Chart { descriptive: descriptive(random), general: general(random), csid: csid(random), items }
}

fn keys(random: &mut Random) -> Vec<Key> {
    let busy = random.percent(4);
    let mut keys = Vec::new();
    for kind in Kind::ALL {
        let count = if busy { random.between(5, 30) } else { random.pick(&[0, 0, 1, 1, 2, 2, 3, 5]) };
        let mut of_kind: Vec<u32> = Vec::new();
        while of_kind.len() < count {
            let rcid = rcid(random);
            if !of_kind.contains(&rcid) {
                of_kind.push(rcid);
            }
        }
        if random.percent(50) {
            of_kind.sort_unstable();
        }
        keys.extend(of_kind.into_iter().map(|rcid| (kind, rcid)));
    }
    keys
}

/// An identification number: mostly small, so that kinds share them and updates meet them again.
pub fn rcid(random: &mut Random) -> u32 {
    match random.below(10) {
        0..=5 => random.between(1, 20) as u32,
        6 => random.pick(&[0xfffffffe, 0x1e1e1e1e, 0x1f1e, 0x7fffffff, 0x80000000, 0xffff, 0x10000, 256]),
        _ => random.between(1, 0xfffffffe) as u32,
    }
}

/// A record that is not yet in the dataset, with references to some of the keys.
pub fn item(random: &mut Random, key: Key, keys: &[Key]) -> Item {
    let kind = key.0;
    let coordinates = match kind {
        Kind::Point => 1,
        Kind::MultiPoint => random.pick(&[0, 0, 1, 2, 3, 4, 7, 30]),
        _ => 0,
    };
    let coded = kind.coded();
    Item {
        key,
        code: if coded { code(random) } else { 0 },
        rver: rver(random),
        foid: if kind == Kind::Feature { foid(random) } else { (0, 0, 0) },
        attributes: if coded { attributes(random) } else { Vec::new() },
        associations: associations(random, keys),
        locations: if kind == Kind::Feature { locations(random, keys) } else { Vec::new() },
        coordinates: (0..coordinates).map(|_| coordinate(random)).collect(),
    }
}

fn rver(random: &mut Random) -> u16 {
    match random.below(12) {
        0..=5 => 1,
        6..=9 => random.between(2, 300) as u16,
        10 => random.between(1, 65534) as u16,
        _ => random.pick(&[65534, 65533, 65531, 0x1e1f, 255, 256]),
    }
}

pub fn code(random: &mut Random) -> u16 {
    match random.below(6) {
        0 => random.pick(&[0, 65534, 0x1e1f, 0x1f1e, 0x1e1e, 255, 256]),
        1 => random.between(0, 65534) as u16,
        _ => random.between(1, 4) as u16,
    }
}

fn foid(random: &mut Random) -> (u16, u32, u16) {
    let mut any = |all: u32| random.number() as u32 & all;
    let free = (any(0xffff) as u16, any(u32::MAX), any(0xffff) as u16);
    random.pick(&[free, (u16::MAX, u32::MAX, u16::MAX), (0, 0, 0), (1, 0x1e1f1e1f, 2)])
}

/// Bytes that a text may hold: any but the two separators.
pub fn text(random: &mut Random) -> Vec<u8> {
    let length = match random.below(20) {
        0..=4 => 0,
        5..=17 => random.between(1, 12),
        18 => random.between(13, 80),
        _ => random.between(81, 1500),
    };
    let plain = random.percent(50);
    let byte = |byte: u8| match (plain, byte) {
        (true, _) => b'a' + byte % 26,
        (false, 0x1e | 0x1f) => 0x20,
        (false, other) => other,
    };
    random.bytes(length).into_iter().map(byte).collect()
}

/// A forest in one of several shapes; half of them with few entries.
pub fn attributes(random: &mut Random) -> Vec<Node> {
    match random.below(16) {
        0..=4 => Vec::new(),
        5..=11 => forest(random, 5, 40),
        12 => chain(random),
        13 => forest(random, 40, 3),
        14 => forest(random, 25, 85),
        _ => forest(random, 12, 60),
    }
}

/// About so many entries; the greater the depth in percent, the more of them lie below others.
fn forest(random: &mut Random, about: usize, depth: usize) -> Vec<Node> {
    let mut rest = random.between(1, about);
    let mut run = Vec::new();
    while rest > 0 {
        rest -= 1;
        let below = if rest > 0 && random.percent(depth) { random.between(1, rest) } else { 0 };
        rest -= below;
        let children = if below > 0 { forest(random, below, depth) } else { Vec::new() };
        let value = if below > 0 { Vec::new() } else { text(random) };
        run.push(Node { code: code(random), value, children });
    }
    run
}

/// One entry below another, many levels deep.
fn chain(random: &mut Random) -> Vec<Node> {
    let mut run = vec![Node { code: code(random), value: text(random), children: Vec::new() }];
    for _ in 0..random.between(4, 40) {
        let mut upper = vec![Node { code: code(random), value: Vec::new(), children: run }];
        if random.percent(20) {
            upper.push(Node { code: code(random), value: text(random), children: Vec::new() });
        }
        run = upper;
    }
    run
}

fn associations(random: &mut Random, keys: &[Key]) -> Vec<Association> {
    let mut list: Vec<Association> = Vec::new();
    for _ in 0..random.pick(&[0, 0, 1, 1, 2, 4]) {
        match association_key(random, keys) {
            Some(key) if list.iter().all(|other| other.key != key) => {
                let attributes = if random.percent(50) { attributes(random) } else { Vec::new() };
                list.push(Association { key, attributes });
            }
            _ => {}
        }
    }
    list
}

/// An association with one of the information types, if there are any.
pub fn association_key(random: &mut Random, keys: &[Key]) -> Option<AssociationKey> {
    let named = of_kinds(keys, &[Kind::Information]);
    if named.is_empty() {
        return None;
    }
    Some((random.pick(&named).1, code(random), code(random)))
}

fn locations(random: &mut Random, keys: &[Key]) -> Vec<Location> {
    let mut list: Vec<Location> = Vec::new();
    for _ in 0..random.pick(&[0, 1, 1, 2, 3, 6]) {
        match location(random, keys) {
            Some(new) if list.iter().all(|other| other.key != new.key) => list.push(new),
            _ => {}
        }
    }
    list
}

/// A spatial association with one of the points and multi points, if there are any.
pub fn location(random: &mut Random, keys: &[Key]) -> Option<Location> {
    let named = of_kinds(keys, &[Kind::Point, Kind::MultiPoint]);
    if named.is_empty() {
        return None;
    }
    let key = random.pick(&named);
    Some(location_of(random, key))
}

/// The same key with free values beside it: they are no part of the key.
pub fn location_of(random: &mut Random, key: Key) -> Location {
    let mut scale = || match random.below(3) {
        0 => random.number() as u32,
        1 => u32::MAX,
        _ => random.pick(&[0, 1, 0x1e1f1e1f, 50_000]),
    };
    let scales = (scale(), scale());
    Location { key, orientation: random.pick(&[1, 2, 255]), scales }
}

fn of_kinds(keys: &[Key], kinds: &[Kind]) -> Vec<Key> {
    keys.iter().copied().filter(|key| kinds.contains(&key.0)).collect()
}

pub fn coordinate(random: &mut Random) -> (i32, i32) {
    let mut one = || match random.below(3) {
        0 => random.pick(&[0, 1, -1, i32::MAX, i32::MIN, 0x1e1f1e1f, 0x1f1e1f1e]),
        1 => random.between(0, 2000) as i32 - 1000,
        _ => random.number() as i32,
    };
    (one(), one())
}

/// A date, or blanks, or any 8 bytes that a date may have.
fn date(random: &mut Random) -> [u8; 8] {
    let mut date = *random.pick(&[b"20260101", b"        ", b"2026    ", b"\0\x01\x02\x1d\x20\xff\xfe\x7f"]);
    if random.percent(20) {
        date[random.below(8)] = random.pick(&[0, 0x1d, 0x20, 0xff]);
    }
    date
}

pub fn general(random: &mut Random) -> General {
    General {
        rcid: rcid(random),
        texts: std::array::from_fn(|_| text(random)),
        name: text(random),
        edition: random.pick(&[1, 2, 3, 0x1e1f, 65534]),
        update: random.pick(&[0, 0, 1, 2, 7, 255, 256, 0x1e1e, 65533]),
        date: date(random),
        unread: unread_general(random),
    }
}

/// What an update says of itself: the name and edition of the dataset, its update number plus one.
pub fn next_general(random: &mut Random, old: &General) -> General {
    let next = old.update + 1;
    General { name: old.name.clone(), edition: old.edition, update: next, ..general(random) }
}

fn unread_general(random: &mut Random) -> Vec<Field> {
    let share = random.pick(&[0, 20, 60, 100]);
    let mut fields = Vec::new();
    for tag in UNREAD {
        if random.percent(share) {
            fields.push(field(tag, unread_body(random)));
        }
    }
    fields
}

fn unread_body(random: &mut Random) -> Vec<u8> {
    let length = random.pick(&[0, 0, 1, 3, 9, 10, 50, 120]);
    let mut body = random.bytes(length);
    for byte in body.iter_mut() {
        if random.percent(10) {
            *byte = random.pick(&[0x1e, 0x1f]);
        }
    }
    body
}

/// Any tag that can stand in a directory: only 1E at its start ends one.
fn any_tag(random: &mut Random) -> [u8; 4] {
    let free = [random.below(256) as u8, random.below(256) as u8, 0x1e, 0x1f];
    let tag = random.pick(&[*b"0000", *b"0001", *b"ABCD", *b"DSID", *b"PRID", *b"ATTR", *b"    ", free]);
    if tag[0] == 0x1e {
        *b"\x1f\x1e\x1e\x1e"
    } else {
        tag
    }
}

pub fn descriptive(random: &mut Random) -> Vec<Field> {
    (0..random.pick(&[1, 1, 2, 3, 8])).map(|_| Field { tag: any_tag(random), body: unread_body(random) }).collect()
}

fn csid(random: &mut Random) -> Vec<Field> {
    let mut fields = vec![field("CSID", unread_body(random))];
    for _ in 0..random.pick(&[0, 0, 1, 3]) {
        fields.push(Field { tag: any_tag(random), body: unread_body(random) });
    }
    fields
}
