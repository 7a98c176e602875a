//! Files that something happened to: in their fields before they are put into bytes, or in the bytes themselves.

use super::random::Random;
use crate::build::Field;

/// One thing done to the records of a file.
pub fn fields(random: &mut Random, records: &mut Vec<Vec<Field>>) {
    let at = random.below(records.len());
    match random.below(24) {
        20..=23 => tuples(random, records),
        0 => drop(records.remove(at)),
        1 => records.insert(at, records[at].clone()),
        2 => {
            let other = random.below(records.len());
            records.swap(at, other);
        }
        3 => {
            let whole = records[at].clone();
            let to = random.below(records.len());
            records.remove(at);
            records.insert(to, whole);
        }
        4..=8 => field_places(random, &mut records[at]),
        9..=10 => {
            if let Some(field) = any_field(random, &mut records[at]) {
                body(random, field);
            }
        }
        _ => {
            if let Some(field) = any_field(random, &mut records[at]) {
                subfield(random, field);
            }
        }
    }
}

fn any_field<'a>(random: &mut Random, fields: &'a mut [Field]) -> Option<&'a mut Field> {
    (!fields.is_empty()).then(|| random.below(fields.len())).map(|at| &mut fields[at])
}

/// Tags of fields that some record takes, or that are left to others.
const TAGS: [&[u8; 4]; 18] = [
    b"DSID", b"DSSI", b"ARCS", b"CSID", b"IRID", b"PRID", b"MRID", b"FRID", b"FOID", b"ATTR", b"INAS", b"SPAS",
    b"C2IT", b"C2IL", b"COCC", b"FASC", b"C3IT", b"attr",
];

/// A field lost, doubled, moved, renamed or added with nothing in it.
fn field_places(random: &mut Random, fields: &mut Vec<Field>) {
    let at = random.below(fields.len());
    match random.below(5) {
        0 if fields.len() > 1 => drop(fields.remove(at)),
        1 => fields.insert(at, fields[at].clone()),
        2 => {
            let other = random.below(fields.len());
            fields.swap(at, other);
        }
        3 => fields[at].tag = *random.pick(&TAGS),
        _ => fields.insert(at + 1, Field { tag: *random.pick(&TAGS), body: Vec::new() }),
    }
}

/// A body cut, grown, emptied, or with a separator in it.
fn body(random: &mut Random, field: &mut Field) {
    let body = &mut field.body;
    match random.below(5) {
        0 => body.clear(),
        1 => body.truncate(body.len().saturating_sub(random.between(1, 4))),
        2 => {
            let length = random.between(1, 4);
            body.extend(random.bytes(length));
        }
        3 => {
            let at = random.below(body.len() + 1);
            body.insert(at, random.pick(&[0x1e, 0x1f]));
        }
        _ => {
            let whole = body.clone();
            body.extend(whole);
        }
    }
}

/// What stands before the tuples of an ATTR or INAS field, and the tuples.
fn split_tuples(field: &Field) -> (Vec<u8>, Vec<Vec<u8>>) {
    let head = match &field.tag {
        b"ATTR" => 0,
        b"INAS" => field.body.len().min(10),
        _ => field.body.len(),
    };
    let (head, mut rest) = field.body.split_at(head);
    let mut list = Vec::new();
    while let Some(length) = rest.iter().skip(7).position(|byte| *byte == 0x1f) {
        let (tuple, behind) = rest.split_at(7 + length + 1);
        list.push(tuple.to_vec());
        rest = behind;
    }
    (head.to_vec(), list)
}

/// One tuple of an attribute field lost, doubled, moved, led elsewhere, counted otherwise, or its value changed.
fn tuples(random: &mut Random, records: &mut [Vec<Field>]) {
    let mut fields: Vec<&mut Field> = records.iter_mut().flatten().filter(|f| !split_tuples(f).1.is_empty()).collect();
    if fields.is_empty() {
        return;
    }
    let at = random.below(fields.len());
    let (head, mut list) = split_tuples(fields[at]);
    let (one, other) = (random.below(list.len()), random.below(list.len()));
    match random.below(6) {
        0 => drop(list.remove(one)),
        1 => list.insert(one, list[other].clone()),
        2 => list.swap(one, other),
        3 => list[one][2] = list[one][2].wrapping_add(random.pick(&[1, 255])),
        4 => list[one][4] = random.pick(&[0, one as u8, other as u8, (one as u8).wrapping_add(1)]),
        _ => {
            let value = if list[one].len() > 8 { Vec::new() } else { b"v".to_vec() };
            list[one].splice(7.., value.into_iter().chain([0x1f]));
        }
    }
    fields[at].body = [head, list.concat()].concat();
}

/// The widths of the subfields that lie at fixed places, and of those that repeat behind them.
fn layout(tag: &[u8; 4]) -> (&'static [usize], &'static [usize]) {
    match tag {
        b"DSID" => (&[1, 4], &[]),
        b"IRID" | b"FRID" => (&[1, 4, 2, 2, 1], &[]),
        b"PRID" | b"MRID" => (&[1, 4, 2, 1], &[]),
        b"FOID" => (&[2, 4, 2], &[]),
        b"COCC" => (&[1, 2, 2], &[]),
        b"C2IT" => (&[4, 4], &[]),
        b"C2IL" => (&[], &[4, 4]),
        b"SPAS" => (&[], &[1, 4, 1, 4, 4, 1]),
        b"INAS" => (&[1, 4, 2, 2, 1], &[2, 2, 2, 1]),
        b"ATTR" => (&[], &[2, 2, 2, 1]),
        _ => (&[], &[]),
    }
}

/// Offset and width of each subfield of a body; behind texts only those that end at a known place are found.
fn subfields(field: &Field) -> Vec<(usize, usize)> {
    let (head, repeated) = layout(&field.tag);
    let mut found = Vec::new();
    let mut at = 0;
    let mut step = |widths: &[usize], at: &mut usize| {
        for width in widths {
            found.push((*at, *width));
            *at += width;
        }
    };
    step(head, &mut at);
    let with_text = matches!(&field.tag, b"ATTR" | b"INAS");
    while !repeated.is_empty() && at < field.body.len() {
        step(repeated, &mut at);
        if with_text {
            let text = field.body.get(at..).unwrap_or(&[]).iter().position(|byte| *byte == 0x1f);
            at = text.map_or(field.body.len(), |length| at + length + 1);
        }
    }
    if &field.tag == b"DSID" && field.body.len() > 12 {
        let end = field.body.len();
        found.extend([(end - 12, 2), (end - 10, 2)]);
    }
    found.retain(|(at, width)| at + width <= field.body.len());
    found
}

/// One of the places; often one of a single byte, where instructions, names and orientations lie.
fn chosen(random: &mut Random, places: &[(usize, usize)]) -> (usize, usize) {
    let single: Vec<(usize, usize)> = places.iter().copied().filter(|(_, width)| *width == 1).collect();
    if !single.is_empty() && random.percent(40) {
        return random.pick(&single);
    }
    random.pick(places)
}

/// One subfield set to a value at or beside a boundary, or moved by one.
fn subfield(random: &mut Random, field: &mut Field) {
    let places = subfields(field);
    if places.is_empty() {
        return body(random, field);
    }
    let (at, width) = chosen(random, &places);
    let bytes = &mut field.body[at..at + width];
    let mut wide = [0; 4];
    wide[..width].copy_from_slice(bytes);
    let old = u32::from_le_bytes(wide);
    let all = if width == 4 { u32::MAX } else { (1 << (8 * width)) - 1 };
    let new = match width {
        1 => random.pick(&[0, 1, 2, 2, 3, 3, 4, 10, 100, 110, 115, 150, 254, 255, 0x1e, 0x1f]),
        _ => random.pick(&[0, 1, 2, 3, all, all - 1, all / 2, old.wrapping_add(1), old.wrapping_sub(1), 0x1e1f]),
    };
    bytes.copy_from_slice(&(new & all).to_le_bytes()[..width]);
}

/// One thing done to the bytes of a file.
pub fn bytes(random: &mut Random, file: &mut Vec<u8>) {
    if file.is_empty() {
        return;
    }
    let at = random.below(file.len());
    match random.below(14) {
        0..=1 => file[at] ^= 1 << random.below(8),
        2..=3 => file.truncate(at),
        4 => file.insert(at, random.pick(&[0, 0x1e, 0x1f, b'0', b' '])),
        5 => drop(file.remove(at)),
        6 => {
            let length = random.pick(&[1, 22, 23, 24, 25]);
            let more = random.bytes(length);
            file.extend(more);
        }
        7 => {
            let lead = random.between(1, file.len().min(60));
            file.extend_from_within(..lead);
        }
        8..=9 => leader(random, file),
        _ => directory(random, file),
    }
}

/// Where the records start, as far as their stated lengths lead.
fn starts(file: &[u8]) -> Vec<usize> {
    let mut starts = Vec::new();
    let mut at = 0;
    while let Some(digits) = file.get(at..at + 5) {
        starts.push(at);
        match std::str::from_utf8(digits).ok().and_then(|text| text.parse::<usize>().ok()) {
            Some(length) if length > 0 => at += length,
            _ => break,
        }
    }
    starts
}

/// A decimal number in the file made greater or less, or one of its digits something else.
fn digits(random: &mut Random, place: &mut [u8]) {
    let at = random.below(place.len());
    let old = std::str::from_utf8(place).ok().and_then(|text| text.parse::<u64>().ok()).unwrap_or(0);
    let near = match random.below(6) {
        0 => old + 1,
        1 => old.saturating_sub(1),
        2 => 0,
        3 => old + random.between(2, 30) as u64,
        4 => 10u64.pow(place.len() as u32) - 1,
        _ => {
            place[at] = random.pick(&[b' ', b'-', b'+', b'/', b':', b'9', b'0', 0]);
            return;
        }
    };
    let text = format!("{near:0width$}", width = place.len());
    place.copy_from_slice(&text.as_bytes()[text.len() - place.len()..]);
}

fn leader(random: &mut Random, file: &mut [u8]) {
    let start = random.pick(&starts(file).into_iter().chain([0]).collect::<Vec<usize>>());
    let part = random.pick(&[0..5, 0..5, 12..17, 12..17, 20..21, 21..22, 5..12, 17..20, 22..24]);
    let Some(place) = file.get_mut(start + part.start..start + part.end) else {
        return;
    };
    if part.start >= 20 || part.len() == 5 {
        return digits(random, place);
    }
    let at = random.below(place.len());
    place[at] = random.pick(&[b' ', b'D', b'0', b'3', b'!', 0x1e, place[at] ^ 0x20]);
}

/// Something in the directory of one record: a length, a position or a tag of an entry.
fn directory(random: &mut Random, file: &mut [u8]) {
    let start = random.pick(&starts(file).into_iter().chain([0]).collect::<Vec<usize>>());
    let widths = file.get(start + 20..start + 22).map(|w| (w[0].wrapping_sub(b'0'), w[1].wrapping_sub(b'0')));
    let Some((a @ 1..=9, b @ 1..=9)) = widths else {
        return;
    };
    let (a, b) = (a as usize, b as usize);
    let mut entries = Vec::new();
    let mut at = start + 24;
    while at + 4 + a + b <= file.len() && file[at] != 0x1e {
        entries.push(at);
        at += 4 + a + b;
    }
    if entries.is_empty() {
        return;
    }
    let entry = random.pick(&entries);
    match random.below(5) {
        0 => file[entry + random.below(4)] = random.pick(&[b'A', b' ', 0x1e, 0x1f, b'D']),
        1..=2 => digits(random, &mut file[entry + 4..entry + 4 + a]),
        _ => digits(random, &mut file[entry + 4 + a..entry + 4 + a + b]),
    }
}
