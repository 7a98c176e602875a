//! The samples read by a reader that knows ISO 8211 and nothing of charts: it takes every label and format from the
//! descriptive record of the file. If it can read a field to its last byte, any such reader can.

use std::collections::HashMap;

use second::samples::samples;
use second::skeleton::record_at;

/// Labels and formats of one field; those from `repeated` on stand again and again.
struct Description {
    labels: Vec<String>,
    formats: Vec<String>,
    repeated: Option<usize>,
}

/// `3b12,b11,A` as one format for each subfield.
fn formats(text: &str) -> Vec<String> {
    let mut all = Vec::new();
    for word in text.split(',') {
        let digits = word.len() - word.trim_start_matches(|c: char| c.is_ascii_digit()).len();
        let times = word[..digits].parse().unwrap_or(1);
        all.extend(std::iter::repeat_n(word[digits..].to_string(), times));
    }
    all
}

fn description(body: &[u8]) -> Description {
    let text = std::str::from_utf8(body).expect("a description is text");
    let parts: Vec<&str> = text.split('\x1f').collect();
    assert_eq!(parts.len(), 3, "name, labels and formats: {text}");
    assert!(parts[0][4..].starts_with(";&"), "printable graphics: {text}");
    let joined = parts[1].replace("\\\\", "!");
    let names: Vec<&str> = joined.split('!').collect();
    let controls = parts[2].replace(['{', '}'], "");
    let inside = controls.strip_prefix('(').and_then(|c| c.strip_suffix(')')).expect("formats in brackets");
    Description {
        repeated: names.iter().position(|n| n.starts_with('*')),
        labels: names.iter().map(|n| n.trim_start_matches('*').to_string()).collect(),
        formats: formats(inside),
    }
}

/// The bytes of one subfield, and what is left of the field.
fn subfield<'a>(format: &str, rest: &'a [u8]) -> Option<(&'a [u8], &'a [u8])> {
    if format == "A" {
        let end = rest.iter().position(|b| *b == 0x1f)?;
        return Some((&rest[..end], &rest[end + 1..]));
    }
    let width: usize = match format.strip_prefix("A(").and_then(|f| f.strip_suffix(')')) {
        Some(fixed) => fixed.parse().ok()?,
        None => format.strip_prefix('b')?[1..].parse().ok()?,
    };
    (width <= rest.len()).then(|| rest.split_at(width))
}

/// All subfields of a body, with their labels.
fn subfields(d: &Description, body: &[u8]) -> Vec<(String, Vec<u8>)> {
    assert_eq!(d.labels.len(), d.formats.len(), "a format for each label: {:?}", d.labels);
    let mut found = Vec::new();
    let (mut n, mut rest) = (0, body);
    // a list may have no tuple
    while !(rest.is_empty() && (n == d.labels.len() || Some(n) == d.repeated)) {
        if n == d.labels.len() {
            n = d.repeated.expect("bytes are left over and nothing repeats");
        }
        let (value, left) = subfield(&d.formats[n], rest).unwrap_or_else(|| panic!("{} does not fit", d.labels[n]));
        found.push((d.labels[n].clone(), value.to_vec()));
        (n, rest) = (n + 1, left);
    }
    found
}

/// Every subfield of every data record of a file: tag, label, bytes.
fn read(bytes: &[u8]) -> Vec<(String, String, Vec<u8>)> {
    let (descriptive, mut at) = record_at(bytes, true).expect("the descriptive record reads");
    assert_eq!(&descriptive[0].tag, b"0000", "the file control field stands first");
    assert!(descriptive[0].body.starts_with(b"0000;&   "));
    let described: HashMap<[u8; 4], Description> =
        descriptive[1..].iter().map(|f| (f.tag, description(&f.body))).collect();
    let mut found = Vec::new();
    while at < bytes.len() {
        let (fields, length) = record_at(&bytes[at..], false).expect("a data record reads");
        at += length;
        for field in fields {
            let tag = String::from_utf8_lossy(&field.tag).to_string();
            let d = described.get(&field.tag).unwrap_or_else(|| panic!("{tag} is not described"));
            found.extend(subfields(d, &field.body).into_iter().map(|(label, value)| (tag.clone(), label, value)));
        }
    }
    found
}

#[test]
fn every_sample_is_read_by_its_own_descriptions() {
    let files: Vec<_> = samples().into_iter().filter(|(name, _)| !name.starts_with("samples.")).collect();
    assert_eq!(files.len(), 8);
    for (name, bytes) in files {
        assert!(read(&bytes).len() > 10, "{name}");
    }
}

#[test]
fn the_attributes_come_out_under_their_labels() {
    let (_, chart) = samples().remove(0);
    let values: Vec<Vec<u8>> =
        read(&chart).into_iter().filter(|(tag, label, _)| tag == "ATTR" && label == "ATVL").map(|(_, _, v)| v).collect();
    let expected = ["Harbour office", "Vachon", "", "42.0", "", "17", "43", "12", "", "123", "Canada"];
    assert_eq!(values, expected.map(|v| v.as_bytes().to_vec()));
}
