//! Which file follows which holding: name, edition and update number.

use super::*;

pub fn rows(table: &mut Table) {
    names(table);
    equal_names(table);
    editions(table);
    updates(table);
    last_updates(table);
}

/// A holding and a file that differ in their names alone.
fn names(table: &mut Table) {
    let others = ["", "C", "CHAR", "CHARTS", "BHART", "CHARU", "CHERT", "chart", " CHART", "CHART ", "CHART\0"];
    for other in others {
        silent(table, &format!("a holding of {other:?}"), holding(3, 7, other.as_bytes()), shelf(&[next()]));
        silent(table, &format!("a file of {other:?}"), held(), shelf(&[named(other, 3, 8)]));
    }
    // No file's name has a separator in it.
    for other in [&b"CHART\x1f"[..], b"CHART\x1e", b"\x1fCHART", b"CHA\x1eT", b"CHART\x1f\x03\0"] {
        let name = format!("a holding of {}", other.escape_ascii());
        silent(table, &name, holding(3, 7, other), shelf(&[next()]));
    }
}

fn equal_names(table: &mut Table) {
    let long = "n".repeat(300);
    for (told, name) in
        [("no name", ""), ("a name of one byte", "N"), ("a name beyond ASCII", "Å/→\0\u{7f}"), ("a long name", &long)]
    {
        let file = carried(&named(name, 3, 8));
        found(table, &format!("{told}, and its file"), holding(3, 7, name.as_bytes()), [&shelf(&[next()]), &file, &[]]);
    }
    let bytes = [0xff, 0x80, 0xc0, 0x00];
    let mut id = dsid(2, "", 3, 8);
    id.body.splice(10..10, bytes);
    let file = carried(&file(&[heading()[0].clone(), vec![id]]));
    found(table, "a name that is no UTF-8, and its file", holding(3, 7, &bytes), [&[], &file, &[]]);
    silent(table, "a name of 299 bytes of 300", holding(3, 7, &long.as_bytes()[1..]), shelf(&[named(&long, 3, 8)]));
}

fn editions(table: &mut Table) {
    for edition in [0, 1, 2, 4, 0x0103, 0x0300, 65_534, 65_535] {
        let other = holding(edition, 7, b"CHART");
        silent(table, &format!("a holding of edition {edition}"), other, shelf(&[next()]));
    }
    for edition in [1, 255, 256, 0x1e1f, 65_534] {
        let file = carried(&named("CHART", edition, 8));
        let equal = holding(edition, 7, b"CHART");
        found(table, &format!("edition {edition}, and its file"), equal, [&shelf(&[next()]), &file, &[]]);
    }
    // A file of such an edition cannot be read.
    for edition in [0, 65_535] {
        let equal = holding(edition, 7, b"CHART");
        silent(table, &format!("edition {edition}, and its file"), equal, shelf(&[named("CHART", edition, 8)]));
    }
}

fn updates(table: &mut Table) {
    for update in [0, 5, 6, 8, 9, 0x0107, 0x0700, 65_535] {
        let other = holding(3, update, b"CHART");
        silent(table, &format!("a holding of update {update}"), other, shelf(&[next()]));
    }
    for update in [0, 1, 254, 255, 256, 0x1e1e, 65_532, 65_533] {
        let file = carried(&numbered(update + 1));
        let told = holding(3, update, b"CHART");
        found(table, &format!("update {update}, and the file after it"), told, [&shelf(&[next()]), &file, &[]]);
    }
}

/// A file of update number 65,535 or 0 cannot be read, so nothing follows 65,534, and 65,535 least of all.
fn last_updates(table: &mut Table) {
    for (told, sent) in [(65_534, 65_535), (65_534, 0), (65_534, 65_534), (65_535, 0), (65_535, 65_535), (65_535, 1)] {
        let name = format!("a holding of update {told}, a file of update {sent}");
        silent(table, &name, holding(3, told, b"CHART"), shelf(&[numbered(sent)]));
    }
    let all: Vec<Vec<u8>> = [0, 1, 65_533, 65_534, 65_535].map(numbered).into();
    silent(table, "a holding of update 65,535, files of many numbers", holding(3, 65_535, b"CHART"), shelf(&all));
}
