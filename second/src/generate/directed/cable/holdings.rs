//! Holdings: their lengths, their kinds, and what is answered where the holding is wrong.

use super::*;

pub fn rows(table: &mut Table) {
    short(table);
    lengths(table);
    kinds(table);
    before_the_shelf(table);
}

/// A shelf with a file that does not follow, and the one that does.
fn good_shelf() -> Vec<u8> {
    shelf(&[numbered(9), next()])
}

/// Fewer than ten bytes are no holding; ten are one of an empty name.
fn short(table: &mut Table) {
    for length in 0..10 {
        let mut bytes = held();
        bytes.truncate(length);
        let (head, rest) = (bytes.len().min(4), bytes.len());
        bytes[..head].copy_from_slice(&(rest as u32).to_le_bytes()[..head]);
        wrong(table, &format!("a holding of {length} bytes"), bytes, good_shelf());
    }
    let empty_name = || holding(3, 7, b"");
    silent(table, "a holding of 10 bytes, no file of an empty name", empty_name(), good_shelf());
    let file = carried(&named("", 3, 8));
    found(table, "a holding of 10 bytes, a file of an empty name", empty_name(), [&good_shelf(), &file, &[]]);
    wrong(table, "a holding of 9 bytes that states 10", empty_name()[..9].to_vec(), good_shelf());
    wrong(table, "a holding of 10 bytes that states 9", stating(empty_name(), 9), good_shelf());
}

/// The stated length is that of all the bytes handed over.
fn lengths(table: &mut Table) {
    let whole = held().len();
    let mut off: Vec<usize> = vec![0, 1, 5, 6, 9, 10, whole - 1, whole + 1, 2 * whole, 0xffff_ffff];
    off.extend(high_bytes(whole));
    for length in off {
        wrong(table, &format!("a holding that states {length} bytes"), stating(held(), length), good_shelf());
    }
    let behind = |bytes: &[u8]| [&held(), bytes].concat();
    wrong(table, "a byte behind the holding", behind(&[0]), good_shelf());
    wrong(table, "a blank behind the holding", behind(b" "), good_shelf());
    wrong(table, "a second holding behind the holding", behind(&held()), good_shelf());
    wrong(table, "a holding without its last byte", held()[..whole - 1].to_vec(), good_shelf());
    found(table, "a holding of the length that it states", held(), [&carried(&numbered(9)), &carried(&next()), &[]]);
}

fn kinds(table: &mut Table) {
    for kind in [0, 2, 3, 0x0100, 0x0101, 0x0201, 0x8001, 0xffff] {
        let other = head_with(held(), 4, &u16::to_le_bytes(kind));
        wrong(table, &format!("a holding of kind {kind:04x}"), other, good_shelf());
    }
    wrong(table, "a file in the place of the holding", carried(&next()), good_shelf());
}

/// The holding is refused whatever the shelf holds, and a shelf whatever a good holding says.
fn before_the_shelf(table: &mut Table) {
    let bad = || stating(held(), 5);
    wrong(table, "a wrong holding, an empty shelf", bad(), Vec::new());
    wrong(table, "a wrong holding, a wrong shelf", bad(), vec![0; 6]);
    wrong(table, "a wrong holding, a shelf of no file that follows", bad(), shelf(&[numbered(9)]));
    wrong(table, "no holding, no shelf", Vec::new(), Vec::new());
    wrong(table, "a holding that nothing can follow, a wrong shelf", holding(3, 65_535, b"CHART"), vec![0; 6]);
}
