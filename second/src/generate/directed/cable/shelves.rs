//! Shelves: how many parcels, in which order, with what in them, and where one is wrong.

use super::faults::{faults, one_of_each};
use super::*;

pub fn rows(table: &mut Table) {
    places(table);
    several_that_follow(table);
    leftovers(table);
    lengths(table);
    kinds(table);
    unreadable(table);
    other_bodies(table);
    unread_records(table);
}

/// The file that follows at each place of one to five parcels, and none.
fn places(table: &mut Table) {
    silent(table, "an empty shelf", held(), Vec::new());
    let others = [numbered(9), numbered(7), numbered(10), named("OTHER", 3, 8), named("CHART", 4, 8)];
    for count in 1..=5 {
        silent(table, &format!("{count} parcels, none follows"), held(), shelf(&others[..count]));
        for at in 0..count {
            let (before, behind) = (shelf(&others[..at]), shelf(&others[at + 1..count]));
            let name = format!("parcel {} of {count} follows", at + 1);
            found(table, &name, held(), [&before, &carried(&next()), &behind]);
        }
    }
}

/// The first one wins, whether it is a copy or another file.
fn several_that_follow(table: &mut Table) {
    let (file, bare) = (carried(&next()), carried(&numbered(8)));
    found(table, "the same file twice", held(), [&[], &file, &file]);
    found(table, "the same file three times behind another", held(), [&carried(&numbered(6)), &file, &file.repeat(2)]);
    found(table, "two files that follow", held(), [&[], &file, &bare]);
    found(table, "two files that follow, the other first", held(), [&[], &bare, &file]);
    let run = shelf(&[numbered(9), numbered(10), numbered(7), numbered(7)]);
    found(table, "files behind and ahead, in any order", held(), [&run, &file, &run]);
}

/// One to five bytes are no parcel: 27 where the search comes to them.
fn leftovers(table: &mut Table) {
    let (file, other) = (carried(&next()), carried(&numbered(9)));
    for count in 1..=5 {
        let left = &[6, 0, 0, 0, 2][..count];
        wrong(table, &format!("{count} bytes alone"), held(), left.to_vec());
        wrong(table, &format!("{count} bytes behind a file that does not follow"), held(), [&other, left].concat());
        found(table, &format!("{count} bytes behind the file that follows"), held(), [&other, &file, left]);
        let zeroes = [&other[..], &[0; 5][..count]].concat();
        wrong(table, &format!("{count} zeroes behind a file that does not follow"), held(), zeroes);
    }
    silent(table, "six bytes that are a parcel", held(), carried(&[]));
    wrong(table, "six zeroes", held(), vec![0; 6]);
}

/// Lengths below six and past the end, before the file that follows and behind it.
fn lengths(table: &mut Table) {
    let (file, other) = (carried(&next()), carried(&numbered(9)));
    let mut off: Vec<usize> = (0..6).collect();
    let past = file.len() + other.len() + 1;
    off.extend([past, 0x7fff_ffff, 0xffff_ffff]);
    off.extend(high_bytes(other.len()).into_iter().filter(|length| *length > past));
    for length in off {
        let broken = stating(other.clone(), length);
        wrong(
            table,
            &format!("a length of {length} before the file that follows"),
            held(),
            [&broken[..], &file].concat(),
        );
        found(table, &format!("a length of {length} behind the file that follows"), held(), [&other, &file, &broken]);
    }
    let long = stating(file.clone(), file.len() + 1);
    wrong(table, "the file that follows, a byte past the end", held(), [&other[..], &long].concat());
    wrong(table, "the file that follows, its last byte lost", held(), file[..file.len() - 1].to_vec());
    // Of a file of three records the third may be cut; of one of two the second may not.
    let short = stating(file.clone(), file.len() - 1);
    let (parcel, left) = short.split_at(short.len() - 1);
    found(table, "three records, a length one too small", held(), [&other, parcel, left]);
    let bare = carried(&numbered(8));
    wrong(table, "two records, a length one too small", held(), stating(bare.clone(), bare.len() - 1));
    let long = stating(bare.clone(), bare.len() + 1);
    found(table, "two records, a length one too great", held(), [&other, &[&long[..], &[6]].concat(), &other[1..]]);
    let swallowing = stating(other.clone(), other.len() + file.len());
    silent(table, "a parcel that takes the next one in", held(), [&swallowing[..], &file].concat());
}

/// A kind is tested at the parcel's turn, before its body.
fn kinds(table: &mut Table) {
    let (file, other) = (carried(&next()), carried(&numbered(9)));
    for kind in [0, 1, 3, 0x0100, 0x0102, 0x0200, 0x0201, 0xffff] {
        let of_kind = |parcel: &[u8]| head_with(parcel.to_vec(), 4, &u16::to_le_bytes(kind));
        let name = format!("kind {kind:04x}");
        wrong(table, &format!("{name} of the file that follows"), held(), [&other[..], &of_kind(&file)].concat());
        wrong(table, &format!("{name} before the file that follows"), held(), [&of_kind(&other)[..], &file].concat());
        found(table, &format!("{name} behind the file that follows"), held(), [&other, &file, &of_kind(&other)]);
    }
    wrong(table, "a holding on the shelf", held(), [&other[..], &held(), &file].concat());
    let empty = parcel(1, &[]);
    wrong(table, "six bytes of kind 1 before the file that follows", held(), [&empty[..], &file].concat());
}

/// A file whose first two records cannot be read follows nothing, and the search goes on.
fn unreadable(table: &mut Table) {
    for fault in faults(&next_records()) {
        let name = format!("{}, and the file that follows", fault.name);
        found(table, &name, held(), [&carried(&fault.bytes), &carried(&next()), &[]]);
    }
    for fault in one_of_each(&next_records()) {
        silent(table, &format!("{}, and nothing else", fault.name), held(), carried(&fault.bytes));
    }
    let zero = carried(&numbered(0));
    found(table, "update number 0, and the file that follows", held(), [&zero, &carried(&next()), &[]]);
}

fn other_bodies(table: &mut Table) {
    let file = carried(&next());
    found(table, "an empty body before the file that follows", held(), [&carried(&[]), &file, &[]]);
    found(table, "many empty bodies before the file that follows", held(), [&carried(&[]).repeat(40), &file, &[]]);
    silent(table, "a dataset of the holding's own number", held(), carried(&crate::build::file(&dataset())));
    // What it has behind its general record is not looked at.
    let later = carried(&crate::build::file(&after()));
    found(table, "a dataset of the next number", held(), [&carried(&numbered(9)), &later, &file]);
    silent(table, "a holding in the body of a parcel", held(), carried(&held()));
    silent(table, "a parcel in the body of a parcel", held(), carried(&file));
    let unread = ["DSSI", "ATCS", "ITCS", "FTCS", "IACS", "FACS", "ARCS"].map(|tag| field(tag, b"\x1e\x1f".to_vec()));
    let general = [vec![dsid(0xffff_fffe, "CHART", 3, 8)], unread.to_vec()].concat();
    let free = [record(true, 9, 1, &heading()[0]), record(false, 7, 9, &general)].concat();
    found(table, "all unread fields, in other widths", held(), [&[], &carried(&free), &file]);
}

/// From the third record on nothing is looked at.
fn unread_records(table: &mut Table) {
    let other = carried(&numbered(9));
    let behind: [(&str, Vec<u8>); 9] = [
        ("nothing", Vec::new()),
        ("one byte", vec![0]),
        ("23 blanks", vec![b' '; 23]),
        ("24 blanks", vec![b' '; 24]),
        ("a leader of the first record", record(true, 5, 5, &heading()[0])),
        ("a tag of no record", record(false, 5, 5, &[empty("ABCD")])),
        ("a second general record", record(false, 5, 5, &heading()[1])),
        ("RCID 0", record(false, 5, 5, &[prid(0, 1, 1), c2it(0, 0)])),
        ("an absent record", record(false, 5, 5, &[prid(99, 2, 2)])),
    ];
    for (name, bytes) in behind {
        let file = carried(&[numbered(8), bytes].concat());
        found(table, &format!("{name} in the third place"), held(), [&other, &file, &other]);
    }
}

/// A shelf has no 14: a file that is too long follows like any other.
pub fn huge(table: &mut Table) {
    let mut long = numbered(8);
    long.resize(TOO_LONG, b' ');
    found(table, "a file of a byte too many that follows", held(), [&carried(&numbered(9)), &carried(&long), &[1]]);
}
