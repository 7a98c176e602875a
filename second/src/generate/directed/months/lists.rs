//! Lists: none, one and many files, in any order, with any lengths before them, and files that are refused.

use super::*;

pub fn rows(table: &mut Table) {
    empty_lists(table);
    accepted(table);
    not_following(table);
    files_of_no_bytes(table);
    cut_lengths(table);
    wrong_lengths(table);
    refused_at_records(table);
    last_number(table);
}

/// Nothing is read, and no length is tested.
fn empty_lists(table: &mut Table) {
    let call = || base(Vec::new());
    none(table, "an empty list", call(), None);
    none(table, "an empty list, a length above the pool", MonthCall { length: FIRST + 1, ..call() }, None);
    none(table, "an empty list, the greatest length", MonthCall { length: 0xffff_ffff, ..call() }, None);
    none(table, "an empty list, a length of 0", MonthCall { length: 0, ..call() }, None);
    none(table, "an empty list, a second pool of no bytes", MonthCall { second: 0, ..call() }, None);
    none(table, "an empty list, a first pool of no bytes", in_pool(&[], 0, Vec::new()), None);
    none(table, "an empty list, no pools", MonthCall { second: 0, ..in_pool(&[], 0, Vec::new()) }, None);
    none(table, "an empty list, no dataset in the pool", in_pool(&[0xff; 100], 200, Vec::new()), None);
}

fn accepted(table: &mut Table) {
    for n in 1..=6 {
        some(table, &format!("{n} files"), base(list(1..=n)), (n.into(), &chart(n)), None);
    }
    let written = file(&dataset());
    let bare = in_pool(&written, FIRST, joined(&[numbered(1, &[]), numbered(2, &[])]));
    let result = changed(2, |f| f[0] = dsid(2, "CHART", 3, 9));
    some(table, "two files of no more than their general records", bare, (2, &result), None);
}

/// 8 at any place stops the month, whatever stands behind.
fn not_following(table: &mut Table) {
    let mut eight = |name: &str, numbers: &[u16], applied: u16| {
        stops(table, name, base(list(numbers.iter().copied())), applied, (8, 2, 2));
    };
    eight("the first file is the second, and the others would be fine", &[2, 1], 0);
    eight("the first file is the third", &[3, 1, 2], 0);
    eight("one file twice", &[1, 1], 1);
    eight("one file twice, and the next", &[1, 1, 2], 1);
    eight("the second file is left out", &[1, 3], 1);
    eight("the second and the third change places", &[1, 3, 2, 4], 1);
    eight("the second file twice", &[1, 2, 2, 3], 2);
    eight("the first file again at the end", &[1, 2, 1], 2);
    eight("the last but one file is left out", &[1, 2, 3, 5], 3);
    eight("the last file twice", &[1, 2, 3, 4, 4], 4);
    let other = file(&[heading()[0].clone(), vec![dsid(2, "OTHER", 3, 9)]]);
    stops(table, "a file of another chart", base(behind(1, &joined(&[other]))), 1, (8, 2, 2));
}

/// The updater's own 1, at the turn of the file.
fn files_of_no_bytes(table: &mut Table) {
    let mut nothing = |name: &str, files: &[Vec<u8>], applied| {
        stops(table, &format!("a file of no bytes {name}"), base(joined(files)), applied, (1, 2, 1));
    };
    nothing("alone", &[Vec::new()], 0);
    nothing("first", &[Vec::new(), update(1)], 0);
    nothing("in the middle", &[update(1), Vec::new(), update(2)], 1);
    nothing("last", &[update(1), update(2), Vec::new()], 2);
    nothing("twice", &[update(1), update(2), update(3), Vec::new(), Vec::new()], 3);
    let no_room = MonthCall { second: 0, ..base(joined(&[Vec::new()])) };
    stops(table, "a file of no bytes and no room", no_room, 0, (1, 2, 1));
}

/// One to three bytes of a length.
fn cut_lengths(table: &mut Table) {
    for bytes in 1..=3 {
        for n in [0, 1, 2, 3] {
            let name = format!("{bytes} bytes of a length behind {n} files");
            stops(table, &name, base(behind(n, &[0, 0, 0][..bytes])), n, (1, 2, 0));
        }
    }
}

/// A file in a list with another length before it.
fn with_length(length: usize, file: &[u8]) -> Vec<u8> {
    [&(length as u32).to_le_bytes(), file].concat()
}

fn wrong_lengths(table: &mut Table) {
    for n in [0, 1, 2] {
        let next = update(n + 1);
        let called = |length: usize| base(behind(n, &with_length(length, &next)));
        let past = [("a byte past the end", next.len() + 1), ("far past the end", 0xffff_ffff), ("of 2^31", 1 << 31)];
        for (which, length) in past {
            stops(table, &format!("a length {which} behind {n} files"), called(length), n, (1, 2, 0));
        }
        // The byte left behind is no length; the file before it is found cut at its own turn.
        let cut_record = 2 + if n == 0 { 2 } else { 3 };
        let name = format!("a length a byte too small behind {n} files");
        stops(table, &name, called(next.len() - 1), n, (1, 2, cut_record));
        let alone = base(behind(n, &[1, 0, 0, 0]));
        stops(table, &format!("a length of 1 and no byte behind {n} files"), alone, n, (1, 2, 0));
    }
    let swallows = [with_length(update(1).len() + 1, &update(1)), list([2])].concat();
    stops(table, "a length that takes a byte of the next one", base(swallows), 0, (1, 2, 5));
    let whole = [with_length(update(1).len() + 4 + update(2).len(), &update(1)), list([2])].concat();
    stops(table, "a length that takes the whole next file", base(whole), 0, (2, 2, 5));
    let refused_before = base([list([2]), vec![9]].concat());
    stops(table, "8 before the broken length behind it", refused_before, 0, (8, 2, 2));
    let no_room_before = MonthCall { second: 0, ..base(behind(1, &[9, 9, 9, 9])) };
    stops(table, "13 before the broken length behind it", no_room_before, 0, (13, 3, 0));
}

/// Refusals of the second file at a record of its own or of its result; the first is applied.
fn refused_at_records(table: &mut Table) {
    let moved = vec![prid(7, 3, 3), c2it(0, 0)];
    let rows: [(&str, Records, Refused); 8] = [
        ("an absent record", vec![moved.clone(), vec![prid(99, 2, 2)]], (9, 2, 4)),
        ("an absent place", vec![vec![mrid(added(1), 2, 3), cocc(1, 2, 1), c2il(&[(0, 0)])]], (9, 2, 3)),
        ("the version before the first file", vec![vec![prid(7, 2, 3)]], (10, 2, 3)),
        ("what the first file inserted", vec![moved, vec![mrid(added(1), 1, 1)]], (7, 2, 4)),
        ("RCID 0", vec![vec![prid(0, 1, 1), c2it(0, 0)]], (5, 2, 3)),
        ("a tag of no record", vec![vec![empty("ABCD")]], (4, 2, 3)),
        ("a point that is still named", vec![vec![prid(7, 3, 2)]], (11, 3, FEATURE)),
        ("a name of nothing", vec![vec![mrid(added(1), 2, 3), inas(99, 1, 1, 1, &[])]], (11, 3, FEATURE)),
    ];
    for (name, acts, refused) in rows {
        let call = base(behind(1, &joined(&[numbered(2, &acts), update(2)])));
        stops(table, &format!("a second file with {name}"), call, 1, refused);
    }
    let absent = joined(&[numbered(1, &[vec![prid(99, 2, 2)]]), update(1)]);
    stops(table, "a first file with an absent record", base(absent), 0, (9, 2, 3));
    let named = joined(&[numbered(1, &[vec![prid(7, 2, 2)]]), update(1)]);
    stops(table, "a first file that deletes what is named", base(named), 0, (11, 3, FEATURE - 1));
    let third = behind(2, &joined(&[numbered(3, &[vec![prid(7, 3, 3)]])]));
    stops(table, "a third file with the version before the second", base(third), 2, (10, 2, 3));
    let spoiled = behind(2, &with_length(30, &[b' '; 30]));
    stops(table, "a third file of blanks", base(spoiled), 2, (2, 2, 1));
}

/// After update 65,534 none can follow.
fn last_number(table: &mut Table) {
    let at = |update| changed(2, |f| f[0] = dsid(1, "CHART", 3, update));
    let sent = |update| file(&[heading()[0].clone(), vec![dsid(1, "CHART", 3, update)]]);
    let call = |next| in_pool(&file(&at(65_533)), FIRST, joined(&[sent(65_534), sent(next)]));
    some(table, "65,535 after update 65,534", call(65_535), (1, &at(65_534)), Some((5, 2, 2)));
    some(table, "1 after update 65,534", call(1), (1, &at(65_534)), Some((8, 2, 2)));
}
