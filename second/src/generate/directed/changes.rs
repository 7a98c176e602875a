//! Updates that are accepted, each with the whole result that the paper asks for.

use super::base::*;
use super::trees::edit;
use super::Table;
use crate::build::*;
use crate::samples::{BEACON, BEACON_UPDATE};

pub fn rows(table: &mut Table) {
    nothing(table);
    records(table);
    lives(table);
    entries_inserted(table);
    entries_inserted_below(table);
    entries_valued(table);
    entries_deleted(table);
    example(table);
    associations(table);
    places(table);
    coordinates(table);
    written_form(table);
}

fn nothing(table: &mut Table) {
    table.acts_done("no records", &[], &after());
    let bare = dataset()[..3].to_vec();
    let mut result = after();
    result.truncate(3);
    table.update_done("no records on no records", &bare, &heading(), &result);
    let numbers = [
        (INFORMATION, irid(5, 30, 3, 3)),
        (POINT, prid(7, 2, 3)),
        (MULTI, mrid(8, 5, 3)),
        (FEATURE, frid(3, 40, 3, 3)),
    ];
    for (number, id) in numbers {
        let mut stored = id.clone();
        *stored.body.last_mut().expect("RUIN") = 1;
        let result = changed_in(after(), number, |f| f[0] = stored);
        table.acts_done(&format!("a modify of record {number} that says nothing"), &[vec![id]], &result);
    }
}

fn records(table: &mut Table) {
    let mut without = after();
    without.remove(BARE_FEATURE - 1);
    table.acts_done("a feature deleted", &[vec![frid(4, 41, 2, 2)]], &without);
    let moved = after_with(POINT, vec![prid(7, 2, 1), c2it(i32::MIN, i32::MAX)]);
    table.acts_done("a point moved", &[vec![prid(7, 2, 3), c2it(i32::MIN, i32::MAX)]], &moved);
    let mut kept = after();
    kept[FEATURE - 1] = feature(3, &TREE);
    table.acts_done("a modify with an equal FOID", &[vec![frid(3, 40, 3, 3), foid(1, 2, 3)]], &kept);
    let into_nothing = vec![frid(NEW, 1, 1, 1), foid(0, 0, 0)];
    let bare = dataset()[..3].to_vec();
    let result = [after()[..3].to_vec(), vec![into_nothing.clone()]].concat();
    table.update_done("a first record", &bare, &[heading(), vec![into_nothing]].concat(), &result);
}

/// Several acts on one record, each on the version before it.
fn lives(table: &mut Table) {
    let modify = |rver| vec![mrid(8, rver, 3)];
    let result = changed_in(after(), MULTI, |f| f[0] = mrid(8, 6, 1));
    table.acts_done("two modifies (P10)", &[modify(5), modify(6)], &result);
    let again = vec![irid(5, 77, 1, 1)];
    let acts = [vec![irid(5, 30, 3, 3)], vec![irid(5, 30, 4, 3)], vec![irid(5, 30, 5, 2)], again.clone()];
    let mut result = after();
    result.remove(INFORMATION - 1);
    result.insert(4, again.clone());
    table.acts_done("modified twice, deleted and inserted at the end of its kind", &acts, &result);
    let then_modified = vec![irid(5, 77, 2, 3), attr(&[(3, 1, 0, 1, "late")])];
    let mut changed_again = result.clone();
    changed_again[4] = vec![irid(5, 77, 2, 1), attr(&[(3, 1, 0, 1, "late")])];
    table.acts_done("and modified once more", &[&acts[..], &[then_modified]].concat(), &changed_again);
    let brief = [vec![prid(NEW, 1, 1), c2it(0, 0)], vec![prid(NEW, 2, 2)]];
    table.acts_done("inserted and deleted", &brief, &after());
    let twice = [vec![prid(NEW, 1, 1), c2it(0, 0)], vec![prid(NEW, 2, 2)], vec![prid(NEW, 1, 1), c2it(1, 1)]];
    let mut result = after();
    result.insert(AS_POINT - 1, twice[2].clone());
    table.acts_done("inserted, deleted and inserted", &twice, &result);
}

/// The first feature after a modify of its attributes.
fn edited(table: &mut Table, name: &str, sent: &[Tuple], parts: &[&[Tuple]]) {
    let result = after_with(FEATURE, feature(3, &parts.concat()));
    table.acts_done(&format!("attributes: {name}"), &[edit(sent)], &result);
}

/// Tuples whose parents behind this place have moved by so many places.
fn moved(tuples: &[Tuple<'static>], behind: u16, by: i16) -> Vec<Tuple<'static>> {
    let parent = |place: u16| if place > behind { place.wrapping_add_signed(by) } else { place };
    tuples.iter().map(|t| (t.0, t.1, parent(t.2), t.3, t.4)).collect()
}

/// The feature's attributes with another value at a place.
fn valued(place: usize, value: &'static str) -> Vec<Tuple<'static>> {
    let mut tree = TREE.to_vec();
    tree[place - 1].4 = value;
    tree
}

/// Every legal place of an insert at the top.
fn entries_inserted(table: &mut Table) {
    let new = |code, index| (code, index, 0, 1, "n");
    let later = moved(&TREE[1..], 1, 1);
    edited(table, "a new code at the end", &[new(30, 1)], &[&TREE, &[new(30, 1)]]);
    let pushed = [new(21, 1), (21, 2, 0, 1, "a")];
    edited(table, "before the first of its code", &[new(21, 1)], &[&pushed, &later]);
    let behind = [TREE[0], new(21, 2)];
    edited(table, "behind the last of its code, before other codes", &[new(21, 2)], &[&behind, &later]);
    let between = [new(22, 2), (22, 3, 0, 1, "")];
    edited(table, "between two of its code, behind a subtree", &[new(22, 2)], &[&TREE[..6], &between]);
    edited(table, "behind the last of its code", &[new(22, 3)], &[&TREE, &[new(22, 3)]]);
    let subtree = [(40, 1, 0, 1, ""), (41, 1, 1, 1, ""), (42, 1, 2, 1, "x"), (41, 2, 1, 1, "y")];
    edited(table, "a tree of its own", &subtree, &[&TREE, &moved(&subtree, 0, 7)]);
}

fn entries_inserted_below(table: &mut Table) {
    let lead = (22, 1, 0, 3, "");
    let inserted = (25, 3, 2, 1, "n");
    let result: [&[Tuple]; 3] = [&TREE[..4], &[inserted], &moved(&TREE[4..], 4, 1)];
    edited(table, "below another, behind its code", &[lead, (25, 3, 1, 1, "n")], &result);
    let result: [&[Tuple]; 3] = [&TREE[..6], &[(28, 1, 2, 1, "n")], &TREE[6..]];
    edited(table, "below another, a new code", &[lead, (28, 1, 1, 1, "n")], &result);
    let result: [&[Tuple]; 3] = [&TREE[..6], &[(27, 2, 5, 1, "n")], &TREE[6..]];
    edited(table, "two levels down", &[lead, (26, 1, 1, 3, ""), (27, 2, 2, 1, "n")], &result);
    let sent = [(22, 2, 0, 3, ""), (1, 1, 1, 1, "n")];
    edited(table, "a child into an empty entry", &sent, &[&TREE, &[(1, 1, 7, 1, "n")]]);
}

fn entries_valued(table: &mut Table) {
    let lead = (22, 1, 0, 3, "");
    edited(table, "an empty ATTR", &[], &[&TREE]);
    edited(table, "a value set", &[(21, 1, 0, 3, "new")], &[&valued(1, "new")]);
    edited(table, "a value emptied", &[(21, 1, 0, 3, "")], &[&valued(1, "")]);
    edited(table, "a value set on an empty entry", &[(22, 2, 0, 3, "v")], &[&valued(7, "v")]);
    edited(table, "an empty value sent to a complex entry", &[lead], &[&TREE]);
    edited(table, "a value set below", &[lead, (25, 2, 1, 3, "z")], &[&valued(4, "z")]);
    let emptied = [(21, 1, 0, 3, ""), (1, 1, 1, 1, "n")];
    let under = [(21, 1, 0, 1, ""), (1, 1, 1, 1, "n")];
    let later = moved(&TREE[1..], 1, 1);
    edited(table, "a value emptied by a modify that leads to a child", &emptied, &[&under, &later]);
}

fn entries_deleted(table: &mut Table) {
    let lead = (22, 1, 0, 3, "");
    let (first, last) = ([TREE[0]], [(22, 1, 0, 1, "")]);
    edited(table, "a subtree deleted, with a value that is ignored", &[(22, 1, 0, 2, "any")], &[&first, &last]);
    let one_child: [&[Tuple]; 3] = [&TREE[..2], &[(25, 1, 2, 1, "c")], &moved(&TREE[4..], 4, -1)];
    edited(table, "a first of its code deleted below", &[lead, (25, 1, 1, 2, "")], &one_child);
    let none = changed_in(after_with(FEATURE, feature(3, &[])), FEATURE, |f| drop(f.remove(2)));
    let all = edit(&[(22, 2, 0, 2, ""), (22, 1, 0, 2, ""), (21, 1, 0, 2, "")]);
    table.acts_done("attributes: all deleted", &[all], &none);
    let childless = [lead, (26, 1, 1, 3, ""), (27, 1, 2, 2, "")];
    edited(table, "a last child deleted: the parent stays", &childless, &[&TREE[..5], &TREE[6..]]);
    let then_valued = [&childless[..], &[(26, 1, 1, 3, "v")]].concat();
    edited(table, "and takes a value", &then_valued, &[&TREE[..4], &[(26, 1, 2, 1, "v")], &TREE[6..]]);
    let around = [lead, (25, 1, 1, 2, ""), (25, 1, 1, 3, "z"), (21, 1, 0, 3, "y")];
    let both: [&[Tuple]; 3] = [&valued(1, "y")[..2], &[(25, 1, 2, 1, "z")], &moved(&TREE[4..], 4, -1)];
    edited(table, "behind a delete to its siblings and ancestors", &around, &both);
    let again = [(21, 1, 0, 2, ""), (21, 1, 0, 1, "w")];
    edited(table, "deleted and inserted again", &again, &[&moved(&TREE[1..], 0, -1), &[(21, 1, 0, 1, "w")]]);
}

fn associations(table: &mut Table) {
    let with_lists = |rver: u16, more: &[Field]| [&feature(rver, &TREE)[..3], more].concat();
    let [five, six, places] = [inas(5, 1, 1, 1, &[(9, 1, 0, 1, "x")]), inas(6, 1, 1, 1, &[]), spas(&PLACES)];
    let modify = |more: &[Field]| [&[frid(3, 40, 3, 3)], more].concat();
    let new = inas(5, 2, 1, 1, &[(1, 1, 0, 1, ""), (1, 1, 1, 1, "y")]);
    let appended = with_lists(3, &[five.clone(), six.clone(), new.clone(), places.clone()]);
    table.acts_done("an association appended", &[modify(&[new])], &after_with(FEATURE, appended));
    let removed = with_lists(3, &[six.clone(), places.clone()]);
    table.acts_done("an association deleted", &[modify(&[inas(5, 1, 1, 2, &[])])], &after_with(FEATURE, removed));
    let bare = inas(5, 1, 1, 1, &[]);
    let moved = with_lists(3, &[six.clone(), bare.clone(), places.clone()]);
    let again = modify(&[inas(5, 1, 1, 2, &[]), bare]);
    table.acts_done("an association deleted and inserted: it moves to the end", &[again], &after_with(FEATURE, moved));
    let all_gone = modify(&[inas(6, 1, 1, 2, &[]), inas(5, 1, 1, 2, &[])]);
    table.acts_done(
        "all associations deleted",
        &[all_gone],
        &after_with(FEATURE, with_lists(3, std::slice::from_ref(&places))),
    );
    let third = inas(5, 3, 3, 1, &[]);
    let first_of_three = modify(&[third.clone(), inas(5, 1, 1, 2, &[])]);
    let kept = with_lists(3, &[six.clone(), third, places.clone()]);
    table.acts_done("the first of three associations deleted", &[first_of_three], &after_with(FEATURE, kept));
    let passing = modify(&[inas(99, 1, 1, 1, &[]), inas(99, 1, 1, 2, &[])]);
    table.acts_done("an association that named nothing", &[passing], &after_with(FEATURE, feature(3, &TREE)));
}

fn places(table: &mut Table) {
    let with_places = |list: &[Spatial]| {
        let mut fields = feature(3, &TREE);
        fields.truncate(5);
        fields.extend((!list.is_empty()).then(|| spas(list)));
        after_with(FEATURE, fields)
    };
    let modify = |more: &[Field]| [&[frid(3, 40, 3, 3)], more].concat();
    let [point, multi] = PLACES;
    let gone = |place: Spatial| (place.0, place.1, 2, 77, 78, 2);
    table.acts_done("a place deleted by its key", &[modify(&[spas(&[gone(point)])])], &with_places(&[multi]));
    table.acts_done("all places deleted", &[modify(&[spas(&[gone(multi)]), spas(&[gone(point)])])], &with_places(&[]));
    let turned = (point.0, point.1, 2, 5, 6, 1);
    let acts = [modify(&[spas(&[gone(point), turned])])];
    table.acts_done("a place deleted and inserted otherwise", &acts, &with_places(&[multi, turned]));
    table.acts_done("empty SPAS fields", &[modify(&[spas(&[]), spas(&[])])], &with_places(&PLACES));
    let (new, other) = ((110, NEW, 255, 0, 0, 1), (115, NEW, 1, 1, 1, 1));
    let added = modify(&[spas(&[new]), spas(&[]), spas(&[other])]);
    let records = [added, vec![prid(NEW, 1, 1), c2it(0, 0)], vec![mrid(NEW, 1, 1)]];
    let mut result = with_places(&[point, multi, new, other]);
    result.insert(AS_MULTI - 1, records[2].clone());
    result.insert(AS_POINT - 1, records[1].clone());
    table.acts_done("places appended over several fields", &records, &result);
    let first_gone = [&records[..], &[vec![frid(3, 40, 4, 3), spas(&[gone(point)])]]].concat();
    result[FEATURE + 1][0] = frid(3, 40, 4, 1);
    result[FEATURE + 1][5] = spas(&[multi, new, other]);
    table.acts_done("the first of four places deleted", &first_gone, &result);
}

/// On the tuples (1,1), (2,2), (3,3).
fn coordinates(table: &mut Table) {
    let modify = |place: Field, lists: &[Field]| [&[mrid(8, 5, 3), place], lists].concat();
    let result = |list: &[(i32, i32)]| {
        let fields = vec![mrid(8, 5, 1), inas(5, 1, 2, 1, &[])];
        after_with(MULTI, [fields, if list.is_empty() { Vec::new() } else { vec![c2il(list)] }].concat())
    };
    let new = || c2il(&[(8, 8), (9, 9)]);
    let rows: [(&str, Vec<Field>, &[(i32, i32)]); 11] = [
        ("insert at 1", modify(cocc(1, 1, 2), &[new()]), &[(8, 8), (9, 9), (1, 1), (2, 2), (3, 3)]),
        ("insert at 3", modify(cocc(1, 3, 2), &[new()]), &[(1, 1), (2, 2), (8, 8), (9, 9), (3, 3)]),
        ("insert at 4 appends (P2)", modify(cocc(1, 4, 2), &[new()]), &[(1, 1), (2, 2), (3, 3), (8, 8), (9, 9)]),
        (
            "insert over two fields",
            modify(cocc(1, 2, 2), &[c2il(&[(8, 8)]), c2il(&[]), c2il(&[(9, 9)])]),
            &[(1, 1), (8, 8), (9, 9), (2, 2), (3, 3)],
        ),
        ("modify at 1", modify(cocc(3, 1, 2), &[new()]), &[(8, 8), (9, 9), (3, 3)]),
        ("modify to the last", modify(cocc(3, 2, 2), &[new()]), &[(1, 1), (8, 8), (9, 9)]),
        ("modify of all", modify(cocc(3, 1, 3), &[new(), c2il(&[(-1, -1)])]), &[(8, 8), (9, 9), (-1, -1)]),
        ("delete 2, two (P4)", modify(cocc(2, 2, 2), &[]), &[(1, 1)]),
        ("delete the first", modify(cocc(2, 1, 1), &[]), &[(2, 2), (3, 3)]),
        ("delete all", modify(cocc(2, 1, 3), &[]), &[]),
        ("no COCC", vec![mrid(8, 5, 3)], &[(1, 1), (2, 2), (3, 3)]),
    ];
    for (name, fields, list) in rows {
        table.acts_done(&format!("coordinates: {name}"), &[fields], &result(list));
    }
    let acts = [modify(cocc(2, 1, 3), &[]), vec![mrid(8, 6, 3), cocc(1, 1, 1), c2il(&[(7, 7)])]];
    let fields = vec![mrid(8, 6, 1), inas(5, 1, 2, 1, &[]), c2il(&[(7, 7)])];
    table.acts_done("coordinates: all deleted, one inserted", &acts, &after_with(MULTI, fields));
}

/// Everything is rewritten, also what the update does not touch.
fn written_form(table: &mut Table) {
    let mut loose = dataset();
    loose[INFORMATION] = vec![irid(6, 31, 1, 1), attr(&[])];
    loose[MULTI - 1] =
        vec![mrid(8, 4, 1), inas(5, 1, 2, 1, &[]), c2il(&[]), c2il(&[(1, 1)]), c2il(&[(2, 2), (3, 3)]), c2il(&[])];
    loose[FEATURE - 1].truncate(5);
    loose[FEATURE - 1].extend([spas(&PLACES[..1]), spas(&[]), spas(&PLACES[1..])]);
    loose[BARE_FEATURE - 1].extend([attr(&[]), spas(&[])]);
    table.dataset_done("lists split, and empty lists", file(&loose), &dataset());
    table.update_done("lists split, and empty lists", &loose, &heading(), &after());
    let mut unread = dataset();
    unread[0] = vec![empty("AAAA"), field("AAAA", vec![0x1e]), field("    ", vec![0x1f])];
    unread[1].insert(2, empty("ATCS"));
    unread[2].extend([empty("CSID"), field("PRID", b"any".to_vec())]);
    table.dataset_done("unread fields kept, also empty ones", file(&unread), &unread);
}

/// What P1 says that the update gives.
const BEACON_AFTER: [Tuple; 14] = [
    (21, 1, 0, 1, "Vachon"),
    (22, 1, 0, 1, ""),
    (25, 1, 2, 1, "42.0"),
    (26, 1, 2, 1, ""),
    (29, 1, 4, 1, "17"),
    (29, 2, 4, 1, "32"),
    (29, 3, 4, 1, "7"),
    (35, 1, 4, 1, ""),
    (36, 1, 8, 1, "22"),
    (37, 1, 8, 1, "123"),
    (24, 1, 0, 1, ""),
    (27, 1, 11, 1, "123"),
    (28, 1, 11, 1, "Germany"),
    (32, 1, 0, 1, "abc"),
];

fn example(table: &mut Table) {
    let before = changed(FEATURE, |f| *f = feature(2, &BEACON));
    let update = [heading(), vec![edit(&BEACON_UPDATE)]].concat();
    let result = after_with(FEATURE, feature(3, &BEACON_AFTER));
    table.update_done("the example of 10a-4.2 (P1)", &before, &update, &result);
}
