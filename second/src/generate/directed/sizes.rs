//! Numbers 12 and 14: records that cannot be written, and files that are too long.

use super::base::*;
use super::{with_heading, Intent, Table, WORK};
use crate::batch::Case;
use crate::build::*;
use crate::generate::form::least_widths;

/// Room for any result of these cases but the huge ones.
const WIDE: u32 = 500_000;
/// The most tuples that a written multi point holds.
pub(super) const MOST: usize = 12_492;

pub fn rows(table: &mut Table) {
    unread_records(table);
    multi_points(table);
    dataset_first(table);
    merged_general(table);
    inserted(table);
    grown(table);
    order_of_acts(table);
    deepest(table);
    widest(table);
}

/// A multi point of n tuples.
pub(super) fn multi(rcid: u32, rver: u16, ruin: u8, count: usize) -> Vec<Field> {
    vec![mrid(rcid, rver, ruin), c2il(&vec![(7, -1); count])]
}

/// The file with one record in narrow widths: short enough to be read, and maybe too long to be written.
pub(super) fn narrow(records: &[Vec<Field>], number: usize) -> Vec<u8> {
    let widths = |n: usize, fields: &[Field]| if n + 1 == number { least_widths(fields) } else { (5, 5) };
    let one = |(n, fields): (usize, &Vec<Field>)| {
        let (a, b) = widths(n, fields);
        record(n == 0, a, b, fields)
    };
    records.iter().enumerate().flat_map(one).collect()
}

/// A dataset that reads, and whose record of this number cannot be written.
fn unwritable(table: &mut Table, name: &str, bytes: Vec<u8>, count: usize, number: usize) {
    let refused = Intent::Refused(12, 1, number);
    table.row(&format!("read: {name}"), Case::read(bytes.clone()), Intent::Done { written: Vec::new(), count });
    table.row(&format!("write: {name}"), Case::write(bytes.clone(), 0), refused.clone());
    table.row(&format!("update of a dataset: {name}"), Case::update(bytes, Vec::new(), 0, WORK), refused);
}

/// A body that makes a record of these fields and one more exactly so long in the widths 5 and 5.
fn filler(fields: &[Field], length: usize) -> Vec<u8> {
    let others: usize = fields.iter().map(|f| 14 + f.body.len() + 1).sum();
    vec![0x1e; length - 24 - 1 - others - 14 - 1]
}

fn unread_records(table: &mut Table) {
    for (name, number, tag) in [("descriptive", 1, "9999"), ("general", 2, "ARCS"), ("CSID", 3, "ABCD")] {
        let filled = |length| changed(number, |f| f.push(field(tag, filler(f, length))));
        let long = narrow(&filled(100_000), number);
        unwritable(table, &format!("a {name} record of 100,000 bytes if written"), long, 9, number);
        let most = filled(99_999);
        let done = Intent::Done { written: file(&most), count: 9 };
        table.row(&format!("write: a {name} record of 99,999 bytes"), Case::write(narrow(&most, number), WIDE), done);
    }
}

fn multi_points(table: &mut Table) {
    let most = [dataset()[..3].to_vec(), vec![multi(1, 1, 1, MOST)]].concat();
    table.dataset_done("12,492 tuples", file(&most), &most);
    let more = [dataset()[..3].to_vec(), vec![multi(1, 1, 1, MOST + 1)]].concat();
    unwritable(table, "12,493 tuples", narrow(&more, 4), 4, 4);
    let two = [dataset()[..3].to_vec(), vec![multi(1, 1, 1, 1), multi(2, 1, 1, MOST + 1)]].concat();
    unwritable(table, "12,493 tuples in the second of two", narrow(&two, 5), 5, 5);
}

/// 11 of the dataset before its 12, and its 12 before all of the update.
fn dataset_first(table: &mut Table) {
    let long = [dataset()[..3].to_vec(), vec![multi(1, 1, 1, MOST + 1)]].concat();
    let loose = [long.clone(), vec![vec![frid(1, 1, 1, 1), foid(0, 0, 0), inas(9, 1, 1, 1, &[])]]].concat();
    table.row("write: 11 before 12", Case::write(narrow(&loose, 4), 0), Intent::Refused(11, 1, 5));
    let case = Case::update(narrow(&loose, 4), Vec::new(), 0, WORK);
    table.row("update: 11 of the dataset before its 12", case, Intent::Refused(11, 1, 5));
    let deletes = with_heading(&[vec![mrid(1, 2, 2)]]);
    let case = Case::update(narrow(&long, 4), file(&deletes), WIDE, WORK);
    table.row("update: 12 of a record that the update would delete", case, Intent::Refused(12, 1, 4));
    let wrong = [vec![empty("AAAA")], vec![dsid(0, "", 0, 0)]];
    let case = Case::update(narrow(&long, 4), file(&wrong), WIDE, WORK);
    table.row("update: 12 of the dataset before 5 of the update", case, Intent::Refused(12, 1, 4));
}

/// A general record that grows too long when the update's fields join the dataset's.
fn merged_general(table: &mut Table) {
    let given = changed(2, |f| *f = vec![dsid(1, "CHART", 3, 7), field("DSSI", vec![1; 60_000])]);
    let heading_with = |id: Field, more: &[Field]| vec![heading()[0].clone(), [&[id], more].concat()];
    let long = || field("ARCS", vec![2; 60_000]);
    let id = || dsid(2, "CHART", 3, 8);
    let mut refuse = |name: &str, update: &[Vec<Field>], number| {
        let case = Case::update(file(&given), file(update), WIDE, WORK);
        table.row(&format!("update: {name}"), case, Intent::Refused(number, 2, 2));
    };
    refuse("a merged general record too long", &heading_with(id(), &[long()]), 12);
    refuse("8 before a merged general record too long", &heading_with(dsid(2, "CHART", 4, 8), &[long()]), 8);
    let acts = [vec![prid(7, 1, 1), c2it(0, 0)], vec![prid(99, 2, 2)]];
    let with_acts = [heading_with(id(), &[long()]), acts.to_vec()].concat();
    refuse("a merged general record too long before 7", &with_acts, 12);
    let replaced = heading_with(id(), &[field("DSSI", vec![3; 70_000])]);
    let result = changed(2, |f| *f = vec![id(), field("DSSI", vec![3; 70_000])]);
    table.update_done("a long general field replaced by a long one", &given, &replaced, &result);
    let own = heading_with(id(), &[field("ARCS", filler(&[id()], 100_000))]);
    let bare = changed(2, |f| f.truncate(1));
    let case = Case::update(file(&bare), narrow(&own, 2), WIDE, WORK);
    table.row("update: a general record too long by itself", case, Intent::Refused(12, 2, 2));
}

fn inserted(table: &mut Table) {
    let more = with_heading(&[multi(NEW, 1, 1, MOST + 1)]);
    table.update_bytes("insert of 12,493 tuples", narrow(&more, 3), 12, 3);
    let with_tail = with_heading(&[multi(NEW, 1, 1, MOST + 1), vec![mrid(NEW, 2, 2)]]);
    table.update_bytes("insert of 12,493 tuples, deleted at once", narrow(&with_tail, 3), 12, 3);
    let versioned = with_heading(&[multi(NEW, 2, 1, MOST + 1)]);
    table.update_bytes("10 before 12", narrow(&versioned, 3), 10, 3);
    let result = [after()[..7].to_vec(), vec![multi(NEW, 1, 1, MOST)], after()[7..].to_vec()].concat();
    table.acts_done("insert of 12,492 tuples", &[multi(NEW, 1, 1, MOST)], &result);
}

/// Records that grow by modifies; only what a whole update record leaves is measured.
fn grown(table: &mut Table) {
    let full = [dataset()[..3].to_vec(), vec![multi(1, 1, 1, MOST)]].concat();
    let add = vec![mrid(1, 2, 3), cocc(1, 1, 1), c2il(&[(0, 0)])];
    let cut = vec![mrid(1, 3, 3), cocc(2, 1, 2)];
    let mut refuse = |name: &str, acts: &[Vec<Field>], number, record| {
        let case = Case::update(file(&full), file(&with_heading(acts)), WIDE, WORK);
        table.row(&format!("update: {name}"), case, Intent::Refused(number, 2, record));
    };
    refuse("a tuple more than can be written", std::slice::from_ref(&add), 12, 3);
    refuse("a tuple more than can be written, cut afterwards", &[add.clone(), cut], 12, 3);
    refuse("12 at record 3 before 9 at record 4", &[add, vec![prid(99, 2, 2)]], 12, 3);
    let smaller = vec![mrid(1, 2, 3), cocc(2, 1, 1)];
    let back = vec![mrid(1, 3, 3), cocc(1, MOST as u16, 1), c2il(&[(7, -1)])];
    let result = [after()[..3].to_vec(), vec![multi(1, 3, 1, MOST)]].concat();
    table.update_done("a tuple less and one more", &full, &with_heading(&[smaller, back]), &result);
    let long = "v".repeat(60_000);
    let valued = changed(INFORMATION, |f| f[1] = attr(&[(1, 1, 0, 1, &long)]));
    let replace = vec![irid(5, 30, 3, 3), attr(&[(2, 1, 0, 1, &long), (1, 1, 0, 2, "")])];
    let result = after_with(INFORMATION, vec![irid(5, 30, 3, 1), attr(&[(2, 1, 0, 1, &long)])]);
    table.update_done("a record too long between two tuples only", &valued, &with_heading(&[replace]), &result);
    let grow = vec![irid(5, 30, 3, 3), attr(&[(2, 1, 0, 1, &long)])];
    let case = Case::update(file(&valued), file(&with_heading(&[grow])), WIDE, WORK);
    table.row("update: an attribute more than can be written", case, Intent::Refused(12, 2, 3));
}

fn order_of_acts(table: &mut Table) {
    let full = [dataset()[..3].to_vec(), vec![multi(1, 1, 1, MOST)]].concat();
    let far = vec![mrid(1, 2, 3), cocc(1, 30_000, 1), c2il(&[(0, 0)])];
    let case = Case::update(file(&full), file(&with_heading(&[far])), WIDE, WORK);
    table.row("update: 9 before 12", case, Intent::Refused(9, 2, 3));
    let loose = vec![mrid(1, 2, 3), inas(99, 1, 1, 1, &[])];
    let case = Case::update(file(&full), file(&with_heading(&[loose])), WIDE, WORK);
    table.row("update: 12 before a loose result", case, Intent::Refused(12, 2, 3));
}

/// The most entries that a written information type holds.
const MOST_ENTRIES: u16 = 12_491;

/// A tree as deep as a record is long, and an update that leads all the way down.
fn deepest(table: &mut Table) {
    let chain: Vec<Tuple> = (0..MOST_ENTRIES).map(|depth| (1, 1, depth, 1, "")).collect();
    let full = |rver, chain: &[Tuple]| [dataset()[..3].to_vec(), vec![vec![irid(1, 1, rver, 1), attr(chain)]]].concat();
    table.dataset_done("the deepest tree", file(&full(1, &chain)), &full(1, &chain));
    let mut sent: Vec<Tuple> = chain.iter().map(|t| (t.0, t.1, t.2, 3, t.4)).collect();
    sent[usize::from(MOST_ENTRIES) - 1].3 = 2;
    let update = with_heading(&[vec![irid(1, 1, 2, 3), attr(&sent)]]);
    let mut result = full(2, &chain[..chain.len() - 1]);
    result[1] = after()[1].clone();
    table.update_done("the deepest entry deleted", &full(1, &chain), &update, &result);
    sent[usize::from(MOST_ENTRIES) - 1].3 = 1;
    let update = with_heading(&[vec![irid(1, 1, 2, 3), attr(&sent)]]);
    let case = Case::update(file(&full(1, &chain)), file(&update), WIDE, WORK);
    table.row("update: one more than the deepest tree holds", case, Intent::Refused(12, 2, 3));
}

/// As many entries of one code as a record holds, and others put among them.
fn widest(table: &mut Table) {
    let run: Vec<Tuple> = (1..=MOST_ENTRIES).map(|index| (1, index, 0, 1, "")).collect();
    let full = |rver, run: &[Tuple]| [dataset()[..3].to_vec(), vec![vec![irid(1, 1, rver, 1), attr(run)]]].concat();
    table.dataset_done("the widest tree", file(&full(1, &run)), &full(1, &run));
    let sent = [(1, 1, 0, 2, ""), (1, MOST_ENTRIES, 0, 1, ""), (1, 6000, 0, 3, "m"), (1, 6001, 0, 2, "")];
    let update = with_heading(&[vec![irid(1, 1, 2, 3), attr(&sent)]]);
    let mut left = run[..run.len() - 1].to_vec();
    left[5999].4 = "m";
    let mut result = full(2, &left);
    result[1] = after()[1].clone();
    table.update_done("edits in the widest tree", &full(1, &run), &update, &result);
}

/// The longest file.
const LONGEST: usize = 16_777_216;
/// How many cases huge adds; of the cable there are fewer.
pub const HUGE: usize = 7;

/// Cases of sixteen megabytes each: one for each place of 14, and one result that just fits.
pub fn huge(table: &mut Table) {
    let too_long = || vec![b' '; LONGEST + 1];
    table.row("read: a byte too many", Case::read(too_long()), Intent::Refused(14, 1, 0));
    table.row("write: a byte too many", Case::write(too_long(), 0), Intent::Refused(14, 1, 0));
    let case = Case::update(too_long(), Vec::new(), 0, WORK);
    table.row("update: a dataset of a byte too many, an empty update", case, Intent::Refused(14, 1, 0));
    let case = Case::update(Vec::new(), too_long(), 0, WORK);
    table.row("update: an empty dataset, an update of a byte too many", case, Intent::Refused(14, 2, 0));
    let grows = narrow(&filled(LONGEST + 8), 4);
    assert_eq!(grows.len(), LONGEST, "the narrow record saves eight bytes");
    table.row("write: a result too long, and no room", Case::write(grows, 0), Intent::Refused(14, 3, 0));
    let add = file(&with_heading(&[vec![mrid(9999, 1, 1)]]));
    let over = Case::update(file(&filled(LONGEST - 47)), add.clone(), 0, WORK);
    table.row("update: a result too long, and no room", over, Intent::Refused(14, 3, 0));
    let mut result = filled(LONGEST - 48);
    let fits = Case::update(file(&result), add, LONGEST as u32, WORK);
    result[1][0] = dsid(2, "CHART", 3, 8);
    result.push(vec![mrid(9999, 1, 1)]);
    let done = Intent::Done { written: file(&result), count: result.len() };
    table.row("update: a result of 16,777,216 bytes", fits, done);
}

/// A dataset of long multi points whose written form has exactly this length.
fn filled(length: usize) -> Records {
    let mut records = dataset()[..3].to_vec();
    records[0] = vec![field("0000", Vec::new())];
    let rest = length - file(&records).len();
    records.extend((0..rest / 99_999).map(|n| multi(n as u32 + 1, 1, 1, MOST)));
    records[0][0].body = vec![0x1f; rest % 99_999];
    records
}
