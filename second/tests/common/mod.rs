//! What the tests share: a good dataset, updates that follow it, and the questions put to the public entry point.
//! Expected bytes are always built here from values; no test compares with anything that was once printed.

// Each test file is a program of its own and uses a part of this one.
#![allow(dead_code)]

pub use second::answer::More;
pub use second::batch::Case;
pub use second::build::*;
use second::{answer, Answered};

pub const INSERT: u8 = 1;
pub const DELETE: u8 = 2;
pub const MODIFY: u8 = 3;

/// A record's fields, in order.
pub type Record = Vec<Field>;

/// Number, file and record of a refusal.
pub type Refusal = (u32, u32, usize);

/// Room enough for every small result, and the least workspace the updater takes.
pub const ROOM: u32 = 300_000;
pub const WORK: u32 = 400_000;

/// The greatest length of an input or result, and of a written record.
pub const FILE_LIMIT: usize = 16_777_216;
pub const RECORD_LIMIT: usize = 99_999;

// ---- the base dataset and its update ----

pub const NAME: &str = "EZ1";
pub const EDITION: u16 = 3;
pub const NUMBER: u16 = 4;

/// Where the base dataset's records stand, from 1.
pub const DESCRIPTIVE: usize = 1;
pub const GENERAL: usize = 2;
pub const SYSTEM: usize = 3;
pub const INFORMATION: usize = 4;
pub const SECOND_INFORMATION: usize = 5;
pub const POINT: usize = 6;
pub const SECOND_POINT: usize = 7;
pub const MULTI_POINT: usize = 8;
pub const FEATURE: usize = 9;
pub const SECOND_FEATURE: usize = 10;

/// A good dataset: every kind, attributes two deep, associations of both sorts. Information type 1, point 1 and
/// multi point 1 are named by others; information type 2, point 2 and the features are not, so they can be deleted.
pub fn base() -> Vec<Record> {
    vec![
        descriptive(),
        general(NUMBER),
        vec![field("CSID", b"\x0f\x1e\x1f".to_vec()), field("CRSH", b"system".to_vec())],
        vec![irid(1, 20, 1, INSERT), attr(&[(40, 1, 0, INSERT, ""), (41, 1, 1, INSERT, "a"), (41, 2, 1, INSERT, "b")])],
        vec![irid(2, 21, 2, INSERT), inas(1, 5, 6, INSERT, &[(40, 1, 0, INSERT, "x")])],
        vec![prid(1, 1, INSERT), inas(1, 5, 6, INSERT, &[]), c2it(10, -20)],
        vec![prid(2, 4, INSERT), c2it(i32::MIN, i32::MAX)],
        vec![mrid(1, 1, INSERT), c2il(&[(1, 1), (2, 2), (3, 3)])],
        vec![
            frid(1, 30, 1, INSERT),
            foid(7, 8, 9),
            attr(&[(50, 1, 0, INSERT, "v"), (51, 1, 0, INSERT, ""), (52, 1, 2, INSERT, "w")]),
            inas(1, 5, 6, INSERT, &[]),
            spas(&[(110, 1, 255, 1, 2, INSERT), (115, 1, 1, 0, u32::MAX, INSERT)]),
        ],
        vec![frid(2, 31, 6, INSERT), foid(7, 9, 9), spas(&[(110, 1, 2, 5, 6, INSERT)])],
    ]
}

fn descriptive() -> Record {
    vec![field("0000", b"a\x1f\x1eb".to_vec()), field("DSID", Vec::new()), field("0000", b"again".to_vec())]
}

/// The base dataset's general record with another update number.
pub fn general(number: u16) -> Record {
    let texts = ["S-100 Part 10a", "5.0", "INT.1", "1.0", "", NAME];
    let mut record = vec![identification(1, texts, EDITION, number, b"20260101")];
    record.extend(general_rest());
    record
}

/// The general fields that the base dataset has behind DSID; all of them are unread.
pub fn general_rest() -> Record {
    vec![field("DSSI", b"\x1e\x1f\x00".to_vec()), field("ATCS", b"codes".to_vec()), field("ARCS", Vec::new())]
}

/// The general record of the update that follows the base dataset.
pub fn next_general() -> Record {
    vec![identification(77, ["S-100", "", "INT.2", "2.0", "P", NAME], EDITION, NUMBER + 1, b"        ")]
}

/// What that update leaves of the base dataset's general record.
pub fn general_after() -> Record {
    [next_general(), general_rest()].concat()
}

/// DSID with all its texts.
pub fn identification(rcid: u32, texts: [&str; 6], edition: u16, number: u16, date: &[u8]) -> Field {
    let mut body = vec![10];
    body.extend_from_slice(&rcid.to_le_bytes());
    for text in texts {
        body.extend_from_slice(text.as_bytes());
        body.push(0x1f);
    }
    body.extend_from_slice(&edition.to_le_bytes());
    body.extend_from_slice(&number.to_le_bytes());
    body.extend_from_slice(date);
    field("DSID", body)
}

/// The records with the one at that number replaced.
pub fn with(mut records: Vec<Record>, number: usize, record: Record) -> Vec<Record> {
    records[number - 1] = record;
    records
}

pub fn base_with(number: usize, record: Record) -> Vec<Record> {
    with(base(), number, record)
}

/// The base dataset with one more record, which gets that number.
pub fn base_plus(number: usize, record: Record) -> Vec<Record> {
    let mut records = base();
    records.insert(number - 1, record);
    records
}

// ---- bytes ----

/// A file as others may write it: the widths change from record to record.
pub fn given(records: &[Record]) -> Vec<u8> {
    const WIDTHS: [(usize, usize); 4] = [(5, 5), (9, 6), (4, 9), (6, 4)];
    let one = |(n, fields): (usize, &Record)| {
        let ((a, b), (least_a, least_b)) = (WIDTHS[n % WIDTHS.len()], least_widths(fields));
        record(n == 0, a.max(least_a), b.max(least_b), fields)
    };
    records.iter().enumerate().flat_map(one).collect()
}

/// The narrowest widths that hold the lengths and the positions of these fields.
fn least_widths(fields: &[Field]) -> (usize, usize) {
    let digits = |number: usize| number.to_string().len();
    let longest = fields.iter().map(|f| f.body.len() + 1).max().expect("a record has a field");
    let last: usize = fields[..fields.len() - 1].iter().map(|f| f.body.len() + 1).sum();
    (digits(longest), digits(last))
}

/// The records' bytes in the written form, each for itself.
pub fn parts(records: &[Record]) -> Vec<Vec<u8>> {
    records.iter().enumerate().map(|(n, fields)| record(n == 0, 5, 5, fields)).collect()
}

/// The file in the written form with the bytes of one record changed.
pub fn spoiled(records: &[Record], number: usize, spoil: impl Fn(&mut Vec<u8>)) -> Vec<u8> {
    let mut parts = parts(records);
    spoil(&mut parts[number - 1]);
    parts.concat()
}

/// The file in the written form with one record replaced by bytes.
pub fn replaced(records: &[Record], number: usize, bytes: Vec<u8>) -> Vec<u8> {
    spoiled(records, number, |part| *part = bytes.clone())
}

/// Writes digits of the leader: its record length at 0, its base address at 12.
pub fn set_digits(bytes: &mut [u8], at: usize, value: usize) {
    bytes[at..at + 5].copy_from_slice(format!("{value:05}").as_bytes());
}

/// States the record's length in its leader, wrong by so many bytes.
pub fn state_length(bytes: &mut [u8], off_by: isize) {
    let length = bytes.len().wrapping_add_signed(off_by);
    set_digits(bytes, 0, length);
}

/// A record from directory entries as they are told (tag, length, position), whatever the field bytes are.
pub fn raw(first: bool, entries: &[(&str, usize, usize)], area: &[u8]) -> Vec<u8> {
    let (middle, end) = if first { ("3LE1 09", " ! ") } else { (" D     ", "   ") };
    let base = 24 + entries.len() * 14 + 1;
    let mut bytes = format!("{:05}{middle}{base:05}{end}5504", base + area.len()).into_bytes();
    for (tag, length, position) in entries {
        bytes.extend_from_slice(format!("{tag}{length:05}{position:05}").as_bytes());
    }
    bytes.push(0x1e);
    bytes.extend_from_slice(area);
    bytes
}

/// A record in the narrowest widths that hold it.
pub fn tight(first: bool, fields: &[Field]) -> Vec<u8> {
    let (a, b) = least_widths(fields);
    record(first, a, b, fields)
}

/// The fields and one more, so long that the record has 99,999 bytes in its narrowest widths. Written it has more.
pub fn stuffed(fields: &[Field], tag: &str) -> Record {
    let filled = |size: usize| [fields, &[field(tag, vec![b'.'; size])]].concat();
    let guess = RECORD_LIMIT - 1_000;
    let record = filled(guess + RECORD_LIMIT - tight(false, &filled(guess)).len());
    assert_eq!(tight(false, &record).len(), RECORD_LIMIT);
    record
}

/// That many different coordinate tuples.
pub fn many(count: usize) -> Vec<(i32, i32)> {
    (0..count as i32).map(|n| (n, -n)).collect()
}

/// A multi point of so many tuples in widths that leave it 99,999 bytes or fewer up to 12,493 tuples.
pub fn narrow_multi_point(rcid: u32, count: usize) -> Vec<u8> {
    record(false, 5, 1, &[mrid(rcid, 1, INSERT), c2il(&many(count))])
}

/// A body with one of its bytes set.
pub fn poked(mut field: Field, at: usize, byte: u8) -> Field {
    field.body[at] = byte;
    field
}

/// A field with its body cut or filled up with zeroes to that length.
pub fn resized(mut field: Field, length: usize) -> Field {
    field.body.resize(length, 0);
    field
}

/// The update that follows the base dataset and holds these records from number 3 on.
pub fn update_records(records: &[Record]) -> Vec<Record> {
    [&[vec![field("0000", b"update".to_vec())], next_general()], records].concat()
}

pub fn update_file(records: &[Record]) -> Vec<u8> {
    given(&update_records(records))
}

// ---- questions ----

/// The answer to a call.
pub struct Reply {
    pub number: u32,
    pub file: u32,
    pub record: usize,
    pub length: usize,
    pub count: usize,
    pub out: Vec<u8>,
    pub work_zero: bool,
    pub more: More,
}

pub fn reply(case: &Case) -> Reply {
    match answer(case) {
        Answered::Call { number, file, record, length, count, out, work_zero, more } => {
            Reply { number, file, record, length, count, out, work_zero, more }
        }
        Answered::Printed(_) => panic!("a call is answered in numbers"),
    }
}

/// Number, file and record of a refusal; all else an answer says of one is tested here.
pub fn refused(case: &Case) -> Refusal {
    let reply = reply(case);
    assert_ne!(reply.number, 0, "nothing was refused");
    assert_eq!((reply.length, reply.count), (0, 0), "length and count of a refusal");
    assert_eq!(reply.out.len(), case.out as usize, "length of the output slice");
    assert!(reply.out.iter().all(|byte| *byte == 0), "output of a refusal is not zero");
    assert!(reply.work_zero, "workspace is not zero");
    (reply.number, reply.file, reply.record)
}

/// The bytes written; all else an answer says of a success is tested here.
pub fn done(case: &Case) -> Vec<u8> {
    let reply = reply(case);
    assert_eq!((reply.number, reply.file, reply.record), (0, 0, 0), "number, file and record");
    assert_eq!(reply.out.len(), case.out as usize, "length of the output slice");
    let (written, rest) = reply.out.split_at(reply.length);
    assert!(rest.iter().all(|byte| *byte == 0), "output is not zero after the written length");
    assert!(reply.work_zero, "workspace is not zero");
    assert_eq!(reply.count, records_in(written), "count of records");
    written.to_vec()
}

/// How many records stand in a written file, by their stated lengths.
fn records_in(mut file: &[u8]) -> usize {
    let mut count = 0;
    while !file.is_empty() {
        let length: usize = std::str::from_utf8(&file[..5]).expect("digits").parse().expect("a length");
        file = &file[length..];
        count += 1;
    }
    count
}

/// The reader's count of the records of a good dataset.
pub fn counted(dataset: &[u8]) -> usize {
    let reply = reply(&Case::read(dataset.to_vec()));
    assert_eq!((reply.number, reply.file, reply.record), (0, 0, 0), "number, file and record");
    assert_eq!((reply.length, reply.out.len()), (0, 0), "the reader writes nothing");
    reply.count
}

/// The written form of a good dataset; reader and writer must agree on its count.
pub fn written(dataset: &[u8]) -> Vec<u8> {
    let written = done(&Case::write(dataset.to_vec(), ROOM));
    assert_eq!(counted(dataset), records_in(&written));
    written
}

/// Where reader, writer, updater and listing all refuse a dataset.
pub fn dataset_refused(dataset: &[u8]) -> Refusal {
    let refusal = refused(&Case::read(dataset.to_vec()));
    assert_eq!(refused(&Case::write(dataset.to_vec(), ROOM)), refusal, "writer and reader differ");
    let update = Case::update(dataset.to_vec(), update_file(&[]), ROOM, WORK);
    assert_eq!(refused(&update), refusal, "updater and reader differ");
    if dataset.len() <= 65_536 {
        assert_eq!(printed(dataset), format!("refused {} {} {}\n", refusal.0, refusal.1, refusal.2));
    }
    refusal
}

/// What the listing program prints for this standard input.
pub fn printed(input: &[u8]) -> String {
    match answer(&Case::listing(input.to_vec())) {
        Answered::Printed(text) => String::from_utf8(text).expect("the listing prints ASCII"),
        Answered::Call { .. } => panic!("a listing is answered in text"),
    }
}

// ---- one record of the base dataset ----

/// The number with which the base dataset is refused at this record, replaced.
pub fn record_fault(number: usize, record: Record) -> u32 {
    let (fault, file, place) = dataset_refused(&given(&base_with(number, record)));
    assert_eq!((file, place), (1, number), "place of {fault}");
    fault
}

/// The base dataset is good with this record replaced, and keeps it as it is.
pub fn assert_good(number: usize, record: Record) {
    assert_written(number, record.clone(), record);
}

/// The base dataset is good with this record replaced, and it is written as the second one.
pub fn assert_written(number: usize, given_as: Record, written_as: Record) {
    let got = written(&given(&base_with(number, given_as)));
    assert_same(&got, &file(&base_with(number, written_as)));
}

/// Equal bytes; shown as text where they are not.
pub fn assert_same(got: &[u8], want: &[u8]) {
    assert_eq!(got.escape_ascii().to_string(), want.escape_ascii().to_string());
}

// ---- updates ----

/// Where an update of these records is refused on these dataset records.
pub fn update_refused(dataset: &[Record], update: &[Record]) -> Refusal {
    refused(&Case::update(given(dataset), update_file(update), ROOM, WORK))
}

/// Where an update of these bytes is refused on the base dataset.
pub fn file_refused(update: Vec<u8>) -> Refusal {
    refused(&Case::update(given(&base()), update, ROOM, WORK))
}

/// The number with which an update of this one record is refused on the base dataset.
pub fn change_fault(change: Record) -> u32 {
    at_record_3(update_refused(&base(), &[change]))
}

fn at_record_3((fault, file, place): Refusal) -> u32 {
    assert_eq!((file, place), (2, 3), "place of {fault}");
    fault
}

/// The update turns the dataset's records into the result's; the general record follows by itself.
pub fn assert_updates(dataset: &[Record], update: &[Record], result: &[Record]) {
    let got = done(&Case::update(given(dataset), update_file(update), ROOM, WORK));
    assert_same(&got, &file(&with(result.to_vec(), GENERAL, general_after())));
}

/// An update of these records is accepted on the base dataset.
pub fn assert_accepted(update: &[Record]) {
    done(&Case::update(given(&base()), update_file(update), ROOM, WORK));
}

/// Where the first record of its kind stands in the base dataset.
fn home(record: &Record) -> usize {
    match &record[0].tag {
        b"IRID" => INFORMATION,
        b"PRID" => POINT,
        b"MRID" => MULTI_POINT,
        b"FRID" => FEATURE,
        _ => panic!("no record of the four kinds"),
    }
}

/// In the place of the first record of its kind, `old` is made `new` by the update record.
pub fn assert_becomes(old: Record, change: Record, new: Record) {
    let place = home(&old);
    assert_updates(&base_with(place, old), &[change], &base_with(place, new));
}

/// The number with which the update record is refused on `old`, in the place of the first record of its kind.
pub fn clash(old: Record, change: Record) -> u32 {
    at_record_3(update_refused(&base_with(home(&old), old), &[change]))
}

/// A feature with these attributes and nothing else, as the dataset or an update gives it.
fn bearer(rver: u16, instruction: u8, attributes: &[Tuple]) -> Record {
    let mut record = vec![frid(1, 30, rver, instruction)];
    if instruction == INSERT {
        record.push(foid(7, 8, 9));
    }
    if !attributes.is_empty() {
        record.push(attr(attributes));
    }
    record
}

/// A modify's ATTR turns the first list of attributes into the last.
pub fn assert_attributes(old: &[Tuple], change: &[Tuple], new: &[Tuple]) {
    assert_becomes(bearer(1, INSERT, old), bearer(2, MODIFY, change), bearer(2, INSERT, new));
}

/// The number with which a modify's ATTR is refused on these attributes.
pub fn attribute_clash(old: &[Tuple], change: &[Tuple]) -> u32 {
    clash(bearer(1, INSERT, old), bearer(2, MODIFY, change))
}

fn multi_point(rver: u16, coordinates: &[(i32, i32)]) -> Record {
    let mut record = vec![mrid(1, rver, INSERT)];
    if !coordinates.is_empty() {
        record.push(c2il(coordinates));
    }
    record
}

fn coordinate_change(control: Field, sent: &[(i32, i32)]) -> Record {
    let mut record = vec![mrid(1, 2, MODIFY), control];
    if !sent.is_empty() {
        record.push(c2il(sent));
    }
    record
}

/// COCC with the tuples sent turns the first list of coordinates into the last.
pub fn assert_coordinates(old: &[(i32, i32)], control: Field, sent: &[(i32, i32)], new: &[(i32, i32)]) {
    assert_becomes(multi_point(1, old), coordinate_change(control, sent), multi_point(2, new));
}

/// The number with which COCC and the tuples sent are refused on these coordinates.
pub fn coordinate_clash(old: &[(i32, i32)], control: Field, sent: &[(i32, i32)]) -> u32 {
    clash(multi_point(1, old), coordinate_change(control, sent))
}
