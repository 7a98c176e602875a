//! The points of document 02 on the bridge cable, each as decided, by its letter and number; parcels byte by byte.

mod common;
use common::*;
use second::answer::{answer, line};
use second::batch::fnv;

/// The holding of the base dataset: 13 bytes of kind 1, edition 3, update 4, its name.
const HELD: [u8; 13] = [13, 0, 0, 0, 1, 0, 3, 0, 4, 0, b'E', b'Z', b'1'];

/// An update of two records that follows it: edition 3, update 5.
const FILE: &[u8; 106] = b"000403LE1 0900039 ! 550400000000100000\x1e\x1e\
    00066 D     00039   5504DSID0002700000\x1e\x0a\x01\0\0\0\x1f\x1f\x1f\x1f\x1fEZ1\x1f\x03\0\x05\x0020260101\x1e";

/// Where FILE's second record starts, and in it the update number.
const SECOND_RECORD: usize = 40;
const UPDATE_NUMBER: usize = 95;

/// FILE with another byte at a place.
fn poked_file(at: usize, byte: u8) -> Vec<u8> {
    let mut file = FILE.to_vec();
    file[at] = byte;
    file
}

/// A parcel of kind 2 around these bytes.
fn carried(file: &[u8]) -> Vec<u8> {
    let length = file.len() + 6;
    let mut parcel = vec![length as u8, (length >> 8) as u8, (length >> 16) as u8, (length >> 24) as u8, 2, 0];
    parcel.extend_from_slice(file);
    parcel
}

/// FILE of another update number: it does not follow.
fn other() -> Vec<u8> {
    carried(&poked_file(UPDATE_NUMBER, 6))
}

/// Where the parcel stands that answers the holding, and its length; or the refusal. All else is tested here.
fn replied(holding: &[u8], shelf: &[u8]) -> Result<Option<(usize, usize)>, Refusal> {
    let reply = reply(&Case::reply(holding.to_vec(), shelf.to_vec()));
    assert_eq!((reply.length, reply.count, reply.out.len()), (0, 0, 0), "length, count and output");
    let More::Reply(found) = reply.more else { panic!("{:?}", reply.more) };
    match reply.number {
        0 => {
            assert_eq!((reply.file, reply.record), (0, 0));
            Ok(found.map(|found| (found.start, found.length)))
        }
        number => {
            assert_eq!(found, None, "a refusal answers with no parcel");
            Err((number, reply.file, reply.record))
        }
    }
}

const WRONG: Refusal = (27, 0, 0);
const SILENCE: Result<Option<(usize, usize)>, Refusal> = Ok(None);

// ---- H1: parcels ----

#[test]
fn h1_the_whole_length_counts_its_own_six_bytes() {
    let parcel = [&[112, 0, 0, 0, 2, 0], &FILE[..]].concat();
    assert_eq!(parcel, carried(FILE));
    assert_eq!(replied(&HELD, &parcel), Ok(Some((0, 112))));
    let body_alone = [&[106, 0, 0, 0, 2, 0], &FILE[..]].concat();
    assert_eq!(replied(&HELD, &body_alone), Err(WRONG), "six bytes of the file are left over, which are no parcel");
    let name_alone = [&[7, 0, 0, 0], &HELD[4..]].concat();
    assert_eq!(replied(&name_alone, &parcel), Err(WRONG));
}

#[test]
fn h1_numbers_are_little_endian() {
    let shelf = carried(FILE);
    let swapped = |at: usize, length: usize| {
        let mut holding = HELD;
        holding[at..at + length].reverse();
        replied(&holding, &shelf)
    };
    assert_eq!(swapped(0, 4), Err(WRONG));
    assert_eq!(swapped(4, 2), Err(WRONG));
    assert_eq!(swapped(6, 2), SILENCE);
    assert_eq!(swapped(8, 2), SILENCE);
    assert_eq!(replied(&HELD, &[&[0, 0, 0, 112, 2, 0], &FILE[..]].concat()), Err(WRONG));
    assert_eq!(replied(&HELD, &[&[112, 0, 0, 0, 0, 2], &FILE[..]].concat()), Err(WRONG));
}

#[test]
fn h1_a_name_goes_to_the_end_of_its_parcel() {
    let shelf = carried(FILE);
    assert_eq!(replied(&[12, 0, 0, 0, 1, 0, 3, 0, 4, 0, b'E', b'Z'], &shelf), SILENCE);
    assert_eq!(replied(&[14, 0, 0, 0, 1, 0, 3, 0, 4, 0, b'E', b'Z', b'1', 0x1f], &shelf), SILENCE);
    assert_eq!(replied(&[14, 0, 0, 0, 1, 0, 3, 0, 4, 0, b'E', b'Z', b'1', 0], &shelf), SILENCE);
}

// ---- H2: the order of a reply ----

#[test]
fn h2_the_holdings_length_is_that_of_its_slice() {
    let shelf = carried(FILE);
    for (at, byte) in [(0, 12), (0, 14), (0, 0), (0, 255), (1, 1), (2, 1), (3, 1), (3, 128)] {
        let mut holding = HELD;
        holding[at] = byte;
        assert_eq!(replied(&holding, &shelf), Err(WRONG), "byte {at} is {byte}");
    }
    assert_eq!(replied(&[&HELD[..], &[0]].concat(), &shelf), Err(WRONG));
    assert_eq!(replied(&HELD[..12], &shelf), Err(WRONG));
    assert_eq!(replied(&[], &shelf), Err(WRONG));
}

#[test]
fn h2_the_holdings_kind_is_1_and_it_has_ten_bytes() {
    let shelf = carried(FILE);
    for kind in [[0, 0], [2, 0], [3, 0], [0, 1], [1, 1], [1, 2], [255, 255]] {
        let mut holding = HELD;
        holding[4..6].copy_from_slice(&kind);
        assert_eq!(replied(&holding, &shelf), Err(WRONG), "kind {kind:?}");
    }
    let ten = [10, 0, 0, 0, 1, 0, 3, 0, 4, 0];
    assert_eq!(replied(&ten, &shelf), SILENCE);
    for length in 4..10u8 {
        let mut short = ten[..usize::from(length)].to_vec();
        short[0] = length;
        assert_eq!(replied(&short, &shelf), Err(WRONG), "{length} bytes");
    }
}

#[test]
fn h2_the_shelf_is_27_where_the_search_comes_to_a_wrong_parcel() {
    let (file, other) = (carried(FILE), other());
    let wrong: [&[u8]; 12] = [
        &[0],
        &[6, 0],
        &[6, 0, 0],
        &[6, 0, 0, 0],
        &[6, 0, 0, 0, 2],
        &[0, 0, 0, 0, 2, 0],
        &[5, 0, 0, 0, 2, 0],
        &[7, 0, 0, 0, 2, 0],
        &[6, 0, 0, 1, 2, 0],
        &[6, 0, 0, 0, 1, 0],
        &[6, 0, 0, 0, 2, 1],
        &[6, 0, 0, 0, 0, 0],
    ];
    for bytes in wrong {
        assert_eq!(replied(&HELD, bytes), Err(WRONG), "{bytes:?} alone");
        assert_eq!(replied(&HELD, &[&other, bytes].concat()), Err(WRONG), "{bytes:?} behind another file");
        assert_eq!(replied(&HELD, &[&other, &file, bytes].concat()), Ok(Some((112, 112))), "{bytes:?} behind the file");
        assert_eq!(replied(&[], &[&file, bytes].concat()), Err(WRONG), "the holding before the shelf");
    }
    assert_eq!(replied(&HELD, &[&[6, 0, 0, 0, 1, 0], &file[..]].concat()), Err(WRONG), "before the file");
    assert_eq!(replied(&HELD, &[&[5, 0, 0, 0, 2, 0], &file[..]].concat()), Err(WRONG), "before the file");
    assert_eq!(replied(&HELD, &file[..111]), Err(WRONG), "the last byte lost");
}

#[test]
fn h2_the_first_that_follows_or_silence() {
    let (file, other, empty) = (carried(FILE), other(), [6, 0, 0, 0, 2, 0]);
    assert_eq!(replied(&HELD, &[]), SILENCE);
    assert_eq!(replied(&HELD, &empty), SILENCE);
    assert_eq!(replied(&HELD, &[&other[..], &empty, &other].concat()), SILENCE);
    assert_eq!(replied(&HELD, &[&other[..], &empty, &file, &file].concat()), Ok(Some((118, 112))));
    let longer = carried(&[&FILE[..], b"rest"].concat());
    assert_eq!(replied(&HELD, &[&longer[..], &file].concat()), Ok(Some((0, 116))));
    assert_eq!(replied(&HELD, &[&file[..], &longer].concat()), Ok(Some((0, 112))));
}

#[test]
fn h2_the_line_tells_it_behind_the_old_words() {
    let told = |shelf: Vec<u8>| line(&answer(&Case::reply(HELD.to_vec(), shelf)));
    let none = format!("{:016x}", fnv(&[]));
    assert_eq!(told([other(), carried(FILE)].concat()), format!("0 0 0 0 0 {none} 1 1 112 112"));
    assert_eq!(told(other()), format!("0 0 0 0 0 {none} 1 0 0 0"));
    assert_eq!(told(vec![0]), format!("27 0 0 0 0 {none} 1 0 0 0"));
}

// ---- H3: what follows ----

#[test]
fn h3_name_edition_and_number() {
    let follows = |at: usize, byte: u8| replied(&HELD, &carried(&poked_file(at, byte))) == Ok(Some((0, 112)));
    assert!(follows(UPDATE_NUMBER, 5));
    for byte in [0, 3, 4, 6] {
        assert!(!follows(UPDATE_NUMBER, byte), "update number {byte}");
    }
    assert!(!follows(UPDATE_NUMBER + 1, 1), "update number 261");
    assert!(!follows(UPDATE_NUMBER - 2, 4) && !follows(UPDATE_NUMBER - 2, 2), "another edition");
    for at in UPDATE_NUMBER - 6..UPDATE_NUMBER - 3 {
        assert!(!follows(at, b'x'), "another byte of the name, at {at}");
    }
    assert!(follows(UPDATE_NUMBER + 2, b'9'), "another date");
}

#[test]
fn h3_the_first_two_records_pass_the_first_pass_of_an_update() {
    let broken: [(&str, Vec<u8>); 12] = [
        ("no bytes", Vec::new()),
        ("1 in record 1", FILE[..SECOND_RECORD - 1].to_vec()),
        ("2 in record 1", poked_file(5, b' ')),
        ("3 in record 1", poked_file(SECOND_RECORD - 1, 0)),
        ("4, no record 2", FILE[..SECOND_RECORD].to_vec()),
        ("1 in record 2, a short leader", FILE[..SECOND_RECORD + 23].to_vec()),
        ("1 in record 2, its length", FILE[..105].to_vec()),
        ("2 in record 2", poked_file(SECOND_RECORD + 6, b'd')),
        ("3 in record 2", poked_file(SECOND_RECORD + 32, b'6')),
        ("4 in record 2", poked_file(SECOND_RECORD + 24, b'd')),
        ("5 in record 2, RCNM", poked_file(SECOND_RECORD + 39, 11)),
        ("5 in record 2, its date", poked_file(104, 0x1f)),
    ];
    for (name, file) in broken {
        assert_eq!(replied(&HELD, &carried(&file)), SILENCE, "{name}");
        let both = [carried(&file), carried(FILE)].concat();
        assert_eq!(replied(&HELD, &both), Ok(Some((file.len() + 6, 112))), "{name}, and the file behind it");
        let alone = refused(&Case::update(given(&base()), file, ROOM, WORK));
        assert!((1..=5).contains(&alone.0) && alone.1 == 2 && alone.2 <= 2, "{name}: {alone:?}");
    }
}

#[test]
fn h3_the_rest_is_not_read() {
    let rests: [&[u8]; 5] = [b"", b"\0", b"                       ", b"                        ", FILE];
    for rest in rests {
        let file = [&FILE[..], rest].concat();
        assert_eq!(replied(&HELD, &carried(&file)), Ok(Some((0, file.len() + 6))), "{rest:?}");
    }
    let loose = update_file(&[vec![prid(99, 2, DELETE)]]);
    assert_eq!(replied(&HELD, &carried(&loose)), Ok(Some((0, loose.len() + 6))));
    // A dataset's first two records are those of an update, if its number is not 0.
    let later = given(&with(base(), GENERAL, general(NUMBER + 1)));
    assert_eq!(replied(&HELD, &carried(&later)), Ok(Some((0, later.len() + 6))));
    assert_eq!(replied(&HELD, &carried(&given(&base()))), SILENCE);
}

// ---- H4: telling and taking ----

/// The holding of a chart in a slice that is longer.
fn told(chart: Vec<u8>) -> Vec<u8> {
    let reply = reply(&Case::tell(chart, 40));
    assert_eq!((reply.number, reply.file, reply.record, reply.count), (0, 0, 0, 0));
    assert_eq!((reply.out.len(), reply.more), (40, More::Nothing));
    assert!(reply.out[reply.length..].iter().all(|byte| *byte == 0), "zero behind the holding");
    reply.out[..reply.length].to_vec()
}

fn tell_refused(chart: &[u8], out: u32) -> Refusal {
    refused(&Case::tell(chart.to_vec(), out))
}

#[test]
fn h4_the_holding_of_a_chart() {
    assert_eq!(told(given(&base())), HELD);
    assert_eq!(told(FILE.to_vec()), [13, 0, 0, 0, 1, 0, 3, 0, 5, 0, b'E', b'Z', b'1']);
    let texts = ["EZ1", "", "", "", "", "\u{e9}"];
    let accented = identification(1, texts, 258, 65_534, b"20260101");
    assert_eq!(told(given(&base_with(GENERAL, vec![accented]))), [12, 0, 0, 0, 1, 0, 2, 1, 254, 255, 0xc3, 0xa9]);
    let nameless = identification(1, ["", "", "", "", "", ""], 1, 0, b"20260101");
    assert_eq!(told(given(&base_with(GENERAL, vec![nameless]))), [10, 0, 0, 0, 1, 0, 1, 0, 0, 0]);
}

#[test]
fn h4_its_refusals_are_the_readers_of_the_first_two_records_then_13() {
    let chart = given(&base());
    let first = given(&base()[..1]).len();
    for out in [0, 40] {
        assert_eq!(tell_refused(&[], out), (1, 1, 1));
        assert_eq!(tell_refused(&chart[..23], out), (1, 1, 1));
        assert_eq!(tell_refused(&[b' '; 24], out), (2, 1, 1));
        assert_eq!(tell_refused(&chart[..first], out), (4, 1, 2));
        assert_eq!(tell_refused(&chart[..first + 1], out), (1, 1, 2));
        assert_eq!(tell_refused(&poked_file(6, b'l'), out), (2, 1, 1));
        assert_eq!(tell_refused(&poked_file(SECOND_RECORD - 1, 0), out), (3, 1, 1));
        assert_eq!(tell_refused(&poked_file(SECOND_RECORD + 32, b'6'), out), (3, 1, 2));
        assert_eq!(tell_refused(&poked_file(SECOND_RECORD + 24, b'd'), out), (4, 1, 2));
        assert_eq!(tell_refused(&poked_file(SECOND_RECORD + 39, 11), out), (5, 1, 2));
    }
    assert_eq!(tell_refused(&chart, 12), (13, 3, 0));
    assert_eq!(tell_refused(&chart, 0), (13, 3, 0));
    assert_eq!(done_or_refused(&Case::tell(chart, 13)), Ok(HELD.to_vec()));
}

/// What is written, or the refusal.
fn done_or_refused(case: &Case) -> Result<Vec<u8>, Refusal> {
    let reply = reply(case);
    match reply.number {
        0 => Ok(reply.out[..reply.length].to_vec()),
        number => Err((number, reply.file, reply.record)),
    }
}

/// A parcel on the base dataset: the chart, or the refusal; the chart's length afterwards is tested here.
fn taken(parcel: &[u8], out: u32, work: u32) -> Result<Vec<u8>, Refusal> {
    let case = Case::take(given(&base()), parcel.to_vec(), out, work);
    let outcome = done_or_refused(&case);
    let length = outcome.as_ref().map_or(given(&base()).len(), |chart| chart.len());
    assert_eq!(reply(&case).more, More::Chart(length));
    match &outcome {
        Ok(chart) => assert_eq!(done(&case), *chart),
        Err(refusal) => assert_eq!(refused(&case), *refusal),
    }
    outcome
}

#[test]
fn h4_a_parcel_taken_is_its_body_handed_to_the_updater() {
    let bodies = [
        FILE.to_vec(),
        update_file(&[vec![prid(9, 1, INSERT), c2it(1, 2)]]),
        poked_file(UPDATE_NUMBER, 4),
        poked_file(UPDATE_NUMBER, 6),
        update_file(&[vec![prid(99, 2, DELETE)]]),
        Vec::new(),
        FILE[..50].to_vec(),
        given(&base()),
    ];
    for body in bodies {
        for (out, work) in [(ROOM, WORK), (ROOM, WORK - 1), (100, WORK), (0, 0)] {
            let updated = done_or_refused(&Case::update(given(&base()), body.clone(), out, work));
            assert_eq!(taken(&carried(&body), out, work), updated);
        }
    }
    let result = with(
        base(),
        GENERAL,
        [vec![identification(1, ["", "", "", "", "", NAME], 3, 5, b"20260101")], general_rest()].concat(),
    );
    assert_eq!(taken(&carried(FILE), ROOM, WORK), Ok(file(&result)));
    assert_eq!(taken(&carried(&[]), ROOM, WORK), Err((1, 2, 1)));
}

#[test]
fn h4_the_line_tells_the_charts_length() {
    let (chart, short) = (given(&base()), vec![0; 9]);
    let refused = line(&answer(&Case::take(chart.clone(), vec![0], 9, WORK)));
    assert_eq!(refused, format!("27 0 0 0 0 {:016x} 1 {}", fnv(&short), chart.len()));
    let result = taken(&carried(FILE), ROOM, WORK).expect("it follows");
    let (length, hash) = (result.len(), fnv(&result));
    let done = line(&answer(&Case::take(chart, carried(FILE), length as u32, WORK)));
    assert_eq!(done, format!("0 0 0 {length} 10 {hash:016x} 1 {length}"));
}

// ---- H5: what is not tested ----

#[test]
fn h5_two_records_of_a_chart_are_enough_and_there_is_no_14() {
    assert_eq!(told(given(&base()[..2])), HELD);
    let mut long = given(&base()[..2]);
    for length in [long.len() + 1, long.len() + 24, FILE_LIMIT + 1] {
        long.resize(length, b' ');
        assert_eq!(told(long.clone()), HELD);
    }
    let mut file = FILE.to_vec();
    file.resize(FILE_LIMIT + 1, b' ');
    let shelf = [other(), carried(&file), vec![1]].concat();
    assert_eq!(replied(&HELD, &shelf), Ok(Some((112, FILE_LIMIT + 7))));
    assert_eq!(taken(&carried(&file), ROOM, WORK), Err((14, 2, 0)));
}

#[test]
fn h5_a_holdings_numbers_have_no_range_and_65535_is_followed_by_nothing() {
    let holding = |edition: [u8; 2], update: [u8; 2]| [&[13, 0, 0, 0, 1, 0], &edition[..], &update, b"EZ1"].concat();
    let file = |edition: [u8; 2], update: [u8; 2]| {
        let mut file = FILE.to_vec();
        file[UPDATE_NUMBER - 2..UPDATE_NUMBER].copy_from_slice(&edition);
        file[UPDATE_NUMBER..UPDATE_NUMBER + 2].copy_from_slice(&update);
        carried(&file)
    };
    let found = Ok(Some((0, 112)));
    assert_eq!(replied(&holding([3, 0], [0, 0]), &file([3, 0], [1, 0])), found);
    assert_eq!(replied(&holding([3, 0], [255, 0]), &file([3, 0], [0, 1])), found);
    assert_eq!(replied(&holding([254, 255], [253, 255]), &file([254, 255], [254, 255])), found);
    assert_eq!(replied(&holding([3, 0], [254, 255]), &file([3, 0], [255, 255])), SILENCE);
    for update in [[0, 0], [1, 0], [254, 255], [255, 255]] {
        assert_eq!(replied(&holding([3, 0], [255, 255]), &file([3, 0], update)), SILENCE, "{update:?}");
    }
    assert_eq!(replied(&holding([0, 0], [4, 0]), &file([0, 0], [5, 0])), SILENCE);
    assert_eq!(replied(&holding([255, 255], [4, 0]), &file([255, 255], [5, 0])), SILENCE);
}

// ---- H6: a wrong parcel ----

#[test]
fn h6_a_parcel_has_its_slice_to_itself() {
    let good = carried(FILE);
    assert!(taken(&good, ROOM, WORK).is_ok());
    assert_eq!(taken(&[&good[..], &[0]].concat(), ROOM, WORK), Err(WRONG));
    assert_eq!(taken(&[&good[..], &good].concat(), ROOM, WORK), Err(WRONG));
    for length in 0..good.len() {
        assert_eq!(taken(&good[..length], ROOM, WORK), Err(WRONG), "cut to {length}");
    }
    for (at, byte) in
        [(0, 111), (0, 113), (0, 6), (0, 5), (0, 0), (1, 1), (2, 1), (3, 1), (4, 1), (4, 3), (5, 1), (5, 2)]
    {
        let mut wrong = good.clone();
        wrong[at] = byte;
        assert_eq!(taken(&wrong, ROOM, WORK), Err(WRONG), "byte {at} is {byte}");
    }
    assert_eq!(taken(&HELD, ROOM, WORK), Err(WRONG));
}

#[test]
fn h6_27_comes_before_15_and_all_else() {
    for work in [0, 1, WORK - 1, WORK] {
        assert_eq!(taken(&[0], ROOM, work), Err(WRONG));
        assert_eq!(taken(&HELD, 0, work), Err(WRONG));
        assert_eq!(refused(&Case::take(Vec::new(), HELD.to_vec(), 7, work)), WRONG);
    }
    assert_eq!(taken(&carried(FILE), ROOM, WORK - 1), Err((15, 0, 0)));
    assert_eq!(taken(&carried(&[]), ROOM, WORK - 1), Err((15, 0, 0)));
}
