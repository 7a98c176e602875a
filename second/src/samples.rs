//! The samples: a small chart that any ISO 8211 reader can read, two updates of it, and updates that are refused.

use crate::answer::{self, Answered};
use crate::batch::{framed, Case, MonthCall};
use crate::build::{
    attr, c2il, c2it, cocc, field, file, foid, frid, inas, irid, joined, mrid, parcel, pooled, prid, spas, Field,
    Tuple,
};
use crate::cable;
use crate::calls::WORKSPACE;

/// A sample file: its name and its bytes.
pub type Sample = (String, Vec<u8>);

const NAME: &str = "EZSAMPLE";

// ---- the descriptive record

/// Parent and child tags: the tree structures of the records that the samples have.
const TAG_PAIRS: &str = "DSIDDSSIDSIDATCSDSIDITCSDSIDFTCSDSIDIACSDSIDFACSDSIDARCS\
    CSIDCRSHIRIDATTRIRIDINASPRIDINASPRIDC2ITMRIDINASMRIDCOCCMRIDC2IL\
    FRIDFOIDFRIDATTRFRIDINASFRIDSPAS";

/// The data descriptive fields of S-100 Part 10a: tag, controls and name, labels, formats. That of DSID follows the
/// table of clause 10a-3.4.
const DESCRIBED: [(&str, &str, &str, &str); 19] = [
    (
        "DSID",
        "1600;&%/GData Set Identification",
        "RCNM!RCID!ENSP!ENED!PRSP!PRED!PROF!DSNM!EDTN!UPDN!ISDT",
        "(b11,b14,6A,2b12,A(8))",
    ),
    (
        "DSSI",
        "1600;&   Data Set Structure Information",
        "DCOX!DCOY!DCOZ!CMFX!CMFY!CMFZ!NOIR!NOPN!NOMN!NOCN!NOXN!NOSN!NOFR",
        "(3b48,10b14)",
    ),
    ("ATCS", "2600;&   Attribute Codes", "*ATCD!ANCD", "(A,b12)"),
    ("ITCS", "2600;&   Information Type Codes", "*ITCD!ITNC", "(A,b12)"),
    ("FTCS", "2600;&   Feature Type Codes", "*FTCD!FTNC", "(A,b12)"),
    ("IACS", "2600;&   Information Association Codes", "*IACD!IANC", "(A,b12)"),
    ("FACS", "2600;&   Feature Association Codes", "*FACD!FANC", "(A,b12)"),
    ("ARCS", "2600;&   Association Role Codes", "*ARCD!ARNC", "(A,b12)"),
    ("CSID", "1100;&   Coordinate Reference System Record Identifier", "RCNM!RCID!NCRC", "(b11,b14,b11)"),
    (
        "CRSH",
        "1600;&%/GCoordinate Reference System Header",
        "CRIX!CRST!CSTY!CRNM!CRSI!CRSS!SCRI",
        "(3b11,2A,b11,A)",
    ),
    ("IRID", "1100;&   Information Type Record Identifier", "RCNM!RCID!NITC!RVER!RUIN", "(b11,b14,2b12,b11)"),
    ("PRID", "1100;&   Point Record Identifier", "RCNM!RCID!RVER!RUIN", "(b11,b14,b12,b11)"),
    ("MRID", "1100;&   Multi Point Record Identifier", "RCNM!RCID!RVER!RUIN", "(b11,b14,b12,b11)"),
    ("FRID", "1100;&   Feature Type Record Identifier", "RCNM!RCID!NFTC!RVER!RUIN", "(b11,b14,2b12,b11)"),
    ("FOID", "1100;&   Feature Object Identifier", "AGEN!FIDN!FIDS", "(b12,b14,b12)"),
    ("ATTR", "2600;&%/GAttribute", "*NATC!ATIX!PAIX!ATIN!ATVL", "(3b12,b11,A)"),
    (
        "INAS",
        "3600;&%/GInformation Association",
        "RRNM!RRID!NIAC!NARC!IUIN\\\\*NATC!ATIX!PAIX!ATIN!ATVL",
        "(b11,b14,2b12,b11,{3b12,b11,A})",
    ),
    ("COCC", "1100;&   Coordinate Control", "COUI!COIX!NCOR", "(b11,2b12)"),
    ("SPAS", "2100;&   Spatial Association", "*RRNM!RRID!ORNT!SMIN!SMAX!SAUI", "(b11,b14,b11,2b14,b11)"),
];

/// Those of the coordinates.
const COORDINATES: [(&str, &str, &str, &str); 2] = [
    ("C2IT", "2100;&   2-D Integer Coordinate Tuple", "YCOO!XCOO", "(2b24)"),
    ("C2IL", "2100;&   2-D Integer Coordinate List", "*YCOO!XCOO", "(2b24)"),
];

fn descriptive() -> Vec<Field> {
    let control = format!("0000;&   {NAME}\x1f{TAG_PAIRS}");
    let mut fields = vec![field("0000", control.into_bytes())];
    for (tag, name, labels, formats) in DESCRIBED.iter().chain(&COORDINATES) {
        fields.push(field(tag, format!("{name}\x1f{labels}\x1f{formats}").into_bytes()));
    }
    fields
}

// ---- the general record and the coordinate reference system

fn identification(update: u16) -> Field {
    let mut body = vec![10, 1, 0, 0, 0];
    for text in ["S-100 Part 10a", "1.0", "INT.EZDURVASH.SAMPLE", "1.0", "1", NAME] {
        body.extend_from_slice(text.as_bytes());
        body.push(0x1f);
    }
    body.extend_from_slice(&1u16.to_le_bytes());
    body.extend_from_slice(&update.to_le_bytes());
    body.extend_from_slice(format!("202601{:02}", update + 1).as_bytes());
    field("DSID", body)
}

/// DSSI: origin 0, ten million parts of a degree, hundredths of a metre, and the number of records of each kind.
fn structure(information: u32, points: u32, multi_points: u32, features: u32) -> Field {
    let mut body = Vec::new();
    for origin in [0f64; 3] {
        body.extend_from_slice(&origin.to_le_bytes());
    }
    for number in [10_000_000, 10_000_000, 100, information, points, multi_points, 0, 0, 0, features] {
        body.extend_from_slice(&number.to_le_bytes());
    }
    field("DSSI", body)
}

/// A table of codes.
fn codes(tag: &str, rows: &[(&str, u16)]) -> Field {
    let mut body = Vec::new();
    for (name, number) in rows {
        body.extend_from_slice(name.as_bytes());
        body.push(0x1f);
        body.extend_from_slice(&number.to_le_bytes());
    }
    field(tag, body)
}

const ATTRIBUTES: [(&str, u16); 9] = [
    ("name", 21),
    ("structure", 22),
    ("rank", 23),
    ("origin", 24),
    ("height", 25),
    ("lights", 26),
    ("number", 27),
    ("country", 28),
    ("period", 29),
];

/// Those that the first update uses besides.
const NEW_ATTRIBUTES: [(&str, u16); 4] = [("note", 32), ("signal", 35), ("pitch", 36), ("range", 37)];

fn general() -> Vec<Field> {
    vec![
        identification(0),
        structure(1, 1, 1, 1),
        codes("ATCS", &ATTRIBUTES),
        codes("ITCS", &[("authority", 1)]),
        codes("FTCS", &[("beacon", 77)]),
        codes("IACS", &[("maintenance", 3)]),
        codes("ARCS", &[("maintainer", 4)]),
    ]
}

fn systems() -> Vec<Field> {
    let mut header = vec![1, 1, 1];
    header.extend_from_slice(b"WGS 84\x1f4326\x1f\x02\x1f");
    vec![field("CSID", vec![15, 1, 0, 0, 0, 1]), field("CRSH", header)]
}

// ---- the chart

/// The attributes of clause 10a-4.1.
pub const BEACON: [Tuple; 10] = [
    (21, 1, 0, 1, "Vachon"),
    (22, 1, 0, 1, ""),
    (25, 1, 2, 1, "42.0"),
    (26, 1, 2, 1, ""),
    (29, 1, 4, 1, "17"),
    (29, 2, 4, 1, "43"),
    (23, 1, 0, 1, "12"),
    (24, 1, 0, 1, ""),
    (27, 1, 8, 1, "123"),
    (28, 1, 8, 1, "Canada"),
];

/// Their update of clause 10a-4.2.
pub const BEACON_UPDATE: [Tuple; 11] = [
    (22, 1, 0, 3, ""),
    (26, 1, 1, 3, ""),
    (29, 2, 2, 1, "32"),
    (29, 3, 2, 3, "7"),
    (35, 1, 2, 1, ""),
    (36, 1, 5, 1, "22"),
    (37, 1, 5, 1, "123"),
    (32, 1, 0, 1, "abc"),
    (23, 1, 0, 2, ""),
    (24, 1, 0, 3, ""),
    (28, 1, 10, 3, "Germany"),
];

fn chart() -> Vec<u8> {
    let authority = vec![irid(1, 1, 1, 1), attr(&[(21, 1, 0, 1, "Harbour office")])];
    let light = vec![prid(7, 1, 1), inas(1, 3, 4, 1, &[]), c2it(541_800_000, 121_400_000)];
    let soundings = [(541_801_000, 121_401_000), (541_802_000, 121_402_000), (541_803_000, 121_403_000)];
    let shoal = vec![mrid(5, 1, 1), c2il(&soundings)];
    let beacon = vec![
        frid(3, 77, 1, 1),
        foid(40, 1_001, 1),
        attr(&BEACON),
        inas(1, 3, 4, 1, &[(21, 1, 0, 1, "yearly")]),
        spas(&[(110, 7, 255, 0, u32::MAX, 1), (115, 5, 255, 0, u32::MAX, 1)]),
    ];
    file(&[descriptive(), general(), systems(), authority, light, shoal, beacon])
}

/// An update file: update number, further general fields, records.
fn update(number: u16, tables: Vec<Field>, records: &[Vec<Field>]) -> Vec<u8> {
    let general = [vec![identification(number)], tables].concat();
    file(&[&[descriptive(), general], records].concat())
}

fn first_update() -> Vec<u8> {
    let tables = codes("ATCS", &[&ATTRIBUTES[..], &NEW_ATTRIBUTES[..]].concat());
    update(1, vec![tables], &[vec![frid(3, 77, 2, 3), attr(&BEACON_UPDATE)]])
}

/// A second point, a sounding replaced and one put before it, an association that ends.
fn second_update() -> Vec<u8> {
    let records = [
        vec![prid(8, 1, 1), c2it(541_810_000, 121_410_000)],
        vec![mrid(5, 2, 3), cocc(3, 2, 1), c2il(&[(541_802_500, 121_402_500)])],
        vec![mrid(5, 3, 3), cocc(1, 2, 1), c2il(&[(541_801_500, 121_401_500)])],
        vec![frid(3, 77, 3, 3), inas(1, 3, 4, 2, &[]), spas(&[(110, 7, 255, 0, 0, 2), (110, 8, 255, 0, u32::MAX, 1)])],
    ];
    update(2, vec![structure(1, 2, 1, 1)], &records)
}

/// Updates of the chart that are refused, one for each of five numbers: what is wrong, the file.
fn refused() -> Vec<(u32, &'static str, Vec<u8>)> {
    let value_beside_child = attr(&[(22, 1, 0, 3, "a value")]);
    vec![
        (6, "value-beside-child", update(1, vec![], &[vec![frid(3, 77, 2, 3), value_beside_child]])),
        (7, "point-present", update(1, vec![], &[vec![prid(7, 1, 1), c2it(1, 1)]])),
        (8, "number-skipped", update(2, vec![], &[])),
        (9, "record-absent", update(1, vec![], &[vec![prid(99, 2, 2)]])),
        (11, "point-still-named", update(1, vec![], &[vec![prid(7, 2, 2)]])),
    ]
}

/// The chart after an update.
fn result(chart: &[u8], update: &[u8]) -> Vec<u8> {
    let room = (chart.len() + update.len()) as u32;
    match answer::answer(&Case::update(chart.to_vec(), update.to_vec(), room, WORKSPACE)) {
        Answered::Call { number: 0, length, out, .. } => out[..length].to_vec(),
        other => panic!("a sample update is refused: {}", answer::line(&other)),
    }
}

/// Exchanges over a shelf with both updates, the later one first: the holding of each chart, its answer, and what is made
/// of that. Behind the last chart there is silence.
fn exchanges(charts: [&[u8]; 3], updates: [&[u8]; 2], room: u32) -> Vec<Case> {
    let parcels = updates.map(|update| parcel(2, update));
    let shelf = [&parcels[1][..], &parcels[0]].concat();
    let mut cases = Vec::new();
    for (number, chart) in charts.into_iter().enumerate() {
        let holding = cable::tell(chart, room as usize).expect("a sample chart tells its holding");
        cases.push(Case::tell(chart.to_vec(), room));
        cases.push(Case::reply(holding, shelf.clone()));
        if let Some(parcel) = parcels.get(number) {
            cases.push(Case::take(chart.to_vec(), parcel.clone(), room, WORKSPACE));
        }
    }
    cases
}

/// All sample files, and the calls that they are made for as framed cases with their answers.
pub fn samples() -> Vec<Sample> {
    let chart = chart();
    let (first, second) = (first_update(), second_update());
    let after_first = result(&chart, &first);
    let after_second = result(&after_first, &second);
    let room = 8_192;
    let mut cases = vec![
        Case::read(chart.clone()),
        Case::listing(chart.clone()),
        Case::write(chart.clone(), room),
        Case::update(chart.clone(), first.clone(), room, WORKSPACE),
        Case::update(after_first.clone(), second.clone(), room, WORKSPACE),
        Case::listing(after_second.clone()),
    ];
    // Both updates at once, in pools of this room; and the second again behind them.
    for files in [vec![first.clone(), second.clone()], vec![first.clone(), second.clone(), second.clone()]] {
        let (pool, list) = (pooled(&chart, room as usize, 0), joined(&files));
        let call = MonthCall { first: pool, length: chart.len(), list, second: room as usize, work: WORKSPACE };
        cases.push(Case::month(&call));
    }
    cases.extend(exchanges([&chart, &after_first, &after_second], [&first, &second], room));
    let mut files = vec![("chart.000".to_string(), chart.clone()), ("chart.001".to_string(), first)];
    files.push(("chart.002".to_string(), second));
    for (number, cause, bytes) in refused() {
        files.push((format!("refused-{number:02}-{cause}.001"), bytes.clone()));
        cases.push(Case::update(chart.clone(), bytes, room, WORKSPACE));
    }
    let answers: String = answer::all(&cases).iter().map(|a| answer::line(a) + "\n").collect();
    files.push(("samples.cases".to_string(), framed(&cases)));
    files.push(("samples.answers".to_string(), answers.into_bytes()));
    files
}

#[cfg(test)]
mod tests {
    use super::*;
    use crate::build::tuples;

    fn numbers() -> Vec<String> {
        let files = samples();
        let answers = &files.last().expect("there are samples").1;
        let text = String::from_utf8(answers.clone()).expect("answers are text");
        text.lines().map(|l| l.split(' ').next().unwrap_or("").to_string()).collect()
    }

    #[test]
    fn good_ones_are_done_and_refused_ones_have_their_number() {
        let expected = ["0", "listing", "0", "0", "0", "listing", "0", "8"];
        let exchanges = ["0"; 8];
        let refused = ["6", "7", "8", "9", "11"];
        assert_eq!(numbers(), [&expected[..], &exchanges, &refused].concat());
    }

    #[test]
    fn the_chart_is_its_own_written_form() {
        let chart = chart();
        match answer::answer(&Case::write(chart.clone(), chart.len() as u32)) {
            Answered::Call { number, out, .. } => assert_eq!((number, out), (0, chart)),
            other => panic!("{other:?}"),
        }
    }

    #[test]
    fn the_first_update_gives_the_papers_fourteen_entries() {
        let expected: [Tuple; 14] = [
            (21, 1, 0, 1, "Vachon"),
            (22, 1, 0, 1, ""),
            (25, 1, 2, 1, "42.0"),
            (26, 1, 2, 1, ""),
            (29, 1, 4, 1, "17"),
            (29, 2, 4, 1, "32"),
            (29, 3, 4, 1, "7"),
            (35, 1, 4, 1, ""),
            (36, 1, 8, 1, "22"),
            (37, 1, 8, 1, "123"),
            (24, 1, 0, 1, ""),
            (27, 1, 11, 1, "123"),
            (28, 1, 11, 1, "Germany"),
            (32, 1, 0, 1, "abc"),
        ];
        let dataset = crate::file::dataset(&result(&chart(), &first_update())).expect("the result reads");
        assert_eq!(crate::tree::bytes(&dataset.records[3].attributes), tuples(&expected));
    }

    #[test]
    fn every_field_is_described_and_every_parent_known() {
        let described: Vec<[u8; 4]> = descriptive().iter().skip(1).map(|f| f.tag).collect();
        let in_use = [general(), systems()].concat();
        assert!(in_use.iter().all(|f| described.contains(&f.tag)));
        for tag in TAG_PAIRS.as_bytes().chunks(4) {
            assert!(described.iter().any(|d| d == tag), "{tag:?}");
        }
        assert_eq!(TAG_PAIRS.len() % 8, 0);
    }
}
