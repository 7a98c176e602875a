//! Document 01 through the public entry point: its samples, sizes, skeleton, values, refusal numbers and listing.
//! The order of refusals has a file of its own, and so have the update rules.

mod common;
use common::*;

/// The tree of 10a-4.1.
const CANADA: [Tuple; 10] = [
    (21, 1, 0, INSERT, "Vachon"),
    (22, 1, 0, INSERT, ""),
    (25, 1, 2, INSERT, "42.0"),
    (26, 1, 2, INSERT, ""),
    (29, 1, 4, INSERT, "17"),
    (29, 2, 4, INSERT, "43"),
    (23, 1, 0, INSERT, "12"),
    (24, 1, 0, INSERT, ""),
    (27, 1, 8, INSERT, "123"),
    (28, 1, 8, INSERT, "Canada"),
];

const THREE: [(i32, i32); 3] = [(1, 1), (2, 2), (3, 3)];

// ---- samples ----

#[test]
fn p1_the_update_of_10a_4_2_gives_fourteen_entries() {
    let change = [
        (22, 1, 0, MODIFY, ""),
        (26, 1, 1, MODIFY, ""),
        (29, 2, 2, INSERT, "32"),
        (29, 3, 2, MODIFY, "7"),
        (35, 1, 2, INSERT, ""),
        (36, 1, 5, INSERT, "22"),
        (37, 1, 5, INSERT, "123"),
        (32, 1, 0, INSERT, "abc"),
        (23, 1, 0, DELETE, ""),
        (24, 1, 0, MODIFY, ""),
        (28, 1, 10, MODIFY, "Germany"),
    ];
    let germany = [
        (21, 1, 0, INSERT, "Vachon"),
        (22, 1, 0, INSERT, ""),
        (25, 1, 2, INSERT, "42.0"),
        (26, 1, 2, INSERT, ""),
        (29, 1, 4, INSERT, "17"),
        (29, 2, 4, INSERT, "32"),
        (29, 3, 4, INSERT, "7"),
        (35, 1, 4, INSERT, ""),
        (36, 1, 8, INSERT, "22"),
        (37, 1, 8, INSERT, "123"),
        (24, 1, 0, INSERT, ""),
        (27, 1, 11, INSERT, "123"),
        (28, 1, 11, INSERT, "Germany"),
        (32, 1, 0, INSERT, "abc"),
    ];
    assert_attributes(&CANADA, &change, &germany);
}

#[test]
fn p2_insert_at_4_appends() {
    assert_coordinates(&THREE, cocc(INSERT, 4, 1), &[(9, 9)], &[(1, 1), (2, 2), (3, 3), (9, 9)]);
}

#[test]
fn p3_insert_at_5_is_9() {
    assert_eq!(coordinate_clash(&THREE, cocc(INSERT, 5, 1), &[(9, 9)]), 9);
}

#[test]
fn p4_delete_2_two_leaves_the_first() {
    assert_coordinates(&THREE, cocc(DELETE, 2, 2), &[], &[(1, 1)]);
}

#[test]
fn p5_delete_2_three_is_9() {
    assert_eq!(coordinate_clash(&THREE, cocc(DELETE, 2, 3), &[]), 9);
}

#[test]
fn p6_coordinate_of_all_bits_one_is_minus_one() {
    assert_eq!(c2it(-1, -1).body, vec![0xff; 8]);
    assert_good(POINT, vec![prid(1, 1, INSERT), field("C2IT", vec![0xff; 8])]);
    assert_good(MULTI_POINT, vec![mrid(1, 1, INSERT), field("C2IL", vec![0xff; 16])]);
}

#[test]
fn p7_rcid_0_is_5() {
    assert_eq!(record_fault(SECOND_POINT, vec![prid(0, 1, INSERT), c2it(1, 1)]), 5);
    assert_good(SECOND_POINT, vec![prid(3, 1, INSERT), c2it(1, 1)]);
    assert_eq!(change_fault(vec![prid(0, 1, INSERT), c2it(1, 1)]), 5);
}

#[test]
fn p8_update_number_equal_to_the_datasets_is_8() {
    assert_eq!(file_refused(numbered_update(NUMBER)), (8, 2, 2));
    assert_eq!(file_refused(numbered_update(NUMBER + 2)), (8, 2, 2));
    done(&Case::update(given(&base()), numbered_update(NUMBER + 1), ROOM, WORK));
}

fn numbered_update(number: u16) -> Vec<u8> {
    given(&with(update_records(&[]), GENERAL, vec![dsid(1, NAME, EDITION, number)]))
}

#[test]
fn p9_second_entry_of_one_code_and_parent_with_index_1_is_6() {
    let feature = |index| {
        let attributes = attr(&[(21, 1, 0, INSERT, "a"), (21, index, 0, INSERT, "b")]);
        vec![frid(1, 30, 1, INSERT), foid(1, 1, 1), attributes]
    };
    assert_eq!(record_fault(FEATURE, feature(1)), 6);
    assert_good(FEATURE, feature(2));
}

#[test]
fn p10_two_modifies_of_version_4_need_5_and_6() {
    let modify = |rver| vec![prid(2, rver, MODIFY)];
    let result = base_with(SECOND_POINT, vec![prid(2, 6, INSERT), c2it(i32::MIN, i32::MAX)]);
    assert_updates(&base(), &[modify(5), modify(6)], &result);
    assert_eq!(update_refused(&base(), &[modify(5), modify(5)]), (10, 2, 4));
    assert_eq!(update_refused(&base(), &[modify(4), modify(5)]), (10, 2, 3));
    assert_eq!(update_refused(&base(), &[modify(6), modify(5)]), (10, 2, 3));
}

// ---- sizes and the written form ----

/// How many bytes one more record adds to the written dataset.
fn written_size(number: usize, record: Record) -> usize {
    written(&given(&base_plus(number, record))).len() - written(&given(&base())).len()
}

#[test]
fn a_point_without_association_is_71_bytes() {
    assert_eq!(written_size(SECOND_POINT, vec![prid(9, 1, INSERT), c2it(1, 2)]), 71);
}

#[test]
fn a_multi_point_of_n_tuples_is_63_and_8n_bytes() {
    for count in [1, 2, 1_000] {
        assert_eq!(written_size(FEATURE, vec![mrid(9, 1, INSERT), c2il(&many(count))]), 63 + 8 * count);
    }
}

#[test]
fn an_empty_multi_point_is_48_bytes_with_or_without_its_empty_field() {
    assert_eq!(written_size(FEATURE, vec![mrid(9, 1, INSERT)]), 48);
    assert_eq!(written_size(FEATURE, vec![mrid(9, 1, INSERT), c2il(&[])]), 48);
    assert_eq!(written_size(FEATURE, vec![mrid(9, 1, INSERT), c2il(&[]), c2il(&[])]), 48);
}

#[test]
fn every_width_of_the_directory_is_read_and_written_as_five() {
    let point = vec![prid(1, 1, INSERT), c2it(10, -20)];
    let want = file(&base_with(POINT, point.clone()));
    for (a, b) in (1..=9).flat_map(|a| (1..=9).map(move |b| (a, b))) {
        assert_same(&written(&replaced(&base(), POINT, record(false, a, b, &point))), &want);
    }
}

#[test]
fn spatial_associations_and_coordinate_lists_are_joined() {
    let (one, other) = ((110, 1, 1, 2, 3, INSERT), (115, 1, 2, 4, 5, INSERT));
    let feature = |lists: &[Field]| [&[frid(1, 30, 1, INSERT), foid(7, 8, 9)], lists].concat();
    assert_written(FEATURE, feature(&[spas(&[one]), spas(&[]), spas(&[other])]), feature(&[spas(&[one, other])]));
    let multi_point = |lists: &[Field]| [&[mrid(1, 1, INSERT)], lists].concat();
    let given_as = multi_point(&[c2il(&[(1, 2)]), c2il(&[]), c2il(&[(3, 4), (5, 6)])]);
    assert_written(MULTI_POINT, given_as, multi_point(&[c2il(&[(1, 2), (3, 4), (5, 6)])]));
}

#[test]
fn information_associations_are_never_joined() {
    let attributes = [(40, 1, 0, INSERT, "x")];
    let associations = [inas(1, 5, 6, INSERT, &[]), inas(1, 5, 7, INSERT, &attributes), inas(2, 5, 6, INSERT, &[])];
    assert_good(MULTI_POINT, [&[mrid(1, 1, INSERT)], &associations[..], &[c2il(&[(1, 1)])]].concat());
}

#[test]
fn every_kind_takes_any_number_of_information_associations() {
    for count in [0, 1, 2, 500] {
        let associations: Record = (0..count).map(|role| inas(1, 5, role, INSERT, &[])).collect();
        let record = |before: &[Field], after: &[Field]| [before, &associations, after].concat();
        assert_good(INFORMATION, record(&[irid(1, 20, 1, INSERT), attr(&[(1, 1, 0, INSERT, "v")])], &[]));
        assert_good(POINT, record(&[prid(1, 1, INSERT)], &[c2it(1, 2)]));
        assert_good(MULTI_POINT, record(&[mrid(1, 1, INSERT)], &[c2il(&[(1, 2)])]));
        let spatial = spas(&[(110, 1, 1, 0, 0, INSERT)]);
        assert_good(FEATURE, record(&[frid(1, 30, 1, INSERT), foid(1, 1, 1)], &[spatial]));
    }
}

#[test]
fn an_empty_list_has_no_field() {
    let bare = vec![frid(1, 30, 1, INSERT), foid(7, 8, 9)];
    assert_written(FEATURE, [&bare[..], &[attr(&[]), spas(&[])]].concat(), bare);
    assert_written(INFORMATION, vec![irid(1, 20, 1, INSERT), attr(&[])], vec![irid(1, 20, 1, INSERT)]);
}

#[test]
fn unread_fields_keep_tag_bytes_and_order() {
    let descriptive = vec![field("ZZZZ", vec![0x1e; 3]), field("AAAA", Vec::new()), field("ZZZZ", vec![0x1f])];
    let records = base_with(DESCRIPTIVE, descriptive);
    let rest: Record = ["DSSI", "ATCS", "ITCS", "FTCS", "IACS", "FACS", "ARCS"]
        .iter()
        .enumerate()
        .map(|(n, tag)| field(tag, vec![0x1e; n]))
        .collect();
    let records = with(records, GENERAL, [general(NUMBER)[..1].to_vec(), rest].concat());
    let system = vec![field("CSID", Vec::new()), field("PROJ", vec![0; 40]), field("CSAX", vec![0x1e, 0x1f])];
    let records = with(records, SYSTEM, system);
    assert_same(&written(&given(&records)), &file(&records));
}

#[test]
fn a_written_dataset_is_written_the_same_again() {
    let once = written(&given(&base()));
    assert_same(&once, &file(&base()));
    assert_same(&written(&once), &once);
}

// ---- 12,492 tuples ----

/// The base dataset with another multi point before the features, given in narrow widths.
fn with_multi_point(count: usize) -> Vec<u8> {
    let mut parts = parts(&base());
    parts.insert(FEATURE - 1, narrow_multi_point(9, count));
    parts.concat()
}

#[test]
fn twelve_thousand_four_hundred_ninety_two_tuples_are_written_in_99_999_bytes() {
    let dataset = with_multi_point(12_492);
    let want = base_plus(FEATURE, vec![mrid(9, 1, INSERT), c2il(&many(12_492))]);
    assert_eq!(record(false, 5, 5, &want[FEATURE - 1]).len(), 99_999);
    assert!(written(&dataset) == file(&want), "not written as it stands");
    let result = done(&Case::update(dataset, update_file(&[]), ROOM, WORK));
    let want = with(want, GENERAL, general_after());
    assert!(result == file(&want), "not carried as it stands");
}

#[test]
fn one_tuple_more_is_12_at_its_record_though_the_reader_accepts() {
    let dataset = with_multi_point(12_493);
    assert_eq!(counted(&dataset), base().len() + 1);
    assert_eq!(refused(&Case::write(dataset.clone(), ROOM)), (12, 1, FEATURE));
    assert_eq!(refused(&Case::update(dataset, update_file(&[]), ROOM, WORK)), (12, 1, FEATURE));
}

#[test]
fn an_update_may_make_12_492_tuples_and_no_more() {
    let dataset = with_multi_point(12_491);
    let change = |sent: &[(i32, i32)]| {
        let control = cocc(INSERT, 1, sent.len() as u16);
        vec![mrid(9, 2, MODIFY), control, c2il(sent)]
    };
    let other = vec![prid(2, 5, MODIFY)];
    let result = done(&Case::update(dataset.clone(), update_file(&[change(&[(7, 7)])]), ROOM, WORK));
    let tuples = [&[(7, 7)], &many(12_491)[..]].concat();
    let want = base_plus(FEATURE, vec![mrid(9, 2, INSERT), c2il(&tuples)]);
    let want = with(want, GENERAL, general_after());
    assert!(result == file(&want), "not the tuples asked for");
    let update = update_file(&[other, change(&[(7, 7), (8, 8)])]);
    assert_eq!(refused(&Case::update(dataset, update, ROOM, WORK)), (12, 2, 4));
}

#[test]
fn an_inserted_record_may_have_12_492_tuples_and_no_more() {
    let update = |count| [parts(&update_records(&[])), vec![narrow_multi_point(9, count)]].concat().concat();
    let result = done(&Case::update(given(&base()), update(12_492), ROOM, WORK));
    let want = base_plus(FEATURE, vec![mrid(9, 1, INSERT), c2il(&many(12_492))]);
    assert!(result == file(&with(want, GENERAL, general_after())), "not inserted as sent");
    assert_eq!(file_refused(update(12_493)), (12, 2, 3));
}

// ---- 99,999 bytes to the byte ----

/// How many bytes more these fields can take before their written record has that size.
fn left_of(size: usize, fields: &[Field]) -> usize {
    size - record(false, 5, 5, fields).len()
}

#[test]
fn a_dataset_record_of_100_000_written_bytes_is_12() {
    let dataset = |size: usize| {
        let mut system = vec![field("CSID", Vec::new()), field("CRSH", Vec::new())];
        system[1].body = vec![b'.'; left_of(size, &system)];
        replaced(&base(), SYSTEM, tight(false, &system))
    };
    let (fits, long) = (dataset(99_999), dataset(100_000));
    assert_eq!(&written(&fits)[parts(&base())[..2].concat().len()..][..5], b"99999");
    assert!(done(&Case::update(fits, update_file(&[]), ROOM, WORK)).len() > 99_999);
    assert_eq!(counted(&long), base().len());
    assert_eq!(refused(&Case::write(long.clone(), ROOM)), (12, 1, SYSTEM));
    assert_eq!(refused(&Case::update(long, update_file(&[]), ROOM, WORK)), (12, 1, SYSTEM));
}

#[test]
fn an_updated_record_of_100_000_written_bytes_is_12() {
    let emptied = [frid(1, 30, 1, INSERT), foid(7, 8, 9), attr(&[(1, 1, 0, INSERT, "")])];
    let fits = "v".repeat(left_of(99_999, &emptied));
    let long = "v".repeat(left_of(100_000, &emptied));
    let old = [(1, 1, 0, INSERT, "a")];
    assert_attributes(&old, &[(1, 1, 0, MODIFY, &fits)], &[(1, 1, 0, INSERT, &fits)]);
    assert_eq!(attribute_clash(&old, &[(1, 1, 0, MODIFY, &long)]), 12);
}

#[test]
fn a_merged_general_record_of_100_000_written_bytes_is_12() {
    let (identification, rest) = (dsid(1, NAME, EDITION, NUMBER + 1), general_rest());
    let merged = |codes: Field| vec![identification.clone(), rest[0].clone(), codes, rest[2].clone()];
    let codes = |size| field("ATCS", vec![b'.'; left_of(size, &merged(field("ATCS", Vec::new())))]);
    let update = |size| {
        let general = vec![identification.clone(), codes(size)];
        Case::update(given(&base()), given(&with(update_records(&[]), GENERAL, general)), ROOM, WORK)
    };
    assert_same(&done(&update(99_999)), &file(&base_with(GENERAL, merged(codes(99_999)))));
    assert_eq!(refused(&update(100_000)), (12, 2, 2));
}

// ---- the skeleton ----

/// The number with which the base dataset is refused at this record after its bytes were changed.
fn spoiled_fault(number: usize, spoil: impl Fn(&mut Vec<u8>)) -> u32 {
    let (fault, file, place) = dataset_refused(&spoiled(&base(), number, spoil));
    assert_eq!((file, place), (1, number), "place of {fault}");
    fault
}

#[test]
fn every_fixed_leader_byte_is_2_in_first_and_later_records() {
    for number in [DESCRIPTIVE, GENERAL, SYSTEM, POINT, SECOND_FEATURE] {
        for at in (5..12).chain(17..24) {
            assert_eq!(spoiled_fault(number, |bytes| bytes[at] = b'~'), 2, "byte {at} of record {number}");
        }
    }
}

#[test]
fn leader_digits_that_are_none_are_2() {
    for at in (0..5).chain(12..17) {
        for byte in [b' ', b'+', b'-', b'/', b':', b'a', 0] {
            assert_eq!(spoiled_fault(POINT, |bytes| bytes[at] = byte), 2, "byte {at}");
        }
    }
}

#[test]
fn widths_of_zero_are_2() {
    assert_eq!(spoiled_fault(POINT, |bytes| bytes[20] = b'0'), 2);
    assert_eq!(spoiled_fault(POINT, |bytes| bytes[21] = b'0'), 2);
}

#[test]
fn the_first_records_leader_is_no_other_records() {
    let records = base();
    let as_first = record(true, 5, 5, &records[POINT - 1]);
    assert_eq!(dataset_refused(&replaced(&records, POINT, as_first)), (2, 1, POINT));
    let as_later = record(false, 5, 5, &records[0]);
    assert_eq!(dataset_refused(&replaced(&records, DESCRIPTIVE, as_later)), (2, 1, 1));
}

#[test]
fn the_base_address_is_the_offset_after_the_directory() {
    for off_by in [-1, 1] {
        let base_address = (24 + 2 * 14 + 1 + off_by) as usize;
        assert_eq!(spoiled_fault(SECOND_POINT, |bytes| set_digits(bytes, 12, base_address)), 3);
    }
}

#[test]
fn fields_lie_from_position_0_without_gaps_in_directory_order() {
    let area = [&prid(1, 1, INSERT).body[..], &[0x1e], &c2it(1, 1).body, &[0x1e]].concat();
    let point = |entries: &[(&str, usize, usize)]| replaced(&base(), POINT, raw(false, entries, &area));
    let good = point(&[("PRID", 9, 0), ("C2IT", 9, 9)]);
    assert_same(&written(&good), &file(&base_with(POINT, vec![prid(1, 1, INSERT), c2it(1, 1)])));
    let wrong: [&[(&str, usize, usize)]; 6] = [
        &[("C2IT", 9, 9), ("PRID", 9, 0)],
        &[("PRID", 9, 0), ("C2IT", 9, 8)],
        &[("PRID", 9, 0), ("C2IT", 8, 10)],
        &[("PRID", 9, 1), ("C2IT", 9, 9)],
        &[("PRID", 9, 0), ("C2IT", 8, 9)],
        &[("PRID", 9, 0), ("C2IT", 10, 9)],
    ];
    for entries in wrong {
        assert_eq!(dataset_refused(&point(entries)), (3, 1, POINT), "{entries:?}");
    }
}

#[test]
fn fields_fill_the_record() {
    let grown = |bytes: &mut Vec<u8>| {
        bytes.push(0x1e);
        state_length(bytes, 0);
    };
    assert_eq!(spoiled_fault(POINT, grown), 3);
    assert_eq!(spoiled_fault(DESCRIPTIVE, grown), 3);
}

#[test]
fn a_record_has_at_least_one_field() {
    assert_eq!(dataset_refused(&replaced(&base(), DESCRIPTIVE, raw(true, &[], &[]))), (3, 1, 1));
    assert_eq!(dataset_refused(&replaced(&base(), POINT, raw(false, &[], &[]))), (3, 1, POINT));
}

#[test]
fn each_field_ends_in_1e() {
    assert_eq!(spoiled_fault(POINT, |bytes| *bytes.last_mut().unwrap() = 0x1f), 3);
    assert_eq!(spoiled_fault(SECOND_POINT, |bytes| bytes[24 + 28 + 1 + 8] = 0), 3);
}

#[test]
fn a_directory_that_never_ends_is_3() {
    assert_eq!(spoiled_fault(SECOND_POINT, |bytes| bytes[24 + 28] = b'X'), 3);
}

#[test]
fn a_1e_inside_a_field_or_an_entry_is_data() {
    assert_good(POINT, vec![prid(1, 0x1e1e, INSERT), c2it(0x1e1e1e1e, 0x1f1e1f1e)]);
    let tag = Field { tag: [b'T', 0x1e, 0x1e, 0x1e], body: vec![0x1e; 5] };
    assert_good(DESCRIPTIVE, vec![tag.clone(), tag]);
}

// ---- values ----

/// A dataset record for each kind with this RCID.
fn records_numbered(rcid: u32) -> [(usize, Record); 5] {
    let general = identification(rcid, [NAME; 6], EDITION, NUMBER, b"20260101");
    [
        (GENERAL, vec![general]),
        (SECOND_INFORMATION, vec![irid(rcid, 21, 1, INSERT)]),
        (SECOND_POINT, vec![prid(rcid, 1, INSERT), c2it(0, 0)]),
        (MULTI_POINT, vec![mrid(rcid, 1, INSERT)]),
        (SECOND_FEATURE, vec![frid(rcid, 31, 1, INSERT), foid(1, 1, 1)]),
    ]
}

#[test]
fn rcid_is_1_to_4_294_967_294() {
    for (number, record) in records_numbered(u32::MAX).into_iter().chain(records_numbered(0)) {
        assert_eq!(record_fault(number, record), 5, "record {number}");
    }
    let mut records = base();
    records[FEATURE - 1] = vec![frid(1, 30, 1, INSERT), foid(7, 8, 9)];
    for (number, record) in records_numbered(u32::MAX - 1) {
        records[number - 1] = record;
    }
    records[SECOND_FEATURE - 1].push(spas(&[(115, u32::MAX - 1, 1, 0, 0, INSERT)]));
    assert_same(&written(&given(&records)), &file(&records));
}

#[test]
fn edition_is_1_to_65_534_and_update_number_0_to_65_534() {
    let general = |edition, number| vec![dsid(1, NAME, edition, number)];
    for (edition, number) in [(0, 0), (65_535, 0), (1, 65_535)] {
        assert_eq!(record_fault(GENERAL, general(edition, number)), 5);
    }
    for (edition, number) in [(1, 0), (65_534, 65_534)] {
        assert_good(GENERAL, general(edition, number));
    }
}

#[test]
fn the_updates_identification_has_the_same_ranges() {
    let update = |general: Field| given(&with(update_records(&[]), GENERAL, vec![general]));
    let wrong = [
        dsid(0, NAME, EDITION, NUMBER + 1),
        dsid(u32::MAX, NAME, EDITION, NUMBER + 1),
        dsid(1, NAME, 0, NUMBER + 1),
        dsid(1, NAME, 65_535, NUMBER + 1),
        dsid(1, NAME, EDITION, 65_535),
        poked(dsid(1, NAME, EDITION, NUMBER + 1), 0, 110),
    ];
    for general in wrong {
        assert_eq!(file_refused(update(general)), (5, 2, 2));
    }
    done(&Case::update(given(&base()), update(dsid(u32::MAX - 1, NAME, EDITION, NUMBER + 1)), ROOM, WORK));
}

#[test]
fn version_is_1_to_65_534() {
    let records = |rver| {
        [
            (SECOND_INFORMATION, vec![irid(2, 21, rver, INSERT)]),
            (SECOND_POINT, vec![prid(2, rver, INSERT), c2it(0, 0)]),
            (MULTI_POINT, vec![mrid(1, rver, INSERT)]),
            (FEATURE, vec![frid(1, 30, rver, INSERT), foid(1, 1, 1)]),
        ]
    };
    for (number, record) in records(0).into_iter().chain(records(65_535)) {
        assert_eq!(record_fault(number, record), 5);
    }
    for (number, record) in records(1).into_iter().chain(records(65_534)) {
        assert_good(number, record);
    }
}

#[test]
fn codes_are_0_to_65_534() {
    let records = |code| {
        let feature = vec![frid(1, 30, 1, INSERT), foid(1, 1, 1)];
        let more = |field: Field| [&feature[..], &[field]].concat();
        [
            (SECOND_INFORMATION, vec![irid(2, code, 1, INSERT)]),
            (FEATURE, vec![frid(1, code, 1, INSERT), foid(1, 1, 1)]),
            (FEATURE, more(attr(&[(code, 1, 0, INSERT, "v")]))),
            (FEATURE, more(inas(1, code, 6, INSERT, &[]))),
            (FEATURE, more(inas(1, 5, code, INSERT, &[]))),
            (FEATURE, more(inas(1, 5, 6, INSERT, &[(code, 1, 0, INSERT, "v")]))),
        ]
    };
    for (number, record) in records(65_535) {
        assert_eq!(record_fault(number, record), 5);
    }
    for (number, record) in records(0).into_iter().chain(records(65_534)) {
        assert_good(number, record);
    }
}

#[test]
fn attribute_index_0_and_65_535_are_5_and_others_6() {
    let feature = |index| vec![frid(1, 30, 1, INSERT), foid(1, 1, 1), attr(&[(1, index, 0, INSERT, "v")])];
    for (index, fault) in [(0, 5), (65_535, 5), (2, 6), (65_534, 6)] {
        assert_eq!(record_fault(FEATURE, feature(index)), fault);
    }
}

#[test]
fn coordinate_index_and_count_are_1_to_65_534() {
    for (index, count) in [(0, 1), (65_535, 1), (1, 0), (1, 65_535)] {
        assert_eq!(coordinate_clash(&THREE, cocc(DELETE, index, count), &[]), 5);
    }
    for (index, count) in [(65_534, 1), (1, 65_534)] {
        assert_eq!(coordinate_clash(&THREE, cocc(DELETE, index, count), &[]), 9);
    }
}

#[test]
fn instructions_of_an_update_record_are_1_to_3() {
    for ruin in [0, 4, 30, 31, 255] {
        let changes = [vec![irid(2, 21, 3, ruin)], vec![prid(2, 5, ruin)], vec![mrid(1, 2, ruin)]];
        for change in changes.into_iter().chain([vec![frid(2, 31, 7, ruin)]]) {
            assert_eq!(change_fault(change), 5);
        }
        let attribute = (50, 1, 0, ruin, "v");
        assert_eq!(change_fault(vec![frid(1, 30, 2, MODIFY), attr(&[attribute])]), 5);
        assert_eq!(change_fault(vec![mrid(1, 2, MODIFY), cocc(ruin, 1, 1)]), 5);
    }
    for change in [vec![irid(2, 21, 3, MODIFY)], vec![prid(2, 5, MODIFY)], vec![mrid(1, 2, MODIFY)]] {
        assert_accepted(&[change]);
    }
}

#[test]
fn association_instructions_are_1_or_2() {
    let feature = |field: Field| vec![frid(1, 30, 2, MODIFY), field];
    for instruction in [0, 3, 4, 255] {
        assert_eq!(change_fault(feature(inas(1, 5, 6, instruction, &[]))), 5);
        assert_eq!(change_fault(feature(spas(&[(110, 1, 255, 1, 2, instruction)]))), 5);
    }
    assert_accepted(&[feature(inas(1, 5, 6, DELETE, &[])), vec![frid(1, 30, 3, MODIFY), inas(1, 5, 6, INSERT, &[])]]);
    assert_accepted(&[feature(spas(&[(110, 1, 255, 1, 2, DELETE)]))]);
}

#[test]
fn every_instruction_of_a_dataset_is_insert() {
    for other in [0, DELETE, MODIFY, 4, 255] {
        let feature = |field: Field| vec![frid(1, 30, 1, INSERT), foid(1, 1, 1), field];
        let wrong = [
            (SECOND_INFORMATION, vec![irid(2, 21, 1, other)]),
            (SECOND_POINT, vec![prid(2, 1, other), c2it(0, 0)]),
            (MULTI_POINT, vec![mrid(1, 1, other), c2il(&[])]),
            (FEATURE, vec![frid(1, 30, 1, other), foid(1, 1, 1)]),
            (FEATURE, feature(attr(&[(1, 1, 0, other, "v")]))),
            (FEATURE, feature(inas(1, 5, 6, other, &[]))),
            (FEATURE, feature(inas(1, 5, 6, INSERT, &[(1, 1, 0, other, "v")]))),
            (FEATURE, feature(spas(&[(110, 1, 1, 0, 0, other)]))),
        ];
        for (number, record) in wrong {
            assert_eq!(record_fault(number, record), 5, "instruction {other} in record {number}");
        }
    }
}

#[test]
fn orientation_is_1_2_or_255() {
    let feature = |ornt| vec![frid(1, 30, 1, INSERT), foid(1, 1, 1), spas(&[(110, 1, ornt, 0, 0, INSERT)])];
    for ornt in [0, 3, 4, 254] {
        assert_eq!(record_fault(FEATURE, feature(ornt)), 5);
    }
    for ornt in [1, 2, 255] {
        assert_good(FEATURE, feature(ornt));
    }
}

#[test]
fn spas_names_points_or_multi_points_and_inas_information_types() {
    let feature = |field: Field| vec![frid(1, 30, 1, INSERT), foid(1, 1, 1), field];
    for rrnm in [0, 100, 120, 150, 255] {
        assert_eq!(record_fault(FEATURE, feature(spas(&[(rrnm, 1, 1, 0, 0, INSERT)]))), 5);
    }
    for rrnm in [0, 100, 110, 115, 255] {
        assert_eq!(record_fault(FEATURE, feature(poked(inas(1, 5, 6, INSERT, &[]), 0, rrnm))), 5);
    }
    for rrnm in [110, 115] {
        assert_good(FEATURE, feature(spas(&[(rrnm, 1, 1, 0, 0, INSERT)])));
    }
}

#[test]
fn the_omitted_mark_is_allowed_in_foid_and_scales() {
    let spatial = spas(&[(110, 1, 1, u32::MAX, u32::MAX, INSERT)]);
    assert_good(FEATURE, vec![frid(1, 30, 1, INSERT), foid(65_535, u32::MAX, 65_535), spatial]);
}

#[test]
fn record_names_belong_to_their_tags() {
    let wrong = [
        (GENERAL, vec![poked(dsid(1, NAME, 1, 1), 0, 11)]),
        (SECOND_INFORMATION, vec![coded("IRID", 100, 2, 21, 1, INSERT)]),
        (SECOND_POINT, vec![plain("PRID", 115, 2, 1, INSERT), c2it(0, 0)]),
        (MULTI_POINT, vec![plain("MRID", 110, 1, 1, INSERT)]),
        (FEATURE, vec![coded("FRID", 150, 1, 30, 1, INSERT), foid(1, 1, 1)]),
    ];
    for (number, record) in wrong {
        assert_eq!(record_fault(number, record), 5);
    }
}

#[test]
fn texts_hold_any_byte_but_1e_and_1f() {
    let attributes = |value: &[u8]| {
        let body = [&[1, 0, 1, 0, 0, 0, INSERT], value, &[0x1f]].concat();
        vec![frid(1, 30, 1, INSERT), foid(1, 1, 1), field("ATTR", body)]
    };
    let all: Vec<u8> = (0..=255).filter(|byte| ![0x1e, 0x1f].contains(byte)).collect();
    assert_good(FEATURE, attributes(&all));
    assert_good(FEATURE, attributes(b""));
    assert_eq!(record_fault(FEATURE, attributes(&[b'a', 0x1e])), 5);
    assert_eq!(record_fault(FEATURE, attributes(&[b'a', 0x1f])), 5);
}

#[test]
fn subfields_fill_their_field() {
    let feature = |field: Field| vec![frid(1, 30, 1, INSERT), foid(1, 1, 1), field];
    let resizings = |number: usize, size: usize, make: &dyn Fn(usize) -> Record| {
        assert_good(number, make(size));
        for other in [size - 1, size + 1] {
            assert_eq!(record_fault(number, make(other)), 5, "{other} bytes for {size}");
        }
    };
    resizings(SECOND_INFORMATION, 10, &|size| vec![resized(irid(2, 21, 1, INSERT), size)]);
    resizings(SECOND_POINT, 8, &|size| vec![resized(prid(2, 1, INSERT), size), c2it(0, 0)]);
    resizings(SECOND_POINT, 8, &|size| vec![prid(2, 1, INSERT), resized(c2it(0, 0), size)]);
    resizings(MULTI_POINT, 8, &|size| vec![resized(mrid(1, 1, INSERT), size)]);
    resizings(MULTI_POINT, 16, &|size| vec![mrid(1, 1, INSERT), resized(c2il(&[(1, 1), (2, 2)]), size)]);
    resizings(FEATURE, 10, &|size| vec![resized(frid(1, 30, 1, INSERT), size), foid(1, 1, 1)]);
    resizings(FEATURE, 8, &|size| vec![frid(1, 30, 1, INSERT), resized(foid(1, 1, 1), size)]);
    resizings(FEATURE, 10, &|size| feature(resized(inas(1, 5, 6, INSERT, &[]), size)));
    resizings(FEATURE, 15, &|size| feature(resized(spas(&[(110, 1, 1, 0, 0, INSERT)]), size)));
    resizings(FEATURE, 8, &|size| feature(resized(attr(&[(1, 1, 0, INSERT, "")]), size)));
}

#[test]
fn dsid_is_taken_as_in_10a_3_4() {
    let general = |body: Vec<u8>| vec![field("DSID", body)];
    let good = dsid(1, NAME, EDITION, NUMBER).body;
    assert_good(GENERAL, general(good.clone()));
    for size in 0..good.len() {
        assert_eq!(record_fault(GENERAL, general(good[..size].to_vec())), 5, "{size} bytes");
    }
    for more in [0, b' ', 0x1f] {
        assert_eq!(record_fault(GENERAL, general([&good[..], &[more]].concat())), 5);
    }
}

// ---- numbers of refusal ----

#[test]
fn number_1_is_an_empty_file_a_short_leader_or_a_length_past_the_end() {
    assert_eq!(dataset_refused(&[]), (1, 1, 1));
    assert_eq!(file_refused(Vec::new()), (1, 2, 1));
    for left in [1, 23] {
        assert_eq!(dataset_refused(&[file(&base()), vec![b'0'; left]].concat()), (1, 1, base().len() + 1));
        assert_eq!(file_refused([update_file(&[]), vec![b'0'; left]].concat()), (1, 2, 3));
    }
    let mut dataset = file(&base());
    dataset.pop();
    assert_eq!(dataset_refused(&dataset), (1, 1, base().len()));
    let mut update = update_file(&[vec![prid(2, 5, MODIFY)]]);
    update.pop();
    assert_eq!(file_refused(update), (1, 2, 3));
}

#[test]
fn numbers_2_and_3_are_told_of_the_update_too() {
    let update = update_records(&[vec![prid(2, 5, MODIFY)]]);
    for number in 1..=3 {
        assert_eq!(file_refused(spoiled(&update, number, |bytes| bytes[22] = b'1')), (2, 2, number));
        assert_eq!(file_refused(spoiled(&update, number, |bytes| *bytes.last_mut().unwrap() = 0)), (3, 2, number));
    }
}

#[test]
fn number_4_is_a_wrong_tag_order_or_absence() {
    let wrong = [
        (INFORMATION, vec![irid(1, 20, 1, INSERT), foid(1, 1, 1)]),
        (INFORMATION, vec![irid(1, 20, 1, INSERT), inas(1, 5, 6, INSERT, &[]), attr(&[])]),
        (INFORMATION, vec![irid(1, 20, 1, INSERT), attr(&[]), attr(&[])]),
        (POINT, vec![prid(1, 1, INSERT)]),
        (POINT, vec![prid(1, 1, INSERT), c2it(0, 0), inas(1, 5, 6, INSERT, &[])]),
        (POINT, vec![c2it(0, 0), prid(1, 1, INSERT)]),
        (MULTI_POINT, vec![mrid(1, 1, INSERT), c2il(&[]), inas(1, 5, 6, INSERT, &[])]),
        (FEATURE, vec![frid(1, 30, 1, INSERT)]),
        (FEATURE, vec![frid(1, 30, 1, INSERT), attr(&[]), foid(1, 1, 1)]),
        (FEATURE, vec![frid(1, 30, 1, INSERT), foid(1, 1, 1), foid(1, 1, 1)]),
        (FEATURE, vec![frid(1, 30, 1, INSERT), foid(1, 1, 1), attr(&[]), attr(&[])]),
        (FEATURE, vec![frid(1, 30, 1, INSERT), foid(1, 1, 1), spas(&[]), inas(1, 5, 6, INSERT, &[])]),
        (FEATURE, vec![frid(1, 30, 1, INSERT), foid(1, 1, 1), inas(1, 5, 6, INSERT, &[]), attr(&[])]),
        (POINT, vec![prid(1, 1, INSERT), prid(1, 1, INSERT), c2it(0, 0)]),
    ];
    for (number, record) in wrong {
        assert_eq!(record_fault(number, record.clone()), 4, "{record:?}");
    }
}

#[test]
fn number_4_is_a_coordinate_control_in_a_dataset() {
    assert_eq!(record_fault(MULTI_POINT, vec![mrid(1, 1, INSERT), cocc(INSERT, 1, 1), c2il(&[(1, 1)])]), 4);
    assert_good(MULTI_POINT, vec![mrid(1, 1, INSERT), c2il(&[(1, 1)])]);
}

#[test]
fn number_4_is_a_general_field_twice_or_out_of_order() {
    let general = |tags: &[&str]| {
        let rest: Record = tags.iter().map(|tag| field(tag, Vec::new())).collect();
        [vec![dsid(1, NAME, EDITION, NUMBER)], rest].concat()
    };
    let order = ["DSSI", "ATCS", "ITCS", "FTCS", "IACS", "FACS", "ARCS"];
    assert_good(GENERAL, general(&order));
    for pair in order.windows(2) {
        assert_good(GENERAL, general(pair));
        assert_eq!(record_fault(GENERAL, general(&[pair[1], pair[0]])), 4);
        assert_eq!(record_fault(GENERAL, general(&[pair[0], pair[0]])), 4);
    }
    assert_eq!(record_fault(GENERAL, general(&["DSID"])), 4);
    assert_eq!(record_fault(GENERAL, general(&["XXXX"])), 4);
    assert_eq!(record_fault(GENERAL, vec![field("DSSI", Vec::new()), dsid(1, NAME, EDITION, NUMBER)]), 4);
}

#[test]
fn number_6_is_the_tree_rule_or_a_value_beside_a_child() {
    let feature = |tuples: &[Tuple]| vec![frid(1, 30, 1, INSERT), foid(1, 1, 1), attr(tuples)];
    let wrong: [&[Tuple]; 5] = [
        &[(1, 1, 1, INSERT, "")],
        &[(1, 2, 0, INSERT, "")],
        &[(1, 1, 0, INSERT, "v"), (2, 1, 1, INSERT, "")],
        &[(1, 1, 0, INSERT, ""), (2, 1, 0, INSERT, ""), (3, 1, 1, INSERT, "")],
        &[(1, 1, 0, INSERT, ""), (1, 1, 1, INSERT, ""), (1, 1, 2, INSERT, ""), (1, 1, 1, INSERT, "")],
    ];
    for tuples in wrong {
        assert_eq!(record_fault(FEATURE, feature(tuples)), 6, "{tuples:?}");
    }
    let attributes = inas(1, 5, 6, INSERT, &[(1, 2, 0, INSERT, "")]);
    assert_eq!(record_fault(FEATURE, vec![frid(1, 30, 1, INSERT), foid(1, 1, 1), attributes]), 6);
}

#[test]
fn number_7_is_a_key_present_twice() {
    assert_eq!(record_fault(SECOND_INFORMATION, vec![irid(1, 21, 1, INSERT)]), 7);
    assert_eq!(record_fault(SECOND_POINT, vec![prid(1, 2, INSERT), c2it(0, 0)]), 7);
    assert_eq!(record_fault(SECOND_FEATURE, vec![frid(1, 31, 1, INSERT), foid(0, 0, 0)]), 7);
    let twice = |field: Field| vec![frid(1, 30, 1, INSERT), foid(1, 1, 1), field.clone(), field];
    assert_eq!(record_fault(FEATURE, twice(inas(1, 5, 6, INSERT, &[]))), 7);
    assert_eq!(record_fault(FEATURE, twice(spas(&[(110, 1, 1, 0, 0, INSERT)]))), 7);
    // The two need not stand side by side.
    let mut records = base_plus(POINT, vec![prid(2, 1, INSERT), c2it(0, 0)]);
    assert_eq!(dataset_refused(&given(&records)), (7, 1, SECOND_POINT + 1));
    records[POINT - 1] = vec![prid(3, 1, INSERT), c2it(0, 0)];
    assert_same(&written(&given(&records)), &file(&records));
}

#[test]
fn number_7_is_a_record_inserted_while_present() {
    assert_eq!(change_fault(vec![prid(2, 1, INSERT), c2it(0, 0)]), 7);
    assert_accepted(&[vec![prid(3, 1, INSERT), c2it(0, 0)]]);
}

#[test]
fn number_8_is_another_name_edition_or_update_number() {
    let update = |name, edition, number| {
        let general = vec![dsid(5, name, edition, number)];
        Case::update(given(&base()), given(&with(update_records(&[]), GENERAL, general)), ROOM, WORK)
    };
    for (name, edition, number) in [
        ("EZ2", EDITION, NUMBER + 1),
        ("EZ1 ", EDITION, NUMBER + 1),
        ("ez1", EDITION, NUMBER + 1),
        ("", EDITION, NUMBER + 1),
        (NAME, EDITION + 1, NUMBER + 1),
        (NAME, EDITION - 1, NUMBER + 1),
        (NAME, EDITION, NUMBER + 2),
        (NAME, EDITION, NUMBER - 1),
    ] {
        assert_eq!(refused(&update(name, edition, number)), (8, 2, 2), "{name} {edition} {number}");
    }
    done(&update(NAME, EDITION, NUMBER + 1));
}

#[test]
fn number_9_is_an_absent_record_association_entry_or_place() {
    let absent = [
        vec![prid(3, 2, MODIFY)],
        vec![prid(3, 2, DELETE)],
        vec![mrid(2, 5, MODIFY)],
        vec![frid(1, 30, 2, MODIFY), inas(2, 5, 6, DELETE, &[])],
        vec![frid(1, 30, 2, MODIFY), inas(1, 6, 5, DELETE, &[])],
        vec![frid(1, 30, 2, MODIFY), spas(&[(110, 2, 1, 0, 0, DELETE)])],
        vec![frid(1, 30, 2, MODIFY), attr(&[(50, 2, 0, MODIFY, "v")])],
        vec![frid(1, 30, 2, MODIFY), attr(&[(50, 2, 0, DELETE, "")])],
        vec![frid(1, 30, 2, MODIFY), attr(&[(50, 3, 0, INSERT, "v")])],
        vec![mrid(1, 2, MODIFY), cocc(MODIFY, 4, 1), c2il(&[(1, 1)])],
    ];
    for change in absent {
        assert_eq!(change_fault(change.clone()), 9, "{change:?}");
    }
}

#[test]
fn number_10_is_a_version_code_or_foid_that_disagrees() {
    let disagreeing = [
        vec![prid(2, 4, MODIFY)],
        vec![prid(2, 6, DELETE)],
        vec![prid(3, 2, INSERT), c2it(0, 0)],
        vec![irid(2, 22, 3, MODIFY)],
        vec![irid(2, 22, 3, DELETE)],
        vec![frid(1, 31, 2, MODIFY)],
        vec![frid(1, 30, 2, MODIFY), foid(7, 8, 8)],
    ];
    for change in disagreeing {
        assert_eq!(change_fault(change.clone()), 10, "{change:?}");
    }
}

#[test]
fn number_11_is_an_absent_record_named() {
    let feature = |field: Field| vec![frid(1, 30, 1, INSERT), foid(1, 1, 1), field];
    assert_eq!(record_fault(FEATURE, feature(inas(3, 5, 6, INSERT, &[]))), 11);
    assert_eq!(record_fault(FEATURE, feature(spas(&[(110, 3, 1, 0, 0, INSERT)]))), 11);
    // Point 2 stands in the dataset, multi point 2 does not.
    assert_eq!(record_fault(FEATURE, feature(spas(&[(115, 2, 1, 0, 0, INSERT)]))), 11);
    assert_good(FEATURE, feature(spas(&[(110, 2, 1, 0, 0, INSERT)])));
    let own = vec![irid(2, 21, 1, INSERT), inas(2, 5, 6, INSERT, &[])];
    assert_good(SECOND_INFORMATION, own);
}

#[test]
fn a_record_may_name_one_that_stands_later() {
    let forward = vec![irid(1, 20, 1, INSERT), inas(2, 5, 6, INSERT, &[])];
    assert_good(INFORMATION, forward);
}

#[test]
fn number_13_is_an_output_slice_too_short() {
    let (dataset, update) = (given(&base()), update_file(&[]));
    let length = file(&base()).len() as u32;
    assert_eq!(done(&Case::write(dataset.clone(), length)).len() as u32, length);
    for short in [0, length - 1] {
        assert_eq!(refused(&Case::write(dataset.clone(), short)), (13, 3, 0));
    }
    let length = file(&with(base(), GENERAL, general_after())).len() as u32;
    assert_eq!(done(&Case::update(dataset.clone(), update.clone(), length, WORK)).len() as u32, length);
    for short in [0, length - 1] {
        assert_eq!(refused(&Case::update(dataset.clone(), update.clone(), short, WORK)), (13, 3, 0));
    }
}

#[test]
fn number_15_is_a_workspace_under_400_000_bytes() {
    let case = |work| Case::update(given(&base()), update_file(&[]), ROOM, work);
    for work in [0, 1, 399_999] {
        assert_eq!(refused(&case(work)), (15, 0, 0));
    }
    done(&case(400_000));
    done(&case(400_001));
}

// ---- number 14 ----

/// A dataset whose written form has that many bytes, in 5 and 5 or in narrower widths.
fn dataset_of(size: usize, narrow: bool) -> Vec<u8> {
    let mut head = base()[..3].to_vec();
    let full = record(false, 5, 5, &[mrid(1, 1, INSERT), c2il(&many(12_000))]).len();
    let left = size - file(&head).len();
    head[2][1].body.extend(vec![b'.'; left % full]);
    let multi_points = (0..left / full).map(|n| {
        let fields = [mrid(1 + n as u32, 1, INSERT), c2il(&many(12_000))];
        record(false, 5, if narrow { 1 } else { 5 }, &fields)
    });
    [parts(&head), multi_points.collect()].concat().concat()
}

#[test]
fn an_input_of_16_777_216_bytes_is_read_and_written_and_one_more_is_14() {
    let dataset = dataset_of(FILE_LIMIT, false);
    assert_eq!(dataset.len(), FILE_LIMIT);
    let count = counted(&dataset);
    assert!(count > 3);
    let written = done(&Case::write(dataset.clone(), FILE_LIMIT as u32));
    assert!(written == dataset, "what stands in its written form is written as it stands");
    let dataset = dataset_of(FILE_LIMIT + 1, false);
    assert_eq!(refused(&Case::read(dataset.clone())), (14, 1, 0));
    assert_eq!(refused(&Case::write(dataset.clone(), ROOM)), (14, 1, 0));
    assert_eq!(refused(&Case::update(dataset.clone(), update_file(&[]), ROOM, WORK)), (14, 1, 0));
    assert_eq!(refused(&Case::update(given(&base()), dataset, ROOM, WORK)), (14, 2, 0));
}

#[test]
fn an_update_of_16_777_216_bytes_is_taken_and_one_more_is_14() {
    let update = |size: usize| {
        let multi_point = |n: u32| record(false, 5, 5, &[mrid(100 + n, 1, INSERT), c2il(&many(12_000))]);
        let erase = |n: u32| record(false, 5, 5, &[mrid(100 + n, 2, DELETE)]);
        let pair = |n: u32| [multi_point(n), erase(n)].concat();
        let (head, pair_size) = (file(&update_records(&[])).len(), pair(0).len());
        let mut records = update_records(&[]);
        records[0][0].body.extend(vec![b'.'; (size - head) % pair_size]);
        let pairs = (size - head) / pair_size;
        [file(&records), (0..pairs as u32).flat_map(pair).collect()].concat()
    };
    assert_eq!(update(FILE_LIMIT).len(), FILE_LIMIT);
    let result = done(&Case::update(given(&base()), update(FILE_LIMIT), ROOM, WORK));
    assert_same(&result, &file(&base_with(GENERAL, general_after())));
    assert_eq!(file_refused(update(FILE_LIMIT + 1)), (14, 2, 0));
}

#[test]
fn a_written_form_above_16_777_216_bytes_is_14_of_the_result() {
    let room = FILE_LIMIT as u32 + 1;
    let fits = dataset_of(FILE_LIMIT, true);
    assert_eq!(done(&Case::write(fits, room)).len(), FILE_LIMIT);
    let grows = dataset_of(FILE_LIMIT + 1, true);
    assert!(grows.len() < FILE_LIMIT);
    assert!(counted(&grows) > 3);
    assert_eq!(refused(&Case::write(grows, room)), (14, 3, 0));
}

#[test]
fn a_result_above_16_777_216_bytes_is_14() {
    let room = FILE_LIMIT as u32 + 100;
    let size = |general: Record| record(false, 5, 5, &general).len() as i64;
    let growth = size(general_after()) - size(general(NUMBER));
    let update = update_file(&[vec![prid(1, 1, INSERT), c2it(0, 0)]]);
    let dataset_for = |result: usize| dataset_of((result as i64 - 71 - growth) as usize, false);
    let result = done(&Case::update(dataset_for(FILE_LIMIT), update.clone(), room, WORK));
    assert_eq!(result.len(), FILE_LIMIT);
    assert_eq!(refused(&Case::update(dataset_for(FILE_LIMIT + 1), update, room, WORK)), (14, 3, 0));
}

// ---- answers ----

#[test]
fn output_is_zero_after_the_written_length() {
    let want = file(&base());
    let reply = reply(&Case::write(given(&base()), want.len() as u32 + 1_000));
    assert_eq!((reply.number, reply.length, reply.count), (0, want.len(), base().len()));
    assert_same(&reply.out, &[want, vec![0; 1_000]].concat());
}

#[test]
fn output_is_wholly_zero_on_refusal() {
    let short = file(&base()).len() as u32 - 1;
    for (case, number) in [
        (Case::write(given(&base()), short), 13),
        (Case::write(Vec::new(), 500), 1),
        (Case::update(given(&base()), update_file(&[vec![prid(9, 2, DELETE)]]), 5_000, WORK), 9),
        (Case::update(given(&base()), update_file(&[]), 5_000, WORK - 1), 15),
    ] {
        let reply = reply(&case);
        assert_eq!((reply.number, reply.length, reply.count), (number, 0, 0));
        assert_eq!(reply.out, vec![0; case.out as usize]);
    }
}

#[test]
fn workspace_is_zero_when_done_and_when_refused() {
    for (work, number) in [(WORK, 0), (WORK + 5, 0), (WORK - 1, 15), (7, 15), (0, 15)] {
        let reply = reply(&Case::update(given(&base()), update_file(&[]), ROOM, work));
        assert_eq!((reply.number, reply.work_zero), (number, true));
    }
    let reply = reply(&Case::update(given(&base()), update_file(&[vec![prid(9, 2, DELETE)]]), ROOM, WORK));
    assert_eq!((reply.number, reply.work_zero), (9, true));
}

#[test]
fn the_count_is_of_all_records_of_dataset_or_result() {
    assert_eq!(counted(&given(&base())), 10);
    assert_eq!(reply(&Case::write(given(&base()), ROOM)).count, 10);
    let changes =
        [vec![prid(8, 1, INSERT), c2it(0, 0)], vec![prid(9, 1, INSERT), c2it(0, 0)], vec![prid(2, 5, DELETE)]];
    assert_eq!(reply(&Case::update(given(&base()), update_file(&changes), ROOM, WORK)).count, 11);
    assert_eq!(counted(&given(&base()[..3])), 3);
}

// ---- listing ----

fn point_7() -> Record {
    vec![prid(7, 1, INSERT), c2it(5, 6)]
}

fn feature_3() -> Record {
    let attributes = [(1, 1, 0, INSERT, ""), (2, 1, 1, INSERT, "a"), (1, 2, 0, INSERT, "b")];
    vec![frid(3, 10, 2, INSERT), foid(1, 1, 1), attr(&attributes)]
}

#[test]
fn the_listing_example_whole() {
    let records = [&base()[..3], &[point_7(), feature_3()]].concat();
    let want = "rec tag rcid rver attr coord\n4 PRID 7 1 0 1\n5 FRID 3 2 3 0\ntotal 2\n";
    assert_eq!(printed(&given(&records)), want);
}

#[test]
fn the_base_dataset_is_listed() {
    let want = "rec tag rcid rver attr coord\n\
                4 IRID 1 1 3 0\n\
                5 IRID 2 2 0 0\n\
                6 PRID 1 1 0 1\n\
                7 PRID 2 4 0 1\n\
                8 MRID 1 1 0 3\n\
                9 FRID 1 1 3 0\n\
                10 FRID 2 6 0 0\n\
                total 7\n";
    assert_eq!(printed(&given(&base())), want);
}

#[test]
fn empty_input_is_refused_1_1_1() {
    assert_eq!(printed(&[]), "refused 1 1 1\n");
}

#[test]
fn a_refusal_prints_number_file_and_record() {
    let twice = [&base()[..3], &[point_7(), point_7()]].concat();
    assert_eq!(printed(&given(&twice)), "refused 7 1 5\n");
    let loose = [&base()[..3], &[vec![irid(4, 1, 1, INSERT), inas(5, 1, 1, INSERT, &[])]]].concat();
    assert_eq!(printed(&given(&loose)), "refused 11 1 4\n");
}

#[test]
fn an_input_of_65_536_bytes_is_listed_and_one_more_is_too_long() {
    let dataset = |size: usize| {
        let mut records = [&base()[..3], &[point_7()]].concat();
        let pad = size - file(&records).len();
        records[2][1].body.extend(vec![0x1e; pad]);
        file(&records)
    };
    assert_eq!(dataset(65_536).len(), 65_536);
    assert_eq!(printed(&dataset(65_536)), "rec tag rcid rver attr coord\n4 PRID 7 1 0 1\ntotal 1\n");
    assert_eq!(printed(&dataset(65_537)), "too long\n");
}
