//! The points that document 01 leaves open or makes easy to miss, each as decided, by its letter and number.
//! Beside each refusal stands a neighbour that is accepted or refused otherwise.

mod common;
use common::*;

/// The answer to the base dataset with the bytes of one record changed.
fn spoiled_base(number: usize, spoil: impl Fn(&mut Vec<u8>)) -> Refusal {
    dataset_refused(&spoiled(&base(), number, spoil))
}

/// Feature 1 as a dataset gives it, with these fields behind FOID.
fn feature(fields: &[Field]) -> Record {
    [&[frid(1, 30, 1, INSERT), foid(7, 8, 9)], fields].concat()
}

/// A modify of feature 1 of the base dataset.
fn feature_change(fields: &[Field]) -> Record {
    [&[frid(1, 30, 2, MODIFY)], fields].concat()
}

/// A modify of multi point 1 of the base dataset.
fn multi_point_change(fields: &[Field]) -> Record {
    [&[mrid(1, 2, MODIFY)], fields].concat()
}

/// An update record that is refused with 4 in the first pass.
fn misplaced_field() -> Record {
    vec![prid(2, 5, MODIFY), field("XXXX", Vec::new())]
}

// ---- A: the skeleton ----

#[test]
fn a1_stated_length_below_24_is_3_and_above_the_rest_is_1() {
    for number in [POINT, SECOND_FEATURE] {
        for length in [0, 1, 23, 24, 25] {
            assert_eq!(spoiled_base(number, |bytes| set_digits(bytes, 0, length)), (3, 1, number));
        }
    }
    let one_more = |bytes: &mut Vec<u8>| state_length(bytes, 1);
    assert_eq!(spoiled_base(SECOND_FEATURE, one_more), (1, 1, SECOND_FEATURE));
    assert_eq!(spoiled_base(POINT, one_more), (3, 1, POINT));
}

#[test]
fn a2_short_leader_then_leader_then_length_then_directory() {
    let last = SECOND_FEATURE;
    let leader = &parts(&base())[last - 1][..23];
    assert_eq!(dataset_refused(&[&file(&base())[..], leader].concat()), (1, 1, last + 1));
    let cut = |bytes: &mut Vec<u8>| bytes.truncate(30);
    assert_eq!(spoiled_base(last, cut), (1, 1, last));
    let cut_with = |at: usize, byte: u8| {
        spoiled_base(last, move |bytes| {
            bytes.truncate(30);
            bytes[at] = byte;
        })
    };
    assert_eq!(cut_with(22, b'1'), (2, 1, last));
    assert_eq!(cut_with(28, b'x'), (1, 1, last));
    assert_eq!(spoiled_base(last, |bytes| bytes[28] = b'x'), (3, 1, last));
}

#[test]
fn a3_a_file_cut_anywhere() {
    let (dataset, parts) = (file(&base()), parts(&base()));
    let ends: Vec<usize> = (0..=parts.len()).map(|count| parts[..count].concat().len()).collect();
    for cut in 0..=dataset.len() {
        let bytes = &dataset[..cut];
        let whole = ends.iter().filter(|end| **end <= cut).count() - 1;
        match ends.contains(&cut) {
            true if whole == 0 => assert_eq!(dataset_refused(bytes), (1, 1, 1)),
            true if whole < 3 => assert_eq!(dataset_refused(bytes), (4, 1, whole + 1)),
            true => assert_eq!(counted(bytes), whole),
            false => assert_eq!(dataset_refused(bytes), (1, 1, whole + 1), "cut at {cut}"),
        }
    }
}

#[test]
fn a3_an_update_cut_anywhere() {
    let records = update_records(&[vec![prid(2, 5, MODIFY)], vec![prid(3, 1, INSERT), c2it(0, 0)]]);
    let (update, parts) = (file(&records), parts(&records));
    let ends: Vec<usize> = (0..=parts.len()).map(|count| parts[..count].concat().len()).collect();
    for cut in 0..=update.len() {
        let whole = ends.iter().filter(|end| **end <= cut).count() - 1;
        let case = Case::update(given(&base()), update[..cut].to_vec(), ROOM, WORK);
        match ends.contains(&cut) {
            true if whole == 0 => assert_eq!(refused(&case), (1, 2, 1)),
            true if whole == 1 => assert_eq!(refused(&case), (4, 2, 2)),
            true => assert!(!done(&case).is_empty()),
            false => assert_eq!(refused(&case), (1, 2, whole + 1), "cut at {cut}"),
        }
    }
}

#[test]
fn a3_a_length_one_too_small_is_3_in_its_own_record() {
    for number in 1..=SECOND_FEATURE {
        assert_eq!(spoiled_base(number, |bytes| state_length(bytes, -1)), (3, 1, number));
    }
}

#[test]
fn a4_the_directory_ends_inside_the_stated_length() {
    // The closing 1E stands right behind the stated length.
    assert_eq!(spoiled_base(SECOND_POINT, |bytes| set_digits(bytes, 0, 24 + 28)), (3, 1, SECOND_POINT));
    assert_eq!(spoiled_base(SECOND_POINT, |bytes| set_digits(bytes, 0, 24 + 28 + 1)), (3, 1, SECOND_POINT));
}

#[test]
fn a4_a_junk_byte_behind_the_directory_is_3() {
    for junk in [0x1e, b' '] {
        let spoil = |bytes: &mut Vec<u8>| {
            bytes.insert(24 + 28 + 1, junk);
            state_length(bytes, 0);
            set_digits(bytes, 12, 24 + 28 + 2);
        };
        assert_eq!(spoiled_base(SECOND_POINT, spoil), (3, 1, SECOND_POINT));
    }
}

#[test]
fn a5_a_field_of_no_bytes_is_3() {
    let descriptive = |entries: &[(&str, usize, usize)]| replaced(&base(), 1, raw(true, entries, b"ab\x1e"));
    assert_eq!(dataset_refused(&descriptive(&[("AAAA", 0, 0), ("BBBB", 3, 0)])), (3, 1, 1));
    assert_eq!(dataset_refused(&descriptive(&[("AAAA", 3, 0), ("BBBB", 0, 3)])), (3, 1, 1));
    assert_eq!(counted(&descriptive(&[("AAAA", 3, 0)])), base().len());
    assert_good(DESCRIPTIVE, vec![field("AAAA", Vec::new()), field("BBBB", Vec::new())]);
}

#[test]
fn a6_leader_digits_are_2_and_directory_digits_3() {
    for byte in [b' ', b'+', b'-', b'.', b'A'] {
        for at in [0, 4, 12, 16] {
            assert_eq!(spoiled_base(POINT, |bytes| bytes[at] = byte), (2, 1, POINT), "byte {at}");
        }
        for at in [28, 32, 33, 37, 42, 46, 47, 51] {
            assert_eq!(spoiled_base(POINT, |bytes| bytes[at] = byte), (3, 1, POINT), "byte {at}");
        }
    }
}

#[test]
fn a6_leading_zeroes_are_fine_with_widths_of_nine() {
    let point = [prid(2, 4, INSERT), c2it(i32::MIN, i32::MAX)];
    assert_same(&written(&replaced(&base(), SECOND_POINT, record(false, 9, 9, &point))), &file(&base()));
    // Nine digits reach beyond any record, and beyond 32 bits' sums of positions.
    let spoil = |bytes: &mut Vec<u8>| {
        *bytes = record(false, 9, 9, &point);
        bytes[24 + 4..24 + 13].copy_from_slice(b"999999999");
    };
    assert_eq!(spoiled_base(SECOND_POINT, spoil), (3, 1, SECOND_POINT));
}

#[test]
fn a7_any_tag_goes_in_the_descriptive_and_the_third_record() {
    let odd = |tag: [u8; 4]| Field { tag, body: vec![1, 2, 0x1e] };
    let tags = [odd([0, 255, 0x1e, 0x1e]), odd(*b"PRID"), odd(*b"PRID"), odd(*b"    ")];
    assert_good(DESCRIPTIVE, tags.to_vec());
    assert_good(SYSTEM, [&[field("CSID", Vec::new())], &tags[..]].concat());
    assert_good(SYSTEM, vec![field("CSID", Vec::new()), field("CSID", vec![0])]);
    assert_eq!(record_fault(SYSTEM, tags.to_vec()), 4);
    let ends_the_directory = [odd(*b"AAAA"), odd([0x1e, b'A', b'A', b'A'])];
    assert_eq!(record_fault(DESCRIPTIVE, ends_the_directory.to_vec()), 3);
}

#[test]
fn a8_the_updates_first_record_has_the_first_leader() {
    let update = update_records(&[vec![prid(2, 5, MODIFY)]]);
    let other_leader = record(false, 5, 5, &update[0]);
    assert_eq!(file_refused(replaced(&update, 1, other_leader)), (2, 2, 1));
    assert_eq!(file_refused(spoiled(&update, 1, |bytes| *bytes.last_mut().unwrap() = 0)), (3, 2, 1));
    assert_eq!(file_refused(spoiled(&update, 3, |bytes| *bytes = record(true, 5, 5, &update[2]))), (2, 2, 3));
    let anything = with(update, 1, vec![field("\u{1}\u{2}\u{3}\u{4}", vec![0x1e; 9])]);
    done(&Case::update(given(&base()), given(&anything), ROOM, WORK));
}

// ---- B: number 4 and the instructions ----

#[test]
fn b1_an_instruction_inside_a_field_of_wrong_length_decides() {
    let point = |size, ruin| resized(prid(2, 5, ruin), size);
    assert_eq!(change_fault(vec![point(9, DELETE), c2it(0, 0)]), 4);
    assert_eq!(change_fault(vec![point(9, MODIFY), c2it(0, 0)]), 5);
    assert_eq!(change_fault(vec![point(9, INSERT)]), 4);
    assert_eq!(change_fault(vec![point(7, DELETE), c2it(0, 0)]), 5);
    assert_eq!(change_fault(vec![point(8, DELETE), c2it(0, 0)]), 4);
    assert_accepted(&[vec![point(8, DELETE)]]);
}

#[test]
fn b1_the_same_for_kinds_with_a_code() {
    let feature = |size, ruin| resized(frid(2, 31, 7, ruin), size);
    assert_eq!(change_fault(vec![feature(11, DELETE), attr(&[])]), 4);
    assert_eq!(change_fault(vec![feature(11, MODIFY), attr(&[])]), 5);
    assert_eq!(change_fault(vec![feature(9, DELETE), attr(&[])]), 5);
    assert_accepted(&[vec![feature(10, DELETE)]]);
}

#[test]
fn b1_a_coordinate_instruction_inside_a_field_of_wrong_length_decides() {
    let change = |control: Vec<u8>| multi_point_change(&[field("COCC", control), c2il(&[(1, 1)])]);
    for rest in [&[][..], &[1, 0, 1], &[1, 0, 1, 0, 0]] {
        assert_eq!(change_fault(change([&[DELETE], rest].concat())), 4);
        assert_eq!(change_fault(change([&[INSERT], rest].concat())), 5);
        assert_eq!(change_fault(change([&[MODIFY], rest].concat())), 5);
    }
    assert_eq!(change_fault(change(Vec::new())), 5);
    assert_accepted(&[change(cocc(INSERT, 1, 1).body)]);
}

#[test]
fn b2_coui_decides_although_ruin_is_out_of_range() {
    let change = |fields: &[Field]| [&[mrid(1, 2, 4)], fields].concat();
    assert_eq!(change_fault(change(&[cocc(DELETE, 1, 1), c2il(&[(1, 1)])])), 4);
    assert_eq!(change_fault(change(&[cocc(INSERT, 1, 1), c2il(&[(1, 1)])])), 5);
    assert_eq!(change_fault(change(&[cocc(DELETE, 1, 1)])), 5);
    assert_eq!(change_fault(change(&[c2il(&[(1, 1)])])), 5);
    assert_eq!(change_fault(multi_point_change(&[c2il(&[(1, 1)])])), 4);
}

#[test]
fn b3_a_dataset_takes_fields_whatever_the_instruction_is() {
    for ruin in [DELETE, MODIFY, 9] {
        assert_eq!(record_fault(SECOND_POINT, vec![prid(2, 1, ruin), c2it(0, 0)]), 5);
        assert_eq!(record_fault(SECOND_POINT, vec![prid(2, 1, ruin)]), 4);
        assert_eq!(record_fault(FEATURE, vec![frid(1, 30, 1, ruin), foid(1, 1, 1), attr(&[])]), 5);
        assert_eq!(record_fault(FEATURE, vec![frid(1, 30, 1, ruin)]), 4);
        assert_eq!(record_fault(MULTI_POINT, vec![mrid(1, 1, ruin), c2il(&[(1, 1)])]), 5);
    }
}

#[test]
fn b4_c2it_and_foid_are_needed_by_inserts_only() {
    for ruin in [0, 4, 255] {
        assert_eq!(change_fault(vec![prid(9, 1, ruin)]), 5);
        assert_eq!(change_fault(vec![frid(9, 30, 1, ruin)]), 5);
    }
    assert_eq!(change_fault(vec![resized(prid(9, 1, INSERT), 7)]), 5);
    assert_eq!(change_fault(vec![resized(frid(9, 30, 1, INSERT), 9)]), 5);
    assert_eq!(change_fault(vec![prid(9, 1, INSERT)]), 4);
    assert_eq!(change_fault(vec![frid(9, 30, 1, INSERT)]), 4);
    assert_accepted(&[vec![prid(2, 5, MODIFY)], vec![frid(2, 31, 7, MODIFY)]]);
}

#[test]
fn b4_tags_order_and_number_are_tested_whatever_ruin_is() {
    for ruin in [0, 4] {
        assert_eq!(change_fault(vec![prid(2, 5, ruin), c2il(&[])]), 4);
        assert_eq!(change_fault(vec![prid(2, 5, ruin), c2it(0, 0), c2it(0, 0)]), 4);
        assert_eq!(change_fault(vec![prid(2, 5, ruin), c2it(0, 0), inas(1, 5, 6, INSERT, &[])]), 4);
        assert_eq!(change_fault(vec![frid(2, 31, 7, ruin), attr(&[]), foid(1, 1, 1)]), 4);
        assert_eq!(change_fault(vec![mrid(1, 2, ruin), cocc(INSERT, 1, 1), cocc(INSERT, 1, 1)]), 4);
        assert_eq!(change_fault(vec![prid(2, 5, ruin), c2it(0, 0)]), 5);
    }
}

#[test]
fn b5_c2il_without_cocc_is_4_in_a_modify_only() {
    assert_eq!(change_fault(multi_point_change(&[c2il(&[(1, 1)])])), 4);
    let inserted = vec![mrid(9, 1, INSERT), c2il(&[(1, 1)]), c2il(&[(2, 2)])];
    let joined = vec![mrid(9, 1, INSERT), c2il(&[(1, 1), (2, 2)])];
    assert_updates(&base(), &[inserted], &base_plus(FEATURE, joined));
    assert_accepted(&[multi_point_change(&[])]);
}

#[test]
fn b6_an_empty_list_is_a_field_to_a_record_delete() {
    let deletes = [
        (irid(2, 21, 3, DELETE), vec![attr(&[])]),
        (frid(2, 31, 7, DELETE), vec![attr(&[]), spas(&[])]),
        (mrid(9, 2, DELETE), vec![c2il(&[])]),
    ];
    let dataset = base_plus(FEATURE, vec![mrid(9, 1, INSERT)]);
    for (identifier, lists) in deletes {
        for list in lists {
            assert_eq!(update_refused(&dataset, &[vec![identifier.clone(), list]]), (4, 2, 3));
        }
        done(&Case::update(given(&dataset), update_file(&[vec![identifier]]), ROOM, WORK));
    }
}

#[test]
fn b6_an_empty_list_is_a_field_to_a_coordinate_control() {
    assert_eq!(change_fault(multi_point_change(&[cocc(DELETE, 1, 1), c2il(&[])])), 4);
    assert_accepted(&[multi_point_change(&[cocc(DELETE, 1, 1)])]);
    assert_eq!(change_fault(multi_point_change(&[c2il(&[])])), 4);
    assert_accepted(&[multi_point_change(&[])]);
}

#[test]
fn b6_an_empty_attr_counts_for_at_most_once() {
    assert_eq!(record_fault(FEATURE, feature(&[attr(&[]), attr(&[])])), 4);
    assert_written(FEATURE, feature(&[attr(&[])]), feature(&[]));
    assert_eq!(change_fault(feature_change(&[attr(&[]), attr(&[])])), 4);
    assert_accepted(&[feature_change(&[attr(&[])])]);
}

#[test]
fn b6_an_empty_field_that_is_no_list_is_5() {
    let empty = |tag| field(tag, Vec::new());
    assert_eq!(record_fault(FEATURE, feature(&[empty("INAS")])), 5);
    assert_eq!(record_fault(FEATURE, vec![frid(1, 30, 1, INSERT), empty("FOID")]), 5);
    assert_eq!(record_fault(POINT, vec![prid(1, 1, INSERT), empty("C2IT")]), 5);
    assert_eq!(record_fault(POINT, vec![empty("PRID"), c2it(0, 0)]), 5);
    assert_eq!(change_fault(multi_point_change(&[empty("COCC")])), 5);
    assert_written(FEATURE, feature(&[empty("ATTR"), empty("SPAS")]), feature(&[]));
}

#[test]
fn b7_a_wrong_rcnm_is_5_and_the_tag_gives_the_kind() {
    assert_eq!(record_fault(SECOND_POINT, vec![plain("PRID", 115, 2, 1, INSERT), c2it(0, 0)]), 5);
    assert_eq!(record_fault(SECOND_POINT, vec![plain("PRID", 115, 2, 1, INSERT), c2il(&[])]), 4);
    assert_eq!(record_fault(GENERAL, vec![poked(dsid(1, NAME, EDITION, NUMBER), 0, 11)]), 5);
    assert_eq!(change_fault(vec![plain("PRID", 115, 1, 5, MODIFY)]), 5);
}

#[test]
fn b8_fields_left_to_others_are_4() {
    for tag in ["FASC", "THAS", "MASK", "C3IT", "C2IL", "COCC", "FOID"] {
        let stranger = field(tag, Vec::new());
        let point = vec![prid(2, 1, INSERT), c2it(0, 0), stranger.clone()];
        assert_eq!(record_fault(SECOND_POINT, point), 4, "{tag}");
        assert_eq!(record_fault(FEATURE, feature(&[spas(&[]), stranger])), 4, "{tag}");
    }
    assert_eq!(record_fault(POINT, vec![prid(1, 1, INSERT), attr(&[]), c2it(0, 0)]), 4);
    assert_eq!(record_fault(MULTI_POINT, vec![mrid(1, 1, INSERT), attr(&[])]), 4);
    assert_eq!(record_fault(INFORMATION, vec![irid(1, 20, 1, INSERT), spas(&[])]), 4);
    for tag in ["CRID", "CCID", "SRID"] {
        assert_eq!(dataset_refused(&given(&base_plus(FEATURE, vec![field(tag, vec![0; 8])]))), (4, 1, FEATURE));
        assert_eq!(change_fault(vec![field(tag, vec![0; 8])]), 4);
    }
}

#[test]
fn b9_the_third_record_begins_with_csid_and_no_later_one() {
    let mut without = base();
    without.remove(SYSTEM - 1);
    assert_eq!(dataset_refused(&given(&without)), (4, 1, 3));
    let system = base()[SYSTEM - 1].clone();
    assert_eq!(dataset_refused(&given(&base_plus(4, system.clone()))), (4, 1, 4));
    assert_eq!(dataset_refused(&given(&base_plus(FEATURE, general(NUMBER)))), (4, 1, FEATURE));
    assert_eq!(record_fault(SYSTEM, vec![field("CRSH", Vec::new()), field("CSID", Vec::new())]), 4);
    assert_eq!(change_fault(system), 4);
    assert_eq!(change_fault(next_general()), 4);
}

#[test]
fn b9_kinds_stand_in_order_in_a_dataset_but_not_in_an_update() {
    let kinds = [
        vec![irid(9, 21, 1, INSERT)],
        vec![prid(9, 1, INSERT), c2it(0, 0)],
        vec![mrid(9, 1, INSERT)],
        vec![frid(9, 31, 1, INSERT), foid(1, 1, 1)],
    ];
    for (later, earlier) in [(0, 1), (0, 2), (0, 3), (1, 2), (1, 3), (2, 3)] {
        let records = |pair: [&Record; 2]| given(&[&base()[..3], &pair.map(Clone::clone)].concat());
        assert_eq!(counted(&records([&kinds[later], &kinds[earlier]])), 5);
        assert_eq!(dataset_refused(&records([&kinds[earlier], &kinds[later]])), (4, 1, 5));
    }
    let reversed: Vec<Record> = kinds.iter().rev().cloned().collect();
    let mut result = base();
    for (place, kind) in [(SECOND_FEATURE, 3), (MULTI_POINT, 2), (SECOND_POINT, 1), (SECOND_INFORMATION, 0)] {
        result.insert(place, kinds[kind].clone());
    }
    assert_updates(&base(), &reversed, &result);
}

#[test]
fn b9_a_kind_out_of_order_is_4_before_its_own_5() {
    let wrong_point_at = |number| dataset_refused(&given(&base_plus(number, vec![prid(0, 1, INSERT), c2it(0, 0)])));
    assert_eq!(wrong_point_at(FEATURE), (4, 1, FEATURE));
    assert_eq!(wrong_point_at(MULTI_POINT), (5, 1, MULTI_POINT));
}

#[test]
fn b10_a_missing_record_takes_its_turn() {
    let two = base()[..2].to_vec();
    assert_eq!(dataset_refused(&given(&two)), (4, 1, 3));
    assert_eq!(dataset_refused(&spoiled(&two, 1, |bytes| bytes[22] = b'x')), (2, 1, 1));
    assert_eq!(dataset_refused(&given(&[two[0].clone(), vec![dsid(0, NAME, 1, 1)]])), (5, 1, 2));
    let one = update_records(&[])[..1].to_vec();
    assert_eq!(file_refused(given(&one)), (4, 2, 2));
    assert_eq!(file_refused(spoiled(&one, 1, |bytes| bytes[22] = b'x')), (2, 2, 1));
    assert_accepted(&[]);
}

#[test]
fn b11_the_updates_general_record_obeys_the_same_order() {
    let update = |tags: &[&str]| {
        let rest: Record = tags.iter().map(|tag| field(tag, Vec::new())).collect();
        let general = [next_general(), rest].concat();
        Case::update(given(&base()), given(&with(update_records(&[]), GENERAL, general)), ROOM, WORK)
    };
    for tags in [&["ATCS", "DSSI"][..], &["ARCS", "ARCS"], &["CSID"], &["DSID"], &["FTCS", "ITCS"]] {
        assert_eq!(refused(&update(tags)), (4, 2, 2), "{tags:?}");
    }
    for tags in [&["DSSI", "ATCS"][..], &["DSSI", "ATCS", "ITCS", "FTCS", "IACS", "FACS", "ARCS"], &[]] {
        assert!(!done(&update(tags)).is_empty());
    }
    let headless = with(update_records(&[]), GENERAL, vec![field("DSSI", Vec::new())]);
    assert_eq!(file_refused(given(&headless)), (4, 2, 2));
}

#[test]
fn b12_an_instruction_out_of_range_refuses_no_field() {
    for wrong in [0, 4, 255] {
        assert_eq!(change_fault(vec![prid(2, 5, wrong), c2it(0, 0)]), 5);
        assert_eq!(change_fault(multi_point_change(&[cocc(wrong, 1, 1), c2il(&[(1, 1)])])), 5);
        assert_eq!(change_fault(vec![mrid(9, 1, wrong), cocc(INSERT, 1, 1), c2il(&[(1, 1)])]), 5);
    }
    assert_eq!(change_fault(vec![prid(2, 5, DELETE), c2it(0, 0)]), 4);
    assert_eq!(change_fault(multi_point_change(&[cocc(DELETE, 1, 1), c2il(&[(1, 1)])])), 4);
    assert_eq!(change_fault(vec![mrid(9, 1, INSERT), cocc(INSERT, 1, 1), c2il(&[(1, 1)])]), 4);
}

#[test]
fn b12_no_other_instruction_has_a_4() {
    let wrong =
        [inas(1, 5, 6, 3, &[]), inas(1, 5, 6, DELETE, &[(1, 1, 0, INSERT, "v")]), spas(&[(110, 1, 1, 0, 0, 3)])];
    for field in wrong {
        assert_eq!(change_fault(feature_change(&[field])), 5);
    }
    assert_eq!(change_fault(feature_change(&[attr(&[(50, 1, 0, 4, "v")])])), 5);
}

#[test]
fn b13_c2it_stands_once_in_points_only() {
    assert_eq!(record_fault(SECOND_POINT, vec![prid(2, 1, INSERT), c2it(0, 0), c2it(0, 0)]), 4);
    assert_eq!(record_fault(SECOND_POINT, vec![prid(2, 1, INSERT)]), 4);
    assert_eq!(change_fault(vec![prid(2, 5, MODIFY), c2it(0, 0), c2it(0, 0)]), 4);
    assert_eq!(record_fault(MULTI_POINT, vec![mrid(1, 1, INSERT), c2it(0, 0)]), 4);
    assert_eq!(record_fault(FEATURE, feature(&[c2it(0, 0)])), 4);
    assert_eq!(record_fault(INFORMATION, vec![irid(1, 20, 1, INSERT), c2it(0, 0)]), 4);
    let result = base_with(SECOND_POINT, vec![prid(2, 5, INSERT), c2it(3, 4)]);
    assert_updates(&base(), &[vec![prid(2, 5, MODIFY), c2it(3, 4)]], &result);
}

// ---- C: number 5 ----

#[test]
fn c1_the_smallest_number_of_a_record_wins_wherever_it_stands() {
    let tree_6 = attr(&[(1, 2, 0, INSERT, "")]);
    let spatial_5 = spas(&[(110, 1, 0, 0, 0, INSERT)]);
    assert_eq!(record_fault(FEATURE, feature(&[tree_6.clone(), spatial_5.clone()])), 5);
    assert_eq!(record_fault(FEATURE, feature(&[tree_6.clone()])), 6);
    let (key_7, tree_6) = (inas(1, 5, 6, INSERT, &[]), inas(1, 5, 7, INSERT, &[(1, 2, 0, INSERT, "")]));
    assert_eq!(record_fault(FEATURE, feature(&[key_7.clone(), key_7.clone(), tree_6])), 6);
    assert_eq!(record_fault(FEATURE, feature(&[key_7.clone(), key_7.clone(), spatial_5])), 5);
    assert_eq!(record_fault(FEATURE, feature(&[key_7.clone(), key_7])), 7);
}

#[test]
fn c2_a_coordinate_control_without_any_tuple_is_5() {
    for instruction in [INSERT, MODIFY] {
        assert_eq!(change_fault(multi_point_change(&[cocc(instruction, 1, 1)])), 5);
        assert_eq!(change_fault(multi_point_change(&[cocc(instruction, 1, 1), c2il(&[])])), 5);
        assert_accepted(&[multi_point_change(&[cocc(instruction, 1, 1), c2il(&[(9, 9)])])]);
    }
}

#[test]
fn c3_foid_takes_any_value() {
    for (agency, number, subdivision) in [(0, 0, 0), (65_535, u32::MAX, 65_535), (1, 0, 65_535)] {
        assert_good(FEATURE, vec![frid(1, 30, 1, INSERT), foid(agency, number, subdivision)]);
    }
    assert_eq!(record_fault(FEATURE, vec![frid(1, 30, 1, INSERT), resized(foid(0, 0, 0), 7)]), 5);
}

#[test]
fn c4_the_mark_is_shut_out_by_every_range() {
    let none = u16::MAX;
    let wrong = [
        feature(&[attr(&[(none, 1, 0, INSERT, "")])]),
        feature(&[attr(&[(1, none, 0, INSERT, "")])]),
        feature(&[inas(1, none, 1, INSERT, &[])]),
        feature(&[inas(1, 1, none, INSERT, &[])]),
        vec![frid(u32::MAX, 30, 1, INSERT), foid(1, 1, 1)],
        vec![frid(1, none, 1, INSERT), foid(1, 1, 1)],
        vec![frid(1, 30, none, INSERT), foid(1, 1, 1)],
    ];
    for record in wrong {
        assert_eq!(record_fault(FEATURE, record.clone()), 5, "{record:?}");
    }
    assert_eq!(record_fault(GENERAL, vec![dsid(u32::MAX, NAME, 1, 1)]), 5);
    assert_eq!(record_fault(GENERAL, vec![dsid(1, NAME, none, 1)]), 5);
    assert_eq!(record_fault(GENERAL, vec![dsid(1, NAME, 1, none)]), 5);
    assert_eq!(change_fault(multi_point_change(&[cocc(DELETE, none, 1)])), 5);
    assert_eq!(change_fault(multi_point_change(&[cocc(DELETE, 1, none)])), 5);
    assert_good(FEATURE, feature(&[spas(&[(110, 1, 255, u32::MAX, u32::MAX, INSERT)])]));
}

#[test]
fn c4_names_and_parents_have_no_range() {
    for rrid in [0, u32::MAX] {
        assert_eq!(record_fault(FEATURE, feature(&[inas(rrid, 5, 6, INSERT, &[])])), 11);
        assert_eq!(record_fault(FEATURE, feature(&[spas(&[(115, rrid, 1, 0, 0, INSERT)])])), 11);
    }
    assert_eq!(record_fault(FEATURE, feature(&[attr(&[(1, 1, u16::MAX, INSERT, "")])])), 6);
    assert_good(FEATURE, feature(&[attr(&[(1, 1, 0, INSERT, "")])]));
}

#[test]
fn c5_a_text_runs_to_the_first_1f() {
    let value = |bytes: &[u8]| feature(&[field("ATTR", [&[1, 0, 1, 0, 0, 0, INSERT], bytes].concat())]);
    assert_good(FEATURE, value(b"abc\x1f"));
    assert_good(FEATURE, value(b"\x1f"));
    assert_eq!(record_fault(FEATURE, value(b"a\x1ec\x1f")), 5);
    assert_eq!(record_fault(FEATURE, value(b"\x1e\x1f")), 5);
    assert_eq!(record_fault(FEATURE, value(b"abc")), 5);
    assert_eq!(record_fault(FEATURE, value(b"")), 5);
    for left in 1..7 {
        assert_eq!(record_fault(FEATURE, value(&[&b"abc\x1f"[..], &[1, 0, 1, 0, 0, 0][..left - 1], &[1]].concat())), 5);
    }
}

#[test]
fn c5_the_texts_of_dsid_hold_neither_1e_nor_1f() {
    let texts = |place: usize, text: &'static str| {
        let mut texts = ["", "", "", "", "", NAME];
        texts[place] = text;
        vec![identification(1, texts, EDITION, NUMBER, b"20260101")]
    };
    for place in 0..6 {
        assert_good(GENERAL, texts(place, "any text"));
        assert_eq!(record_fault(GENERAL, texts(place, "any\u{1e}text")), 5);
        assert_eq!(record_fault(GENERAL, texts(place, "any\u{1f}text")), 5);
    }
}

#[test]
fn c5_1e_and_1f_in_binary_subfields_are_data() {
    let number = 0x1e1f_1e1f;
    let attributes = [(0x1e1f, 1, 0, INSERT, ""), (0x1f1e, 1, 1, INSERT, "")];
    let mut records = base();
    records.insert(SECOND_INFORMATION, vec![irid(number, 0x1e1e, 0x1f1f, INSERT), attr(&attributes)]);
    records.insert(SECOND_POINT + 1, vec![prid(number, 0x1e1e, INSERT), c2it(0x1e1e_1e1e, 0x1f1f_1f1f)]);
    records.push(vec![
        frid(number, 0x1e1e, 0x1f1f, INSERT),
        foid(0x1e1e, number, 0x1f1f),
        inas(number, 0x1e1e, 0x1f1f, INSERT, &attributes),
        spas(&[(110, number, 1, number, number, INSERT)]),
    ]);
    assert_same(&written(&given(&records)), &file(&records));
}

#[test]
fn c6_isdt_is_eight_bytes_without_an_end() {
    let general = |date: &[u8]| vec![identification(1, ["", "", "", "", "", NAME], EDITION, NUMBER, date)];
    for date in [b"20260101", b"        ", b"no digit", &[0, 255, 1, 2, 3, 4, 5, 6]] {
        assert_good(GENERAL, general(date));
    }
    for date in [&b"20260101\x1f"[..], b"2026010", b"202601011", b"2026\x1e101", b"2026010\x1f", b"\x1f", b""] {
        assert_eq!(record_fault(GENERAL, general(date)), 5, "{date:?}");
    }
}

#[test]
fn c7_an_association_delete_has_nothing_behind_its_instruction() {
    let delete = |behind: &[u8]| {
        let mut association = inas(1, 5, 6, DELETE, &[]);
        association.body.extend_from_slice(behind);
        feature_change(&[association])
    };
    assert_accepted(&[delete(&[])]);
    for behind in [&tuples(&[(1, 1, 0, DELETE, "")])[..], &tuples(&[(1, 1, 0, INSERT, "")]), &[0], &[0x1f]] {
        assert_eq!(change_fault(delete(behind)), 5);
    }
    assert_eq!(change_fault(feature_change(&[inas(1, 5, 6, MODIFY, &[])])), 5);
}

#[test]
fn c7_a_spatial_delete_compares_its_key_alone() {
    let delete = |rrnm, ornt, smin| feature_change(&[spas(&[(rrnm, 1, ornt, smin, 0, DELETE)])]);
    for (rrnm, ornt) in [(110, 0), (110, 3), (120, 1)] {
        assert_eq!(change_fault(delete(rrnm, ornt, 1)), 5);
    }
    let kept = (115, 1, 1, 0, u32::MAX, INSERT);
    let old = feature(&[spas(&[(110, 1, 255, 1, 2, INSERT), kept])]);
    assert_becomes(old, delete(110, 2, 77), versioned(feature(&[spas(&[kept])]), 2));
}

/// The record with another RVER, whose place depends on its kind.
fn versioned(mut record: Record, rver: u16) -> Record {
    let at = record[0].body.len() - 3;
    record[0].body[at..at + 2].copy_from_slice(&rver.to_le_bytes());
    record
}

#[test]
fn c8_each_list_field_holds_whole_tuples() {
    let halves = |list: Field, at: usize| {
        let (one, other) = list.body.split_at(at);
        let tag = String::from_utf8(list.tag.to_vec()).unwrap();
        [field(&tag, one.to_vec()), field(&tag, other.to_vec())]
    };
    let coordinates = halves(c2il(&[(1, 2)]), 4);
    assert_eq!(record_fault(MULTI_POINT, [&[mrid(1, 1, INSERT)], &coordinates[..]].concat()), 5);
    assert_eq!(record_fault(FEATURE, feature(&halves(spas(&[(110, 1, 1, 0, 0, INSERT)]), 5))), 5);
    let whole = halves(c2il(&[(1, 2), (3, 4)]), 8);
    let joined = vec![mrid(1, 1, INSERT), c2il(&[(1, 2), (3, 4)])];
    assert_written(MULTI_POINT, [&[mrid(1, 1, INSERT)], &whole[..]].concat(), joined);
}

#[test]
fn c8_ncor_counts_the_tuples_of_all_fields() {
    let change = |count| multi_point_change(&[cocc(INSERT, 1, count), c2il(&[(8, 8)]), c2il(&[]), c2il(&[(9, 9)])]);
    for wrong in [1, 3] {
        assert_eq!(change_fault(change(wrong)), 5);
    }
    let result = vec![mrid(1, 2, INSERT), c2il(&[(8, 8), (9, 9), (1, 1), (2, 2), (3, 3)])];
    assert_updates(&base(), &[change(2)], &base_with(MULTI_POINT, result));
}

/// The answer to an update of this number on the base dataset of another one.
fn numbered(dataset: u16, update: u16) -> Case {
    let general_record = vec![dsid(1, NAME, EDITION, update)];
    let update = given(&with(update_records(&[]), GENERAL, general_record));
    Case::update(given(&base_with(GENERAL, general(dataset))), update, ROOM, WORK)
}

#[test]
fn c9_update_number_0_is_5_in_an_update_only() {
    assert_eq!(refused(&numbered(4, 0)), (5, 2, 2));
    assert_eq!(refused(&numbered(0, 0)), (5, 2, 2));
    assert_eq!(refused(&numbered(4, 4)), (8, 2, 2));
    assert!(!done(&numbered(0, 1)).is_empty());
}

#[test]
fn c9_nothing_follows_the_last_numbers() {
    assert!(!done(&numbered(65_533, 65_534)).is_empty());
    assert_eq!(refused(&numbered(65_534, 65_534)), (8, 2, 2));
    assert_eq!(refused(&numbered(65_534, 1)), (8, 2, 2));
    assert_eq!(refused(&numbered(65_534, 65_535)), (5, 2, 2));
    let old = |rver| vec![prid(1, rver, INSERT), c2it(0, 0)];
    assert_becomes(old(65_533), vec![prid(1, 65_534, MODIFY)], old(65_534));
    for (rver, fault) in [(65_534, 10), (1, 10), (65_535, 5), (0, 5)] {
        assert_eq!(clash(old(65_534), vec![prid(1, rver, MODIFY)]), fault);
    }
}

#[test]
fn c10_only_a_modifys_attr_takes_other_instructions() {
    let tuple = |instruction| [(50, 1, 0, instruction, "v")];
    for instruction in [INSERT, DELETE, MODIFY] {
        assert_accepted(&[feature_change(&[attr(&tuple(instruction))])]);
    }
    for instruction in [DELETE, MODIFY] {
        let inserted = |field: Field| vec![frid(9, 30, 1, INSERT), foid(1, 1, 1), field];
        assert_eq!(change_fault(inserted(attr(&tuple(instruction)))), 5);
        assert_eq!(change_fault(inserted(inas(1, 5, 6, INSERT, &tuple(instruction)))), 5);
        assert_eq!(change_fault(inserted(inas(1, 5, 6, instruction, &[]))), 5);
        assert_eq!(change_fault(inserted(spas(&[(110, 1, 1, 0, 0, instruction)]))), 5);
        assert_eq!(change_fault(feature_change(&[inas(2, 5, 6, INSERT, &tuple(instruction))])), 5);
    }
    assert_accepted(&[feature_change(&[inas(2, 5, 6, INSERT, &tuple(INSERT))])]);
}

// ---- D: tree and update rules ----

/// An entry with two children, the second with two of its own, and an entry behind.
const TREE: [Tuple; 6] = [
    (1, 1, 0, INSERT, ""),
    (2, 1, 1, INSERT, "p"),
    (3, 1, 1, INSERT, ""),
    (4, 1, 3, INSERT, "q"),
    (4, 2, 3, INSERT, "r"),
    (5, 1, 0, INSERT, "s"),
];

#[test]
fn d1_the_parent_is_an_ancestor_of_the_tuple_before() {
    let lead = (1, 1, 0, MODIFY, "");
    assert_eq!(attribute_clash(&TREE, &[(2, 1, 1, MODIFY, "x")]), 6);
    assert_eq!(attribute_clash(&TREE, &[lead, (5, 1, 0, MODIFY, "x"), (2, 1, 1, MODIFY, "x")]), 6);
    assert_eq!(attribute_clash(&TREE, &[lead, (2, 1, 2, MODIFY, "x")]), 6);
    assert_eq!(attribute_clash(&TREE, &[lead, (2, 1, 3, MODIFY, "x")]), 6);
    let again = [lead, (3, 1, 1, MODIFY, ""), (4, 1, 2, MODIFY, "x"), (2, 1, 1, MODIFY, "y")];
    let mut new = TREE;
    (new[1].4, new[3].4) = ("y", "x");
    assert_attributes(&TREE, &again, &new);
}

#[test]
fn d1_no_parent_is_a_delete_tuple_but_its_ancestors_may_be() {
    let (lead, branch, delete) = ((1, 1, 0, MODIFY, ""), (3, 1, 1, MODIFY, ""), (4, 1, 2, DELETE, ""));
    assert_eq!(attribute_clash(&TREE, &[lead, branch, delete, (9, 1, 3, INSERT, "x")]), 6);
    let change = [lead, branch, delete, (4, 1, 2, MODIFY, "x"), (2, 1, 1, MODIFY, "y")];
    let new = [
        (1, 1, 0, INSERT, ""),
        (2, 1, 1, INSERT, "y"),
        (3, 1, 1, INSERT, ""),
        (4, 1, 3, INSERT, "x"),
        (5, 1, 0, INSERT, "s"),
    ];
    assert_attributes(&TREE, &change, &new);
}

#[test]
fn d2_the_first_pass_tests_parents_only() {
    let far_index = feature_change(&[attr(&[(50, 9, 0, INSERT, "v")])]);
    let value_and_child = feature_change(&[attr(&[(60, 1, 0, INSERT, "v"), (61, 1, 1, INSERT, "w")])]);
    for change in [far_index, value_and_child] {
        assert_eq!(update_refused(&base(), &[change, misplaced_field()]), (4, 2, 4));
    }
    let no_parent = feature_change(&[attr(&[(50, 1, 1, MODIFY, "v")])]);
    assert_eq!(update_refused(&base(), &[no_parent, misplaced_field()]), (6, 2, 3));
    let delete_parent = feature_change(&[attr(&[(51, 1, 0, DELETE, ""), (52, 1, 1, MODIFY, "")])]);
    assert_eq!(update_refused(&base(), &[delete_parent, misplaced_field()]), (6, 2, 3));
}

#[test]
fn d2_the_associations_of_a_modify_obey_the_whole_tree_rule_at_once() {
    let association = |tuples: &[Tuple]| feature_change(&[inas(2, 5, 6, INSERT, tuples)]);
    let far_index = association(&[(1, 2, 0, INSERT, "")]);
    let value_and_child = association(&[(1, 1, 0, INSERT, "v"), (1, 1, 1, INSERT, "")]);
    for change in [far_index, value_and_child] {
        assert_eq!(update_refused(&base(), &[change, misplaced_field()]), (6, 2, 3));
    }
    let good = association(&[(1, 1, 0, INSERT, ""), (1, 1, 1, INSERT, "")]);
    assert_eq!(update_refused(&base(), &[good.clone(), misplaced_field()]), (4, 2, 4));
    assert_accepted(&[good]);
}

#[test]
fn d3_an_inserted_records_version_other_than_1_is_10_in_the_second_pass() {
    let inserted = |rcid, rver| vec![prid(rcid, rver, INSERT), c2it(0, 0)];
    assert_eq!(change_fault(inserted(9, 2)), 10);
    assert_eq!(change_fault(inserted(2, 2)), 7);
    assert_eq!(change_fault(inserted(9, 0)), 5);
    assert_eq!(update_refused(&base(), &[inserted(9, 2), misplaced_field()]), (4, 2, 4));
    assert_accepted(&[inserted(9, 1)]);
}

#[test]
fn d4_a_child_put_under_a_value_is_6_before_9() {
    let (simple, value) = ((5, 1, 0, MODIFY, "t"), (9, 1, 0, INSERT, "v"));
    assert_eq!(attribute_clash(&TREE, &[simple, (6, 1, 1, INSERT, "x")]), 6);
    assert_eq!(attribute_clash(&TREE, &[simple, (6, 2, 1, INSERT, "x")]), 6);
    assert_eq!(attribute_clash(&TREE, &[value, (6, 1, 1, INSERT, "x")]), 6);
    assert_eq!(attribute_clash(&TREE, &[(1, 1, 0, MODIFY, ""), (6, 2, 1, INSERT, "x")]), 9);
    let new = [&TREE[..], &[(9, 1, 0, INSERT, ""), (6, 1, 7, INSERT, "x")]].concat();
    assert_attributes(&TREE, &[(9, 1, 0, INSERT, ""), (6, 1, 1, INSERT, "x")], &new);
}

#[test]
fn d5_an_empty_modify_of_a_simple_entry_empties_it_for_a_child() {
    let mut new = [&TREE[..], &[(6, 1, 6, INSERT, "x")]].concat();
    new[5].4 = "";
    assert_attributes(&TREE, &[(5, 1, 0, MODIFY, ""), (6, 1, 1, INSERT, "x")], &new);
    let mut emptied = TREE;
    emptied[5].4 = "";
    assert_attributes(&TREE, &[(5, 1, 0, MODIFY, "")], &emptied);
    assert_eq!(attribute_clash(&TREE, &[(5, 1, 0, MODIFY, "s"), (6, 1, 1, INSERT, "x")]), 6);
}

#[test]
fn d6_a_modify_or_delete_under_a_value_is_9() {
    for instruction in [MODIFY, DELETE] {
        assert_eq!(attribute_clash(&TREE, &[(5, 1, 0, MODIFY, "t"), (6, 1, 1, instruction, "")]), 9);
    }
    assert_eq!(attribute_clash(&TREE, &[(5, 1, 0, MODIFY, "t"), (6, 1, 1, INSERT, "")]), 6);
}

#[test]
fn d7_an_insert_behind_the_last_of_its_code_stands_before_other_codes() {
    let old = [(1, 1, 0, INSERT, ""), (2, 1, 1, INSERT, "p"), (3, 1, 0, INSERT, "q")];
    let new = [(1, 1, 0, INSERT, ""), (2, 1, 1, INSERT, "p"), (1, 2, 0, INSERT, "x"), (3, 1, 0, INSERT, "q")];
    assert_attributes(&old, &[(1, 2, 0, INSERT, "x")], &new);
    let new = [(1, 1, 0, INSERT, "x"), (1, 2, 0, INSERT, ""), (2, 1, 2, INSERT, "p"), (3, 1, 0, INSERT, "q")];
    assert_attributes(&old, &[(1, 1, 0, INSERT, "x")], &new);
    let new = [(1, 1, 0, INSERT, ""), (2, 1, 1, INSERT, "p"), (3, 1, 0, INSERT, "q"), (4, 1, 0, INSERT, "x")];
    assert_attributes(&old, &[(4, 1, 0, INSERT, "x")], &new);
    assert_eq!(attribute_clash(&old, &[(4, 2, 0, INSERT, "x")]), 9);
    assert_eq!(attribute_clash(&old, &[(1, 3, 0, INSERT, "x")]), 9);
}

#[test]
fn d8_a_value_is_sent_only_to_an_entry_without_children() {
    assert_eq!(attribute_clash(&TREE, &[(1, 1, 0, MODIFY, "v")]), 6);
    assert_attributes(&TREE, &[(1, 1, 0, MODIFY, "")], &TREE);
    let (lead, first, second) = ((1, 1, 0, MODIFY, ""), (2, 1, 1, DELETE, ""), (3, 1, 1, DELETE, ""));
    let left = [(1, 1, 0, INSERT, ""), (5, 1, 0, INSERT, "s")];
    assert_attributes(&TREE, &[lead, first, second], &left);
    let valued = [(1, 1, 0, INSERT, "v"), (5, 1, 0, INSERT, "s")];
    assert_attributes(&TREE, &[lead, first, second, (1, 1, 0, MODIFY, "v")], &valued);
    assert_eq!(attribute_clash(&TREE, &[lead, first, (1, 1, 0, MODIFY, "v")]), 6);
}

#[test]
fn d9_an_information_association_deleted_and_inserted_moves_to_the_end() {
    let (one, other) = (inas(1, 5, 6, INSERT, &[]), inas(2, 5, 6, INSERT, &[]));
    let (delete, again) = (inas(1, 5, 6, DELETE, &[]), inas(1, 5, 6, INSERT, &[(1, 1, 0, INSERT, "v")]));
    let old = feature(&[one.clone(), other.clone()]);
    let new = versioned(feature(&[other, again.clone()]), 2);
    assert_becomes(old.clone(), feature_change(&[delete.clone(), again.clone()]), new);
    assert_eq!(clash(old.clone(), feature_change(&[again])), 7);
    assert_eq!(clash(old.clone(), feature_change(&[delete.clone(), delete.clone()])), 9);
    assert_eq!(clash(old, feature_change(&[delete, one.clone(), one])), 7);
}

#[test]
fn d9_a_spatial_association_deleted_and_inserted_moves_to_the_end() {
    let (one, other) = ((110, 1, 1, 2, 3, INSERT), (115, 1, 1, 2, 3, INSERT));
    let (delete, again) = ((110, 1, 1, 0, 0, DELETE), (110, 1, 2, 8, 9, INSERT));
    let old = feature(&[spas(&[one, other])]);
    let new = versioned(feature(&[spas(&[other, again])]), 2);
    assert_becomes(old.clone(), feature_change(&[spas(&[delete, again])]), new.clone());
    assert_becomes(old.clone(), feature_change(&[spas(&[delete]), spas(&[again])]), new);
    assert_eq!(clash(old.clone(), feature_change(&[spas(&[again])])), 7);
    assert_eq!(clash(old.clone(), feature_change(&[spas(&[delete]), spas(&[delete])])), 9);
    assert_eq!(clash(old, feature_change(&[spas(&[delete, again]), spas(&[again])])), 7);
}

#[test]
fn d9_keys_of_a_modify_wait_for_the_second_pass() {
    let present = feature_change(&[inas(1, 5, 6, INSERT, &[]), inas(1, 5, 6, INSERT, &[])]);
    assert_eq!(update_refused(&base(), &[present, misplaced_field()]), (4, 2, 4));
    let inserted = vec![irid(9, 20, 1, INSERT), inas(1, 5, 6, INSERT, &[]), inas(1, 5, 6, INSERT, &[])];
    assert_eq!(update_refused(&base(), &[inserted, misplaced_field()]), (7, 2, 3));
}

#[test]
fn d10_association_keys_are_unique_within_their_record() {
    let different = [inas(1, 5, 6, INSERT, &[]), inas(2, 5, 6, INSERT, &[]), inas(1, 6, 6, INSERT, &[])];
    assert_good(FEATURE, feature(&[&different[..], &[inas(1, 5, 5, INSERT, &[])]].concat()));
    let attributed = inas(1, 5, 6, INSERT, &[(1, 1, 0, INSERT, "v")]);
    assert_eq!(record_fault(FEATURE, feature(&[different[0].clone(), attributed])), 7);
    let (one, same_key) = ((110, 1, 1, 2, 3, INSERT), (110, 1, 2, 4, 5, INSERT));
    assert_eq!(record_fault(FEATURE, feature(&[spas(&[one, same_key])])), 7);
    assert_eq!(record_fault(FEATURE, feature(&[spas(&[one]), spas(&[same_key])])), 7);
    assert_good(FEATURE, feature(&[spas(&[one, (115, 1, 1, 2, 3, INSERT), (110, 2, 1, 2, 3, INSERT)])]));
}

#[test]
fn d11_the_general_records_number_is_nobodys_key() {
    for rcid in [1, 2, 7] {
        assert_good(GENERAL, vec![dsid(rcid, NAME, EDITION, NUMBER)]);
    }
    // The four kinds share no keys either: number 1 stands in each of them.
    let same = [
        vec![irid(1, 1, 1, INSERT)],
        vec![prid(1, 1, INSERT), c2it(0, 0)],
        vec![mrid(1, 1, INSERT)],
        vec![frid(1, 1, 1, INSERT), foid(0, 0, 0)],
    ];
    assert_eq!(counted(&given(&[&base()[..3], &same].concat())), 7);
}

#[test]
fn d12_each_update_record_meets_the_latest_version() {
    let point = |rver, ruin| vec![prid(2, rver, ruin)];
    let inserted = |rver| vec![prid(2, rver, INSERT), c2it(7, 7)];
    let chain = [point(5, MODIFY), point(6, MODIFY), point(7, DELETE)];
    let mut without = base();
    without.remove(SECOND_POINT - 1);
    assert_updates(&base(), &chain, &without);
    let again = [&chain[..], &[inserted(1)]].concat();
    assert_updates(&base(), &again, &base_with(SECOND_POINT, inserted(1)));
    assert_eq!(update_refused(&base(), &[&chain[..], &[inserted(8)]].concat()), (10, 2, 6));
    assert_eq!(update_refused(&base(), &[&chain[..], &[point(8, MODIFY)]].concat()), (9, 2, 6));
    assert_eq!(update_refused(&base(), &[&again[..], &[inserted(1)]].concat()), (7, 2, 7));
}

#[test]
fn d12_a_record_deleted_and_inserted_stands_at_the_end_of_its_kind() {
    let first = vec![irid(9, 20, 1, INSERT)];
    let dataset = base_plus(INFORMATION, first.clone());
    let update = [vec![irid(9, 20, 2, DELETE)], first.clone()];
    assert_updates(&dataset, &update, &base_plus(POINT, first));
}

#[test]
fn d13_foid_is_compared_whole_and_before_any_field_acts() {
    for wrong in [foid(8, 8, 9), foid(7, 9, 9), foid(7, 8, 10)] {
        assert_eq!(change_fault(feature_change(&[wrong.clone()])), 10);
        assert_eq!(change_fault(feature_change(&[wrong, attr(&[(99, 1, 0, DELETE, "")])])), 10);
    }
    let result = base_with(FEATURE, versioned(base()[FEATURE - 1].clone(), 2));
    assert_updates(&base(), &[feature_change(&[foid(7, 8, 9)])], &result);
    assert_updates(&base(), &[feature_change(&[])], &result);
    assert_eq!(change_fault(vec![frid(1, 30, 2, DELETE), foid(7, 8, 9)]), 4);
    assert_accepted(&[vec![frid(1, 30, 2, DELETE)]]);
}

#[test]
fn d14_places_reach_beyond_16_bits() {
    let three = [(1, 1), (2, 2), (3, 3)];
    for (index, count) in [(65_534, 65_534), (65_534, 3), (3, 65_534), (2, 65_534)] {
        assert_eq!(coordinate_clash(&three, cocc(DELETE, index, count), &[]), 9);
    }
    for index in [5, 6, 65_534] {
        assert_eq!(coordinate_clash(&three, cocc(INSERT, index, 1), &[(9, 9)]), 9);
    }
    assert_coordinates(&three, cocc(DELETE, 1, 3), &[], &[]);
}

#[test]
fn d15_a_reference_may_be_loose_between_update_records() {
    let naming = feature_change(&[inas(9, 5, 6, INSERT, &[])]);
    let named = vec![irid(9, 20, 1, INSERT)];
    assert_accepted(&[naming.clone(), named]);
    assert_eq!(update_refused(&base(), &[naming]), (11, 3, FEATURE));
    let deleted = vec![mrid(1, 2, DELETE)];
    let no_longer_naming = feature_change(&[spas(&[(115, 1, 1, 0, 0, DELETE)])]);
    assert_accepted(&[deleted.clone(), no_longer_naming]);
    assert_eq!(update_refused(&base(), &[deleted]), (11, 3, FEATURE - 1));
}

#[test]
fn d15_a_deleted_association_need_not_name_anything() {
    let loose_at_once = feature_change(&[inas(9, 5, 6, INSERT, &[]), inas(9, 5, 6, DELETE, &[])]);
    assert_updates(&base(), &[loose_at_once], &base_with(FEATURE, versioned(base()[FEATURE - 1].clone(), 2)));
}

#[test]
fn d16_each_general_field_comes_from_the_update_if_there() {
    let merged = |rest: Record, want: Record| {
        let update = with(update_records(&[]), GENERAL, [next_general(), rest].concat());
        let got = done(&Case::update(given(&base()), given(&update), ROOM, WORK));
        assert_same(&got, &file(&base_with(GENERAL, [next_general(), want].concat())));
    };
    let old = general_rest();
    merged(vec![], old.clone());
    let empty = field("DSSI", Vec::new());
    merged(vec![empty.clone()], vec![empty, old[1].clone(), old[2].clone()]);
    let between = field("FTCS", vec![1, 2]);
    merged(vec![between.clone()], vec![old[0].clone(), old[1].clone(), between, old[2].clone()]);
    let all: Record =
        ["DSSI", "ATCS", "ITCS", "FTCS", "IACS", "FACS", "ARCS"].map(|tag| field(tag, tag.into())).to_vec();
    merged(all.clone(), all);
}

// ---- E: order and answers ----

#[test]
fn e1_file_and_record_are_0_when_done() {
    let dataset = given(&base());
    let cases = [
        Case::read(dataset.clone()),
        Case::write(dataset.clone(), ROOM),
        Case::update(dataset, update_file(&[]), ROOM, WORK),
    ];
    for case in cases {
        let reply = reply(&case);
        assert_eq!((reply.number, reply.file, reply.record), (0, 0, 0));
        assert_eq!(reply.count, base().len());
    }
}

#[test]
fn e2_the_first_pass_of_the_update_before_8() {
    let strange = vec![dsid(1, "OTHER", EDITION, NUMBER + 1)];
    let update = |last: Record| {
        let records: Vec<Record> = (0..6).map(|n| vec![prid(20 + n, 1, INSERT), c2it(0, 0)]).collect();
        given(&with(update_records(&[&records[..], &[last]].concat()), GENERAL, strange.clone()))
    };
    assert_eq!(file_refused(update(vec![prid(0, 5, MODIFY)])), (5, 2, 9));
    assert_eq!(file_refused(update(vec![prid(2, 5, MODIFY)])), (8, 2, 2));
}

#[test]
fn e2_a_long_dataset_record_before_everything_in_the_update_but_14() {
    let dataset = replaced(&base(), MULTI_POINT, narrow_multi_point(1, 12_493));
    let case = |update: Vec<u8>| Case::update(dataset.clone(), update, ROOM, WORK);
    assert_eq!(refused(&case(b"junk".to_vec())), (12, 1, MULTI_POINT));
    assert_eq!(refused(&case(vec![0; FILE_LIMIT + 1])), (14, 2, 0));
}

/// Where a dataset is refused whose record of this number is too long when written.
fn long_at(number: usize, fields: &[Field], tag: &str, update: &[Record]) -> Refusal {
    let long = tight(number == 1, &stuffed(fields, tag));
    let dataset = replaced(&base(), number, long);
    assert_eq!(counted(&dataset), base().len());
    refused(&Case::update(dataset, update_file(update), ROOM, WORK))
}

#[test]
fn e3_every_dataset_record_is_measured() {
    assert_eq!(long_at(DESCRIPTIVE, &[field("0000", Vec::new())], "AAAA", &[]), (12, 1, DESCRIPTIVE));
    assert_eq!(long_at(SYSTEM, &[field("CSID", Vec::new())], "CRSH", &[]), (12, 1, SYSTEM));
    // The update replaces what makes the general record long.
    assert_eq!(long_at(GENERAL, &[dsid(1, NAME, EDITION, NUMBER)], "DSSI", &[]), (12, 1, GENERAL));
}

#[test]
fn e3_a_long_dataset_record_is_told_though_the_update_deletes_it() {
    let dataset = [parts(&base()[..MULTI_POINT]), vec![narrow_multi_point(9, 12_493)]].concat().concat();
    let update = update_file(&[vec![mrid(9, 2, DELETE)]]);
    assert_eq!(refused(&Case::update(dataset, update, ROOM, WORK)), (12, 1, FEATURE));
}

#[test]
fn e3_the_merged_general_record_is_measured_at_record_2_of_the_update() {
    let half = vec![b'.'; 50_000];
    let dataset = base_with(GENERAL, vec![dsid(1, NAME, EDITION, NUMBER), field("ATCS", half.clone())]);
    let update = |tag: &str| {
        let general = vec![dsid(1, NAME, EDITION, NUMBER + 1), field(tag, half.clone())];
        Case::update(given(&dataset), given(&with(update_records(&[]), GENERAL, general)), ROOM, WORK)
    };
    assert_eq!(refused(&update("ARCS")), (12, 2, 2));
    assert!(!done(&update("ATCS")).is_empty());
}

#[test]
fn e3_a_record_is_measured_after_each_update_record() {
    let long = "v".repeat(60_000);
    let grow = |rver, code| vec![frid(1, 30, rver, MODIFY), attr(&[(code, 1, 0, INSERT, &long)])];
    let shrink = |rver, code| vec![frid(1, 30, rver, MODIFY), attr(&[(code, 1, 0, DELETE, "")])];
    assert_eq!(update_refused(&base(), &[grow(2, 90), grow(3, 91), shrink(4, 90)]), (12, 2, 4));
    let result = base_with(FEATURE, versioned(base()[FEATURE - 1].clone(), 5));
    assert_updates(&base(), &[grow(2, 90), shrink(3, 90), grow(4, 91), shrink(5, 91)], &result);
}

#[test]
fn e4_fields_and_tuples_in_order_and_6_before_9_within_a_tuple() {
    let (gone, present) = (inas(9, 5, 6, DELETE, &[]), spas(&[(110, 1, 1, 0, 0, INSERT)]));
    assert_eq!(change_fault(feature_change(&[gone, present])), 9);
    let (absent, simple) = ((99, 1, 0, DELETE, ""), (50, 1, 0, MODIFY, "v"));
    let attributes = |tuples: &[Tuple]| feature_change(&[attr(tuples)]);
    assert_eq!(change_fault(attributes(&[absent, simple, (1, 1, 2, INSERT, "")])), 9);
    assert_eq!(change_fault(attributes(&[simple, (1, 1, 1, INSERT, ""), absent])), 6);
    assert_eq!(change_fault(attributes(&[simple, (1, 5, 1, INSERT, "")])), 6);
}

#[test]
fn e5_a_loose_reference_has_the_number_of_its_own_file() {
    let loose = vec![frid(2, 31, 6, INSERT), foid(1, 1, 1), inas(9, 5, 6, INSERT, &[])];
    assert_eq!(record_fault(SECOND_FEATURE, loose), 11);
    // Two records before feature 1 go, so it is number 7 of the result.
    let update = [vec![prid(2, 5, DELETE)], vec![mrid(1, 2, DELETE)]];
    assert_eq!(update_refused(&base(), &update), (11, 3, FEATURE - 2));
}

#[test]
fn e6_lengths_and_slices_have_record_0() {
    assert_eq!(refused(&Case::write(given(&base()), 0)), (13, 3, 0));
    assert_eq!(refused(&Case::read(vec![0; FILE_LIMIT + 1])), (14, 1, 0));
    assert_eq!(refused(&Case::update(Vec::new(), vec![0; FILE_LIMIT + 1], 0, WORK)), (14, 2, 0));
    assert_eq!(refused(&Case::update(Vec::new(), Vec::new(), 0, 0)), (15, 0, 0));
}

#[test]
fn e7_the_count_includes_the_first_three_and_the_listings_total_does_not() {
    let dataset = given(&base());
    assert_eq!(counted(&dataset), 10);
    assert!(printed(&dataset).ends_with("\ntotal 7\n"));
}

#[test]
fn e8_a_key_twice_is_told_at_the_later_record() {
    let again = |index| vec![irid(2, 21, 1, INSERT), attr(&[(1, index, 0, INSERT, "")])];
    let records = |index| base_plus(POINT, again(index));
    assert_eq!(dataset_refused(&given(&records(1))), (7, 1, POINT));
    assert_eq!(dataset_refused(&given(&records(2))), (6, 1, POINT));
    let loose = vec![irid(1, 20, 1, INSERT), inas(9, 5, 6, INSERT, &[])];
    assert_eq!(dataset_refused(&given(&with(records(1), INFORMATION, loose.clone()))), (7, 1, POINT));
    assert_eq!(dataset_refused(&given(&base_with(INFORMATION, loose))), (11, 1, INFORMATION));
}

#[test]
fn e9_the_reader_knows_no_12() {
    let multi_point = narrow_multi_point(1, 12_493);
    assert_eq!(multi_point.len(), 99_999);
    let dataset = replaced(&base(), MULTI_POINT, multi_point);
    assert_eq!(counted(&dataset), base().len());
    assert_eq!(refused(&Case::write(dataset.clone(), ROOM)), (12, 1, MULTI_POINT));
    assert_eq!(refused(&Case::update(dataset, update_file(&[]), ROOM, WORK)), (12, 1, MULTI_POINT));
}

#[test]
fn e10_8_compares_with_the_dataset_as_given() {
    let update = |name: &str| {
        let general = vec![dsid(1, name, EDITION, NUMBER + 1)];
        Case::update(given(&base()), given(&with(update_records(&[]), GENERAL, general)), ROOM, WORK)
    };
    for name in ["ez1", "EZ", "EZ1 ", "EZ1\0", "", "EZ1EZ1"] {
        assert_eq!(refused(&update(name)), (8, 2, 2), "{name:?}");
    }
    assert!(!done(&update(NAME)).is_empty());
}

#[test]
fn e11_an_empty_update_is_found_after_the_dataset() {
    assert_eq!(file_refused(Vec::new()), (1, 2, 1));
    let case = |dataset: Vec<u8>| Case::update(dataset, Vec::new(), ROOM, WORK);
    let long = replaced(&base(), MULTI_POINT, narrow_multi_point(1, 12_493));
    assert_eq!(refused(&case(long)), (12, 1, MULTI_POINT));
    let loose = base_with(SECOND_INFORMATION, vec![irid(2, 21, 1, INSERT), inas(9, 5, 6, INSERT, &[])]);
    assert_eq!(refused(&case(given(&loose))), (11, 1, SECOND_INFORMATION));
    assert_eq!(refused(&case(Vec::new())), (1, 1, 1));
}

// ---- F: the written form ----

#[test]
fn f1_records_that_the_update_does_not_touch_are_rewritten_too() {
    let split = vec![mrid(1, 1, INSERT), c2il(&[(1, 1)]), c2il(&[]), c2il(&[(2, 2), (3, 3)])];
    let spatial = vec![spas(&[(110, 1, 255, 1, 2, INSERT)]), spas(&[]), spas(&[(115, 1, 1, 0, u32::MAX, INSERT)])];
    let own = base()[FEATURE - 1][..4].to_vec();
    let dataset = with(base_with(MULTI_POINT, split), FEATURE, [own, spatial].concat());
    let dataset = with(dataset, SECOND_FEATURE, [base()[SECOND_FEATURE - 1].clone(), vec![spas(&[])]].concat());
    let mut result = base();
    result.remove(SECOND_POINT - 1);
    assert_updates(&dataset, &[vec![prid(2, 5, DELETE)]], &result);
}

#[test]
fn f1_unread_fields_stay_also_when_empty() {
    let general = [general(NUMBER)[..1].to_vec(), vec![field("DSSI", Vec::new()), field("ARCS", Vec::new())]].concat();
    assert_good(GENERAL, general);
    assert_good(SYSTEM, vec![field("CSID", Vec::new()), field("CRSH", Vec::new())]);
}

#[test]
fn f2_information_associations_stay_apart_in_their_order() {
    let associations = [inas(2, 9, 9, INSERT, &[]), inas(1, 1, 1, INSERT, &[]), inas(1, 1, 0, INSERT, &[])];
    assert_good(INFORMATION, [&[irid(1, 20, 1, INSERT)], &associations[..]].concat());
    let added = inas(2, 0, 0, INSERT, &[]);
    let old = feature(&associations);
    let new = versioned(feature(&[&associations[..], &[added.clone()]].concat()), 2);
    assert_becomes(old, feature_change(&[added]), new);
}

#[test]
fn f3_fields_that_an_update_brings_stand_in_the_order_of_the_kind() {
    let (entry, association) = (attr(&[(1, 1, 0, INSERT, "v")]), inas(1, 5, 6, INSERT, &[]));
    let (object, spatial) = (foid(7, 8, 9), spas(&[(110, 1, 1, 0, 0, INSERT)]));
    let new = vec![frid(1, 30, 2, INSERT), object, entry.clone(), association.clone(), spatial.clone()];
    assert_becomes(feature(&[spatial]), feature_change(&[entry, association.clone()]), new);
    let new = vec![prid(1, 2, INSERT), association.clone(), c2it(3, 4)];
    assert_becomes(vec![prid(1, 1, INSERT), c2it(3, 4)], vec![prid(1, 2, MODIFY), association.clone()], new);
    let new = vec![mrid(1, 2, INSERT), association.clone(), c2il(&[(3, 4)])];
    assert_becomes(vec![mrid(1, 1, INSERT), c2il(&[(3, 4)])], multi_point_change(&[association]), new);
}

#[test]
fn f4_two_records_full_of_entries_are_12_and_reach_no_other_bound() {
    let entries =
        |first: u16, count: u16| -> Vec<Tuple> { (0..count).map(|n| (1, first + n, 0, INSERT, "")).collect() };
    let full = 12_480;
    let old = entries(1, full);
    assert_good(FEATURE, feature(&[attr(&old)]));
    assert_eq!(attribute_clash(&old, &entries(full + 1, full)), 12);
    // At first in the run each, so that the indices of all others are raised.
    assert_eq!(attribute_clash(&old, &vec![(1, 1, 0, INSERT, ""); 12_400]), 12);
    assert_attributes(&old[..6_000], &entries(6_001, full - 6_000), &old);
}

// ---- G: the listing ----

#[test]
fn g1_every_line_ends_in_one_newline() {
    assert_eq!(printed(&given(&base()[..3])), "rec tag rcid rver attr coord\ntotal 0\n");
    assert_eq!(printed(&[0; 65_537]), "too long\n");
    assert_eq!(printed(&[0; 24]), "refused 2 1 1\n");
}

#[test]
fn g2_attributes_of_associations_are_not_counted_and_all_lists_of_coordinates_are() {
    let entries = [(1, 1, 0, INSERT, ""), (1, 1, 1, INSERT, "")];
    let association = || inas(4_294_967_294, 1, 1, INSERT, &entries);
    let records = [
        vec![irid(4_294_967_294, 0, 65_534, INSERT), attr(&entries), association()],
        vec![prid(1, 1, INSERT), c2it(0, 0)],
        vec![mrid(1, 1, INSERT), association(), c2il(&many(2)), c2il(&[]), c2il(&many(3))],
        vec![mrid(2, 1, INSERT)],
    ];
    let want = "rec tag rcid rver attr coord\n\
                4 IRID 4294967294 65534 2 0\n\
                5 PRID 1 1 0 1\n\
                6 MRID 1 1 0 5\n\
                7 MRID 2 1 0 0\n\
                total 4\n";
    assert_eq!(printed(&given(&[&base()[..3], &records].concat())), want);
}

#[test]
fn g3_the_limit_holds_whatever_the_input_is() {
    assert_eq!(printed(&[b'x'; 65_536]), "refused 2 1 1\n");
    assert_eq!(printed(&[b'x'; 65_537]), "too long\n");
    assert_eq!(printed(&vec![b'x'; FILE_LIMIT + 1]), "too long\n");
    assert_eq!(printed(&given(&base()[..3])), "rec tag rcid rver attr coord\ntotal 0\n");
}
