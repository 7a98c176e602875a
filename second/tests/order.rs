//! The order of refusals: for each two neighbours of the paper's order a file with both faults, where the first wins.
//! That the second alone is told too is shown beside it, so that no test passes for want of the fault.

mod common;
use common::*;

/// A general record that names another dataset (8).
fn strange_general() -> Record {
    vec![dsid(1, "OTHER", EDITION, NUMBER + 1)]
}

/// An update record whose ATTR or coordinates do not matter: the record it changes is absent (9).
fn absent() -> Record {
    vec![prid(99, 2, MODIFY)]
}

/// A point that no number but 7 is due for: point 1 once more.
fn point_again() -> Record {
    vec![prid(1, 1, INSERT), c2it(0, 0)]
}

/// An information type that names a record there is not (11).
fn loose() -> Record {
    vec![irid(2, 21, 2, INSERT), inas(9, 5, 6, INSERT, &[])]
}

/// The base dataset with that record followed by a multi point that is too long when written (12).
fn with_long_record(records: &[Record]) -> Vec<u8> {
    let mut parts = parts(records);
    parts.insert(FEATURE - 1, narrow_multi_point(9, 12_493));
    parts.concat()
}

fn updater(dataset: Vec<u8>, update: Vec<u8>) -> Case {
    Case::update(dataset, update, ROOM, WORK)
}

fn too_long() -> Vec<u8> {
    vec![0; FILE_LIMIT + 1]
}

// ---- before any record ----

#[test]
fn workspace_before_length_of_dataset() {
    assert_eq!(refused(&Case::update(too_long(), too_long(), 10, WORK - 1)), (15, 0, 0));
    assert_eq!(refused(&Case::update(too_long(), update_file(&[]), 10, WORK)), (14, 1, 0));
}

#[test]
fn length_of_dataset_before_length_of_update() {
    assert_eq!(refused(&updater(too_long(), too_long())), (14, 1, 0));
}

#[test]
fn length_of_update_before_the_datasets_records() {
    assert_eq!(refused(&updater(Vec::new(), too_long())), (14, 2, 0));
    assert_eq!(refused(&updater(Vec::new(), Vec::new())), (1, 1, 1));
}

#[test]
fn reader_and_writer_start_at_the_length() {
    assert_eq!(refused(&Case::read(too_long())), (14, 1, 0));
    assert_eq!(refused(&Case::write(too_long(), 0)), (14, 1, 0));
}

// ---- within a record, number by number ----

/// Record 7 of a dataset, made of these bytes, and nothing after it.
fn ending_with(bytes: Vec<u8>) -> Vec<u8> {
    [parts(&base()[..SECOND_POINT - 1]), vec![bytes]].concat().concat()
}

fn point_bytes() -> Vec<u8> {
    record(false, 5, 5, &[prid(2, 1, INSERT), c2it(0, 0)])
}

#[test]
fn short_leader_before_its_bytes() {
    assert_eq!(dataset_refused(&ending_with(b"not a leader".to_vec())), (1, 1, SECOND_POINT));
    assert_eq!(dataset_refused(&ending_with(b"not a leader, 24 bytes..".to_vec())), (2, 1, SECOND_POINT));
}

#[test]
fn leader_bytes_before_a_length_past_the_end() {
    let mut bytes = point_bytes();
    bytes.pop();
    assert_eq!(dataset_refused(&ending_with(bytes.clone())), (1, 1, SECOND_POINT));
    bytes[23] = b'5';
    assert_eq!(dataset_refused(&ending_with(bytes)), (2, 1, SECOND_POINT));
}

#[test]
fn length_past_the_end_before_directory() {
    let mut bytes = point_bytes();
    set_digits(&mut bytes, 12, 99);
    assert_eq!(dataset_refused(&ending_with(bytes.clone())), (3, 1, SECOND_POINT));
    bytes.pop();
    assert_eq!(dataset_refused(&ending_with(bytes)), (1, 1, SECOND_POINT));
}

#[test]
fn directory_before_tags() {
    let unknown = |end: u8| {
        let mut bytes = record(false, 5, 5, &[prid(2, 1, INSERT), field("XXXX", vec![0; 8])]);
        *bytes.last_mut().unwrap() = end;
        ending_with(bytes)
    };
    assert_eq!(dataset_refused(&unknown(0)), (3, 1, SECOND_POINT));
    assert_eq!(dataset_refused(&unknown(0x1e)), (4, 1, SECOND_POINT));
}

#[test]
fn tags_before_values() {
    // The wrong value stands in the field before the wrong tag.
    assert_eq!(record_fault(SECOND_POINT, vec![prid(0, 1, INSERT), field("XXXX", vec![0; 8])]), 4);
    assert_eq!(record_fault(SECOND_POINT, vec![prid(0, 1, INSERT), c2it(0, 0)]), 5);
}

#[test]
fn values_before_trees() {
    let feature = |rrnm| {
        let tree = attr(&[(1, 2, 0, INSERT, "")]);
        vec![frid(2, 31, 1, INSERT), foid(1, 1, 1), tree, spas(&[(rrnm, 1, 1, 0, 0, INSERT)])]
    };
    assert_eq!(record_fault(SECOND_FEATURE, feature(111)), 5);
    assert_eq!(record_fault(SECOND_FEATURE, feature(110)), 6);
}

#[test]
fn trees_before_keys() {
    let information = |rcid, index| vec![irid(rcid, 21, 1, INSERT), attr(&[(1, index, 0, INSERT, "")])];
    assert_eq!(record_fault(SECOND_INFORMATION, information(1, 2)), 6);
    assert_eq!(record_fault(SECOND_INFORMATION, information(1, 1)), 7);
    let twice = |index| {
        let second = inas(1, 5, 6, INSERT, &[(1, index, 0, INSERT, "")]);
        vec![irid(2, 21, 1, INSERT), inas(1, 5, 6, INSERT, &[]), second]
    };
    assert_eq!(record_fault(SECOND_INFORMATION, twice(2)), 6);
    assert_eq!(record_fault(SECOND_INFORMATION, twice(1)), 7);
}

#[test]
fn an_earlier_records_fault_before_a_later_ones_smaller_number() {
    let dataset = |records: Vec<Record>| spoiled(&records, FEATURE, |bytes| bytes[22] = b'x');
    assert_eq!(dataset_refused(&dataset(base_with(SECOND_POINT, point_again()))), (7, 1, SECOND_POINT));
    assert_eq!(dataset_refused(&dataset(base())), (2, 1, FEATURE));
}

// ---- the dataset as a whole ----

#[test]
fn keys_of_later_records_before_references_of_earlier_ones() {
    let loose_first = base_with(SECOND_INFORMATION, loose());
    assert_eq!(dataset_refused(&given(&with(loose_first.clone(), SECOND_POINT, point_again()))), (7, 1, SECOND_POINT));
    assert_eq!(dataset_refused(&given(&loose_first)), (11, 1, SECOND_INFORMATION));
}

#[test]
fn references_are_told_at_the_first_loose_record() {
    let later = vec![frid(1, 30, 1, INSERT), foid(1, 1, 1), spas(&[(110, 9, 1, 0, 0, INSERT)])];
    let records = base_with(FEATURE, later);
    assert_eq!(dataset_refused(&given(&records)), (11, 1, FEATURE));
    let records = with(records, SECOND_INFORMATION, loose());
    assert_eq!(dataset_refused(&given(&records)), (11, 1, SECOND_INFORMATION));
}

#[test]
fn references_before_long_records() {
    let late_loose = vec![frid(2, 31, 1, INSERT), foid(1, 1, 1), inas(9, 5, 6, INSERT, &[])];
    let dataset = with_long_record(&base_with(SECOND_FEATURE, late_loose));
    let number = SECOND_FEATURE + 1;
    assert_eq!(refused(&Case::read(dataset.clone())), (11, 1, number));
    assert_eq!(refused(&Case::write(dataset.clone(), ROOM)), (11, 1, number));
    assert_eq!(refused(&updater(dataset, update_file(&[]))), (11, 1, number));
}

#[test]
fn the_first_long_record_is_told() {
    let descriptive = stuffed(&[field("0000", Vec::new())], "LONG");
    let mut dataset = with_long_record(&base());
    assert_eq!(refused(&Case::write(dataset.clone(), ROOM)), (12, 1, FEATURE));
    dataset.drain(..parts(&base())[0].len());
    let dataset = [tight(true, &descriptive), dataset].concat();
    assert_eq!(counted(&dataset), base().len() + 1);
    assert_eq!(refused(&Case::write(dataset.clone(), ROOM)), (12, 1, 1));
    assert_eq!(refused(&updater(dataset, update_file(&[]))), (12, 1, 1));
}

#[test]
fn long_dataset_records_before_the_update() {
    assert_eq!(refused(&updater(with_long_record(&base()), Vec::new())), (12, 1, FEATURE));
    assert_eq!(file_refused(Vec::new()), (1, 2, 1));
}

/// So many multi points of narrow widths make a dataset that is too long only when written.
const HUGE: usize = 167;

/// Such a dataset; its last multi point has that many tuples.
fn huge_dataset(last: usize) -> Vec<u8> {
    let mut head = base()[..3].to_vec();
    let written = file(&head).len() + HUGE * (63 + 8 * 12_490);
    // An update that shortens the general record must not bring the result below the limit.
    head[2][1].body.extend(vec![0; FILE_LIMIT + 1_000 - written]);
    let multi_points = (1..HUGE as u32).flat_map(|rcid| narrow_multi_point(rcid, 12_490));
    [file(&head), multi_points.collect(), narrow_multi_point(HUGE as u32, last)].concat()
}

#[test]
fn long_records_before_a_long_result_and_that_before_a_short_slice() {
    assert_eq!(refused(&Case::write(huge_dataset(12_490), 0)), (14, 3, 0));
    assert_eq!(refused(&Case::write(huge_dataset(12_493), 0)), (12, 1, 3 + HUGE));
    assert_eq!(refused(&Case::update(huge_dataset(12_490), update_file(&[]), 0, WORK)), (14, 3, 0));
    assert_eq!(refused(&Case::update(huge_dataset(12_493), update_file(&[]), 0, WORK)), (12, 1, 3 + HUGE));
    assert_eq!(refused(&Case::write(given(&base()), 0)), (13, 3, 0));
}

// ---- the update's first pass ----

/// An update of these records whose record 3 has these bytes and is the last.
fn update_ending_with(bytes: Vec<u8>) -> Vec<u8> {
    [file(&update_records(&[])), bytes].concat()
}

#[test]
fn an_update_record_is_tested_number_by_number() {
    let mut cut = point_bytes();
    cut.pop();
    let mut bad_leader = cut.clone();
    bad_leader[5] = b'X';
    let mut bad_directory = cut.clone();
    bad_directory[24 + 4] = b'x';
    for (bytes, number) in [(vec![b'x'; 23], 1), (bad_leader, 2), (bad_directory, 1)] {
        assert_eq!(file_refused(update_ending_with(bytes)), (number, 2, 3));
    }
    let mut bad_end = record(false, 5, 5, &[prid(0, 1, INSERT), field("XXXX", Vec::new())]);
    *bad_end.last_mut().unwrap() = 0;
    assert_eq!(file_refused(update_ending_with(bad_end)), (3, 2, 3));
    assert_eq!(change_fault(vec![prid(0, 1, INSERT), field("XXXX", Vec::new())]), 4);
}

#[test]
fn an_inserted_record_is_tested_for_5_then_6_then_7_within() {
    let inserted = |rcid, index| {
        let association = |index| inas(1, 5, 6, INSERT, &[(1, index, 0, INSERT, "")]);
        vec![irid(rcid, 21, 1, INSERT), association(1), association(index)]
    };
    assert_eq!(change_fault(inserted(0, 2)), 5);
    assert_eq!(change_fault(inserted(9, 2)), 6);
    assert_eq!(change_fault(inserted(9, 1)), 7);
}

#[test]
fn update_records_are_tested_in_order() {
    let twice = vec![irid(9, 21, 1, INSERT), inas(1, 5, 6, INSERT, &[]), inas(1, 5, 6, INSERT, &[])];
    let nothing = vec![prid(2, 5, MODIFY), field("XXXX", Vec::new())];
    assert_eq!(update_refused(&base(), &[twice.clone(), nothing.clone()]), (7, 2, 3));
    assert_eq!(update_refused(&base(), &[nothing, twice]), (4, 2, 3));
}

#[test]
fn the_first_pass_comes_before_8() {
    let update = |last: Record| given(&with(update_records(&[last]), GENERAL, strange_general()));
    let twice = vec![irid(9, 21, 1, INSERT), inas(1, 5, 6, INSERT, &[]), inas(1, 5, 6, INSERT, &[])];
    assert_eq!(file_refused(update(twice)), (7, 2, 3));
    assert_eq!(file_refused(update(vec![prid(0, 5, MODIFY)])), (5, 2, 3));
    assert_eq!(file_refused(update(vec![prid(2, 5, MODIFY)])), (8, 2, 2));
}

// ---- the update's second pass ----

/// An update with a general record that is too long when written, and one record behind it.
fn with_long_general(name: &str, behind: Record) -> Vec<u8> {
    let general = stuffed(&[dsid(1, name, EDITION, NUMBER + 1)], "ARCS");
    let records = update_records(&[behind]);
    [record(true, 5, 5, &records[0]), tight(false, &general), record(false, 5, 5, &records[2])].concat()
}

#[test]
fn number_8_before_12_at_record_2() {
    assert_eq!(file_refused(with_long_general("OTHER", vec![prid(2, 5, MODIFY)])), (8, 2, 2));
    assert_eq!(file_refused(with_long_general(NAME, vec![prid(2, 5, MODIFY)])), (12, 2, 2));
}

#[test]
fn the_long_general_record_before_the_update_records() {
    assert_eq!(file_refused(with_long_general(NAME, absent())), (12, 2, 2));
    assert_eq!(file_refused(update_file(&[absent()])), (9, 2, 3));
}

#[test]
fn number_8_before_an_absent_record() {
    let update = with(update_records(&[absent()]), GENERAL, strange_general());
    assert_eq!(file_refused(given(&update)), (8, 2, 2));
}

#[test]
fn a_record_inserted_while_present_before_its_version() {
    assert_eq!(change_fault(vec![prid(2, 2, INSERT), c2it(0, 0)]), 7);
    assert_eq!(change_fault(vec![prid(3, 2, INSERT), c2it(0, 0)]), 10);
}

#[test]
fn an_absent_record_before_its_fields() {
    let change = |rcid| vec![frid(rcid, 30, 2, MODIFY), attr(&[(50, 1, 0, MODIFY, ""), (1, 1, 1, INSERT, "")])];
    assert_eq!(change_fault(change(9)), 9);
    assert_accepted(&[change(1)]);
}

#[test]
fn version_code_and_foid_before_the_fields() {
    let change = |code, rver, number| {
        let under_value = attr(&[(51, 1, 0, MODIFY, ""), (52, 1, 1, MODIFY, "w"), (1, 1, 2, INSERT, "")]);
        vec![frid(1, code, rver, MODIFY), foid(7, number, 9), under_value]
    };
    assert_eq!(change_fault(change(30, 3, 8)), 10);
    assert_eq!(change_fault(change(31, 2, 8)), 10);
    assert_eq!(change_fault(change(30, 2, 7)), 10);
    assert_eq!(change_fault(change(30, 2, 8)), 6);
}

#[test]
fn fields_act_in_order() {
    let feature = |fields: &[Field]| [&[frid(1, 30, 2, MODIFY)], fields].concat();
    let (attribute_9, association_7) = (attr(&[(50, 2, 0, MODIFY, "")]), inas(1, 5, 6, INSERT, &[]));
    let (association_9, spatial_7) = (inas(9, 5, 6, DELETE, &[]), spas(&[(110, 1, 1, 0, 0, INSERT)]));
    assert_eq!(change_fault(feature(&[attribute_9, association_7.clone()])), 9);
    assert_eq!(change_fault(feature(&[association_7.clone(), association_9.clone()])), 7);
    assert_eq!(change_fault(feature(&[association_9.clone(), association_7])), 9);
    assert_eq!(change_fault(feature(&[association_9, spatial_7.clone()])), 9);
    assert_eq!(change_fault(feature(&[spatial_7, spas(&[(110, 9, 1, 0, 0, DELETE)])])), 7);
}

#[test]
fn associations_of_a_multi_point_before_its_coordinates() {
    let old = vec![mrid(1, 1, INSERT), inas(1, 5, 6, INSERT, &[])];
    let change = |nth| vec![mrid(1, 2, MODIFY), inas(1, 5, nth, INSERT, &[]), cocc(DELETE, 1, 1)];
    assert_eq!(clash(old.clone(), change(6)), 7);
    assert_eq!(clash(old, change(7)), 9);
}

#[test]
fn tuples_of_a_field_act_in_order() {
    let (absent, under_value) = ((99, 1, 0, MODIFY, ""), [(50, 1, 0, MODIFY, "v"), (1, 1, 1, INSERT, "")]);
    let change = |tuples: &[Tuple]| vec![frid(1, 30, 2, MODIFY), attr(tuples)];
    assert_eq!(change_fault(change(&[under_value[0], under_value[1], absent])), 6);
    let behind = [absent, (50, 1, 0, MODIFY, "v"), (1, 1, 2, INSERT, "")];
    assert_eq!(change_fault(change(&behind)), 9);
    let spatial = |list: &[Spatial]| vec![frid(1, 30, 2, MODIFY), spas(list)];
    let (present, gone) = ((110, 1, 1, 0, 0, INSERT), (110, 9, 1, 0, 0, DELETE));
    assert_eq!(change_fault(spatial(&[present, gone])), 7);
    assert_eq!(change_fault(spatial(&[gone, present])), 9);
}

/// An update record that makes feature 1 too long, and then deletes this association.
fn long_change(long: &str, gone: u32) -> Record {
    vec![frid(1, 30, 2, MODIFY), attr(&[(50, 1, 0, MODIFY, long)]), inas(gone, 5, 6, DELETE, &[])]
}

#[test]
fn fields_before_the_long_record() {
    let long = "v".repeat(RECORD_LIMIT - 150);
    assert_eq!(change_fault(long_change(&long, 9)), 9);
    assert_eq!(change_fault(long_change(&long, 1)), 12);
}

#[test]
fn a_long_record_before_the_next_update_record() {
    let long = "v".repeat(RECORD_LIMIT - 150);
    assert_eq!(update_refused(&base(), &[long_change(&long, 1), absent()]), (12, 2, 3));
    assert_eq!(update_refused(&base(), &[absent(), long_change(&long, 1)]), (9, 2, 3));
}

// ---- the result ----

#[test]
fn update_records_before_references_of_the_result() {
    let without_named = vec![mrid(1, 2, DELETE)];
    assert_eq!(update_refused(&base(), &[without_named.clone(), absent()]), (9, 2, 4));
    assert_eq!(update_refused(&base(), &[without_named]), (11, 3, FEATURE - 1));
}

#[test]
fn references_of_the_result_before_its_length_and_that_before_the_slice() {
    let loose = [vec![irid(1, 21, 1, INSERT), inas(9, 5, 6, INSERT, &[])]];
    assert_eq!(refused(&Case::update(huge_dataset(12_490), update_file(&loose), 0, WORK)), (11, 3, 4));
    let sound = [vec![irid(1, 21, 1, INSERT), inas(1, 5, 6, INSERT, &[])]];
    assert_eq!(refused(&Case::update(huge_dataset(12_490), update_file(&sound), 0, WORK)), (14, 3, 0));
    assert_eq!(refused(&Case::update(given(&base()), update_file(&[]), 0, WORK)), (13, 3, 0));
}

#[test]
fn references_of_the_result_before_the_slice() {
    let without_named = update_file(&[vec![mrid(1, 2, DELETE)]]);
    assert_eq!(refused(&Case::update(given(&base()), without_named, 0, WORK)), (11, 3, FEATURE - 1));
}

#[test]
fn everything_else_before_the_slice_is_too_short() {
    assert_eq!(refused(&Case::write(given(&base_with(SECOND_POINT, point_again())), 0)), (7, 1, SECOND_POINT));
    assert_eq!(refused(&Case::update(given(&base()), update_file(&[absent()]), 0, WORK)), (9, 2, 3));
    assert_eq!(refused(&Case::write(given(&base()), 0)), (13, 3, 0));
}

// ---- missing records ----

#[test]
fn a_missing_record_is_4_at_the_number_after_the_last() {
    for count in [1, 2] {
        assert_eq!(dataset_refused(&given(&base()[..count])), (4, 1, count + 1));
    }
    assert_eq!(counted(&given(&base()[..3])), 3);
    assert_eq!(file_refused(given(&update_records(&[])[..1])), (4, 2, 2));
    assert_accepted(&[]);
}
