//! "The attribute tree" and "Update rules" of document 01, sentence by sentence.

mod common;
use common::*;

/// Feature 1 with these fields behind FOID.
fn feature(rver: u16, fields: &[Field]) -> Record {
    [&[frid(1, 30, rver, INSERT), foid(7, 8, 9)], fields].concat()
}

/// A modify of feature 1, version 1.
fn feature_change(fields: &[Field]) -> Record {
    [&[frid(1, 30, 2, MODIFY)], fields].concat()
}

/// The number with which a dataset's feature is refused for these attributes; 0 where they are good and kept.
fn tree_fault(tuples: &[Tuple]) -> u32 {
    let record = feature(1, &[attr(tuples)]);
    let dataset = given(&base_with(FEATURE, record.clone()));
    if reply(&Case::read(dataset)).number != 0 {
        return record_fault(FEATURE, record);
    }
    assert_good(FEATURE, record);
    0
}

// ---- the attribute tree ----

#[test]
fn an_entry_is_followed_by_its_run_of_children() {
    let good: [&[Tuple]; 4] = [
        &[(1, 1, 0, 1, ""), (2, 1, 1, 1, ""), (3, 1, 2, 1, ""), (4, 1, 3, 1, "deep")],
        &[(1, 1, 0, 1, ""), (2, 1, 1, 1, ""), (3, 1, 2, 1, ""), (2, 2, 1, 1, ""), (1, 2, 0, 1, "")],
        &[(1, 1, 0, 1, ""), (2, 1, 1, 1, ""), (3, 1, 2, 1, ""), (1, 2, 0, 1, ""), (2, 1, 4, 1, "")],
        &[(9, 1, 0, 1, ""), (8, 1, 0, 1, ""), (9, 2, 0, 1, ""), (8, 2, 0, 1, "")],
    ];
    for tuples in good {
        assert_eq!(tree_fault(tuples), 0, "{tuples:?}");
    }
}

#[test]
fn a_parent_is_the_previous_tuple_or_one_of_its_ancestors() {
    let wrong: [&[Tuple]; 5] = [
        // itself, a later one, an uncle, a brother's child, the brother before the previous
        &[(1, 1, 1, 1, "")],
        &[(1, 1, 2, 1, ""), (2, 1, 0, 1, "")],
        &[(1, 1, 0, 1, ""), (2, 1, 0, 1, ""), (3, 1, 1, 1, "")],
        &[(1, 1, 0, 1, ""), (2, 1, 1, 1, ""), (3, 1, 0, 1, ""), (4, 1, 2, 1, "")],
        &[(1, 1, 0, 1, ""), (2, 1, 1, 1, ""), (2, 2, 1, 1, ""), (3, 1, 2, 1, "")],
    ];
    for tuples in wrong {
        assert_eq!(tree_fault(tuples), 6, "{tuples:?}");
    }
}

#[test]
fn an_index_is_one_more_than_the_earlier_entries_of_its_code_and_parent() {
    let good: [&[Tuple]; 3] = [
        &[(1, 1, 0, 1, "a"), (1, 2, 0, 1, "b"), (1, 3, 0, 1, "c")],
        &[(1, 1, 0, 1, ""), (1, 1, 1, 1, "a"), (1, 2, 1, 1, "b"), (1, 2, 0, 1, ""), (1, 1, 4, 1, "c")],
        &[(1, 1, 0, 1, "a"), (2, 1, 0, 1, "b"), (1, 2, 0, 1, "c"), (2, 2, 0, 1, "d")],
    ];
    for tuples in good {
        assert_eq!(tree_fault(tuples), 0, "{tuples:?}");
    }
    let wrong: [&[Tuple]; 4] = [
        &[(1, 2, 0, 1, "a")],
        &[(1, 1, 0, 1, "a"), (1, 3, 0, 1, "b")],
        &[(1, 1, 0, 1, "a"), (2, 2, 0, 1, "b")],
        &[(1, 1, 0, 1, ""), (1, 2, 1, 1, "a")],
    ];
    for tuples in wrong {
        assert_eq!(tree_fault(tuples), 6, "{tuples:?}");
    }
}

#[test]
fn an_entry_with_a_child_has_an_empty_value() {
    assert_eq!(tree_fault(&[(1, 1, 0, 1, "v"), (2, 1, 1, 1, "w")]), 6);
    assert_eq!(tree_fault(&[(1, 1, 0, 1, ""), (2, 1, 1, 1, "v"), (3, 1, 2, 1, "")]), 6);
    assert_eq!(tree_fault(&[(1, 1, 0, 1, ""), (2, 1, 1, 1, "w")]), 0);
    assert_eq!(tree_fault(&[(1, 1, 0, 1, "v"), (2, 1, 0, 1, "w")]), 0);
    assert_eq!(tree_fault(&[(1, 1, 0, 1, "")]), 0);
}

#[test]
fn the_tree_rule_holds_in_information_types_and_in_associations_of_every_kind() {
    let (good, wrong) = ([(1, 1, 0, 1, "a"), (1, 2, 0, 1, "b")], [(1, 1, 0, 1, "a"), (1, 1, 0, 1, "b")]);
    let records = |tuples: &[Tuple]| {
        let association = inas(1, 5, 6, INSERT, tuples);
        [
            (INFORMATION, vec![irid(1, 20, 1, INSERT), attr(tuples)]),
            (INFORMATION, vec![irid(1, 20, 1, INSERT), association.clone()]),
            (POINT, vec![prid(1, 1, INSERT), association.clone(), c2it(0, 0)]),
            (MULTI_POINT, vec![mrid(1, 1, INSERT), association.clone()]),
            (FEATURE, feature(1, &[association])),
        ]
    };
    for (number, record) in records(&good) {
        assert_good(number, record);
    }
    for (number, record) in records(&wrong) {
        assert_eq!(record_fault(number, record), 6);
    }
}

// ---- name, edition, number, general record ----

#[test]
fn the_result_takes_the_updates_identification_whole() {
    let theirs = identification(4_294_967_294, ["a", "b", "c", "d", "e", NAME], EDITION, NUMBER + 1, b"next day");
    let update = given(&with(update_records(&[]), GENERAL, vec![theirs.clone()]));
    let got = done(&Case::update(given(&base()), update, ROOM, WORK));
    assert_same(&got, &file(&base_with(GENERAL, [vec![theirs], general_rest()].concat())));
}

#[test]
fn the_updates_descriptive_record_is_not_carried() {
    let update = with(update_records(&[]), 1, vec![field("ELSE", b"else".to_vec())]);
    let got = done(&Case::update(given(&base()), given(&update), ROOM, WORK));
    assert_same(&got, &file(&base_with(GENERAL, general_after())));
}

#[test]
fn results_take_the_next_update() {
    let first = done(&Case::update(given(&base()), update_file(&[vec![prid(2, 5, MODIFY)]]), ROOM, WORK));
    let next = vec![dsid(1, NAME, EDITION, NUMBER + 2)];
    let update = |rver| given(&with(update_records(&[vec![prid(2, rver, MODIFY)]]), GENERAL, next.clone()));
    assert_eq!(refused(&Case::update(first.clone(), update(5), ROOM, WORK)), (10, 2, 3));
    let second = done(&Case::update(first, update(6), ROOM, WORK));
    let want = with(base(), GENERAL, [next, general_rest()].concat());
    let want = with(want, SECOND_POINT, vec![prid(2, 6, INSERT), c2it(i32::MIN, i32::MAX)]);
    assert_same(&second, &file(&want));
}

#[test]
fn the_same_update_does_not_act_twice() {
    let update = update_file(&[vec![prid(3, 1, INSERT), c2it(0, 0)]]);
    let once = done(&Case::update(given(&base()), update.clone(), ROOM, WORK));
    assert_eq!(refused(&Case::update(once, update, ROOM, WORK)), (8, 2, 2));
}

// ---- insert ----

/// A record of each kind that the base dataset has not, and the number it gets at the end of its kind.
fn new_records(rcid: u32) -> [(usize, Record); 4] {
    let attributes = attr(&[(1, 1, 0, INSERT, ""), (2, 1, 1, INSERT, "v")]);
    let association = inas(1, 3, 4, INSERT, &[(1, 1, 0, INSERT, "w")]);
    [
        (POINT, vec![irid(rcid, 20, 1, INSERT), attributes.clone(), association.clone()]),
        (MULTI_POINT, vec![prid(rcid, 1, INSERT), association.clone(), c2it(1, 2)]),
        (FEATURE, vec![mrid(rcid, 1, INSERT), association.clone(), c2il(&[(1, 2), (3, 4)])]),
        (
            SECOND_FEATURE + 1,
            vec![
                frid(rcid, 30, 1, INSERT),
                foid(0, 0, 0),
                attributes,
                association,
                spas(&[(110, 2, 1, 0, 0, INSERT), (115, 1, 2, 0, 0, INSERT)]),
            ],
        ),
    ]
}

#[test]
fn an_inserted_record_joins_the_end_of_its_kind() {
    for (number, record) in new_records(9) {
        assert_updates(&base(), &[record.clone()], &base_plus(number, record));
    }
}

#[test]
fn inserted_records_stand_in_file_order_whatever_their_numbers() {
    for place in 0..4 {
        let [(number, first), (_, second), (_, third)] = [30, 10, 20].map(|rcid| new_records(rcid)[place].clone());
        let mut result = base();
        result.splice(number - 1..number - 1, [first.clone(), second.clone(), third.clone()]);
        assert_updates(&base(), &[first, second, third], &result);
    }
}

#[test]
fn an_insert_into_an_absent_kind_stands_between_its_neighbours() {
    let ends = [vec![irid(1, 20, 1, INSERT)], vec![frid(1, 30, 1, INSERT), foid(1, 1, 1)]];
    let dataset = [&base()[..3], &ends].concat();
    let (point, multi_point) = (vec![prid(1, 1, INSERT), c2it(0, 0)], vec![mrid(1, 1, INSERT)]);
    let mut result = dataset.clone();
    result.splice(4..4, [point.clone(), multi_point.clone()]);
    assert_updates(&dataset, &[multi_point, point], &result);
    let bare = base()[..3].to_vec();
    assert_updates(&bare, &[ends[1].clone(), ends[0].clone()], &dataset);
}

#[test]
fn an_insert_needs_its_key_absent_and_version_1() {
    for (_, record) in new_records(1) {
        assert_eq!(change_fault(record), 7);
    }
    assert_eq!(change_fault(vec![irid(9, 20, 2, INSERT)]), 10);
    assert_eq!(change_fault(vec![mrid(9, 65_534, INSERT)]), 10);
}

#[test]
fn an_inserted_record_is_as_in_a_dataset() {
    let inserted = |fields: &[Field]| [&[frid(9, 30, 1, INSERT)], fields].concat();
    let own = foid(1, 1, 1);
    let faults = [
        (4, vec![attr(&[])]),
        (4, vec![own.clone(), attr(&[]), attr(&[])]),
        (4, vec![own.clone(), spas(&[]), inas(1, 5, 6, INSERT, &[])]),
        (5, vec![own.clone(), attr(&[(1, 1, 0, MODIFY, "")])]),
        (5, vec![own.clone(), inas(1, 5, 6, DELETE, &[])]),
        (5, vec![own.clone(), spas(&[(110, 1, 1, 0, 0, DELETE)])]),
        (6, vec![own.clone(), attr(&[(1, 2, 0, INSERT, "")])]),
        (6, vec![own.clone(), attr(&[(1, 1, 0, INSERT, "v"), (1, 1, 1, INSERT, "")])]),
        (7, vec![own.clone(), inas(1, 5, 6, INSERT, &[]), inas(1, 5, 6, INSERT, &[])]),
        (7, vec![own.clone(), spas(&[(110, 1, 1, 0, 0, INSERT), (110, 1, 2, 0, 0, INSERT)])]),
    ];
    for (fault, fields) in faults {
        assert_eq!(change_fault(inserted(&fields)), fault, "{fields:?}");
    }
    let lists = [attr(&[]), spas(&[(110, 1, 1, 0, 0, INSERT)]), spas(&[]), spas(&[(110, 2, 1, 0, 0, INSERT)])];
    let joined = spas(&[(110, 1, 1, 0, 0, INSERT), (110, 2, 1, 0, 0, INSERT)]);
    let sent = inserted(&[&[own.clone()], &lists[..]].concat());
    assert_updates(&base(), &[sent], &[base(), vec![inserted(&[own, joined])]].concat());
}

#[test]
fn a_coordinate_control_in_an_inserted_record_is_4() {
    assert_eq!(change_fault(vec![mrid(9, 1, INSERT), cocc(INSERT, 1, 1), c2il(&[(1, 1)])]), 4);
    assert_eq!(change_fault(vec![mrid(9, 1, INSERT), cocc(DELETE, 1, 1)]), 4);
    assert_accepted(&[vec![mrid(9, 1, INSERT), c2il(&[(1, 1)])]]);
}

// ---- delete ----

/// The base dataset with a record of each kind at its end, version 3; and the deletes of them.
fn deletable() -> Vec<(Vec<Record>, Record)> {
    vec![
        (base_plus(POINT, vec![irid(9, 20, 3, INSERT)]), vec![irid(9, 20, 4, DELETE)]),
        (base_plus(MULTI_POINT, vec![prid(9, 3, INSERT), c2it(0, 0)]), vec![prid(9, 4, DELETE)]),
        (base_plus(FEATURE, vec![mrid(9, 3, INSERT), c2il(&[(1, 1)])]), vec![mrid(9, 4, DELETE)]),
        ([base(), vec![vec![frid(9, 30, 3, INSERT), foid(1, 1, 1)]]].concat(), vec![frid(9, 30, 4, DELETE)]),
    ]
}

#[test]
fn a_delete_takes_the_record_and_leaves_the_others_in_order() {
    for (dataset, delete) in deletable() {
        assert_updates(&dataset, &[delete], &base());
    }
}

#[test]
fn a_delete_has_its_identifier_only() {
    let fields = [
        vec![attr(&[]), inas(1, 5, 6, INSERT, &[])],
        vec![c2it(0, 0), inas(1, 5, 6, DELETE, &[])],
        vec![cocc(DELETE, 1, 1), c2il(&[]), inas(1, 5, 6, DELETE, &[])],
        vec![foid(1, 1, 1), attr(&[]), inas(1, 5, 6, DELETE, &[]), spas(&[])],
    ];
    for ((dataset, delete), fields) in deletable().into_iter().zip(fields) {
        for field in fields {
            let update = [delete.clone(), vec![field]].concat();
            assert_eq!(update_refused(&dataset, &[update.clone()]), (4, 2, 3), "{update:?}");
        }
    }
}

#[test]
fn a_delete_needs_version_old_plus_one_and_the_code_unchanged() {
    let [(information, _), (points, _), (multi_points, _), (features, _)]: [_; 4] = deletable().try_into().unwrap();
    for rver in [1, 3, 5] {
        assert_eq!(update_refused(&information, &[vec![irid(9, 20, rver, DELETE)]]), (10, 2, 3));
        assert_eq!(update_refused(&points, &[vec![prid(9, rver, DELETE)]]), (10, 2, 3));
        assert_eq!(update_refused(&multi_points, &[vec![mrid(9, rver, DELETE)]]), (10, 2, 3));
        assert_eq!(update_refused(&features, &[vec![frid(9, 30, rver, DELETE)]]), (10, 2, 3));
    }
    assert_eq!(update_refused(&information, &[vec![irid(9, 21, 4, DELETE)]]), (10, 2, 3));
    assert_eq!(update_refused(&features, &[vec![frid(9, 31, 4, DELETE)]]), (10, 2, 3));
}

#[test]
fn an_absent_record_is_neither_deleted_nor_modified() {
    for instruction in [DELETE, MODIFY] {
        let absent = [
            vec![irid(9, 20, 2, instruction)],
            vec![prid(9, 2, instruction)],
            vec![mrid(2, 2, instruction)],
            vec![frid(9, 30, 2, instruction)],
        ];
        for change in absent {
            assert_eq!(change_fault(change), 9);
        }
    }
}

// ---- modify ----

#[test]
fn a_modify_raises_the_version_and_keeps_all_else() {
    let changes = [
        (SECOND_INFORMATION, vec![irid(2, 21, 3, MODIFY)], irid(2, 21, 3, INSERT)),
        (SECOND_POINT, vec![prid(2, 5, MODIFY)], prid(2, 5, INSERT)),
        (MULTI_POINT, vec![mrid(1, 2, MODIFY)], mrid(1, 2, INSERT)),
        (FEATURE, vec![frid(1, 30, 2, MODIFY)], frid(1, 30, 2, INSERT)),
    ];
    for (number, change, identifier) in changes {
        let mut record = base()[number - 1].clone();
        record[0] = identifier;
        assert_updates(&base(), &[change], &base_with(number, record));
    }
}

#[test]
fn a_modify_needs_version_old_plus_one_and_the_code_unchanged() {
    for rver in [1, 4, 6] {
        assert_eq!(change_fault(vec![prid(2, rver, MODIFY)]), 10);
    }
    for code in [0, 20, 22] {
        assert_eq!(change_fault(vec![irid(2, code, 3, MODIFY)]), 10);
    }
    assert_accepted(&[vec![prid(2, 5, MODIFY)], vec![irid(2, 21, 3, MODIFY)]]);
}

#[test]
fn records_of_different_keys_have_versions_of_their_own() {
    let update =
        [vec![prid(1, 2, MODIFY)], vec![prid(2, 5, MODIFY)], vec![prid(1, 3, MODIFY)], vec![prid(2, 6, MODIFY)]];
    let mut result = base();
    result[POINT - 1][0] = prid(1, 3, INSERT);
    result[SECOND_POINT - 1][0] = prid(2, 6, INSERT);
    assert_updates(&base(), &update, &result);
    // Information type 2 and point 2 are two records.
    assert_eq!(update_refused(&base(), &[vec![prid(2, 5, MODIFY)], vec![irid(2, 21, 6, MODIFY)]]), (10, 2, 4));
}

#[test]
fn an_inserted_record_is_modified_and_deleted_like_any_other() {
    let insert = vec![prid(9, 1, INSERT), c2it(0, 0)];
    let modify = vec![prid(9, 2, MODIFY), c2it(5, 5)];
    let result = base_plus(MULTI_POINT, vec![prid(9, 2, INSERT), c2it(5, 5)]);
    assert_updates(&base(), &[insert.clone(), modify.clone()], &result);
    assert_updates(&base(), &[insert.clone(), modify, vec![prid(9, 3, DELETE)]], &base());
    assert_eq!(update_refused(&base(), &[insert, vec![prid(9, 1, MODIFY)]]), (10, 2, 4));
}

#[test]
fn c2it_is_absent_or_replaces() {
    let old = vec![prid(1, 1, INSERT), inas(1, 5, 6, INSERT, &[]), c2it(1, 2)];
    let new = |coordinates: Field| vec![prid(1, 2, INSERT), inas(1, 5, 6, INSERT, &[]), coordinates];
    assert_becomes(old.clone(), vec![prid(1, 2, MODIFY)], new(c2it(1, 2)));
    assert_becomes(old, vec![prid(1, 2, MODIFY), c2it(-1, i32::MIN)], new(c2it(-1, i32::MIN)));
}

#[test]
fn every_instruction_stored_is_insert() {
    let old = feature(1, &[attr(&[(1, 1, 0, INSERT, "v")])]);
    let change = feature_change(&[
        attr(&[(1, 1, 0, MODIFY, "w"), (2, 1, 0, INSERT, "x")]),
        inas(1, 5, 6, INSERT, &[(1, 1, 0, INSERT, "y")]),
        spas(&[(110, 1, 1, 0, 0, INSERT)]),
    ]);
    let new = feature(
        2,
        &[
            attr(&[(1, 1, 0, INSERT, "w"), (2, 1, 0, INSERT, "x")]),
            inas(1, 5, 6, INSERT, &[(1, 1, 0, INSERT, "y")]),
            spas(&[(110, 1, 1, 0, 0, INSERT)]),
        ],
    );
    assert_becomes(old, change, new);
}

// ---- INAS and SPAS ----

/// Three associations that differ in one subfield of the key each.
fn three_associations() -> [Field; 3] {
    [inas(1, 5, 6, INSERT, &[(1, 1, 0, INSERT, "a")]), inas(1, 5, 7, INSERT, &[]), inas(2, 5, 6, INSERT, &[])]
}

#[test]
fn an_information_association_is_appended() {
    let three = three_associations();
    let added = [inas(2, 0, 0, INSERT, &[(3, 1, 0, INSERT, "b")]), inas(1, 0, 0, INSERT, &[])];
    let new = feature(2, &[&three[..], &added].concat());
    assert_becomes(feature(1, &three), feature_change(&added), new);
    assert_becomes(feature(1, &[]), feature_change(&added), feature(2, &added));
}

#[test]
fn an_information_association_is_removed_by_its_whole_key() {
    let three = three_associations();
    let deletes = [inas(1, 5, 6, DELETE, &[]), inas(1, 5, 7, DELETE, &[]), inas(2, 5, 6, DELETE, &[])];
    for gone in 0..3 {
        let mut left = three.to_vec();
        left.remove(gone);
        assert_becomes(feature(1, &three), feature_change(&[deletes[gone].clone()]), feature(2, &left));
    }
    assert_becomes(feature(1, &three), feature_change(&deletes), feature(2, &[]));
    for absent in [inas(2, 5, 7, DELETE, &[]), inas(1, 6, 6, DELETE, &[]), inas(3, 5, 6, DELETE, &[])] {
        assert_eq!(clash(feature(1, &three), feature_change(&[absent])), 9);
    }
}

#[test]
fn information_associations_change_in_every_kind() {
    let (delete, added) = (inas(1, 5, 6, DELETE, &[]), inas(2, 8, 9, INSERT, &[]));
    let kept = inas(1, 5, 6, INSERT, &[]);
    let kinds: [(Field, Field, Field, &[Field]); 3] = [
        (irid(1, 20, 1, INSERT), irid(1, 20, 2, MODIFY), irid(1, 20, 2, INSERT), &[]),
        (prid(1, 1, INSERT), prid(1, 2, MODIFY), prid(1, 2, INSERT), &[c2it(3, 4)]),
        (mrid(1, 1, INSERT), mrid(1, 2, MODIFY), mrid(1, 2, INSERT), &[c2il(&[(3, 4)])]),
    ];
    for (old, change, new, rest) in kinds {
        assert_becomes(
            [&[old, kept.clone()], rest].concat(),
            vec![change, delete.clone(), added.clone()],
            [&[new, added.clone()], rest].concat(),
        );
    }
}

#[test]
fn a_spatial_association_is_appended_and_removed_by_key() {
    let stored = [(110, 1, 1, 1, 1, INSERT), (115, 1, 2, 2, 2, INSERT), (110, 2, 255, 3, 3, INSERT)];
    let old = || feature(1, &[spas(&stored)]);
    for gone in 0..3 {
        let (rrnm, rrid, ..) = stored[gone];
        let mut left = stored.to_vec();
        left.remove(gone);
        assert_becomes(old(), feature_change(&[spas(&[(rrnm, rrid, 1, 0, 0, DELETE)])]), feature(2, &[spas(&left)]));
    }
    let all = stored.map(|(rrnm, rrid, ..)| (rrnm, rrid, 255, 9, 9, DELETE));
    assert_becomes(old(), feature_change(&[spas(&all)]), feature(2, &[]));
    let (first, second) = ((115, 1, 1, 7, 8, INSERT), (110, 2, 2, 9, 10, INSERT));
    let change = feature_change(&[spas(&[first]), spas(&[second])]);
    assert_becomes(feature(1, &[spas(&stored[..1])]), change, feature(2, &[spas(&[stored[0], first, second])]));
    assert_eq!(clash(feature(1, &[spas(&stored[..1])]), feature_change(&[spas(&[(115, 1, 1, 0, 0, DELETE)])])), 9);
}

#[test]
fn a_field_of_a_modify_may_insert_and_delete_in_turn() {
    let stored = [(110, 1, 1, 1, 1, INSERT), (115, 1, 2, 2, 2, INSERT)];
    let change =
        [(110, 2, 1, 3, 3, INSERT), (110, 1, 1, 0, 0, DELETE), (110, 2, 1, 0, 0, DELETE), (110, 1, 2, 4, 4, INSERT)];
    let left = [stored[1], change[3]];
    assert_becomes(feature(1, &[spas(&stored)]), feature_change(&[spas(&change)]), feature(2, &[spas(&left)]));
}

#[test]
fn an_empty_list_in_a_modify_changes_nothing() {
    let own = [attr(&[(1, 1, 0, INSERT, "v")]), spas(&[(110, 1, 1, 0, 0, INSERT)])];
    assert_becomes(feature(1, &own), feature_change(&[attr(&[]), spas(&[]), spas(&[])]), feature(2, &own));
}

// ---- COCC ----

const FIVE: [(i32, i32); 5] = [(1, -1), (2, -2), (3, -3), (4, -4), (5, -5)];
const SENT: [(i32, i32); 2] = [(80, 81), (90, 91)];

#[test]
fn coordinates_are_inserted_before_each_place_up_to_one_behind_the_last() {
    for place in 1..=6 {
        let mut new = FIVE.to_vec();
        new.splice(place - 1..place - 1, SENT);
        assert_coordinates(&FIVE, cocc(INSERT, place as u16, 2), &SENT, &new);
    }
    assert_eq!(coordinate_clash(&FIVE, cocc(INSERT, 7, 2), &SENT), 9);
}

#[test]
fn coordinates_are_inserted_into_an_empty_multi_point_at_1_only() {
    assert_coordinates(&[], cocc(INSERT, 1, 2), &SENT, &SENT);
    assert_eq!(coordinate_clash(&[], cocc(INSERT, 2, 2), &SENT), 9);
}

#[test]
fn coordinates_are_modified_at_first_middle_and_last_places() {
    for place in 1..=4 {
        let mut new = FIVE.to_vec();
        new.splice(place - 1..place + 1, SENT);
        assert_coordinates(&FIVE, cocc(MODIFY, place as u16, 2), &SENT, &new);
    }
    for place in [5, 6, 65_534] {
        assert_eq!(coordinate_clash(&FIVE, cocc(MODIFY, place, 2), &SENT), 9);
    }
    assert_eq!(coordinate_clash(&[], cocc(MODIFY, 1, 2), &SENT), 9);
}

#[test]
fn coordinates_are_deleted_from_every_place_in_every_number() {
    for place in 1..=5 {
        for count in 1..=(6 - place) {
            let mut new = FIVE.to_vec();
            new.drain(place - 1..place - 1 + count);
            assert_coordinates(&FIVE, cocc(DELETE, place as u16, count as u16), &[], &new);
        }
        assert_eq!(coordinate_clash(&FIVE, cocc(DELETE, place as u16, 7 - place as u16), &[]), 9);
    }
    assert_eq!(coordinate_clash(&[], cocc(DELETE, 1, 1), &[]), 9);
}

#[test]
fn ncor_is_the_number_sent_for_insert_and_modify() {
    for instruction in [INSERT, MODIFY] {
        for count in [1, 3] {
            assert_eq!(coordinate_clash(&FIVE, cocc(instruction, 1, count), &SENT), 5);
        }
    }
    // Told in the first pass, before the place is looked at.
    assert_eq!(coordinate_clash(&FIVE, cocc(INSERT, 99, 1), &SENT), 5);
}

#[test]
fn coordinates_sent_with_a_delete_or_without_a_control_are_4() {
    assert_eq!(coordinate_clash(&FIVE, cocc(DELETE, 1, 2), &SENT), 4);
    assert_eq!(change_fault(vec![mrid(1, 2, MODIFY), c2il(&SENT)]), 4);
}

#[test]
fn an_update_record_has_at_most_one_coordinate_control() {
    let control = cocc(DELETE, 1, 1);
    assert_eq!(change_fault(vec![mrid(1, 2, MODIFY), control.clone(), control.clone()]), 4);
    let result = base_with(MULTI_POINT, vec![mrid(1, 3, INSERT), c2il(&[(3, 3)])]);
    let twice = [vec![mrid(1, 2, MODIFY), control.clone()], vec![mrid(1, 3, MODIFY), control]];
    assert_updates(&base(), &twice, &result);
}

#[test]
fn places_are_of_the_list_joined_over_its_fields() {
    let old = vec![mrid(1, 1, INSERT), c2il(&FIVE[..1]), c2il(&[]), c2il(&FIVE[1..3]), c2il(&FIVE[3..])];
    let change = vec![mrid(1, 2, MODIFY), cocc(MODIFY, 3, 2), c2il(&SENT[..1]), c2il(&SENT[1..])];
    let new = vec![mrid(1, 2, INSERT), c2il(&[FIVE[0], FIVE[1], SENT[0], SENT[1], FIVE[4]])];
    assert_becomes(old, change, new);
}

#[test]
fn a_coordinate_control_stands_between_associations_and_coordinates() {
    let (control, association) = (cocc(INSERT, 1, 1), inas(1, 5, 6, INSERT, &[]));
    let record = |fields: &[&Field]| [vec![mrid(1, 2, MODIFY)], fields.iter().map(|f| (*f).clone()).collect()].concat();
    let list = c2il(&[(9, 9)]);
    assert_accepted(&[record(&[&association, &control, &list])]);
    assert_eq!(change_fault(record(&[&control, &association, &list])), 4);
    assert_eq!(change_fault(record(&[&association, &list, &control])), 4);
}

// ---- ATTR: insert ----

/// Three entries of code 1, the second with children of code 2 and 3, and an entry of code 4 between them.
const GROVE: [Tuple; 7] = [
    (1, 1, 0, INSERT, "a"),
    (4, 1, 0, INSERT, "b"),
    (1, 2, 0, INSERT, ""),
    (2, 1, 3, INSERT, "c"),
    (3, 1, 3, INSERT, "d"),
    (1, 3, 0, INSERT, "e"),
    (5, 1, 0, INSERT, "f"),
];

#[test]
fn an_entry_is_inserted_before_number_k() {
    let new = [
        (1, 1, 0, INSERT, "x"),
        (1, 2, 0, INSERT, "a"),
        (4, 1, 0, INSERT, "b"),
        (1, 3, 0, INSERT, ""),
        (2, 1, 4, INSERT, "c"),
        (3, 1, 4, INSERT, "d"),
        (1, 4, 0, INSERT, "e"),
        (5, 1, 0, INSERT, "f"),
    ];
    assert_attributes(&GROVE, &[(1, 1, 0, INSERT, "x")], &new);
    // Directly before number 2, so behind the entry of code 4.
    let new = [
        (1, 1, 0, INSERT, "a"),
        (4, 1, 0, INSERT, "b"),
        (1, 2, 0, INSERT, "x"),
        (1, 3, 0, INSERT, ""),
        (2, 1, 4, INSERT, "c"),
        (3, 1, 4, INSERT, "d"),
        (1, 4, 0, INSERT, "e"),
        (5, 1, 0, INSERT, "f"),
    ];
    assert_attributes(&GROVE, &[(1, 2, 0, INSERT, "x")], &new);
}

#[test]
fn an_entry_is_inserted_after_the_last_of_its_code() {
    let mut new = GROVE.to_vec();
    new.insert(6, (1, 4, 0, INSERT, "x"));
    assert_attributes(&GROVE, &[(1, 4, 0, INSERT, "x")], &new);
    assert_eq!(attribute_clash(&GROVE, &[(1, 5, 0, INSERT, "x")]), 9);
}

#[test]
fn an_entry_is_inserted_after_the_whole_subtree_of_the_last_of_its_code() {
    let old = [
        (1, 1, 0, INSERT, ""),
        (2, 1, 1, INSERT, ""),
        (3, 1, 2, INSERT, "a"),
        (1, 1, 1, INSERT, "b"),
        (4, 1, 0, INSERT, "c"),
    ];
    let mut new = old.to_vec();
    new.insert(4, (1, 2, 0, INSERT, "x"));
    assert_attributes(&old, &[(1, 2, 0, INSERT, "x")], &new);
    // The same one level down: the entry stands before the other code, inside its parent.
    let mut new = old.to_vec();
    new.insert(3, (2, 2, 1, INSERT, "x"));
    assert_attributes(&old, &[(1, 1, 0, MODIFY, ""), (2, 2, 1, INSERT, "x")], &new);
}

#[test]
fn an_entry_of_a_new_code_is_its_parents_last_child() {
    let mut new = GROVE.to_vec();
    new.push((9, 1, 0, INSERT, "x"));
    assert_attributes(&GROVE, &[(9, 1, 0, INSERT, "x")], &new);
    let mut new = GROVE.to_vec();
    new.insert(5, (9, 1, 3, INSERT, "x"));
    assert_attributes(&GROVE, &[(1, 2, 0, MODIFY, ""), (9, 1, 1, INSERT, "x")], &new);
    // A code that stands elsewhere in the tree is new under this parent.
    let mut new = GROVE.to_vec();
    new.insert(5, (1, 1, 3, INSERT, "x"));
    assert_attributes(&GROVE, &[(1, 2, 0, MODIFY, ""), (1, 1, 1, INSERT, "x")], &new);
    assert_eq!(attribute_clash(&GROVE, &[(9, 2, 0, INSERT, "x")]), 9);
}

#[test]
fn an_entry_of_a_new_code_stands_behind_its_last_brothers_subtree() {
    let old = [(1, 1, 0, INSERT, ""), (2, 1, 1, INSERT, ""), (3, 1, 2, INSERT, "a")];
    let new = [&old[..], &[(9, 1, 1, INSERT, "x")]].concat();
    assert_attributes(&old, &[(1, 1, 0, MODIFY, ""), (9, 1, 1, INSERT, "x")], &new);
    let new = [&old[..], &[(9, 1, 0, INSERT, "x")]].concat();
    assert_attributes(&old, &[(9, 1, 0, INSERT, "x")], &new);
}

#[test]
fn attributes_come_to_a_record_that_had_none() {
    let change = [(1, 1, 0, INSERT, ""), (2, 1, 1, INSERT, "a"), (2, 1, 1, INSERT, "b"), (1, 1, 0, INSERT, "c")];
    let new = [(1, 1, 0, INSERT, "c"), (1, 2, 0, INSERT, ""), (2, 1, 2, INSERT, "b"), (2, 2, 2, INSERT, "a")];
    assert_attributes(&[], &change, &new);
    assert_eq!(attribute_clash(&[], &[(1, 2, 0, INSERT, "a")]), 9);
    assert_eq!(attribute_clash(&[], &[(1, 1, 0, MODIFY, "a")]), 9);
    assert_eq!(attribute_clash(&[], &[(1, 1, 0, DELETE, "")]), 9);
}

#[test]
fn an_inserted_entry_leads_to_its_own_children() {
    // The new entry is number 1 of its code; its child must not land under the old number 1.
    let old = [(1, 1, 0, INSERT, ""), (2, 1, 1, INSERT, "a")];
    let new = [(1, 1, 0, INSERT, ""), (2, 1, 1, INSERT, "x"), (1, 2, 0, INSERT, ""), (2, 1, 3, INSERT, "a")];
    assert_attributes(&old, &[(1, 1, 0, INSERT, ""), (2, 1, 1, INSERT, "x")], &new);
}

#[test]
fn a_parent_is_a_tuple_of_the_update_and_no_stored_place() {
    // Stored place 2 is the entry of code 2; the update's tuple 2 is the entry of code 3.
    let old = [
        (1, 1, 0, INSERT, ""),
        (2, 1, 1, INSERT, ""),
        (9, 1, 2, INSERT, "a"),
        (3, 1, 1, INSERT, ""),
        (9, 1, 4, INSERT, "b"),
    ];
    let change = [(1, 1, 0, MODIFY, ""), (3, 1, 1, MODIFY, ""), (9, 1, 2, MODIFY, "x")];
    let mut new = old;
    new[4].4 = "x";
    assert_attributes(&old, &change, &new);
}

#[test]
fn a_parent_keeps_leading_while_entries_before_it_come() {
    // Tuples 2 and 3 move the parent's children about; tuple 4 still finds it, and its brothers, in their new places.
    let old = [(1, 1, 0, INSERT, ""), (2, 1, 1, INSERT, ""), (3, 1, 2, INSERT, "a")];
    let change = [
        (1, 1, 0, MODIFY, ""),
        (2, 1, 1, INSERT, ""),
        (3, 1, 2, INSERT, "b"),
        (2, 2, 1, MODIFY, ""),
        (3, 1, 4, MODIFY, "c"),
    ];
    let new = [
        (1, 1, 0, INSERT, ""),
        (2, 1, 1, INSERT, ""),
        (3, 1, 2, INSERT, "b"),
        (2, 2, 1, INSERT, ""),
        (3, 1, 4, INSERT, "c"),
    ];
    assert_attributes(&old, &change, &new);
}

// ---- ATTR: delete and modify ----

#[test]
fn a_delete_takes_the_subtree_and_renumbers_the_rest() {
    let new = [(1, 1, 0, INSERT, "a"), (4, 1, 0, INSERT, "b"), (1, 2, 0, INSERT, "e"), (5, 1, 0, INSERT, "f")];
    assert_attributes(&GROVE, &[(1, 2, 0, DELETE, "")], &new);
    let new = [
        (4, 1, 0, INSERT, "b"),
        (1, 1, 0, INSERT, ""),
        (2, 1, 2, INSERT, "c"),
        (3, 1, 2, INSERT, "d"),
        (1, 2, 0, INSERT, "e"),
        (5, 1, 0, INSERT, "f"),
    ];
    assert_attributes(&GROVE, &[(1, 1, 0, DELETE, "")], &new);
    assert_eq!(attribute_clash(&GROVE, &[(1, 4, 0, DELETE, "")]), 9);
}

#[test]
fn a_delete_ignores_the_value_it_sends() {
    let new = GROVE[..6].to_vec();
    for value in ["", "f", "another"] {
        assert_attributes(&GROVE, &[(5, 1, 0, DELETE, value)], &new);
    }
    // Also of an entry with children.
    let old = [(1, 1, 0, INSERT, ""), (2, 1, 1, INSERT, "a"), (3, 1, 0, INSERT, "b")];
    assert_attributes(&old, &[(1, 1, 0, DELETE, "any")], &[(3, 1, 0, INSERT, "b")]);
}

#[test]
fn indices_address_the_tree_as_earlier_tuples_left_it() {
    let old = [(1, 1, 0, INSERT, "a"), (1, 2, 0, INSERT, "b"), (1, 3, 0, INSERT, "c")];
    assert_attributes(&old, &[(1, 1, 0, DELETE, ""), (1, 1, 0, DELETE, "")], &[(1, 1, 0, INSERT, "c")]);
    assert_attributes(&old, &[(1, 1, 0, DELETE, ""), (1, 1, 0, DELETE, ""), (1, 1, 0, DELETE, "")], &[]);
    let deletes = [(1, 1, 0, DELETE, ""), (1, 3, 0, DELETE, "")];
    assert_eq!(attribute_clash(&old, &deletes), 9);
    let change = [(1, 2, 0, INSERT, "x"), (1, 3, 0, MODIFY, "y"), (1, 4, 0, DELETE, ""), (1, 4, 0, INSERT, "z")];
    let new = [(1, 1, 0, INSERT, "a"), (1, 2, 0, INSERT, "x"), (1, 3, 0, INSERT, "y"), (1, 4, 0, INSERT, "z")];
    assert_attributes(&old, &change, &new);
}

#[test]
fn a_deleted_entry_may_be_put_in_anew() {
    let old = [(1, 1, 0, INSERT, "a"), (2, 1, 0, INSERT, "b")];
    let change = [(1, 1, 0, DELETE, ""), (1, 1, 0, INSERT, "x")];
    assert_attributes(&old, &change, &[(2, 1, 0, INSERT, "b"), (1, 1, 0, INSERT, "x")]);
}

#[test]
fn a_modify_sets_the_value() {
    for (place, tuple) in [(0, (1, 1, 0, MODIFY, "x")), (5, (1, 3, 0, MODIFY, "x")), (6, (5, 1, 0, MODIFY, "x"))] {
        let mut new = GROVE;
        new[place].4 = "x";
        assert_attributes(&GROVE, &[tuple], &new);
    }
    let mut new = GROVE;
    new[3].4 = "longer than before";
    assert_attributes(&GROVE, &[(1, 2, 0, MODIFY, ""), (2, 1, 1, MODIFY, "longer than before")], &new);
    let old = [(1, 1, 0, INSERT, "")];
    assert_attributes(&old, &[(1, 1, 0, MODIFY, "x")], &[(1, 1, 0, INSERT, "x")]);
    for absent in [(1, 4, 0, MODIFY, ""), (9, 1, 0, MODIFY, ""), (2, 1, 0, MODIFY, "")] {
        assert_eq!(attribute_clash(&GROVE, &[absent]), 9);
    }
}

#[test]
fn a_modify_of_a_complex_entry_sends_an_empty_value() {
    assert_attributes(&GROVE, &[(1, 2, 0, MODIFY, "")], &GROVE);
    assert_eq!(attribute_clash(&GROVE, &[(1, 2, 0, MODIFY, "x")]), 6);
    assert_eq!(attribute_clash(&GROVE, &[(1, 2, 0, MODIFY, "x"), (2, 1, 1, MODIFY, "y")]), 6);
}

#[test]
fn a_child_put_under_a_value_is_6() {
    assert_eq!(attribute_clash(&GROVE, &[(5, 1, 0, MODIFY, "f"), (6, 1, 1, INSERT, "x")]), 6);
    assert_eq!(attribute_clash(&GROVE, &[(9, 1, 0, INSERT, "v"), (6, 1, 1, INSERT, "x")]), 6);
    // The value that an earlier tuple of the same update has set counts.
    let old = [(1, 1, 0, INSERT, "")];
    assert_eq!(attribute_clash(&old, &[(1, 1, 0, MODIFY, "v"), (2, 1, 1, INSERT, "x")]), 6);
    let new = [(1, 1, 0, INSERT, ""), (2, 1, 1, INSERT, "x")];
    assert_attributes(&old, &[(1, 1, 0, MODIFY, ""), (2, 1, 1, INSERT, "x")], &new);
}

#[test]
fn attributes_of_an_information_type_change_likewise() {
    let old = vec![irid(1, 20, 1, INSERT), attr(&[(1, 1, 0, INSERT, "a")]), inas(2, 5, 6, INSERT, &[])];
    let change = vec![irid(1, 20, 2, MODIFY), attr(&[(1, 1, 0, DELETE, ""), (2, 1, 0, INSERT, "b")])];
    let new = vec![irid(1, 20, 2, INSERT), attr(&[(2, 1, 0, INSERT, "b")]), inas(2, 5, 6, INSERT, &[])];
    assert_becomes(old.clone(), change, new);
    let emptied = vec![irid(1, 20, 2, INSERT), inas(2, 5, 6, INSERT, &[])];
    assert_becomes(old, vec![irid(1, 20, 2, MODIFY), attr(&[(1, 1, 0, DELETE, "")])], emptied);
}

#[test]
fn many_entries_take_indices_and_parents_of_two_bytes() {
    let count = 300;
    let old: Vec<Tuple> = (1..=count).map(|index| (1, index, 0, INSERT, "v")).collect();
    let change = [(9, 1, 0, INSERT, ""), (8, 1, 1, INSERT, "x"), (1, count + 1, 0, INSERT, "w"), (1, 1, 0, DELETE, "")];
    let mut new = old.clone();
    new[count as usize - 1].4 = "w";
    new.extend([(9, 1, 0, INSERT, ""), (8, 1, count + 1, INSERT, "x")]);
    assert_attributes(&old, &change, &new);
}

#[test]
fn a_tree_may_be_as_deep_as_its_record_is_long() {
    let depth = 12_400;
    let chain = |instruction: u8, value| -> Vec<Tuple> {
        let mut chain: Vec<Tuple> = (0..depth).map(|parent| (1, 1, parent, instruction, "")).collect();
        chain[depth as usize - 1].4 = value;
        chain
    };
    assert_eq!(tree_fault(&chain(INSERT, "leaf")), 0);
    assert_attributes(&chain(INSERT, "leaf"), &chain(MODIFY, "new leaf"), &chain(INSERT, "new leaf"));
    assert_attributes(&chain(INSERT, "leaf"), &[(1, 1, 0, DELETE, "")], &[]);
    assert_attributes(&[], &chain(INSERT, "leaf"), &chain(INSERT, "leaf"));
}

// ---- references ----

#[test]
fn references_are_tested_once_after_the_last_update_record() {
    let (named, naming) = (vec![prid(9, 1, INSERT), c2it(0, 0)], feature_change(&[spas(&[(110, 9, 1, 0, 0, INSERT)])]));
    assert_accepted(&[naming.clone(), named.clone()]);
    assert_accepted(&[named.clone(), naming.clone()]);
    assert_eq!(update_refused(&base(), &[naming.clone()]), (11, 3, FEATURE));
    // What was named comes, goes and leaves the reference loose.
    assert_eq!(update_refused(&base(), &[named, naming, vec![prid(9, 2, DELETE)]]), (11, 3, FEATURE));
}

#[test]
fn a_record_named_may_be_deleted_and_put_in_again() {
    let again = [vec![mrid(1, 2, DELETE)], vec![mrid(1, 1, INSERT)]];
    assert_updates(&base(), &again, &base_with(MULTI_POINT, vec![mrid(1, 1, INSERT)]));
    assert_eq!(update_refused(&base(), &again[..1]), (11, 3, FEATURE - 1));
}

#[test]
fn the_first_loose_record_of_the_result_is_told() {
    // Information type 1 is named by information type 2, by point 1 and by feature 1.
    assert_eq!(update_refused(&base(), &[vec![irid(1, 20, 2, DELETE)]]), (11, 3, INFORMATION));
}
