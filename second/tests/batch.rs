//! Framed cases: what is framed comes back, and a file that is no whole number of cases is refused at the case.

use second::batch::{framed, unframed, Case, MonthCall, MONTH, OPERATIONS};

/// A month of a few bytes, which no updater could take.
fn month() -> Case {
    Case::month(&MonthCall { first: vec![9; 5], length: 0x01020304, list: vec![7, 8], second: 6, work: 400_000 })
}

/// One case of each operation.
fn cases() -> Vec<Case> {
    let cases = vec![
        Case::read(vec![1, 2, 3]),
        Case::write(Vec::new(), 7),
        Case::update(vec![4], vec![5, 6], 8, u32::MAX),
        Case::listing(vec![0; 20]),
        month(),
        Case::reply(vec![1], vec![2, 3, 4]),
        Case::take(vec![5, 6], vec![7], 3, 400_000),
        Case::tell(vec![8], 9),
    ];
    assert_eq!(cases.iter().map(|case| case.operation).collect::<Vec<_>>(), OPERATIONS);
    cases
}

#[test]
fn framed_cases_come_back() {
    assert_eq!(unframed(&framed(&cases())), Ok(cases()));
    assert_eq!(unframed(&[]), Ok(Vec::new()));
}

#[test]
fn a_month_has_its_length_before_its_list() {
    let month = month();
    assert_eq!(framed(std::slice::from_ref(&month))[..9], [MONTH, 5, 0, 0, 0, 6, 0, 0, 0]);
    assert_eq!(month.second, [4, 3, 2, 1, 7, 8]);
    assert_eq!(month.length_and_list(), Some((0x01020304, &[7, 8][..])));
}

#[test]
fn a_file_that_ends_inside_a_case_is_refused_there() {
    let whole = framed(&cases());
    let ends: Vec<usize> = (0..=cases().len()).map(|count| framed(&cases()[..count]).len()).collect();
    for cut in 0..whole.len() {
        let before = ends.iter().filter(|end| **end <= cut).count();
        match ends.contains(&cut) {
            true => assert_eq!(unframed(&whole[..cut]), Ok(cases()[..before - 1].to_vec())),
            false => assert_eq!(unframed(&whole[..cut]), Err(before), "cut at {cut}"),
        }
    }
}

#[test]
fn an_operation_that_there_is_not_is_refused() {
    for operation in (0..=u8::MAX).filter(|operation| !OPERATIONS.contains(operation)) {
        let other = Case { operation, ..Case::read(vec![0; 9]) };
        assert_eq!(unframed(&framed(&[Case::read(Vec::new()), other])), Err(2), "operation {operation}");
    }
}

#[test]
fn a_month_without_a_whole_length_is_no_whole_case() {
    for length in 0..4 {
        let short = Case { second: vec![0; length], ..month() };
        assert_eq!(unframed(&framed(&[short, Case::read(Vec::new())])), Err(1), "{length} bytes");
    }
    let least = vec![Case { second: vec![0; 4], ..month() }];
    assert_eq!(unframed(&framed(&least)), Ok(least));
}
