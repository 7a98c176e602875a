//! The generated traces against the publisher that they come from: a display always holds the written result of the updates up to its
//! own number, and moves on by one where it is handed the next file and has room.

use second::answer::{answer, Answered};
use second::generate::{trace, Trace};

const TRACES: usize = 200;

/// Which of the charts these bytes are.
fn number(charts: &[Vec<u8>], bytes: &[u8]) -> usize {
    charts.iter().position(|chart| chart == bytes).expect("a display holds a chart of its publisher")
}

#[test]
fn a_display_holds_a_chart_of_its_publisher_and_moves_on_by_one() {
    let (mut calls_met, mut accepted, mut numbers) = (0, 0, [0; 16]);
    for n in 0..TRACES {
        let Trace { calls, charts } = trace(3, n);
        let mut shown = 0;
        for call in &calls {
            assert_eq!(number(&charts, &call.first), shown);
            match answer(call) {
                Answered::Call { number: 0, length, out, .. } => {
                    assert_eq!(number(&charts, &out[..length]), shown + 1);
                    (shown, accepted) = (shown + 1, accepted + 1);
                }
                Answered::Call { number, .. } => numbers[number as usize] += 1,
                other => panic!("{other:?}"),
            }
        }
        calls_met += calls.len();
    }
    println!("{calls_met} calls, {accepted} accepted, refusals {numbers:?}");
    assert!(accepted > TRACES && numbers[8] > TRACES && numbers[13] > 20 && numbers[15] > 20, "{accepted} {numbers:?}");
    assert_eq!(numbers[8] + numbers[13] + numbers[15] + accepted, calls_met, "nothing else is in a display's way: {numbers:?}");
}
