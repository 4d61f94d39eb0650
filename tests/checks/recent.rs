//! U1's sentences on the second simulator alone: records worked out by hand.

use second::book::Book;
use second::calls::recent;
use second::plan::{Flow, Plan, Refusal};
use second::recent::{Record, holding};
use second::state::words;

/// ΔX 2 and ΔY 2 on 4 by 4, and a flow to its own client: spans 4, 8, 12, and 0.
fn plan() -> Plan {
    let flows = [[0, 0, 2, 2, 9, 1], [3, 3, 3, 3, 9, 1]].map(Flow::from_numbers);
    Plan { sx: 4, sy: 4, flows: flows.to_vec() }
}

fn state() -> Vec<u32> {
    words(&Book::new(plan()))
}

/// Flow 0's delivery with this D, and flow 1's.
fn of_flow_0(d: u32) -> [u32; 5] {
    [0, 7, 100, 104 + 4 * d, d]
}
const OF_FLOW_1: [u32; 5] = [1, 0, 9, 9, 0];

fn no(number: u64) -> Result<u64, Refusal> {
    Err(Refusal { number, place: 0 })
}

#[test]
fn the_oldest_goes() {
    let mut records = [Record::default(); 2];
    let list = [2, 0, 1, 0].map(of_flow_0).concat();
    assert_eq!(recent(&state(), &list, &mut records, 3), Ok(0));
    assert_eq!((records[0].held, records[0].longest, records[0].most), (3, 10, 1));
    assert_eq!(records[0].flights[..4], [6, 10, 6, 0]);
    assert_eq!(records[0].deflections[..4], [0, 1, 0, 0]);
    assert_eq!(records[1], Record::default());
}

#[test]
fn zeros_stand_behind_and_maxima_are_found_anew() {
    let noise = Record { held: 1, longest: 99, most: 99, flights: [50; 16], deflections: [60; 16] };
    let mut records = [noise; 3];
    assert_eq!(recent(&state(), &of_flow_0(2), &mut records, 16), Ok(0));
    assert_eq!(records, [holding(&[(50, 60), (14, 2)]), noise, noise]);
}

#[test]
fn a_record_that_says_more_than_l_is_empty() {
    let three = holding(&[(6, 0), (10, 1), (14, 2)]);
    for (last, kept) in [(2, holding(&[(6, 0)])), (3, holding(&[(10, 1), (14, 2), (6, 0)]))] {
        let mut records = [three; 2];
        assert_eq!(recent(&state(), &of_flow_0(0), &mut records, last), Ok(0));
        assert_eq!(records, [kept, three]);
    }
}

#[test]
fn a_broken_last_group_is_not_read() {
    for length in 0..5 {
        let list = [&OF_FLOW_1, &[u32::MAX; 4][..length]].concat();
        let mut records = [Record::default(); 2];
        assert_eq!(recent(&state(), &list, &mut records, 1), Ok(0));
        assert_eq!(records, [Record::default(), holding(&[(2, 0)])]);
    }
}

#[test]
fn what_is_no_delivery_of_the_plan_is_refused() {
    let wrong = [
        [2, 1, 100, 104, 0],
        [0, 1, 100, 116, 3],
        [0, 1, 100, 105, 0],
        [0, 1, 100, 103, 0],
        [0, 1, 100, 108, 0],
        [0, 1, u32::MAX, 3, 0],
        [1, 1, 100, 99, 0],
    ];
    for group in wrong {
        let mut records = [Record::default(); 2];
        let list = [of_flow_0(1), group].concat();
        assert_eq!(recent(&state(), &list, &mut records, 16), no(12), "{group:?}");
        assert_eq!(records, [Record::default(); 2], "{group:?}");
    }
    let last = [0, 1, u32::MAX - 12, u32::MAX, 2];
    assert_eq!(recent(&state(), &last, &mut [Record::default(); 2], 16), Ok(0));
}

#[test]
fn refusals_come_in_order() {
    let (state, wrong) = (state(), [9; 5]);
    let mut records = [Record::default(); 2];
    assert_eq!(recent(&state[..7], &wrong, &mut records[..1], 0), no(8));
    assert_eq!(recent(&[0; 8], &wrong, &mut records[..1], 0), no(9));
    assert_eq!(recent(&state, &wrong, &mut records[..1], 0), no(16));
    for last in [0, 17, u32::MAX] {
        assert_eq!(recent(&state, &wrong, &mut records, last), no(17));
    }
    assert_eq!(recent(&state, &wrong, &mut records, 16), no(12));
    assert_eq!(recent(&state, &wrong[..4], &mut records, 16), Ok(0));
}
