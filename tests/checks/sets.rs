//! U4's sentences on the second simulator alone: sets worked out by hand.

use second::book::Book;
use second::calls::offer_set;
use second::plan::{Plan, Refusal};
use second::promises::{Limits, check};
use second::state::words;
use second::window::window;

/// Three flows on 4 by 4 that don't meet.
fn plan() -> Plan {
    let flows = [[0, 0, 2, 0, 10, 1], [0, 1, 2, 1, 10, 2], [0, 2, 0, 2, 3, 1]];
    Plan::of(4, 4, &flows)
}

/// The state after reset, but for so many packets of flow 1 that wait.
fn state(waiting: u32) -> Vec<u32> {
    let mut state = words(&Book::new(plan()));
    state[27] = waiting;
    state
}

fn no(number: u64, place: u64) -> Result<u64, Refusal> {
    Err(Refusal { number, place })
}

#[test]
fn a_number_named_twice_counts_twice() {
    let mut state = state(5);
    assert_eq!(offer_set(&mut state, &[1, 0, 1, 1]), Ok(0));
    assert_eq!([state[17], state[27], state[37]], [1, 8, 0]);
}

#[test]
fn q_counts_earlier_entries_of_the_same_flow() {
    let mut book = Book::new(plan());
    book.offer(1).unwrap();
    assert_eq!(book.offer_set(&[1, 0, 1, 2, 0]), Ok(0));
    let lines: Vec<_> = book.lines.iter().map(|line| (line.flow, line.serial, line.q)).collect();
    assert_eq!(lines, [(1, 1, 0), (1, 2, 1), (0, 1, 0), (1, 3, 2), (2, 1, 0), (0, 2, 1)]);
}

/// Flow 0 is alone in its row, with P 10 and T 1: the bounds of q 0, 1 and 2 are 9, 19 and 29.
#[test]
fn a_sets_packets_enter_by_their_bounds() {
    let mut book = Book::new(plan());
    assert_eq!(window(&book.plan, 0), Some(1));
    book.offer_set(&[0, 0, 0]).unwrap();
    let delivered: Vec<_> = (0..30).flat_map(|_| book.step(80).unwrap()).collect();
    let entries: Vec<_> = book.lines.iter().map(|line| line.entry).collect();
    assert_eq!(entries, [Some(0), Some(10), Some(20)]);
    check(&book, &Limits::of_all(&book.plan), &delivered);
}

/// Flow 1 has room for two packets. A refused set leaves every word.
#[test]
fn the_first_entry_that_would_be_refused() {
    let refused: [(&[u32], u64, u64); 9] = [
        (&[1, 1, 1], 13, 2),
        (&[1, 0, 1, 0, 1], 13, 4),
        (&[1, 1, 1, 1, 3], 13, 2),
        (&[1, 1, 3, 1], 12, 2),
        (&[3], 12, 0),
        (&[0, 3], 12, 1),
        (&[0, 2, u32::MAX, 3], 12, 2),
        (&[3, 1, 1, 1], 12, 0),
        (&[257, 0], 12, 0),
    ];
    for (flows, number, place) in refused {
        let mut lent = state(65_533);
        assert_eq!(offer_set(&mut lent, flows), no(number, place), "{flows:?}");
        assert_eq!(lent, state(65_533), "{flows:?}");
    }
    let mut lent = state(65_533);
    assert_eq!(offer_set(&mut lent, &[0, 1, 2, 1]), Ok(0));
    assert_eq!(lent[27], 65_535);
    assert_eq!(offer_set(&mut lent, &[0, 1]), no(13, 1));
}

#[test]
fn a_whole_queue_at_once() {
    let mut lent = state(0);
    assert_eq!(offer_set(&mut lent, &[1; 65_536]), no(13, 65_535));
    assert_eq!(lent, state(0));
    assert_eq!(offer_set(&mut lent, &[1; 65_535]), Ok(0));
    assert_eq!(lent, state(65_535));
}

#[test]
fn an_empty_list_changes_nothing() {
    for waiting in [0, 65_535] {
        let mut lent = state(waiting);
        assert_eq!(offer_set(&mut lent, &[]), Ok(0));
        assert_eq!(lent, state(waiting));
    }
}

/// The state's own refusals come first, for an empty list too.
#[test]
fn no_state_comes_first() {
    for flows in [&[][..], &[0], &[3], &[1, 1]] {
        let whole = state(65_535);
        let refused = |words: &[u32]| offer_set(&mut words.to_vec(), flows);
        assert_eq!(refused(&whole[..7]), no(8, 0));
        assert_eq!(refused(&[0; 8]), no(9, 0));
        assert_eq!(refused(&whole[..whole.len() - 1]), no(8, 0));
        assert_eq!(refused(&state(65_536)), no(9, 0));
    }
}
