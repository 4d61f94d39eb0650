//! U6's sentences on the second simulator alone: the trial generator's offers worked out by hand.

use second::book::Book;
use second::calls::{offer, offer_set, offer_trial, step};
use second::plan::{Plan, refuse};
use second::promises::{Limits, check};
use second::state::words;
use second::window::window;

/// Two flows on 4 by 4 that don't meet: one two links east, one a link south.
fn plan() -> Plan {
    let flows = [[0, 0, 2, 0, 10, 1], [1, 2, 1, 3, 7, 2]];
    Plan::of(4, 4, &flows)
}

/// The state after reset, but for so many packets of each flow that wait.
fn state(waiting: [u32; 2]) -> Vec<u32> {
    let mut state = words(&Book::new(plan()));
    [state[17], state[27]] = waiting;
    state
}

#[test]
fn it_stops_at_255_waiting() {
    for waiting in [0, 1, 253, 254] {
        let mut lent = state([0, waiting]);
        assert_eq!(offer_trial(&mut lent, 1), Ok(0), "{waiting}");
        assert_eq!(lent, state([0, waiting + 1]));
    }
    for waiting in [255, 256, 511, 65_534, 65_535] {
        let mut lent = state([0, waiting]);
        assert_eq!(offer_trial(&mut lent, 1), refuse(18, 0), "{waiting}");
        assert_eq!(lent, state([0, waiting]));
    }
}

/// 255 packets of the generator, of the sonar one by one, of a set, and some of each.
#[test]
fn by_either_call() {
    for (of_trial, of_sonar, of_set) in [(255, 0, 0), (0, 255, 0), (0, 0, 255), (100, 95, 60)] {
        let mut lent = state([0, 0]);
        for _ in 0..of_trial {
            assert_eq!(offer_trial(&mut lent, 1), Ok(0));
        }
        for _ in 0..of_sonar {
            assert_eq!(offer(&mut lent, 1), Ok(0));
        }
        assert_eq!(offer_set(&mut lent, &vec![1; of_set]), Ok(0));
        assert_eq!(offer_trial(&mut lent, 1), refuse(18, 0));
        assert_eq!(lent, state([0, 255]));
    }
}

#[test]
fn in_that_flow() {
    for other in [254, 255, 65_535] {
        let mut lent = state([other, 254]);
        assert_eq!(offer_trial(&mut lent, 1), Ok(0));
        assert_eq!(lent, state([other, 255]));
        assert_eq!(offer_trial(&mut lent, 1), refuse(18, 0));
    }
}

#[test]
fn the_sonars_call_still_stops_at_65_535() {
    for waiting in [254, 255, 256, 65_534] {
        let mut lent = state([0, waiting]);
        assert_eq!(offer(&mut lent, 1), Ok(0), "{waiting}");
        assert_eq!(lent, state([0, waiting + 1]));
        let mut lent = state([0, waiting]);
        assert_eq!(offer_set(&mut lent, &[1]), Ok(0), "{waiting}");
        assert_eq!(lent, state([0, waiting + 1]));
    }
    let mut lent = state([0, 65_535]);
    assert_eq!(offer(&mut lent, 1), refuse(13, 0));
    assert_eq!(offer_set(&mut lent, &[0, 1]), refuse(13, 1));
    let mut lent = state([0, 200]);
    assert_eq!(offer_set(&mut lent, &[1; 300]), Ok(0));
    assert_eq!(lent, state([0, 500]));
}

#[test]
fn the_full_queue_is_checked_after_12() {
    for flow in [2, 3, 256, 257, 65_536, 65_537, u32::MAX] {
        for waiting in [0, 255, 65_535] {
            let mut lent = state([waiting; 2]);
            assert_eq!(offer_trial(&mut lent, flow), refuse(12, 0), "{flow}");
            assert_eq!(lent, state([waiting; 2]));
        }
    }
}

#[test]
fn no_state_comes_first() {
    for flow in [0, 1, 2] {
        let whole = state([254, 255]);
        let answer = |words: &[u32]| offer_trial(&mut words.to_vec(), flow);
        assert_eq!(answer(&whole[..7]), refuse(8, 0));
        assert_eq!(answer(&[0; 8]), refuse(9, 0));
        assert_eq!(answer(&whole[..whole.len() - 1]), refuse(8, 0));
        assert_eq!(answer(&state([0, 65_536])), refuse(9, 0));
    }
}

/// Flow 0 has one token, and its next one after cycle 9.
#[test]
fn an_entry_makes_room() {
    let mut lent = state([255, 0]);
    assert_eq!(offer_trial(&mut lent, 0), refuse(18, 0));
    for (steps, room) in [(1, 1), (9, 0), (1, 1)] {
        for _ in 0..steps {
            step(&mut lent, &mut [0; 80]).unwrap();
        }
        assert_eq!(lent[17], 255 - room);
        for _ in 0..room {
            assert_eq!(offer_trial(&mut lent, 0), Ok(0));
        }
        assert_eq!(offer_trial(&mut lent, 0), refuse(18, 0));
    }
}

/// Flow 0 is alone in its row, with P 10 and T 1: the bounds of q 0, 1 and 2 are 9, 19 and 29. Its
/// packets fly for 4.
#[test]
fn its_packets_have_the_same_promises() {
    let (mut book, mut of_sonar) = (Book::new(plan()), Book::new(plan()));
    for flow in [0, 1, 0, 0] {
        book.offer_trial(flow).unwrap();
        of_sonar.offer(flow).unwrap();
    }
    assert_eq!(book, of_sonar);
    assert_eq!(window(&book.plan, 0), Some(1));
    let delivered: Vec<_> = (0..30).flat_map(|_| book.step(80).unwrap()).collect();
    let of_flow_0: Vec<_> = delivered.iter().filter(|group| group[0] == 0).copied().collect();
    assert_eq!(of_flow_0, [[0, 1, 0, 2, 0], [0, 2, 10, 12, 0], [0, 3, 20, 22, 0]]);
    check(&book, &Limits::of_all(&book.plan), &delivered);
}

#[test]
fn q_counts_the_packets_of_both() {
    let mut book = Book::new(plan());
    book.offer(0).unwrap();
    book.offer_trial(0).unwrap();
    book.offer_set(&[0, 1, 0]).unwrap();
    book.offer_trial(0).unwrap();
    let lines: Vec<_> = book.lines.iter().map(|line| (line.flow, line.serial, line.q)).collect();
    assert_eq!(lines, [(0, 1, 0), (0, 2, 1), (0, 3, 2), (1, 1, 0), (0, 4, 3), (0, 5, 4)]);
}
