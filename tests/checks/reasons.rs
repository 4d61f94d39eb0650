//! U7's sentences on the second simulator alone: steps with reasons worked out by hand.

use second::book::Book;
use second::calls::{Answer, offer_set, step, step_reasons};
use second::compare::scenes::{Scene, all_pairs, scenes};
use second::plan::{Flow, Plan, refuse};
use second::promises::{Limits, check, check_reasons};
use second::state::{judge, words};

/// Two flows of the client (0,0) on 4 by 4, by E and by S, each with two tokens. The next comes at the end
/// of cycle 9.
fn plan() -> Plan {
    let flows = [[0, 0, 2, 0, 10, 2], [0, 0, 0, 1, 10, 2]];
    Plan::of(4, 4, &flows)
}

/// The state after reset, with so many packets of each flow waiting, in this cycle.
fn state(waiting: [u32; 2], clock: u32) -> Vec<u32> {
    let mut state = words(&Book::new(plan()));
    [state[17], state[27], state[3]] = [waiting[0], waiting[1], clock];
    state
}

/// A step that is lent these words and two for reasons: what it tells.
fn told(state: &mut [u32]) -> [u32; 2] {
    let mut reasons = [9; 2];
    step_reasons(state, &mut [0; 80], &mut reasons).unwrap();
    reasons
}

/// The first of the six that applies, in each scene by hand.
#[test]
fn the_first_that_applies() {
    for scene in scenes() {
        for period in [1, 9] {
            assert_eq!(told_in(&scene, period), scene.reasons, "{}", scene.what);
        }
    }
    let all: Vec<u32> = scenes().flat_map(|scene| scene.reasons).collect();
    assert!((0..6).all(|reason| all.contains(&reason)));
}

/// What a step tells in a scene, if all flows have this period.
fn told_in(scene: &Scene, period: i64) -> Vec<u32> {
    let mut reasons = vec![9; scene.flows.len()];
    step_reasons(&mut scene.state(period), &mut [0; 45], &mut reasons).unwrap();
    reasons
}

/// Whatever a router's registers hold and whichever of two flows have tokens and packets: 0 stands where
/// a flow's entered count rose, 3 and 4 where 01's rule 3 has a port closed, and 5 in what is left.
#[test]
fn one_of_the_six_in_every_scene() {
    for scene in all_pairs() {
        let before = judge(&scene.state(9)).unwrap();
        let mut after = before.clone();
        let (_, reasons) = after.step_reasons(45, scene.flows.len()).unwrap();
        check_reasons(&before, &reasons, &after);
    }
}

/// Flow 0 has two packets and two tokens: it enters twice, the second time with its last packet and its
/// last token, and flow 1 waits for it. In cycle 3 flow 1 has spent its tokens too.
#[test]
fn all_are_judged_on_the_state_before_the_step() {
    let mut lent = state([2, 3], 0);
    for reasons in [[0, 5], [0, 5], [1, 0], [1, 0], [1, 2], [1, 2]] {
        assert_eq!(told(&mut lent), reasons);
    }
}

/// A token that comes at the end of a cycle is no token in it.
#[test]
fn the_cycles_own_token_comes_too_late() {
    let mut lent = state([3, 0], 0);
    let reasons: Vec<_> = (0..12).map(|_| told(&mut lent)[0]).collect();
    assert_eq!(reasons, [0, 0, 2, 2, 2, 2, 2, 2, 2, 2, 0, 1]);
}

#[test]
fn words_after_the_last_flow_stay_untouched() {
    for length in [2, 3, 4, 300] {
        let mut reasons = vec![9; length];
        assert_eq!(step_reasons(&mut state([1, 1], 0), &mut [0; 80], &mut reasons), Ok(0));
        assert_eq!(reasons[..2], [0, 5]);
        assert!(reasons[2..].iter().all(|&word| word == 9));
    }
}

/// It answers, delivers and leaves what a plain step does, and both may alternate.
#[test]
fn else_it_is_the_step() {
    for every in [1, 2, 3] {
        let (mut telling, mut plain) = (state([40, 40], 0), state([40, 40], 0));
        for cycle in 0..60 {
            let (mut of_telling, mut of_plain) = ([7; 90], [7; 90]);
            let answer = if cycle % every == 0 {
                step_reasons(&mut telling, &mut of_telling, &mut [0; 2])
            } else {
                step(&mut telling, &mut of_telling)
            };
            assert_eq!(answer, step(&mut plain, &mut of_plain));
            assert_eq!((&telling, of_telling), (&plain, of_plain));
        }
    }
}

/// A step with reasons is one of the list's steps: the promises hold of what it moves.
#[test]
fn both_steps_in_one_list() {
    let mut book = Book::new(plan());
    book.offer_set(&[0, 1, 0, 1]).unwrap();
    let mut delivered = Vec::new();
    for cycle in 0..40 {
        delivered.extend(match cycle % 2 {
            0 => book.step_reasons(80, 2).unwrap().0,
            _ => book.step(80).unwrap(),
        });
    }
    assert_eq!(delivered.len(), 4);
    check(&book, &Limits::of_all(&book.plan), &delivered);
}

/// A call on words that are lent so: what it answers. All three memories stay, if it is refused.
fn answer(words: &[u32], room: usize, told: usize) -> Answer {
    let (mut lent, mut delivery, mut reasons) = (words.to_vec(), vec![7; room], vec![9; told]);
    let answer = step_reasons(&mut lent, &mut delivery, &mut reasons);
    if answer.is_err() {
        assert_eq!((&lent[..], delivery, reasons), (words, vec![7; room], vec![9; told]));
    }
    answer
}

#[test]
fn a_list_shorter_than_the_flow_count_is_refused_with_19() {
    for (told, expected) in [(0, refuse(19, 0)), (1, refuse(19, 0)), (2, Ok(0)), (3, Ok(0))] {
        assert_eq!(answer(&state([1, 1], 0), 80, told), expected);
    }
    for flows in [1, 256] {
        let flow = Flow::from_numbers([1, 1, 1, 1, 5, 1]);
        let mut state = words(&Book::new(Plan { sx: 2, sy: 2, flows: vec![flow; flows] }));
        offer_set(&mut state, &[flows as u32 - 1]).unwrap();
        assert_eq!(answer(&state, 20, flows - 1), refuse(19, 0));
        assert_eq!(answer(&state, 20, flows), Ok(1));
        assert_eq!(answer(&state, 20, flows + 1), Ok(1));
    }
}

/// 8, 9, 10, 11 and 19: each comes before those behind it.
#[test]
fn nineteen_comes_after_11() {
    let (first, last) = (state([1, 1], 0), state([1, 1], u32::MAX));
    for told in [0, 1] {
        assert_eq!(answer(&first, 80, told), refuse(19, 0));
        assert_eq!(answer(&last, 80, told), refuse(11, 0));
        assert_eq!(answer(&first, 79, told), refuse(10, 0));
        assert_eq!(answer(&last, 0, told), refuse(10, 0));
        assert_eq!(answer(&state([1, 65_536], u32::MAX), 0, told), refuse(9, 0));
        assert_eq!(answer(&[0; 8], 0, told), refuse(9, 0));
        assert_eq!(answer(&last[..last.len() - 1], 0, told), refuse(8, 0));
        assert_eq!(answer(&last[..7], 0, told), refuse(8, 0));
    }
    assert_eq!(answer(&last, 80, 2), refuse(11, 0));
    assert_eq!(answer(&state([1, 1], u32::MAX - 1), 80, 2), Ok(0));
}
