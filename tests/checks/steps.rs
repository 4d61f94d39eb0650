//! Many steps in one call on the second simulator alone: worked out by hand, beside its single steps, and
//! idle cycles that are passed at once beside those that are run.

use second::book::{Book, Bucket};
use second::calls::{Answer, step, steps};
use second::plan::{Flow, Plan, refuse};
use second::promises::{Limits, check};
use second::random::{self, Random};
use second::state::{judge, words};

const MOST: u32 = u32::MAX;

/// Two flows on 4 by 4 that don't meet: one that flies for two links, with P 10, and one to its own
/// client, with P 1,000.
fn plan() -> Plan {
    let flows = [[0, 0, 2, 0, 10, 1], [3, 3, 3, 3, 1000, 2]];
    Plan::of(4, 4, &flows)
}

/// The state after reset, with so many packets of each flow waiting, in this cycle.
fn state(waiting: [u32; 2], clock: u32) -> Vec<u32> {
    let mut state = words(&Book::new(plan()));
    [state[17], state[27], state[3]] = [waiting[0], waiting[1], clock];
    state
}

/// Flow 0 enters in cycles 0, 10 and 20, and flow 1 in 0, 1 and 1,000. The rest is idle.
#[test]
fn exits_stand_one_behind_the_other() {
    let (mut lent, mut delivery) = (state([3, 3], 0), [7; 120]);
    assert_eq!(steps(&mut lent, &mut delivery, 2_000_000), Ok(6));
    let exits = [
        [1, 1, 0, 0, 0],
        [1, 2, 1, 1, 0],
        [0, 1, 0, 2, 0],
        [0, 2, 10, 12, 0],
        [0, 3, 20, 22, 0],
        [1, 3, 1000, 1000, 0],
    ];
    assert_eq!(delivery[..30], exits.concat());
    assert_eq!(delivery[30..], [7; 90]);
    assert_eq!(lent, {
        let mut after = state([0, 0], 2_000_000);
        (after[14], after[15], after[16]) = (1, 0, 3);
        (after[24], after[25], after[26]) = (2, 0, 3);
        after
    });
}

/// A step asks for 80 words. Of 84 the second cycle has 79 left, of 85 the third has 75 left, and of 90
/// the fourth.
#[test]
fn it_ends_before_a_step_without_room() {
    for (room, ran, exits) in [(80, 1, 1), (84, 1, 1), (85, 2, 2), (89, 2, 2), (90, 3, 3)] {
        for cycles in [ran, ran + 1, 9, MOST] {
            let (mut lent, mut delivery) = (state([1, 2], 0), vec![7; room]);
            assert_eq!(steps(&mut lent, &mut delivery, cycles), Ok(exits), "{room}, {cycles}");
            assert_eq!(lent[3], ran);
        }
    }
}

#[test]
fn it_ends_at_the_last_clock() {
    for (before, cycles, ran) in [(1, 2, 1), (1, 1, 1), (9, 8, 8), (9, 9, 9), (9, MOST, 9)] {
        let mut lent = state([0, 0], MOST - before);
        assert_eq!(steps(&mut lent, &mut [0; 80], cycles), Ok(0));
        assert_eq!(lent[3], MOST - before + ran);
    }
}

/// A call on words that are lent so: what it answers. Both memories stay, if it is refused or of no cycle.
fn answer(words: &[u32], room: usize, cycles: u32) -> Answer {
    let (mut lent, mut delivery) = (words.to_vec(), vec![7; room]);
    let answer = steps(&mut lent, &mut delivery, cycles);
    if answer.is_err() || cycles == 0 {
        assert_eq!((&lent[..], delivery), (words, vec![7; room]));
    }
    answer
}

/// 8, 9, 10 and 11 as of a step, judged at the start, for no cycle too.
#[test]
fn it_is_refused_as_a_step() {
    let (first, last) = (state([1, 1], 0), state([1, 1], MOST));
    for cycles in [0, 1, 2, MOST] {
        assert_eq!(answer(&last[..7], 0, cycles), refuse(8, 0));
        assert_eq!(answer(&[0; 8], 0, cycles), refuse(9, 0));
        assert_eq!(answer(&last[..last.len() - 1], 0, cycles), refuse(8, 0));
        assert_eq!(answer(&state([1, 65_536], MOST), 0, cycles), refuse(9, 0));
        assert_eq!(answer(&last, 79, cycles), refuse(10, 0));
        assert_eq!(answer(&last, 80, cycles), refuse(11, 0));
        assert_eq!(answer(&first, 79, cycles), refuse(10, 0));
        assert_eq!(answer(&first, 80, cycles), Ok(cycles.min(1) as u64));
    }
}

/// Single steps, each on the words that the last one left and on the memory behind its exits.
fn one_by_one(state: &mut [u32], delivery: &mut [u32], cycles: u32) -> Answer {
    step(&mut state.to_vec(), &mut delivery.to_vec())?;
    let mut exits = 0;
    for _ in 0..cycles {
        match step(state, &mut delivery[5 * exits as usize..]) {
            Ok(more) => exits += more,
            Err(_) => break,
        }
    }
    Ok(exits)
}

/// On any state, with any room: what single steps answer and leave, run each or with idle ones passed.
#[test]
fn as_single_steps_one_after_the_other() {
    let mut random = Random::new(4);
    for _ in 0..600 {
        let plan = random::any_plan(&mut random);
        let before = random::state(&mut random, &plan);
        let least = plan.delivery_words();
        let (room, cycles) = (least + random.index(2 * least), random.from(0, 60) as u32);
        let (mut single, mut delivery) = (before.clone(), vec![7; room]);
        let expected = one_by_one(&mut single, &mut delivery, cycles);
        let (mut lent, mut delivered) = (before.clone(), vec![7; room]);
        assert_eq!(steps(&mut lent, &mut delivered, cycles), expected);
        assert_eq!((&lent, delivered), (&single, delivery));
        let mut passed = judge(&before).unwrap();
        let exits = passed.steps_passing(room, cycles, Book::pass_idle);
        assert_eq!(exits.map(|exits| exits.len() as u64), expected);
        assert_eq!(words(&passed), single);
    }
}

/// Cycles without a packet, passed at once and one by one, by every length up to two periods and more.
#[test]
fn idle_cycles_passed_at_once() {
    for (period, burst) in [(1, 1), (2, 3), (5, 1), (7, 255)] {
        let flows = vec![Flow::from_numbers([0, 0, 0, 0, period, burst])];
        for (tokens, count) in [(0, 0), (0, period - 1), (burst, 0), (burst, period / 2)] {
            let mut run = Book::new(Plan { sx: 1, sy: 1, flows: flows.clone() });
            run.buckets[0] = Bucket { tokens, count };
            let begins = run.clone();
            for cycles in 0..40 {
                let mut passed = begins.clone();
                passed.pass(cycles);
                assert!(passed == run, "{cycles} cycles: {passed:?}, {run:?}");
                run.step(5).unwrap();
            }
        }
    }
}

/// Many steps are steps of the list: the promises hold of what they move, over a long stretch too.
#[test]
fn in_a_list_with_single_steps() {
    let mut book = Book::new(plan());
    let mut delivered = Vec::new();
    for cycles in [0, 1, 5, 30, 700, 5000, 3_000_000] {
        book.offer_set(&[0, 1, 0, 0]).unwrap();
        delivered.extend(book.steps(200, cycles).unwrap());
        delivered.extend(book.step(80).unwrap());
    }
    assert_eq!(delivered.len(), 28);
    check(&book, &Limits::of_all(&book.plan), &delivered);
}
