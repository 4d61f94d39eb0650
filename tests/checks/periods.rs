//! U5's sentences on the second simulator alone: records and periods worked out by hand.

use second::book::Book;
use second::calls::{reset, write};
use second::compare::periods::{file, filled_links, record};
use second::compare::plans::{LAST_WINDOW, PAST_THE_LAST, late_window};
use second::plan::{Flow, MOST_PERIOD, Plan, Refusal, read};
use second::random::{LONG_PERIODS, Random, any_plan};
use second::state::{judge, words};
use second::window::{listing, window};

/// The periods of a file's flows, or its refusal.
fn periods(records: &[[u8; 8]]) -> Result<Vec<i64>, Refusal> {
    let (plan, _) = read(&file(records))?;
    Ok(plan.flows.iter().map(|flow| flow.period).collect())
}

fn no<T>(number: u64, place: u64) -> Result<T, Refusal> {
    Err(Refusal { number, place })
}

#[test]
fn the_last_byte_is_the_top_byte_of_p() {
    for ([low, middle, top], period) in [
        ([0, 0, 1], 65_536),
        ([1, 0, 1], 65_537),
        ([255, 255, 1], 131_071),
        ([0, 1, 0], 256),
        ([3, 2, 1], 66_051),
        ([0, 0, 128], 8_388_608),
        ([0, 0, 255], 16_711_680),
        ([255, 255, 255], 16_777_215),
    ] {
        assert_eq!(periods(&[record(low, middle, 1, top)]), Ok(vec![period]));
    }
}

#[test]
fn files_written_before_read_with_the_same_period() {
    for middle in 0..=255 {
        let low = if middle == 0 { 1 } else { 0 };
        let records: Vec<_> = (low..=255).map(|low| record(low, middle, 9, 0)).collect();
        let first = 256 * middle as i64;
        let expected = (first + low as i64..=first + 255).collect();
        assert_eq!(periods(&records), Ok(expected));
    }
}

#[test]
fn seven_is_for_a_period_or_a_burst_of_0() {
    let (quick, slow) = (record(9, 0, 1, 0), record(0, 0, 1, 1));
    let (no_period, no_burst) = (record(0, 0, 1, 0), record(0, 0, 0, 255));
    let (off, off_no_period) = ([5, 1, 2, 0, 9, 0, 1, 0], [3, 1, 2, 3, 0, 0, 1, 0]);
    assert_eq!(periods(&[quick, slow]), Ok(vec![9, 65_536]));
    assert_eq!(periods(&[slow, no_period, off]), no(7, 1));
    assert_eq!(periods(&[slow, quick, no_burst, no_period]), no(7, 2));
    assert_eq!(periods(&[slow, off, no_period]), no(6, 1));
    assert_eq!(periods(&[slow, quick, off_no_period]), no(6, 2));
}

/// A state of one flow with this period and count. Its numbers stand in words 8 to 17.
fn state(period: u32, count: u32) -> Vec<u32> {
    let flow = Flow::from_numbers([0, 0, 0, 1, 1, 2]);
    let mut state = words(&Book::new(Plan { sx: 1, sy: 2, flows: vec![flow] }));
    (state[12], state[14], state[15]) = (period, 0, count);
    state
}

#[test]
fn a_states_period_runs_to_16_777_215() {
    for (period, count) in [(65_536, 65_535), (65_537, 65_536), (16_777_215, 16_777_214)] {
        assert!(judge(&state(period, count)).is_ok(), "{period} and count {count}");
    }
    for (period, count) in [
        (65_536, 65_536),
        (16_777_215, 16_777_215),
        (16_777_216, 0),
        (16_777_217, 0),
        (1 << 31, 0),
        (u32::MAX, 0),
    ] {
        assert_eq!(judge(&state(period, count)).unwrap_err(), Refusal { number: 9, place: 0 });
    }
}

#[test]
fn the_next_token_comes_after_a_long_period() {
    for (count, left) in
        [(65_534, [(0, 65_535), (0, 65_536), (1, 0)]), (0, [(0, 1), (0, 2), (0, 3)])]
    {
        let mut book = judge(&state(65_537, count)).unwrap();
        for (tokens, count) in left {
            book.step(10).unwrap();
            assert_eq!((book.buckets[0].tokens, book.buckets[0].count), (tokens, count));
        }
    }
}

#[test]
fn writing_gives_the_top_byte_back() {
    let file = file(&[record(0, 0, 7, 1), record(9, 0, 1, 0), record(255, 254, 253, 252)]);
    let (mut state, mut target) = (vec![0; 158], vec![0; file.len()]);
    assert_eq!(reset(&file, &mut state), Ok(0));
    assert_eq!([state[12], state[22], state[32]], [65_536, 9, 0xFC_FEFF]);
    assert_eq!(write(&state, &[], &mut target), Ok(file.len() as u64));
    assert_eq!(target, file);
}

#[test]
fn the_search_for_t_still_ends_at_65_535() {
    let window = |numbers, slow: &[i64]| window(&late_window(numbers, slow), 0);
    assert_eq!(window(LAST_WINDOW, &[65_536]), Some(65_535));
    assert_eq!(window(LAST_WINDOW, &[65_536, 65_537, MOST_PERIOD]), Some(65_535));
    assert_eq!(window(LAST_WINDOW, &[65_535]), None);
    assert_eq!(window(PAST_THE_LAST, &[65_536, 65_537, MOST_PERIOD]), None);
}

/// With the last rival a cycle slower the rates leave less than 2^-30 of the link, and the next window
/// is far past the last.
#[test]
fn slow_rivals_fill_a_link() {
    for plan in filled_links() {
        assert_eq!(window(&plan, 0), None);
    }
}

#[test]
fn waits_of_eight_digits_are_printed() {
    let numbers = [[1, 0, 2, 0, MOST_PERIOD, 1], [0, 0, 3, 0, 65_536, 1]];
    let plan = Plan::of(4, 4, &numbers);
    let lines = "0 E 3 3 16777216\n1 E 1 5 65535\n";
    assert_eq!(listing(&plan.file(&[])), format!("flow port window flight wait\n{lines}"));
    let text = listing(&late_window(LAST_WINDOW, &[65_536]).file(&[]));
    assert_eq!(text.lines().nth(1), Some("0 S 65535 2 16842748"));
}

/// A part of random plans' flows is slow, with every telling period, and most are quick.
#[test]
fn random_plans_have_slow_flows() {
    let mut random = Random::new(5);
    let flows = (0..500).flat_map(|_| any_plan(&mut random).flows);
    let (slow, quick): (Vec<_>, Vec<_>) =
        flows.map(|flow| flow.period).partition(|&period| period > 65_535);
    let all = slow.len() + quick.len();
    assert!(all / 20 < slow.len() && slow.len() < all / 5, "{} of {all} are slow", slow.len());
    for period in &LONG_PERIODS {
        assert!(slow.contains(period) || quick.contains(period), "{period} never came up");
    }
}
