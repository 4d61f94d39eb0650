//! `bursts`: each burst's window by U9, with and without rivals, up to the last one and past it.

use super::program::{Program, same_lines, write};
use super::streams::sample;
use crate::compare::Tally;
use crate::plan::{MOST_PERIOD, Plan};
use crate::random::{self, Random};
use crate::window::burst;
use std::time::{Duration, Instant};

pub const HEADS: &str = "flow packets window wait";

/// What is printed for a plan, by the window of so many packets of a flow.
fn printed(plan: &Plan, window: impl Fn(usize, i64) -> Option<i64>) -> String {
    let mut text = format!("{HEADS}\n");
    for (flow, numbers) in plan.flows.iter().enumerate() {
        for packets in 1..=numbers.burst {
            text += &match window(flow, packets) {
                Some(window) => format!("{flow} {packets} {window} {}\n", window - 1),
                None => format!("{flow} {packets} - -\n"),
            };
        }
    }
    text
}

fn compare(program: &Program, tally: &mut Tally, plan: &Plan, notes: &[u8]) {
    write(&program.file("run.plan"), &plan.file(notes));
    let got = program.call(tally, &["bursts", "run.plan"], b"");
    let expected = printed(plan, |flow, packets| burst(plan, flow, packets));
    same_lines(tally, plan, &expected, &got.out);
    assert_eq!((got.status, got.err.as_str()), (0, ""), "seed {}: {plan:?}", tally.seed);
}

/// Flows alone, behind others' bursts, and with no window for some bursts or for all.
pub fn plans(program: &Program, tally: &mut Tally) {
    compare(program, tally, &sample(), b"");
    for (sx, flows) in [
        (1, &[[0, 0, 0, 0, 7, 255]][..]),
        (16, &[[3, 4, 5, 6, MOST_PERIOD, 1]]),
        (4, &[[0, 0, 2, 0, 2, 20], [1, 0, 3, 0, 4, 9]]),
        (4, &[[0, 0, 3, 0, 1, 3], [1, 0, 3, 0, 9, 4], [2, 0, 3, 0, 9, 2], [0, 1, 3, 1, 5, 2]]),
        // Flow 0's packets come bunched to the last flow's client.
        (4, &[[0, 0, 2, 3, 5, 2], [0, 1, 2, 1, 9, 1], [0, 2, 2, 2, 9, 1], [2, 2, 2, 3, 6, 8]]),
    ] {
        compare(program, tally, &Plan::of(sx, 16, flows), b"HRTP");
    }
    // Four rivals leave 1 of 1,806 cycles: in 65,535 there is room for some bursts of the last flow.
    let rivals = [2, 3, 7, 43].map(|period| [0, 0, 1, 0, period, 1]);
    let plan = Plan::of(2, 1, &[&rivals[..], &[[0, 0, 1, 0, 9, 36]]].concat());
    let has_window = [30, 36].map(|packets| burst(&plan, 4, packets).is_some());
    assert_eq!(has_window, [true, false]);
    compare(program, tally, &plan, b"");
}

/// The first flow and the last of the most that a plan has, which keep out of each other's way.
pub fn both_ends(program: &Program, tally: &mut Tally) {
    let flow = |at: i64| [at % 16, at / 16, at % 16, at / 16, 9, 1 + at / 255];
    let plan = Plan::of(16, 16, &(0..256).map(flow).collect::<Vec<_>>());
    compare(program, tally, &plan, b"");
}

/// Small bursts of a random plan.
pub fn round(program: &Program, tally: &mut Tally, random: &mut Random, sx: i64, sy: i64) {
    let flows = random.from(1, 6) as usize;
    let mut plan = random::plan(random, sx, sy, flows);
    let most = random.pick(&[1, 3, 12]);
    plan.flows.iter_mut().for_each(|flow| flow.burst = flow.burst.min(most));
    let notes = random::notes(random, &plan);
    compare(program, tally, &plan, &notes);
}

/// The most lines, up to the last window: each flow's 255 rivals enter 256 packets each, and flow 0 with the
/// shorter period one more in the last cycle, so that the largest burst of each other flow has no window. It
/// takes seconds at most.
pub fn most(program: &Program) {
    for (period, largest) in [(65_534, 255), (65_533, 254)] {
        let mut flows = [[0, 0, 1, 0, MOST_PERIOD, 255]; 256];
        flows[0][4] = period;
        let plan = Plan::of(2, 1, &flows);
        write(&program.file("run.plan"), &plan.file(b""));
        let began = Instant::now();
        let got = program.answer(&["bursts", "run.plan"], b"");
        assert!(began.elapsed() < Duration::from_secs(5), "{:?}", began.elapsed());
        let expected = printed(&plan, |flow, packets| {
            (flow == 0 || packets <= largest).then_some(255 * 256 + packets)
        });
        same_lines(&Tally::new(0), &plan, &expected, &got.out);
        assert_eq!((got.status, got.err.as_str()), (0, ""));
    }
}
