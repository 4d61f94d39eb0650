//! Steps with reasons, beside plain ones on the same states: answer, state, deliveries and reasons as U7
//! states them.

use super::Run;
use super::scenes::{Scene, all_pairs, scenes};
use super::sets::{self, offer_set};
use super::steps::{self, about};
use crate::lent::Call;
use crate::random;
use crate::state::waiting_at;

/// How often each reason comes up in the gate's rounds at the least.
const OFTEN: u64 = 5000;

/// Scenes, and lengths of all memories about their limits.
pub fn boundaries(run: &mut Run) {
    for scene in scenes() {
        for period in [1, 9] {
            let told = in_turn(run, &scene, period);
            assert_eq!(told[..scene.flows.len()], scene.reasons, "{}, P {period}", scene.what);
        }
    }
    for scene in all_pairs() {
        let period = run.random.pick(&[1, 9]);
        in_turn(run, &scene, period);
    }
    for (size, flows) in [(1, 1), (16, 1), (2, 2), (3, 16), (1, 255), (1, 256), (16, 256)] {
        lengths(run, size, flows);
    }
}

/// Steps with reasons and plain ones in turn, from this scene on, and every other form of step on it. Gives what
/// the first tells, and the words behind it.
fn in_turn(run: &mut Run, scene: &Scene, period: i64) -> Vec<u32> {
    let (room, told) = (scene.plan(period).delivery_words(), scene.flows.len() + 2);
    let memory = &mut run.on(&scene.state(period), 1);
    let mut step = steps::telling(run.random, memory, room, told);
    run.call(step, memory).unwrap();
    let first = memory.reasons.expected().to_vec();
    for _ in 0..2 {
        step = steps::plain(run.random, memory, room);
        run.accepts(step, memory);
        step = steps::telling(run.random, memory, room, told);
        run.accepts(step, memory);
    }
    for single in [Call::Step, Call::Steps(1)] {
        let memory = &mut run.on(&scene.state(period), 1);
        steps::plain(run.random, memory, room);
        run.accepts(single, memory);
    }
    first
}

/// A plan of so many flows on a square torus, with every length of both memories about its limit, on a state
/// with short queues, which is judged often. Words after the last flow stay.
fn lengths(run: &mut Run, size: i64, flows: usize) {
    let plan = random::plan(run.random, size, size, flows);
    let mut state = random::state(run.random, &plan);
    while state[3] == u32::MAX || (0..flows).any(|flow| state[waiting_at(flow)] > 999) {
        state = random::state(run.random, &plan);
    }
    let least = plan.delivery_words();
    for room in [0, least - 1, least, least + 1, least + 99, 5000] {
        for told in [0, 1, flows - 1, flows, flows + 1, flows + 2, 2 * flows + 9, 1280, 5000] {
            let memory = &mut run.on(&state, 3);
            let step = steps::telling(run.random, memory, room, told);
            let enough = room >= least && told >= flows;
            assert_eq!(run.accepts(step, memory), enough, "{room}, {told}");
        }
    }
}

/// Steps on a state of a plan, most of them with reasons, each on what the last one left, with packets
/// offered between them.
pub fn round(run: &mut Run, sx: i64, sy: i64) {
    let flows = random::flow_count(run.random);
    let plan = random::plan(run.random, sx, sy, flows);
    let state = random::state(run.random, &plan);
    let memory = &mut run.on(&state, 2);
    for _ in 0..8 {
        let room = about(run.random, plan.delivery_words());
        let told = about(run.random, flows);
        let step = steps::telling(run.random, memory, room, told);
        run.accepts(step, memory);
        if run.random.percent(30) {
            let step = steps::plain(run.random, memory, room);
            run.accepts(step, memory);
        }
        let list = sets::list(run.random, flows);
        offer_set(run, memory, &list, flows);
    }
}

/// Each of the six reasons came up often among these, the gate's rounds.
pub fn came_up_often(told: [u64; 6]) {
    for (reason, count) in told.into_iter().enumerate() {
        assert!(count >= OFTEN, "reason {reason} came up {count} times");
    }
}
