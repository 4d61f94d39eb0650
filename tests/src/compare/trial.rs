//! The trial generator's offers, beside the sonar's on the same queues, one call at a time and in lists:
//! answer and state as U6 states them.

use super::list::{By, List};
use super::orders::three_queues;
use super::sets::offer_set;
use super::{Run, no_flows, sets, steps};
use crate::book::Book;
use crate::lent::Call;
use crate::offers::{MOST_TRIAL, MOST_WAITING};
use crate::random;
use crate::slips::met_exactly;
use crate::state::{waiting_at, words};

/// As many packets as the generator may leave waiting in a flow, and as the sonar may.
const TRIAL: u32 = MOST_TRIAL as u32;
const SONAR: u32 = MOST_WAITING as u32;

/// Queues about both limits, queues of other flows, numbers that are no flow's,
/// and an entry that makes room.
pub fn boundaries(run: &mut Run) {
    for waiting in [0, 1, 127, 128, 253, 254, 255, 256, 257, 510, 511, 512] {
        limits(run, waiting);
    }
    for waiting in [65_534, 65_535, 65_536, 65_790, 1 << 31, u32::MAX] {
        limits(run, waiting);
    }
    other_queues(run);
    unknown_flows(run);
    behind_the_flows(run);
    largest_plan(run);
    room_again(run);
}

/// One call on such words, with noise around them and behind them.
fn call(run: &mut Run, state: &[u32], flow: u32) -> bool {
    let past = run.random.index(4);
    let memory = &mut run.on(state, past);
    run.accepts(Call::OfferTrial(flow), memory)
}

/// With so many packets of flow 1 waiting: the generator's offers, and the sonar's one by one and as
/// sets.
fn limits(run: &mut Run, waiting: u32) {
    let state = three_queues([0, waiting, 0]);
    for (flow, accepted) in [(0, waiting <= SONAR), (1, waiting < TRIAL), (3, false)] {
        assert_eq!(call(run, &state, flow), accepted, "{waiting}");
    }
    let memory = &mut run.on(&state, 0);
    assert_eq!(run.accepts(Call::Offer(1), memory), waiting < SONAR, "{waiting}");
    for (list, room) in [(&[1][..], 1), (&[1, 0, 1], 2)] {
        let accepted = sets::call(run, &state, list);
        assert_eq!(accepted, waiting.saturating_add(room) <= SONAR, "{waiting}");
    }
}

/// A flow's own queue decides, and none of the others nor all of them.
fn other_queues(run: &mut Run) {
    let (most, full) = (TRIAL - 1, TRIAL);
    for queues in
        [[100; 3], [most; 3], [full, most, full], [most, full, most], [full, 0, 0], [0, 0, full]]
    {
        let state = three_queues(queues);
        for flow in 0..3 {
            let accepted = call(run, &state, flow);
            assert_eq!(accepted, queues[flow as usize] < full, "flow {flow} of {queues:?}");
        }
    }
}

/// Numbers that aren't a flow's, with room in all queues and in none.
fn unknown_flows(run: &mut Run) {
    for waiting in [0, TRIAL - 1, TRIAL] {
        let state = three_queues([waiting; 3]);
        for number in (0..3).flat_map(|flow| no_flows(flow, 3)) {
            assert!(!call(run, &state, number), "{number}");
        }
    }
}

/// The number of a flow that isn't there, where a long queue would be if it were: a packet's serial is.
fn behind_the_flows(run: &mut Run) {
    let (mut state, many) = (three_queues([0; 3]), 70_000);
    (state[3], state[waiting_at(0) - 1], state[waiting_at(3)]) = (many, many, many);
    (state[waiting_at(3) - 1], state[waiting_at(3) + 1]) = (1, many - 1);
    for by in [Call::Offer(3), Call::OfferTrial(3), Call::Offer(0)] {
        let memory = &mut run.on(&state, 0);
        assert_eq!(run.accepts(by, memory), by == Call::Offer(0));
    }
}

/// The first and the last flows of the largest plan, and numbers with their low bits.
fn largest_plan(run: &mut Run) {
    let mut state = words(&Book::new(random::plan(run.random, 16, 16, 256)));
    for (flow, waiting) in [(0, TRIAL), (1, TRIAL - 1), (254, TRIAL), (255, TRIAL - 1)] {
        state[waiting_at(flow)] = waiting;
    }
    for flow in [0, 1, 2, 254, 255] {
        let accepted = call(run, &state, flow as u32);
        assert_eq!(accepted, state[waiting_at(flow)] < TRIAL, "flow {flow}");
        for number in no_flows(flow, 256) {
            assert!(!call(run, &state, number), "{number}");
        }
    }
}

/// A packet enters and leaves room for one of the generator. Where the sonar takes that room, or more,
/// the generator has none.
fn room_again(run: &mut Run) {
    for (by_sonar, accepted) in [(0, true), (1, false), (2, false)] {
        let memory = &mut run.on(&three_queues([0, 0, TRIAL]), 2);
        assert!(!run.accepts(Call::OfferTrial(2), memory));
        let step = steps::any(run.random, memory, 30, 3);
        run.accepts(step, memory);
        for _ in 0..by_sonar {
            assert!(run.accepts(Call::Offer(2), memory));
        }
        assert_eq!(run.accepts(Call::OfferTrial(2), memory), accepted);
        assert!(!run.accepts(Call::OfferTrial(2), memory));
    }
}

/// Some calls on one state of a plan, each on what the last one left. A flow of it has about as many
/// packets waiting as the generator may leave, and is named often.
pub fn round(run: &mut Run, sx: i64, sy: i64) {
    let flows = random::flow_count(run.random);
    let plan = random::plan(run.random, sx, sy, flows);
    let mut state = random::state(run.random, &plan);
    let often = run.random.index(flows);
    state[waiting_at(often)] = TRIAL + 1 - run.random.index(4) as u32;
    let memory = &mut run.on(&state, 2);
    for _ in 0..8 {
        let any = run.random.index(flows);
        let flow = match run.random.from(0, 9) {
            0 => run.random.pick(&no_flows(any, flows)),
            1 | 2 => any as u32,
            _ => often as u32,
        };
        let call = match run.random.from(0, 9) {
            0 => steps::any(run.random, memory, plan.delivery_words(), flows),
            1 => {
                offer_set(run, memory, &[flow; 2], flows);
                continue;
            }
            2 | 3 => Call::Offer(flow),
            _ => Call::OfferTrial(flow),
        };
        run.accepts(call, memory);
    }
}

/// Lists in which a queue of 255 is reached by each call alone, and by all in turn. The generator may
/// offer again where a packet has entered, the sonar goes on past 255, and then all packets enter while
/// the generator offers to the other flows.
pub fn queues(run: &mut Run) {
    let (plan, flow) = (met_exactly().0, 1);
    let room = plan.delivery_words();
    for calls in [&[By::Offer][..], &[By::Trial], &[By::Set], &By::ALL] {
        let mut list = List::new(run, plan.clone());
        for &by in calls.iter().cycle().take(MOST_TRIAL) {
            assert!(list.offer_by(run, by, &[flow]));
        }
        assert!(!list.offer_by(run, By::Trial, &[flow]));
        list.step(run, room);
        assert!(list.offer_by(run, By::Trial, &[flow]));
        assert!(!list.offer_by(run, By::Trial, &[flow]));
        for by in [By::Offer, By::Set] {
            assert!(list.offer_by(run, by, &[flow]));
            assert!(!list.offer_by(run, By::Trial, &[flow]));
        }
        while list.waiting(flow) > 0 {
            let other = run.random.pick(&[0, 2, 3]);
            list.offer_by(run, By::Trial, &[other]);
            list.step(run, room);
        }
        list.end();
    }
}
