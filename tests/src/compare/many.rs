//! Many steps in one call, beside single ones on the same states: refusals, early ends, the last clock and
//! idle stretches.

use super::orders::three_queues;
use super::periods::waiting_state;
use super::{Memory, Run, recent, steps};
use crate::book::{Book, Bucket, PER_DELIVERY};
use crate::lent::Call;
use crate::plan::{Flow, MOST_PERIOD, Plan};
use crate::random::{self, LONG_PERIODS, Random};
use crate::state::{HEADER, PER_FLOW, judge, waiting_at, words};

const MOST: u32 = u32::MAX;

/// Room for so many steps and a word about it, the last clock, tokens that come about the end of a call, and
/// buckets over long stretches.
pub fn boundaries(run: &mut Run) {
    exact_rooms(run);
    last_clocks(run);
    for period in [1, 2, 3, 10].into_iter().chain(LONG_PERIODS) {
        for count in [0, 1, period - 2, period - 1] {
            tokens(run, period, count.clamp(0, period - 1));
        }
    }
    stretches(run);
}

/// One call on such words, with noise around them and for the deliveries. Gives the clock afterwards and
/// the count of exits, if it is accepted.
fn call(run: &mut Run, state: &[u32], room: usize, cycles: u32) -> Option<(u32, u64)> {
    let memory = &mut run.on(state, 1);
    let steps = steps::many(run.random, memory, room, cycles);
    let exits = run.call(steps, memory).ok()?;
    Some((memory.words()[3], exits))
}

/// One router, from which a packet leaves in every cycle: it runs as many steps as there are whole groups
/// of five words, or as many as it is asked for.
fn exact_rooms(run: &mut Run) {
    let mut state = words(&Book::new(Plan::of(1, 1, &[[0, 0, 0, 0, 1, 1]])));
    state[waiting_at(0)] = 400;
    for room in (5..27).chain(1499..1502) {
        for cycles in [0, 1, 2, 3, 4, 5, 6, 300, MOST] {
            let ran = cycles.min(room as u32 / 5);
            let expected = Some((ran, ran as u64));
            assert_eq!(call(run, &state, room, cycles), expected, "{room}");
        }
    }
}

/// Clocks near the last one, which a step or an idle stretch reaches or would pass.
fn last_clocks(run: &mut Run) {
    for before in [1, 2, 3, 9, 10, 11, 70_000] {
        for waiting in [[0, 0, 0], [1, 0, 2]] {
            let mut state = three_queues(waiting);
            state[3] = MOST - before;
            for cycles in [0, 1, before - 1, before, before + 1, MOST] {
                let called = call(run, &state, 60, cycles);
                let clock = state[3] + cycles.min(before);
                assert_eq!(called.map(|(clock, _)| clock), Some(clock), "{cycles}");
            }
        }
    }
}

/// Two packets wait for a token each. The first comes before the call's end, at the end or behind it, and
/// so does the second; a packet leaves in the second cycle with its token.
fn tokens(run: &mut Run, period: i64, count: i64) {
    let state = waiting_state(period as u32, count as u32);
    let come = [period - count, 2 * period - count];
    let about = come.into_iter().flat_map(|comes| (-2..4).map(move |more| comes + more));
    for cycles in about.chain([MOST as i64]).filter(|&cycles| cycles >= 0) {
        let left = come.into_iter().filter(|comes| comes + 2 <= cycles).count() as u64;
        let called = call(run, &state, 20, cycles as u32);
        assert_eq!(called, Some((cycles as u32, left)), "P {period}, count {count}");
    }
}

/// Flows that don't wait, with any tokens and counts, beside one that does and has none, over stretches
/// of all lengths. In the longest a count and the cycles together pass 32 bits.
fn stretches(run: &mut Run) {
    let periods = [1, 2, 3, 10, 65_535, 65_536, MOST_PERIOD];
    let flow = |period| Flow { xs: 0, ys: 0, xd: 1, yd: 1, period, burst: 3 };
    let flows = periods.iter().flat_map(|&period| [flow(period); 4]).collect();
    let mut book = Book::new(Plan { sx: 2, sy: 2, flows });
    for (f, flow) in book.plan.flows.iter().enumerate() {
        let counts = [0, flow.period / 2, flow.period - 1];
        book.buckets[f] = Bucket { tokens: f as i64 % 4, count: counts[f % 3] };
    }
    let last = book.plan.flows.len() - 4;
    for waiting in [0, 1] {
        let mut state = words(&book);
        state[waiting_at(last)] = waiting;
        for cycles in [0, 1, 2, 9, 10, 11, 255, 65_535, 65_536, 16_777_214, 1 << 31, MOST] {
            let called = call(run, &state, 25, cycles);
            assert_eq!(called.map(|(clock, _)| clock), Some(cycles));
        }
    }
}

/// Idle stretches that end where another flow's packet enters or leaves: one flow waits for two tokens of
/// period 100, one for three of period 7, and one enters at once.
pub fn interrupted(run: &mut Run) {
    let flows = [[0, 0, 1, 1, 100, 2], [1, 1, 1, 1, 7, 1], [0, 1, 1, 0, 50, 1]];
    let mut book = Book::new(Plan::of(2, 2, &flows));
    for (flow, waiting) in [(0, 2), (1, 3), (2, 1)] {
        book.buckets[flow].tokens = flow as i64 / 2;
        (0..waiting).for_each(|_| book.add_waiting_line(flow));
    }
    let entries = [0, 7, 14, 21, 100, 200];
    for cycles in (0..30).chain(95..110).chain(195..210).chain([MOST]) {
        let left = entries.into_iter().zip([2, 0, 0, 0, 2, 2]);
        let left = left.filter(|(entry, flies)| entry + flies < cycles).count() as u64;
        let called = call(run, &words(&book), 60, cycles);
        assert_eq!(called, Some((cycles, left)));
    }
}

/// Some cycles, none, one, a few or many, seldom millions, and room for a few steps that take so many words
/// each, or a word or two too few for one.
pub fn any(random: &mut Random, memory: &mut Memory, least: usize) -> Call {
    let cycles = match random.from(0, 99) {
        0..10 => 0,
        10..20 => 1,
        20..85 => random.from(2, 12),
        85..98 => random.from(13, 200),
        _ => random.from(201, 9_000_000),
    };
    let room = random.pick(&[1, 1, 2, 3, 6]) * least + random.index(12);
    let less = random.index(3);
    steps::many(random, memory, room - less, cycles as u32)
}

/// Calls on a state of a plan, each on what the last one left; rooms that a step just needs; single steps
/// beside many; and the same plan with hardly anything to do.
pub fn round(run: &mut Run, sx: i64, sy: i64) {
    let flows = random::flow_count(run.random);
    let plan = random::plan(run.random, sx, sy, flows);
    let state = random::state(run.random, &plan);
    let memory = &mut run.on(&state, 2);
    for _ in 0..3 {
        let steps = any(run.random, memory, plan.delivery_words());
        run.accepts(steps, memory);
    }
    rooms_about_a_step(run, &state);
    many_and_one_by_one(run, &state);
    let quiet = quiet(run.random, &state);
    let memory = &mut run.on(&quiet, 2);
    for _ in 0..4 {
        let cycles = about_a_token(run.random, memory.words());
        let steps = steps::many(run.random, memory, plan.delivery_words() + 400, cycles);
        run.accepts(steps, memory);
    }
}

/// Room that is just enough for a later step, a word less and a word more.
fn rooms_about_a_step(run: &mut Run, state: &[u32]) {
    let mut book = judge(state).unwrap();
    let before = run.random.from(1, 9) as u32;
    let Ok(exits) = book.steps(usize::MAX, before) else {
        return;
    };
    let enough = book.plan.delivery_words() + PER_DELIVERY * exits.len();
    for room in [enough - 1, enough, enough + 1] {
        let cycles = run.random.pick(&[before, before + 1, before + 2, MOST]);
        call(run, state, room, cycles);
    }
}

/// What many steps leave of the state, of the records that are fed with their deliveries, and what they
/// deliver: the same as single steps of the same engine, fed one by one.
fn many_and_one_by_one(run: &mut Run, state: &[u32]) {
    let plan = judge(state).unwrap().plan;
    let cycles = run.random.from(1, 9) as u32;
    let whole = &mut run.on(state, 1);
    let last = recent::keep(run.random, whole, plan.flows.len());
    let single = &mut whole.clone();
    let room = plan.delivery_words() * cycles as usize;
    let steps = steps::many(run.random, whole, room, cycles);
    let Some(delivered) = kept(run, steps, whole, last) else {
        return;
    };
    let mut delivered_singly = Vec::new();
    for _ in 0..cycles {
        let step = steps::plain(run.random, single, plan.delivery_words());
        delivered_singly.extend(kept(run, step, single, last).unwrap_or_default());
    }
    assert_eq!(whole.state, single.state, "seed {}: many steps, one by one", run.tally.seed);
    assert_eq!(delivered, delivered_singly, "seed {}: many steps, one by one", run.tally.seed);
    assert_eq!(whole.records, single.records, "seed {}: many steps, one by one", run.tally.seed);
}

/// A step and what it delivers, which is fed to the records, if it is accepted.
fn kept(run: &mut Run, step: Call, memory: &mut Memory, last: u32) -> Option<Vec<u32>> {
    let exits = run.call(step, memory).ok()?;
    let delivered = memory.delivery.got()[..PER_DELIVERY * exits as usize].to_vec();
    recent::feed_step(run, memory, exits, last);
    Some(delivered)
}

/// The state with hardly anything to do: seldom a packet in flight, few flows that wait, and these mostly
/// without a token.
fn quiet(random: &mut Random, state: &[u32]) -> Vec<u32> {
    let mut state = state.to_vec();
    let flows = state[2] as usize;
    if random.percent(80) {
        state[HEADER + PER_FLOW * flows..].fill(0);
    }
    for flow in 0..flows {
        let waits = flows <= 4 || random.index(flows) < 4;
        state[waiting_at(flow)] = if waits { random.from(0, 3) as u32 } else { 0 };
        if waits && random.percent(90) {
            state[waiting_at(flow) - 3] = 0;
        }
    }
    state
}

/// Any cycles, or about as many as a flow's next token takes.
fn about_a_token(random: &mut Random, state: &[u32]) -> u32 {
    let at = HEADER + PER_FLOW * random.index(state[2] as usize);
    let (period, count) = (state[at + 4] as i64, state[at + 7] as i64);
    let cycles = match random.from(0, 9) {
        0 => random.from(0, MOST as i64),
        1 => MOST as i64,
        2 => random.from(0, 99),
        3 => random.from(0, 3) * period + random.from(0, 3),
        _ => period - count + random.from(-3, 4),
    };
    cycles.max(0) as u32
}
