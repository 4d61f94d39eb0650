//! States that no run reaches, damaged words, and lent lengths from 0.

use super::steps::about;
use super::{Memory, Run, Twin, plans, recent, sets, steps};
use crate::book::{Book, PER_DELIVERY};
use crate::lent::Call;
use crate::offers::MOST_WAITING;
use crate::plan::{MOST_BYTES, MOST_PERIOD, Plan, RECORD, TRAILER};
use crate::random::{self, Random};
use crate::state::{HEADER, PER_FLOW, PER_REGISTER, age, places, register_at, waiting_at, words};

/// Every boundary of reset.
pub fn resets(run: &mut Run) {
    for file in plans::at_boundaries() {
        let length = run.random.pick(&[0, 7, 8, 157, 158, 159, 5000]);
        let mut memory = Memory::of_file(&file);
        memory.state = Twin::noise_words(run.random, length);
        run.accepts(Call::Reset, &mut memory);
    }
}

/// Every word of a small state set to each telling value, and the state lent in part: each length from 0 to its
/// size.
pub fn boundaries(run: &mut Run) {
    let small = small_state();
    for length in 0..=small.len() {
        calls_with_past(run, &small[..length], 0);
    }
    for at in 0..small.len() {
        for value in telling_values(small[at]) {
            let mut state = small.clone();
            state[at] = value;
            every_call(run, &state);
            if at < HEADER {
                // What the first eight words say comes before the length of the rest.
                calls_with_past(run, &state[..HEADER], 0);
            }
        }
    }
    full_queue(run, small);
}

/// An offer where one packet more may wait, and one where none may.
fn full_queue(run: &mut Run, mut state: Vec<u32>) {
    for waiting in [MOST_WAITING - 1, MOST_WAITING] {
        state[waiting_at(0)] = waiting as u32;
        let memory = &mut run.on(&state, 0);
        run.accepts(Call::Offer(0), memory);
    }
}

/// A 3 by 3 torus on which packets stand in W of their own row, in W after a deflection and in N,
/// with full and empty buckets, waiting packets and a slow flow.
fn small_state() -> Vec<u32> {
    let flows = [
        [0, 0, 1, 2, 4, 2],
        [0, 2, 1, 2, 3, 1],
        [0, 1, 1, 1, 3, 2],
        [2, 2, 1, 2, 65_535, 255],
        [2, 0, 2, 0, MOST_PERIOD, 1],
    ];
    let mut book = Book::new(Plan::of(3, 3, &flows));
    for cycle in 0..6 {
        for flow in 0..5 {
            if (cycle + flow) % 3 != 0 {
                book.offer(flow).unwrap();
            }
        }
        book.step(45).unwrap();
    }
    words(&book)
}

fn telling_values(word: u32) -> Vec<u32> {
    let near =
        [word.wrapping_sub(1), word.wrapping_add(1), word.wrapping_sub(3), word.wrapping_add(3)];
    let small = [0, 1, 2, 3, 4, 5, 6, 16, 17, 255, 256, 257, 65_534, 65_535, 65_536];
    let past = MOST_PERIOD as u32 + 1;
    let large = [past - 2, past - 1, past, past + 1, 1 << 31, u32::MAX - 1, u32::MAX];
    [&near[..], &small, &large].concat()
}

/// The offers, all forms of step, recent flights and write, each on its own copy of the words, with some
/// noise past them.
pub fn every_call(run: &mut Run, state: &[u32]) {
    let past = run.random.index(5);
    calls_with_past(run, state, past);
}

fn calls_with_past(run: &mut Run, state: &[u32], past: usize) {
    let flows = state.get(2).map_or(1, |&flows| flows.min(300)) as usize;
    let routers = match state {
        [sx, sy, ..] => (*sx as usize).min(17) * (*sy as usize).min(17),
        _ => 1,
    };
    let any = run.random.index(flows + 1) as u32;
    let flow = if run.random.percent(5) { run.random.word() } else { any };
    let room = about(run.random, PER_DELIVERY * routers);
    let told = about(run.random, flows);
    let cycles = run.random.pick(&[0, 1, 1, 2, 9]);
    let steps = [Call::Step, Call::StepReasons, Call::Steps(cycles)];
    for call in [Call::Offer(flow), Call::OfferTrial(flow)].into_iter().chain(steps) {
        let memory = &mut run.on(state, past);
        steps::telling(run.random, memory, room, told);
        run.accepts(call, memory);
    }
    for on_words in [sets::on_words, recent::on_words, write] {
        let memory = &mut run.on(state, past);
        on_words(run, memory, flows);
    }
}

/// Writing with lengths about their limits: the target's, or seldom the longest file's.
fn write(run: &mut Run, memory: &mut Memory, flows: usize) {
    let least = RECORD * flows + TRAILER;
    let near = |random: &mut Random, length: usize| (length + random.index(3)).saturating_sub(1);
    let random = &mut *run.random;
    let notes = if random.percent(3) { near(random, MOST_BYTES - least) } else { random.index(20) };
    let room = if random.percent(10) { random.index(40) } else { near(random, notes + least) };
    let notes = random.bytes(notes);
    run.write(memory, &notes, room);
}

/// Made-up states of a plan on this torus: calls on them, steps in a row with their flights kept, and
/// damaged copies.
pub fn round(run: &mut Run, sx: i64, sy: i64) {
    let flows = random::flow_count(run.random);
    let plan = random::plan(run.random, sx, sy, flows);
    let state = random::state(run.random, &plan);
    every_call(run, &state);
    let memory = &mut run.on(&state, 2);
    let last = recent::keep(run.random, memory, flows);
    for _ in 0..run.random.from(1, 12) {
        let step = steps::any(run.random, memory, plan.delivery_words(), flows);
        if let Ok(exits) = run.call(step, memory) {
            recent::feed_step(run, memory, exits, last);
        }
    }
    for _ in 0..8 {
        let mut damaged = state.clone();
        damage(run.random, &plan, &mut damaged);
        every_call(run, &damaged);
    }
    let mut file = plan.file(&random::notes(run.random, &plan));
    let length = (plan.state_words() + run.random.index(4)).saturating_sub(1);
    let mut memory = Memory::of_file(&file);
    memory.state = Twin::noise_words(run.random, length);
    run.accepts(Call::Reset, &mut memory);
    every_call(run, memory.words());
    plans::damage(run.random, &mut file);
    memory.file = Twin::exact(&file);
    run.accepts(Call::Reset, &mut memory);
}

/// Damages the words in one or two ways. They may still form a state.
fn damage(random: &mut Random, plan: &Plan, state: &mut Vec<u32>) {
    for _ in 0..random.from(1, 2) {
        match random.from(0, 9) {
            0..4 => any_word(random, plan, state),
            4..6 => flow_at_its_ends(random, plan, state),
            _ => packet_nearly_in_place(random, plan, state),
        }
    }
    if random.percent(5) {
        state.truncate(random.index(state.len()));
    }
}

fn any_word(random: &mut Random, plan: &Plan, state: &mut [u32]) {
    let registers = HEADER + PER_FLOW * plan.flows.len();
    let at = match random.from(0, 9) {
        0 => random.index(HEADER),
        1..4 => HEADER + random.index(registers - HEADER),
        4..7 => random.index(state.len()),
        _ => registers + random.index(state.len() - registers),
    };
    let values = telling_values(state[at]);
    state[at] = if random.percent(20) { random.word() } else { random.pick(&values) };
}

/// A flow whose period, burst, tokens, count, entered and waiting are each at an end of its range,
/// or one past it.
fn flow_at_its_ends(random: &mut Random, plan: &Plan, state: &mut [u32]) {
    let at = HEADER + PER_FLOW * random.index(plan.flows.len());
    let past =
        |random: &mut Random, end: u32| if random.percent(15) { end.wrapping_add(1) } else { end };
    let most = MOST_PERIOD as u32;
    let period: u32 = random.pick(&[0, 1, 2, 65_535, 65_536, most, most + 1]);
    let burst = random.pick(&[0, 1, 2, 255, 256]);
    let tokens = random.pick(&[0, burst]);
    let count = if random.percent(50) { 0 } else { period.wrapping_sub(1) };
    let waiting = if random.percent(5) { 65_535 } else { 1 };
    let ends = [tokens, count, state[3], waiting].map(|end| past(random, end));
    state[at + 4..at + 6].copy_from_slice(&[period, burst]);
    state[at + 6..at + 10].copy_from_slice(&ends);
}

/// A packet with the right entry cycle for its place, whether or not it may be there: rows, columns,
/// deflections and serials in their ranges or just out of them.
fn packet_nearly_in_place(random: &mut Random, plan: &Plan, state: &mut [u32]) {
    let places = places(plan);
    let place = places[random.index(places.len())];
    let f = random.index(plan.flows.len());
    let r = (place.router.row - plan.flows[f].ys).rem_euclid(plan.sy);
    let d = random.from(0, r + 1);
    let e = age(plan, f, place, d);
    let entered = state[HEADER + PER_FLOW * f + 8];
    let serial = random.pick(&[0, 1, entered, entered, entered, entered.wrapping_add(1)]);
    let entry = state[3].wrapping_sub(e as u32);
    let at = register_at(plan, place);
    state[at..at + PER_REGISTER].copy_from_slice(&[f as u32 + 1, serial, entry, d as u32]);
}
