//! Each refusal of each call on a state alone, and in front of and behind each other one: words that form no state
//! or are too few, numbers about their limits, and memories that are too short, long enough or longer.

use super::deliveries::{good, of_no_flow};
use super::{Memory, Run, Twin, recent, sets};
use crate::book::Book;
use crate::lent::{Call, Part};
use crate::offers::{MOST_TRIAL, MOST_WAITING};
use crate::plan::{MOST_BYTES, Plan};
use crate::random::Random;
use crate::state::{HEADER, waiting_at, words};

/// Three flows on 3 by 2.
fn plan() -> Plan {
    Plan::of(3, 2, &[[0, 0, 2, 1, 9, 1], [1, 1, 1, 1, 9, 1], [2, 0, 2, 1, 9, 1]])
}

/// Their state after reset, with so many packets of each waiting.
pub fn three_queues(waiting: [u32; 3]) -> Vec<u32> {
    let mut state = words(&Book::new(plan()));
    for (flow, waiting) in waiting.into_iter().enumerate() {
        state[waiting_at(flow)] = waiting;
    }
    state
}

/// A state of three flows or more, and what isn't one: cut short, with a word past its range, or both.
fn whole_and_broken(state: &[u32]) -> Vec<Vec<u32>> {
    let (size, tokens) = (state.len(), HEADER + 6);
    let cut = [0, 7, HEADER, size - 1].map(|length| state[..length].to_vec());
    let words = [0, 7, HEADER, tokens, waiting_at(1), waiting_at(2), size - 1];
    let changed = words.map(|at| {
        let mut state = state.to_vec();
        state[at] = u32::MAX;
        state
    });
    let both = [&changed[0][..7], &changed[0][..HEADER], &changed[2][..size - 1]];
    [&[state.to_vec()][..], &cut, &changed, &both.map(<[u32]>::to_vec)].concat()
}

/// The calls on a state, with numbers about their limits.
fn calls() -> Vec<Call> {
    let flows = [0, 1, 2, 3, 4, u32::MAX];
    let mut calls = vec![Call::OfferSet, Call::Step, Call::StepReasons, Call::Write];
    calls.extend(flows.map(Call::Offer));
    calls.extend(flows.map(Call::OfferTrial));
    calls.extend([0, 1, 3, u32::MAX].map(Call::Steps));
    calls.extend([0, 1, 16, 17, u32::MAX].map(Call::Recent));
    calls
}

/// Every call, in the last cycle too, where the queues are about the generator's limit; sets where flow 1 has room for
/// one packet of the sonar, and single offers where it has none.
pub fn orders(run: &mut Run) {
    let [trial, sonar] = [MOST_TRIAL, MOST_WAITING].map(|most| most as u32);
    let (all, offers) = (|_: &Call| true, |call: &Call| call.takes() == [Part::State]);
    for clock in [7, u32::MAX - 1, u32::MAX] {
        on_states(run, [trial - 1, trial, trial + 1], clock, all);
    }
    on_states(run, [0, sonar - 1, 0], 7, |&call| call == Call::OfferSet);
    on_states(run, [0, sonar, 0], 7, offers);
}

/// These calls with each choice of their memories.
fn on_states(run: &mut Run, queues: [u32; 3], clock: u32, which: fn(&Call) -> bool) {
    let mut state = three_queues(queues);
    state[3] = clock;
    for state in whole_and_broken(&state) {
        for call in calls().into_iter().filter(which) {
            let memory = run.on(&state, 0);
            with_memories(run, call, call.takes(), memory);
        }
    }
}

/// The call with each choice of these memories.
fn with_memories(run: &mut Run, call: Call, parts: &[Part], mut memory: Memory) {
    let [part, others @ ..] = parts else {
        run.accepts(call, &mut memory);
        return;
    };
    for choice in 0.. {
        let mut memory = memory.clone();
        if choose(run.random, *part, choice, &mut memory).is_none() {
            return;
        }
        with_memories(run, call, others, memory);
    }
}

/// Sets with packets of flow 1, and with numbers that are no flow's.
const SETS: [&[u32]; 10] = [
    &[],
    &[0],
    &[1],
    &[3],
    &[1, 1],
    &[0, 3],
    &[1, 1, 3],
    &[1, 3, 1],
    &[3, 1, 1],
    &[0, 1, 2, 1, 3, 1],
];

/// Chooses a memory, if there are so many choices.
fn choose(random: &mut Random, part: Part, choice: usize, memory: &mut Memory) -> Option<()> {
    let plan = plan();
    let most = MOST_BYTES - plan.file_bytes(0);
    match part {
        Part::List => memory.list = sets::lent(random, SETS.get(choice)?, 3),
        Part::Delivery => {
            memory.delivery = Twin::noise_words(random, *[0, 3, 29, 30, 31, 99].get(choice)?);
        }
        Part::Reasons => {
            memory.reasons = Twin::noise_words(random, *[0, 1, 2, 3, 4, 99].get(choice)?);
        }
        Part::Deliveries => {
            let (right, wrong) = (good(&plan, 0)[1].to_vec(), of_no_flow(&plan, 2).to_vec());
            let (first, last) = ([&right[..], &wrong].concat(), [&wrong[..], &right].concat());
            let lists = [&[][..], &right, &wrong, &first, &last, &wrong[..4]];
            memory.deliveries = Twin::words(random, lists.get(choice)?, 0);
        }
        Part::Records => memory.records = recent::records(random, *[0, 2, 3, 5].get(choice)?, 16),
        Part::Notes => memory.notes = Twin::exact(&vec![7; *[0, most, most + 1].get(choice)?]),
        Part::Target => {
            let length = plan.file_bytes(memory.notes.lent.len());
            let lengths = [0, length - 1, length, length + 1];
            memory.target = Twin::noise_bytes(random, *lengths.get(choice)?);
        }
        _ if choice > 0 => return None,
        _ => {}
    }
    Some(())
}
