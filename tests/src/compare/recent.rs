//! Recent flights, one call at a time, on any memory: answer and records as U1 states them.

use super::deliveries::{any_good, good, good_of, list, nearly};
use super::twin::GUARD;
use super::{Memory, Run, Twin};
use crate::book::{Book, PER_DELIVERY};
use crate::lent::Call;
use crate::plan::Plan;
use crate::random::{self, Random};
use crate::recent::{ROOM, Record, groups, holding};
use crate::state::words;

/// The deliveries, fed to the memory's records: are they to be accepted?
fn feed(run: &mut Run, memory: &mut Memory, deliveries: &[u32], last: u32) -> bool {
    memory.deliveries = Twin::words(run.random, deliveries, 0);
    run.accepts(Call::Recent(last), memory)
}

/// Records of so many flows, for a run. Gives how many deliveries they keep at most.
pub fn keep(random: &mut Random, memory: &mut Memory, flows: usize) -> u32 {
    let (last, past) = (random.from(1, 16) as u32, random.index(4));
    memory.records = records(random, flows + past, last);
    last
}

/// What a step delivered, and a few of the words behind it, is fed to the records on the state that the step
/// left. It is accepted.
pub fn feed_step(run: &mut Run, memory: &mut Memory, exits: u64, last: u32) {
    memory.deliveries = std::mem::take(&mut memory.delivery);
    let (words, lent) = (PER_DELIVERY * exits as usize, &mut memory.deliveries.lent);
    let past = run.random.index(5).min(lent.len() - words);
    lent.end = lent.start + words + past;
    let accepted = run.accepts(Call::Recent(last), memory);
    assert!(accepted, "seed {}: a step's own deliveries are refused", run.tally.seed);
}

/// So many lent records, with more around them.
pub fn records(random: &mut Random, count: usize, last: u32) -> Twin<Record> {
    Twin::new((0..count + 2 * GUARD).map(|_| record(random, last)).collect())
}

/// A record that holds some deliveries, or noise that says it holds none, a few, as many as it may,
/// one more or far too many.
fn record(random: &mut Random, last: u32) -> Record {
    let small = [(); ROOM].map(|()| (random.from(2, 300) as u32, random.from(0, 15) as u32));
    if random.percent(30) {
        return holding(&small[..random.index(ROOM + 1)]);
    }
    let noise = random.word();
    let near = [0, 1, last.wrapping_sub(1), last, last.wrapping_add(1), 15, 16, 17, noise];
    let held = random.pick(&near);
    let [flights, deflections] = [(); 2].map(|()| [(); ROOM].map(|()| random.word()));
    Record { held, longest: random.word(), most: random.word(), flights, deflections }
}

fn any_last(random: &mut Random) -> u32 {
    match random.from(0, 19) {
        0 => random.pick(&[0, 17, 18, 256, 1 << 31, u32::MAX]),
        1 => random.word(),
        2..6 => random.pick(&[1, 2, 15, 16]),
        _ => random.from(1, 16) as u32,
    }
}

/// What nearly is a delivery in every place of a list, and full records.
pub fn boundaries(run: &mut Run) {
    let flows = [
        [0, 0, 2, 2, 9, 1],
        [4, 2, 0, 0, 9, 1],
        [3, 1, 3, 1, 9, 1],
        [1, 0, 1, 2, 9, 1],
        [0, 0, 4, 1, 9, 1],
    ];
    let plan = Plan::of(5, 3, &flows);
    for f in 0..plan.flows.len() {
        for group in nearly(&plan, f).into_iter().chain(good(&plan, f)) {
            in_every_place(run, &plan, group);
        }
        for last in 1..=ROOM as u32 {
            filled(run, &plan, f, last);
        }
    }
}

/// One call on such words, deliveries and so many records, with noise around each.
fn call(run: &mut Run, state: &[u32], list: &[u32], count: usize, last: u32) {
    let memory = &mut run.on(state, 0);
    memory.records = records(run.random, count, last);
    feed(run, memory, list, last);
}

/// The group alone, in front of others, between them and behind them, and as a broken last one.
fn in_every_place(run: &mut Run, plan: &Plan, group: [u32; 5]) {
    let state = words(&Book::new(plan.clone()));
    let others = [(); 3].map(|()| any_good(run.random, plan)).concat();
    let (front, back) = others.split_at(5);
    let (first, middle, behind) =
        ([&group, &others[..]], [front, &group, back], [&others[..], &group]);
    let mut lists = vec![group.to_vec(), first.concat(), middle.concat(), behind.concat()];
    lists.extend((1..5).map(|length| [&others, &group[..length]].concat()));
    lists.extend((1..5).map(|length| group[..length].to_vec()));
    for list in lists {
        let last = run.random.from(1, 16) as u32;
        call(run, &state, &list, plan.flows.len() + 1, last);
    }
}

/// So many deliveries of one flow that the first ones go, all at once and one by one.
fn filled(run: &mut Run, plan: &Plan, f: usize, last: u32) {
    let memory = &mut run.on(&words(&Book::new(plan.clone())), 0);
    let list: Vec<_> = (0..3 * ROOM).flat_map(|_| good_of(run.random, plan, f)).collect();
    memory.records = records(run.random, plan.flows.len(), last);
    all_and_one_by_one(run, memory, &list, last);
}

/// Feeding all groups at once leaves what feeding them one by one does.
fn all_and_one_by_one(run: &mut Run, whole: &mut Memory, list: &[u32], last: u32) {
    let single = &mut whole.clone();
    if !feed(run, whole, list, last) {
        return;
    }
    for group in groups(list) {
        assert!(feed(run, single, &group, last), "expected to be taken alone");
    }
    assert_eq!(whole.records, single.records, "seed {}: all at once, one by one", run.tally.seed);
}

/// Some calls on one state of a plan, the records of one being those of the next.
pub fn round(run: &mut Run, sx: i64, sy: i64) {
    let flows = random::flow_count(run.random);
    let plan = random::plan(run.random, sx, sy, flows);
    let state = random::state(run.random, &plan);
    let last = any_last(run.random);
    let fewer = run.random.percent(10) as usize;
    let count = (flows + run.random.index(4)).saturating_sub(fewer);
    let memory = &mut run.on(&state, 2);
    memory.records = records(run.random, count, last);
    for _ in 0..3 {
        let list = list(run.random, &plan);
        let last = if run.random.percent(60) { last } else { any_last(run.random) };
        feed(run, memory, &list, last);
    }
    let (list, last) = (list(run.random, &plan), run.random.from(1, 16) as u32);
    all_and_one_by_one(run, memory, &list, last);
}

/// A call on words that may form no state: noise for deliveries, or what would be none, and about as
/// many records as the words say there are flows.
pub fn on_words(run: &mut Run, memory: &mut Memory, flows: usize) {
    let (length, last) = (run.random.pick(&[0, 0, 0, 3, 5, 11]), any_last(run.random));
    let list = run.random.words(length);
    let count = (flows + run.random.index(3)).saturating_sub(1);
    memory.records = records(run.random, count, last);
    feed(run, memory, &list, last);
}
