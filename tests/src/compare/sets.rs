//! Sets of offers, one call at a time, on any memory: answer and state as U4 states them.

use super::orders::three_queues;
use super::twin::GUARD;
use super::{Memory, Run, Twin, no_flows};
use crate::book::Book;
use crate::lent::Call;
use crate::offers::MOST_WAITING;
use crate::random::{self, Random};
use crate::state::{waiting_at, words};

/// The list, to be lent with more entries around it. Most of these are flows too, so that a packet
/// more is added if one of them is read.
pub fn lent(random: &mut Random, list: &[u32], flows: usize) -> Twin<u32> {
    let mut whole: Vec<u32> =
        (0..list.len() + 2 * GUARD).map(|_| random.index(flows + 1) as u32).collect();
    whole[GUARD..GUARD + list.len()].copy_from_slice(list);
    Twin::new(whole)
}

/// A list for so many flows, of none, few or many entries: of all the flows, of some or of one alone.
/// Seldom one or two entries are no flows.
pub fn list(random: &mut Random, flows: usize) -> Vec<u32> {
    let most = random.pick(&[0, 1, 3, 12, 300]);
    let length = random.from(0, most);
    let named = 1 + random.index(flows);
    let first = random.index(flows - named + 1);
    let mut list: Vec<u32> = (0..length).map(|_| (first + random.index(named)) as u32).collect();
    if random.percent(20) && !list.is_empty() {
        for _ in 0..random.from(1, 2) {
            let (at, flow) = (random.index(list.len()), random.index(flows));
            list[at] = random.pick(&no_flows(flow, flows));
        }
    }
    list
}

/// The set of these, offered to so many flows: is it to be accepted?
pub fn offer_set(run: &mut Run, memory: &mut Memory, list: &[u32], flows: usize) -> bool {
    memory.list = lent(run.random, list, flows);
    run.accepts(Call::OfferSet, memory)
}

/// Numbers that are no flow's, at every position, and full queues.
pub fn boundaries(run: &mut Run) {
    let nearly_full = |room: usize| three_queues([0, (MOST_WAITING - room) as u32, 0]);
    for number in no_flows(2, 3) {
        in_every_place(run, &three_queues([0; 3]), number);
    }
    for room in 0..4 {
        filled(run, &nearly_full(room), room);
    }
}

/// One call on such words and such a list for three flows, with noise around each.
pub fn call(run: &mut Run, state: &[u32], list: &[u32]) -> bool {
    let memory = &mut run.on(state, 0);
    offer_set(run, memory, list, 3)
}

/// The number at every position of lists of flows, alone and with another one behind.
fn in_every_place(run: &mut Run, state: &[u32], number: u32) {
    for length in 1..6 {
        for at in 0..length {
            let mut list: Vec<u32> = (0..length).map(|_| run.random.index(3) as u32).collect();
            list[at] = number;
            call(run, state, &list);
            list[length - 1] = number;
            call(run, state, &list);
        }
    }
}

/// Lists that fill the room of flow 1 and go on past it: flow 1 alone, and with others between.
fn filled(run: &mut Run, state: &[u32], room: usize) {
    for times in 0..room + 3 {
        let alone = vec![1; times];
        let between: Vec<u32> = alone.iter().flat_map(|&flow| [0, flow, 2]).collect();
        for list in [&alone, &between] {
            assert_eq!(call(run, state, list), times <= room, "{times} into {room}");
        }
        all_and_one_by_one(run, state, &between, 3);
    }
}

/// As many entries as are taken of two flows, in turn; and lists that are refused at their end, past
/// position 65,535.
pub fn long_lists(run: &mut Run) {
    let state = &three_queues([0; 3]);
    let alone = vec![1; MOST_WAITING + 1];
    let mut in_turn = [2, 1].repeat(MOST_WAITING);
    assert!(call(run, state, &in_turn));
    for last in [2, 1, 3] {
        in_turn.push(last);
        assert!(!call(run, state, &in_turn));
        in_turn.pop();
    }
    assert!(!call(run, state, &alone));
}

/// One entry more than the queues of all flows of the largest plan take: it is refused, and ends.
pub fn past_all_queues(run: &mut Run) {
    let plan = random::plan(run.random, 16, 16, 256);
    let memory = &mut run.on(&words(&Book::new(plan)), 0);
    let mut list = (0..256).collect::<Vec<u32>>().repeat(MOST_WAITING);
    list.push(255);
    assert!(!offer_set(run, memory, &list, 256));
}

/// An accepted set leaves what its single offers leave, one after the other.
fn all_and_one_by_one(run: &mut Run, state: &[u32], list: &[u32], flows: usize) {
    let whole = &mut run.on(state, 0);
    let single = &mut whole.clone();
    if !offer_set(run, whole, list, flows) {
        return;
    }
    for &flow in list {
        run.accepts(Call::Offer(flow), single);
    }
    assert_eq!(whole.state, single.state, "seed {}: all at once, one by one", run.tally.seed);
}

/// Some calls on one state of a plan, each on what the last one left. Now and then a flow of it has
/// little room, and is named often.
pub fn round(run: &mut Run, sx: i64, sy: i64) {
    let flows = random::flow_count(run.random);
    let plan = random::plan(run.random, sx, sy, flows);
    let mut state = random::state(run.random, &plan);
    let (flow, often) = (run.random.index(flows), if run.random.percent(15) { 50 } else { 0 });
    if often > 0 {
        state[waiting_at(flow)] = (MOST_WAITING - run.random.index(8)) as u32;
    }
    let any_list = |random: &mut Random| {
        let mut list = list(random, flows);
        let named = list.iter_mut().filter(|_| random.percent(often));
        named.for_each(|entry| *entry = flow as u32);
        list
    };
    let memory = &mut run.on(&state, 2);
    for _ in 0..3 {
        let list = any_list(run.random);
        offer_set(run, memory, &list, flows);
    }
    let mut list = any_list(run.random);
    list.truncate(12);
    all_and_one_by_one(run, &state, &list, flows);
}

/// A call on words that may form no state, for about as many flows as the words say there are.
pub fn on_words(run: &mut Run, memory: &mut Memory, flows: usize) {
    let flows = flows.max(1);
    let list = list(run.random, flows);
    offer_set(run, memory, &list, flows);
}
