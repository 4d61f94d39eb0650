//! What the words and bytes that are lent say, whether or not they form a state or a plan.

use crate::lent::{Call, Lent};
use crate::offers::MOST_WAITING;
use crate::plan::{RECORD, TRAILER};
use crate::recent::{groups, is_of_plan};
use crate::state::{HEADER, judge, size, waiting_at};
use std::collections::HashMap;

/// The trailer's numbers, whatever its tag: start, count, Sx and Sy.
pub fn trailer(lent: &Lent) -> Option<[i64; 4]> {
    let &[s0, s1, s2, s3, c0, c1, sx, sy, ..] = lent.file.last_chunk::<TRAILER>()?;
    let start = u32::from_le_bytes([s0, s1, s2, s3]);
    Some([start.into(), u16::from_le_bytes([c0, c1]).into(), sx.into(), sy.into()])
}

/// How far a number is from being below or above these ends.
pub fn within(number: i64, least: i64, most: i64) -> i64 {
    (number - least).min(most - number)
}

/// The flows' records, as far as they are there.
fn records<'a>(lent: &'a Lent) -> Option<impl Iterator<Item = &'a [u8]>> {
    let [start, count, ..] = trailer(lent)?;
    let body = &lent.file[..lent.file.len() - TRAILER];
    Some(body.get(start as usize..)?.chunks_exact(RECORD).take(count as usize))
}

/// The first flow's record of which this holds, on a torus of this size.
pub fn first_flow(lent: &Lent, holds: fn(&[u8], [i64; 2]) -> bool) -> Option<usize> {
    let [.., sx, sy] = trailer(lent)?;
    records(lent)?.position(|record| holds(record, [sx, sy]))
}

pub fn first_off_the_torus(lent: &Lent) -> Option<usize> {
    first_flow(lent, |record, size| (0..4).any(|at| record[at] as i64 >= size[at % 2]))
}

pub fn first_without_rate(lent: &Lent) -> Option<usize> {
    first_flow(lent, |record, _| [record[4], record[5], record[7]] == [0; 3] || record[6] == 0)
}

pub fn has_another_start(lent: &Lent) -> bool {
    let length = lent.file.len() as i64;
    let end = |[start, count, ..]: [i64; 4]| start + RECORD as i64 * count + TRAILER as i64;
    trailer(lent).is_some_and(|numbers| end(numbers) != length)
}

/// The flows and routers that the first words say there are, where they say more than any state has too.
pub fn said(lent: &Lent) -> Option<(usize, usize)> {
    let [sx, sy, flows] = lent.state.first_chunk()?.map(|word| word as usize);
    Some((flows, sx.saturating_mul(sy).min(1 << 32)))
}

pub fn flows(lent: &Lent) -> Option<usize> {
    said(lent).map(|(flows, _)| flows)
}

/// The first words, as far as they are lent, are out of their ranges.
pub fn has_no_header(lent: &Lent) -> bool {
    let ends = [(1, 16), (1, 16), (1, 256), (0, u32::MAX), (0, 0), (0, 0), (0, 0), (0, 0)];
    lent.state.iter().zip(ends).any(|(word, (least, most))| !(least..=most).contains(word))
}

/// The words behind the first eight, with zeros for those that aren't lent, form no state.
pub fn has_no_rest(lent: &Lent) -> bool {
    if lent.state.len() < HEADER || has_no_header(lent) {
        return false;
    }
    let mut words = lent.state.to_vec();
    words.resize(words.len().max(state_words(lent).unwrap()), 0);
    judge(&words).is_err()
}

pub fn state_words(lent: &Lent) -> Option<usize> {
    said(lent).map(|(flows, routers)| size(flows, routers))
}

/// The flow that a call names.
pub fn named(lent: &Lent) -> Option<usize> {
    match lent.call {
        Call::Offer(flow) | Call::OfferTrial(flow) => Some(flow as usize),
        Call::Flight(flow) | Call::Window(flow) | Call::Burst(flow, _) => Some(flow as usize),
        _ => None,
    }
}

/// How far a burst's packets are from being none, or more than σ of the flow that it names, or than any σ where there
/// is no such flow.
pub fn room_in_bucket(lent: &Lent) -> Option<i64> {
    let Call::Burst(flow, packets) = lent.call else {
        return None;
    };
    let record = records(lent).and_then(|mut records| records.nth(flow as usize));
    Some(within(packets.into(), 1, record.map_or(255, |record| record[6]).into()))
}

/// How many packets may wait in the flow that a call names, beside those that do.
pub fn room(lent: &Lent, most: usize) -> Option<i64> {
    let waiting = *lent.state.get(waiting_at(named(lent)?))?;
    Some(most as i64 - 1 - waiting as i64)
}

/// The first entry of a set that is no flow's number, and the first of a known flow that is full with the entries
/// before it.
pub fn firsts_in_set(lent: &Lent) -> [Option<usize>; 2] {
    let flows = flows(lent).unwrap_or(0);
    let mut added = HashMap::new();
    let is_full = |&flow: &u32| {
        let waiting = lent.state.get(waiting_at(flow as usize)).copied().unwrap_or(0) as usize;
        let before = added.entry(flow).or_insert(0);
        *before += 1;
        (flow as usize) < flows && waiting + *before > MOST_WAITING
    };
    let full = lent.list.iter().position(is_full);
    [lent.list.iter().position(|&flow| flow as usize >= flows), full]
}

/// A delivery that isn't one of the plan.
pub fn has_a_strange_delivery(lent: &Lent) -> bool {
    let is_known = |group: &[u32; 5]| flows(lent).is_some_and(|flows| (group[0] as usize) < flows);
    let groups = groups(lent.deliveries);
    match judge(lent.state) {
        Ok(book) => !groups.iter().all(|&group| is_of_plan(&book.plan, group)),
        Err(_) => lent.state.len() > 2 && !groups.iter().all(is_known),
    }
}

pub fn file_bytes(lent: &Lent) -> Option<usize> {
    Some(lent.notes.len() + RECORD * flows(lent)? + TRAILER)
}
