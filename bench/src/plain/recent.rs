//! Recent flights: the refusals 16, 17 and 12, and a flow's record.

use super::state::{State, state};
use super::{offset, refused};
use second::book::Delivery;
use second::recent::{ROOM, Record};

/// Tests all deliveries, then feeds them.
pub fn recent(words: &[u32], deliveries: &[u32], records: &mut [Record], last: u32) -> u64 {
    let state = match state(words) {
        Ok(state) => state,
        Err(no) => return no,
    };
    if records.len() < state.flows.len() {
        return refused(16, 0);
    }
    let last = last as usize;
    if !(1..=ROOM).contains(&last) {
        return refused(17, 0);
    }
    let groups = deliveries.as_chunks().0;
    if !groups.iter().all(|group| is_delivery(&state, group)) {
        return refused(12, 0);
    }
    for &[flow, _, entry, exit, d] in groups {
        keep(&mut records[flow as usize], exit - entry + 2, d, last);
    }
    0
}

fn is_delivery(state: &State, &[flow, _, entry, exit, d]: &Delivery) -> bool {
    let Some(&[xs, ys, xd, yd, ..]) = state.flows.get(flow as usize) else {
        return false;
    };
    let (sx, sy) = (state.sx as u32, state.sy as u32);
    let (dx, dy) = (offset(xs, xd, sx), offset(ys, yd, sy));
    d <= dy && entry <= exit && exit - entry == dx + dy + d * sx
}

/// Keeps a delivery behind the others, in the place of the oldest if as many as may be are held.
fn keep(record: &mut Record, flight: u32, d: u32, last: usize) {
    let mut held = record.held as usize;
    if held > last {
        held = 0;
    }
    if held == last {
        record.flights.copy_within(1..last, 0);
        record.deflections.copy_within(1..last, 0);
        held -= 1;
    }
    (record.flights[held], record.deflections[held]) = (flight, d);
    record.flights[held + 1..].fill(0);
    record.deflections[held + 1..].fill(0);
    record.held = held as u32 + 1;
    record.longest = record.flights.into_iter().fold(0, u32::max);
    record.most = record.deflections.into_iter().fold(0, u32::max);
}
