//! Recent flights per flow, by U1: a flow's record holds the flight and D of its last deliveries.

use crate::plan::Plan;

/// How many deliveries a record has room for.
pub const ROOM: usize = 16;

/// A flow's record, word by word.
#[repr(C)]
#[derive(Clone, Copy, Debug, Default, PartialEq, Eq)]
pub struct Record {
    pub held: u32,
    pub longest: u32,
    pub most: u32,
    pub flights: [u32; ROOM],
    pub deflections: [u32; ROOM],
}

/// A delivery that is kept: its flight and D.
pub type Kept = (u32, u32);

/// The whole five-word groups; a broken last one isn't read.
pub fn groups(deliveries: &[u32]) -> Vec<[u32; 5]> {
    deliveries.chunks_exact(5).map(|group| group.try_into().unwrap()).collect()
}

/// Flight is exit − entry + 2, over the integers.
pub fn flight([_, _, entry, exit, _]: [u32; 5]) -> i64 {
    exit as i64 - entry as i64 + 2
}

/// Is it of a flow in the plan, with D at most ΔY and the flight ΔX+ΔY+D×Sx+2?
pub fn is_of_plan(plan: &Plan, group: [u32; 5]) -> bool {
    let (flow, d) = (group[0] as usize, group[4] as i64);
    flow < plan.flows.len() && d <= plan.dy(flow) && flight(group) == plan.flight(flow, d)
}

/// Feeds one delivery of the plan to its flow's record.
pub fn feed(records: &mut [Record], group: [u32; 5], last: usize) {
    let record = &mut records[group[0] as usize];
    let mut kept = held(record, last);
    kept.push((flight(group) as u32, group[4]));
    *record = holding(&kept[kept.len().saturating_sub(last)..]);
}

/// What a record holds, oldest first: nothing if it says that it holds more than `last`.
pub fn held(record: &Record, last: usize) -> Vec<Kept> {
    let kept = record.flights.into_iter().zip(record.deflections);
    let count = record.held as usize;
    kept.take(if count > last { 0 } else { count }).collect()
}

/// The record that holds these: zeros behind, the longest flight and the most deflections among them.
pub fn holding(kept: &[Kept]) -> Record {
    let mut record = Record { held: kept.len() as u32, ..Record::default() };
    for (at, &(flight, d)) in kept.iter().enumerate() {
        (record.flights[at], record.deflections[at]) = (flight, d);
    }
    record.longest = kept.iter().map(|kept| kept.0).max().unwrap_or(0);
    record.most = kept.iter().map(|kept| kept.1).max().unwrap_or(0);
    record
}
