//! One offer, up to a limit, and a set of offers: one pass that adds, and one that takes back on a
//! refusal.

use super::refused;
use super::state::{FlowWords, State, parts, state};
use second::offers::MOST_WAITING;

/// The words of the flows, if the words form a state.
fn flows(words: &mut [u32]) -> Result<&mut [FlowWords], u64> {
    let State { sx, sy, flows, .. } = state(words)?;
    let (routers, count) = (sx * sy, flows.len());
    Ok(parts(words, routers, count).1)
}

/// Adds a packet of a flow, but for this number where so many wait.
pub fn offer(words: &mut [u32], flow: u32, most: u32, number: u64) -> u64 {
    let flows = match flows(words) {
        Ok(flows) => flows,
        Err(no) => return no,
    };
    match flows.get_mut(flow as usize) {
        None => refused(12, 0),
        Some(flow) if flow[9] >= most => refused(number, 0),
        Some(flow) => {
            flow[9] += 1;
            0
        }
    }
}

pub fn offer_set(words: &mut [u32], list: &[u32]) -> u64 {
    let flows = match flows(words) {
        Ok(flows) => flows,
        Err(no) => return no,
    };
    for (position, &flow) in list.iter().enumerate() {
        let number = match flows.get_mut(flow as usize) {
            None => 12,
            Some(flow) if flow[9] == MOST_WAITING as u32 => 13,
            Some(flow) => {
                flow[9] += 1;
                continue;
            }
        };
        take_back(flows, &list[..position]);
        return refused(number, position);
    }
    0
}

fn take_back(flows: &mut [FlowWords], list: &[u32]) {
    for &flow in list {
        flows[flow as usize][9] -= 1;
    }
}
