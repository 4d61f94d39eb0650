//! Reset and write: a plan file to a state and back.

use super::plan::{numbers, read};
use super::refused;
use super::state::{EMPTY, parts, state};
use second::plan::{MOST_BYTES, RECORD, TRAILER};
use second::state::size;

pub fn reset(file: &[u8], words: &mut [u32]) -> u64 {
    let file = match read(file) {
        Ok(file) => file,
        Err(no) => return no,
    };
    let count = file.records.len();
    let routers = (file.sx * file.sy) as usize;
    if words.len() < size(count, routers) {
        return refused(8, 0);
    }
    let (header, flows, registers) = parts(words, routers, count);
    *header = [file.sx, file.sy, count as u32, 0, 0, 0, 0, 0];
    for (flow, record) in flows.iter_mut().zip(file.records) {
        let [xs, ys, xd, yd, period, burst] = numbers(record);
        *flow = [xs, ys, xd, yd, period, burst, burst, 0, 0, 0];
    }
    registers.fill(EMPTY);
    0
}

pub fn write(words: &[u32], notes: &[u8], target: &mut [u8]) -> u64 {
    let state = match state(words) {
        Ok(state) => state,
        Err(no) => return no,
    };
    let start = notes.len();
    let trailer = start + RECORD * state.flows.len();
    let length = trailer + TRAILER;
    if length > MOST_BYTES {
        return refused(1, 0);
    }
    let Some(target) = target.get_mut(..length) else {
        return refused(15, 0);
    };
    target[..start].copy_from_slice(notes);
    let records = target[start..trailer].as_chunks_mut().0;
    for (record, flow) in records.iter_mut().zip(state.flows) {
        let [xs, ys, xd, yd, _, burst] = [0, 1, 2, 3, 4, 5].map(|i| flow[i] as u8);
        let [p0, p1, p2, _] = flow[4].to_le_bytes();
        *record = [xs, ys, xd, yd, p0, p1, burst, p2];
    }
    let count = state.flows.len() as u16;
    target[trailer..trailer + 4].copy_from_slice(&(start as u32).to_le_bytes());
    target[trailer + 4..trailer + 6].copy_from_slice(&count.to_le_bytes());
    target[trailer + 6..trailer + 8].copy_from_slice(&[state.sx as u8, state.sy as u8]);
    target[trailer + 8..].copy_from_slice(b"HRTP");
    length as u64
}
