//! The words of a state: the refusals 8 and 9.

use super::{offset, refused};
use second::offers::MOST_WAITING;
use second::plan::MOST_PERIOD;
use second::state::{HEADER, PER_FLOW, PER_REGISTER, size};

pub type FlowWords = [u32; PER_FLOW];
pub type Register = [u32; PER_REGISTER];

pub const EMPTY: Register = [0; PER_REGISTER];

/// The words of a state, in their parts.
pub struct State<'a> {
    pub sx: usize,
    pub sy: usize,
    pub clock: u32,
    pub flows: &'a [FlowWords],
    registers: &'a [Register],
}

fn split(words: &[u32]) -> Result<State<'_>, u64> {
    let Some((&[sx, sy, count, clock, ref zeros @ ..], rest)) = words.split_first_chunk::<HEADER>()
    else {
        return Err(refused(8, 0));
    };
    let in_range = (1..=16).contains(&sx) && (1..=16).contains(&sy) && (1..=256).contains(&count);
    if !in_range || *zeros != [0; 4] {
        return Err(refused(9, 0));
    }
    let (sx, sy, count) = (sx as usize, sy as usize, count as usize);
    if words.len() < size(count, sx * sy) {
        return Err(refused(8, 0));
    }
    let (flows, registers) = rest.split_at(PER_FLOW * count);
    let (flows, registers) = (flows.as_chunks().0, &registers.as_chunks().0[..2 * sx * sy]);
    Ok(State { sx, sy, clock, flows, registers })
}

/// The words of a state with so many routers and flows, apart, to be changed.
pub fn parts(
    words: &mut [u32],
    routers: usize,
    flows: usize,
) -> (&mut [u32; HEADER], &mut [FlowWords], &mut [Register]) {
    let (header, rest) = words.split_first_chunk_mut().unwrap();
    let (flows, registers) = rest.split_at_mut(PER_FLOW * flows);
    (header, flows.as_chunks_mut().0, &mut registers.as_chunks_mut().0[..2 * routers])
}

/// The state's parts, if the words form one.
pub fn state(words: &[u32]) -> Result<State<'_>, u64> {
    let state = split(words)?;
    let flows_hold = state.flows.iter().all(|flow| flow_holds(&state, flow));
    if flows_hold && registers_hold(&state) { Ok(state) } else { Err(refused(9, 0)) }
}

fn flow_holds(state: &State, flow: &FlowWords) -> bool {
    let [xs, ys, xd, yd, period, burst, tokens, count, entered, waiting] = *flow;
    let (sx, sy) = (state.sx as u32, state.sy as u32);
    xs < sx
        && xd < sx
        && ys < sy
        && yd < sy
        && (1..=MOST_PERIOD as u32).contains(&period)
        && (1..=255).contains(&burst)
        && tokens <= burst
        && count < period
        && waiting <= MOST_WAITING as u32
        && entered <= state.clock
}

fn registers_hold(state: &State) -> bool {
    let sx = state.sx as u32;
    let (mut row, mut column) = (0, 0);
    for [west, north] in state.registers.as_chunks().0 {
        if !is_empty(west) && !in_place(state, row, column, false, west)
            || !is_empty(north) && !in_place(state, row, column, true, north)
        {
            return false;
        }
        column += 1;
        if column == sx {
            (row, column) = (row + 1, 0);
        }
    }
    true
}

pub fn is_empty(&[number, serial, entry, d]: &Register) -> bool {
    number | serial | entry | d == 0
}

fn in_place(state: &State, row: u32, column: u32, north: bool, register: &Register) -> bool {
    let [number, serial, entry, d] = *register;
    let Some(flow) = state.flows.get((number as usize).wrapping_sub(1)) else {
        return false;
    };
    let (sx, sy) = (state.sx as u32, state.sy as u32);
    let [xs, ys, xd, yd, ..] = *flow;
    let e = state.clock.wrapping_sub(entry);
    let (r, dx, dy) = (offset(ys, row, sy), offset(xs, xd, sx), offset(ys, yd, sy));
    if serial == 0 || serial > flow[8] || entry >= state.clock || r > dy {
        return false;
    }
    if north {
        return column == xd && d < r && e == dx + r + d * sx;
    }
    if r == 0 {
        let j = offset(xs, column, sx);
        return 1 <= j && j <= dx && d == 0 && e == j;
    }
    let j = match offset(xd, column, sx) {
        0 => sx,
        j => j,
    };
    1 <= d && d <= r && e == dx + r + (d - 1) * sx + j
}
