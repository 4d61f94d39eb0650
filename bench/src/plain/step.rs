//! A cycle: one walk over the flows, which decides who enters, and one over the routers; and the calls
//! of one cycle, plain and with reasons.

use super::state::{EMPTY, FlowWords, Register, State, parts, state};
use super::{next, refused};
use second::book::{Delivery, PER_DELIVERY};
use std::mem::replace;

pub fn step(words: &mut [u32], delivery: &mut [u32]) -> u64 {
    match checked(words, delivery) {
        Ok(mut torus) => torus.cycle(delivery.as_chunks_mut().0, |_, _| ()) as u64,
        Err(no) => no,
    }
}

pub fn step_reasons(words: &mut [u32], delivery: &mut [u32], reasons: &mut [u32]) -> u64 {
    match checked(words, delivery) {
        Ok(torus) if reasons.len() < torus.flows.len() => refused(19, 0),
        Ok(mut torus) => {
            let tell = |flow: usize, reason| reasons[flow] = reason;
            torus.cycle(delivery.as_chunks_mut().0, tell) as u64
        }
        Err(no) => no,
    }
}

/// The words of a state in the parts that a cycle changes, if it can step and deliver here.
pub fn checked<'a>(words: &'a mut [u32], delivery: &[u32]) -> Result<Torus<'a>, u64> {
    let State { sx, sy, clock, flows, .. } = state(words)?;
    if delivery.len() < PER_DELIVERY * sx * sy {
        return Err(refused(10, 0));
    }
    if clock == u32::MAX {
        return Err(refused(11, 0));
    }
    let count = flows.len();
    let (header, flows, registers) = parts(words, sx * sy, count);
    Ok(Torus { sx, sy, clock: &mut header[3], flows, registers })
}

pub struct Torus<'a> {
    pub sx: usize,
    pub sy: usize,
    pub clock: &'a mut u32,
    pub flows: &'a mut [FlowWords],
    pub registers: &'a mut [Register],
}

impl Torus<'_> {
    /// One cycle, which tells each flow's reason. Gives the count of exits.
    pub fn cycle(&mut self, delivery: &mut [Delivery], tell: impl FnMut(usize, u32)) -> usize {
        let entering = self.enter(tell);
        let exits = self.route(&entering, delivery);
        *self.clock += 1;
        exits
    }

    /// Which flow enters at each client (its number + 1), decided, told and spent; all buckets counted.
    fn enter(&mut self, mut tell: impl FnMut(usize, u32)) -> [u16; 256] {
        let (sx, flows, registers) = (self.sx, &mut *self.flows, &*self.registers);
        let mut entering = [0; 256];
        for f in 0..flows.len() {
            let [xs, ys, xd, _, period, burst, mut tokens, mut count, _, waiting] = flows[f];
            let client = ys as usize * sx + xs as usize;
            let reason = if waiting == 0 {
                1
            } else if tokens == 0 {
                2
            } else {
                let (w, n) = (registers[2 * client][0], registers[2 * client + 1][0]);
                let turns = |w: u32| flows[w as usize - 1][2] == xs;
                match xs != xd {
                    true if w != 0 => 3,
                    false if n != 0 || w != 0 && turns(w) => 4,
                    _ if entering[client] != 0 => 5,
                    _ => 0,
                }
            };
            tell(f, reason);
            if reason == 0 {
                entering[client] = f as u16 + 1;
                tokens -= 1;
                flows[f][8] += 1;
                flows[f][9] -= 1;
            }
            count += 1;
            if count == period {
                (tokens, count) = (burst.min(tokens + 1), 0);
            }
            flows[f][6] = tokens;
            flows[f][7] = count;
        }
        entering
    }

    /// Moves every packet and writes the exits. Gives their count. A register is written only once its
    /// old packet has been taken: the next W is held, and the N registers of the row to come.
    fn route(&mut self, entering: &[u16; 256], delivery: &mut [Delivery]) -> usize {
        let (sx, sy, clock) = (self.sx, self.sy, *self.clock);
        let (flows, registers) = (&*self.flows, &mut *self.registers);
        let mut exits = 0;
        let mut north = [EMPTY; 16];
        for (column, n) in north[..sx].iter_mut().enumerate() {
            *n = registers[2 * column + 1];
        }
        for row in 0..sy {
            let (this, below) = (row * sx, next(row, sy) * sx);
            let mut w = registers[2 * this];
            for (column, n) in north[..sx].iter_mut().enumerate() {
                let number = entering[this + column];
                let (to_east, to_south) = (2 * (this + next(column, sx)), 2 * (below + column) + 1);
                if w[0] | n[0] | number as u32 == 0 {
                    w = replace(&mut registers[to_east], EMPTY);
                    *n = replace(&mut registers[to_south], EMPTY);
                    continue;
                }
                let turns = w[0] != 0 && flows[w[0] as usize - 1][2] == column as u32;
                let deflected = [n[0], n[1], n[2], n[3] + (n[0] != 0) as u32];
                let (mut east, mut south) = if turns { (deflected, w) } else { (w, *n) };
                if number != 0 {
                    let flow = &flows[number as usize - 1];
                    let packet = [number as u32, flow[8], clock, 0];
                    *(if flow[0] == flow[2] { &mut south } else { &mut east }) = packet;
                }
                if south[0] != 0 && flows[south[0] as usize - 1][3] == row as u32 {
                    delivery[exits] = [south[0] - 1, south[1], south[2], clock, south[3]];
                    exits += 1;
                    south = EMPTY;
                }
                w = replace(&mut registers[to_east], east);
                *n = replace(&mut registers[to_south], south);
            }
        }
        exits
    }
}
