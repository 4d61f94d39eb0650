//! Many cycles in one call: checked once, and cycles in which nothing moves in one go.

use super::state::{FlowWords, is_empty};
use super::step::{Torus, checked};

pub fn steps(words: &mut [u32], delivery: &mut [u32], cycles: u32) -> u64 {
    let mut torus = match checked(words, delivery) {
        Ok(torus) => torus,
        Err(no) => return no,
    };
    let delivery = delivery.as_chunks_mut().0;
    let mut left = cycles.min(u32::MAX - *torus.clock);
    let mut exits = 0;
    while left > 0 && delivery.len() - exits >= torus.sx * torus.sy {
        let idle = torus.idle(left);
        if idle > 0 {
            torus.pass(idle);
            left -= idle;
        } else {
            exits += torus.cycle(&mut delivery[exits..], |_, _| ());
            left -= 1;
        }
    }
    exits as u64
}

impl Torus<'_> {
    /// For how many cycles, at most so many, nothing is in flight and no flow enters.
    fn idle(&self, most: u32) -> u32 {
        if self.registers.iter().all(is_empty) {
            self.flows.iter().map(rests).fold(most, u32::min)
        } else {
            0
        }
    }

    /// So many cycles in which nothing moves: all buckets counted.
    fn pass(&mut self, cycles: u32) {
        for flow in self.flows.iter_mut() {
            let [_, _, _, _, period, burst, tokens, count, ..] = *flow;
            let counted = count as u64 + cycles as u64;
            flow[6] = (tokens as u64 + counted / period as u64).min(burst as u64) as u32;
            flow[7] = (counted % period as u64) as u32;
        }
        *self.clock += cycles;
    }
}

/// The cycles up to the flow's next token, if it waits for one.
fn rests(&[_, _, _, _, period, _, tokens, count, _, waiting]: &FlowWords) -> u32 {
    match (waiting, tokens) {
        (0, _) => u32::MAX,
        (_, 0) => period - count,
        _ => 0,
    }
}
