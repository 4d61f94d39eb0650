//! Many steps of the packet book in one call: its single steps, one after the other. Where they are too many
//! to run, idle ones are passed at once, by what a regulator's counter comes to without an entry.

use crate::book::{Book, Bucket, Delivery, LAST_CLOCK, PER_DELIVERY};
use crate::plan::Refusal;
use std::collections::VecDeque;

/// The delivery memory that is used at most: the answer counts its exits in 32 bits.
const MOST_WORDS: usize = PER_DELIVERY * u32::MAX as usize;
/// A call of at most so many cycles runs every one of them.
const MOST_SINGLE: u32 = 4096;

impl Book {
    /// So many steps, each delivering behind the last: all exits, in order. It is refused as a step is,
    /// judged at its start; it ends early before a step for which the memory left is too short, and at
    /// the last clock.
    pub fn steps(&mut self, delivery_words: usize, cycles: u32) -> Result<Vec<Delivery>, Refusal> {
        match cycles {
            0..=MOST_SINGLE => self.steps_passing(delivery_words, cycles, |_, _| 0),
            _ => self.steps_passing(delivery_words, cycles, Book::pass_idle),
        }
    }

    /// These steps, where `pass` may first pass cycles without one, at most as many as it is told; it
    /// gives how many.
    pub fn steps_passing(
        &mut self,
        delivery_words: usize,
        cycles: u32,
        pass: impl Fn(&mut Book, i64) -> i64,
    ) -> Result<Vec<Delivery>, Refusal> {
        self.may_step(delivery_words)?;
        let room = delivery_words.min(MOST_WORDS);
        let (mut exits, mut left) = (Vec::new(), cycles as i64);
        while left > 0 && self.may_step(room - PER_DELIVERY * exits.len()).is_ok() {
            let passed = pass(self, left.min(LAST_CLOCK - self.clock));
            if passed == 0 {
                exits.extend(self.step(room - PER_DELIVERY * exits.len())?);
            }
            left -= passed.max(1);
        }
        Ok(exits)
    }

    /// Passes idle cycles: `most` of them, or else the first half, quarter and so on that is idle. Gives
    /// how many.
    pub fn pass_idle(&mut self, most: i64) -> i64 {
        let mut cycles = most;
        while cycles > 0 && !self.is_idle(cycles) {
            cycles /= 2;
        }
        self.pass(cycles);
        cycles
    }

    /// In none of so many cycles does anything move: nothing is in flight, and in the last of them no flow
    /// that waits has a token. Without an entry tokens never fall, so it had none before either.
    fn is_idle(&self, cycles: i64) -> bool {
        let rests =
            |(bucket, lines): (Bucket, &VecDeque<usize>)| lines.is_empty() || bucket.tokens == 0;
        self.placed.is_empty() && self.buckets_after(cycles - 1).zip(&self.waiting).all(rests)
    }

    /// Passes so many cycles without a move.
    pub fn pass(&mut self, cycles: i64) {
        self.buckets = self.buckets_after(cycles).collect();
        self.clock += cycles;
    }

    /// All buckets after so many cycles without an entry: the counter never rests and returns to 0 at P,
    /// each time with a token, and those past σ are lost.
    fn buckets_after(&self, cycles: i64) -> impl Iterator<Item = Bucket> + '_ {
        self.buckets.iter().zip(&self.plan.flows).map(move |(bucket, flow)| {
            let counted = bucket.count + cycles;
            let tokens = flow.burst.min(bucket.tokens + counted / flow.period);
            Bucket { tokens, count: counted % flow.period }
        })
    }
}
