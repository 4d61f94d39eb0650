//! Comparison of another engine with the second simulator: every answer and every word or byte
//! lent to a call, with noise past what is used and around what is lent.

pub mod bounds;
mod bursts;
mod deliveries;
mod list;
pub mod listing;
pub mod lists;
pub mod many;
mod orders;
pub mod parts;
pub mod periods;
pub mod plans;
pub mod reasons;
pub mod recent;
mod run;
pub mod scenes;
pub mod sets;
pub mod states;
pub mod steps;
pub mod trial;
pub mod turning;
mod twin;

use crate::bursts::Kept;
pub use run::{Other, Others, Run};
use std::collections::BTreeMap;
use turning::Changes;
pub use twin::{Memory, Twin};

/// What has been compared so far.
pub struct Tally {
    /// The seed of the round that runs now.
    pub seed: u64,
    /// For each call, how often it was refused with each number, or accepted (0).
    pub answers: BTreeMap<(&'static str, u64), u64>,
    /// How often each reason of a flow, 0 to 5, was told.
    pub reasons: [u64; 6],
    /// How turning rows changed the bounds of random plans.
    pub turning: Changes,
    /// How often promises of bursts were kept in lists.
    pub bursts: Kept,
    pub words: u64,
}

impl Tally {
    pub fn new(seed: u64) -> Tally {
        Tally {
            seed,
            answers: BTreeMap::new(),
            reasons: [0; 6],
            turning: Changes::default(),
            bursts: Kept::default(),
            words: 0,
        }
    }

    pub fn calls(&self) -> u64 {
        self.answers.values().sum()
    }

    /// Counts a call that was to be refused with this number, or accepted (0).
    pub fn count(&mut self, call: &'static str, number: u64) {
        *self.answers.entry((call, number)).or_default() += 1;
    }

    /// Counts reasons that were to be told.
    pub fn tell(&mut self, reasons: &[u32]) {
        reasons.iter().for_each(|&reason| self.reasons[reason as usize] += 1);
    }

    /// The call must have been accepted, and refused with each of these numbers.
    pub fn must_have_come_up(&self, call: &'static str, numbers: impl IntoIterator<Item = u64>) {
        for number in [0].into_iter().chain(numbers) {
            assert!(self.answers.contains_key(&(call, number)), "{call}: {number} never came up");
        }
    }
}

/// Numbers that aren't those of a flow: the first ones, the last, and those with a flow's low bits.
fn no_flows(flow: usize, flows: usize) -> [u32; 7] {
    let (flow, flows) = (flow as u32, flows as u32);
    [flows, flows + 1, flow + 256, flow + (1 << 16), flow + (1 << 24), flow + (1 << 31), u32::MAX]
}
