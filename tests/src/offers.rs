//! Offers to the packet book: one packet, by 01, a set of them, by U4, and one of the trial generator, by U6.

use crate::book::{Book, Line};
use crate::calls::Answer;
use crate::plan::refuse;

/// The packets of a flow that may wait.
pub const MOST_WAITING: usize = 65_535;
/// With so many packets of a flow waiting, whoever offered them, the generator's are refused.
pub const MOST_TRIAL: usize = 255;

/// With so many packets of a flow waiting, one more is refused with this number.
#[derive(Clone, Copy)]
struct Full {
    at: usize,
    number: u64,
}

const SONAR: Full = Full { at: MOST_WAITING, number: 13 };
const GENERATOR: Full = Full { at: MOST_TRIAL, number: 18 };

impl Book {
    pub fn offer(&mut self, flow: u32) -> Answer {
        self.accept(&[flow], SONAR)
    }

    pub fn offer_trial(&mut self, flow: u32) -> Answer {
        self.accept(&[flow], GENERATOR)
    }

    pub fn offer_set(&mut self, flows: &[u32]) -> Answer {
        self.accept(flows, SONAR)
    }

    /// A packet for each entry: the first that would be refused gives its number and its position, the
    /// entries before it being counted as already added. Without one every entry is accepted.
    fn accept(&mut self, flows: &[u32], full: Full) -> Answer {
        let mut added = vec![0; self.plan.flows.len()];
        for (position, &flow) in flows.iter().enumerate() {
            let flow = flow as usize;
            let before = added.get(flow).copied().unwrap_or(0);
            if let Some(number) = self.refusal(flow, before, full) {
                return refuse(number, position);
            }
            added[flow] += 1;
        }
        for &flow in flows {
            self.add_waiting_line(flow as usize);
        }
        Ok(0)
    }

    /// What refuses a packet of this flow, if so many more of the flow than the book has are waiting.
    fn refusal(&self, flow: usize, more: usize, full: Full) -> Option<u64> {
        if flow >= self.plan.flows.len() {
            return Some(12);
        }
        (self.waiting[flow].len() + more >= full.at).then_some(full.number)
    }

    /// A new waiting line: its serial is one more than the flow's lines so far, q its waiting ones.
    pub fn add_waiting_line(&mut self, flow: usize) {
        let q = self.waiting[flow].len() as i64;
        let serial = self.entered[flow] + q + 1;
        self.waiting[flow].push_back(self.lines.len());
        let (offer, d) = (self.clock, 0);
        self.lines.push(Line { flow, serial, offer, q, d, entry: None, place: None, exit: None });
    }
}
