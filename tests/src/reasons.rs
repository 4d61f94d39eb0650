//! A step that tells why each flow didn't enter, by U7: read off the book before the step and what its
//! lines did in it.

use crate::book::{Book, Delivery, Line, Router, Side};
use crate::plan::{Port, Refusal, refuse};

impl Book {
    /// A step that is lent so many words of delivery memory and so many for reasons: its exits, in
    /// order, and each flow's reason.
    pub fn step_reasons(
        &mut self,
        delivery_words: usize,
        reason_words: usize,
    ) -> Result<(Vec<Delivery>, Vec<u32>), Refusal> {
        let mut after = self.clone();
        let exits = after.step(delivery_words)?;
        let flows = self.plan.flows.len();
        if reason_words < flows {
            return refuse(19, 0);
        }
        let reasons = (0..flows).map(|flow| self.reason(&after, flow)).collect();
        *self = after;
        Ok((exits, reasons))
    }

    /// The first of the six that applies to a flow, in the step after which the book is this.
    fn reason(&self, after: &Book, flow: usize) -> u32 {
        let (client, port) = (self.client(flow), self.plan.port(flow));
        let entered = |flow: usize| after.entered[flow] > self.entered[flow];
        let west_held =
            self.held(client).any(|line| self.lines[line].place.unwrap().side == Side::W);
        let south_taken = self.held(client).any(|line| took_south(&after.lines[line]));
        let applies = [
            entered(flow),
            self.waiting[flow].is_empty(),
            self.buckets[flow].tokens == 0,
            port == Port::East && west_held,
            port == Port::South && south_taken,
            (0..flow).any(|lower| self.client(lower) == client && entered(lower)),
        ];
        let first = applies.iter().position(|&applies| applies);
        first.expect("one of the six reasons applies") as u32
    }

    /// The lines that stand in the registers of a router.
    fn held(&self, router: Router) -> impl Iterator<Item = usize> + '_ {
        let is_there = move |&line: &usize| self.lines[line].place.unwrap().router == router;
        self.placed.iter().copied().filter(is_there)
    }
}

/// A line that was placed before a step and now stands like this took S in it: E leads to a W register,
/// S to an N register or out.
fn took_south(line: &Line) -> bool {
    line.place.is_none_or(|place| place.side == Side::N)
}
